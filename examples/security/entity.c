/* A security entity in C, for a bench: it signs and verifies for geostation-link --security SOCKET.
 *
 *     entity KEYS ADDRESS SOCKET
 *
 * KEYS has a line for each station that is trusted: its GN address, a blank, and its key in 64
 * hexadecimal digits. ADDRESS is that of the own station. rules.c says what is signed and what is
 * accepted; hsm.c is the place for the calls of your security module. */
#define _GNU_SOURCE
#include "rules.h"
#include <inttypes.h>
#include <stdio.h>
#include <stdlib.h>
#include <string.h>
#include <sys/socket.h>
#include <sys/stat.h>
#include <sys/un.h>
#include <unistd.h>

enum { DATAGRAM_MAX = 6930 /* octets of the longest request, and more than an answer has */ };

/* ---- datagrams: JSON objects, of which no text has an escape. Other keys are skipped. */

static const char *value_of(const char *request, const char *key) {
    char quoted[24];
    int n = snprintf(quoted, sizeof quoted, "\"%s\":", key);
    const char *at = strstr(request, quoted);
    return at == NULL ? "" : at + n + strspn(at + n, " ");
}

static int digit_of(char c) {
    static const char digits[] = "0123456789abcdef";
    const char *at = memchr(digits, c, 16);
    return at == NULL ? -1 : (int)(at - digits);
}

/* The octets of a text in hexadecimal digits. Returns how many there are. */
static size_t read_octets(const char *text, uint8_t *out, size_t room) {
    size_t n = 0;
    for (text += *text == '"'; n < room && digit_of(text[0]) >= 0 && digit_of(text[1]) >= 0; n++) {
        out[n] = (uint8_t)(digit_of(text[0]) << 4 | digit_of(text[1]));
        text += 2;
    }
    return n;
}

static int write_octets(char *out, const char *key, const uint8_t *octets, size_t n) {
    int length = sprintf(out, ",\"%s\":\"", key);
    for (size_t k = 0; k < n; k++) {
        length += sprintf(out + length, "%02x", octets[k]);
    }
    return length + sprintf(out + length, "\"");
}

static int answer_sign(const char *request, char *out) {
    static uint8_t plain[MESSAGE_MAX], message[MESSAGE_MAX];
    size_t n = read_octets(value_of(request, "plain"), plain, sizeof plain);
    const char *why = rules_sign(plain, n, message);
    return why != NULL ? sprintf(out, ",\"error\":\"%s\"", why)
                       : write_octets(out, "message", message, FRONT + n);
}

static int answer_verify(const char *request, char *out) {
    static uint8_t message[MESSAGE_MAX];
    size_t n = read_octets(value_of(request, "message"), message, sizeof message);
    const char *why = rules_verify(message, n);
    if (why != NULL) {
        return sprintf(out, ",\"error\":\"%s\"", why);
    }
    int length = write_octets(out, "plain", message + FRONT, n - FRONT);
    return length + sprintf(out + length, ",\"psid\":%d,\"generated\":%" PRIu64,
                            rules_psid_of(message + FRONT, n - FRONT),
                            rules_number_at(message, TIME));
}

/* One answer for each request. `geostation-link` may ask while an earlier answer is on its way. */
static int answer(const char *request, char *out) {
    const char *what = value_of(request, "do");
    int length = sprintf(out, "{\"id\":%" PRIu64,
                         (uint64_t)strtoull(value_of(request, "id"), NULL, 10));
    if (strncmp(what, "\"sign\"", 6) == 0) {
        length += answer_sign(request, out + length);
    } else if (strncmp(what, "\"verify\"", 8) == 0) {
        length += answer_verify(request, out + length);
    } else {
        length += sprintf(out + length, ",\"error\":\"not a request\"");
    }
    return length + sprintf(out + length, "}");
}

/* ---- the socket */

static void serve(int one) {
    static char request[DATAGRAM_MAX + 1], text[DATAGRAM_MAX];
    ssize_t n;
    while ((n = recv(one, request, DATAGRAM_MAX, 0)) > 0) {
        request[n] = 0;
        int length = answer(request, text);
        if (send(one, text, (size_t)length, MSG_NOSIGNAL) != length) {
            break; /* it is gone: what else it asked needs no answer */
        }
    }
    close(one);
}

/* A socket for the same user and root. One of an earlier run is replaced. */
static int listen_at(const char *path) {
    struct sockaddr_un at = { .sun_family = AF_UNIX };
    int fd = socket(AF_UNIX, SOCK_SEQPACKET | SOCK_CLOEXEC, 0);
    if (strlen(path) >= sizeof at.sun_path) {
        return -1;
    }
    strcpy(at.sun_path, path);
    unlink(path);
    umask(0177);
    return bind(fd, (struct sockaddr *)&at, sizeof at) == 0 && listen(fd, 4) == 0 ? fd : -1;
}

int main(int argc, char **argv) {
    if (argc != 4 || !rules_read_keys(argv[1], strtoull(argv[2], NULL, 16))) {
        fprintf(stderr, "usage: entity KEYS ADDRESS SOCKET, where KEYS has a key for ADDRESS\n");
        return 2;
    }
    int listening = listen_at(argv[3]);
    if (listening < 0) {
        perror(argv[3]);
        return 1;
    }
    for (int one; (one = accept(listening, NULL, NULL)) >= 0;) {
        serve(one);
    }
    return 1;
}
