/* Prints how much stack the calls need, in bytes, one line per kind of call. Each call runs in a
 * thread whose stack was filled with one value before. The last line is for a JSON request with the
 * deepest nesting that is read. */
#define _GNU_SOURCE
#include "geostation.h"
#include <pthread.h>
#include <stdio.h>
#include <stdlib.h>
#include <string.h>

enum { SIZE = 8 << 20, FILLED = 0xa5, DEPTH = 126 };

static geostation_handle *station;
static uint8_t line[4096], answer[GEOSTATION_ANSWER_MAX];
static uint8_t frame[GEOSTATION_FRAME_MAX], payload[GEOSTATION_PAYLOAD_MAX];
static size_t line_length;

static void *do_nothing(void *unused) {
    return unused;
}

/* Ends the program if a call did something else than what is measured. */
static void expect(int wanted, int status) {
    if (status != wanted) {
        fprintf(stderr, "stack: %s\n", geostation_status_text(status));
        exit(1);
    }
}

static void *make(void *unused) {
    geostation_handle *made = NULL;
    expect(GEOSTATION_OK, geostation_new(&made, 0x1400020000000002, 449, 0, 4096, 64));
    geostation_free(made);
    return unused;
}

static void *send_gbc(void *unused) {
    const struct geostation_area_request area = {
        .port = 2002, .lifetime = 26, .max_hops = 5, .a = 200
    };
    size_t length = 0;
    expect(GEOSTATION_OK, geostation_send_gbc(station, 1, &area, payload, sizeof payload, frame,
                                              sizeof frame, &length));
    return unused;
}

static void *receive(void *unused) {
    struct geostation_reception reception;
    expect(GEOSTATION_BAD_FRAME,
           geostation_receive(station, 1, payload, 100, &reception, frame, sizeof frame));
    return unused;
}

static void *handle_json(void *unused) {
    size_t said = 0, sent = 0;
    expect(GEOSTATION_OK, geostation_handle_json(station, 1, 1, line, line_length, answer,
                                                 sizeof answer, &said, frame, sizeof frame, &sent));
    return unused;
}

/* Bytes of stack that a thread with this function uses. */
static size_t used_by(void *(*function)(void *)) {
    uint8_t *stack = aligned_alloc(65536, SIZE);
    pthread_attr_t attributes;
    pthread_t thread;
    if (stack == NULL) {
        exit(1);
    }
    memset(stack, FILLED, SIZE);
    pthread_attr_init(&attributes);
    pthread_attr_setstack(&attributes, stack, SIZE);
    if (pthread_create(&thread, &attributes, function, NULL) != 0) {
        exit(1);
    }
    pthread_join(thread, NULL);
    size_t untouched = 0;
    while (untouched < SIZE && stack[untouched] == FILLED) {
        untouched++;
    }
    free(stack);
    return SIZE - untouched;
}

static void print_use(const char *name, void *(*function)(void *)) {
    const size_t all = used_by(function), thread = used_by(do_nothing);
    printf("%s %zu\n", name, all > thread ? all - thread : 0);
}

static void write_line(int depth) {
    char *at = (char *)line + sprintf((char *)line, "{\"do\":\"counts\",\"x\":");
    memset(at, '[', (size_t)depth);
    memset(at + depth, ']', (size_t)depth);
    at[2 * depth] = '}';
    line_length = (size_t)(at + 2 * depth + 1 - (char *)line);
}

int main(void) {
    if (geostation_new(&station, 0x1400020000000001, 449, 0, 64, 8) != GEOSTATION_OK) {
        return 1;
    }
    print_use("new", make);
    print_use("send_gbc", send_gbc);
    print_use("receive", receive);
    write_line(1);
    print_use("json", handle_json);
    write_line(DEPTH);
    print_use("json-nested", handle_json);
    geostation_free(station);
    return 0;
}
