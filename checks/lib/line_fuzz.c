/* Serves lines of JSON, right and damaged, and prints a checksum after each line of the input:
 *
 *     line_fuzz FILE [DAMAGED]
 *
 * Two stations get each line as it is, then DAMAGED copies (default 20) in which bytes are changed,
 * removed, repeated or cut off. Each frame that one of them sends is received by the other. The
 * second one contends, and releases what is due after each line. The checksum is over the statuses,
 * answers and frames. It judges no result: compare the output of two
 * machines. The last line counts the answers and the frames. */
#include "geostation.h"
#include <inttypes.h>
#include <stdio.h>
#include <stdlib.h>
#include <string.h>

enum { LINE = 70000 };

static uint64_t drawing = 1, now = 1, number, answers, frames, refused;
static uint64_t checksum = UINT64_C(0xcbf29ce484222325);
static geostation_handle *stations[2];
static uint8_t line[LINE], damaged[LINE + 16], answer[GEOSTATION_ANSWER_MAX];
static uint8_t frame[GEOSTATION_SECURED_FRAME_MAX], relay[GEOSTATION_SECURED_FRAME_MAX];

static uint32_t drawn(size_t below) {
    drawing ^= drawing << 13;
    drawing ^= drawing >> 7;
    drawing ^= drawing << 17;
    return (uint32_t)((drawing * UINT64_C(2685821657736338717) >> 32) * below >> 32);
}

static void add(const void *bytes, size_t count) {
    const uint8_t *byte = bytes;
    for (size_t i = 0; i < count; i++) {
        checksum = (checksum ^ byte[i]) * UINT64_C(0x100000001b3);
    }
}

static void add_number(uint64_t value) {
    for (int i = 0; i < 8; i++) {
        const uint8_t byte = (uint8_t)(value >> 8 * i);
        add(&byte, 1);
    }
}

/* Serves a line at one station. The other one receives the frame. */
static void serve(int at, const uint8_t *text, size_t length) {
    size_t said = 0, sent = 0;
    now += 1 + drawn(400);
    const int status = geostation_serve(stations[at], now, ++number, text, length, answer,
                                        sizeof answer, &said, frame, sizeof frame, &sent);
    add_number((uint64_t)(int64_t)status);
    if (status != 0) {
        refused++;
        return;
    }
    add_number(said);
    add(answer, said);
    add_number(sent);
    add(frame, sent);
    answers += said != 0;
    frames += sent != 0;
    if (sent != 0) {
        struct geostation_reception reception;
        memset(&reception, 0, sizeof reception);
        const int received = geostation_receive(stations[1 - at], now, frame, sent, &reception,
                                                relay, sizeof relay);
        add_number((uint64_t)(int64_t)received);
        add_number(reception.delivered);
        add_number(reception.ignored);
        add_number(reception.relay_length);
        add_number(reception.due);
        add_number(reception.cancelled);
        add(relay, reception.relay_length);
    }
}

static void release(geostation_handle *s) {
    size_t length = 0;
    do {
        add_number((uint64_t)geostation_release(s, now, relay, sizeof relay, &length));
        add(relay, length);
        add_number(geostation_next_due(s));
    } while (length != 0);
}

static geostation_handle *new_station(int i) {
    struct geostation_config c;
    geostation_handle *s;
    geostation_config_init(&c);
    c.address = UINT64_C(0x1400020000000001) + (uint64_t)i;
    c.latitude = 449 * i;
    c.area_forwarding = i == 1 ? GEOSTATION_CONTENTION : GEOSTATION_SIMPLE;
    c.contention_max = 1000;
    return geostation_new_from_config(&s, &c) == 0 ? s : NULL;
}

/* Damages a copy of the line in one to three positions, and returns its new length. */
static size_t damage(size_t length) {
    static const char marks[] = "{}[]\":,\\0-9.eEu \t\xff\xc3";
    memcpy(damaged, line, length);
    for (uint32_t left = 1 + drawn(3); left > 0 && length > 0; left--) {
        const size_t at = drawn(length);
        switch (drawn(6)) {
        case 0: damaged[at] = (uint8_t)drawn(256); break;
        case 1: damaged[at] = (uint8_t)marks[drawn(sizeof marks - 1)]; break;
        case 2: damaged[at] ^= (uint8_t)(1u << drawn(8)); break;
        case 3: memmove(damaged + at, damaged + at + 1, length - at - 1); length--; break;
        case 4: memmove(damaged + at + 1, damaged + at, length - at); length++; break;
        default: length = at; break;
        }
    }
    return length;
}

int main(int count, char **words) {
    FILE *file = count > 1 ? fopen(words[1], "r") : NULL;
    const long copies = count > 2 ? strtol(words[2], NULL, 10) : 20;
    if (file == NULL) {
        fputs("usage: line_fuzz FILE [DAMAGED]\n", stderr);
        return 2;
    }
    for (int i = 0; i < 2; i++) {
        stations[i] = new_station(i);
        if (stations[i] == NULL) {
            return 1;
        }
    }
    while (fgets((char *)line, LINE, file) != NULL) {
        const size_t length = strcspn((char *)line, "\n");
        for (int i = 0; i < 2; i++) {
            serve(i, line, length);
            for (long copy = 0; copy < copies; copy++) {
                serve(i, damaged, damage(length));
            }
            release(stations[i]);
        }
        printf("%016" PRIx64 "\n", checksum);
    }
    printf("%" PRIu64 " lines, %" PRIu64 " answers, %" PRIu64 " frames, %" PRIu64 " failed calls\n",
           number, answers, frames, refused);
    for (int i = 0; i < 2; i++) {
        geostation_free(stations[i]);
    }
    return ferror(file) != 0;
}
