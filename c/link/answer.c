/* The text of an answer. The library writes it. What it does not know, such as the state of the
 * link and of the position, replaces what comes after the `id`. */
#include "parts.h"
#include <inttypes.h>
#include <stdarg.h>
#include <stdio.h>

/* The answer begins with `{`, or with `{"id":`, the value and a comma. */
void answer_begin(struct held *h, const struct geostation_line_result *got, uint64_t moment) {
    h->at = moment;
    h->length = got->answer_length;
    h->start = got->id_length == 0 ? 1 : sizeof "{\"id\":" - 1 + got->id_length + 1;
}

/* Writes the rest of the answer. */
__attribute__((format(printf, 2, 3))) static void put(struct held *h, const char *format, ...) {
    va_list rest;
    va_start(rest, format);
    int n = vsnprintf((char *)h->answer + h->start, GEOSTATION_ANSWER_MAX - h->start, format, rest);
    va_end(rest);
    h->length = h->start + (size_t)n;
}

void answer_put_result(struct held *h, const char *result) {
    put(h, "\"at\":%" PRIu64 ",\"result\":%s}", h->at, result);
}

void answer_refuse(struct held *h, const struct refusal *why) {
    put(h, "\"at\":%" PRIu64 ",\"result\":\"refused\",\"code\":\"%s\",\"reason\":\"%s\"}", h->at,
        why->code, why->reason);
}

void answer_refuse_memory(struct held *h) {
    h->answer[0] = '{';
    h->start = 1;
    answer_put_result(h, "\"refused\",\"code\":\"S5\"");
}

void answer_put_error(struct held *h, uint64_t number, const char *key, const char *reason) {
    put(h, "\"line\":%" PRIu64 ",\"error\":\"%s\",\"reason\":\"%s\"}", number, key, reason);
}

void answer_put_counts(struct held *h, const struct station *s) {
    put(h, "\"at\":%" PRIu64 ",\"result\":\"", h->at);
    h->length += counts_print(s, (char *)h->answer + h->length,
                              GEOSTATION_ANSWER_MAX - h->length);
}

/* Puts the frame that was sent into an answer, in place of the unsecured one. */
static void put_frame(struct held *h, const uint8_t *frame, size_t length) {
    put(h, "\"at\":%" PRIu64 ",\"result\":\"sent\",\"frame\":\"", h->at);
    h->length += hex_write((char *)h->answer + h->length, frame, length);
    h->answer[h->length++] = '"';
    h->answer[h->length++] = '}';
}

void answer_complete(struct held *h, const uint8_t *frame, size_t length,
                     const struct refusal *why) {
    if (why != NULL) {
        answer_refuse(h, why);
    } else {
        put_frame(h, frame, length);
    }
    h->waits = false;
    h->used = h->client != NULL;
}
