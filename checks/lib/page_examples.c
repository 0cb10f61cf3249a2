/* The functions of docs/C.md, whose blocks are in `page.c`: page_examples SECONDS. SECONDS is the
 * time in TAI since 2004-01-01, by another computation. */
#define main page_main
#include "page.c"
#undef main
#include <stdbool.h>
#include <stdlib.h>
#include <string.h>

#define CHECK(e) do { if (!(e)) { \
    fprintf(stderr, "%s:%d: %s\n", __FILE__, __LINE__, #e); exit(1); } } while (0)

static bool refuses;

/* An entity whose messages are the plain parts. */
static size_t copy(const uint8_t *in, size_t length, uint8_t *out, size_t room) {
    if (refuses || length > room) {
        return 0;
    }
    memcpy(out, in, length);
    return length;
}

static void test_clock(const char *seconds) {
    const uint64_t wanted = 1000 * strtoull(seconds, NULL, 10), found = now_ms();
    CHECK(found >= wanted && found < wanted + 4000);
    CHECK(now_ms() >= found);
}

static size_t write_secured(uint8_t sealed[GEOSTATION_SECURED_FRAME_MAX]) {
    const struct geostation_area_request area = {
        .port = 2002, .lifetime = 0x1a, .max_hops = 5, .latitude = 449, .a = 200,
    };
    uint8_t frame[GEOSTATION_FRAME_MAX];
    size_t length, sealed_length = 99;
    geostation_handle *car;
    CHECK(geostation_new(&car, 0x1400020000000001, 449, 0, 64, 8) == GEOSTATION_OK);
    CHECK(geostation_send_gbc(car, 10, &area, (const uint8_t *)"hi", 2, frame, sizeof frame,
                              &length) == GEOSTATION_OK);
    geostation_free(car);
    refuses = true;
    CHECK(seal(copy, frame, length, sealed, &sealed_length) != GEOSTATION_OK);
    CHECK(sealed_length == 0);
    refuses = false;
    sealed_length = 99;
    CHECK(seal(copy, frame, 3, sealed, &sealed_length) == GEOSTATION_BAD_FRAME);
    CHECK(sealed_length == 0);
    CHECK(seal(copy, frame, length, sealed, &sealed_length) == GEOSTATION_OK);
    return sealed_length;
}

/* After a frame that is forwarded, one that the entity does not accept: nothing of the first frame
 * is in the reception. */
static void test_receive(void) {
    static const struct geostation_reception nothing;
    uint8_t sealed[GEOSTATION_SECURED_FRAME_MAX], relay[GEOSTATION_SECURED_FRAME_MAX];
    uint8_t plain[GEOSTATION_FRAME_MAX];
    struct geostation_reception r;
    geostation_handle *s;
    const size_t length = write_secured(sealed);
    CHECK(geostation_new(&s, 0x1400020000000002, 449, 900, 64, 8) == GEOSTATION_OK);
    CHECK(geostation_open_port(s, 0, 2002) == GEOSTATION_OK);
    CHECK(receive(copy, s, 11, sealed, length, plain, &r, relay) == GEOSTATION_OK);
    CHECK(r.delivered == 1 && r.payload_length == 2 && r.relay_length == length);
    CHECK(memcmp(plain + r.payload_start, "hi", 2) == 0);
    refuses = true;
    CHECK(receive(copy, s, 12, sealed, length, plain, &r, relay) != GEOSTATION_OK);
    CHECK(memcmp(&r, &nothing, sizeof r) == 0);
    r.relay_length = 99;
    CHECK(receive(copy, s, 13, sealed, 3, plain, &r, relay) == GEOSTATION_BAD_FRAME);
    CHECK(memcmp(&r, &nothing, sizeof r) == 0);
    geostation_free(s);
}

int main(int argc, char **argv) {
    CHECK(argc == 2);
    test_clock(argv[1]);
    test_receive();
    CHECK(page_main() == 0);
    return 0;
}
