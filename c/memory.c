/* Prints what a station allocates, one line per size of its tables: `capacity remember`, the bytes, and
 * the size of each block. The first line is for the defaults. Ends with 1 if a station allocates more
 * when as many neighbours appear as its table holds, if a block is left when it is freed, or if one
 * that contends allocates over 8704 bytes more.
 *
 * Built with -Wl,--wrap=malloc,--wrap=calloc,--wrap=realloc,--wrap=free. */
#include "geostation.h"
#include <stdio.h>
#include <stdlib.h>

enum { MOST = 64, ADDRESS_AT = 26, MID_OCTETS = 6, SOURCE_AT = 6 };

static struct {
    void *at;
    size_t size;
} blocks[MOST];
static size_t count;

void *__real_malloc(size_t size);
void *__real_calloc(size_t number, size_t size);
void *__real_realloc(void *block, size_t size);
void __real_free(void *block);
void *__wrap_malloc(size_t size);
void *__wrap_calloc(size_t number, size_t size);
void *__wrap_realloc(void *block, size_t size);
void __wrap_free(void *block);

static void fail(const char *why) {
    fprintf(stderr, "memory.c: %s\n", why);
    exit(1);
}

static void *noted(void *block, size_t size) {
    if (block == NULL || count == MOST) {
        fail("out of memory, or too many blocks");
    }
    blocks[count].at = block;
    blocks[count++].size = size;
    return block;
}

static void forget(void *block) {
    for (size_t k = 0; k < count; k++) {
        if (blocks[k].at == block) {
            blocks[k] = blocks[--count];
            return;
        }
    }
    if (block != NULL) {
        fail("a block is freed that was not allocated");
    }
}

void *__wrap_malloc(size_t size) {
    return noted(__real_malloc(size), size);
}

void *__wrap_calloc(size_t number, size_t size) {
    return noted(__real_calloc(number, size), number * size);
}

void *__wrap_realloc(void *block, size_t size) {
    forget(block);
    return noted(__real_realloc(block, size), size);
}

void __wrap_free(void *block) {
    forget(block);
    __real_free(block);
}

static size_t total(void) {
    size_t sum = 0;
    for (size_t k = 0; k < count; k++) {
        sum += blocks[k].size;
    }
    return sum;
}

static geostation_handle *make(const struct geostation_config *config) {
    geostation_handle *made = NULL;
    if (geostation_new_from_config(&made, config) != GEOSTATION_OK) {
        fail("geostation_new_from_config");
    }
    return made;
}

/* The station receives beacons of as many sources as its table holds, all from one frame in which the
 * low octets of both addresses change. */
static void hear_neighbours(geostation_handle *station, uint16_t capacity) {
    struct geostation_config config;
    geostation_config_init(&config);
    config.address = UINT64_C(0x1400020000000002);
    geostation_handle *other = make(&config);
    uint8_t frame[GEOSTATION_FRAME_MAX], relay[GEOSTATION_FRAME_MAX];
    size_t length = 0;
    if (geostation_tick(other, 3000, 0, frame, sizeof frame, &length) != GEOSTATION_OK) {
        fail("geostation_tick");
    }
    geostation_free(other);
    for (uint32_t k = 0; k < capacity; k++) {
        const uint8_t low[] = { (uint8_t)((k + 2) >> 8), (uint8_t)(k + 2) };
        for (size_t at = 0; at < sizeof low; at++) {
            frame[SOURCE_AT + MID_OCTETS - sizeof low + at] = low[at];
            frame[ADDRESS_AT + 8 - sizeof low + at] = low[at];
        }
        struct geostation_reception reception;
        const int status = geostation_receive(station, 3000, frame, length, &reception, relay,
                                              sizeof relay);
        if (status != GEOSTATION_OK || reception.ignored != 0) {
            fail("a beacon is not accepted");
        }
    }
}

static void print(const struct geostation_config *config) {
    geostation_handle *station = make(config);
    const size_t before = total();
    printf("%u %u %zu", config->capacity, config->remember, before);
    for (size_t k = 0; k < count; k++) {
        printf(" %zu", blocks[k].size);
    }
    printf("\n");
    hear_neighbours(station, config->capacity);
    if (total() != before) {
        fail("a station allocates more when neighbours appear");
    }
    geostation_free(station);
    if (count != 0) {
        fail("a block is left after geostation_free");
    }
}

static size_t size_of(const struct geostation_config *config) {
    geostation_handle *station = make(config);
    const size_t size = total();
    geostation_free(station);
    return size;
}

static void check_contention(struct geostation_config config) {
    const size_t simple = size_of(&config);
    config.area_forwarding = GEOSTATION_CONTENTION;
    if (size_of(&config) > simple + 8704) {
        fail("a station that contends allocates over 8704 bytes more");
    }
}

int main(void) {
    static const uint16_t capacities[] = { 1, 2, 63, 1000, 4096 }, lists[] = { 1, 7, 8, 64 };
    struct geostation_config config;
    geostation_config_init(&config);
    config.address = UINT64_C(0x1400020000000001);
    print(&config);
    check_contention(config);
    for (size_t k = 0; k < sizeof capacities / sizeof *capacities; k++) {
        for (size_t n = 0; n < sizeof lists / sizeof *lists; n++) {
            config.capacity = capacities[k];
            config.remember = lists[n];
            print(&config);
        }
    }
    return 0;
}
