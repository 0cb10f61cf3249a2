/* Random numbers: xorshift64*, seeded with a random number of the system. */
#define _GNU_SOURCE
#include "parts.h"
#include <sys/random.h>
#include <time.h>

static uint64_t state;

static uint64_t next(void) {
    while (state == 0) {
        if (getrandom(&state, sizeof state, GRND_NONBLOCK) != sizeof state) {
            struct timespec t; /* early in the boot the system has no random numbers yet */
            clock_gettime(CLOCK_BOOTTIME, &t);
            state = (uint64_t)t.tv_nsec * UINT64_C(0x9e3779b97f4a7c15) + (uint64_t)t.tv_sec;
        }
    }
    state ^= state >> 12;
    state ^= state << 25;
    state ^= state >> 27;
    return state * UINT64_C(0x2545f4914f6cdd1d);
}

uint16_t draw(void) { return (uint16_t)(next() >> 48); }

uint32_t draw_below(uint32_t bound) { return (uint32_t)((next() >> 32) * bound >> 32); }
