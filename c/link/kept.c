/* Answers of the last second. Several stations forward one packet, so the same message arrives
 * several times: it costs one verification. A frame's hops and addresses may differ. */
#include "parts.h"
#include <string.h>

/* FNV-1a: it only spares comparisons. */
uint32_t kept_hash(const uint8_t *message, size_t n) {
    uint32_t hash = 2166136261u;
    for (size_t k = 0; k < n; k++) {
        hash = (hash ^ message[k]) * 16777619u;
    }
    return hash;
}

/* The oldest answer makes way. */
void kept_put(struct kept *all, size_t *next, uint32_t hash, const uint8_t *message, size_t n,
              const struct answer *a, uint64_t now) {
    struct kept *k = &all[*next];
    *next = (*next + 1) % KEPT;
    k->until = now + KEPT_FOR;
    k->hash = hash;
    k->length = n;
    memcpy(k->message, message, n);
    k->answer = *a;
}

const struct answer *kept_find(const struct kept *all, uint32_t hash, const uint8_t *message,
                               size_t n, uint64_t now) {
    for (const struct kept *k = all; k < all + KEPT; k++) {
        if (now < k->until && k->hash == hash && k->length == n
            && memcmp(k->message, message, n) == 0) {
            return &k->answer;
        }
    }
    return NULL;
}
