/* The place for the calls of your security module: whatever holds the keys signs and verifies. */
#ifndef HSM_H
#define HSM_H

#include <stddef.h>
#include <stdint.h>

enum { HSM_KEY = 32, HSM_TAG = 32 };

/* The tag of some octets by a key: HMAC-SHA-256 (RFC 2104). */
void hsm_tag(const uint8_t key[HSM_KEY], const uint8_t *octets, size_t n, uint8_t tag[HSM_TAG]);

#endif
