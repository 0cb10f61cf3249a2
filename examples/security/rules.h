/* What is signed and what is accepted. */
#ifndef RULES_H
#define RULES_H

#include <stdbool.h>
#include <stddef.h>
#include <stdint.h>

enum { MESSAGE_MAX = 2292, TIME = 8, FRONT = 40 /* of a message: a time and a tag */ };

/* Reads the keys, and takes the station with this address for the own one. */
bool rules_read_keys(const char *path, uint64_t address);

/* Both return NULL, or why they refuse. A plain part of n octets is signed into a message of
 * FRONT + n; the plain part of a good message begins at FRONT. */
const char *rules_sign(const uint8_t *plain, size_t n, uint8_t message[MESSAGE_MAX]);
const char *rules_verify(const uint8_t *message, size_t n);

uint64_t rules_number_at(const uint8_t *at, size_t n); /* big-endian */
int rules_psid_of(const uint8_t *plain, size_t n);     /* by its port; -1: it has none */

#endif
