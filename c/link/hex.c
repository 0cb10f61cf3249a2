/* Octets as hexadecimal digits. */
#include "parts.h"

size_t hex_write(char *out, const uint8_t *octets, size_t n) {
    static const char digits[] = "0123456789abcdef";
    for (size_t k = 0; k < n; k++) {
        out[2 * k] = digits[octets[k] >> 4];
        out[2 * k + 1] = digits[octets[k] & 15];
    }
    return 2 * n;
}

static int digit_of(char c) {
    if (c >= '0' && c <= '9') {
        return c - '0';
    }
    c = (char)(c | 0x20);
    return c >= 'a' && c <= 'f' ? c - 'a' + 10 : -1;
}

bool hex_read(const char *text, size_t length, uint8_t *out, size_t room, size_t *n) {
    *n = length / 2;
    if (length % 2 != 0 || *n > room) {
        return false;
    }
    for (size_t k = 0; k < *n; k++) {
        int high = digit_of(text[2 * k]), low = digit_of(text[2 * k + 1]);
        if (high < 0 || low < 0) {
            return false;
        }
        out[k] = (uint8_t)(high << 4 | low);
    }
    return true;
}
