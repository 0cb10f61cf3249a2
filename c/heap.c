/* The heap of the station: three functions that the library calls, over malloc, realloc and free.
 *
 * A device with its own heap replaces this file. A block is aligned to at least 16 bytes. If there
 * is no memory, `ok` is false and `p` points to any byte that is not used. */
#include <stdbool.h>
#include <stddef.h>
#include <stdlib.h>

struct tried {
    bool ok;
    void *p;
};

struct tried rattle_alloc(size_t octets, size_t align);
struct tried rattle_realloc(void *p, size_t kept, size_t octets, size_t align);
void rattle_dealloc(void *p);

static char none;

static struct tried tried(void *p) {
    return (struct tried){ .ok = p != NULL, .p = p != NULL ? p : &none };
}

/* Allocates a block. A size of 0 gives a block too. */
struct tried rattle_alloc(size_t octets, size_t align) {
    return tried(malloc(octets != 0 ? octets : align));
}

/* Resizes a block and keeps its first `kept` bytes. If it fails, the block stays as it was. */
struct tried rattle_realloc(void *p, size_t kept, size_t octets, size_t align) {
    (void)kept;
    return tried(realloc(p, octets != 0 ? octets : align));
}

/* Frees a block. */
void rattle_dealloc(void *p) {
    free(p);
}
