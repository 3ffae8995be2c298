/* What each loader does here, so that one program (main.c) measures them all. */
#ifndef LOADER_H
#define LOADER_H

#include <stddef.h>

#ifdef __cplusplus
extern "C" {
#endif

/* What loader_counts counts. BYTES are those of all buffers, each
 * filled up to a multiple of four. */
enum { ACCESSORS, MESHES, NODES, MATERIALS, TEXTURES, ANIMATIONS, BUFFERS, BYTES, COUNTS };

/* Parses a file, loads its buffers and validates it, by the loader's own calls. NULL where the file
 * is refused; then `why` has the reason. */
void *loader_open(const unsigned char *bytes, size_t size, char *why, size_t why_size);

/* What the file holds: the loaders have to agree on it. */
void loader_counts(void *file, size_t counts[COUNTS]);

/* Reads all items of all accessors of floats. The sum of their bit patterns, modulo 2^32; or -1
 * where the loader has no call that reads items. */
long long loader_items(void *file);

/* Frees all that loader_open took. */
void loader_close(void *file);

#ifdef __cplusplus
}
#endif

/* The sum of bit patterns, so that no reading is left out. */
static inline unsigned sum_of(const void *items, size_t size)
{
    unsigned sum = 0, one;
    size_t at;
    for (at = 0; at + 4 <= size; at += 4) {
        __builtin_memcpy(&one, (const char *)items + at, 4);
        sum += one;
    }
    return sum;
}

#endif
