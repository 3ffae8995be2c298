/* Opens bytes, visits all that they hold, gives waiting buffers their bytes, and closes the file:
 * for the test over mutated files, and for the fuzzer. */
#ifndef TRY_H
#define TRY_H

#include "visit.h"

#include <stdio.h>

#define STATUSES 19

static unsigned long long seed = 88172645463325252ull;

/* Numbers that differ from call to call, and are the same in each run (xorshift). */
static size_t any(size_t below)
{
    seed ^= seed << 13;
    seed ^= seed >> 7;
    seed ^= seed << 17;
    return (size_t)(seed % below);
}

/* What gltf_give returns of so many bytes: zeros after them count, unless lengths are exact. */
static gltf_status wanted_of(const gltf_buffer *it, size_t size, int is_exact)
{
    size_t zeros = is_exact ? 0 : (4 - size % 4) % 4;
    if (!it->waits)
        return GLTF_NO_SUCH_INDEX;
    return size < it->byte_length && it->byte_length - size > zeros ? GLTF_SHORT_BUFFER
                                                                    : GLTF_SUCCESS;
}

/* Gives each buffer that waits its bytes, from a block of its own size: at first some too few. What
 * is too short, and what does not wait, is refused. */
static int give_all(gltf_file *file, int is_exact)
{
    size_t count = gltf_count(file, GLTF_BUFFERS), i, less;
    for (i = 0; i < count; i++)
        for (less = 5; less-- > 0;) {
            gltf_buffer it;
            size_t size;
            unsigned char *bytes;
            gltf_status status;
            if (gltf_buffer_info(file, i, &it) != GLTF_SUCCESS)
                return 100;
            if ((it.bytes == NULL) != (it.waits == 1))
                return 102;
            size = it.byte_length < 65536 ? it.byte_length : 65536;
            size = size < less ? 0 : size - less;
            bytes = (unsigned char *)VISIT_MALLOC(size);
            if (bytes == NULL)
                return 101;
            memset(bytes, 0, size);
            status = gltf_give(file, i, bytes, size);
            VISIT_FREE(bytes);
            if (status != wanted_of(&it, size, is_exact))
                return 103;
        }
    return gltf_give(file, count, "", 0) == GLTF_NO_SUCH_INDEX ? 0 : 104;
}

/* Whether a fault is one of its status. Each that a buffer has, has its index and its place. */
static int is_fault(gltf_status status, const gltf_fault *fault)
{
    int is_of_buffer = status >= GLTF_BAD_BASE64 && status <= GLTF_UNSUPPORTED_SCHEME;
    int is_of_uri = is_of_buffer && status != GLTF_SHORT_BUFFER && status != GLTF_MISSING_BLOB;
    char place[64];
    sprintf(place, "/buffers/%lu%s", (unsigned long)fault->buffer, is_of_uri ? "/uri" : "");
    return fault->status == status && (status == GLTF_BROKEN_RULES) == (fault->rules > 0)
        && (status == GLTF_SHORT_BUFFER) == (fault->expected > fault->actual)
        && is_of_buffer == (fault->buffer != GLTF_NONE)
        && (!is_of_buffer || strcmp(fault->path, place) == 0)
        && memchr(fault->path, 0, sizeof fault->path) != NULL
        && memchr(fault->text, 0, sizeof fault->text) != NULL
        && (fault->path[0] == 0 || fault->path[0] == '/')
        && (fault->text[0] != 0) == (status != GLTF_SUCCESS);
}

/* A file's bytes are in a block of their own size, so that each read past them is seen. */
static int try_one(const unsigned char *bytes, size_t size, long *opened)
{
    static const char *const names[] = { "EXT_mark", "\377", "" };
    gltf_open_options options;
    const gltf_open_options *used = any(2) == 0 ? &options : NULL;
    visit v;
    gltf_fault fault;
    gltf_file *file;
    gltf_status status;
    /* What the library takes over is a block from malloc. */
    int is_owned = any(2) == 0, wrong = 0;
    unsigned char *exact = (unsigned char *)(is_owned ? malloc(size) : VISIT_MALLOC(size));
    if (exact == NULL)
        return 105;
    memcpy(exact, bytes, size);
    memset(&options, 0, sizeof options);
    options.flags = (unsigned int)any(5);
    options.extensions = names;
    options.extension_count = any(4);
    memset(&fault, 0x5a, sizeof fault);
    if (is_owned) {
        status = gltf_open_owned(exact, size, used, &file, &fault);
    } else {
        status = gltf_open(exact, size, used, &file, &fault);
        VISIT_FREE(exact);
    }
    if (status >= STATUSES || (file == NULL) == (status == GLTF_SUCCESS)
        || (status == GLTF_BAD_ARGUMENT) != (used != NULL && options.flags > 3)
        || !is_fault(status, &fault))
        return 106;
    opened[status]++;
    memset(&v, 0, sizeof v);
    v.file = file;
    v.has_options = 1;
    if (status == GLTF_SUCCESS) {
        visit_all(&v);
        wrong = give_all(file, used != NULL && options.flags >= GLTF_EXACT_LENGTHS);
        if (wrong == 0 && v.wrong == 0)
            visit_all(&v);
    }
    gltf_close(file);
    return v.wrong != 0 ? v.wrong : wrong;
}

#endif
