/* Blocks that end where a page begins that nobody may touch: the library is built without the
 * sanitizers, so that only such a page stops it where it reads or writes past a block that it is
 * given. A block is as aligned as its size. visit.h and try.h take their blocks here. */
#ifndef ROOMS_H
#define ROOMS_H

#ifndef _DEFAULT_SOURCE
#define _DEFAULT_SOURCE
#endif

#include <stddef.h>
#include <stdlib.h>
#include <sys/mman.h>

enum { ROOM = 65536, GUARD = 4096, ROOMS = 32 };

static unsigned char *rooms;
static unsigned char is_taken[ROOMS];

static void rooms_make(void)
{
    int i;
    void *all = mmap(NULL, (size_t)ROOMS * (ROOM + GUARD), PROT_READ | PROT_WRITE,
                     MAP_PRIVATE | MAP_ANONYMOUS, -1, 0);
    if (all == MAP_FAILED)
        abort();
    rooms = (unsigned char *)all;
    for (i = 0; i < ROOMS; i++)
        if (mprotect(rooms + (size_t)i * (ROOM + GUARD) + ROOM, GUARD, PROT_NONE) != 0)
            abort();
}

/* A block of so many bytes; one of malloc where it is longer than a room, or none is left. */
static void *room_take(size_t size)
{
    int i;
    if (rooms == NULL)
        rooms_make();
    for (i = 0; i < ROOMS && size <= ROOM; i++)
        if (!is_taken[i]) {
            is_taken[i] = 1;
            return rooms + (size_t)i * (ROOM + GUARD) + ROOM - size;
        }
    return malloc(size);
}

static void room_free(void *block)
{
    const unsigned char *at = (const unsigned char *)block;
    if (at >= rooms && at <= rooms + (size_t)ROOMS * (ROOM + GUARD))
        is_taken[(size_t)(at - rooms) / (ROOM + GUARD)] = 0;
    else
        free(block);
}

#define VISIT_MALLOC room_take
#define VISIT_FREE room_free
#define VISIT_LIST room_take

#endif
