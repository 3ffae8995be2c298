/* The target of `make fuzz`: opens bytes, makes every call of gltf.h over what they hold, with
 * rooms of many sizes, gives waiting buffers their bytes, and closes the file. It stops the fuzzer
 * where a result is not one that the header names; what lies past a block that the library is given
 * stops it too, and sanitizers see what is freed twice, never, or overlaps. */
#include "rooms.h"

#include "../c/tests/try.h"

#include <stdio.h>

int LLVMFuzzerTestOneInput(const unsigned char *bytes, size_t size);

int LLVMFuzzerTestOneInput(const unsigned char *bytes, size_t size)
{
    long opened[STATUSES] = { 0 };
    size_t i;
    int wrong;
    /* The same options and rooms for the same bytes, so that each finding is found again. */
    seed = 88172645463325252ull;
    for (i = 0; i < size; i++)
        seed = seed * 1099511628211ull ^ bytes[i];
    seed |= 1;
    wrong = try_one(bytes, size, opened);
    if (wrong != 0) {
        fprintf(stderr, "check %d failed\n", wrong);
        abort();
    }
    return 0;
}
