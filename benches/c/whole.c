/* Measures opening a file, reading all its items of floats and closing it: `whole FILE TIMES`. It
 * prints the least wall time of so many runs in nanoseconds, and the sum of the items. With
 * IN_PLACE the loader is gltf.h, which takes the bytes over, and items are read where they are;
 * else it is the one of loader.h that is linked. */
#define _POSIX_C_SOURCE 200809L
#include "contents.h"
#include "loader.h"

#include "gltf.h"

#include <string.h>
#include <time.h>

#ifdef IN_PLACE

/* The sum of the items of an accessor, each where it is. */
static unsigned sum_in_place(const gltf_accessor *it)
{
    unsigned sum = 0;
    size_t i;
    if (it->stride == it->item_size)
        return sum_of(it->data, it->count * it->item_size);
    for (i = 0; i < it->count; i++)
        sum += sum_of(it->data + i * it->stride, it->item_size);
    return sum;
}

static long long whole(unsigned char *bytes, size_t size)
{
    gltf_file *file;
    gltf_fault fault;
    gltf_accessor it;
    unsigned sum = 0;
    size_t i;
    if (gltf_open_owned(bytes, size, NULL, &file, &fault) != GLTF_SUCCESS)
        return fprintf(stderr, "%s: %s\n", fault.path, fault.text), -1;
    for (i = 0; gltf_accessor_info(file, i, &it) == GLTF_SUCCESS; i++)
        if (it.component_type == GLTF_F32 && it.data != NULL)
            sum += sum_in_place(&it);
    gltf_close(file);
    return sum;
}

#else

static long long whole(unsigned char *bytes, size_t size)
{
    char why[300] = "";
    void *file = loader_open(bytes, size, why, sizeof why);
    long long sum;
    if (file == NULL)
        return fprintf(stderr, "%s\n", why), -1;
    sum = loader_items(file);
    loader_close(file);
    free(bytes);
    return sum;
}

#endif

static long long now(void)
{
    struct timespec it;
    clock_gettime(CLOCK_MONOTONIC, &it);
    return it.tv_sec * 1000000000ll + it.tv_nsec;
}

int main(int words, char **word)
{
    long long best = -1, sum = -1;
    long times = words == 3 ? atol(word[2]) : 0;
    while (times-- > 0) {
        size_t size;
        unsigned char *bytes = contents_of(word[1], &size);
        long long time;
        if (bytes == NULL)
            return perror(word[1]), 2;
        time = now();
        sum = whole(bytes, size);
        time = now() - time;
        best = best < 0 || time < best ? time : best;
    }
    printf("%lld %lld\n", best, sum);
    return sum < 0 ? 3 : 0;
}
