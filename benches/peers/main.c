/* Measures a loader: `main open|items FILE TIMES`. It prints the least wall time and the least
 * processor time of so many runs, in nanoseconds, what the file holds, and the sum of its items.
 * `open` is to open and to close the file, `items` to read all items of the open file; with 0 TIMES
 * none is read, and the sum is -1. The bytes of the file are in memory before. A file that is
 * refused is reported on standard error, with exit status 3. */
#define _POSIX_C_SOURCE 200809L
#include "contents.h"
#include "loader.h"

#include <string.h>
#include <time.h>

static long long nanoseconds(clockid_t clock)
{
    struct timespec now;
    clock_gettime(clock, &now);
    return now.tv_sec * 1000000000ll + now.tv_nsec;
}

static void *opened(const unsigned char *bytes, size_t size)
{
    char why[300] = "";
    void *file = loader_open(bytes, size, why, sizeof why);
    if (file == NULL) {
        fprintf(stderr, "refused: %s\n", why);
        exit(3);
    }
    return file;
}

/* What is measured. Callgrind counts the instructions of the functions of this name alone. */
__attribute__((noinline)) void measured_open(const unsigned char *bytes, size_t size)
{
    loader_close(opened(bytes, size));
}

__attribute__((noinline)) long long measured_items(void *file)
{
    return loader_items(file);
}

int main(int words, char **word)
{
    long long best_wall = -1, best_cpu = -1, sum = -1;
    size_t size, counts[COUNTS];
    unsigned char *bytes;
    void *file = NULL;
    int reads, k;
    long times;
    if (words != 4 || (times = atol(word[3])) < 0)
        return fputs("usage: main open|items FILE TIMES\n", stderr), 2;
    bytes = contents_of(word[2], &size);
    if (bytes == NULL)
        return perror(word[2]), 2;
    reads = strcmp(word[1], "items") == 0;
    if (reads)
        file = opened(bytes, size);
    while (times-- > 0) {
        long long wall = nanoseconds(CLOCK_MONOTONIC), cpu = nanoseconds(CLOCK_PROCESS_CPUTIME_ID);
        if (reads)
            sum = measured_items(file);
        else
            measured_open(bytes, size);
        cpu = nanoseconds(CLOCK_PROCESS_CPUTIME_ID) - cpu;
        wall = nanoseconds(CLOCK_MONOTONIC) - wall;
        if (best_wall < 0 || wall < best_wall)
            best_wall = wall;
        if (best_cpu < 0 || cpu < best_cpu)
            best_cpu = cpu;
    }
    printf("%lld %lld %lld", best_wall, best_cpu, sum);
    if (reads) {
        loader_counts(file, counts);
        for (k = 0; k < COUNTS; k++)
            printf(" %lu", (unsigned long)counts[k]);
        loader_close(file);
    }
    putchar('\n');
    free(bytes);
    return 0;
}
