/* Reads one file in four threads at once, each some times, on stacks of STACK bytes, and opens and
 * closes one of its own meanwhile: `readers TIMES FILE`. It ends with 0 where each visit of the
 * file reads the same. */
#include "contents.h"
#include "visit.h"

#include <pthread.h>

#define THREADS 4

static unsigned char *bytes;
static size_t size;
static long times;
static gltf_file *shared;

/* The sum of a file of a thread's own, or 0. */
static unsigned long sum_of_own(void)
{
    static const gltf_open_options options = { GLTF_EXTERNAL, 0, NULL, 0, { 0, 0, 0, 0 } };
    visit v;
    gltf_file *own;
    gltf_fault fault;
    memset(&v, 0, sizeof v);
    if (gltf_open(bytes, size, &options, &own, &fault) != GLTF_SUCCESS)
        return 0;
    v.file = own;
    v.has_options = 1;
    visit_all(&v);
    gltf_close(own);
    return v.wrong == 0 ? v.sum : 0;
}

/* The sum that all visits of a thread have in common, or 0. */
static void *read_often(void *out)
{
    unsigned long *common = (unsigned long *)out;
    long turn;
    visit v;
    memset(&v, 0, sizeof v);
    v.file = shared;
    v.has_options = 1;
    *common = sum_of_own();
    for (turn = 0; turn < times; turn++) {
        visit_all(&v);
        if (v.wrong != 0 || v.sum != *common)
            *common = 0;
    }
    return NULL;
}

int main(int words, char **word)
{
    static const gltf_open_options options = { GLTF_EXTERNAL, 0, NULL, 0, { 0, 0, 0, 0 } };
    pthread_attr_t attributes;
    pthread_t thread[THREADS];
    unsigned long sum[THREADS] = { 0 };
    gltf_fault fault;
    int i, wrong = 0;
    bytes = words == 3 ? contents_of(word[2], &size) : NULL;
    times = bytes == NULL ? 0 : atol(word[1]);
    if (bytes == NULL || gltf_open(bytes, size, &options, &shared, &fault) != GLTF_SUCCESS
        || pthread_attr_init(&attributes) != 0
        || pthread_attr_setstacksize(&attributes, STACK) != 0)
        return 2;
    for (i = 0; i < THREADS; i++)
        if (pthread_create(&thread[i], &attributes, read_often, &sum[i]) != 0)
            return 2;
    for (i = 0; i < THREADS; i++)
        wrong |= pthread_join(thread[i], NULL) != 0 || sum[i] == 0 || sum[i] != sum[0];
    gltf_close(shared);
    free(bytes);
    return wrong ? 3 : 0;
}
