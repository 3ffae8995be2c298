/* Measures the stack that the calls take: `stack KIB FILE..`. Each file is opened, read by every
 * call that reads, given the bytes that its buffers wait for, read again and closed; each of these
 * in a thread of its own, with a stack of KIB KiB that is filled before, and all of it in one. It
 * prints a line for each file: the KiB that each touched, with what an empty thread takes.
 * It ends with 0 where every result is one that the header names. */
#define _DEFAULT_SOURCE
#include "contents.h"
#include "try.h"

#include <pthread.h>
#include <stdio.h>
#include <sys/mman.h>

#define FILLED 0xa5
#define GUARD 65536
#define STEPS 6

typedef struct work {
    const unsigned char *bytes;
    size_t size;
    gltf_file *file;
    gltf_status status;
    int wrong;
} work;

static size_t most;

static void *nothing(void *it)
{
    return it;
}

static void *opens(void *it)
{
    static const char *const names[] = { "EXT_mark", "EXT_two" };
    static const gltf_open_options options = { GLTF_EXTERNAL, 0, names, 2, { 0, 0, 0, 0 } };
    work *w = (work *)it;
    gltf_fault fault;
    w->status = gltf_open(w->bytes, w->size, &options, &w->file, &fault);
    w->wrong = is_fault(w->status, &fault) ? 0 : 1;
    return it;
}

static void *reads(void *it)
{
    work *w = (work *)it;
    visit v;
    memset(&v, 0, sizeof v);
    v.file = w->file;
    v.has_options = 1;
    visit_all(&v);
    w->wrong = v.wrong;
    return it;
}

static void *gives(void *it)
{
    work *w = (work *)it;
    w->wrong = give_all(w->file, 0);
    return it;
}

static void *closes(void *it)
{
    work *w = (work *)it;
    gltf_close(w->file);
    return it;
}

/* All of it in one thread, under options and with rooms of any size. */
static void *tries(void *it)
{
    work *w = (work *)it;
    long opened[STATUSES] = { 0 };
    w->wrong = try_one(w->bytes, w->size, opened);
    return it;
}

/* The bytes of its stack that a thread touches, from the top on; 0 where there is no thread. */
static size_t touched(void *(*does)(void *), work *it)
{
    unsigned char *stack;
    pthread_attr_t attributes;
    pthread_t thread;
    size_t at = 0;
    unsigned char *room = (unsigned char *)mmap(NULL, most + GUARD, PROT_READ | PROT_WRITE,
                                                MAP_PRIVATE | MAP_ANONYMOUS, -1, 0);
    if (room == MAP_FAILED || mprotect(room, GUARD, PROT_NONE) != 0)
        return 0;
    stack = room + GUARD;
    memset(stack, FILLED, most);
    if (pthread_attr_init(&attributes) != 0
        || pthread_attr_setstack(&attributes, stack, most) != 0
        || pthread_create(&thread, &attributes, does, it) != 0
        || pthread_join(thread, NULL) != 0)
        return 0;
    pthread_attr_destroy(&attributes);
    while (at < most && stack[at] == FILLED)
        at++;
    munmap(room, most + GUARD);
    return most - at;
}

int main(int words, char **word)
{
    static void *(*const steps[])(void *) = { tries, opens, reads, gives, reads, closes };
    static const char *const names[] = { "all", "open", "read", "give", "read again", "close" };
    int i, step;
    most = words > 2 ? (size_t)atol(word[1]) * 1024 : 0;
    if (most == 0)
        return 2;
    printf("an empty thread: %.1f KiB\n", (double)touched(nothing, NULL) / 1024);
    for (i = 2; i < words; i++) {
        work w;
        memset(&w, 0, sizeof w);
        w.bytes = contents_of(word[i], &w.size);
        if (w.bytes == NULL)
            return perror(word[i]), 2;
        printf("%s:", word[i]);
        for (step = 0; step < STEPS; step++) {
            if (step > 1 && w.status != GLTF_SUCCESS)
                break;
            printf(" %s %.1f", names[step], (double)touched(steps[step], &w) / 1024);
            fflush(stdout);
            if (w.wrong != 0)
                return printf("\ncheck %d failed\n", w.wrong), 3;
        }
        printf(" (status %u)\n", w.status);
        free((void *)w.bytes);
    }
    return 0;
}
