/* Refuses each growth of memory in turn, from the opening of a file to its closing: `failing
 * FILE`, once by gltf_open and once by gltf_open_owned. Linked with
 * --wrap=malloc,--wrap=realloc,--wrap=free. It ends with 0 where each result is the file's own or
 * GLTF_NO_MEMORY, the fault agrees with it, and all memory was given back. */
#include <stddef.h>

void *__real_malloc(size_t size);
void *__real_realloc(void *block, size_t size);
void __real_free(void *block);
void *__wrap_malloc(size_t size);
void *__wrap_realloc(void *block, size_t size);
void __wrap_free(void *block);

#define VISIT_MALLOC __real_malloc
#define VISIT_FREE __real_free
#include "visit.h"

#include <stdio.h>

/* How many growths are granted before one is refused; below 0: all. */
static long granted = -1;
static int was_refused;
static long blocks;

static int is_refused(void)
{
    if (granted < 0)
        return 0;
    if (granted-- > 0)
        return 0;
    was_refused = 1;
    return 1;
}

void *__wrap_malloc(size_t size)
{
    void *block = is_refused() ? NULL : __real_malloc(size);
    blocks += block != NULL;
    return block;
}

void *__wrap_realloc(void *block, size_t size)
{
    void *moved;
    if (is_refused())
        return NULL;
    moved = __real_realloc(block, size);
    blocks += block == NULL && moved != NULL;
    return moved;
}

void __wrap_free(void *block)
{
    blocks -= block != NULL;
    __real_free(block);
}

static const char *const NO_MEMORY = "out of memory";
static const char *const NO_MEMORY_FOR_TEXT = "there is no memory for the message";

static unsigned char bytes[1 << 20];
static size_t size;

/* Whether the library takes the bytes over. */
static int is_owned;

/* Opens the file. The block that is given up is not one of the growths. */
static gltf_status opened(const gltf_open_options *options, gltf_file **file, gltf_fault *fault)
{
    void *block;
    if (!is_owned)
        return gltf_open(bytes, size, options, file, fault);
    block = __real_malloc(size);
    if (block == NULL)
        abort();
    memcpy(block, bytes, size);
    blocks++;
    return gltf_open_owned(block, size, options, file, fault);
}

/* Opens, gives a buffer that waits its bytes, visits all and closes. Returns the status of the
 * opening; `v` has what the visit read, and `given` the status of the giving. */
static gltf_status whole(visit *v, gltf_status *given, gltf_fault *fault)
{
    static const char *const names[] = { "EXT_one", "EXT_two" };
    static const gltf_open_options options = { GLTF_EXTERNAL, 0, names, 2, { 0, 0, 0, 0 } };
    static unsigned char zeros[65536];
    gltf_file *file;
    gltf_buffer buffer;
    gltf_status status = opened(&options, &file, fault);
    *given = GLTF_SUCCESS;
    if (gltf_buffer_info(file, 0, &buffer) == GLTF_SUCCESS && buffer.waits
        && buffer.byte_length <= sizeof zeros)
        *given = gltf_give(file, 0, zeros, buffer.byte_length);
    memset(v, 0, sizeof *v);
    v->file = file;
    v->has_options = 1;
    v->may_lack_memory = granted >= 0 || was_refused;
    if (status == GLTF_SUCCESS)
        visit_all(v);
    gltf_close(file);
    return status;
}

/* How often there was no memory, and how often each of the two texts was given: the text of the
 * result, which is an empty one of an open file, or that there was no memory for that text. */
static long refused, with_text, without_text;

/* Whether a result with a growth refused is a right one, by the file's own. It counts. */
static int counts(gltf_status status, const gltf_fault *fault, gltf_status own,
                  const gltf_fault *own_fault)
{
    const char *text = status == GLTF_SUCCESS ? "" : status == own ? own_fault->text : NO_MEMORY;
    if (blocks != 0 || (status != own && status != GLTF_NO_MEMORY) || fault->status != status)
        return 0;
    refused += status == GLTF_NO_MEMORY;
    if (strcmp(fault->text, text) == 0)
        with_text++;
    else if (status != GLTF_SUCCESS && strcmp(fault->text, NO_MEMORY_FOR_TEXT) == 0)
        without_text++;
    else
        return 0;
    return 1;
}

/* Returns 0, or the number of what is wrong. */
static int try_all(void)
{
    gltf_fault fault, own_fault;
    gltf_status own, status, given;
    visit v, own_visit;
    long growths;
    refused = with_text = without_text = 0;
    own = whole(&own_visit, &given, &own_fault);
    if (own_visit.wrong != 0 || given != GLTF_SUCCESS || blocks != 0)
        return 5;
    for (growths = 0;; growths++) {
        was_refused = 0;
        granted = growths;
        status = whole(&v, &given, &fault);
        granted = -1;
        if (!was_refused)
            break;
        if (!counts(status, &fault, own, &own_fault) || v.wrong != 0
            || (given != GLTF_SUCCESS && given != GLTF_NO_MEMORY))
            return 3;
    }
    printf("%ld growths, each refused once: %ld times no memory, then status %u; %ld messages are "
           "the text of the result, %ld that there is no memory for it\n", growths, refused, own,
           with_text, without_text);
    return blocks == 0 && status == own && v.sum == own_visit.sum ? 0 : 4;
}

int main(int words, char **word)
{
    FILE *file = words == 2 ? fopen(word[1], "rb") : NULL;
    if (file == NULL)
        return 2;
    size = fread(bytes, 1, sizeof bytes, file);
    fclose(file);
    for (is_owned = 0; is_owned < 2; is_owned++) {
        int wrong = try_all();
        if (wrong != 0)
            return wrong;
    }
    return 0;
}
