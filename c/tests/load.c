/* Opens the file at a path by gltf_load, or gltf_load_anywhere, and prints the bytes of its first
 * buffer, or the fault: `load PATH [anywhere]`; or by gltf_open_with over a resolver that knows one
 * URI: `load PATH resolver`. */
#include "contents.h"

#define GLTF_LOAD_IMPLEMENTATION
#include "gltf_load.h"

/* How often `resolve` gave bytes that were not released yet. */
static int lent;

static gltf_status resolve(void *user, const char *uri, void **bytes, size_t *size)
{
    if (strcmp(uri, "known") != 0)
        return GLTF_UNREADABLE;
    lent++;
    *bytes = user;
    *size = strlen((char *)user);
    return GLTF_SUCCESS;
}

static void release(void *user, void *bytes)
{
    lent -= bytes == user;
}

static gltf_status by_resolver(const char *path, gltf_file **file, gltf_fault *fault)
{
    char text[] = "from a resolver";
    gltf_resolver resolver;
    gltf_status status;
    size_t size;
    unsigned char *bytes = contents_of(path, &size);
    if (bytes == NULL)
        exit(2);
    resolver.resolve = resolve;
    resolver.release = release;
    resolver.user = text;
    status = gltf_open_with(bytes, size, NULL, &resolver, file, fault);
    free(bytes);
    return status;
}

int main(int words, char **word)
{
    gltf_file *file;
    gltf_fault fault;
    gltf_buffer buffer;
    gltf_status status;
    if (words == 2)
        status = gltf_load(word[1], NULL, &file, &fault);
    else if (strcmp(word[2], "anywhere") == 0)
        status = gltf_load_anywhere(word[1], NULL, &file, &fault);
    else
        status = by_resolver(word[1], &file, &fault);
    if (status != GLTF_SUCCESS)
        printf("%u %s: %s (%lu of %lu)\n", status, fault.path, fault.text,
               (unsigned long)fault.actual, (unsigned long)fault.expected);
    else if (gltf_buffer_info(file, 0, &buffer) == GLTF_SUCCESS && buffer.bytes != NULL)
        printf("%.*s\n", (int)buffer.byte_length, (const char *)buffer.bytes);
    else
        printf("no bytes\n");
    gltf_close(file);
    return lent == 0 && (file == NULL) == (status != GLTF_SUCCESS) ? 0 : 3;
}
