/* The proved loader, through c/gltf.h. */
#include "loader.h"

#include "gltf.h"
#include <stdio.h>
#include <stdlib.h>

void *loader_open(const unsigned char *bytes, size_t size, char *why, size_t why_size)
{
    gltf_file *file;
    gltf_fault fault;
    if (gltf_open(bytes, size, NULL, &file, &fault) != GLTF_SUCCESS)
        snprintf(why, why_size, "%s: %s", fault.path, fault.text);
    return file;
}

void loader_counts(void *file, size_t counts[COUNTS])
{
    static const unsigned int kinds[] = { GLTF_ACCESSORS, GLTF_MESHES, GLTF_NODES, GLTF_MATERIALS,
                                          GLTF_TEXTURES, GLTF_ANIMATIONS, GLTF_BUFFERS };
    gltf_buffer buffer;
    size_t k;
    for (k = 0; k < BYTES; k++)
        counts[k] = gltf_count(file, kinds[k]);
    counts[BYTES] = 0;
    for (k = 0; k < counts[BUFFERS]; k++)
        if (gltf_buffer_info(file, k, &buffer) == GLTF_SUCCESS)
            counts[BYTES] += buffer.size;
}

long long loader_items(void *file)
{
    unsigned sum = 0;
    size_t k, count = gltf_count(file, GLTF_ACCESSORS);
    for (k = 0; k < count; k++) {
        gltf_accessor about;
        size_t size;
        void *items;
        if (gltf_accessor_info(file, k, &about) != GLTF_SUCCESS || about.component_type != GLTF_F32)
            continue;
        size = about.count * about.item_size;
        items = malloc(size);
        if (items != NULL && gltf_accessor_read(file, k, items, size) == GLTF_SUCCESS)
            sum += sum_of(items, size);
        free(items);
    }
    return sum;
}

void loader_close(void *file)
{
    gltf_close(file);
}
