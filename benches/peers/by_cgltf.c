/* cgltf, which parses, loads the buffers and validates by three calls. */
#define CGLTF_IMPLEMENTATION
#include "cgltf.h"

#include "loader.h"

#include <stdio.h>
#include <string.h>

void *loader_open(const unsigned char *bytes, size_t size, char *why, size_t why_size)
{
    cgltf_options options;
    cgltf_data *data = NULL;
    const char *step = "cgltf_parse";
    cgltf_result result;
    memset(&options, 0, sizeof options);
    result = cgltf_parse(&options, bytes, size, &data);
    if (result == cgltf_result_success) {
        step = "cgltf_load_buffers";
        result = cgltf_load_buffers(&options, data, NULL);
    }
    if (result == cgltf_result_success) {
        step = "cgltf_validate";
        result = cgltf_validate(data);
    }
    if (result == cgltf_result_success)
        return data;
    cgltf_free(data);
    snprintf(why, why_size, "%s returns %d", step, (int)result);
    return NULL;
}

void loader_counts(void *file, size_t counts[COUNTS])
{
    const cgltf_data *data = file;
    size_t k;
    counts[ACCESSORS] = data->accessors_count;
    counts[MESHES] = data->meshes_count;
    counts[NODES] = data->nodes_count;
    counts[MATERIALS] = data->materials_count;
    counts[TEXTURES] = data->textures_count;
    counts[ANIMATIONS] = data->animations_count;
    counts[BUFFERS] = data->buffers_count;
    counts[BYTES] = 0;
    for (k = 0; k < data->buffers_count; k++)
        counts[BYTES] += (data->buffers[k].size + 3) & ~(size_t)3;
}

long long loader_items(void *file)
{
    const cgltf_data *data = file;
    unsigned sum = 0;
    size_t k;
    for (k = 0; k < data->accessors_count; k++) {
        const cgltf_accessor *accessor = &data->accessors[k];
        size_t count;
        float *items;
        if (accessor->component_type != cgltf_component_type_r_32f)
            continue;
        count = cgltf_accessor_unpack_floats(accessor, NULL, 0);
        items = malloc(count * sizeof *items);
        if (items != NULL) {
            count = cgltf_accessor_unpack_floats(accessor, items, count);
            sum += sum_of(items, count * sizeof *items);
        }
        free(items);
    }
    return sum;
}

void loader_close(void *file)
{
    cgltf_free(file);
}
