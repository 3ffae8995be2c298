/* cgltf, with the attributes of primitives and morph targets ordered by their meaning, and the
 * materials of a primitive by their variant, as libgltf has them. These orders mean nothing in a
 * file, but gltfpack follows them. */
#define cgltf_parse_file parse_file_in_order_of_file
#define CGLTF_IMPLEMENTATION
#include "cgltf.h"
#undef cgltf_parse_file

/* Custom attributes come first, then the others in the order of gltf.h, by set. */
static int rank_of(const cgltf_attribute *attribute)
{
    static const int ranks[] = { 99, 1, 2, 3, 5, 4, 6, 7, 0 };
    return ranks[attribute->type] * 1000 + attribute->index;
}

static int compare(const void *first, const void *second)
{
    const cgltf_attribute *a = (const cgltf_attribute *)first;
    const cgltf_attribute *b = (const cgltf_attribute *)second;
    int order = rank_of(a) - rank_of(b);
    return order != 0 ? order : strcmp(a->name, b->name);
}

static int compare_mappings(const void *first, const void *second)
{
    const cgltf_material_mapping *a = (const cgltf_material_mapping *)first;
    const cgltf_material_mapping *b = (const cgltf_material_mapping *)second;
    return (a->variant > b->variant) - (a->variant < b->variant);
}

cgltf_result cgltf_parse_file(const cgltf_options *options, const char *path, cgltf_data **out)
{
    cgltf_result result = parse_file_in_order_of_file(options, path, out);
    size_t i, k, t;
    if (result != cgltf_result_success)
        return result;
    for (i = 0; i < (*out)->meshes_count; i++)
        for (k = 0; k < (*out)->meshes[i].primitives_count; k++) {
            cgltf_primitive *it = &(*out)->meshes[i].primitives[k];
            qsort(it->attributes, it->attributes_count, sizeof *it->attributes, compare);
            qsort(it->mappings, it->mappings_count, sizeof *it->mappings, compare_mappings);
            for (t = 0; t < it->targets_count; t++)
                qsort(it->targets[t].attributes, it->targets[t].attributes_count,
                      sizeof *it->attributes, compare);
        }
    return result;
}
