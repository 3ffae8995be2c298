/* Every call on NULL, which is a closed file, and files that are closed and opened again: `nothing
 * FILE`. It ends with 0 where each returns what the header says and writes nothing. */
#include "contents.h"
#include "visit.h"

#include <stdio.h>

static int wrong;

#define IS_CLOSED(call) do { \
        if ((call) != GLTF_CLOSED) \
            wrong = __LINE__; \
    } while (0)

/* Room for what a call would write, which stays as it is. */
static union {
    unsigned char bytes[4096];
    gltf_material material;
    double number;
} room;

static void try_nothing(void)
{
    gltf_file *none = NULL;
    void *out = &room;
    size_t *size = (size_t *)out, i;
    char *text = (char *)out;
    unsigned int kind;
    memset(&room, 0x5a, sizeof room);
    IS_CLOSED(gltf_give(none, 0, "", 0));
    for (kind = 0; kind <= GLTF_ANIMATION_SAMPLERS; kind++) {
        if (gltf_count(none, kind) != 0)
            wrong = __LINE__;
        IS_CLOSED(gltf_name(none, kind, 0, text, 8, size));
        IS_CLOSED(gltf_text(none, kind, 0, NULL, 0, size));
        IS_CLOSED(gltf_json(none, kind, 0, 0, NULL, 0, NULL, 0, size));
        IS_CLOSED(gltf_json(none, kind, 0, 0, "x", 1, text, 8, size));
        IS_CLOSED(gltf_list(none, kind, 0, NULL, 0, size));
        IS_CLOSED(gltf_numbers(none, kind, 0, NULL, 0, size));
    }
    IS_CLOSED(gltf_buffer_info(none, 0, (gltf_buffer *)out));
    IS_CLOSED(gltf_buffer_view_info(none, 0, (gltf_buffer_view *)out));
    IS_CLOSED(gltf_accessor_info(none, 0, (gltf_accessor *)out));
    IS_CLOSED(gltf_accessor_read(none, 0, out, sizeof room));
    IS_CLOSED(gltf_accessor_read_u32(none, 0, (unsigned int *)out, 8));
    IS_CLOSED(gltf_mesh_info(none, 0, (gltf_mesh *)out));
    IS_CLOSED(gltf_primitive_info(none, 0, 0, (gltf_primitive *)out));
    IS_CLOSED(gltf_attribute_info(none, 0, 0, GLTF_NONE, 0, (gltf_attribute *)out));
    IS_CLOSED(gltf_attribute_name(none, 0, 0, 0, 0, text, 8, size));
    IS_CLOSED(gltf_attribute_find(none, 0, 0, 0, GLTF_POSITION, 0, size));
    IS_CLOSED(gltf_variant_material(none, 0, 0, 0, size));
    IS_CLOSED(gltf_variant_fault(none, 0, 0, 0, (gltf_fault *)out));
    IS_CLOSED(gltf_material_info(none, 0, (gltf_material *)out));
    IS_CLOSED(gltf_material_info(none, GLTF_NONE, (gltf_material *)out));
    IS_CLOSED(gltf_sampler_info(none, 0, (gltf_sampler *)out));
    IS_CLOSED(gltf_texture_info(none, 0, (gltf_texture *)out));
    IS_CLOSED(gltf_image_info(none, 0, (gltf_image *)out));
    IS_CLOSED(gltf_default_scene(none, size));
    IS_CLOSED(gltf_scene_info(none, 0, (gltf_scene *)out));
    IS_CLOSED(gltf_node_info(none, 0, (gltf_node *)out));
    IS_CLOSED(gltf_skin_info(none, 0, (gltf_skin *)out));
    IS_CLOSED(gltf_animation_info(none, 0, (gltf_animation *)out));
    IS_CLOSED(gltf_channel_info(none, 0, 0, (gltf_channel *)out));
    IS_CLOSED(gltf_camera_info(none, 0, (gltf_camera *)out));
    IS_CLOSED(gltf_light_info(none, 0, (gltf_light *)out));
    IS_CLOSED(gltf_clearcoat_info(none, 0, (gltf_clearcoat *)out));
    IS_CLOSED(gltf_sheen_info(none, 0, (gltf_sheen *)out));
    IS_CLOSED(gltf_iridescence_info(none, 0, (gltf_iridescence *)out));
    IS_CLOSED(gltf_anisotropy_info(none, 0, (gltf_anisotropy *)out));
    IS_CLOSED(gltf_dispersion_info(none, 0, (gltf_dispersion *)out));
    IS_CLOSED(gltf_diffuse_transmission_info(none, 0, (gltf_diffuse_transmission *)out));
    IS_CLOSED(gltf_basisu_info(none, 0, (gltf_texture_source *)out));
    IS_CLOSED(gltf_webp_info(none, 0, (gltf_texture_source *)out));
    IS_CLOSED(gltf_instancing_info(none, 0, (gltf_instancing *)out));
    IS_CLOSED(gltf_visibility_info(none, 0, (gltf_visibility *)out));
    IS_CLOSED(gltf_meshopt_info(none, 0, (gltf_meshopt *)out));
    IS_CLOSED(gltf_xmp_packet(none, GLTF_NODES, 0, 0, size));
    gltf_close(none);
    for (i = 0; i < sizeof room; i++)
        if (room.bytes[i] != 0x5a)
            wrong = __LINE__;
}

/* The sum of a visit, which is the same each time. The bytes are freed before it. */
static unsigned long opened_and_closed(const unsigned char *bytes, size_t size)
{
    unsigned char *block = (unsigned char *)malloc(size);
    gltf_file *file;
    gltf_fault fault;
    visit v;
    memset(&v, 0, sizeof v);
    if (block == NULL)
        return 0;
    memcpy(block, bytes, size);
    if (gltf_open(block, size, NULL, &file, &fault) != GLTF_SUCCESS)
        wrong = __LINE__;
    free(block);
    v.file = file;
    visit_all(&v);
    gltf_close(file);
    if (v.wrong != 0)
        wrong = v.wrong;
    return v.sum;
}

int main(int words, char **word)
{
    size_t size;
    int turn;
    unsigned char *bytes = words == 2 ? contents_of(word[1], &size) : NULL;
    unsigned long sum;
    if (bytes == NULL)
        return 2;
    try_nothing();
    sum = opened_and_closed(bytes, size);
    for (turn = 0; turn < 4; turn++)
        if (opened_and_closed(bytes, size) != sum)
            wrong = __LINE__;
    if (gltf_version() != GLTF_VERSION)
        wrong = __LINE__;
    free(bytes);
    if (wrong != 0)
        printf("check %d failed\n", wrong);
    return wrong == 0 ? 0 : 3;
}
