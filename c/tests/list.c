/* Prints every member of every record of files, a line each, as expected.py wants it; of a file
 * that is refused its fault: `list FILE..`. */
#define GLTF_LOAD_IMPLEMENTATION
#include "gltf_load.h"

#include <stdio.h>
#include <stdlib.h>
#include <string.h>

static const char *const KINDS[] = {
    "buffers", "bufferViews", "accessors", "meshes", "nodes", "materials", "scenes", "skins",
    "animations", "images", "textures", "samplers", "cameras", "lights", "variants",
    "extensionsUsed", "extensionsRequired", "asset", "root", "primitives", "channels",
    "animationSamplers"
};

/* Ends the program where something is wrong. */
#define CHECK(condition) do { \
        if (!(condition)) { \
            printf("list.c:%d: %s is not so\n", __LINE__, #condition); \
            exit(1); \
        } \
    } while (0)

/* The record that lines are about: its kind, and up to three numbers. */
static const char *about;
static size_t numbers_of_record[3];
static int how_many;

static void record(const char *kind, int count, size_t first, size_t second, size_t third)
{
    about = kind;
    how_many = count;
    numbers_of_record[0] = first;
    numbers_of_record[1] = second;
    numbers_of_record[2] = third;
}

static void begin(const char *use, const char *member)
{
    int i;
    printf("%s", about);
    for (i = 0; i < how_many; i++)
        printf(" %ld", (long)numbers_of_record[i]);
    printf("%s%s %s:", *use ? " " : "", use, member);
}

static void put_size(const char *member, size_t number)
{
    begin("", member);
    if (number == GLTF_NONE)
        printf(" none\n");
    else
        printf(" %lu\n", (unsigned long)number);
}

static void put_doubles(const char *use, const char *member, const double *numbers, size_t count)
{
    size_t i;
    begin(use, member);
    for (i = 0; i < count; i++)
        printf(" %.17g", numbers[i]);
    printf("\n");
}

static void put_text(const char *member, const char *text, size_t length)
{
    begin("", member);
    printf(" ");
    fwrite(text, 1, length, stdout);
    printf("\n");
}

#define SIZE(it, member) put_size(#member, (it).member)
#define WORD(it, member) put_size(#member, (size_t)(it).member)
#define NUMBER(it, member) put_doubles("", #member, &(it).member, 1)
#define NUMBERS(it, member) \
    put_doubles("", #member, (it).member, sizeof (it).member / sizeof *(it).member)

/* Fills in a struct that held other bytes, of which none may be left in `reserved`. */
#define FILL(it, call) do { \
        size_t zero; \
        memset(&(it), 0xaa, sizeof (it)); \
        CHECK((call) == GLTF_SUCCESS); \
        for (zero = 0; zero < sizeof (it).reserved / sizeof *(it).reserved; zero++) \
            CHECK((it).reserved[zero] == 0); \
    } while (0)

/* ---- Texts, lists and numbers: the whole, its length alone, and cut. */

static void print_name(const gltf_file *file, unsigned int kind, size_t index)
{
    char text[200], cut[5];
    size_t length = 77, again = 78;
    gltf_status status = gltf_name(file, kind, index, text, sizeof text, &length);
    if (status != GLTF_SUCCESS) {
        CHECK(status == GLTF_NO_SUCH_INDEX && length == 77);
        return;
    }
    CHECK(length < sizeof text && text[length] == 0);
    put_text("name", text, length);
    CHECK(gltf_name(file, kind, index, NULL, 0, &again) == GLTF_SUCCESS && again == length);
    memset(cut, '#', sizeof cut);
    CHECK(gltf_name(file, kind, index, cut, 4, &again) == GLTF_SUCCESS && again == length);
    again = length < 3 ? length : 3;
    CHECK(memcmp(cut, text, again) == 0 && cut[again] == 0 && cut[4] == '#');
}

static void print_text(const gltf_file *file, unsigned int what, size_t index, const char *member)
{
    char text[200];
    size_t length;
    if (gltf_text(file, what, index, text, sizeof text, &length) == GLTF_SUCCESS) {
        CHECK(length < sizeof text && text[length] == 0);
        put_text(member, text, length);
    }
}

static void print_json_of(const gltf_file *file, unsigned int kind, size_t index, size_t part,
                          const char *extension)
{
    char text[600];
    size_t length, size = extension == NULL ? 0 : strlen(extension);
    if (gltf_json(file, kind, index, part, extension, size, text, sizeof text, &length)
        == GLTF_SUCCESS) {
        CHECK(length < sizeof text && text[length] == 0);
        put_text(extension == NULL ? "extras" : extension, text, length);
    }
}

static void print_packet(const gltf_file *file, unsigned int kind, size_t index, size_t part)
{
    size_t packet = 77;
    gltf_status status = gltf_xmp_packet(file, kind, index, part, &packet);
    if (status == GLTF_SUCCESS)
        put_size("packet", packet);
    else
        CHECK(packet == 77);
    if (status != GLTF_SUCCESS && status != GLTF_NO_SUCH_INDEX)
        put_size("status of packet", status);
}

static void print_json(const gltf_file *file, unsigned int kind, size_t index, size_t part)
{
    print_json_of(file, kind, index, part, NULL);
    print_json_of(file, kind, index, part, "EXT_mark");
    print_json_of(file, kind, index, part, "KHR_materials_clearcoat");
    print_packet(file, kind, index, part);
}

static void print_list(const gltf_file *file, unsigned int what, size_t index, const char *member,
                       size_t wanted)
{
    size_t list[40], count, i;
    CHECK(gltf_list(file, what, index, NULL, 0, &count) == GLTF_SUCCESS && count == wanted);
    CHECK(gltf_list(file, what, index, list, 40, &count) == GLTF_SUCCESS && count <= 40);
    begin("", member);
    for (i = 0; i < count; i++)
        printf(" %lu", (unsigned long)list[i]);
    printf("\n");
}

static void print_numbers(const gltf_file *file, unsigned int what, size_t index,
                          const char *member)
{
    double list[20], one[2];
    size_t count;
    CHECK(gltf_numbers(file, what, index, list, 20, &count) == GLTF_SUCCESS && count <= 20);
    put_doubles("", member, list, count);
    one[1] = 7;
    CHECK(gltf_numbers(file, what, index, one, 1, &count) == GLTF_SUCCESS && one[1] == 7);
    CHECK(count == 0 || one[0] == list[0]);
}

/* ---- Extensions. */

/* Whether a call filled in the struct of an extension. If it did not, no byte of it was written. */
static int is_there(const char *kind, size_t index, gltf_status status, const void *it, size_t size,
                    size_t reserved)
{
    const unsigned char *bytes = (const unsigned char *)it;
    size_t at = status == GLTF_SUCCESS ? size - reserved : 0;
    for (; at < size; at++)
        CHECK(bytes[at] == (status == GLTF_SUCCESS ? 0 : 0xaa));
    if (status != GLTF_NO_SUCH_INDEX)
        record(kind, 1, index, 0, 0);
    if (status != GLTF_SUCCESS && status != GLTF_NO_SUCH_INDEX)
        put_size("status", status);
    return status == GLTF_SUCCESS;
}

#define EXTENSION(kind, it, index) \
    is_there(#kind, index, \
             gltf_##kind##_info(file, index, (memset(&(it), 0xaa, sizeof (it)), &(it))), \
             &(it), sizeof (it), sizeof (it).reserved)

/* ---- Bytes. */

static void print_bytes(const char *member, const unsigned char *bytes, size_t size)
{
    size_t i;
    begin("", member);
    for (i = 0; bytes != NULL && i < size; i++)
        printf("%s%02x", i == 0 ? " " : "", bytes[i]);
    printf("%s\n", bytes == NULL ? " none" : "");
}

static void print_buffer(const gltf_file *file, size_t index)
{
    gltf_buffer it;
    FILL(it, gltf_buffer_info(file, index, &it));
    CHECK(it.reserved_word == 0);
    SIZE(it, byte_length);
    WORD(it, waits);
    print_bytes("bytes", it.bytes, it.size);
    print_text(file, GLTF_BUFFER_URI, index, "uri");
}

static void print_view(const gltf_file *file, size_t index)
{
    gltf_buffer_view it;
    gltf_meshopt meshopt;
    FILL(it, gltf_buffer_view_info(file, index, &it));
    CHECK(it.reserved_word == 0);
    SIZE(it, buffer);
    SIZE(it, byte_offset);
    SIZE(it, byte_length);
    SIZE(it, byte_stride);
    WORD(it, target);
    print_bytes("bytes", it.bytes, it.byte_length);
    if (EXTENSION(meshopt, meshopt, index)) {
        SIZE(meshopt, buffer);
        SIZE(meshopt, byte_offset);
        SIZE(meshopt, byte_length);
        SIZE(meshopt, byte_stride);
        SIZE(meshopt, count);
        WORD(meshopt, mode);
        WORD(meshopt, filter);
    }
}

/* The items as bytes, as whole numbers and as floats; those that are used in place are the same. */
static void print_items(const gltf_file *file, size_t index, const gltf_accessor *it)
{
    static unsigned char bytes[4096];
    static unsigned int words[1024];
    static float floats[1024];
    size_t i, size = it->count * it->item_size, count = it->count * it->components;
    gltf_status status;
    CHECK(size < sizeof bytes || it->data == NULL);
    bytes[size < sizeof bytes ? size : 0] = 0x5a;
    status = gltf_accessor_read(file, index, bytes, size < sizeof bytes ? size : sizeof bytes);
    put_size("read", status);
    CHECK(bytes[size < sizeof bytes ? size : 0] == 0x5a);
    if (status == GLTF_SUCCESS) {
        print_bytes("items", bytes, size);
        CHECK(gltf_accessor_read(file, index, bytes, size - 1) == GLTF_NO_ROOM);
        for (i = 0; it->data != NULL && i < it->count; i++)
            CHECK(memcmp(it->data + i * it->stride, bytes + i * it->item_size, it->item_size) == 0);
    } else
        CHECK(it->data == NULL);
    status = gltf_accessor_read_u32(file, index, words, 1024);
    put_size("read_u32", status);
    if (status == GLTF_SUCCESS) {
        begin("", "words");
        for (i = 0; i < count; i++)
            printf(" %u", words[i]);
        printf("\n");
    }
    status = gltf_accessor_read_f32(file, index, floats, count < 1024 ? count : 1024);
    if (status == GLTF_SUCCESS) {
        begin("", "floats");
        for (i = 0; i < count; i++)
            printf(" %.9g", (double)floats[i]);
        printf("\n");
        CHECK(gltf_accessor_read_f32(file, index, floats, count - 1) == GLTF_NO_ROOM);
    }
}

static void print_accessor(const gltf_file *file, size_t index)
{
    gltf_accessor it;
    FILL(it, gltf_accessor_info(file, index, &it));
    SIZE(it, count);
    SIZE(it, item_size);
    WORD(it, component_type);
    WORD(it, components);
    WORD(it, is_matrix);
    WORD(it, normalized);
    SIZE(it, sparse);
    SIZE(it, view);
    SIZE(it, byte_offset);
    SIZE(it, stride);
    put_size("in place", it.data != NULL);
    print_numbers(file, GLTF_ACCESSOR_MIN, index, "min");
    print_numbers(file, GLTF_ACCESSOR_MAX, index, "max");
    print_items(file, index, &it);
}

/* ---- Meshes. */

static void print_attributes(const gltf_file *file, size_t mesh, size_t primitive, size_t target)
{
    gltf_attribute it;
    char name[60];
    size_t i, length, found;
    for (i = 0; gltf_attribute_info(file, mesh, primitive, target, i, &it) == GLTF_SUCCESS; i++) {
        FILL(it, gltf_attribute_info(file, mesh, primitive, target, i, &it));
        CHECK(gltf_attribute_name(file, mesh, primitive, target, i, name, sizeof name, &length)
              == GLTF_SUCCESS && length < sizeof name && name[length] == 0);
        put_size(name, it.accessor);
        CHECK(gltf_attribute_name(file, mesh, primitive, target, i, name, 3, &found)
              == GLTF_SUCCESS && found == length && name[2] == 0);
        found = 777;
        if (it.meaning == GLTF_CUSTOM)
            CHECK(gltf_attribute_find(file, mesh, primitive, target, it.meaning, it.set, &found)
                  == GLTF_NO_SUCH_INDEX && found == 777);
        else
            CHECK(gltf_attribute_find(file, mesh, primitive, target, it.meaning, it.set, &found)
                  == GLTF_SUCCESS && found == it.accessor);
    }
    CHECK(gltf_attribute_find(file, mesh, primitive, target, GLTF_COLOR, 99, &found)
          == GLTF_NO_SUCH_INDEX);
}

/* The material of a primitive in a variant, or where the index of one that is not there stands. */
static void print_variant(const gltf_file *file, size_t mesh, size_t index, size_t variant)
{
    gltf_fault it;
    gltf_status fault;
    size_t material = 777;
    if (gltf_variant_material(file, mesh, index, variant, &material) != GLTF_SUCCESS) {
        CHECK(gltf_variant_fault(file, mesh, index, variant, &it) == GLTF_NO_SUCH_INDEX);
        CHECK(material == 777);
        return;
    }
    put_size("variant", variant);
    memset(&it, 0x5a, sizeof it);
    fault = gltf_variant_fault(file, mesh, index, variant, &it);
    if (fault == GLTF_NO_SUCH_INDEX) {
        CHECK(it.status == 0x5a5a5a5a && it.path[0] == 0x5a && it.text[0] == 0x5a);
        put_size("of material", material);
        return;
    }
    CHECK(fault == GLTF_SUCCESS && material >= gltf_count(file, GLTF_MATERIALS));
    FILL(it, gltf_variant_fault(file, mesh, index, variant, &it));
    CHECK(it.status == GLTF_BAD_EXTENSION && it.rules == 0 && it.buffer == GLTF_NONE);
    CHECK(it.expected == 0 && it.actual == 0);
    put_text("of no material", it.path, strlen(it.path));
    put_text("reason", it.text, strlen(it.text));
}

static void print_primitive(const gltf_file *file, size_t mesh, size_t index)
{
    gltf_primitive it;
    size_t i;
    record("primitives", 2, mesh, index, 0);
    FILL(it, gltf_primitive_info(file, mesh, index, &it));
    CHECK(it.reserved_word == 0);
    WORD(it, mode);
    SIZE(it, indices);
    SIZE(it, material);
    SIZE(it, attributes);
    SIZE(it, targets);
    for (i = 0; i < gltf_count(file, GLTF_VARIANTS); i++)
        print_variant(file, mesh, index, i);
    print_json(file, GLTF_PRIMITIVES, mesh, index);
    print_attributes(file, mesh, index, GLTF_NONE);
    for (i = 0; i < it.targets; i++) {
        record("target", 3, mesh, index, i);
        print_attributes(file, mesh, index, i);
    }
}

static void print_mesh(const gltf_file *file, size_t index)
{
    gltf_mesh it;
    size_t i;
    FILL(it, gltf_mesh_info(file, index, &it));
    SIZE(it, primitives);
    SIZE(it, weights);
    print_numbers(file, GLTF_MESH_WEIGHTS, index, "weights");
    for (i = 0; i < it.primitives; i++)
        print_primitive(file, index, i);
}

/* ---- Materials. */

static void print_use(const char *use, const gltf_texture_use *it)
{
    if (it->texture == GLTF_NONE) {
        CHECK(it->tex_coord == 0 && it->has_transform == 0 && it->scale == 1);
        CHECK(it->offset[0] == 0 && it->offset[1] == 0 && it->rotation == 0);
        CHECK(it->size[0] == 1 && it->size[1] == 1);
        return;
    }
    begin(use, "texture");
    printf(" %lu, set %u, transform %u\n", (unsigned long)it->texture, it->tex_coord,
           it->has_transform);
    put_doubles(use, "scale", &it->scale, 1);
    put_doubles(use, "offset", it->offset, 2);
    put_doubles(use, "rotation", &it->rotation, 1);
    put_doubles(use, "size", it->size, 2);
}

#define USE(it, member) print_use(#member, &(it).member)

static void print_layers(const gltf_file *file, size_t index)
{
    gltf_clearcoat clearcoat;
    gltf_sheen sheen;
    gltf_iridescence iridescence;
    if (EXTENSION(clearcoat, clearcoat, index)) {
        NUMBER(clearcoat, clearcoat_factor);
        NUMBER(clearcoat, clearcoat_roughness_factor);
        USE(clearcoat, clearcoat);
        USE(clearcoat, clearcoat_roughness);
        USE(clearcoat, clearcoat_normal);
    }
    if (EXTENSION(sheen, sheen, index)) {
        NUMBERS(sheen, sheen_color_factor);
        NUMBER(sheen, sheen_roughness_factor);
        USE(sheen, sheen_color);
        USE(sheen, sheen_roughness);
    }
    if (EXTENSION(iridescence, iridescence, index)) {
        NUMBER(iridescence, iridescence_factor);
        NUMBER(iridescence, iridescence_ior);
        NUMBER(iridescence, iridescence_thickness_minimum);
        NUMBER(iridescence, iridescence_thickness_maximum);
        USE(iridescence, iridescence);
        USE(iridescence, iridescence_thickness);
    }
}

static void print_light_through(const gltf_file *file, size_t index)
{
    gltf_anisotropy anisotropy;
    gltf_dispersion dispersion;
    gltf_diffuse_transmission diffuse;
    if (EXTENSION(anisotropy, anisotropy, index)) {
        NUMBER(anisotropy, anisotropy_strength);
        NUMBER(anisotropy, anisotropy_rotation);
        USE(anisotropy, anisotropy);
    }
    if (EXTENSION(dispersion, dispersion, index))
        NUMBER(dispersion, dispersion);
    if (EXTENSION(diffuse_transmission, diffuse, index)) {
        NUMBER(diffuse, diffuse_transmission_factor);
        NUMBERS(diffuse, diffuse_transmission_color_factor);
        USE(diffuse, diffuse_transmission);
        USE(diffuse, diffuse_transmission_color);
    }
}

static void print_material(const gltf_file *file, size_t index)
{
    static gltf_material it;
    FILL(it, gltf_material_info(file, index, &it));
    CHECK(it.reserved_word == 0);
    WORD(it, alpha_mode);
    WORD(it, double_sided);
    WORD(it, has);
    NUMBER(it, alpha_cutoff);
    NUMBERS(it, base_color_factor);
    NUMBER(it, metallic_factor);
    NUMBER(it, roughness_factor);
    NUMBERS(it, emissive_factor);
    NUMBERS(it, diffuse_factor);
    NUMBERS(it, specular_glossiness_factor);
    NUMBER(it, glossiness_factor);
    NUMBER(it, transmission_factor);
    NUMBER(it, ior);
    NUMBER(it, emissive_strength);
    NUMBER(it, thickness_factor);
    NUMBER(it, attenuation_distance);
    NUMBERS(it, attenuation_color);
    NUMBER(it, specular_factor);
    NUMBERS(it, specular_color_factor);
    USE(it, base_color);
    USE(it, metallic_roughness);
    USE(it, normal);
    USE(it, occlusion);
    USE(it, emissive);
    USE(it, diffuse);
    USE(it, specular_glossiness);
    USE(it, transmission);
    USE(it, thickness);
    USE(it, specular);
    USE(it, specular_color);
    print_layers(file, index);
    print_light_through(file, index);
}

static void print_texture(const gltf_file *file, size_t index)
{
    gltf_texture it;
    gltf_texture_source source;
    FILL(it, gltf_texture_info(file, index, &it));
    SIZE(it, image);
    SIZE(it, sampler);
    WORD(it, mag_filter);
    WORD(it, min_filter);
    WORD(it, wrap_s);
    WORD(it, wrap_t);
    if (EXTENSION(basisu, source, index))
        SIZE(source, image);
    if (EXTENSION(webp, source, index))
        SIZE(source, image);
}

static void print_sampler(const gltf_file *file, size_t index)
{
    gltf_sampler it;
    FILL(it, gltf_sampler_info(file, index, &it));
    WORD(it, mag_filter);
    WORD(it, min_filter);
    WORD(it, wrap_s);
    WORD(it, wrap_t);
}

static void print_image(const gltf_file *file, size_t index)
{
    gltf_image it;
    FILL(it, gltf_image_info(file, index, &it));
    SIZE(it, view);
    SIZE(it, size);
    print_bytes("bytes", it.bytes, it.size);
    print_text(file, GLTF_IMAGE_URI, index, "uri");
    print_text(file, GLTF_IMAGE_MIME_TYPE, index, "mimeType");
}

/* ---- Scenes. */

static void print_scene(const gltf_file *file, size_t index)
{
    gltf_scene it;
    FILL(it, gltf_scene_info(file, index, &it));
    print_list(file, GLTF_SCENE_NODES, index, "nodes", it.nodes);
}

static void print_node(const gltf_file *file, size_t index)
{
    gltf_node it;
    gltf_instancing instancing;
    gltf_visibility visibility;
    FILL(it, gltf_node_info(file, index, &it));
    CHECK(it.reserved_word == 0);
    SIZE(it, mesh);
    SIZE(it, skin);
    SIZE(it, camera);
    SIZE(it, light);
    SIZE(it, weights);
    WORD(it, has);
    NUMBERS(it, matrix);
    NUMBERS(it, translation);
    NUMBERS(it, rotation);
    NUMBERS(it, scale);
    print_list(file, GLTF_NODE_CHILDREN, index, "children", it.children);
    print_numbers(file, GLTF_NODE_WEIGHTS, index, "weights");
    if (EXTENSION(instancing, instancing, index)) {
        SIZE(instancing, translation);
        SIZE(instancing, rotation);
        SIZE(instancing, scale);
    }
    if (EXTENSION(visibility, visibility, index)) {
        CHECK(visibility.reserved_word == 0);
        WORD(visibility, visible);
    }
}

static void print_skin(const gltf_file *file, size_t index)
{
    gltf_skin it;
    FILL(it, gltf_skin_info(file, index, &it));
    SIZE(it, skeleton);
    SIZE(it, inverse_bind_matrices);
    print_list(file, GLTF_SKIN_JOINTS, index, "joints", it.joints);
}

static void print_animation(const gltf_file *file, size_t index)
{
    gltf_animation it;
    gltf_channel channel;
    size_t i;
    FILL(it, gltf_animation_info(file, index, &it));
    SIZE(it, channels);
    SIZE(it, samplers);
    for (i = 0; i < it.channels; i++) {
        record("channels", 2, index, i, 0);
        FILL(channel, gltf_channel_info(file, index, i, &channel));
        SIZE(channel, node);
        WORD(channel, path);
        WORD(channel, interpolation);
        SIZE(channel, sampler);
        SIZE(channel, input);
        SIZE(channel, output);
        print_json(file, GLTF_CHANNELS, index, i);
    }
    for (i = 0; i < it.samplers; i++) {
        record("animationSamplers", 2, index, i, 0);
        print_json(file, GLTF_ANIMATION_SAMPLERS, index, i);
    }
    CHECK(gltf_channel_info(file, index, it.channels, &channel) == GLTF_NO_SUCH_INDEX);
}

static void print_camera(const gltf_file *file, size_t index)
{
    gltf_camera it;
    FILL(it, gltf_camera_info(file, index, &it));
    CHECK(it.reserved_word == 0);
    WORD(it, orthographic);
    NUMBER(it, znear);
    NUMBER(it, zfar);
    NUMBER(it, xmag);
    NUMBER(it, ymag);
    NUMBER(it, yfov);
    NUMBER(it, aspect_ratio);
}

static void print_light(const gltf_file *file, size_t index)
{
    gltf_light it;
    FILL(it, gltf_light_info(file, index, &it));
    CHECK(it.reserved_word == 0);
    WORD(it, type);
    NUMBERS(it, color);
    NUMBER(it, intensity);
    NUMBER(it, range);
    NUMBER(it, inner_cone_angle);
    NUMBER(it, outer_cone_angle);
}

static void print_asset(const gltf_file *file, size_t index)
{
    print_text(file, GLTF_ASSET_VERSION, index, "version");
    print_text(file, GLTF_ASSET_MIN_VERSION, index, "minVersion");
    print_text(file, GLTF_ASSET_GENERATOR, index, "generator");
    print_text(file, GLTF_ASSET_COPYRIGHT, index, "copyright");
}

static void print_root(const gltf_file *file, size_t index)
{
    size_t scene = 77;
    gltf_status status = gltf_default_scene(file, &scene);
    CHECK(index == 0 && (status == GLTF_SUCCESS || (status == GLTF_NO_SUCH_INDEX && scene == 77)));
    put_size("scene", status == GLTF_SUCCESS ? scene : GLTF_NONE);
}

/* ---- A file. */

static void print_open(const gltf_file *file)
{
    static void (*const PRINT[])(const gltf_file *, size_t) = {
        print_buffer, print_view, print_accessor, print_mesh, print_node, print_material,
        print_scene, print_skin, print_animation, print_image, print_texture, print_sampler,
        print_camera, print_light, NULL, NULL, NULL, print_asset, print_root
    };
    unsigned int kind;
    size_t i;
    for (kind = GLTF_BUFFERS; kind <= GLTF_ANIMATION_SAMPLERS + 1; kind++) {
        size_t count = gltf_count(file, kind);
        CHECK(kind <= GLTF_ROOT || count == 0);
        if (kind <= GLTF_ROOT)
            printf("%lu %s\n", (unsigned long)count, KINDS[kind]);
        for (i = 0; i < count; i++) {
            record(KINDS[kind], 1, i, 0, 0);
            print_name(file, kind, i);
            print_json(file, kind, i, 0);
            if (PRINT[kind] != NULL)
                PRINT[kind](file, i);
        }
    }
    record("default", 0, 0, 0, 0);
    print_material(file, GLTF_NONE);
}

static void print_fault(gltf_status status, const gltf_fault *fault)
{
    size_t i;
    CHECK(status == fault->status && status != GLTF_SUCCESS);
    for (i = 0; i < sizeof fault->reserved / sizeof *fault->reserved; i++)
        CHECK(fault->reserved[i] == 0);
    record("fault", 0, 0, 0, 0);
    put_size("status", status);
    put_size("rules", fault->rules);
    put_size("buffer", fault->buffer);
    put_size("expected", fault->expected);
    put_size("actual", fault->actual);
    put_text("path", fault->path, strlen(fault->path));
    put_text("text", fault->text, strlen(fault->text));
}

int main(int words, char **word)
{
    int i;
    for (i = 1; i < words; i++) {
        gltf_file *file;
        gltf_fault fault;
        gltf_status status;
        memset(&fault, 0xaa, sizeof fault);
        status = gltf_load(word[i], NULL, &file, &fault);
        if (status != GLTF_SUCCESS) {
            CHECK(file == NULL);
            print_fault(status, &fault);
        } else {
            CHECK(fault.status == GLTF_SUCCESS && fault.buffer == GLTF_NONE && fault.rules == 0
                  && fault.path[0] == 0 && fault.text[0] == 0);
            print_open(file);
        }
        gltf_close(file);
    }
    return 0;
}
