/* Makes every call of gltf.h that reads, for every record of a file and for some that are not
 * there, with rooms of many sizes, each in a block of its own. It adds up all that is written, and
 * checks what the header says of any file: which statuses there are, that indices are in range, and
 * that nothing is written past a room. */
#ifndef VISIT_H
#define VISIT_H

#include "gltf.h"

#include <stdlib.h>
#include <string.h>

/* A program that refuses memory to the library gives other names for its own. */
#ifndef VISIT_MALLOC
#define VISIT_MALLOC malloc
#define VISIT_FREE free
#endif
/* A block for a list, which is no block of 0 bytes: malloc may have none. */
#ifndef VISIT_LIST
#define VISIT_LIST(size) VISIT_MALLOC((size) + 1)
#endif

/* An accessor with more bytes of items than this is not read whole. */
#define VISIT_MOST ((size_t)1 << 22)

typedef struct visit {
    const gltf_file *file;
    unsigned long sum;   /* of all that was read */
    int wrong;           /* the line of the first check that failed, or 0 */
    int may_lack_memory; /* whether GLTF_NO_MEMORY is accepted */
    int has_options;     /* whether buffers may wait */
    unsigned long seed;
    size_t counts[GLTF_ROOT + 1];
} visit;

#define MUST(v, condition) do { \
        if (!(condition) && (v)->wrong == 0) \
            (v)->wrong = __LINE__; \
    } while (0)

static void visit_add(visit *v, const void *bytes, size_t size)
{
    const unsigned char *at = (const unsigned char *)bytes;
    while (size-- > 0)
        v->sum = v->sum * 31 + *at++;
}

/* A number below another, the same in each visit. */
static size_t visit_any(visit *v, size_t below)
{
    v->seed = v->seed * 6364136223846793005ul + 1442695040888963407ul;
    return (size_t)(v->seed >> 33) % below;
}

static int is_below(size_t index, size_t count)
{
    return index < count;
}

static int is_below_or_none(size_t index, size_t count)
{
    return index < count || index == GLTF_NONE;
}

/* Whether a call that allocates may have failed here. */
static int visit_lacks(visit *v, gltf_status status)
{
    return v->may_lack_memory && status == GLTF_NO_MEMORY;
}

/* ---- Texts, lists, numbers. */

typedef gltf_status text_call(visit *v, unsigned int what, size_t index, size_t part, char *text,
                              size_t room, size_t *length);

static gltf_status call_name(visit *v, unsigned int what, size_t index, size_t part, char *text,
                             size_t room, size_t *length)
{
    (void)part;
    return gltf_name(v->file, what, index, text, room, length);
}

static gltf_status call_text(visit *v, unsigned int what, size_t index, size_t part, char *text,
                             size_t room, size_t *length)
{
    (void)part;
    return gltf_text(v->file, what, index, text, room, length);
}

static gltf_status call_extras(visit *v, unsigned int what, size_t index, size_t part, char *text,
                               size_t room, size_t *length)
{
    return gltf_json(v->file, what, index, part, NULL, 0, text, room, length);
}

static gltf_status call_extension(visit *v, unsigned int what, size_t index, size_t part,
                                  char *text, size_t room, size_t *length)
{
    return gltf_json(v->file, what, index, part, "EXT_mark", 8, text, room, length);
}

/* The length of a text, and the text in a block of any size. Returns whether there is one. */
static int visit_text(visit *v, text_call *call, unsigned int what, size_t index, size_t part)
{
    size_t length = 1, again = 2, room;
    gltf_status status = call(v, what, index, part, NULL, 0, &length);
    char *text;
    if (status != GLTF_SUCCESS) {
        MUST(v, (status == GLTF_NO_SUCH_INDEX || visit_lacks(v, status)) && length == 1);
        return 0;
    }
    room = visit_any(v, 3) == 0 ? length + 1 : 1 + visit_any(v, length + 2);
    text = (char *)VISIT_MALLOC(room);
    if (text == NULL)
        return 1;
    memset(text, 1, room);
    status = call(v, what, index, part, text, room, &again);
    if (status == GLTF_SUCCESS) {
        MUST(v, again == length && text[length < room ? length : room - 1] == 0);
        visit_add(v, text, length < room ? length : room);
    } else
        MUST(v, visit_lacks(v, status) && again == 2);
    VISIT_FREE(text);
    return 1;
}


/* A list of nodes. */
static void visit_list(visit *v, unsigned int what, size_t index, size_t wanted)
{
    size_t count = 0, again = 0, room = visit_any(v, wanted + 2), i;
    size_t *list = (size_t *)VISIT_LIST(room * sizeof *list);
    if (list == NULL)
        return;
    MUST(v, gltf_list(v->file, what, index, NULL, 0, &count) == GLTF_SUCCESS && count == wanted);
    MUST(v, gltf_list(v->file, what, index, list, room, &again) == GLTF_SUCCESS && again == count);
    for (i = 0; i < room && i < count; i++) {
        MUST(v, is_below(list[i], v->counts[GLTF_NODES]));
        visit_add(v, &list[i], sizeof *list);
    }
    VISIT_FREE(list);
}

static void visit_numbers(visit *v, unsigned int what, size_t index)
{
    size_t count = 0, again = 0, room, i;
    double *list;
    MUST(v, gltf_numbers(v->file, what, index, NULL, 0, &count) == GLTF_SUCCESS);
    room = visit_any(v, count + 2);
    list = (double *)VISIT_LIST(room * sizeof *list);
    if (list == NULL)
        return;
    MUST(v, gltf_numbers(v->file, what, index, list, room, &again) == GLTF_SUCCESS
            && again == count);
    for (i = 0; i < room && i < count; i++)
        MUST(v, list[i] - list[i] == 0);
    visit_add(v, list, (room < count ? room : count) * sizeof *list);
    VISIT_FREE(list);
}

/* ---- Structs. */

/* Fills in the struct of the record at an index, over other bytes, and one that is not there, which
 * changes nothing. Its bytes count, but for pointers. */
#define FILL(v, it, call, missing) do { \
        size_t zero_; \
        memset(&(it), 0x5a, sizeof (it)); \
        MUST(v, (missing) == GLTF_NO_SUCH_INDEX && ((unsigned char *)&(it))[0] == 0x5a \
                && (it).reserved[0] != 0 \
                && (it).reserved[0] == (it).reserved[sizeof (it).reserved / sizeof (size_t) - 1]); \
        memset(&(it), 0xa5, sizeof (it)); \
        MUST(v, (call) == GLTF_SUCCESS); \
        for (zero_ = 0; zero_ < sizeof (it).reserved / sizeof *(it).reserved; zero_++) \
            MUST(v, (it).reserved[zero_] == 0); \
    } while (0)
#define INFO(v, kind, it, index, count) \
    FILL(v, it, gltf_##kind##_info((v)->file, index, &(it)), \
         gltf_##kind##_info((v)->file, count, &(it)))

/* An extension that was asked for: it may be absent, or not of its form, and nothing is written
 * then. Returns whether it is there. */
static int visit_extension(visit *v, gltf_status status, const void *it, size_t size,
                           size_t reserved)
{
    const unsigned char *bytes = (const unsigned char *)it;
    size_t at = status == GLTF_SUCCESS ? size - reserved : 0;
    for (; at < size; at++)
        MUST(v, bytes[at] == (status == GLTF_SUCCESS ? 0 : 0x5a));
    MUST(v, status == GLTF_SUCCESS || status == GLTF_NO_SUCH_INDEX || status == GLTF_BAD_EXTENSION
            || visit_lacks(v, status));
    if (status != GLTF_SUCCESS)
        visit_add(v, &status, sizeof status);
    else
        visit_add(v, it, size);
    return status == GLTF_SUCCESS;
}

/* The same of a record, and of one that is not there. */
#define EXTENSION(v, kind, it, index, count) \
    (MUST_BE_ABSENT(v, kind, it, count), \
     visit_extension(v, gltf_##kind##_info((v)->file, index, &(it)), &(it), sizeof (it), \
                     sizeof (it).reserved))
#define MUST_BE_ABSENT(v, kind, it, count) \
    (memset(&(it), 0x5a, sizeof (it)), \
     (void)(gltf_##kind##_info((v)->file, count, &(it)) != GLTF_NO_SUCH_INDEX \
            && ((v)->wrong = __LINE__) != 0))

static void visit_use(visit *v, const gltf_texture_use *it)
{
    MUST(v, is_below_or_none(it->texture, v->counts[GLTF_TEXTURES]) && it->has_transform <= 1);
}

static void visit_packet(visit *v, unsigned int kind, size_t index, size_t part)
{
    size_t packet = 0x5a;
    gltf_status status = gltf_xmp_packet(v->file, kind, index, part, &packet);
    MUST(v, status == GLTF_SUCCESS || packet == 0x5a);
    MUST(v, status == GLTF_SUCCESS || status == GLTF_NO_SUCH_INDEX || status == GLTF_BAD_EXTENSION
            || visit_lacks(v, status));
    visit_add(v, &status, sizeof status);
    visit_add(v, &packet, sizeof packet);
}

/* Whether a view is in a buffer that waits: no call gives an address there, also of no bytes. */
static int is_awaited(visit *v, size_t view)
{
    gltf_buffer_view at;
    gltf_buffer it;
    return view != GLTF_NONE && gltf_buffer_view_info(v->file, view, &at) == GLTF_SUCCESS
        && gltf_buffer_info(v->file, at.buffer, &it) == GLTF_SUCCESS && it.waits == 1;
}

static void visit_buffer(visit *v, size_t index)
{
    gltf_buffer it;
    INFO(v, buffer, it, index, v->counts[GLTF_BUFFERS]);
    MUST(v, it.waits <= (v->has_options ? 1u : 0u) && (it.bytes == NULL) == (it.waits == 1));
    MUST(v, it.waits ? it.size == 0 : it.size >= it.byte_length && it.size % 4 == 0);
    visit_add(v, &it.size, sizeof it - offsetof(gltf_buffer, size));
    visit_add(v, it.bytes, it.size < VISIT_MOST ? it.size : VISIT_MOST);
    visit_text(v, call_text, GLTF_BUFFER_URI, index, 0);
}

static void visit_view(visit *v, size_t index)
{
    gltf_buffer_view it;
    gltf_meshopt meshopt;
    INFO(v, buffer_view, it, index, v->counts[GLTF_BUFFER_VIEWS]);
    if (EXTENSION(v, meshopt, meshopt, index, v->counts[GLTF_BUFFER_VIEWS]))
        MUST(v, is_below(meshopt.buffer, v->counts[GLTF_BUFFERS])
                && meshopt.mode <= GLTF_MESHOPT_INDICES
                && meshopt.filter <= GLTF_MESHOPT_EXPONENTIAL);
    MUST(v, is_below(it.buffer, v->counts[GLTF_BUFFERS]));
    MUST(v, it.target == 0 || it.target == 34962 || it.target == 34963);
    MUST(v, it.bytes == NULL || !is_awaited(v, index));
    visit_add(v, &it, offsetof(gltf_buffer_view, bytes));
    if (it.bytes != NULL)
        visit_add(v, it.bytes, it.byte_length < VISIT_MOST ? it.byte_length : VISIT_MOST);
}

/* The items in place, and those that are copied, which are the same. */
static void visit_items(visit *v, size_t index, const gltf_accessor *it)
{
    int fits = it->count <= VISIT_MOST / it->item_size;
    size_t size = fits ? it->count * it->item_size : VISIT_MOST, i;
    size_t count = fits ? it->count * it->components : VISIT_MOST / 4;
    unsigned char *items = (unsigned char *)VISIT_MALLOC(size + 1);
    unsigned int *words = (unsigned int *)VISIT_LIST(count * sizeof *words);
    gltf_status status;
    if (items != NULL && words != NULL) {
        items[size] = 0x5a;
        status = gltf_accessor_read(v->file, index, items, size);
        MUST(v, status == GLTF_SUCCESS || status == GLTF_UNREADABLE
                || (!fits && status == GLTF_NO_ROOM));
        MUST(v, it->data == NULL || status != GLTF_UNREADABLE);
        MUST(v, items[size] == 0x5a);
        visit_add(v, &status, sizeof status);
        if (status == GLTF_SUCCESS) {
            visit_add(v, items, size);
            MUST(v, gltf_accessor_read(v->file, index, items, visit_any(v, size)) == GLTF_NO_ROOM);
            for (i = 0; it->data != NULL && i < it->count; i++)
                MUST(v, memcmp(items + i * it->item_size, it->data + i * it->stride,
                               it->item_size) == 0);
            status = gltf_accessor_read_u32(v->file, index, words, count);
            MUST(v, status == GLTF_SUCCESS || status == GLTF_OTHER_TYPE);
            if (status == GLTF_SUCCESS)
                visit_add(v, words, count * sizeof *words);
        } else
            MUST(v, gltf_accessor_read_u32(v->file, index, words, count) != GLTF_SUCCESS);
    }
    VISIT_FREE(items);
    VISIT_FREE(words);
}

static void visit_accessor(visit *v, size_t index)
{
    gltf_accessor it;
    size_t width;
    INFO(v, accessor, it, index, v->counts[GLTF_ACCESSORS]);
    MUST(v, it.component_type >= GLTF_I8 && it.component_type <= GLTF_F32);
    MUST(v, it.components >= 1 && it.components <= 16 && it.is_matrix <= 1 && it.normalized <= 1);
    width = it.component_type < GLTF_I16 ? 1 : it.component_type < GLTF_U32 ? 2 : 4;
    MUST(v, it.item_size == width * it.components && it.stride >= (it.data ? it.item_size : 0));
    MUST(v, is_below_or_none(it.view, v->counts[GLTF_BUFFER_VIEWS]));
    MUST(v, it.data == NULL || (it.view != GLTF_NONE && it.sparse == 0 && it.count > 0));
    MUST(v, it.data == NULL || !is_awaited(v, it.view));
    visit_add(v, &it, offsetof(gltf_accessor, data));
    visit_numbers(v, GLTF_ACCESSOR_MIN, index);
    visit_numbers(v, GLTF_ACCESSOR_MAX, index);
    if (v->wrong == 0)
        visit_items(v, index, &it);
}

/* An attribute and its name, of which the length is the same at each asking. */
static int visit_attribute(visit *v, size_t mesh, size_t primitive, size_t target, size_t position)
{
    gltf_attribute it;
    size_t length = 0, again = 0, found = 0, room;
    gltf_status status;
    char *name;
    if (gltf_attribute_info(v->file, mesh, primitive, target, position, &it) != GLTF_SUCCESS)
        return 0;
    FILL(v, it, gltf_attribute_info(v->file, mesh, primitive, target, position, &it),
         gltf_attribute_info(v->file, mesh, primitive, target, GLTF_NONE, &it));
    MUST(v, it.meaning <= GLTF_CUSTOM && is_below(it.accessor, v->counts[GLTF_ACCESSORS]));
    visit_add(v, &it, sizeof it);
    status = gltf_attribute_name(v->file, mesh, primitive, target, position, NULL, 0, &length);
    MUST(v, (status == GLTF_SUCCESS && length > 0) || visit_lacks(v, status));
    room = 1 + visit_any(v, length + 2);
    name = (char *)VISIT_MALLOC(room);
    if (name != NULL && status == GLTF_SUCCESS) {
        status = gltf_attribute_name(v->file, mesh, primitive, target, position, name, room,
                                     &again);
        MUST(v, status == GLTF_SUCCESS || visit_lacks(v, status));
        if (status == GLTF_SUCCESS) {
            MUST(v, again == length && name[length < room ? length : room - 1] == 0);
            visit_add(v, name, length < room ? length : room);
        }
    }
    VISIT_FREE(name);
    MUST(v, gltf_attribute_find(v->file, mesh, primitive, target, it.meaning, it.set, &found)
            == (it.meaning == GLTF_CUSTOM ? (gltf_status)GLTF_NO_SUCH_INDEX
                : (gltf_status)GLTF_SUCCESS));
    MUST(v, it.meaning == GLTF_CUSTOM || found == it.accessor);
    return 1;
}

static void visit_json(visit *v, unsigned int kind, size_t index, size_t part)
{
    visit_text(v, call_extras, kind, index, part);
    visit_text(v, call_extension, kind, index, part);
    visit_packet(v, kind, index, part);
}

/* The material of a primitive in a variant, and what is wrong with it: one that is there has no
 * fault, and one that is not has its own. Nothing is written where there is none. */
static void visit_variant(visit *v, size_t mesh, size_t primitive, size_t variant)
{
    size_t material = 0x5a, at;
    gltf_fault fault;
    gltf_status found = gltf_variant_material(v->file, mesh, primitive, variant, &material), status;
    memset(&fault, 0x5a, sizeof fault);
    status = gltf_variant_fault(v->file, mesh, primitive, variant, &fault);
    MUST(v, found == GLTF_SUCCESS || (found == GLTF_NO_SUCH_INDEX && material == 0x5a));
    if (found == GLTF_SUCCESS && material >= v->counts[GLTF_MATERIALS]) {
        MUST(v, status == GLTF_SUCCESS && fault.status == GLTF_BAD_EXTENSION && fault.rules == 0);
        MUST(v, fault.buffer == GLTF_NONE && fault.expected == 0 && fault.actual == 0);
        MUST(v, fault.path[0] == '/' && memchr(fault.path, 0, sizeof fault.path) != NULL);
        MUST(v, fault.text[0] != 0 && memchr(fault.text, 0, sizeof fault.text) != NULL);
    } else {
        MUST(v, status == GLTF_NO_SUCH_INDEX);
        for (at = 0; at < sizeof fault; at++)
            MUST(v, ((unsigned char *)&fault)[at] == 0x5a);
    }
    visit_add(v, &material, sizeof material);
    visit_add(v, &fault, sizeof fault);
}

static void visit_primitive(visit *v, size_t mesh, size_t index, size_t primitives)
{
    gltf_primitive it;
    size_t i, t;
    FILL(v, it, gltf_primitive_info(v->file, mesh, index, &it),
         gltf_primitive_info(v->file, mesh, primitives, &it));
    MUST(v, it.mode <= GLTF_TRIANGLE_FAN && it.reserved_word == 0);
    MUST(v, is_below_or_none(it.indices, v->counts[GLTF_ACCESSORS]));
    MUST(v, is_below_or_none(it.material, v->counts[GLTF_MATERIALS]));
    visit_add(v, &it, sizeof it);
    visit_json(v, GLTF_PRIMITIVES, mesh, index);
    for (i = 0; i <= v->counts[GLTF_VARIANTS] && i < 9; i++)
        visit_variant(v, mesh, index, i);
    for (i = 0; visit_attribute(v, mesh, index, GLTF_NONE, i); i++)
        continue;
    MUST(v, i == it.attributes);
    for (t = 0; t < it.targets; t++)
        for (i = 0; visit_attribute(v, mesh, index, t, i); i++)
            continue;
    MUST(v, !visit_attribute(v, mesh, index, it.targets, 0));
}

static void visit_mesh(visit *v, size_t index)
{
    gltf_mesh it;
    size_t i, count = 0;
    INFO(v, mesh, it, index, v->counts[GLTF_MESHES]);
    visit_add(v, &it, sizeof it);
    visit_numbers(v, GLTF_MESH_WEIGHTS, index);
    MUST(v, gltf_numbers(v->file, GLTF_MESH_WEIGHTS, index, NULL, 0, &count) == GLTF_SUCCESS
            && count == it.weights);
    for (i = 0; i < it.primitives; i++)
        visit_primitive(v, index, i, it.primitives);
}

static void visit_layers(visit *v, size_t index)
{
    gltf_clearcoat clearcoat;
    gltf_sheen sheen;
    gltf_iridescence iridescence;
    size_t count = v->counts[GLTF_MATERIALS];
    if (EXTENSION(v, clearcoat, clearcoat, index, count)) {
        visit_use(v, &clearcoat.clearcoat);
        visit_use(v, &clearcoat.clearcoat_roughness);
        visit_use(v, &clearcoat.clearcoat_normal);
    }
    if (EXTENSION(v, sheen, sheen, index, count)) {
        visit_use(v, &sheen.sheen_color);
        visit_use(v, &sheen.sheen_roughness);
    }
    if (EXTENSION(v, iridescence, iridescence, index, count)) {
        visit_use(v, &iridescence.iridescence);
        visit_use(v, &iridescence.iridescence_thickness);
    }
}

static void visit_light_through(visit *v, size_t index)
{
    gltf_anisotropy anisotropy;
    gltf_dispersion dispersion;
    gltf_diffuse_transmission diffuse;
    size_t count = v->counts[GLTF_MATERIALS];
    if (EXTENSION(v, anisotropy, anisotropy, index, count))
        visit_use(v, &anisotropy.anisotropy);
    if (EXTENSION(v, dispersion, dispersion, index, count))
        MUST(v, dispersion.dispersion - dispersion.dispersion == 0);
    if (EXTENSION(v, diffuse_transmission, diffuse, index, count)) {
        visit_use(v, &diffuse.diffuse_transmission);
        visit_use(v, &diffuse.diffuse_transmission_color);
    }
}

static void visit_material(visit *v, size_t index)
{
    gltf_material it;
    INFO(v, material, it, index, v->counts[GLTF_MATERIALS]);
    MUST(v, it.alpha_mode <= GLTF_BLEND && it.double_sided <= 1 && it.has < 256);
    MUST(v, is_below_or_none(it.base_color.texture, v->counts[GLTF_TEXTURES]));
    MUST(v, is_below_or_none(it.normal.texture, v->counts[GLTF_TEXTURES]));
    MUST(v, is_below_or_none(it.specular_color.texture, v->counts[GLTF_TEXTURES]));
    visit_add(v, &it, sizeof it);
    MUST(v, gltf_material_info(v->file, GLTF_NONE, &it) == GLTF_SUCCESS && it.has == 0);
    visit_layers(v, index);
    visit_light_through(v, index);
}

static void visit_texture(visit *v, size_t index)
{
    gltf_texture it;
    gltf_texture_source source;
    INFO(v, texture, it, index, v->counts[GLTF_TEXTURES]);
    if (EXTENSION(v, basisu, source, index, v->counts[GLTF_TEXTURES]))
        MUST(v, is_below_or_none(source.image, v->counts[GLTF_IMAGES]));
    if (EXTENSION(v, webp, source, index, v->counts[GLTF_TEXTURES]))
        MUST(v, is_below_or_none(source.image, v->counts[GLTF_IMAGES]));
    MUST(v, is_below_or_none(it.image, v->counts[GLTF_IMAGES]));
    MUST(v, is_below_or_none(it.sampler, v->counts[GLTF_SAMPLERS]));
    visit_add(v, &it, sizeof it);
}

static void visit_sampler(visit *v, size_t index)
{
    gltf_sampler it;
    INFO(v, sampler, it, index, v->counts[GLTF_SAMPLERS]);
    visit_add(v, &it, sizeof it);
}

static void visit_image(visit *v, size_t index)
{
    gltf_image it;
    INFO(v, image, it, index, v->counts[GLTF_IMAGES]);
    MUST(v, is_below_or_none(it.view, v->counts[GLTF_BUFFER_VIEWS]));
    MUST(v, it.bytes == NULL || !is_awaited(v, it.view));
    visit_add(v, &it.size, sizeof it.size);
    if (it.bytes != NULL)
        visit_add(v, it.bytes, it.size < VISIT_MOST ? it.size : VISIT_MOST);
    MUST(v, visit_text(v, call_text, GLTF_IMAGE_URI, index, 0) || it.view != GLTF_NONE
            || v->may_lack_memory);
    visit_text(v, call_text, GLTF_IMAGE_MIME_TYPE, index, 0);
}

static void visit_scene(visit *v, size_t index)
{
    gltf_scene it;
    INFO(v, scene, it, index, v->counts[GLTF_SCENES]);
    visit_list(v, GLTF_SCENE_NODES, index, it.nodes);
}

static void visit_node(visit *v, size_t index)
{
    gltf_node it;
    gltf_instancing instancing;
    gltf_visibility visibility;
    INFO(v, node, it, index, v->counts[GLTF_NODES]);
    if (EXTENSION(v, instancing, instancing, index, v->counts[GLTF_NODES]))
        MUST(v, is_below_or_none(instancing.translation, v->counts[GLTF_ACCESSORS])
                && is_below_or_none(instancing.rotation, v->counts[GLTF_ACCESSORS])
                && is_below_or_none(instancing.scale, v->counts[GLTF_ACCESSORS]));
    if (EXTENSION(v, visibility, visibility, index, v->counts[GLTF_NODES]))
        MUST(v, visibility.visible <= 1);
    MUST(v, is_below_or_none(it.mesh, v->counts[GLTF_MESHES]));
    MUST(v, is_below_or_none(it.skin, v->counts[GLTF_SKINS]));
    MUST(v, is_below_or_none(it.camera, v->counts[GLTF_CAMERAS]));
    MUST(v, is_below_or_none(it.light, v->counts[GLTF_LIGHTS]));
    MUST(v, it.has < 16);
    visit_add(v, &it, sizeof it);
    visit_list(v, GLTF_NODE_CHILDREN, index, it.children);
    visit_numbers(v, GLTF_NODE_WEIGHTS, index);
}

static void visit_skin(visit *v, size_t index)
{
    gltf_skin it;
    INFO(v, skin, it, index, v->counts[GLTF_SKINS]);
    MUST(v, is_below_or_none(it.skeleton, v->counts[GLTF_NODES]));
    MUST(v, is_below_or_none(it.inverse_bind_matrices, v->counts[GLTF_ACCESSORS]));
    visit_add(v, &it, sizeof it);
    visit_list(v, GLTF_SKIN_JOINTS, index, it.joints);
}

static void visit_animation(visit *v, size_t index)
{
    gltf_animation it;
    gltf_channel channel;
    size_t i;
    INFO(v, animation, it, index, v->counts[GLTF_ANIMATIONS]);
    for (i = 0; i < it.channels; i++) {
        FILL(v, channel, gltf_channel_info(v->file, index, i, &channel),
             gltf_channel_info(v->file, index, it.channels, &channel));
        MUST(v, is_below_or_none(channel.node, v->counts[GLTF_NODES]));
        MUST(v, channel.path <= GLTF_PATH_WEIGHTS && channel.interpolation <= GLTF_CUBIC_SPLINE);
        MUST(v, is_below(channel.sampler, it.samplers));
        MUST(v, is_below(channel.input, v->counts[GLTF_ACCESSORS]));
        MUST(v, is_below(channel.output, v->counts[GLTF_ACCESSORS]));
        visit_add(v, &channel, sizeof channel);
        visit_json(v, GLTF_CHANNELS, index, i);
    }
    for (i = 0; i <= it.samplers; i++)
        visit_json(v, GLTF_ANIMATION_SAMPLERS, index, i);
}

static void visit_camera(visit *v, size_t index)
{
    gltf_camera it;
    INFO(v, camera, it, index, v->counts[GLTF_CAMERAS]);
    MUST(v, it.orthographic <= 1);
    visit_add(v, &it, sizeof it);
}

static void visit_light(visit *v, size_t index)
{
    gltf_light it;
    INFO(v, light, it, index, v->counts[GLTF_LIGHTS]);
    MUST(v, it.type <= GLTF_SPOT);
    visit_add(v, &it, sizeof it);
}

/* ---- A file. */

static void visit_root(visit *v)
{
    size_t scene = 0;
    unsigned int what;
    gltf_status status = gltf_default_scene(v->file, &scene);
    MUST(v, status == GLTF_SUCCESS ? is_below(scene, v->counts[GLTF_SCENES])
            : status == GLTF_NO_SUCH_INDEX);
    for (what = 0; what <= GLTF_ASSET_COPYRIGHT + 1; what++)
        visit_text(v, call_text, what, visit_any(v, 2), 0);
}

/* Visits all of a file. */
static void visit_all(visit *v)
{
    static void (*const each[])(visit *, size_t) = {
        visit_buffer, visit_view, visit_accessor, visit_mesh, visit_node, visit_material,
        visit_scene, visit_skin, visit_animation, visit_image, visit_texture, visit_sampler,
        visit_camera, visit_light
    };
    unsigned int kind;
    size_t i;
    v->sum = 1;
    v->seed = 1;
    v->wrong = 0;
    for (kind = 0; kind <= GLTF_ROOT; kind++)
        v->counts[kind] = gltf_count(v->file, kind);
    for (kind = 0; kind <= GLTF_ROOT; kind++)
        for (i = 0; i <= v->counts[kind] && v->wrong == 0; i++) {
            visit_text(v, call_name, kind, i, 0);
            visit_json(v, kind, i, visit_any(v, 2));
            if (i < v->counts[kind] && kind < sizeof each / sizeof *each)
                each[kind](v, i);
        }
    visit_root(v);
}

#endif
