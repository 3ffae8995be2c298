/* cgltf's calls over gltf.h: for programs that were written for cgltf 1.12.
 *
 * Compile this file in place of the one that defines CGLTF_IMPLEMENTATION, with cgltf.h in reach,
 * as C99 or C++, and link libgltf. It includes cgltf_records.h. cgltf_parse, cgltf_parse_file,
 * cgltf_load_buffers and cgltf_free are then the ones below: libgltf opens and checks the file. All
 * other calls are cgltf's own; they only look at the structs. This is tested and not proved.
 *
 * What differs from cgltf:
 *   - Files that libgltf does not accept are refused, as those with an index out of range and those
 *     that require Draco, meshopt or BasisU. GLTF_SAY=1 in the environment prints the reason.
 *   - Attributes are ordered by their meaning. Of morph targets there are POSITION, NORMAL and
 *     TANGENT.
 *   - A sparse accessor has its items in a buffer of its own: `is_sparse` is 0.
 *   - `texcoord` of a texture is that of its KHR_texture_transform, if it has one, and
 *     `has_texcoord` is 0.
 *   - `json` has the texts of extras and extensions that libgltf gives, and nothing else. `bin` is
 *     NULL: the bytes of buffers are copies, as a caller may free them.
 *   - Extras and extensions of records inside others, as of a texture in a material, are left out,
 *     and so are extensions of channels and of samplers of animations, and extras of variants.
 *   - `extensions` of a material also has clearcoat, sheen and iridescence. */
#define cgltf_parse cgltf_own_parse
#define cgltf_parse_file cgltf_own_parse_file
#define cgltf_load_buffers cgltf_own_load_buffers
#define cgltf_free cgltf_own_free
#define CGLTF_IMPLEMENTATION
#include "cgltf.h"
#undef cgltf_parse
#undef cgltf_parse_file
#undef cgltf_load_buffers
#undef cgltf_free

#include "gltf.h"

#include <setjmp.h>
#include <stdio.h>
#include <stdlib.h>
#include <string.h>

#ifdef __cplusplus
extern "C" {
#endif

/* The head of a block of memory, which aligns what is after it. */
typedef union block {
    union block *next;
    long double number;
} block;

/* What is around a cgltf_data. */
typedef struct model {
    cgltf_data data; /* the first member: a pointer to it is one to the whole */
    gltf_file *file;
    block *blocks;   /* all that was allocated */
    char *json;      /* extras and extensions, one text after the other */
    size_t json_size, json_room;
    jmp_buf failed;  /* where a cgltf_result is thrown to */
} model;

/* ---- Memory. */

static void fail(model *m, cgltf_result result)
{
    longjmp(m->failed, (int)result);
}

/* A block of zeros. It never returns NULL. */
static void *allocate(model *m, size_t count, size_t size)
{
    const cgltf_memory_options *memory = &m->data.memory;
    size_t all = sizeof(block) + count * size;
    block *it = NULL;
    if (count < ((size_t)-1 - sizeof *it) / (size + 1))
        it = (block *)memory->alloc_func(memory->user_data, all);
    if (it == NULL)
        fail(m, cgltf_result_out_of_memory);
    memset(it, 0, all);
    it->next = m->blocks;
    m->blocks = it;
    return it + 1;
}

#define NEW(m, type, count) ((type *)allocate(m, count, sizeof(type)))

/* For the parsers of cgltf that are called below: what they allocate belongs to the model. */
static void *allocate_for_parser(void *user, cgltf_size size)
{
    return allocate((model *)user, size, 1);
}

static void free_for_parser(void *user, void *pointer)
{
    (void)user;
    (void)pointer;
}

/* Ends the making of a model where a call failed that can lack nothing but memory. */
static void check(model *m, gltf_status status)
{
    if (status != GLTF_SUCCESS)
        fail(m, cgltf_result_out_of_memory);
}

/* ---- Texts. cgltf has texts as they are spelled in JSON. */

static char *spelled(model *m, const char *text, size_t length)
{
    char *out = NEW(m, char, 6 * length + 1), *to = out;
    size_t i;
    for (i = 0; i < length; i++) {
        unsigned char it = (unsigned char)text[i];
        if (it < 0x20)
            to += sprintf(to, "\\u%04x", (unsigned int)it);
        else {
            if (it == '"' || it == '\\')
                *to++ = '\\';
            *to++ = (char)it;
        }
    }
    return out;
}

/* The name of a record as it is, or NULL. */
static char *plain_name(model *m, unsigned int kind, size_t index, size_t *length)
{
    char *text;
    if (gltf_name(m->file, kind, index, NULL, 0, length) != GLTF_SUCCESS)
        return NULL;
    text = NEW(m, char, *length + 1);
    check(m, gltf_name(m->file, kind, index, text, *length + 1, length));
    return text;
}

static char *name_of(model *m, unsigned int kind, size_t index)
{
    size_t length;
    char *text = plain_name(m, kind, index, &length);
    return text == NULL ? NULL : spelled(m, text, length);
}

static char *text_of(model *m, unsigned int what, size_t index)
{
    size_t length;
    char *text;
    if (gltf_text(m->file, what, index, NULL, 0, &length) != GLTF_SUCCESS)
        return NULL;
    text = NEW(m, char, length + 1);
    check(m, gltf_text(m->file, what, index, text, length + 1, &length));
    return spelled(m, text, length);
}

/* ---- JSON texts: extras, extensions, and what is parsed of them. */

/* The JSON text of the extras, or of an extension, after the others in `json`. */
static cgltf_extras json_of(model *m, unsigned int kind, size_t index, size_t part,
                            const char *extension, size_t extension_size)
{
    cgltf_extras out = { 0, 0 };
    size_t length;
    gltf_status status = gltf_json(m->file, kind, index, part, extension, extension_size, NULL, 0,
                                   &length);
    if (status == GLTF_NO_SUCH_INDEX)
        return out;
    check(m, status);
    if (m->json_room - m->json_size < length + 1) {
        char *more = NEW(m, char, 2 * m->json_room + length + 1);
        if (m->json_size > 0)
            memcpy(more, m->json, m->json_size);
        m->json = more;
        m->json_room = 2 * m->json_room + length + 1;
    }
    check(m, gltf_json(m->file, kind, index, part, extension, extension_size,
                       m->json + m->json_size, length + 1, &length));
    out.start_offset = m->json_size;
    out.end_offset = m->json_size += length;
    return out;
}

static cgltf_extras extras_of(model *m, unsigned int kind, size_t index, size_t part)
{
    return json_of(m, kind, index, part, NULL, 0);
}

/* The extensions of a record that gltf_json gives, of those that the file declares. */
static cgltf_extension *extensions_of(model *m, unsigned int kind, size_t index, size_t part,
                                      cgltf_size *count)
{
    cgltf_extension *out = NEW(m, cgltf_extension, m->data.extensions_used_count);
    size_t i;
    for (i = 0; i < m->data.extensions_used_count; i++) {
        size_t length;
        char *name = plain_name(m, GLTF_EXTENSIONS_USED, i, &length);
        cgltf_extras it = json_of(m, kind, index, part, name, length);
        if (it.end_offset > it.start_offset) {
            out[*count].name = m->data.extensions_used[i];
            out[*count].data = NEW(m, char, it.end_offset - it.start_offset + 1);
            memcpy(out[*count].data, m->json + it.start_offset, it.end_offset - it.start_offset);
            ++*count;
        }
    }
    return out;
}

/* The tokens of a part of `json`, which are cgltf's own, with one more behind them. */
static jsmntok_t *tokens_of(model *m, cgltf_extras part)
{
    jsmn_parser parser;
    jsmntok_t *tokens;
    int count;
    jsmn_init(&parser);
    parser.pos = (unsigned int)part.start_offset;
    count = part.end_offset == part.start_offset ? 0
        : jsmn_parse(&parser, m->json, part.end_offset, NULL, 0);
    if (count <= 0)
        return NULL;
    tokens = NEW(m, jsmntok_t, (size_t)count + 1);
    jsmn_init(&parser);
    parser.pos = (unsigned int)part.start_offset;
    jsmn_parse(&parser, m->json, part.end_offset, tokens, (size_t)count);
    return tokens;
}

static cgltf_options options_of_parser(model *m)
{
    cgltf_options out;
    memset(&out, 0, sizeof out);
    out.memory.alloc_func = allocate_for_parser;
    out.memory.free_func = free_for_parser;
    out.memory.user_data = m;
    return out;
}

/* The names of morph targets: a list of texts `targetNames` in the extras of a mesh. */
static void target_names(model *m, cgltf_mesh *mesh)
{
    cgltf_options options = options_of_parser(m);
    const uint8_t *json = (const uint8_t *)m->json;
    jsmntok_t *tokens = tokens_of(m, mesh->extras);
    int i = 1, k, count = tokens != NULL && tokens[0].type == JSMN_OBJECT ? tokens[0].size : 0;
    for (k = 0; k < count; k++)
        if (cgltf_json_strcmp(tokens + i, json, "targetNames") == 0
            && tokens[i + 1].type == JSMN_ARRAY && mesh->target_names == NULL) {
            i = cgltf_parse_json_string_array(&options, tokens, i + 1, json, &mesh->target_names,
                                              &mesh->target_names_count);
            if (i < 0)
                fail(m, cgltf_result_invalid_gltf);
        } else
            i = cgltf_skip_json(tokens, i + 1);
}

/* The texture of a view that cgltf parsed, which is a number still. */
static void find_texture(model *m, cgltf_texture_view *view)
{
    size_t number = (size_t)view->texture;
    if (number > m->data.textures_count)
        fail(m, cgltf_result_invalid_gltf);
    view->texture = number == 0 ? NULL : m->data.textures + (number - 1);
}

typedef enum layer { CLEARCOAT, SHEEN, IRIDESCENCE, LAYERS } layer;

/* An extension of a material, by cgltf's own parser over its JSON. */
static int parse_layer(model *m, cgltf_material *out, size_t index, layer which)
{
    static const char *const names[LAYERS] = {
        "KHR_materials_clearcoat", "KHR_materials_sheen", "KHR_materials_iridescence"
    };
    cgltf_options options = options_of_parser(m);
    cgltf_extras part = json_of(m, GLTF_MATERIALS, index, 0, names[which], strlen(names[which]));
    jsmntok_t *tokens = tokens_of(m, part);
    const uint8_t *json = (const uint8_t *)m->json;
    int end;
    if (tokens == NULL)
        return 0;
    if (which == CLEARCOAT)
        end = cgltf_parse_json_clearcoat(&options, tokens, 0, json, &out->clearcoat);
    else if (which == SHEEN)
        end = cgltf_parse_json_sheen(&options, tokens, 0, json, &out->sheen);
    else
        end = cgltf_parse_json_iridescence(&options, tokens, 0, json, &out->iridescence);
    if (end < 0)
        fail(m, cgltf_result_invalid_gltf);
    return 1;
}

static void parse_layers(model *m, cgltf_material *out, size_t index)
{
    out->has_clearcoat = parse_layer(m, out, index, CLEARCOAT);
    find_texture(m, &out->clearcoat.clearcoat_texture);
    find_texture(m, &out->clearcoat.clearcoat_roughness_texture);
    find_texture(m, &out->clearcoat.clearcoat_normal_texture);
    out->has_sheen = parse_layer(m, out, index, SHEEN);
    find_texture(m, &out->sheen.sheen_color_texture);
    find_texture(m, &out->sheen.sheen_roughness_texture);
    out->has_iridescence = parse_layer(m, out, index, IRIDESCENCE);
    find_texture(m, &out->iridescence.iridescence_texture);
    find_texture(m, &out->iridescence.iridescence_thickness_texture);
}

#include "cgltf_records.h"

/* ---- A file. */

static void make_names(model *m, unsigned int kind, char ***names, cgltf_size *count)
{
    size_t i;
    *count = gltf_count(m->file, kind);
    *names = NEW(m, char *, *count);
    for (i = 0; i < *count; i++)
        (*names)[i] = name_of(m, kind, i);
}

/* Makes the whole. The lists are allocated first, since records point into them. */
static void make_all(model *m)
{
    cgltf_data *data = &m->data;
    size_t i, scene;
#define LIST(kind, type, list) \
    data->list##_count = gltf_count(m->file, kind); \
    data->list = NEW(m, type, data->list##_count);
#define FILL(list, make) \
    for (i = 0; i < data->list##_count; i++) \
        make(m, i);
    LIST(GLTF_BUFFERS, cgltf_buffer, buffers)
    LIST(GLTF_BUFFER_VIEWS, cgltf_buffer_view, buffer_views)
    LIST(GLTF_ACCESSORS, cgltf_accessor, accessors)
    LIST(GLTF_MESHES, cgltf_mesh, meshes)
    LIST(GLTF_MATERIALS, cgltf_material, materials)
    LIST(GLTF_IMAGES, cgltf_image, images)
    LIST(GLTF_TEXTURES, cgltf_texture, textures)
    LIST(GLTF_SAMPLERS, cgltf_sampler, samplers)
    LIST(GLTF_SKINS, cgltf_skin, skins)
    LIST(GLTF_CAMERAS, cgltf_camera, cameras)
    LIST(GLTF_LIGHTS, cgltf_light, lights)
    LIST(GLTF_NODES, cgltf_node, nodes)
    LIST(GLTF_SCENES, cgltf_scene, scenes)
    LIST(GLTF_ANIMATIONS, cgltf_animation, animations)
    LIST(GLTF_VARIANTS, cgltf_material_variant, variants)
    make_names(m, GLTF_EXTENSIONS_USED, &data->extensions_used, &data->extensions_used_count);
    make_names(m, GLTF_EXTENSIONS_REQUIRED, &data->extensions_required,
               &data->extensions_required_count);
    FILL(buffers, make_buffer)
    FILL(buffer_views, make_buffer_view)
    FILL(accessors, make_accessor)
    FILL(meshes, make_mesh)
    FILL(materials, make_material)
    FILL(images, make_image)
    FILL(textures, make_texture)
    FILL(samplers, make_sampler)
    FILL(skins, make_skin)
    FILL(cameras, make_camera)
    FILL(lights, make_light)
    FILL(nodes, make_node)
    FILL(scenes, make_scene)
    FILL(animations, make_animation)
    FILL(variants, make_variant)
#undef LIST
#undef FILL
    if (gltf_default_scene(m->file, &scene) == GLTF_SUCCESS)
        data->scene = data->scenes + scene;
    data->asset.version = text_of(m, GLTF_ASSET_VERSION, 0);
    data->asset.min_version = text_of(m, GLTF_ASSET_MIN_VERSION, 0);
    data->asset.generator = text_of(m, GLTF_ASSET_GENERATOR, 0);
    data->asset.copyright = text_of(m, GLTF_ASSET_COPYRIGHT, 0);
    data->asset.extras = extras_of(m, GLTF_ASSET, 0, 0);
    data->asset.extensions = extensions_of(m, GLTF_ASSET, 0, 0, &data->asset.extensions_count);
    data->extras = extras_of(m, GLTF_ROOT, 0, 0);
    data->data_extensions = extensions_of(m, GLTF_ROOT, 0, 0, &data->data_extensions_count);
    data->json = m->json;
    data->json_size = m->json_size;
}

/* ---- The calls. */

static cgltf_result result_of(gltf_status status)
{
    switch (status) {
    case GLTF_NO_MEMORY: return cgltf_result_out_of_memory;
    case GLTF_BAD_CONTAINER: return cgltf_result_unknown_format;
    case GLTF_BAD_JSON: return cgltf_result_invalid_json;
    case GLTF_BAD_BASE64: return cgltf_result_io_error;
    case GLTF_SHORT_BUFFER: return cgltf_result_data_too_short;
    case GLTF_UNSUPPORTED_SCHEME: return cgltf_result_unknown_format;
    default: return cgltf_result_invalid_gltf;
    }
}

void cgltf_free(cgltf_data *data)
{
    model *m = (model *)data;
    size_t i;
    if (m == NULL)
        return;
    for (i = 0; i < data->buffers_count; i++)
        if (data->buffers[i].data_free_method == cgltf_data_free_method_file_release)
            data->file.release(&data->memory, &data->file, data->buffers[i].data);
        else if (data->buffers[i].data_free_method == cgltf_data_free_method_memory_free)
            data->memory.free_func(data->memory.user_data, data->buffers[i].data);
    gltf_close(m->file);
    while (m->blocks != NULL) {
        block *next = m->blocks->next;
        data->memory.free_func(data->memory.user_data, m->blocks);
        m->blocks = next;
    }
    data->memory.free_func(data->memory.user_data, m);
}

cgltf_result cgltf_parse(const cgltf_options *options, const void *bytes, cgltf_size size,
                         cgltf_data **out)
{
    static const char *const extensions[] = {
        "KHR_mesh_quantization", "KHR_materials_clearcoat", "KHR_materials_sheen",
        "KHR_materials_iridescence"
    };
    cgltf_memory_options memory;
    gltf_open_options open_options;
    gltf_fault fault;
    gltf_status status;
    model *m;
    int failed;
    if (options == NULL)
        return cgltf_result_invalid_options;
    memory = options->memory;
    if (memory.alloc_func == NULL)
        memory.alloc_func = cgltf_default_alloc;
    if (memory.free_func == NULL)
        memory.free_func = cgltf_default_free;
    m = (model *)memory.alloc_func(memory.user_data, sizeof *m);
    if (m == NULL)
        return cgltf_result_out_of_memory;
    memset(m, 0, sizeof *m);
    m->data.memory = memory;
    m->data.file = options->file;
    if (m->data.file.release == NULL)
        m->data.file.release = cgltf_default_file_release;
    m->data.file_type = size >= 4 && memcmp(bytes, "glTF", 4) == 0 ? cgltf_file_type_glb
        : cgltf_file_type_gltf;
    memset(&open_options, 0, sizeof open_options);
    open_options.flags = GLTF_EXTERNAL;
    open_options.extensions = extensions;
    open_options.extension_count = sizeof extensions / sizeof *extensions;
    status = gltf_open(bytes, size, &open_options, &m->file, &fault);
    if (status != GLTF_SUCCESS) {
        if (getenv("GLTF_SAY") != NULL)
            fprintf(stderr, "libgltf: %s: %s\n", fault.path, fault.text);
        cgltf_free(&m->data);
        return result_of(status);
    }
    failed = setjmp(m->failed);
    if (failed != 0) {
        cgltf_free(&m->data);
        return (cgltf_result)failed;
    }
    make_all(m);
    *out = &m->data;
    return cgltf_result_success;
}

cgltf_result cgltf_parse_file(const cgltf_options *options, const char *path, cgltf_data **out)
{
    void *bytes = NULL;
    cgltf_size size = 0;
    cgltf_result result;
    if (options == NULL)
        return cgltf_result_invalid_options;
    result = (options->file.read != NULL ? options->file.read : cgltf_default_file_read)(
        &options->memory, &options->file, path, &size, &bytes);
    if (result != cgltf_result_success)
        return result;
    result = cgltf_parse(options, bytes, size, out);
    (options->file.release != NULL ? options->file.release : cgltf_default_file_release)(
        &options->memory, &options->file, bytes);
    return result;
}

/* The bytes of a buffer: those of another file, or a copy of what libgltf has. */
static cgltf_result load_buffer(const cgltf_options *options, model *m, size_t index,
                                const char *path)
{
    cgltf_buffer *out = m->data.buffers + index;
    cgltf_result result;
    gltf_buffer in;
    check(m, gltf_buffer_info(m->file, index, &in));
    if (in.waits) {
        if (path == NULL || out->uri == NULL)
            return cgltf_result_unknown_format;
        result = cgltf_load_buffer_file(options, out->size, out->uri, path, &out->data);
        if (result == cgltf_result_success) {
            out->data_free_method = cgltf_data_free_method_file_release;
            check(m, gltf_give(m->file, index, out->data, out->size));
        }
        return result;
    }
    out->data = m->data.memory.alloc_func(m->data.memory.user_data, in.size + 1);
    if (out->data == NULL)
        return cgltf_result_out_of_memory;
    out->data_free_method = cgltf_data_free_method_memory_free;
    memcpy(out->data, in.bytes, in.size);
    return cgltf_result_success;
}

cgltf_result cgltf_load_buffers(const cgltf_options *options, cgltf_data *data, const char *path)
{
    model *m = (model *)data;
    size_t i;
    int failed;
    cgltf_result result = cgltf_result_success;
    if (options == NULL)
        return cgltf_result_invalid_options;
    failed = setjmp(m->failed);
    if (failed != 0)
        return (cgltf_result)failed;
    for (i = 0; i < data->buffers_count && result == cgltf_result_success; i++)
        if (data->buffers[i].data == NULL)
            result = load_buffer(options, m, i, path);
    for (i = 0; i < data->accessors_count && result == cgltf_result_success; i++)
        make_sparse(m, i);
    return result;
}

#ifdef __cplusplus
}
#endif
