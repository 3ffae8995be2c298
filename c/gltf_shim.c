/* The calls of gltf.h over the exports of crates/gltf_c.
 *
 * An export takes a handle, a struct with one pointer. Each call here gives it a handle of its own,
 * on its own stack, so that calls on one file share nothing that is written. An export takes a
 * slice as a pointer and a size, and the pointer is not NULL, also if the size is 0. */
#include "gltf.h"

#include <stdlib.h>
#include <string.h>

/* GltfFile in the code. */
typedef struct core_file {
    void *at;
} core_file;

static core_file handle_of(const gltf_file *file)
{
    core_file handle;
    handle.at = (void *)(size_t)file;
    return handle;
}

/* GltfBlock in the code: a block from malloc, which the core frees, unless its size is 0. */
typedef struct core_block {
    void *at;
    size_t size;
} core_block;

/* What an export gets in place of NULL, with a size of 0. */
static char no_text[1];
static size_t no_indices[1];
static double no_numbers[1];

/* The names of extensions for core_open: one block, each name followed by a zero byte. */
typedef struct name_list {
    char *names;
    size_t size;
} name_list;

/* Returns 0 if there is no memory. The caller frees `names`. */
static int make_name_list(const gltf_open_options *options, name_list *out)
{
    size_t i, count = options == NULL ? 0 : options->extension_count;
    char *end;
    out->size = 0;
    for (i = 0; i < count; i++)
        out->size += strlen(options->extensions[i]) + 1;
    end = out->names = (char *)malloc(out->size + 1);
    if (end == NULL)
        return 0;
    for (i = 0; i < count; i++) {
        size_t size = strlen(options->extensions[i]) + 1;
        memcpy(end, options->extensions[i], size);
        end += size;
    }
    return 1;
}

static gltf_status no_memory(gltf_file **file, gltf_fault *fault)
{
    *file = NULL;
    memset(fault, 0, sizeof *fault);
    fault->status = GLTF_NO_MEMORY;
    fault->buffer = GLTF_NONE;
    strcpy(fault->text, "out of memory");
    return GLTF_NO_MEMORY;
}

static unsigned int flags_of(const gltf_open_options *options)
{
    return options == NULL ? 0 : options->flags;
}

/* All bits that reserved members have: 0 if each is 0. */
static size_t reserved_of(const gltf_open_options *options)
{
    size_t i, all = options == NULL ? 0 : options->reserved_word;
    for (i = 0; options != NULL && i < sizeof options->reserved / sizeof *options->reserved; i++)
        all |= options->reserved[i];
    return all;
}

extern gltf_status core_open(const void *bytes, size_t size, const char *names, size_t names_size,
                             unsigned int flags, size_t reserved, core_file *file,
                             gltf_fault *fault);
extern gltf_status core_open_owned(core_block block, const char *names, size_t names_size,
                                   unsigned int flags, size_t reserved, core_file *file,
                                   gltf_fault *fault);
extern gltf_status core_give(core_file *file, size_t index, const void *bytes, size_t size);
extern void core_close(core_file *file);
extern size_t core_count(core_file *file, unsigned int kind);

unsigned int gltf_version(void)
{
    return GLTF_VERSION;
}

gltf_status gltf_open(const void *bytes, size_t size, const gltf_open_options *options,
                      gltf_file **file, gltf_fault *fault)
{
    core_file handle = { NULL };
    name_list list;
    gltf_status status;
    if (!make_name_list(options, &list))
        return no_memory(file, fault);
    status = core_open(bytes, size, list.names, list.size, flags_of(options), reserved_of(options),
                       &handle, fault);
    free(list.names);
    *file = (gltf_file *)handle.at;
    return status;
}

gltf_status gltf_open_owned(void *bytes, size_t size, const gltf_open_options *options,
                            gltf_file **file, gltf_fault *fault)
{
    core_file handle = { NULL };
    core_block block;
    name_list list;
    gltf_status status;
    block.at = bytes;
    block.size = size;
    if (!make_name_list(options, &list)) {
        free(bytes);
        return no_memory(file, fault);
    }
    status = core_open_owned(block, list.names, list.size, flags_of(options),
                             reserved_of(options), &handle, fault);
    free(list.names);
    if (size == 0)
        free(bytes); /* the core takes no block of no bytes */
    *file = (gltf_file *)handle.at;
    return status;
}

gltf_status gltf_give(gltf_file *file, size_t index, const void *bytes, size_t size)
{
    core_file handle = handle_of(file);
    return core_give(&handle, index, bytes, size);
}

void gltf_close(gltf_file *file)
{
    core_file handle = handle_of(file);
    core_close(&handle);
}

size_t gltf_count(const gltf_file *file, unsigned int kind)
{
    core_file handle = handle_of(file);
    return core_count(&handle, kind);
}

/* A call that does nothing but make the handle: its name, the parameters of its export after the
 * handle, its own parameters after the file, and the arguments. */
#define CALL(name, types, parameters, arguments) \
    extern gltf_status core_##name types; \
    gltf_status gltf_##name parameters \
    { \
        core_file handle = handle_of(file); \
        return core_##name arguments; \
    }

/* One that fills in the struct of the record at an index, or of an extension of it. */
#define INFO(kind) \
    CALL(kind##_info, (core_file *, size_t, gltf_##kind *), \
         (const gltf_file *file, size_t index, gltf_##kind *out), (&handle, index, out))

INFO(mesh)
INFO(material)
INFO(sampler)
INFO(texture)
INFO(scene)
INFO(node)
INFO(skin)
INFO(animation)
INFO(camera)
INFO(light)
INFO(clearcoat)
INFO(sheen)
INFO(iridescence)
INFO(anisotropy)
INFO(dispersion)
INFO(diffuse_transmission)
INFO(instancing)
INFO(visibility)
INFO(meshopt)

CALL(basisu_info, (core_file *, size_t, gltf_texture_source *),
     (const gltf_file *file, size_t index, gltf_texture_source *out), (&handle, index, out))
CALL(webp_info, (core_file *, size_t, gltf_texture_source *),
     (const gltf_file *file, size_t index, gltf_texture_source *out), (&handle, index, out))
CALL(xmp_packet, (core_file *, unsigned int, size_t, size_t, size_t *),
     (const gltf_file *file, unsigned int kind, size_t index, size_t part, size_t *packet),
     (&handle, kind, index, part, packet))

/* GltfBytes in the code: bytes of a buffer, by the address of its first byte. That the offset and
 * the size lie in the buffer is proved; the sum is made here. */
typedef struct core_bytes {
    const unsigned char *at;
    size_t offset;
    size_t size;
    size_t stride;
} core_bytes;

/* One that fills in such a struct for an accessor, a buffer or a view: its member is the address of
 * the bytes, or NULL where the export of the bytes does not succeed. */
#define INFO_WITH_BYTES(kind, member, of, bytes_index) \
    extern gltf_status core_##kind##_info(core_file *, size_t, gltf_##kind *); \
    extern gltf_status core_##of##_bytes(core_file *, size_t, core_bytes *); \
    gltf_status gltf_##kind##_info(const gltf_file *file, size_t index, gltf_##kind *out) \
    { \
        core_file handle = handle_of(file); \
        core_bytes bytes; \
        gltf_status status = core_##kind##_info(&handle, index, out); \
        if (status == GLTF_SUCCESS) \
            out->member = core_##of##_bytes(&handle, bytes_index, &bytes) == GLTF_SUCCESS \
                ? bytes.at + bytes.offset : NULL; \
        return status; \
    }

INFO_WITH_BYTES(buffer, bytes, buffer, index)
INFO_WITH_BYTES(buffer_view, bytes, view, index) /* over a reserved word of the core's struct */
INFO_WITH_BYTES(accessor, data, accessor, index)
INFO_WITH_BYTES(image, bytes, view, out->view)

CALL(primitive_info, (core_file *, size_t, size_t, gltf_primitive *),
     (const gltf_file *file, size_t mesh, size_t primitive, gltf_primitive *out),
     (&handle, mesh, primitive, out))
CALL(attribute_info, (core_file *, size_t, size_t, size_t, size_t, gltf_attribute *),
     (const gltf_file *file, size_t mesh, size_t primitive, size_t target, size_t position,
      gltf_attribute *out),
     (&handle, mesh, primitive, target, position, out))
CALL(attribute_find,
     (core_file *, size_t, size_t, size_t, unsigned int, unsigned int, size_t *),
     (const gltf_file *file, size_t mesh, size_t primitive, size_t target, unsigned int meaning,
      unsigned int set, size_t *accessor),
     (&handle, mesh, primitive, target, meaning, set, accessor))
CALL(channel_info, (core_file *, size_t, size_t, gltf_channel *),
     (const gltf_file *file, size_t animation, size_t channel, gltf_channel *out),
     (&handle, animation, channel, out))
CALL(default_scene, (core_file *, size_t *), (const gltf_file *file, size_t *scene),
     (&handle, scene))
CALL(variant_material, (core_file *, size_t, size_t, size_t, size_t *),
     (const gltf_file *file, size_t mesh, size_t primitive, size_t variant, size_t *material),
     (&handle, mesh, primitive, variant, material))
CALL(variant_fault, (core_file *, size_t, size_t, size_t, gltf_fault *),
     (const gltf_file *file, size_t mesh, size_t primitive, size_t variant, gltf_fault *fault),
     (&handle, mesh, primitive, variant, fault))
/* The room of a call whose pointer may be NULL. */
#define ROOM(pointer, other) (room == 0 ? (other) : (pointer)), room

CALL(accessor_read, (core_file *, size_t, void *, size_t),
     (const gltf_file *file, size_t index, void *out, size_t room),
     (&handle, index, ROOM(out, (void *)no_text)))
/* The components are read to the end of their room, and widened from the first on: none is written
 * over before it is read. */
gltf_status gltf_accessor_read_u32(const gltf_file *file, size_t index, unsigned int *out,
                                   size_t room)
{
    core_file handle = handle_of(file);
    gltf_accessor it;
    unsigned char *from;
    size_t width, count, i;
    gltf_status status = core_accessor_info(&handle, index, &it);
    if (status != GLTF_SUCCESS)
        return status;
    if (it.component_type != GLTF_U8 && it.component_type != GLTF_U16
        && it.component_type != GLTF_U32)
        return GLTF_OTHER_TYPE;
    if (it.count == 0 || it.count > room / it.components)
        return core_accessor_read(&handle, index, no_text, 0);
    width = it.item_size / it.components;
    count = it.count * it.components;
    from = (unsigned char *)out + count * (sizeof *out - width);
    status = core_accessor_read(&handle, index, from, count * width);
    for (i = 0; i < count && status == GLTF_SUCCESS; i++, from += width) {
        unsigned int number = from[0];
        if (width >= 2)
            number |= (unsigned int)from[1] << 8;
        if (width == 4)
            number |= (unsigned int)from[2] << 16 | (unsigned int)from[3] << 24;
        out[i] = number;
    }
    return status;
}

CALL(name, (core_file *, unsigned int, size_t, char *, size_t, size_t *),
     (const gltf_file *file, unsigned int kind, size_t index, char *text, size_t room,
      size_t *length),
     (&handle, kind, index, ROOM(text, no_text), length))
CALL(text, (core_file *, unsigned int, size_t, char *, size_t, size_t *),
     (const gltf_file *file, unsigned int what, size_t index, char *text, size_t room,
      size_t *length),
     (&handle, what, index, ROOM(text, no_text), length))
CALL(list, (core_file *, unsigned int, size_t, size_t *, size_t, size_t *),
     (const gltf_file *file, unsigned int what, size_t index, size_t *out, size_t room,
      size_t *count),
     (&handle, what, index, ROOM(out, no_indices), count))
CALL(numbers, (core_file *, unsigned int, size_t, double *, size_t, size_t *),
     (const gltf_file *file, unsigned int what, size_t index, double *out, size_t room,
      size_t *count),
     (&handle, what, index, ROOM(out, no_numbers), count))
CALL(json, (core_file *, unsigned int, size_t, size_t, unsigned int, const char *, size_t, char *,
            size_t, size_t *),
     (const gltf_file *file, unsigned int kind, size_t index, size_t part, const char *extension,
      size_t extension_size, char *text, size_t room, size_t *length),
     (&handle, kind, index, part, extension != NULL, extension == NULL ? no_text : extension,
      extension == NULL ? 0 : extension_size, ROOM(text, no_text), length))
CALL(attribute_name, (core_file *, size_t, size_t, size_t, size_t, char *, size_t, size_t *),
     (const gltf_file *file, size_t mesh, size_t primitive, size_t target, size_t position,
      char *text, size_t room, size_t *length),
     (&handle, mesh, primitive, target, position, ROOM(text, no_text), length))

/* In the shared library a call that version 2.1 added is of the node GLTF_2.1, so that a program
 * that makes it is not started over version 2.0. It was of GLTF_2 at first, and is found there too.
 * tools/c.py defines the macro, for that library alone. */
#ifdef GLTF_SYMBOL_VERSIONS
#define NODE(name) \
    __asm__(".globl was_" #name "\n.set was_" #name ", gltf_" #name "\n" \
            ".symver was_" #name ", gltf_" #name "@GLTF_2\n" \
            ".globl is_" #name "\n.set is_" #name ", gltf_" #name "\n" \
            ".symver is_" #name ", gltf_" #name "@@GLTF_2.1");

NODE(open_owned)
NODE(variant_fault)
NODE(clearcoat_info)
NODE(sheen_info)
NODE(iridescence_info)
NODE(anisotropy_info)
NODE(dispersion_info)
NODE(diffuse_transmission_info)
NODE(basisu_info)
NODE(webp_info)
NODE(instancing_info)
NODE(visibility_info)
NODE(meshopt_info)
NODE(xmp_packet)
#endif
