/* gltf.h, version 2: opens glTF 2.0 files, checks them, and reads what they hold.
 *
 *     gltf_file *file;
 *     gltf_fault fault;
 *     gltf_accessor points;
 *
 *     if (gltf_open(bytes, size, NULL, &file, &fault) != GLTF_SUCCESS)
 *         return fprintf(stderr, "%s: %s\n", fault.path, fault.text), 1;
 *     if (gltf_accessor_info(file, 0, &points) == GLTF_SUCCESS && points.data != NULL
 *         && points.component_type == GLTF_F32 && points.components == 3)
 *         upload(points.data, points.count, points.stride);
 *     gltf_close(file);
 *
 * Files. gltf_open and gltf_open_owned make a gltf_file, and gltf_close frees it. The calls that
 * read a file take a `const gltf_file *`. They do not change the file, so any number of threads may
 * read one file at the same time. gltf_give and gltf_close change it: no other thread may use the
 * file meanwhile. A NULL file is a closed file. Every call that takes a file accepts it: gltf_close
 * does nothing, gltf_count returns 0, and the others return GLTF_CLOSED.
 *
 * Return values. A call that can fail returns a gltf_status. If it is not GLTF_SUCCESS, nothing has
 * been written to the caller's variables, except by gltf_open and gltf_open_owned. Every call that
 * takes a file and an index returns GLTF_CLOSED if the file is NULL, and GLTF_NO_SUCH_INDEX if it
 * has no such record or list; these two are not mentioned again below. GLTF_NO_MEMORY is, at each
 * call that may return it. Indices begin at 0, in the order of the file. An index that is absent in
 * a record is GLTF_NONE.
 *
 * Records. Most kinds of records have a struct, and one call that fills it. A member that is absent
 * in the file has the default of glTF 2.0 or of its extension; without one, what is said at the
 * member, or 0. A number is the double nearest to the one in the file. A `double` that is no number
 * there, or no list of so many, has its default too: no rule refuses it. (The calls for extensions
 * at the end of this header return GLTF_BAD_EXTENSION there.) Members called `reserved` are 0.
 * Later libraries with the same major version may use them, where 0 will mean what this version
 * does. They add calls, enumerators and bits, and change nothing else.
 *
 * Texts are UTF-8. They are copied to `text`, which has room for `room` bytes, are cut to `room` -
 * 1 bytes, and end with a zero byte. A cut may split a character. `*length` receives the length of
 * the whole text without that zero byte; the text was cut if `*length` >= `room`. If `room` is 0,
 * nothing is copied and `text` may be NULL. A text may have zero bytes of its own.
 *
 * Lists (gltf_list, gltf_numbers) are copied to `out`, with room for `room` elements; others are
 * left out. `*count` receives the length of the whole list. If `room` is 0, `out` may be NULL.
 *
 * Pointers to bytes (`bytes`, `data`) point into the file and are valid until gltf_close. One into
 * a buffer that waits is NULL, also beside a `size` of 0. Beside a `size` of 0 in another buffer it
 * may be any. Do not write to them.
 *
 * What a caller has to observe:
 *   1. A pointer may be NULL only where this header says so. A pointer and a size beside it are a
 *      block of that many bytes, at most PTRDIFF_MAX.
 *   2. What a call writes overlaps nothing else that it is given, and is aligned for its type.
 *   3. A file is closed once, and not used after that. A block is given up once, to
 *      gltf_open_owned, and not used after that.
 *   4. malloc, realloc and free belong together and align to 16 bytes. No call is made in a signal
 *      handler, or in the forked child of a process with threads.
 *   5. The stack has room: give a thread 512 KiB. No proof bounds it. tools/c.py measures what
 *      files take, and fails if one takes more than three quarters of that.
 *
 * Proved: for every file and every call that observes these, the call returns, reads and writes no
 * memory but what it was given and what it has from malloc, and does what is said at the call.
 * Tested, not proved: the few lines of C between this header and the proved code (c/gltf_shim.c;
 * gltf_accessor_read_u32 widens there what the proved code reads), that reading from many threads
 * is safe, that the bytes behind a pointer stay until gltf_close, that GLTF_NO_MEMORY comes only
 * for want of memory, and that all memory is freed.
 * Section numbers are those of the glTF 2.0 specification. */
#ifndef GLTF_H
#define GLTF_H

#include <stddef.h>

/* The version of this header: major * 10000 + minor * 100 + patch. */
#define GLTF_VERSION 20200

#if defined(__GNUC__) || defined(__clang__)
#define GLTF_CHECKED __attribute__((warn_unused_result))
#define GLTF_NONNULL(which) __attribute__((nonnull which))
#define GLTF_PURE __attribute__((pure))
#else
#define GLTF_CHECKED
#define GLTF_NONNULL(which)
#define GLTF_PURE
#endif
#ifndef GLTF_API
#define GLTF_API extern
#endif

#ifdef __cplusplus
extern "C" {
#endif

/* An open file. */
typedef struct gltf_file gltf_file;

/* The index of a record that is absent. */
#define GLTF_NONE ((size_t)-1)

typedef unsigned int gltf_status;
enum {
    GLTF_SUCCESS = 0,
    GLTF_NO_MEMORY = 1,          /* there was not enough memory */
    GLTF_BAD_CONTAINER = 2,      /* the bytes begin with `glTF` and are not a GLB container (4.4) */
    GLTF_BAD_JSON = 3,           /* the text is not JSON, or not a glTF document (3.2) */
    GLTF_BROKEN_RULES = 4,       /* the document breaks rules, as an index out of range */
    GLTF_BAD_BASE64 = 5,         /* the data of a data URI is not base64 (2.8) */
    GLTF_SHORT_BUFFER = 6,       /* a buffer has fewer bytes than its byteLength (3.6.1) */
    GLTF_MISSING_BLOB = 7,       /* a buffer has neither a URI nor the BIN chunk (3.6.1.2) */
    GLTF_EXTERNAL_REFERENCE = 8, /* a buffer in another file is not allowed: see GLTF_EXTERNAL */
    GLTF_UNSUPPORTED_SCHEME = 9, /* a URI's scheme is not `data` or `file`, or it is not UTF-8 */
    GLTF_CANNOT_READ = 10,       /* returned by gltf_load.h alone: a file cannot be read */
    GLTF_CLOSED = 11,            /* the file is NULL */
    GLTF_NO_SUCH_INDEX = 12,     /* there is no such record, or it has not what was asked for */
    GLTF_UNREADABLE = 13,        /* the accessor cannot be read: gltf_accessor_read says when */
    GLTF_NO_ROOM = 14,           /* the items do not fit into `out` */
    GLTF_OTHER_TYPE = 16,        /* the accessor's components are not of the type of this call */
    GLTF_BAD_EXTENSION = 17,     /* the extension has a member that is missing or of another kind,
                                    an index out of range, or an unknown word */
    GLTF_BAD_ARGUMENT = 18       /* the options have an unknown flag, or a reserved member that is
                                    not 0 */
};

/* Why a file was not opened, or what gltf_variant_fault found. */
typedef struct gltf_fault {
    gltf_status status;  /* what the call returned; of gltf_variant_fault GLTF_BAD_EXTENSION */
    unsigned int rules;  /* of GLTF_BROKEN_RULES the number of broken rules, or UINT_MAX; else 0 */
    size_t buffer;       /* the buffer at fault, or GLTF_NONE: of GLTF_BAD_BASE64 to
                            GLTF_UNSUPPORTED_SCHEME, and of a fault of gltf_load.h */
    size_t expected;     /* the byteLength of that buffer if it is GLTF_SHORT_BUFFER, else 0 */
    size_t actual;       /* and the number of bytes that there are, without zeros */
    size_t reserved[4];
    char path[128];      /* where, if it is known: a JSON Pointer (RFC 6901) as `/nodes/0/mesh`;
                            of a buffer `/buffers/N`, or `/buffers/N/uri` if that is at fault */
    char text[512];      /* what: a message for people, with all broken rules */
} gltf_fault;            /* both texts are cut where they are too long, and end with a zero byte */

/* ---- Opening and closing --------------------------------------------------------------------- */

/* Returns the version of the library, as GLTF_VERSION is made. The library works with a header of
 * the same major version that is not newer. */
GLTF_API unsigned int gltf_version(void);

/* Flags of gltf_open_options. */
enum {
    GLTF_EXTERNAL = 1,     /* accept buffers in other files; gltf_give supplies their bytes */
    GLTF_EXACT_LENGTHS = 2 /* zeros do not count as bytes of a buffer: see gltf_open */
};

/* What gltf_open accepts besides. Set a variable to { 0 } first, then the members that you need. */
typedef struct gltf_open_options {
    unsigned int flags;            /* GLTF_EXTERNAL | .. */
    unsigned int reserved_word;
    const char *const *extensions; /* names of extensions that you handle yourself, which a file may
                                      require then. Texts that end with a zero byte */
    size_t extension_count;        /* if it is 0, `extensions` may be NULL */
    size_t reserved[4];
} gltf_open_options;

/* Opens a file that is in memory: a GLB container if its bytes begin with `glTF`, else JSON text
 * (2.8, 3.6.1, 4.4). `options` may be NULL. The library keeps copies, so `bytes` may be freed as
 * soon as the call returns.
 *
 * If a flag is unknown or a reserved member of the options is not 0, it returns GLTF_BAD_ARGUMENT
 * or GLTF_NO_MEMORY. Else it returns GLTF_SUCCESS only if the container, the JSON text, the
 * records, the rules and the buffers are valid; if they are, it returns that or GLTF_NO_MEMORY,
 * which says nothing about the file. With GLTF_SUCCESS `*file` is the open file, and `*fault` is
 * empty (`status` 0, `buffer` GLTF_NONE). Else `*file` is NULL and `*fault` describes the first of
 * these layers that is not valid. The rules are that indices are in range, codes and attributes
 * known, required members there, and each required extension supported (see gltf_json) or one of
 * `options->extensions`. The buffers are valid if each has as many bytes as it declares: with
 * GLTF_EXACT_LENGTHS the bytes that are there, else these with zeros after them up to a multiple of
 * 4, so that up to three may be missing. With GLTF_EXTERNAL buffers in other files wait, and
 * gltf_give counts their bytes alike. */
GLTF_API gltf_status gltf_open(const void *bytes, size_t size, const gltf_open_options *options,
                               gltf_file **file, gltf_fault *fault)
    GLTF_CHECKED GLTF_NONNULL((1, 4, 5));

/* Opens a file as gltf_open does, of bytes that the library takes over: `bytes` is a block from
 * malloc, calloc or realloc, of which the first `size` bytes are written. From the call on it is
 * the library's, also if the call fails: it is freed by this call or by gltf_close, so do not use
 * it again. It is written so that the BIN chunk of a container moves to the front of that block and
 * is not copied elsewhere, which is not proved. `bytes` may be NULL if `size` is 0.
 *
 * Returns what gltf_open returns for these bytes. */
GLTF_API gltf_status gltf_open_owned(void *bytes, size_t size, const gltf_open_options *options,
                                     gltf_file **file, gltf_fault *fault)
    GLTF_CHECKED GLTF_NONNULL((4, 5));

/* Supplies the bytes of a buffer that waits for them (`waits` of gltf_buffer). They are copied.
 * Returns GLTF_NO_SUCH_INDEX if there is no such buffer or it does not wait, GLTF_SHORT_BUFFER if
 * these are not as many as it declares, as gltf_open with the same options counts them, or
 * GLTF_NO_MEMORY. If the call fails, nothing has changed. */
GLTF_API gltf_status gltf_give(gltf_file *file, size_t index, const void *bytes, size_t size)
    GLTF_CHECKED GLTF_NONNULL((3));

/* Frees a file. */
GLTF_API void gltf_close(gltf_file *file);

/* ---- Calls for all kinds of records ---------------------------------------------------------- */

enum {
    GLTF_BUFFERS = 0, GLTF_BUFFER_VIEWS = 1, GLTF_ACCESSORS = 2, GLTF_MESHES = 3, GLTF_NODES = 4,
    GLTF_MATERIALS = 5, GLTF_SCENES = 6, GLTF_SKINS = 7, GLTF_ANIMATIONS = 8, GLTF_IMAGES = 9,
    GLTF_TEXTURES = 10, GLTF_SAMPLERS = 11, GLTF_CAMERAS = 12,
    GLTF_LIGHTS = 13,              /* of KHR_lights_punctual */
    GLTF_VARIANTS = 14,            /* of KHR_materials_variants */
    GLTF_EXTENSIONS_USED = 15,     /* gltf_name copies the elements of these two lists */
    GLTF_EXTENSIONS_REQUIRED = 16, /* without those that gltf_open was given in its options */
    GLTF_ASSET = 17,               /* one record: `asset` */
    GLTF_ROOT = 18,                /* one record: the document */
    GLTF_PRIMITIVES = 19,          /* of a mesh: for gltf_json, gltf_xmp_packet, as the next two */
    GLTF_CHANNELS = 20,            /* of an animation */
    GLTF_ANIMATION_SAMPLERS = 21   /* of an animation */
};

/* Returns the number of records of a kind, GLTF_BUFFERS to GLTF_ROOT; 0 for any other kind. */
GLTF_API size_t gltf_count(const gltf_file *file, unsigned int kind) GLTF_PURE;

/* Copies the name of a record. Returns GLTF_NO_SUCH_INDEX if it has none. */
GLTF_API gltf_status gltf_name(const gltf_file *file, unsigned int kind, size_t index, char *text,
                               size_t room, size_t *length) GLTF_CHECKED GLTF_NONNULL((6));

enum {
    GLTF_BUFFER_URI = 0,        /* 5.10.1: escapes as `%20` are not decoded; also of the next */
    GLTF_IMAGE_URI = 1,         /* 5.18.1 */
    GLTF_IMAGE_MIME_TYPE = 2,   /* 5.18.2: as `image/png` */
    GLTF_ASSET_VERSION = 3,     /* 5.9. The index of these four is 0 */
    GLTF_ASSET_MIN_VERSION = 4,
    GLTF_ASSET_GENERATOR = 5,
    GLTF_ASSET_COPYRIGHT = 6
};

/* Copies another text of a record. Returns GLTF_NO_SUCH_INDEX if it has none. */
GLTF_API gltf_status gltf_text(const gltf_file *file, unsigned int what, size_t index, char *text,
                               size_t room, size_t *length) GLTF_CHECKED GLTF_NONNULL((6));

/* Copies JSON text: the `extras` of a record if `extension` is NULL, else what the record has in
 * its `extensions` under that name, which has `extension_size` bytes (3.12). `part` is the position
 * of a primitive in its mesh, or of a channel or sampler in its animation, else ignored. The text
 * means the same as that in the file, and may be spelled otherwise. Returns GLTF_NO_SUCH_INDEX if
 * there is none. So it does for the supported extensions (KHR_lights_punctual,
 * KHR_materials_variants, KHR_texture_transform, those of `gltf_material.has`) where they belong,
 * for extensions of channels, animation samplers, lights and variants, for extras of variants, and
 * inside of records, as at the use of a texture. It may return GLTF_NO_MEMORY. */
GLTF_API gltf_status gltf_json(const gltf_file *file, unsigned int kind, size_t index, size_t part,
                               const char *extension, size_t extension_size, char *text,
                               size_t room, size_t *length) GLTF_CHECKED GLTF_NONNULL((9));

enum {
    GLTF_SCENE_NODES = 0,   /* 5.27.1: the root nodes of a scene */
    GLTF_NODE_CHILDREN = 1, /* 5.25.2. No rule refuses a node that is below itself */
    GLTF_SKIN_JOINTS = 2    /* 5.28.3: nodes */
};

/* Copies a list of indices of a record. */
GLTF_API gltf_status gltf_list(const gltf_file *file, unsigned int what, size_t index, size_t *out,
                               size_t room, size_t *count) GLTF_CHECKED GLTF_NONNULL((6));

enum {
    GLTF_ACCESSOR_MIN = 0, /* 5.1.8 */
    GLTF_ACCESSOR_MAX = 1, /* 5.1.7 */
    GLTF_MESH_WEIGHTS = 2, /* 5.23.2 */
    GLTF_NODE_WEIGHTS = 3  /* 5.25.9: if there are none, those of the node's mesh apply */
};

/* Copies a list of numbers of a record. If it is absent, or no list of numbers, `*count` is 0. */
GLTF_API gltf_status gltf_numbers(const gltf_file *file, unsigned int what, size_t index,
                                  double *out, size_t room, size_t *count)
    GLTF_CHECKED GLTF_NONNULL((6));

/* ---- Buffers, buffer views, accessors (3.6, 5.1, 5.10, 5.11) --------------------------------- */

typedef struct gltf_buffer {
    const unsigned char *bytes; /* NULL if the buffer waits */
    size_t size;                /* the number of bytes there: at least byte_length, a multiple of 4,
                                   filled up with zeros; 0 if the buffer waits */
    size_t byte_length;         /* its byteLength */
    unsigned int waits;         /* 1 if the buffer waits for gltf_give, else 0 */
    unsigned int reserved_word;
    size_t reserved[2];
} gltf_buffer;

GLTF_API gltf_status gltf_buffer_info(const gltf_file *file, size_t index, gltf_buffer *out)
    GLTF_CHECKED GLTF_NONNULL((3));

typedef struct gltf_buffer_view {
    size_t buffer;
    size_t byte_offset;
    size_t byte_length;
    size_t byte_stride;  /* 0 if it is absent */
    unsigned int target; /* 34962 for vertices, 34963 for indices, 0 if it is absent */
    unsigned int reserved_word;
    const unsigned char *bytes; /* NULL if the view is not inside its buffer, or the buffer waits */
    size_t reserved[1];
} gltf_buffer_view;

GLTF_API gltf_status gltf_buffer_view_info(const gltf_file *file, size_t index,
                                           gltf_buffer_view *out) GLTF_CHECKED GLTF_NONNULL((3));

/* The types of components (3.6.2.2). The lowest byte of a number comes first. */
enum { GLTF_I8 = 5120, GLTF_U8 = 5121, GLTF_I16 = 5122, GLTF_U16 = 5123, GLTF_U32 = 5125,
       GLTF_F32 = 5126 };

/* An accessor whose items can be used where they are has `data` != NULL: item i is at `data` + i *
 * `stride`, for every i below `count`. This is so exactly if it has items, a buffer view and no
 * `sparse` (also none with a count of 0), all items are inside the view and that inside its buffer,
 * `stride` is not less than `item_size`, and items have no padding inside (3.6.2.4). Otherwise copy
 * them with gltf_accessor_read. No rule asks that items are aligned. */
typedef struct gltf_accessor {
    size_t count;                /* the number of items, as the file says: check it before you
                                    allocate memory for an accessor whose `data` is NULL */
    size_t item_size;            /* bytes of the components of one item, without padding: 1 to 64 */
    unsigned int component_type; /* GLTF_I8 .. GLTF_F32 */
    unsigned int components;     /* of one item: 1, 2, 3 or 4; of a matrix 4, 9 or 16, column by
                                    column */
    unsigned int is_matrix;      /* 1 or 0 */
    unsigned int normalized;     /* 1 or 0 */
    size_t sparse;               /* the count of its `sparse`, or 0 */
    size_t view;                 /* a buffer view, or GLTF_NONE */
    size_t byte_offset;          /* in that view */
    size_t stride;               /* bytes from one item to the next in that view, its byteStride; if
                                    that is absent or 0, item_size and any padding (3.6.2.4) */
    const unsigned char *data;   /* the first item, or NULL */
    size_t reserved[4];
} gltf_accessor;

GLTF_API gltf_status gltf_accessor_info(const gltf_file *file, size_t index, gltf_accessor *out)
    GLTF_CHECKED GLTF_NONNULL((3));

/* Copies the components of all items to `out` without gaps, count * item_size bytes, without the
 * padding of columns (3.6.2.4), and with the sparse overrides applied (3.6.2.3) as far as their
 * indices increase; without a view to zeros (5.1.1). The rest of `out` is unchanged. Returns
 * GLTF_UNREADABLE if the items, sparse indices or sparse values have a count of 0, are not inside
 * their view, or have a view that is not inside its buffer or a byteStride, not 0, less than the
 * bytes of one of them, which end with its last component: padding behind that need not be there.
 * Else returns GLTF_NO_ROOM if they are more than `room` bytes. A buffer that waits has no bytes.
 * If `room` is 0, `out` may be NULL. */
GLTF_API gltf_status gltf_accessor_read(const gltf_file *file, size_t index, void *out, size_t room)
    GLTF_CHECKED;

/* Copies the components of all items as `unsigned int`, count * components of them: for indices and
 * joints. `room` is how many fit; if it is 0, `out` may be NULL. Returns GLTF_OTHER_TYPE if they
 * are not GLTF_U8, GLTF_U16 or GLTF_U32; else the same as gltf_accessor_read. */
GLTF_API gltf_status gltf_accessor_read_u32(const gltf_file *file, size_t index, unsigned int *out,
                                            size_t room) GLTF_CHECKED;

/* ---- Meshes (3.7.2, 5.23, 5.24) -------------------------------------------------------------- */

typedef struct gltf_mesh {
    size_t primitives;  /* their number: 0 to primitives - 1 are their positions */
    size_t weights;     /* the number of weights: gltf_numbers(.., GLTF_MESH_WEIGHTS, ..) */
    size_t reserved[2];
} gltf_mesh;

GLTF_API gltf_status gltf_mesh_info(const gltf_file *file, size_t index, gltf_mesh *out)
    GLTF_CHECKED GLTF_NONNULL((3));

enum { GLTF_POINTS = 0, GLTF_LINES = 1, GLTF_LINE_LOOP = 2, GLTF_LINE_STRIP = 3,
       GLTF_TRIANGLES = 4, GLTF_TRIANGLE_STRIP = 5, GLTF_TRIANGLE_FAN = 6 };

typedef struct gltf_primitive {
    unsigned int mode; /* GLTF_POINTS .. GLTF_TRIANGLE_FAN */
    unsigned int reserved_word;
    size_t indices;    /* an accessor, or GLTF_NONE */
    size_t material;   /* a material, or GLTF_NONE, which gltf_material_info accepts */
    size_t attributes; /* their number */
    size_t targets;    /* the number of morph targets */
    size_t reserved[2];
} gltf_primitive;

/* Fills in primitive number `primitive` of a mesh. */
GLTF_API gltf_status gltf_primitive_info(const gltf_file *file, size_t mesh, size_t primitive,
                                         gltf_primitive *out) GLTF_CHECKED GLTF_NONNULL((4));

enum {
    GLTF_POSITION = 0,
    GLTF_NORMAL = 1,
    GLTF_TANGENT = 2,
    GLTF_COLOR = 3,    /* these four have a set: COLOR_0, COLOR_1 .. */
    GLTF_TEXCOORD = 4,
    GLTF_JOINTS = 5,
    GLTF_WEIGHTS = 6,
    GLTF_CUSTOM = 7    /* an attribute whose name begins with `_` */
};

typedef struct gltf_attribute {
    unsigned int meaning; /* GLTF_POSITION .. GLTF_CUSTOM */
    unsigned int set;     /* the n of TEXCOORD_n; 0 if there is none */
    size_t accessor;
    size_t reserved[2];
} gltf_attribute;

/* Fills in attribute number `position` of a primitive if `target` is GLTF_NONE, else of its morph
 * target number `target`. They are ordered by their meaning, GLTF_CUSTOM first, and then by name or
 * set, not as in the file. A morph target has only POSITION, NORMAL and TANGENT here. */
GLTF_API gltf_status gltf_attribute_info(const gltf_file *file, size_t mesh, size_t primitive,
                                         size_t target, size_t position, gltf_attribute *out)
    GLTF_CHECKED GLTF_NONNULL((6));

/* Copies the name of that attribute, as `TEXCOORD_0` or `_TEMPERATURE`. It may return
 * GLTF_NO_MEMORY. */
GLTF_API gltf_status gltf_attribute_name(const gltf_file *file, size_t mesh, size_t primitive,
                                         size_t target, size_t position, char *text, size_t room,
                                         size_t *length) GLTF_CHECKED GLTF_NONNULL((8));

/* Finds the accessor of the attribute with this meaning and set. `target` is as above. `set` is not
 * looked at for POSITION, NORMAL and TANGENT. Returns GLTF_NO_SUCH_INDEX if there is no such
 * attribute, and for GLTF_CUSTOM. */
GLTF_API gltf_status gltf_attribute_find(const gltf_file *file, size_t mesh, size_t primitive,
                                         size_t target, unsigned int meaning, unsigned int set,
                                         size_t *accessor) GLTF_CHECKED GLTF_NONNULL((7));

/* Finds the material of a primitive in a variant (KHR_materials_variants), by its first mapping
 * with this number. Returns GLTF_NO_SUCH_INDEX if it has none: its own material applies then. No
 * rule checks either index: gltf_material_info may return GLTF_NO_SUCH_INDEX for it. */
GLTF_API gltf_status gltf_variant_material(const gltf_file *file, size_t mesh, size_t primitive,
                                           size_t variant, size_t *material)
    GLTF_CHECKED GLTF_NONNULL((5));

/* Fills in what is wrong with that material: `status` is GLTF_BAD_EXTENSION, and `path` leads to an
 * index that is out of range, as
 * `/meshes/0/primitives/0/extensions/KHR_materials_variants/mappings/1/material`. Returns
 * GLTF_NO_SUCH_INDEX if nothing is: gltf_variant_material finds a material that is there, or
 * none. */
GLTF_API gltf_status gltf_variant_fault(const gltf_file *file, size_t mesh, size_t primitive,
                                        size_t variant, gltf_fault *fault)
    GLTF_CHECKED GLTF_NONNULL((5));

/* ---- Materials, textures, images (3.8, 3.9, 5.18 to 5.22, 5.26, 5.29, 5.30) ------------------ */

/* A texture in a material. */
typedef struct gltf_texture_use {
    size_t texture;             /* a texture, or GLTF_NONE: the other members have their defaults */
    unsigned int tex_coord;     /* the set of texture coordinates; that of KHR_texture_transform if
                                   it has one */
    unsigned int has_transform; /* 1 if there is a KHR_texture_transform, else 0 */
    double scale;               /* the scale of a normal texture, the strength of an occlusion
                                   texture, and 1 of others */
    double offset[2];           /* of KHR_texture_transform */
    double rotation;            /* of KHR_texture_transform, in radians */
    double size[2];             /* the `scale` of KHR_texture_transform */
} gltf_texture_use;

/* Bits of gltf_material.has: the extensions that the material has, and pbrMetallicRoughness. */
enum { GLTF_UNLIT = 1, GLTF_SPECULAR_GLOSSINESS = 2, GLTF_TRANSMISSION = 4, GLTF_IOR = 8,
       GLTF_EMISSIVE_STRENGTH = 16, GLTF_VOLUME = 32, GLTF_SPECULAR = 64,
       GLTF_METALLIC_ROUGHNESS = 128 };
enum { GLTF_OPAQUE = 0, GLTF_MASK = 1, GLTF_BLEND = 2 };

/* Clearcoat, sheen, iridescence, anisotropy, dispersion and diffuse transmission have structs of
 * their own, at the end of this header. Other extensions come from gltf_json. */
typedef struct gltf_material {
    unsigned int alpha_mode;   /* GLTF_OPAQUE .. GLTF_BLEND */
    unsigned int double_sided; /* 1 or 0 */
    unsigned int has;          /* GLTF_UNLIT | .. */
    unsigned int reserved_word;
    double alpha_cutoff;
    double base_color_factor[4];
    double metallic_factor;
    double roughness_factor;
    double emissive_factor[3];
    gltf_texture_use base_color;
    gltf_texture_use metallic_roughness;
    gltf_texture_use normal;
    gltf_texture_use occlusion;
    gltf_texture_use emissive;
    /* KHR_materials_pbrSpecularGlossiness */
    double diffuse_factor[4];
    double specular_glossiness_factor[3]; /* its specularFactor */
    double glossiness_factor;
    gltf_texture_use diffuse;
    gltf_texture_use specular_glossiness;
    /* KHR_materials_transmission, KHR_materials_ior, KHR_materials_emissive_strength */
    double transmission_factor;
    double ior;
    double emissive_strength;
    gltf_texture_use transmission;
    /* KHR_materials_volume. An absent attenuationDistance is DBL_MAX */
    double thickness_factor;
    double attenuation_distance;
    double attenuation_color[3];
    gltf_texture_use thickness;
    /* KHR_materials_specular */
    double specular_factor;
    double specular_color_factor[3];
    gltf_texture_use specular;
    gltf_texture_use specular_color;
    size_t reserved[8];
} gltf_material;

/* Fills in a material. The index GLTF_NONE is the default material (3.9.6). */
GLTF_API gltf_status gltf_material_info(const gltf_file *file, size_t index, gltf_material *out)
    GLTF_CHECKED GLTF_NONNULL((3));

/* The filters and wrapping modes of this struct and the next are the numbers of glTF (5.26): 9728
 * to 9987, and 33071, 33648 and 10497. */
typedef struct gltf_sampler {
    unsigned int mag_filter; /* 0 if it is absent */
    unsigned int min_filter; /* 0 if it is absent */
    unsigned int wrap_s;
    unsigned int wrap_t;
    size_t reserved[2];
} gltf_sampler;

GLTF_API gltf_status gltf_sampler_info(const gltf_file *file, size_t index, gltf_sampler *out)
    GLTF_CHECKED GLTF_NONNULL((3));

typedef struct gltf_texture {
    size_t image;            /* an image: a file whose texture has none is refused */
    size_t sampler;          /* a sampler, or GLTF_NONE: the next four are the defaults */
    unsigned int mag_filter; /* as in gltf_sampler */
    unsigned int min_filter;
    unsigned int wrap_s;
    unsigned int wrap_t;
    size_t reserved[2];
} gltf_texture;

GLTF_API gltf_status gltf_texture_info(const gltf_file *file, size_t index, gltf_texture *out)
    GLTF_CHECKED GLTF_NONNULL((3));

/* An image is in a buffer view, or else at the URI that gltf_text(.., GLTF_IMAGE_URI, ..) copies.
 * Images are not decoded. */
typedef struct gltf_image {
    size_t view;                /* a buffer view, or GLTF_NONE */
    const unsigned char *bytes; /* its bytes; NULL if there is no view, or the view is not inside
                                   its buffer, or the buffer waits (also if the view is empty) */
    size_t size;                /* the byteLength of the view, or 0 */
    size_t reserved[2];
} gltf_image;

GLTF_API gltf_status gltf_image_info(const gltf_file *file, size_t index, gltf_image *out)
    GLTF_CHECKED GLTF_NONNULL((3));

/* ---- Scenes, nodes, skins (3.5, 3.7.3, 5.25, 5.27, 5.28) ------------------------------------- */

/* The scene to show at first (3.5.1). Returns GLTF_NO_SUCH_INDEX if the file names none. */
GLTF_API gltf_status gltf_default_scene(const gltf_file *file, size_t *scene)
    GLTF_CHECKED GLTF_NONNULL((2));

typedef struct gltf_scene {
    size_t nodes; /* the number of root nodes: gltf_list(.., GLTF_SCENE_NODES, ..) */
    size_t reserved[2];
} gltf_scene;

GLTF_API gltf_status gltf_scene_info(const gltf_file *file, size_t index, gltf_scene *out)
    GLTF_CHECKED GLTF_NONNULL((3));

/* Bits of gltf_node.has: the members that the file has. */
enum { GLTF_HAS_MATRIX = 1, GLTF_HAS_TRANSLATION = 2, GLTF_HAS_ROTATION = 4, GLTF_HAS_SCALE = 8 };

typedef struct gltf_node {
    size_t mesh;             /* or GLTF_NONE, as the next three */
    size_t skin;
    size_t camera;
    size_t light;            /* of KHR_lights_punctual */
    size_t children;         /* their number: gltf_list(.., GLTF_NODE_CHILDREN, ..) */
    size_t weights;          /* their number: gltf_numbers(.., GLTF_NODE_WEIGHTS, ..) */
    unsigned int has;        /* GLTF_HAS_MATRIX | ..; a matrix that the file has applies in place of
                                the three other members */
    unsigned int reserved_word;
    double matrix[16];       /* column by column */
    double translation[3];
    double rotation[4];      /* x, y, z, w: no rule says that it is a unit quaternion */
    double scale[3];
    size_t reserved[4];
} gltf_node;

GLTF_API gltf_status gltf_node_info(const gltf_file *file, size_t index, gltf_node *out)
    GLTF_CHECKED GLTF_NONNULL((3));

typedef struct gltf_skin {
    size_t joints;                /* their number: gltf_list(.., GLTF_SKIN_JOINTS, ..) */
    size_t skeleton;              /* a node, or GLTF_NONE */
    size_t inverse_bind_matrices; /* an accessor, or GLTF_NONE: all are the unit matrix */
    size_t reserved[2];
} gltf_skin;

GLTF_API gltf_status gltf_skin_info(const gltf_file *file, size_t index, gltf_skin *out)
    GLTF_CHECKED GLTF_NONNULL((3));

/* ---- Animations (3.11, 5.5 to 5.8) ----------------------------------------------------------- */

typedef struct gltf_animation {
    size_t channels; /* their number */
    size_t samplers; /* their number */
    size_t reserved[2];
} gltf_animation;

GLTF_API gltf_status gltf_animation_info(const gltf_file *file, size_t index, gltf_animation *out)
    GLTF_CHECKED GLTF_NONNULL((3));

enum { GLTF_PATH_TRANSLATION = 0, GLTF_PATH_ROTATION = 1, GLTF_PATH_SCALE = 2,
       GLTF_PATH_WEIGHTS = 3 };
enum { GLTF_LINEAR = 0, GLTF_STEP = 1, GLTF_CUBIC_SPLINE = 2 };

/* A channel of an animation, and its sampler. */
typedef struct gltf_channel {
    size_t node;                /* a node: a file whose channel has none is refused */
    unsigned int path;          /* GLTF_PATH_TRANSLATION .. GLTF_PATH_WEIGHTS */
    unsigned int interpolation; /* GLTF_LINEAR .. GLTF_CUBIC_SPLINE */
    size_t sampler;             /* its position in the animation */
    size_t input;               /* an accessor: times in seconds */
    size_t output;              /* an accessor: values, three for each time of a
                                   GLTF_CUBIC_SPLINE; of weights that for each morph target */
    size_t reserved[2];
} gltf_channel;

/* Fills in channel number `channel` of an animation. */
GLTF_API gltf_status gltf_channel_info(const gltf_file *file, size_t animation, size_t channel,
                                       gltf_channel *out) GLTF_CHECKED GLTF_NONNULL((4));

/* ---- Cameras and lights (5.12 to 5.14; KHR_lights_punctual) ---------------------------------- */

typedef struct gltf_camera {
    unsigned int orthographic; /* 1: xmag and ymag apply; 0: yfov and aspect_ratio apply. The others
                                  are 0 */
    unsigned int reserved_word;
    double znear;
    double zfar;         /* 0 if it is absent: a perspective has no end then */
    double xmag;
    double ymag;
    double yfov;         /* in radians */
    double aspect_ratio; /* 0 if it is absent: that of the window */
    size_t reserved[2];
} gltf_camera;

GLTF_API gltf_status gltf_camera_info(const gltf_file *file, size_t index, gltf_camera *out)
    GLTF_CHECKED GLTF_NONNULL((3));

enum { GLTF_DIRECTIONAL = 0, GLTF_POINT = 1, GLTF_SPOT = 2 };

typedef struct gltf_light {
    unsigned int type; /* GLTF_DIRECTIONAL .. GLTF_SPOT */
    unsigned int reserved_word;
    double color[3];
    double intensity;        /* in candela, of a GLTF_DIRECTIONAL in lux */
    double range;            /* 0 if it is absent: infinite */
    double inner_cone_angle; /* in radians */
    double outer_cone_angle;
    size_t reserved[2];
} gltf_light;

GLTF_API gltf_status gltf_light_info(const gltf_file *file, size_t index, gltf_light *out)
    GLTF_CHECKED GLTF_NONNULL((3));

/* ---- Extensions (3.12) ----------------------------------------------------------------------- */

/* Each of these calls reads an extension from its JSON value when it is called. Returns
 * GLTF_NO_SUCH_INDEX if there is no such record, or it has no such extension; and
 * GLTF_BAD_EXTENSION if the extension is no object, a required member is missing, a member is of
 * another kind than the extension asks for, an index is not below the number of its records, or a
 * word is unknown. Members that are absent or null have the defaults of the extension, and members
 * that it does not define are ignored. They may return GLTF_NO_MEMORY.
 *
 * gltf_open looks at none of this. It accepts a file that requires one of these extensions only if
 * its name is in `extensions` of the options. */

/* KHR_materials_clearcoat: a clear layer above a surface, such as lacquer. */
typedef struct gltf_clearcoat {
    double clearcoat_factor;
    double clearcoat_roughness_factor;
    gltf_texture_use clearcoat;           /* in red */
    gltf_texture_use clearcoat_roughness; /* in green */
    gltf_texture_use clearcoat_normal;    /* a normal texture: `scale` is its scale */
    size_t reserved[4];
} gltf_clearcoat;

GLTF_API gltf_status gltf_clearcoat_info(const gltf_file *file, size_t material,
                                         gltf_clearcoat *out) GLTF_CHECKED GLTF_NONNULL((3));

/* KHR_materials_sheen: the soft reflection of cloth. */
typedef struct gltf_sheen {
    double sheen_color_factor[3];
    double sheen_roughness_factor;
    gltf_texture_use sheen_color;
    gltf_texture_use sheen_roughness; /* in alpha */
    size_t reserved[4];
} gltf_sheen;

GLTF_API gltf_status gltf_sheen_info(const gltf_file *file, size_t material, gltf_sheen *out)
    GLTF_CHECKED GLTF_NONNULL((3));

/* KHR_materials_iridescence: a thin film, whose colour depends on the angle of view. */
typedef struct gltf_iridescence {
    double iridescence_factor;
    double iridescence_ior;
    double iridescence_thickness_minimum;   /* in nanometres, as the next */
    double iridescence_thickness_maximum;
    gltf_texture_use iridescence;           /* in red */
    gltf_texture_use iridescence_thickness; /* in green */
    size_t reserved[4];
} gltf_iridescence;

GLTF_API gltf_status gltf_iridescence_info(const gltf_file *file, size_t material,
                                           gltf_iridescence *out) GLTF_CHECKED GLTF_NONNULL((3));

/* KHR_materials_anisotropy: reflections that are stretched, as those of brushed metal. */
typedef struct gltf_anisotropy {
    double anisotropy_strength;
    double anisotropy_rotation;  /* in radians, from the tangent, counter-clockwise */
    gltf_texture_use anisotropy; /* the direction in red and green, the strength in blue */
    size_t reserved[4];
} gltf_anisotropy;

GLTF_API gltf_status gltf_anisotropy_info(const gltf_file *file, size_t material,
                                          gltf_anisotropy *out) GLTF_CHECKED GLTF_NONNULL((3));

/* KHR_materials_dispersion: how a volume parts the colours of light. */
typedef struct gltf_dispersion {
    double dispersion; /* 20 divided by the Abbe number */
    size_t reserved[4];
} gltf_dispersion;

GLTF_API gltf_status gltf_dispersion_info(const gltf_file *file, size_t material,
                                          gltf_dispersion *out) GLTF_CHECKED GLTF_NONNULL((3));

/* KHR_materials_diffuse_transmission: light that goes through a surface and is scattered, as
 * through a leaf. */
typedef struct gltf_diffuse_transmission {
    double diffuse_transmission_factor;
    double diffuse_transmission_color_factor[3];
    gltf_texture_use diffuse_transmission; /* in alpha */
    gltf_texture_use diffuse_transmission_color;
    size_t reserved[4];
} gltf_diffuse_transmission;

GLTF_API gltf_status gltf_diffuse_transmission_info(const gltf_file *file, size_t material,
                                                    gltf_diffuse_transmission *out)
    GLTF_CHECKED GLTF_NONNULL((3));

/* An image of a texture in another format, for those who can decode it. The `image` of gltf_texture
 * is for the others. */
typedef struct gltf_texture_source {
    size_t image; /* an image, or GLTF_NONE */
    size_t reserved[3];
} gltf_texture_source;

/* KHR_texture_basisu: a KTX2 image with Basis Universal. */
GLTF_API gltf_status gltf_basisu_info(const gltf_file *file, size_t texture,
                                      gltf_texture_source *out) GLTF_CHECKED GLTF_NONNULL((3));

/* EXT_texture_webp: a WebP image. */
GLTF_API gltf_status gltf_webp_info(const gltf_file *file, size_t texture,
                                    gltf_texture_source *out) GLTF_CHECKED GLTF_NONNULL((3));

/* EXT_mesh_gpu_instancing: instances of the mesh of a node. Each of the accessors has an item for
 * each instance. No rule says that it is there, or that their counts and types are the right ones:
 * gltf_accessor_info has both. */
typedef struct gltf_instancing {
    size_t translation; /* an accessor, or GLTF_NONE, as the next two */
    size_t rotation;    /* quaternions: x, y, z, w */
    size_t scale;
    size_t reserved[5];
} gltf_instancing;

GLTF_API gltf_status gltf_instancing_info(const gltf_file *file, size_t node, gltf_instancing *out)
    GLTF_CHECKED GLTF_NONNULL((3));

/* KHR_node_visibility. A node that has no such extension is visible. */
typedef struct gltf_visibility {
    unsigned int visible; /* 1, or 0: neither the node nor those below it are shown */
    unsigned int reserved_word;
    size_t reserved[3];
} gltf_visibility;

GLTF_API gltf_status gltf_visibility_info(const gltf_file *file, size_t node, gltf_visibility *out)
    GLTF_CHECKED GLTF_NONNULL((3));

enum { GLTF_MESHOPT_ATTRIBUTES = 0, GLTF_MESHOPT_TRIANGLES = 1, GLTF_MESHOPT_INDICES = 2 };
enum { GLTF_MESHOPT_NO_FILTER = 0, GLTF_MESHOPT_OCTAHEDRAL = 1, GLTF_MESHOPT_QUATERNION = 2,
       GLTF_MESHOPT_EXPONENTIAL = 3 };

/* EXT_meshopt_compression: where the compressed bytes of a buffer view are, and how they are
 * decompressed. Nothing is decompressed here, and no rule says that they lie in their buffer. */
typedef struct gltf_meshopt {
    size_t buffer;
    size_t byte_offset;
    size_t byte_length;
    size_t byte_stride;  /* bytes of a decompressed item */
    size_t count;        /* the number of items */
    unsigned int mode;   /* GLTF_MESHOPT_ATTRIBUTES .. GLTF_MESHOPT_INDICES */
    unsigned int filter; /* GLTF_MESHOPT_NO_FILTER .. GLTF_MESHOPT_EXPONENTIAL */
    size_t reserved[2];
} gltf_meshopt;

GLTF_API gltf_status gltf_meshopt_info(const gltf_file *file, size_t view, gltf_meshopt *out)
    GLTF_CHECKED GLTF_NONNULL((3));

/* KHR_xmp_json_ld: the packet of metadata that describes a record, by its position in the list
 * `packets` that gltf_json copies for GLTF_ROOT, index 0 and this extension. `kind`, `index` and
 * `part` are those of gltf_json. A packet past the end of that list is a GLTF_BAD_EXTENSION. */
GLTF_API gltf_status gltf_xmp_packet(const gltf_file *file, unsigned int kind, size_t index,
                                     size_t part, size_t *packet) GLTF_CHECKED GLTF_NONNULL((5));

#ifdef __cplusplus
}
#endif
#endif
