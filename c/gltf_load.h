/* gltf_load.h: what gltf.h leaves to its caller, in plain C. Files by their path, buffers in other
 * files by a callback, items as floats, and what URIs have.
 *
 *     #define GLTF_LOAD_IMPLEMENTATION     in one source file, before it is included
 *     #include "gltf_load.h"
 *
 *     if (gltf_load("model.gltf", NULL, &file, &fault) != GLTF_SUCCESS)
 *         fprintf(stderr, "%s\n", fault.text);
 *
 * This file is tested and not proved. The file that it opens is one of gltf.h's. */
#ifndef GLTF_LOAD_H
#define GLTF_LOAD_H

#include "gltf.h"

#ifdef __cplusplus
extern "C" {
#endif

/* Where the bytes of buffers in other files come from. */
typedef struct gltf_resolver {
    /* Sets `*bytes`, which is not NULL, and `*size` to the bytes of a URI, as it is in the file,
     * and returns GLTF_SUCCESS. Any other status is returned by gltf_open_with. It is asked for
     * relative references and for `file:`. */
    gltf_status (*resolve)(void *user, const char *uri, void **bytes, size_t *size);
    /* Frees the bytes of a `resolve` that succeeded. They have been copied. */
    void (*release)(void *user, void *bytes);
    /* What both are called with. */
    void *user;
} gltf_resolver;

/* Opens a file as gltf_open does, and supplies the bytes of the buffers in other files, in their
 * order. Returns what gltf_open, `resolve` or gltf_give returns, whichever fails first;
 * GLTF_EXTERNAL_REFERENCE for a URI with a zero byte, which is not asked for; or GLTF_NO_MEMORY. If
 * it fails, `*file` is NULL. The fault of such a buffer has its index in `buffer`, and in `path`
 * `/buffers/N` if it is GLTF_SHORT_BUFFER, else `/buffers/N/uri`. */
GLTF_API gltf_status gltf_open_with(const void *bytes, size_t size,
                                    const gltf_open_options *options,
                                    const gltf_resolver *resolver, gltf_file **file,
                                    gltf_fault *fault) GLTF_CHECKED GLTF_NONNULL((1, 4, 5, 6));

/* Opens the file at a path, with its buffers in other files. These have to be in the folder of the
 * file or below it: a URI that begins with `file:`, an absolute path, and one with an escaped `:`,
 * a zero byte or a part `..` are refused with GLTF_EXTERNAL_REFERENCE. Escapes as `%20` are decoded
 * first. A symbolic link is followed. `options` may be NULL. Returns GLTF_CANNOT_READ if a file
 * cannot be read, else what gltf_open_with returns. */
GLTF_API gltf_status gltf_load(const char *path, const gltf_open_options *options,
                               gltf_file **file, gltf_fault *fault)
    GLTF_CHECKED GLTF_NONNULL((1, 3, 4));

/* Does the same and refuses none of them, but a zero byte: for files that you trust. Of the schemes
 * `file` alone can be read. */
GLTF_API gltf_status gltf_load_anywhere(const char *path, const gltf_open_options *options,
                                        gltf_file **file, gltf_fault *fault)
    GLTF_CHECKED GLTF_NONNULL((1, 3, 4));

/* Copies the components of all items as floats, count * components of them; `room` is how many fit.
 * Normalized integers become the numbers that they mean (3.6.2.2): c / 127 and c / 32767, but at
 * least -1, of signed ones, and c / 255 and c / 65535 of unsigned ones. Other integers, and all
 * GLTF_U32, become the nearest float. Returns GLTF_NO_ROOM if they do not fit, else GLTF_NO_MEMORY
 * or what gltf_accessor_read returns. If `room` is 0, `out` may be NULL. */
GLTF_API gltf_status gltf_accessor_read_f32(const gltf_file *file, size_t index, float *out,
                                            size_t room) GLTF_CHECKED;

/* Copies the bytes of an image whose URI is `data:` with base64 (2.8), as many as `room` has room
 * for. `*size` receives how many there are. If `room` is 0, `out` may be NULL. Returns
 * GLTF_NO_SUCH_INDEX if there is no such image or its URI is another one, GLTF_BAD_BASE64 if the
 * data is not base64, or GLTF_NO_MEMORY. (gltf_image has the bytes of an image in a buffer.) */
GLTF_API gltf_status gltf_image_data(const gltf_file *file, size_t index, void *out, size_t room,
                                     size_t *size) GLTF_CHECKED GLTF_NONNULL((5));

/* Decodes the escapes of a URI, as `%20` for a space, in place. A `%` that begins none stays.
 * Returns the length of the result, in which `%00` is a zero byte; another one is behind it. */
GLTF_API size_t gltf_decode_uri(char *uri) GLTF_NONNULL((1));

#ifdef __cplusplus
}
#endif
#endif

#if defined(GLTF_LOAD_IMPLEMENTATION) && !defined(GLTF_LOAD_IMPLEMENTED)
#define GLTF_LOAD_IMPLEMENTED

#include <errno.h>
#include <stdio.h>
#include <stdlib.h>
#include <string.h>

/* Appends a text to one that has `size` bytes of room, cut to it. */
static void gltf_load_append(char *text, size_t size, const char *more)
{
    size_t length = strlen(text), n = strlen(more);
    if (n > size - 1 - length)
        n = size - 1 - length;
    memcpy(text + length, more, n);
    text[length + n] = 0;
}

/* Makes a fault of a buffer, or of the file itself: `buffer` is GLTF_NONE. */
static gltf_status gltf_load_fault(gltf_fault *fault, gltf_status status, size_t buffer,
                                   const char *before, const char *name, const char *after)
{
    memset(fault, 0, sizeof *fault);
    fault->status = status;
    fault->buffer = buffer;
    if (buffer != GLTF_NONE)
        sprintf(fault->path, "/buffers/%lu/uri", (unsigned long)buffer);
    gltf_load_append(fault->text, sizeof fault->text, before);
    gltf_load_append(fault->text, sizeof fault->text, name);
    gltf_load_append(fault->text, sizeof fault->text, after);
    return status;
}

/* Supplies the bytes of a buffer that waits. */
static gltf_status gltf_load_buffer(gltf_file *file, size_t index, size_t byte_length,
                                    const gltf_resolver *resolver, gltf_fault *fault)
{
    size_t length = 0, size = 0;
    void *bytes = NULL;
    char *uri;
    gltf_status status = gltf_text(file, GLTF_BUFFER_URI, index, NULL, 0, &length);
    if (status != GLTF_SUCCESS || (uri = (char *)malloc(length + 1)) == NULL)
        return gltf_load_fault(fault, GLTF_NO_MEMORY, index, "out of memory", "", "");
    status = gltf_text(file, GLTF_BUFFER_URI, index, uri, length + 1, &length);
    if (status == GLTF_SUCCESS && strlen(uri) != length)
        status = gltf_load_fault(fault, GLTF_EXTERNAL_REFERENCE, index, "a URI has a zero byte: `",
                                 uri, "`");
    else if ((status = resolver->resolve(resolver->user, uri, &bytes, &size)) != GLTF_SUCCESS)
        gltf_load_fault(fault, status, index, "cannot get the bytes of `", uri, "`");
    else {
        status = gltf_give(file, index, bytes, size);
        resolver->release(resolver->user, bytes);
        if (status == GLTF_SHORT_BUFFER) {
            gltf_load_fault(fault, status, index, "`", uri, "` has fewer bytes than the buffer");
            sprintf(fault->path, "/buffers/%lu", (unsigned long)index);
            fault->expected = byte_length;
            fault->actual = size;
        } else if (status != GLTF_SUCCESS)
            gltf_load_fault(fault, status, index, "out of memory", "", "");
    }
    free(uri);
    return status;
}

/* Supplies the bytes of all buffers that wait, or closes the file. */
static gltf_status gltf_load_buffers(gltf_file **file, const gltf_resolver *resolver,
                                     gltf_fault *fault)
{
    size_t i, count = gltf_count(*file, GLTF_BUFFERS);
    gltf_status status = GLTF_SUCCESS;
    for (i = 0; i < count && status == GLTF_SUCCESS; i++) {
        gltf_buffer buffer;
        status = gltf_buffer_info(*file, i, &buffer);
        if (status == GLTF_SUCCESS && buffer.waits)
            status = gltf_load_buffer(*file, i, buffer.byte_length, resolver, fault);
    }
    if (status != GLTF_SUCCESS) {
        gltf_close(*file);
        *file = NULL;
    }
    return status;
}

/* The same options, with GLTF_EXTERNAL. */
static gltf_open_options gltf_load_options(const gltf_open_options *options)
{
    gltf_open_options all;
    memset(&all, 0, sizeof all);
    if (options != NULL)
        all = *options;
    all.flags |= (unsigned int)GLTF_EXTERNAL;
    return all;
}

gltf_status gltf_open_with(const void *bytes, size_t size, const gltf_open_options *options,
                           const gltf_resolver *resolver, gltf_file **file, gltf_fault *fault)
{
    gltf_open_options all = gltf_load_options(options);
    gltf_status status = gltf_open(bytes, size, &all, file, fault);
    return status == GLTF_SUCCESS ? gltf_load_buffers(file, resolver, fault) : status;
}

/* The bytes of the file at a path, which free() takes. */
static gltf_status gltf_load_contents(const char *path, void **bytes, size_t *size)
{
    FILE *file = fopen(path, "rb");
    char *all = NULL;
    size_t room = 0, n = 0;
    gltf_status status = file == NULL ? GLTF_CANNOT_READ : GLTF_SUCCESS;
    while (status == GLTF_SUCCESS && n == room) {
        char *more = room > (size_t)-1 / 4 ? NULL : (char *)realloc(all, room = room * 2 + 4096);
        if (more == NULL)
            status = GLTF_NO_MEMORY;
        else {
            all = more;
            n += fread(all + n, 1, room - n, file);
            if (ferror(file))
                status = GLTF_CANNOT_READ;
        }
    }
    if (file != NULL)
        fclose(file);
    if (status != GLTF_SUCCESS)
        free(all);
    else {
        *bytes = all;
        *size = n;
    }
    return status;
}

/* What gltf_load's resolver is called with. */
typedef struct gltf_load_folder {
    const char *path;   /* of the file */
    int anywhere;       /* whether buffers may be outside of its folder */
    gltf_status status; /* why the last one was not read */
    int error;          /* and the errno of it */
} gltf_load_folder;

static int gltf_load_hex(char digit)
{
    const char *digits = "0123456789abcdef0123456789ABCDEF", *at = strchr(digits, digit);
    return digit == 0 || at == NULL ? -1 : (int)(at - digits) % 16;
}

size_t gltf_decode_uri(char *uri)
{
    char *to = uri, *from = uri;
    for (; *from != 0; from++, to++) {
        int high = *from == '%' ? gltf_load_hex(from[1]) : -1;
        int low = high >= 0 ? gltf_load_hex(from[2]) : -1;
        *to = *from;
        if (low >= 0) {
            *to = (char)(high * 16 + low);
            from += 2;
        }
    }
    *to = 0;
    return (size_t)(to - uri);
}

/* Whether a relative path may lead out of its folder. */
static int gltf_load_leads_out(const char *path)
{
    size_t n;
    if (*path == '/')
        return 1;
    for (; *path != 0; path += path[n] == 0 ? n : n + 1) {
        n = strcspn(path, "/");
        if (n == 2 && path[0] == '.' && path[1] == '.')
            return 1;
    }
    return 0;
}

/* The name of the file that a decoded URI names, relative to the folder or absolute; NULL if it may
 * not be read. */
static const char *gltf_load_name(const char *uri, int anywhere)
{
    if (!anywhere)
        return strchr(uri, ':') != NULL || gltf_load_leads_out(uri) ? NULL : uri;
    if (strncmp(uri, "file:", 5) == 0) {
        uri += 5;
        return strncmp(uri, "//", 2) == 0 ? uri + 2 : uri;
    }
    return uri;
}

static gltf_status gltf_load_resolve(void *user, const char *uri, void **bytes, size_t *size)
{
    gltf_load_folder *folder = (gltf_load_folder *)user;
    const char *slash = strrchr(folder->path, '/'), *name;
    size_t before = slash == NULL ? 0 : (size_t)(slash + 1 - folder->path);
    char *path = (char *)malloc(before + strlen(uri) + 1), *decoded;
    size_t length;
    folder->status = GLTF_NO_MEMORY;
    if (path == NULL)
        return GLTF_NO_MEMORY;
    decoded = path + before;
    strcpy(decoded, uri);
    length = gltf_decode_uri(decoded);
    name = length == strlen(decoded) ? gltf_load_name(decoded, folder->anywhere) : NULL;
    if (name == NULL)
        folder->status = GLTF_EXTERNAL_REFERENCE;
    else {
        if (*name == '/')
            memmove(path, name, strlen(name) + 1);
        else {
            memmove(decoded, name, strlen(name) + 1);
            memcpy(path, folder->path, before);
        }
        errno = 0;
        folder->status = gltf_load_contents(path, bytes, size);
        folder->error = errno;
    }
    free(path);
    return folder->status;
}

static void gltf_load_release(void *user, void *bytes)
{
    (void)user;
    free(bytes);
}

/* The text of a fault at a buffer that was not read. */
static void gltf_load_explain(const gltf_load_folder *folder, gltf_fault *fault)
{
    if (fault->status == GLTF_CANNOT_READ && folder->error != 0) {
        gltf_load_append(fault->text, sizeof fault->text, ": ");
        gltf_load_append(fault->text, sizeof fault->text, strerror(folder->error));
    } else if (fault->status == GLTF_EXTERNAL_REFERENCE)
        gltf_load_append(fault->text, sizeof fault->text, folder->anywhere ? ": no file name"
                         : ": it is not in the folder of the file or below");
}

static gltf_status gltf_load_path(const char *path, int anywhere, const gltf_open_options *options,
                                  gltf_file **file, gltf_fault *fault)
{
    gltf_open_options all = gltf_load_options(options);
    gltf_load_folder folder;
    gltf_resolver resolver;
    void *bytes = NULL;
    size_t size = 0;
    gltf_status status;
    *file = NULL;
    errno = 0;
    status = gltf_load_contents(path, &bytes, &size);
    if (status == GLTF_NO_MEMORY)
        return gltf_load_fault(fault, status, GLTF_NONE, "out of memory", "", "");
    if (status != GLTF_SUCCESS)
        return gltf_load_fault(fault, status, GLTF_NONE, "cannot read the file: ",
                               strerror(errno), "");
    status = gltf_open_owned(bytes, size, &all, file, fault);
    if (status != GLTF_SUCCESS)
        return status;
    folder.path = path;
    folder.anywhere = anywhere;
    folder.status = GLTF_SUCCESS;
    folder.error = 0;
    resolver.resolve = gltf_load_resolve;
    resolver.release = gltf_load_release;
    resolver.user = &folder;
    status = gltf_load_buffers(file, &resolver, fault);
    if (status != GLTF_SUCCESS && status == folder.status)
        gltf_load_explain(&folder, fault);
    return status;
}

gltf_status gltf_load(const char *path, const gltf_open_options *options, gltf_file **file,
                      gltf_fault *fault)
{
    return gltf_load_path(path, 0, options, file, fault);
}

gltf_status gltf_load_anywhere(const char *path, const gltf_open_options *options,
                               gltf_file **file, gltf_fault *fault)
{
    return gltf_load_path(path, 1, options, file, fault);
}

/* The number of a digit of base64 (RFC 4648, section 4), or -1. */
static int gltf_load_digit(char digit)
{
    if (digit >= 'A' && digit <= 'Z')
        return digit - 'A';
    if (digit >= 'a' && digit <= 'z')
        return digit - 'a' + 26;
    if (digit >= '0' && digit <= '9')
        return digit - '0' + 52;
    return digit == '+' ? 62 : digit == '/' ? 63 : -1;
}

/* Decodes base64 of so many characters, of which the `=` may be left out. Returns 0 if it is none:
 * that is known at the end, when bytes are written already. */
static int gltf_load_base64(const char *text, size_t length, unsigned char *out, size_t room,
                            size_t *size)
{
    size_t digits = length, i;
    unsigned int bits = 0;
    while (digits > 0 && text[digits - 1] == '=')
        digits--;
    *size = digits / 4 * 3 + digits % 4 * 3 / 4;
    for (i = 0; i < digits; i++) {
        int digit = gltf_load_digit(text[i]);
        size_t at = i / 4 * 3 + i % 4;
        if (digit < 0)
            return 0;
        bits = (bits << 6 | (unsigned int)digit) & 0xffff;
        if (i % 4 != 0 && at - 1 < room)
            out[at - 1] = (unsigned char)(bits >> (6 - i % 4 * 2));
    }
    /* What the last digit has beside the last byte is 0. */
    if (digits % 4 == 2)
        return length - digits <= 2 && (bits & 15) == 0;
    return digits % 4 == 3 ? length - digits <= 1 && (bits & 3) == 0
        : digits % 4 == 0 && length == digits;
}

/* Decodes a URI of so many bytes, if it is `data:` with base64. Nothing is written else. */
static gltf_status gltf_load_data(const char *uri, size_t length, unsigned char *out, size_t room,
                                  size_t *size)
{
    const char *const mark = ";base64,";
    const char *at, *end;
    size_t count;
    if (strncmp(uri, "data:", 5) != 0)
        return GLTF_NO_SUCH_INDEX;
    at = strstr(uri, mark);
    if (at == NULL || strlen(uri) != length)
        return GLTF_BAD_BASE64;
    at += strlen(mark);
    end = strstr(at, mark);
    length = end == NULL ? strlen(at) : (size_t)(end - at);
    if (!gltf_load_base64(at, length, NULL, 0, &count))
        return GLTF_BAD_BASE64;
    gltf_load_base64(at, length, out, room, size);
    return GLTF_SUCCESS;
}

gltf_status gltf_image_data(const gltf_file *file, size_t index, void *out, size_t room,
                            size_t *size)
{
    size_t length = 0;
    char *uri;
    gltf_status status = gltf_text(file, GLTF_IMAGE_URI, index, NULL, 0, &length);
    if (status != GLTF_SUCCESS)
        return status;
    if ((uri = (char *)malloc(length + 1)) == NULL)
        return GLTF_NO_MEMORY;
    status = gltf_text(file, GLTF_IMAGE_URI, index, uri, length + 1, &length);
    if (status == GLTF_SUCCESS)
        status = gltf_load_data(uri, length, (unsigned char *)out, room, size);
    free(uri);
    return status;
}

/* A component of an accessor as a float. */
static float gltf_load_float(const unsigned char *at, unsigned int type, unsigned int normalized)
{
    unsigned long low = type == GLTF_I8 || type == GLTF_U8 ? at[0]
        : at[0] | (unsigned long)at[1] << 8;
    float number;
    switch (type) {
    case GLTF_I8:
        number = (float)((long)low - (low < 128 ? 0 : 256));
        return !normalized ? number : number < -127.0f ? -1.0f : number / 127.0f;
    case GLTF_U8:
        return normalized ? (float)low / 255.0f : (float)low;
    case GLTF_I16:
        number = (float)((long)low - (low < 32768 ? 0 : 65536));
        return !normalized ? number : number < -32767.0f ? -1.0f : number / 32767.0f;
    case GLTF_U16:
        return normalized ? (float)low / 65535.0f : (float)low;
    case GLTF_U32:
        return (float)(low | (unsigned long)at[2] << 16 | (unsigned long)at[3] << 24);
    default:
        memcpy(&number, at, sizeof number);
        return number;
    }
}

gltf_status gltf_accessor_read_f32(const gltf_file *file, size_t index, float *out, size_t room)
{
    gltf_accessor it;
    gltf_status status = gltf_accessor_info(file, index, &it);
    const unsigned char *at;
    unsigned char *copy = NULL;
    size_t i, k;
    if (status != GLTF_SUCCESS)
        return status;
    if (it.count > room / it.components)
        return GLTF_NO_ROOM;
    if (it.component_type == GLTF_F32)
        return gltf_accessor_read(file, index, out, room * sizeof *out);
    at = it.data;
    if (at == NULL) {
        it.stride = it.item_size;
        copy = (unsigned char *)malloc(it.count * it.item_size + 1);
        if (copy == NULL)
            return GLTF_NO_MEMORY;
        status = gltf_accessor_read(file, index, copy, it.count * it.item_size);
        at = copy;
    }
    for (i = 0; i < it.count && status == GLTF_SUCCESS; i++)
        for (k = 0; k < it.components; k++)
            out[i * it.components + k] =
                gltf_load_float(at + i * it.stride + k * (it.item_size / it.components),
                                it.component_type, it.normalized);
    free(copy);
    return status;
}

#endif
