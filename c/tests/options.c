/* What is asked for when a file is opened, and what is said of buffers: each flag, members that are
 * reserved, lengths, the place of each fault of a record and of a buffer, and addresses before and
 * after gltf_give. It ends with 0 where each call returns what the header says. */
#include "gltf.h"

#include <stdio.h>
#include <stdlib.h>
#include <string.h>

#define BEFORE "{\"asset\":{\"version\":\"2.0\"},\"buffers\":["
#define AFTER "]}"
#define FINE "{\"byteLength\":3,\"uri\":\"data:;base64,AAAA\"},"

static int wrong;

#define CHECK(holds) do { \
        if (!(holds)) \
            wrong = __LINE__; \
    } while (0)

/* Opens a text, in memory of its own where it is to be given up. */
static gltf_status opened(const char *text, const gltf_open_options *options, int is_owned,
                          gltf_file **file, gltf_fault *fault)
{
    size_t size = strlen(text);
    void *block;
    memset(fault, 0x5a, sizeof *fault);
    *file = (gltf_file *)fault;
    if (!is_owned)
        return gltf_open(text, size, options, file, fault);
    block = malloc(size);
    if (block == NULL)
        exit(2);
    memcpy(block, text, size);
    return gltf_open_owned(block, size, options, file, fault);
}

/* Options that this version does not know are refused, and nothing of the file is looked at. */
static void refuses(const gltf_open_options *options)
{
    int is_owned;
    gltf_file *file;
    gltf_fault fault;
    for (is_owned = 0; is_owned < 2; is_owned++) {
        CHECK(opened("{", options, is_owned, &file, &fault) == GLTF_BAD_ARGUMENT);
        CHECK(file == NULL && fault.status == GLTF_BAD_ARGUMENT && fault.buffer == GLTF_NONE);
        CHECK(fault.rules == 0 && fault.expected == 0 && fault.actual == 0);
        CHECK(fault.path[0] == 0);
        CHECK(strcmp(fault.text, "an unknown flag, or a reserved member that is not 0") == 0);
    }
}

static void try_options(void)
{
    gltf_open_options options;
    gltf_file *file;
    gltf_fault fault;
    unsigned int bit, flags;
    size_t i;
    memset(&options, 0, sizeof options);
    for (flags = 0; flags < 4; flags++) {
        options.flags = flags;
        CHECK(opened(BEFORE AFTER, &options, flags % 2 == 1, &file, &fault) == GLTF_SUCCESS);
        gltf_close(file);
    }
    for (bit = 4; bit != 0; bit <<= 1) {
        options.flags = bit;
        refuses(&options);
        options.flags = bit | GLTF_EXTERNAL | GLTF_EXACT_LENGTHS;
        refuses(&options);
    }
    options.flags = 0;
    for (bit = 1; bit != 0; bit <<= 1) {
        options.reserved_word = bit;
        refuses(&options);
    }
    options.reserved_word = 0;
    for (i = 0; i < sizeof options.reserved / sizeof *options.reserved; i++) {
        options.reserved[i] = (size_t)1 << (i * 21);
        refuses(&options);
        options.reserved[i] = 0;
    }
    CHECK(opened(BEFORE AFTER, &options, 0, &file, &fault) == GLTF_SUCCESS);
    gltf_close(file);
}

/* A text that is none, or no document: its fault, and the pointer to the member of a record. */
static void has_pointer(const char *text, const char *path)
{
    int is_owned;
    gltf_file *file;
    gltf_fault fault;
    for (is_owned = 0; is_owned < 2; is_owned++) {
        CHECK(opened(text, NULL, is_owned, &file, &fault) == GLTF_BAD_JSON && file == NULL);
        CHECK(fault.status == GLTF_BAD_JSON && fault.rules == 0 && fault.buffer == GLTF_NONE);
        CHECK(fault.expected == 0 && fault.actual == 0);
        CHECK(strcmp(fault.path, path) == 0 && fault.text[0] != 0);
    }
}

static void try_records(void)
{
    has_pointer("{", "");
    has_pointer("{}", "/asset");
    has_pointer(BEFORE "{}" AFTER, "/buffers/0/byteLength");
    has_pointer("{\"asset\":{\"version\":\"2.0\"},\"nodes\":[{},{\"mesh\":\"0\"}]}",
                "/nodes/1/mesh");
}

/* Blocks of no bytes are given up: none, and one of malloc. */
static void try_no_bytes(void)
{
    int is_block;
    for (is_block = 0; is_block < 2; is_block++) {
        void *block = is_block ? malloc(8) : NULL;
        gltf_fault fault;
        gltf_file *file = (gltf_file *)(void *)&fault;
        CHECK(gltf_open_owned(block, 0, NULL, &file, &fault) == GLTF_BAD_JSON && file == NULL);
        CHECK(fault.status == GLTF_BAD_JSON && fault.path[0] == 0);
    }
}

/* The fault of the buffer with index 1, with each of the flags. */
static void has_fault(const char *buffer, unsigned int flags, gltf_status status, const char *path)
{
    char text[512];
    gltf_open_options options;
    gltf_file *file;
    gltf_fault fault;
    int is_short = status == GLTF_SHORT_BUFFER;
    memset(&options, 0, sizeof options);
    options.flags = flags;
    sprintf(text, "%s%s%s%s", BEFORE, FINE, buffer, AFTER);
    CHECK(opened(text, &options, flags > 1, &file, &fault) == status);
    CHECK(fault.status == status && file == NULL);
    CHECK(fault.buffer == 1 && strcmp(fault.path, path) == 0 && fault.text[0] != 0);
    CHECK(fault.expected == (is_short ? 9u : 0u) && fault.actual == (is_short ? 4u : 0u));
}

static void try_faults(void)
{
    unsigned int flags;
    for (flags = 0; flags < 4; flags++) {
        has_fault("{\"byteLength\":9,\"uri\":\"data:;base64,!\"}", flags, GLTF_BAD_BASE64,
                  "/buffers/1/uri");
        has_fault("{\"byteLength\":9,\"uri\":\"http://a\"}", flags, GLTF_UNSUPPORTED_SCHEME,
                  "/buffers/1/uri");
        has_fault("{\"byteLength\":9}", flags, GLTF_MISSING_BLOB, "/buffers/1");
        has_fault("{\"byteLength\":9,\"uri\":\"data:;base64,AAAAAA==\"}", flags, GLTF_SHORT_BUFFER,
                  "/buffers/1");
        if (flags % 2 == 0)
            has_fault("{\"byteLength\":9,\"uri\":\"a.bin\"}", flags, GLTF_EXTERNAL_REFERENCE,
                      "/buffers/1/uri");
    }
}

/* A buffer of five bytes that declares so many, in the file or given: whether it is one. */
static void has_length(size_t declared, int is_given, unsigned int exact, int is_enough)
{
    char text[256];
    gltf_open_options options;
    gltf_file *file;
    gltf_fault fault;
    gltf_buffer it;
    gltf_status status, wanted = is_enough ? GLTF_SUCCESS : GLTF_SHORT_BUFFER;
    memset(&options, 0, sizeof options);
    options.flags = exact | GLTF_EXTERNAL;
    sprintf(text, "%s{\"byteLength\":%lu,\"uri\":\"%s\"}%s", BEFORE, (unsigned long)declared,
            is_given ? "a.bin" : "data:;base64,QUJDREU=", AFTER);
    status = opened(text, &options, 0, &file, &fault);
    if (is_given) {
        CHECK(status == GLTF_SUCCESS && gltf_buffer_info(file, 0, &it) == GLTF_SUCCESS);
        CHECK(it.waits == 1 && it.bytes == NULL && it.size == 0);
        status = gltf_give(file, 0, "ABCDE", 5);
    } else if (!is_enough)
        CHECK(fault.buffer == 0 && fault.expected == declared && fault.actual == 5);
    CHECK(status == wanted);
    if (is_enough) {
        CHECK(gltf_buffer_info(file, 0, &it) == GLTF_SUCCESS && it.waits == 0);
        CHECK(it.size == 8 && it.byte_length == declared);
        CHECK(memcmp(it.bytes, "ABCDE\0\0\0", 8) == 0);
    } else if (is_given) {
        CHECK(gltf_buffer_info(file, 0, &it) == GLTF_SUCCESS && it.waits == 1);
        CHECK(gltf_give(file, 0, "ABCDEFGHI", 9) == GLTF_SUCCESS);
    }
    gltf_close(file);
}

static void try_lengths(void)
{
    size_t declared;
    int is_given;
    for (declared = 4; declared < 10; declared++)
        for (is_given = 0; is_given < 2; is_given++) {
            has_length(declared, is_given, 0, declared <= 8);
            has_length(declared, is_given, GLTF_EXACT_LENGTHS, declared <= 5);
        }
}

/* A buffer, the image in it and the accessor over it have this address, and these bytes there. */
static void is_at(const gltf_file *file, size_t index, const unsigned char *bytes, const char *text)
{
    gltf_buffer buffer;
    gltf_image image;
    gltf_accessor it;
    CHECK(gltf_buffer_info(file, index, &buffer) == GLTF_SUCCESS && buffer.bytes == bytes);
    CHECK(gltf_image_info(file, index, &image) == GLTF_SUCCESS && image.bytes == bytes);
    CHECK(gltf_accessor_info(file, index, &it) == GLTF_SUCCESS && it.data == bytes);
    if (bytes != NULL)
        CHECK(memcmp(bytes, text, 4) == 0);
}

/* Appends three elements of a list; each has a comma before it, or none, and its number. */
static void put_three(char *text, const char *before, const char *form)
{
    int i;
    strcat(text, before);
    for (i = 0; i < 3; i++)
        sprintf(text + strlen(text), form, i == 0 ? "" : ",", i);
}

/* Bytes for a buffer leave those of the others where they are, also where they are refused. */
static void try_addresses(void)
{
    char text[1024] = BEFORE;
    static const char *const texts[] = { "ABCD", "EFGH", "IJKL" };
    const unsigned char *bytes[3] = { NULL, NULL, NULL };
    gltf_open_options options;
    gltf_file *file;
    gltf_fault fault;
    gltf_buffer it;
    size_t i, k;
    strcat(text, "{\"byteLength\":4,\"uri\":\"data:;base64,QUJDRA==\"},"
           "{\"byteLength\":4,\"uri\":\"a\"},{\"byteLength\":4,\"uri\":\"b\"}");
    put_three(text, "],\"bufferViews\":[", "%s{\"buffer\":%d,\"byteLength\":4}");
    put_three(text, "],\"images\":[", "%s{\"bufferView\":%d,\"mimeType\":\"image/png\"}");
    put_three(text, "],\"accessors\":[", "%s{\"bufferView\":%d,\"componentType\":5121,\"count\":4,"
              "\"type\":\"SCALAR\"}");
    strcat(text, AFTER);
    memset(&options, 0, sizeof options);
    options.flags = GLTF_EXTERNAL;
    CHECK(opened(text, &options, 0, &file, &fault) == GLTF_SUCCESS);
    for (i = 0; i < 3; i++) {
        if (i > 0) {
            CHECK(gltf_give(file, i, "", 0) == GLTF_SHORT_BUFFER);
            CHECK(gltf_give(file, i - 1, texts[i], 4) == GLTF_NO_SUCH_INDEX);
            CHECK(gltf_give(file, i, texts[i], 4) == GLTF_SUCCESS);
        }
        if (gltf_buffer_info(file, i, &it) == GLTF_SUCCESS)
            bytes[i] = it.bytes;
        CHECK(bytes[i] != NULL);
        for (k = 0; k < 3; k++)
            is_at(file, k, bytes[k], texts[k]);
    }
    gltf_close(file);
}

int main(void)
{
    try_options();
    try_records();
    try_no_bytes();
    try_faults();
    try_lengths();
    try_addresses();
    if (wrong != 0)
        printf("check %d failed\n", wrong);
    return wrong == 0 ? 0 : 3;
}
