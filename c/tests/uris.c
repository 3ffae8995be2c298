/* The escapes of URIs, and images in data URIs: by gltf_load.h. It ends with 0 where each call
 * returns what the header says; a sanitizer sees the rest. */
#include "check.h"

#define GLTF_LOAD_IMPLEMENTATION
#include "gltf_load.h"

/* A URI and what it is decoded to, of so many bytes. */
static void is_decoded(const char *uri, const char *wanted, size_t length)
{
    size_t size = strlen(uri) + 1;
    char *text = (char *)malloc(size);
    if (text == NULL)
        exit(2);
    memcpy(text, uri, size);
    CHECK(gltf_decode_uri(text) == length && memcmp(text, wanted, length + 1) == 0);
    free(text);
}

/* An image with a URI: the status of its bytes, and these, of which there are so many. */
static void has_data(const char *uri, gltf_status wanted, const char *bytes, size_t size)
{
    char text[512];
    gltf_file *file;
    gltf_fault fault;
    size_t room, found;
    sprintf(text, "{\"asset\":{\"version\":\"2.0\"},\"images\":[{\"uri\":\"%s\"}]}", uri);
    if (gltf_open(text, strlen(text), NULL, &file, &fault) != GLTF_SUCCESS)
        wrong = __LINE__;
    for (room = 0; room <= size + 1; room++) {
        char *out = room == 0 ? NULL : (char *)malloc(room);
        size_t most = room < size ? room : size;
        if (out != NULL)
            memset(out, '#', room);
        found = 77;
        CHECK(gltf_image_data(file, 0, out, room, &found) == wanted);
        CHECK(found == (wanted == GLTF_SUCCESS ? size : 77));
        CHECK(out == NULL || wanted != GLTF_SUCCESS || memcmp(out, bytes, most) == 0);
        CHECK(out == NULL || wanted == GLTF_SUCCESS || out[0] == '#');
        CHECK(room <= size || wanted != GLTF_SUCCESS || out[size] == '#');
        free(out);
    }
    CHECK(gltf_image_data(file, 1, NULL, 0, &found) == GLTF_NO_SUCH_INDEX);
    CHECK(gltf_image_data(NULL, 0, NULL, 0, &found) == GLTF_CLOSED);
    gltf_close(file);
}

int main(void)
{
    is_decoded("", "", 0);
    is_decoded("a b.png", "a b.png", 7);
    is_decoded("a%20b%2Fc%2f%C3%ad", "a b/c/\303\255", 8);
    is_decoded("%", "%", 1);
    is_decoded("%4", "%4", 2);
    is_decoded("%zz%4g%%41", "%zz%4g%A", 8);
    is_decoded("a%00b", "a\0b", 3);
    has_data("data:image/png;base64,iVBORw==", GLTF_SUCCESS, "\211PNG", 4);
    has_data("data:;base64,", GLTF_SUCCESS, "", 0);
    has_data("data:;base64,QQ==", GLTF_SUCCESS, "A", 1);
    has_data("data:;base64,QUI=", GLTF_SUCCESS, "AB", 2);
    has_data("data:;base64,QUJD", GLTF_SUCCESS, "ABC", 3);
    has_data("data:;base64,QQ", GLTF_SUCCESS, "A", 1);
    has_data("data:;base64,QUI", GLTF_SUCCESS, "AB", 2);
    has_data("data:;base64,+/+/", GLTF_SUCCESS, "\373\377\277", 3);
    has_data("data:;base64,QUJD;base64,!", GLTF_SUCCESS, "ABC", 3);
    has_data("data:;base64,Q", GLTF_BAD_BASE64, "", 1);
    has_data("data:;base64,QR==", GLTF_BAD_BASE64, "", 1);
    has_data("data:;base64,QUJ=", GLTF_BAD_BASE64, "", 1);
    has_data("data:;base64,QUJDR", GLTF_BAD_BASE64, "", 3);
    has_data("data:;base64,QUJD====", GLTF_BAD_BASE64, "", 3);
    has_data("data:;base64,=", GLTF_BAD_BASE64, "", 1);
    has_data("data:;base64,Q=I=", GLTF_BAD_BASE64, "", 2);
    has_data("data:;base64,QUJD%", GLTF_BAD_BASE64, "", 3);
    has_data("data:;base64,QUJD\\u0000", GLTF_BAD_BASE64, "", 3);
    has_data("data:image/svg+xml,<svg/>", GLTF_BAD_BASE64, "", 1);
    has_data("wood.png", GLTF_NO_SUCH_INDEX, "", 1);
    has_data("a;base64,QUJD", GLTF_NO_SUCH_INDEX, "", 1);
    if (wrong != 0)
        printf("check %d failed\n", wrong);
    return wrong == 0 ? 0 : 3;
}
