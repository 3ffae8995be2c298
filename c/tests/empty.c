/* Accessors of no items, with no room for them, and an image of no bytes: by gltf.h and
 * gltf_load.h. It ends with 0 where each call returns what the header says; a sanitizer sees the
 * rest. */
#include "check.h"
#include "empty.h"

#define GLTF_LOAD_IMPLEMENTATION
#include "gltf_load.h"

static void read_nothing(const gltf_file *file)
{
    gltf_accessor it;
    size_t i;
    for (i = 0; i < 3; i++) {
        gltf_status wanted = i < 2 ? GLTF_UNREADABLE : GLTF_NO_ROOM;
        CHECK(gltf_accessor_info(file, i, &it) == GLTF_SUCCESS && it.data == NULL);
        CHECK(gltf_accessor_read(file, i, NULL, 0) == GLTF_UNREADABLE);
        CHECK(gltf_accessor_read_u32(file, i, NULL, 0)
              == (i == 0 ? GLTF_OTHER_TYPE : GLTF_UNREADABLE));
        CHECK(gltf_accessor_read_f32(file, i, NULL, 0) == wanted);
    }
    CHECK(gltf_accessor_read(file, 3, NULL, 0) == GLTF_NO_SUCH_INDEX);
    CHECK(gltf_accessor_read_u32(NULL, 0, NULL, 0) == GLTF_CLOSED);
}

static void look(const char *text, unsigned int flags)
{
    gltf_open_options options;
    gltf_file *file;
    gltf_fault fault;
    gltf_image image;
    memset(&options, 0, sizeof options);
    options.flags = flags;
    if (gltf_open(text, strlen(text), &options, &file, &fault) != GLTF_SUCCESS) {
        wrong = __LINE__;
        return;
    }
    read_nothing(file);
    CHECK(gltf_image_info(file, 0, &image) == GLTF_SUCCESS && image.size == 0);
    CHECK((image.bytes == NULL) == (flags == GLTF_EXTERNAL));
    if (flags == GLTF_EXTERNAL) {
        CHECK(gltf_give(file, 0, "1234", 4) == GLTF_SUCCESS);
        CHECK(gltf_image_info(file, 0, &image) == GLTF_SUCCESS && image.bytes != NULL);
        read_nothing(file);
    }
    gltf_close(file);
}

int main(void)
{
    look(empty, 0);
    look(waiting, GLTF_EXTERNAL);
    if (wrong != 0)
        printf("check %d failed\n", wrong);
    return wrong == 0 ? 0 : 3;
}
