// Accessors of no items, records that are not there, and want of memory: by gltf.hpp. It ends with 0
// where each call throws what the header says. Linked with --wrap=malloc.
#include "empty.h"
#include "gltf.hpp"

#include <cstdio>
#include <cstdlib>

extern "C" {
void *__real_malloc(std::size_t size);
void *__wrap_malloc(std::size_t size);
}

static int wrong;
static bool is_refused;

extern "C" void *__wrap_malloc(std::size_t size)
{
    return is_refused ? nullptr : __real_malloc(size);
}

// What a call throws: the status of an error, GLTF_NO_MEMORY for std::bad_alloc, or GLTF_SUCCESS.
template <class Call> static gltf_status thrown(Call call)
{
    try {
        call();
    } catch (const gltf::error &why) {
        return why.fault.status == GLTF_NO_SUCH_INDEX
                && std::strcmp(why.what(), "gltf: an index is out of range") != 0
            ? 1000 : why.fault.status;
    } catch (const std::bad_alloc &) {
        return GLTF_NO_MEMORY;
    }
    return GLTF_SUCCESS;
}

#define THROWS(status, ...) do { \
        if (thrown([&] { __VA_ARGS__; }) != (status)) \
            wrong = __LINE__; \
    } while (0)

static void read_nothing(const gltf::file &file)
{
    THROWS(GLTF_UNREADABLE, file.items<float, 3>(0));
    THROWS(GLTF_UNREADABLE, file.items<unsigned char, 1>(1));
    THROWS(GLTF_UNREADABLE, file.indices(1));
    THROWS(GLTF_OTHER_TYPE, file.indices(0));
    THROWS(GLTF_OTHER_TYPE, file.items<float, 2>(0));
    if (!file.in_place<float, 3>(0).empty() || file.in_place<float, 3>(0).size() != 0)
        wrong = __LINE__;
}

static void look_past_the_end(const gltf::file &file)
{
    gltf_clearcoat coat;
    gltf_texture_source source;
    gltf_instancing instances;
    gltf_meshopt packed;
    THROWS(GLTF_NO_SUCH_INDEX, file.accessor(3));
    THROWS(GLTF_NO_SUCH_INDEX, file.mesh(0));
    THROWS(GLTF_NO_SUCH_INDEX, file.primitive(0, 0));
    THROWS(GLTF_NO_SUCH_INDEX, file.channel(0, 0));
    THROWS(GLTF_NO_SUCH_INDEX, file.items<float, 3>(3));
    THROWS(GLTF_NO_SUCH_INDEX, file.list(GLTF_NODE_CHILDREN, 0));
    THROWS(GLTF_NO_SUCH_INDEX, file.numbers(GLTF_ACCESSOR_MIN, 3));
    THROWS(GLTF_NO_SUCH_INDEX, file.name(GLTF_ACCESSORS, 3));
    THROWS(GLTF_NO_SUCH_INDEX, file.text(GLTF_BUFFER_URI, 1));
    THROWS(GLTF_NO_SUCH_INDEX, file.text(GLTF_IMAGE_MIME_TYPE, 1));
    THROWS(GLTF_NO_SUCH_INDEX, file.text(GLTF_ASSET_VERSION, 1));
    THROWS(GLTF_NO_SUCH_INDEX, file.extras(GLTF_NODES, 0));
    THROWS(GLTF_NO_SUCH_INDEX, file.extras(GLTF_PRIMITIVES, 0, 0));
    THROWS(GLTF_NO_SUCH_INDEX, file.extension(GLTF_CHANNELS, 0, "x", 0));
    THROWS(GLTF_NO_SUCH_INDEX, file.extension(GLTF_ANIMATION_SAMPLERS, 0, "x", 0));
    THROWS(GLTF_NO_SUCH_INDEX, file.attribute(0, 0, GLTF_POSITION));
    THROWS(GLTF_NO_SUCH_INDEX, file.variant_material(0, 0, 0));
    THROWS(GLTF_NO_SUCH_INDEX, file.clearcoat(0, coat));
    THROWS(GLTF_NO_SUCH_INDEX, file.webp(0, source));
    THROWS(GLTF_NO_SUCH_INDEX, file.instancing(0, instances));
    THROWS(GLTF_NO_SUCH_INDEX, file.meshopt(1, packed));
    // What is there has no name, extras or extension.
    THROWS(GLTF_SUCCESS, file.name(GLTF_ACCESSORS, 2));
    THROWS(GLTF_SUCCESS, file.text(GLTF_ASSET_COPYRIGHT, 0));
    THROWS(GLTF_SUCCESS, file.extras(GLTF_ROOT, 0));
    THROWS(GLTF_SUCCESS, file.extension(GLTF_IMAGES, 0, "x"));
    THROWS(GLTF_SUCCESS, file.meshopt(0, packed));
    THROWS(GLTF_SUCCESS, file.default_scene());
    THROWS(GLTF_SUCCESS, file.material(GLTF_NONE));
}

static void look(const char *text, unsigned int flags)
{
    gltf_open_options options = { flags, 0, nullptr, 0, { 0, 0, 0, 0 } };
    gltf::file file(text, std::strlen(text), &options);
    read_nothing(file);
    look_past_the_end(file);
    if ((file.image(0).bytes == nullptr) != (flags == GLTF_EXTERNAL))
        wrong = __LINE__;
    if (flags == GLTF_EXTERNAL) {
        THROWS(GLTF_SHORT_BUFFER, file.give(0, "", 0));
        file.give(0, "1234", 4);
        THROWS(GLTF_NO_SUCH_INDEX, file.give(0, "1234", 4));
        read_nothing(file);
    }
    is_refused = true;
    gltf_status opened = thrown([&] { gltf::file(text, std::strlen(text), &options); });
    is_refused = false;
    if (opened != GLTF_NO_MEMORY)
        wrong = __LINE__;
}

int main()
{
    look(empty, 0);
    look(waiting, GLTF_EXTERNAL);
    if (wrong != 0)
        std::printf("check %d failed\n", wrong);
    return wrong == 0 ? 0 : 3;
}
