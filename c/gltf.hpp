// gltf.hpp: gltf.h for C++11 and later. A file closes itself, what fails is an exception, records
// are returned by value, and items are vectors or stay where they are.
//
//     gltf::file file(bytes.data(), bytes.size());
//     for (std::size_t i = 0; i < file.count(GLTF_MESHES); i++)
//         use(file.name(GLTF_MESHES, i), file.mesh(i).primitives);
//
// What the calls do is said in gltf.h.
#ifndef GLTF_HPP
#define GLTF_HPP

#include "gltf.h"

#include <cstddef>
#include <cstring>
#include <new>
#include <stdexcept>
#include <string>
#include <utility>
#include <vector>

namespace gltf {

// A file that was not opened, or a call that failed. `what()` is the fault's text. An index that is
// out of range is one of these with the status GLTF_NO_SUCH_INDEX. Want of memory is none: it is
// std::bad_alloc, at each call.
class error : public std::runtime_error {
public:
    explicit error(const gltf_fault &why)
        : std::runtime_error(why.text), fault(why)
    {
    }
    gltf_fault fault;
};

// Throws where a status is not GLTF_SUCCESS: std::bad_alloc for GLTF_NO_MEMORY, else an error with
// this fault.
inline void check(gltf_status status, const gltf_fault &fault)
{
    if (status == GLTF_NO_MEMORY)
        throw std::bad_alloc();
    if (status != GLTF_SUCCESS)
        throw error(fault);
}

// Throws where a status is not GLTF_SUCCESS, as the other does. The fault has no place.
inline void check(gltf_status status)
{
    gltf_fault fault;
    std::memset(&fault, 0, sizeof fault);
    fault.status = status;
    fault.buffer = GLTF_NONE;
    std::string text = status == GLTF_NO_SUCH_INDEX
        ? "gltf: an index is out of range"
        : "gltf: a call returned status " + std::to_string(status);
    text.copy(fault.text, sizeof fault.text - 1);
    check(status, fault);
}

// The component type of a number of C++.
template <class T> struct component;
template <> struct component<signed char> { enum { type = GLTF_I8 }; };
template <> struct component<unsigned char> { enum { type = GLTF_U8 }; };
template <> struct component<short> { enum { type = GLTF_I16 }; };
template <> struct component<unsigned short> { enum { type = GLTF_U16 }; };
template <> struct component<unsigned int> { enum { type = GLTF_U32 }; };
template <> struct component<float> { enum { type = GLTF_F32 }; };

// The items of an accessor where they are in the file, of N numbers each. It is valid until the
// file is closed, and empty where `data` of gltf_accessor is NULL: also of a sparse accessor with a
// count of 0, and of a stride below the size of an item.
template <class T, std::size_t N> class view {
public:
    struct item {
        T of[N];
    };
    view(const unsigned char *data, std::size_t count, std::size_t stride)
        : data_(data), count_(data == nullptr ? 0 : count), stride_(stride)
    {
    }
    std::size_t size() const { return count_; }
    bool empty() const { return count_ == 0; }
    // A copy of an item, which need not be aligned in the file.
    item operator[](std::size_t index) const
    {
        item out;
        std::memcpy(out.of, data_ + index * stride_, sizeof out.of);
        return out;
    }

private:
    const unsigned char *data_;
    std::size_t count_, stride_;
};

// An open file. Many threads may call the const members of one file at the same time.
class file {
public:
    // Opens a file, of which the bytes are copied.
    file(const void *bytes, std::size_t size, const gltf_open_options *options = nullptr)
        : file_(nullptr)
    {
        gltf_fault fault;
        check(gltf_open(bytes, size, options, &file_, &fault), fault);
    }
    // Opens a file of a block from malloc, which the library takes over, also where this throws.
    static file owned(void *bytes, std::size_t size, const gltf_open_options *options = nullptr)
    {
        gltf_file *opened = nullptr;
        gltf_fault fault;
        check(gltf_open_owned(bytes, size, options, &opened, &fault), fault);
        return file(opened);
    }
    // Takes over a file, as one of gltf_load.
    explicit file(gltf_file *opened) : file_(opened) {}
    file(file &&other) noexcept : file_(other.file_) { other.file_ = nullptr; }
    file &operator=(file &&other) noexcept
    {
        std::swap(file_, other.file_);
        return *this;
    }
    file(const file &) = delete;
    file &operator=(const file &) = delete;
    ~file() { gltf_close(file_); }

    // For the calls of gltf.h.
    const gltf_file *get() const { return file_; }

    // Supplies the bytes of a buffer that waits.
    void give(std::size_t buffer, const void *bytes, std::size_t size)
    {
        check(gltf_give(file_, buffer, bytes, size));
    }

    std::size_t count(unsigned int kind) const { return gltf_count(file_, kind); }

#define GLTF_RECORD(kind) \
    gltf_##kind kind(std::size_t index) const \
    { \
        gltf_##kind out; \
        check(gltf_##kind##_info(file_, index, &out)); \
        return out; \
    }
#define GLTF_PART(kind, whole) \
    gltf_##kind kind(std::size_t whole, std::size_t index) const \
    { \
        gltf_##kind out; \
        check(gltf_##kind##_info(file_, whole, index, &out)); \
        return out; \
    }
    GLTF_RECORD(buffer)
    GLTF_RECORD(buffer_view)
    GLTF_RECORD(accessor)
    GLTF_RECORD(mesh)
    GLTF_PART(primitive, mesh)
    GLTF_RECORD(material)
    GLTF_RECORD(sampler)
    GLTF_RECORD(texture)
    GLTF_RECORD(image)
    GLTF_RECORD(scene)
    GLTF_RECORD(node)
    GLTF_RECORD(skin)
    GLTF_RECORD(animation)
    GLTF_PART(channel, animation)
    GLTF_RECORD(camera)
    GLTF_RECORD(light)
#undef GLTF_RECORD
#undef GLTF_PART

    // Fills in an extension of a record; returns false if the record has none. An extension that is
    // not of its form is an error: GLTF_BAD_EXTENSION.
#define GLTF_EXTENSION(kind, type, records) \
    bool kind(std::size_t index, gltf_##type &out) const \
    { \
        check_index(records, index); \
        gltf_status status = gltf_##kind##_info(file_, index, &out); \
        check_found(status); \
        return status == GLTF_SUCCESS; \
    }
    GLTF_EXTENSION(clearcoat, clearcoat, GLTF_MATERIALS)
    GLTF_EXTENSION(sheen, sheen, GLTF_MATERIALS)
    GLTF_EXTENSION(iridescence, iridescence, GLTF_MATERIALS)
    GLTF_EXTENSION(anisotropy, anisotropy, GLTF_MATERIALS)
    GLTF_EXTENSION(dispersion, dispersion, GLTF_MATERIALS)
    GLTF_EXTENSION(diffuse_transmission, diffuse_transmission, GLTF_MATERIALS)
    GLTF_EXTENSION(basisu, texture_source, GLTF_TEXTURES)
    GLTF_EXTENSION(webp, texture_source, GLTF_TEXTURES)
    GLTF_EXTENSION(instancing, instancing, GLTF_NODES)
    GLTF_EXTENSION(visibility, visibility, GLTF_NODES)
    GLTF_EXTENSION(meshopt, meshopt, GLTF_BUFFER_VIEWS)
#undef GLTF_EXTENSION

    // The accessor of an attribute of a primitive, or of a morph target of it; GLTF_NONE if it has
    // none.
    std::size_t attribute(std::size_t mesh, std::size_t primitive, unsigned int meaning,
                          unsigned int set = 0, std::size_t target = GLTF_NONE) const
    {
        check_target(mesh, primitive, target);
        std::size_t out = GLTF_NONE;
        check_found(gltf_attribute_find(file_, mesh, primitive, target, meaning, set, &out));
        return out;
    }

    // The attributes of a primitive, or of a morph target of it, in the order of
    // gltf_attribute_info: the name of each, as `TEXCOORD_0`, and its accessor.
    std::vector<std::pair<std::string, std::size_t>>
    attributes(std::size_t mesh, std::size_t primitive, std::size_t target = GLTF_NONE) const
    {
        check_target(mesh, primitive, target);
        std::vector<std::pair<std::string, std::size_t>> out;
        gltf_attribute it;
        gltf_status status;
        while ((status = gltf_attribute_info(file_, mesh, primitive, target, out.size(), &it))
               == GLTF_SUCCESS) {
            std::string name = text_of([&](char *text, std::size_t room, std::size_t *length) {
                return gltf_attribute_name(file_, mesh, primitive, target, out.size(), text, room,
                                           length);
            });
            out.emplace_back(std::move(name), it.accessor);
        }
        check_found(status);
        return out;
    }

    // The material of a primitive in a variant; GLTF_NONE if there is none for it, and that of the
    // primitive applies. An index that is out of range is an error: GLTF_BAD_EXTENSION, whose
    // fault has the place of the index.
    std::size_t variant_material(std::size_t mesh, std::size_t primitive,
                                 std::size_t variant) const
    {
        this->primitive(mesh, primitive);
        check_index(GLTF_VARIANTS, variant);
        gltf_fault fault;
        gltf_status status = gltf_variant_fault(file_, mesh, primitive, variant, &fault);
        if (status == GLTF_SUCCESS)
            throw error(fault);
        check_found(status);
        std::size_t out = GLTF_NONE;
        check_found(gltf_variant_material(file_, mesh, primitive, variant, &out));
        return out;
    }

    // The scene to show at first; GLTF_NONE if the file names none.
    std::size_t default_scene() const
    {
        std::size_t out = GLTF_NONE;
        check_found(gltf_default_scene(file_, &out));
        return out;
    }

    // The name of a record; empty if it has none, as with the next three.
    std::string name(unsigned int kind, std::size_t index) const
    {
        check_index(kind, index);
        return text_of([&](char *text, std::size_t room, std::size_t *length) {
            return gltf_name(file_, kind, index, text, room, length);
        });
    }

    // Another text of a record.
    std::string text(unsigned int what, std::size_t index) const
    {
        check_index(what == GLTF_BUFFER_URI ? GLTF_BUFFERS
                    : what == GLTF_IMAGE_URI || what == GLTF_IMAGE_MIME_TYPE ? GLTF_IMAGES
                    : GLTF_ASSET, index);
        return text_of([&](char *text, std::size_t room, std::size_t *length) {
            return gltf_text(file_, what, index, text, room, length);
        });
    }

    // The JSON text of the extras of a record.
    std::string extras(unsigned int kind, std::size_t index, std::size_t part = 0) const
    {
        check_part(kind, index, part);
        return text_of([&](char *text, std::size_t room, std::size_t *length) {
            return gltf_json(file_, kind, index, part, nullptr, 0, text, room, length);
        });
    }

    // The JSON text of an extension of a record, where gltf_json has it.
    std::string extension(unsigned int kind, std::size_t index, const std::string &name,
                          std::size_t part = 0) const
    {
        check_part(kind, index, part);
        return text_of([&](char *text, std::size_t room, std::size_t *length) {
            return gltf_json(file_, kind, index, part, name.data(), name.size(), text, room,
                             length);
        });
    }

    std::vector<std::size_t> list(unsigned int what, std::size_t index) const
    {
        std::size_t count = 0;
        check(gltf_list(file_, what, index, nullptr, 0, &count));
        std::vector<std::size_t> out(count);
        check(gltf_list(file_, what, index, out.data(), count, &count));
        return out;
    }

    std::vector<double> numbers(unsigned int what, std::size_t index) const
    {
        std::size_t count = 0;
        check(gltf_numbers(file_, what, index, nullptr, 0, &count));
        std::vector<double> out(count);
        check(gltf_numbers(file_, what, index, out.data(), count, &count));
        return out;
    }

    // All items of an accessor, as the N numbers of the first, those of the second, and so on. It
    // fails with GLTF_OTHER_TYPE if they are other numbers, and as gltf_accessor_read: with
    // GLTF_UNREADABLE also if there are none. It throws std::bad_alloc if they are more than memory
    // can hold.
    template <class T, std::size_t N> std::vector<T> items(std::size_t index) const
    {
        gltf_accessor it = typed<T, N>(index);
        std::vector<T> out(readable(it) * N);
        check(gltf_accessor_read(file_, index, out.data(), out.size() * sizeof(T)));
        return out;
    }

    // The items of an accessor in place; empty if `data` of gltf_accessor is NULL. It fails if they
    // are other numbers.
    template <class T, std::size_t N> view<T, N> in_place(std::size_t index) const
    {
        gltf_accessor it = typed<T, N>(index);
        return view<T, N>(it.data, it.count, it.stride);
    }

    // All components of an accessor of whole numbers without a sign. It fails as `items` does.
    std::vector<unsigned int> indices(std::size_t index) const
    {
        gltf_accessor it = accessor(index);
        std::vector<unsigned int> out(readable(it) * it.components);
        check(gltf_accessor_read_u32(file_, index, out.data(), out.size()));
        return out;
    }

    // All components of an accessor as floats: normalized integers as the fractions that they mean
    // (3.6.2.2), others as the nearest float. It fails as `items` does, but for the type.
    std::vector<float> floats(std::size_t index) const
    {
        gltf_accessor it = accessor(index);
        switch (it.component_type) {
        case GLTF_I8: return floats_of<signed char>(index, it, 127.0f);
        case GLTF_U8: return floats_of<unsigned char>(index, it, 255.0f);
        case GLTF_I16: return floats_of<short>(index, it, 32767.0f);
        case GLTF_U16: return floats_of<unsigned short>(index, it, 65535.0f);
        case GLTF_U32: return floats_of<unsigned int>(index, it, 0.0f);
        default: return floats_of<float>(index, it, 0.0f);
        }
    }

private:
    // Throws where there is no record of a kind with this index.
    void check_index(unsigned int kind, std::size_t index) const
    {
        if (index >= count(kind))
            check(GLTF_NO_SUCH_INDEX);
    }

    // Throws where there is no such record, or no such part of it.
    void check_part(unsigned int kind, std::size_t index, std::size_t part) const
    {
        if (kind == GLTF_PRIMITIVES)
            primitive(index, part);
        else if (kind == GLTF_CHANNELS)
            channel(index, part);
        else if (kind != GLTF_ANIMATION_SAMPLERS)
            check_index(kind, index);
        else if (part >= animation(index).samplers)
            check(GLTF_NO_SUCH_INDEX);
    }

    // Throws where there is no such primitive, or no such morph target of it.
    void check_target(std::size_t mesh, std::size_t primitive, std::size_t target) const
    {
        std::size_t targets = this->primitive(mesh, primitive).targets;
        if (target != GLTF_NONE && target >= targets)
            check(GLTF_NO_SUCH_INDEX);
    }

    // Throws where a call failed, but not where there is just nothing.
    static void check_found(gltf_status status)
    {
        if (status != GLTF_NO_SUCH_INDEX)
            check(status);
    }

    template <class Call> static std::string text_of(Call call)
    {
        std::size_t length = 0;
        gltf_status status = call(nullptr, 0, &length);
        if (status == GLTF_NO_SUCH_INDEX)
            return std::string();
        check(status);
        std::string out(length + 1, '\0');
        check(call(&out[0], out.size(), &length));
        out.resize(length);
        return out;
    }

    template <class T, std::size_t N> gltf_accessor typed(std::size_t index) const
    {
        gltf_accessor it = accessor(index);
        if (it.component_type != static_cast<unsigned int>(component<T>::type)
            || it.components != N)
            check(GLTF_OTHER_TYPE);
        return it;
    }

    // All components as floats. `one` is the normalized integer that means 1; 0 if none is one.
    template <class T>
    std::vector<float> floats_of(std::size_t index, const gltf_accessor &it, float one) const
    {
        std::vector<T> all(readable(it) * it.components);
        check(gltf_accessor_read(file_, index, all.data(), all.size() * sizeof(T)));
        std::vector<float> out(all.size());
        for (std::size_t i = 0; i < all.size(); i++) {
            float number = static_cast<float>(all[i]);
            out[i] = !it.normalized || one <= 0 ? number : number < -one ? -1.0f : number / one;
        }
        return out;
    }

    // The number of items to make room for. A file may state any number, and need not have as many
    // bytes.
    static std::size_t readable(const gltf_accessor &it)
    {
        if (it.count > static_cast<std::size_t>(-1) / (16 * it.item_size))
            throw std::bad_alloc();
        return it.count;
    }

    gltf_file *file_;
};

} // namespace gltf
#endif
