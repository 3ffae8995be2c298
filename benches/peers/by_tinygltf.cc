// tinygltf over nlohmann's JSON. It has no validator of its own and no call that reads items.
// Images are left alone, as by the others.
#define TINYGLTF_IMPLEMENTATION
#define TINYGLTF_NO_STB_IMAGE
#define TINYGLTF_NO_STB_IMAGE_WRITE
#define TINYGLTF_NO_EXTERNAL_IMAGE
#include "tiny_gltf.h"

#include "loader.h"

static bool image_left_alone(tinygltf::Image *, const int, std::string *, std::string *, int, int,
                             const unsigned char *, int, void *)
{
    return true;
}

void *loader_open(const unsigned char *bytes, size_t size, char *why, size_t why_size)
{
    tinygltf::TinyGLTF loader;
    auto *model = new tinygltf::Model;
    std::string error, warning;
    bool is_container = size >= 4 && memcmp(bytes, "glTF", 4) == 0;
    loader.SetImageLoader(image_left_alone, nullptr);
    if (is_container
            ? loader.LoadBinaryFromMemory(model, &error, &warning, bytes, (unsigned)size)
            : loader.LoadASCIIFromString(model, &error, &warning, (const char *)bytes,
                                         (unsigned)size, ""))
        return model;
    snprintf(why, why_size, "%s", error.c_str());
    delete model;
    return nullptr;
}

void loader_counts(void *file, size_t counts[COUNTS])
{
    const auto *model = static_cast<tinygltf::Model *>(file);
    counts[ACCESSORS] = model->accessors.size();
    counts[MESHES] = model->meshes.size();
    counts[NODES] = model->nodes.size();
    counts[MATERIALS] = model->materials.size();
    counts[TEXTURES] = model->textures.size();
    counts[ANIMATIONS] = model->animations.size();
    counts[BUFFERS] = model->buffers.size();
    counts[BYTES] = 0;
    for (const auto &buffer : model->buffers)
        counts[BYTES] += (buffer.data.size() + 3) & ~(size_t)3;
}

long long loader_items(void *)
{
    return -1;
}

void loader_close(void *file)
{
    delete static_cast<tinygltf::Model *>(file);
}
