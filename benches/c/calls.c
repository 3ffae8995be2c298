/* Measures the calls that fill in a struct: `calls FILE`. A line for each kind of record that the
 * file has: its name, how many records there are, and nanoseconds for a call, the least of some
 * rounds over all of them. */
#define _POSIX_C_SOURCE 200809L
#include "contents.h"
#include "gltf.h"

#include <time.h>

#define ROUNDS 9
#define LEAST 200000

static double now(void)
{
    struct timespec it;
    clock_gettime(CLOCK_MONOTONIC, &it);
    return (double)it.tv_sec * 1e9 + (double)it.tv_nsec;
}

#define MEASURE(name, kind, call) do { \
        size_t count = gltf_count(file, kind), turns = count == 0 ? 0 : LEAST / count + 1, i, k; \
        double best = 0; \
        int round; \
        for (round = 0; round < ROUNDS && count > 0; round++) { \
            double time = now(); \
            for (k = 0; k < turns; k++) \
                for (i = 0; i < count; i++) \
                    failed |= (call) != GLTF_SUCCESS; \
            time = (now() - time) / (double)(turns * count); \
            best = round == 0 || time < best ? time : best; \
        } \
        if (count > 0) \
            printf("%s %lu %.1f\n", name, (unsigned long)count, best); \
    } while (0)
#define INFO(kind, number) do { \
        gltf_##kind it; \
        MEASURE("gltf_" #kind "_info", number, gltf_##kind##_info(file, i, &it)); \
    } while (0)

int main(int words, char **word)
{
    gltf_file *file;
    gltf_fault fault;
    gltf_primitive primitive;
    gltf_channel channel;
    gltf_attribute attribute;
    size_t size, found;
    int failed = 0;
    unsigned char *bytes = words == 2 ? contents_of(word[1], &size) : NULL;
    if (bytes == NULL || gltf_open(bytes, size, NULL, &file, &fault) != GLTF_SUCCESS)
        return 2;
    INFO(buffer, GLTF_BUFFERS);
    INFO(buffer_view, GLTF_BUFFER_VIEWS);
    INFO(accessor, GLTF_ACCESSORS);
    INFO(mesh, GLTF_MESHES);
    MEASURE("gltf_primitive_info", GLTF_MESHES, gltf_primitive_info(file, i, 0, &primitive));
    MEASURE("gltf_attribute_info", GLTF_MESHES,
            gltf_attribute_info(file, i, 0, GLTF_NONE, 0, &attribute));
    MEASURE("gltf_attribute_find", GLTF_MESHES,
            gltf_attribute_find(file, i, 0, GLTF_NONE, GLTF_POSITION, 0, &found));
    INFO(material, GLTF_MATERIALS);
    INFO(sampler, GLTF_SAMPLERS);
    INFO(texture, GLTF_TEXTURES);
    INFO(image, GLTF_IMAGES);
    INFO(scene, GLTF_SCENES);
    INFO(node, GLTF_NODES);
    INFO(skin, GLTF_SKINS);
    INFO(animation, GLTF_ANIMATIONS);
    MEASURE("gltf_channel_info", GLTF_ANIMATIONS, gltf_channel_info(file, i, 0, &channel));
    INFO(camera, GLTF_CAMERAS);
    INFO(light, GLTF_LIGHTS);
    gltf_close(file);
    return failed ? 3 : 0;
}
