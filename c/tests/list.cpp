// Prints what files hold, by gltf.hpp: `list FILE..`.
#include "gltf.hpp"

#include <fstream>
#include <iostream>
#include <iterator>

static std::string contents_of(const char *path)
{
    std::ifstream in(path, std::ios::binary);
    return std::string((std::istreambuf_iterator<char>(in)), std::istreambuf_iterator<char>());
}

static void print(const gltf::file &file)
{
    for (std::size_t m = 0; m < file.count(GLTF_MESHES); m++)
        for (std::size_t p = 0; p < file.mesh(m).primitives; p++) {
            std::size_t points = file.attribute(m, p, GLTF_POSITION);
            std::size_t indices = file.primitive(m, p).indices;
            if (points != GLTF_NONE) {
                gltf::view<float, 3> there = file.in_place<float, 3>(points);
                std::vector<float> all = file.items<float, 3>(points);
                std::cout << "points: " << all.size() / 3 << ", in place " << there.size();
                if (!there.empty())
                    std::cout << ", last " << (there[there.size() - 1].of[2] == all.back());
                std::cout << "\n";
            }
            if (indices != GLTF_NONE)
                std::cout << "indices: " << file.indices(indices).size() << "\n";
        }
    for (std::size_t n = 0; n < file.count(GLTF_NODES); n++)
        std::cout << "node `" << file.name(GLTF_NODES, n) << "`: "
                  << file.list(GLTF_NODE_CHILDREN, n).size() << " children, "
                  << file.numbers(GLTF_NODE_WEIGHTS, n).size() << " weights, extras "
                  << file.extras(GLTF_NODES, n) << "\n";
    for (std::size_t m = 0; m < file.count(GLTF_MATERIALS); m++) {
        gltf_sheen sheen;
        if (file.sheen(m, sheen))
            std::cout << "sheen: " << sheen.sheen_color_factor[0] << "\n";
        try {
            gltf_iridescence film;
            file.iridescence(m, film);
        } catch (const gltf::error &why) {
            std::cout << "no film: " << why.fault.status << "\n";
        }
    }
    for (std::size_t v = 0; v < file.count(GLTF_VARIANTS); v++)
        try {
            const std::size_t material = file.variant_material(0, 0, v);
            std::cout << "variant: " << static_cast<long>(material) << "\n";
        } catch (const gltf::error &why) {
            std::cout << why.fault.status << " " << why.fault.path << ": " << why.what() << "\n";
        }
    std::cout << "scene " << static_cast<long>(file.default_scene()) << ", version "
              << file.text(GLTF_ASSET_VERSION, 0) << "\n";
}

int main(int words, char **word)
{
    for (int i = 1; i < words; i++) {
        std::string bytes = contents_of(word[i]);
        try {
            gltf::file first(bytes.data(), bytes.size());
            gltf::file moved(std::move(first));
            first = std::move(moved);
            print(first);
            std::cout << first.accessor(99).count << "\n";
        } catch (const gltf::error &why) {
            std::cout << why.fault.status << " " << why.fault.path << ": " << why.what() << "\n";
        }
    }
}
