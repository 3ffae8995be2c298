// Prints the items of all accessors of files, as they are stored and as floats, and the attributes
// of all primitives, by gltf.hpp: `items FILE..`. `expected.py --items FILE` prints the same.
#include "gltf.hpp"

#include <cstdlib>
#include <fstream>
#include <iomanip>
#include <iostream>
#include <iterator>

static std::string contents_of(const char *path)
{
    std::ifstream in(path, std::ios::binary);
    return std::string((std::istreambuf_iterator<char>(in)), std::istreambuf_iterator<char>());
}

// The items, which are the same in place if they are there.
template <class T, std::size_t N> static void print_items(const gltf::file &file, std::size_t index)
{
    std::vector<T> all = file.items<T, N>(index);
    gltf::view<T, N> there = file.in_place<T, N>(index);
    if (!there.empty() && there.size() * N != all.size())
        std::exit(3);
    for (std::size_t i = 0; i < there.size(); i++)
        if (std::memcmp(there[i].of, &all[i * N], sizeof there[i].of) != 0)
            std::exit(4);
    for (T it : all)
        std::cout << " " << +it;
}

template <class T>
static void print_components(const gltf::file &file, std::size_t index, unsigned int components)
{
    switch (components) {
    case 1: return print_items<T, 1>(file, index);
    case 2: return print_items<T, 2>(file, index);
    case 3: return print_items<T, 3>(file, index);
    case 4: return print_items<T, 4>(file, index);
    case 9: return print_items<T, 9>(file, index);
    default: return print_items<T, 16>(file, index);
    }
}

static void print_accessor(const gltf::file &file, std::size_t index)
{
    gltf_accessor it = file.accessor(index);
    std::cout << "accessor " << index << ":";
    switch (it.component_type) {
    case GLTF_I8: print_components<signed char>(file, index, it.components); break;
    case GLTF_U8: print_components<unsigned char>(file, index, it.components); break;
    case GLTF_I16: print_components<short>(file, index, it.components); break;
    case GLTF_U16: print_components<unsigned short>(file, index, it.components); break;
    case GLTF_U32: print_components<unsigned int>(file, index, it.components); break;
    default: print_components<float>(file, index, it.components);
    }
    std::cout << "\nfloats " << index << ":";
    for (float number : file.floats(index))
        std::cout << " " << number;
    std::cout << "\n";
}

static void print_attributes(const gltf::file &file, std::size_t mesh, std::size_t primitive,
                             std::size_t target)
{
    for (const auto &it : file.attributes(mesh, primitive, target))
        std::cout << "attribute " << mesh << " " << primitive << " " << static_cast<long>(target)
                  << " " << it.first << ": " << it.second << "\n";
}

static void print(const gltf::file &file)
{
    for (std::size_t i = 0; i < file.count(GLTF_ACCESSORS); i++)
        try {
            print_accessor(file, i);
        } catch (const gltf::error &why) {
            std::cout << " status " << why.fault.status << "\n";
        }
    for (std::size_t m = 0; m < file.count(GLTF_MESHES); m++)
        for (std::size_t p = 0; p < file.mesh(m).primitives; p++) {
            print_attributes(file, m, p, GLTF_NONE);
            for (std::size_t t = 0; t < file.primitive(m, p).targets; t++)
                print_attributes(file, m, p, t);
        }
}

int main(int words, char **word)
{
    std::cout << std::setprecision(9);
    for (int i = 1; i < words; i++) {
        std::string bytes = contents_of(word[i]);
        print(gltf::file(bytes.data(), bytes.size()));
    }
}
