/* Draws the triangles of a file as an SVG image, seen from the front: `draw FILE > image.svg`.
 * docs/C.md goes through it. */
#define GLTF_LOAD_IMPLEMENTATION
#include "gltf_load.h"

#include <stdio.h>
#include <stdlib.h>
#include <string.h>

/* How deep nodes are followed. No rule refuses a node that is below itself. */
#define DEEPEST 64

typedef struct triangle {
    double corners[3][3];
    double color[4];
} triangle;

static triangle *triangles;
static size_t count, room;

static void add_triangle(const triangle *it)
{
    if (count == room) {
        triangle *more = (triangle *)realloc(triangles, (2 * room + 64) * sizeof *more);
        if (more == NULL)
            exit(3);
        triangles = more;
        room = 2 * room + 64;
    }
    triangles[count++] = *it;
}

/* The matrix of a node, column by column (glTF 2.0, section 3.5.3). */
static void matrix_of(const gltf_node *node, double out[16])
{
    double x = node->rotation[0], y = node->rotation[1], z = node->rotation[2];
    double w = node->rotation[3];
    int i, k;
    memcpy(out, node->matrix, 16 * sizeof *out);
    if (node->has & GLTF_HAS_MATRIX)
        return;
    out[0] = 1 - 2 * (y * y + z * z), out[1] = 2 * (x * y + z * w), out[2] = 2 * (x * z - y * w);
    out[4] = 2 * (x * y - z * w), out[5] = 1 - 2 * (x * x + z * z), out[6] = 2 * (y * z + x * w);
    out[8] = 2 * (x * z + y * w), out[9] = 2 * (y * z - x * w), out[10] = 1 - 2 * (x * x + y * y);
    for (i = 0; i < 3; i++)
        for (k = 0; k < 3; k++)
            out[4 * i + k] *= node->scale[i];
    memcpy(out + 12, node->translation, 3 * sizeof *out);
}

static void multiply(const double a[16], const double b[16], double out[16])
{
    int column, row, k;
    for (column = 0; column < 4; column++)
        for (row = 0; row < 4; row++)
            for (out[4 * column + row] = k = 0; k < 4; k++)
                out[4 * column + row] += a[4 * k + row] * b[4 * column + k];
}

/* The point of a vertex, where the matrix puts it. */
static void place(const double matrix[16], const float *point, double out[3])
{
    int row;
    for (row = 0; row < 3; row++)
        out[row] = matrix[row] * point[0] + matrix[4 + row] * point[1]
            + matrix[8 + row] * point[2] + matrix[12 + row];
}

/* All positions of a primitive, three floats each, or NULL. */
static float *positions_of(const gltf_file *file, size_t mesh, size_t index, size_t *vertices)
{
    gltf_accessor about;
    size_t accessor;
    float *out;
    if (gltf_attribute_find(file, mesh, index, GLTF_NONE, GLTF_POSITION, 0, &accessor)
            != GLTF_SUCCESS
        || gltf_accessor_info(file, accessor, &about) != GLTF_SUCCESS || about.components != 3
        || about.count > (size_t)1 << 28)
        return NULL;
    out = (float *)malloc(3 * about.count * sizeof *out + 1);
    if (out != NULL
        && gltf_accessor_read_f32(file, accessor, out, 3 * about.count) != GLTF_SUCCESS) {
        free(out);
        return NULL;
    }
    *vertices = about.count;
    return out;
}

/* Its indices, or 0, 1, 2 .. of a primitive that has none, or NULL. */
static unsigned int *indices_of(const gltf_file *file, const gltf_primitive *primitive,
                                size_t vertices, size_t *length)
{
    gltf_accessor about;
    unsigned int *out, i;
    *length = vertices;
    if (primitive->indices != GLTF_NONE) {
        if (gltf_accessor_info(file, primitive->indices, &about) != GLTF_SUCCESS
            || about.components != 1 || about.count > (size_t)1 << 28)
            return NULL;
        *length = about.count;
    }
    out = (unsigned int *)malloc(*length * sizeof *out + 1);
    if (out == NULL)
        return NULL;
    if (primitive->indices == GLTF_NONE)
        for (i = 0; i < *length; i++)
            out[i] = i;
    else if (gltf_accessor_read_u32(file, primitive->indices, out, *length) != GLTF_SUCCESS) {
        free(out);
        return NULL;
    }
    return out;
}

static void add_primitive(const gltf_file *file, size_t mesh, size_t index,
                          const double matrix[16])
{
    gltf_primitive primitive;
    gltf_material material;
    triangle it;
    float *points;
    unsigned int *indices;
    size_t vertices = 0, length = 0, i, k;
    if (gltf_primitive_info(file, mesh, index, &primitive) != GLTF_SUCCESS
        || primitive.mode != GLTF_TRIANGLES
        || gltf_material_info(file, primitive.material, &material) != GLTF_SUCCESS)
        return;
    memcpy(it.color, material.base_color_factor, sizeof it.color);
    points = positions_of(file, mesh, index, &vertices);
    indices = points == NULL ? NULL : indices_of(file, &primitive, vertices, &length);
    for (i = 0; indices != NULL && i + 3 <= length; i += 3) {
        /* No rule checks that an index is below the number of vertices. */
        for (k = 0; k < 3 && indices[i + k] < vertices; k++)
            place(matrix, points + 3 * (size_t)indices[i + k], it.corners[k]);
        if (k == 3)
            add_triangle(&it);
    }
    free(indices);
    free(points);
}

static void add_node(const gltf_file *file, size_t index, const double above[16], int depth)
{
    gltf_node node;
    gltf_mesh mesh;
    double local[16], matrix[16];
    size_t *children, length, i;
    if (depth > DEEPEST || gltf_node_info(file, index, &node) != GLTF_SUCCESS)
        return;
    matrix_of(&node, local);
    multiply(above, local, matrix);
    if (node.mesh != GLTF_NONE && gltf_mesh_info(file, node.mesh, &mesh) == GLTF_SUCCESS)
        for (i = 0; i < mesh.primitives; i++)
            add_primitive(file, node.mesh, i, matrix);
    children = (size_t *)malloc(node.children * sizeof *children + 1);
    if (children != NULL && gltf_list(file, GLTF_NODE_CHILDREN, index, children, node.children,
                                      &length) == GLTF_SUCCESS)
        for (i = 0; i < node.children; i++)
            add_node(file, children[i], matrix, depth + 1);
    free(children);
}

static void add_scene(const gltf_file *file)
{
    static const double unit[16] = { 1, 0, 0, 0, 0, 1, 0, 0, 0, 0, 1, 0, 0, 0, 0, 1 };
    gltf_scene scene;
    size_t index, *nodes, length, i;
    if (gltf_default_scene(file, &index) != GLTF_SUCCESS)
        index = 0;
    if (gltf_scene_info(file, index, &scene) != GLTF_SUCCESS)
        return;
    nodes = (size_t *)malloc(scene.nodes * sizeof *nodes + 1);
    if (nodes != NULL && gltf_list(file, GLTF_SCENE_NODES, index, nodes, scene.nodes, &length)
            == GLTF_SUCCESS)
        for (i = 0; i < scene.nodes; i++)
            add_node(file, nodes[i], unit, 0);
    free(nodes);
}

/* Those at the back first. */
static int compare(const void *first, const void *second)
{
    const triangle *a = (const triangle *)first, *b = (const triangle *)second;
    double depth = a->corners[0][2] + a->corners[1][2] + a->corners[2][2]
        - (b->corners[0][2] + b->corners[1][2] + b->corners[2][2]);
    return depth < 0 ? -1 : depth > 0;
}

static void draw(void)
{
    double low[2] = { 0, 0 }, high[2] = { 0, 0 }, width;
    size_t i, k, axis;
    for (i = 0; i < count; i++)
        for (k = 0; k < 3; k++)
            for (axis = 0; axis < 2; axis++) {
                double at = triangles[i].corners[k][axis];
                low[axis] = (i == 0 && k == 0) || at < low[axis] ? at : low[axis];
                high[axis] = (i == 0 && k == 0) || at > high[axis] ? at : high[axis];
            }
    qsort(triangles, count, sizeof *triangles, compare);
    width = high[0] - low[0] + (high[1] - low[1]);
    printf("<svg xmlns=\"http://www.w3.org/2000/svg\" viewBox=\"%g %g %g %g\">\n", low[0], -high[1],
           high[0] - low[0], high[1] - low[1]);
    for (i = 0; i < count; i++) {
        const triangle *it = triangles + i;
        printf("<path d=\"M%g %gL%g %gL%g %gZ\" fill=\"rgb(%.0f %.0f %.0f)\" stroke=\"black\" "
               "stroke-width=\"%g\"/>\n", it->corners[0][0], -it->corners[0][1], it->corners[1][0],
               -it->corners[1][1], it->corners[2][0], -it->corners[2][1], 255 * it->color[0],
               255 * it->color[1], 255 * it->color[2], width / 500);
    }
    printf("</svg>\n");
}

int main(int words, char **word)
{
    gltf_file *file;
    gltf_fault fault;
    if (words != 2)
        return fputs("usage: draw FILE > image.svg\n", stderr), 2;
    if (gltf_load(word[1], NULL, &file, &fault) != GLTF_SUCCESS)
        return fprintf(stderr, "%s: %s %s\n", word[1], fault.path, fault.text), 1;
    add_scene(file);
    gltf_close(file);
    draw();
    free(triangles);
    return 0;
}
