/* Prints the first point of a file's first accessor, if it has points, up to 1,024: `show FILE`. */
#include "contents.h"
#include "gltf.h"

#include <stdio.h>
#include <stdlib.h>

/* The use that the README shows. */
static int show(const unsigned char *bytes, size_t size)
{
    gltf_file *file;
    gltf_fault fault;
    gltf_accessor it;
    float points[1024][3];
    if (gltf_open(bytes, size, NULL, &file, &fault) != GLTF_SUCCESS)
        return printf("%s: %s\n", fault.path, fault.text), 1;
    if (gltf_accessor_info(file, 0, &it) == GLTF_SUCCESS
        && it.component_type == GLTF_F32 && it.components == 3
        && gltf_accessor_read(file, 0, points, sizeof points) == GLTF_SUCCESS)
        printf("the first point is %g %g %g\n", points[0][0], points[0][1], points[0][2]);
    gltf_close(file);
    return 0;
}

int main(int words, char **word)
{
    size_t size;
    unsigned char *bytes = words == 2 ? contents_of(word[1], &size) : NULL;
    int status = bytes == NULL ? 2 : show(bytes, size);
    free(bytes);
    return status;
}
