/* A file whose accessors have no items, with an image of no bytes in a buffer that may wait: for
 * the tests of each wrapper. */
#ifndef EMPTY_H
#define EMPTY_H

#define EMPTY_BUFFER "data:;base64,AAAAAA=="
#define EMPTY_BEFORE "{\"asset\":{\"version\":\"2.0\"},\"buffers\":[{\"byteLength\":4,\"uri\":\""
#define EMPTY_AFTER "\"}],\"bufferViews\":[{\"buffer\":0,\"byteLength\":0}]," \
    "\"accessors\":[{\"bufferView\":0,\"componentType\":5126,\"count\":0,\"type\":\"VEC3\"}," \
    "{\"componentType\":5121,\"count\":0,\"type\":\"SCALAR\"}," \
    "{\"bufferView\":0,\"componentType\":5123,\"count\":1,\"type\":\"SCALAR\"}]," \
    "\"images\":[{\"bufferView\":0,\"mimeType\":\"image/png\"}]}"

/* With the bytes of its buffer; and with a buffer in another file. */
static const char empty[] = EMPTY_BEFORE EMPTY_BUFFER EMPTY_AFTER;
static const char waiting[] = EMPTY_BEFORE "a.bin" EMPTY_AFTER;

#endif
