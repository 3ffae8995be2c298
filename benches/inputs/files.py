"""Files that `gltf_convert` reads, and one whose indices `gltf_show` prints."""
import struct

from make_files import container, document, floats, over_one_buffer, vectors
from row import Row
from values import triangles

# The length of a chunk that is empty, and a type that nobody knows.
CHUNK = struct.pack("<I4s", 0, b"NONE")


def empty_chunks(count):
    """A container with so many chunks behind the others."""
    front = container(document({}))
    size = struct.pack("<I", len(front) + count * len(CHUNK))
    return front[:8] + size + front[12:] + CHUNK * count


def text(count):
    """A text with a buffer beside it, of so many vectors."""
    buffer = {"byteLength": 12 * count, "uri": "in.bin"}
    return document(over_one_buffer(buffer, [(0, 12 * count)], [vectors(count)]))


ROWS = [
    Row("gltf_convert in.glb out.glb", "4,000,000 empty chunks", 4_000_000, empty_chunks),
    Row("gltf_convert in.glb out.gltf", "4,000,000 empty chunks", 4_000_000, empty_chunks),
    Row("gltf_convert in.gltf out.glb", "a buffer of 100 MB beside the text", 8_333_333, text,
        beside={"in.bin": lambda count: floats(3 * count)}),
    Row("gltf_show indices in.glb 0 0", "1,000,000 indices", 1_000_000, triangles),
]
