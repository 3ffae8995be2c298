#!/usr/bin/env python3
"""Writes tables/attributes.txt, triangles.txt, indices.txt and broken.txt: streams of the encoder of
Debian's libmeshoptimizer, and what its decoder answers. It needs that library; what it writes stands
in the repository, so that nothing else does.

Streams of every width of a group, of one block and more, of both strides of indices; and streams in
which bytes were changed, lost or put in, which that decoder reads or refuses. Its other versions of
the modes (0xd0, 0xe0) are not of the extension, and are left out."""
import ctypes
import ctypes.util
import pathlib
import random

HERE = pathlib.Path(__file__).resolve().parent
LIBRARY = ctypes.CDLL(ctypes.util.find_library("meshoptimizer"))
SIZE = ctypes.c_size_t
MODES = {
    "attributes": ("VertexBuffer", 0xA0),
    "triangles": ("IndexBuffer", 0xE1),
    "indices": ("IndexSequence", 0xD1),
}
for coded, _ in MODES.values():
    getattr(LIBRARY, f"meshopt_encode{coded}").restype = SIZE


def encoded(mode, items, count, *stride):
    """The stream of the encoder."""
    room = (ctypes.c_ubyte * (4096 + 8 * len(bytes(items))))()
    encode = getattr(LIBRARY, f"meshopt_encode{MODES[mode][0]}")
    size = encode(room, SIZE(len(room)), items, SIZE(count), *map(SIZE, stride))
    return bytes(room[:size])


def decoded(mode, stream, count, stride):
    """What the decoder answers: the items in hexadecimal digits, or that the stream is refused."""
    room = (ctypes.c_ubyte * max(1, count * stride))()
    decode = getattr(LIBRARY, f"meshopt_decode{MODES[mode][0]}")
    if decode(room, SIZE(count), SIZE(stride), stream, SIZE(len(stream))) != 0:
        return "refused"
    return bytes(room[: count * stride]).hex() or "∅"


def elements(chance, count, stride):
    """Elements whose bytes change by little, much or not at all, each in its own way."""
    spans = [chance.choice([0, 1, 2, 6, 200]) for _ in range(stride)]
    last, items = [chance.randrange(256) for _ in range(stride)], bytearray()
    for _ in range(count):
        last = [
            (byte + chance.randint(-span, span)) % 256 if chance.random() < 0.9 else byte
            for byte, span in zip(last, spans)
        ]
        items += bytes(last)
    return bytes(items)


def corners(chance, count, top):
    """The corners of a grid, of fans and of triangles by chance."""
    found = []
    for at in range(count // 3):
        row, column = divmod(at // 2, 5)
        first = row * 6 + column
        found += chance.choice(
            [
                [first, first + 1, first + 6] if at % 2 else [first + 1, first + 7, first + 6],
                [0, at + 1, at + 2],
                [chance.randrange(top) for _ in range(3)],
            ]
            if top > 64
            else [[first, first + 1, first + 6] if at % 2 else [first + 1, first + 7, first + 6]]
        )
    return [it % top for it in found]


def walk(chance, count, top):
    """Indices that go on from one of two places, or somewhere else."""
    places, found = [0, top // 2], []
    for _ in range(count):
        at = chance.randrange(2)
        jump = chance.randrange(top) if chance.random() < 0.1 else places[at] + chance.randint(-9, 9)
        places[at] = jump % top
        found.append(places[at])
    return found


def whole(mode, chance, count, stride):
    """A stream of so many items."""
    if mode == "attributes":
        return encoded(mode, elements(chance, count, stride), count, stride)
    top = chance.choice([40, 5000, 1 << 16 if stride == 2 else 1 << 28])
    found = (corners if mode == "triangles" else walk)(chance, count, top)
    return encoded(mode, (ctypes.c_uint * max(1, count))(*found), count)


def changed(chance, stream):
    """The stream with some of its bytes changed, lost or put in. Its first one stays."""
    bytes_of = bytearray(stream)
    for _ in range(chance.choice([1, 1, 2, 4])):
        at = chance.randrange(1, len(bytes_of))
        bytes_of[at : at + chance.choice([0, 1, 1, 1])] = chance.choice(
            [b"", bytes([chance.randrange(256)]), bytes([bytes_of[at] ^ 1 << chance.randrange(8)])]
        )
    return bytes(bytes_of)


def rows(mode):
    """The cases of a mode."""
    if mode == "attributes":
        few = [(0, 4), (1, 4), (15, 8), (16, 12), (17, 4), (33, 16), (64, 8), (65, 4), (3, 256)]
        return few + [(255, 4), (256, 4), (257, 4), (5, 32), (40, 36), (33, 256), (20, 100)]
    counts = [0, 3, 6, 30, 60, 300] if mode == "triangles" else [0, 1, 2, 7, 50, 200]
    return [(count, stride) for count in counts for stride in (2, 4)]


def main():
    chance, broken = random.Random(78), []
    LIBRARY.meshopt_encodeIndexVersion(1)
    for mode, (_, header) in MODES.items():
        made = []
        for count, stride in rows(mode):
            stream = whole(mode, chance, count, stride)
            assert stream[0] == header
            answer = decoded(mode, stream, count, stride)
            made.append(f"{mode} {count} {stride} : {stream.hex()}\n    {answer}\n")
            for _ in range(6 if len(stream) < 700 else 0):
                other = changed(chance, stream)
                answer = decoded(mode, other, count, stride)
                broken.append(f"any {mode} {count} {stride} : {other.hex()}\n    {answer}\n")
        text = f"# Streams of Debian's encoder. Written by streams.py.\n\n{''.join(made)}"
        (HERE / "tables" / f"{mode}.txt").write_text(text)
    text = "# Streams that were changed, and what Debian's decoder answers. Written by streams.py.\n\n"
    (HERE / "tables" / "broken.txt").write_text(text + "".join(broken))


if __name__ == "__main__":
    main()
