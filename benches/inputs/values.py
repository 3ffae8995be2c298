"""Containers of values that `gltf_show inspect` looks at: items each of which is above those before
it, items within what was seen before, and what is no number."""
import array
import functools
import math
import struct

from make_files import BYTE, FLOAT, INT, SHORT, Blob, floats
from row import Row

SIGNED_BYTE, SIGNED_SHORT = 5120, 5122
LETTERS = {SIGNED_BYTE: "b", BYTE: "B", SIGNED_SHORT: "h", SHORT: "H", INT: "I", FLOAT: "f"}
# The least number of a type, if not 0, and how many numbers it tells apart, if not very many.
LEAST = {SIGNED_BYTE: -128, SIGNED_SHORT: -32_768}
MOST = {SIGNED_BYTE: 256, BYTE: 256, SIGNED_SHORT: 65_536, SHORT: 65_536}
NAMES = {SIGNED_BYTE: "i8", BYTE: "u8", SIGNED_SHORT: "i16", SHORT: "u16", INT: "u32", FLOAT: "f32"}
WIDTHS = {"SCALAR": 1, "VEC2": 2, "VEC3": 3, "VEC4": 4, "MAT4": 16}
# Which numbers of an item rise.
ONE = "that rise"
RISING = {
    ONE: ("SCALAR", (0,)),
    "VEC2, y rises": ("VEC2", (1,)),
    "VEC3, x rises": ("VEC3", (0,)),
    "VEC3, z rises": ("VEC3", (2,)),
    "VEC3, all rise": ("VEC3", (0, 1, 2)),
    "VEC4, w rises": ("VEC4", (3,)),
    "MAT4, the last column rises": ("MAT4", (12, 13, 14, 15)),
    "MAT4, the last number rises": ("MAT4", (15,)),
}
COUNTS = {"SCALAR": 5_000_000, "MAT4": 400_000}
MANY = 2_000_000


def rising(component, kind, columns, count):
    """So many items. In these columns each number is the next one; in others all are 0."""
    numbers = array.array(LETTERS[component])
    numbers.frombytes(bytes(numbers.itemsize * WIDTHS[kind] * count))
    least = LEAST.get(component, 0)
    for column in columns:
        numbers[column::WIDTHS[kind]] = array.array(numbers.typecode, range(least, least + count))
    return numbers


def bounds(component, kind, columns, count):
    """The least and the greatest number of each column of these."""
    least = LEAST.get(component, 0)
    ends = {"min": least, "max": least + count - 1}
    return {name: [end if column in columns else 0 for column in range(WIDTHS[kind])]
            for name, end in ends.items()}


def tenths(blob, numbers, width):
    """A sparse part that gives each tenth item its own value."""
    count = len(numbers) // width
    indices = array.array("I", range(0, count, 10))
    values = numbers[:width * len(indices)]
    for column in range(width):
        values[column::width] = numbers[column::10 * width]
    return {"count": len(indices),
            "indices": {"bufferView": blob.view(indices.tobytes()), "componentType": INT},
            "values": {"bufferView": blob.view(values.tobytes())}}


def ascending(component, kind, columns, count, is_sparse=False):
    """Such items, with their bounds: one accessor, or several where the type tells fewer numbers
    apart than there are items."""
    each = min(count, MOST.get(component, count))
    numbers = rising(component, kind, columns, each)
    more = bounds(component, kind, columns, each)
    blob = Blob()
    view = blob.view(numbers.tobytes() * (count // each))
    if is_sparse:
        more["sparse"] = tenths(blob, numbers, WIDTHS[kind])
    if count == each:
        blob.over(view, count, kind, component, **more)
        return blob
    for number in range(count // each):
        offset = number * len(numbers) * numbers.itemsize
        blob.over(view, each, kind, component, byteOffset=offset, **more)
    return blob


def widening(component, kind, columns, count, is_sparse=False):
    """A container of those alone."""
    return ascending(component, kind, columns, count, is_sparse).file()


def zeros(blob, count):
    """The index of a new accessor without a view, whose vectors are 0."""
    blob.accessors.append({"componentType": FLOAT, "count": count, "type": "VEC3",
                           "min": [0, 0, 0], "max": [0, 0, 0]})
    return len(blob.accessors) - 1


def animated(samplers, count):
    """An animation of ascending times, which so many samplers name."""
    blob = ascending(FLOAT, "SCALAR", (0,), count)
    output = zeros(blob, count)
    channels = [{"sampler": number, "target": {"node": number, "path": "translation"}}
                for number in range(samplers)]
    moves = {"samplers": [{"input": 0, "output": output}] * samplers, "channels": channels}
    nodes = [{"name": f"node {number}"} for number in range(samplers)]
    scenes = [{"nodes": list(range(samplers))}]
    return blob.file(animations=[moves], nodes=nodes, scenes=scenes, scene=0)


def triangles(count):
    """A mesh of triangles, whose indices rise and have their bounds."""
    count = max(count // 3, 1) * 3
    blob = ascending(INT, "SCALAR", (0,), count)
    primitive = {"attributes": {"POSITION": zeros(blob, count)}, "indices": 0}
    return blob.file(meshes=[{"primitives": [primitive]}], nodes=[{"mesh": 0}],
                     scenes=[{"nodes": [0]}], scene=0)


def not_numbers(count):
    """Floats none of which is a number."""
    blob = Blob()
    blob.add(struct.pack("<f", math.nan) * count, count, "SCALAR")
    return blob.file()


def within(count):
    """Vectors within the bounds that the first two of them have."""
    ends = struct.pack("<6f", 0, 0, 0, 1, 1, 1)
    blob = Blob()
    blob.add((ends + floats(3 * count))[:12 * count], count, "VEC3", min=[0, 0, 0], max=[1, 1, 1])
    return blob.file()


def row(count, what, make, status=0):
    return Row("gltf_show inspect in.glb", f"{count:,} {what}", count, make, status)


def rising_row(component, what, is_sparse=False):
    kind, columns = RISING[what]
    make = functools.partial(widening, component, kind, columns, is_sparse=is_sparse)
    what = f"{NAMES[component]} {what}" + (", a tenth of them sparse" if is_sparse else "")
    return row(COUNTS.get(kind, MANY), what, make)


def rising_rows(component, is_sparse=False):
    """A row for each kind of items."""
    return [rising_row(component, what, is_sparse) for what in RISING]


ROWS = [
    *rising_rows(FLOAT),
    row(5_000_000, "f32 that rise, the times of one sampler", functools.partial(animated, 1)),
    row(5_000_000, "f32 that rise, the times of three samplers", functools.partial(animated, 3)),
    rising_row(INT, ONE),
    row(5_000_000, "u32 that rise, the indices of a mesh", triangles),
    row(3_000_000, "f32 that are no numbers", not_numbers, status=1),
    row(3_000_000, "f32 VEC3 within their bounds", within),
    row(2_000_000, "f32 VEC3 within their bounds", within),
    *rising_rows(FLOAT, is_sparse=True),
    rising_row(INT, ONE, is_sparse=True),
    *rising_rows(SHORT),
    *rising_rows(BYTE),
    rising_row(SIGNED_SHORT, ONE),
    rising_row(SIGNED_BYTE, ONE),
]
