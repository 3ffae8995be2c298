"""What the files of examples/ hold, from the numbers that they were made from and not from them."""
import pathlib
import struct
import sys

sys.path.insert(0, str(pathlib.Path(__file__).resolve().parents[3] / "examples"))
import make_box
import make_square
import make_triangle


def number(value):
    """A number of single precision, as its bytes."""
    return "F32 { bytes: %s }" % list(struct.pack("<f", value))


def vectors(items):
    """Vectors of single precision."""
    return ["[%s]" % ", ".join(map(number, item)) for item in items]


def accessors(file, *all_items):
    """A case for each accessor: the type that it is read as, and its items."""
    return [
        (f"read {of} {index} : @{file}", "Some([%s])" % ", ".join(map(str, items)))
        for index, (of, items) in enumerate(all_items)
    ]


def box():
    """The 24 corners of the box, and the two triangles of each of its faces."""
    positions, normals, tex_coords, indices = make_box.vertices()
    return accessors(
        "box.glb",
        ("f32x3", vectors(positions)),
        ("f32x3", vectors(normals)),
        ("f32x2", vectors(tex_coords)),
        ("u16", indices),
    )


def triangle():
    """The corners, their indices, the corners with one raised, and how far each one is bent."""
    flat, none = make_triangle.CORNERS, [(0.0, 0.0, 0.0)] * 3
    return accessors(
        "triangle.gltf",
        ("f32x3", vectors(flat)),
        ("u16", make_triangle.INDICES),
        ("f32x3", vectors(make_triangle.replaced(flat, make_triangle.RAISED))),
        ("f32x3", vectors(make_triangle.replaced(none, make_triangle.BENT))),
    )


def square():
    """The bytes of the square, by the name of their file and by the document that names it."""
    corners = b"".join(struct.pack("<3f", *it) for it in make_square.CORNERS)
    data = list(corners + struct.pack("<6H", *make_square.INDICES))
    asset = '{"asset":{"version":"2.0"}'
    named = asset + ',"buffers":[{"byteLength":60,"uri":"square%20data.bin"}]}'
    return [
        ("folder square+data.bin : ./", f"{data}"),
        (f"beside ./ : {named}", f"[Data({data})]"),
    ]


def dangling():
    """The bytes of a file by its path, wherever the folder is."""
    examples = pathlib.Path(__file__).resolve().parents[3] / "examples"
    data = list((examples / "dangling.gltf").read_bytes())
    return [
        ("folder dangling.gltf file:dangling.gltf : missing/", f"not read; {data}"),
        ("folder dangling.gltf : ./", f"{data}"),
    ]


ROWS = [
    # 24 corners of 8 numbers, 36 indices of two bytes, and a picture of 82 bytes with two zeros.
    ("check : @box.glb", "ok buffers=1 accessors=4 meshes=1 nodes=1; 924 bytes"),
    # Three corners and three indices with two zeros behind them; an index of two bytes, one of one
    # and a zero, and two corners.
    ("check : @triangle.gltf", "ok buffers=2 accessors=4 meshes=2 nodes=2; 44 bytes; 28 bytes"),
    (
        "check : @dangling.gltf",
        "invalid glTF: nodes[0].mesh: Index out of bounds; nodes[0].skin: Index out of bounds;",
    ),
    *box(),
    *triangle(),
    *square(),
    *dangling(),
]
