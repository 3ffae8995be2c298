"""Which types KHR_mesh_quantization adds to which attributes, out of all that there are, and attributes
that are read as integers. And files that require extensions, one of them as gltfpack makes it (pack.py)."""
import base64
import json
import pathlib
import struct

# KHR_mesh_quantization, "Extending Mesh Attributes" and "Extending Morph Target Attributes": the
# type, and whether it is normalized; both tables as they stand
BOTH = ("I8 false", "I8 true", "U8 false", "U8 true", "I16 false", "I16 true", "U16 false",
        "U16 true")
SIGNED = ("I8 false", "I8 true", "I16 false", "I16 true")
ONLY_NORMALIZED = ("I8 true", "I16 true")
PAIRS = [
    ("Position", "Vec3", BOTH),
    ("Normal", "Vec3", ONLY_NORMALIZED),
    ("Tangent", "Vec4", ONLY_NORMALIZED),
    ("TexCoord", "Vec2", ("I8 false", "I8 true", "U8 false", "I16 false", "I16 true",
                          "U16 false")),
    ("PositionDisplacement", "Vec3", SIGNED),
    ("NormalDisplacement", "Vec3", ONLY_NORMALIZED),
    ("TangentDisplacement", "Vec3", ONLY_NORMALIZED),
]

ROWS = [(f"accepts {attribute}", "".join(f" {dimensions} {pair};" for pair in pairs))
        for attribute, dimensions, pairs in PAIRS]

# every extension that is read, in the order of letters
NAMES = """EXT_mesh_gpu_instancing EXT_meshopt_compression EXT_texture_webp KHR_animation_pointer
KHR_materials_anisotropy KHR_materials_clearcoat KHR_materials_diffuse_transmission
KHR_materials_dispersion KHR_materials_iridescence KHR_materials_sheen KHR_mesh_quantization
KHR_node_visibility KHR_texture_basisu KHR_xmp_json_ld""".split()


def text(**members):
    return json.dumps({"asset": {"version": "2.0"}, **members}, separators=(",", ":"))


def requiring(names):
    return text(extensionsUsed=names, extensionsRequired=names)


def unsupported(*places):
    return "invalid glTF:" + "".join(
        f" extensionsRequired[{i}]: Unsupported extension;" for i in places)


ROWS += [
    ("import " + requiring(NAMES), json.dumps(NAMES)),
    ("plain " + requiring(NAMES), unsupported(*range(len(NAMES)))),
    ("import " + requiring(NAMES + ["X"]), unsupported(len(NAMES))),
    ("import " + requiring(NAMES[:1] + ["X"] + NAMES[1:]), unsupported(1)),
    ("plain " + text(), "accepted"),
]
# of glTF 2.0, section 3.6.2.2: the code of a component type, and how its bytes are packed
TYPES = {"I8": (5120, "b"), "U8": (5121, "B"), "I16": (5122, "h"), "U16": (5123, "H"),
         "F32": (5126, "f")}
ATTRIBUTES = {"positions": ("POSITION", 3), "normals": ("NORMAL", 3), "tangents": ("TANGENT", 4),
              "tex_coords": ("TEXCOORD_0", 2)}


def quantized(call, type_, normalized, items, size=None):
    """A file with an attribute whose items stand at every eighth byte."""
    attribute, needed = ATTRIBUTES[call]
    size = size or needed
    code, letter = TYPES[type_]
    data = b"".join(struct.pack(f"<{size}{letter}", *item[:size]).ljust(8, b"\x55")
                    for item in items)
    uri = "data:application/octet-stream;base64," + base64.b64encode(data).decode()
    return call + " " + text(
        extensionsUsed=["KHR_mesh_quantization"], extensionsRequired=["KHR_mesh_quantization"],
        buffers=[{"uri": uri, "byteLength": len(data)}],
        bufferViews=[{"buffer": 0, "byteLength": len(data), "byteStride": 8}],
        accessors=[{"bufferView": 0, "componentType": code, "count": len(items),
                    "type": f"VEC{size}", "normalized": normalized,
                    "min": [0] * size, "max": [0] * size}],
        meshes=[{"primitives": [{"attributes": (
            {attribute: 0} if attribute == "POSITION" else {"POSITION": 0, attribute: 0})}]}])


ITEMS = {"I8": [(-128, 127, 0, 1), (5, -5, 6, -1)], "U8": [(255, 0, 1, 2), (3, 4, 5, 6)],
         "I16": [(-32768, 32767, 0, 1), (5, -5, 6, -1)], "U16": [(65535, 0, 1, 2), (3, 4, 5, 6)]}
NAME_OF = {"positions": "Position", "normals": "Normal", "tangents": "Tangent",
           "tex_coords": "TexCoord"}
for call, (attribute, size) in ATTRIBUTES.items():
    accepted = next(pairs for name, _, pairs in PAIRS if name == NAME_OF[call])
    for type_, items in ITEMS.items():
        for normalized in (False, True):
            flag = str(normalized).lower()
            answer = "none"
            if f"{type_} {flag}" in accepted:
                answer = f"{flag} {type_}" + "".join(
                    f" {list(item[:size])}" for item in items)
            ROWS.append((quantized(call, type_, normalized, items), answer))
ROWS += [
    (quantized("positions", "U8", False, ITEMS["U8"], 4), "none"),
    (quantized("tangents", "I8", True, ITEMS["I8"], 3), "none"),
    (quantized("tex_coords", "F32", False, [(0.5, 1)]), "none"),
]


def displaced(type_, normalized, items):
    """A file whose first primitive has a morph target with these displacements of positions."""
    call, text_of = quantized("positions", type_, normalized, items).split(" ", 1)
    value = json.loads(text_of)
    value["meshes"] = [{"primitives": [{"attributes": {}, "targets": [{"POSITION": 0}]}]}]
    return "displacements " + json.dumps(value, separators=(",", ":"))


for type_, items in ITEMS.items():
    for normalized in (False, True):
        flag = str(normalized).lower()
        answer = "none"
        if f"{type_} {flag}" in SIGNED:
            answer = f"{flag} {type_}" + "".join(f" {list(item[:3])}" for item in items)
        ROWS.append((displaced(type_, normalized, items), answer))


PACKED = json.loads((pathlib.Path(__file__).parent / "packed.gltf").read_text("utf-8"))
LETTERS = {code: (name, letter) for name, (code, letter) in TYPES.items()}


def unpacked(accessor):
    """What is read of an accessor of that file, by the standard alone."""
    one = PACKED["accessors"][accessor]
    view = PACKED["bufferViews"][one["bufferView"]]
    held = base64.b64decode(PACKED["buffers"][view["buffer"]]["uri"].partition(",")[2])
    name, letter = LETTERS[one["componentType"]]
    size, start = int(one["type"][-1]), one.get("byteOffset", 0) + view.get("byteOffset", 0)
    items = (list(struct.unpack_from(f"<{size}{letter}", held, start + i * view["byteStride"]))
             for i in range(one["count"]))
    return f"{str(one.get('normalized', False)).lower()} {name}" + "".join(
        f" {item}" for item in items)


ATTRIBUTES_OF_BOX = PACKED["meshes"][0]["primitives"][0]["attributes"]
ROWS += [(f"{call} " + json.dumps(PACKED, separators=(",", ":")),
          unpacked(ATTRIBUTES_OF_BOX[attribute]))
         for call, (attribute, _) in ATTRIBUTES.items()
         if attribute in ATTRIBUTES_OF_BOX and attribute != "TEXCOORD_0"]
