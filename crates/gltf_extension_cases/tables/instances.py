"""Instances of EXT_mesh_gpu_instancing: each attribute with each type of accessor that there is. The
types that are read are those of the extension's table; all others give nothing."""
import base64
import json
import struct

# of glTF 2.0, section 3.6.2.2: the code of a component type, and how its bytes are packed
TYPES = {"I8": (5120, "b"), "U8": (5121, "B"), "I16": (5122, "h"), "U16": (5123, "H"),
         "U32": (5125, "I"), "F32": (5126, "f")}
ITEMS = {"I8": [(-128, 127, 0, 1), (5, -5, 6, -1)], "U8": [(255, 0, 1, 2), (3, 4, 5, 6)],
         "I16": [(-32768, 32767, 0, 1), (5, -5, 6, -1)], "U16": [(65535, 0, 1, 2), (3, 4, 5, 6)],
         "U32": [(4294967295, 0, 1, 2), (3, 4, 5, 6)], "F32": [(0.5, -1, 0, 1), (2, 3, 4, 5)]}
# "Attributes" of the extension: the type of an accessor, and of its components
TABLE = {
    "TRANSLATION": {(3, "F32", False), (3, "F32", True)},
    "ROTATION": {(4, "F32", False), (4, "F32", True), (4, "I8", True), (4, "I16", True)},
    "SCALE": {(3, "F32", False), (3, "F32", True)},
}
ORDER = {"TRANSLATION": "translations", "ROTATION": "rotations", "SCALE": "scales"}


def document(attributes, accessors, data):
    uri = "data:application/octet-stream;base64," + base64.b64encode(data).decode()
    return json.dumps({
        "asset": {"version": "2.0"}, "accessors": accessors,
        "buffers": [{"uri": uri, "byteLength": len(data)}],
        "bufferViews": [{"buffer": 0, "byteLength": len(data), "byteStride": 16}],
        "nodes": [{"extensions": {"EXT_mesh_gpu_instancing": {"attributes": attributes}}}],
    }, separators=(",", ":"))


def shown(type_, numbers):
    """The items as they are printed: floats by their bytes."""
    if type_ == "F32":
        numbers = ["F32 { bytes: %s }" % list(struct.pack("<f", x)) for x in numbers]
        return "[%s]" % ", ".join(numbers)
    return str(list(numbers))


def read(attribute, size, type_, normalized):
    if (size, type_, normalized) not in TABLE[attribute]:
        return "none"
    return " ".join([type_, *(shown(type_, item[:size]) for item in ITEMS[type_])])


def one(attribute, size, type_, normalized):
    code, letter = TYPES[type_]
    data = b"".join(struct.pack(f"<{size}{letter}", *item[:size]).ljust(16, b"\x55")
                    for item in ITEMS[type_])
    text = document({attribute: 0}, [{
        "bufferView": 0, "componentType": code, "count": 2, "type": f"VEC{size}",
        "normalized": normalized}], data)
    found = {attribute: read(attribute, size, type_, normalized)}
    return f"instances {text}", "; ".join(
        f"{name} {found.get(member, 'none')}" for member, name in ORDER.items())


SIZES = (2, 3, 4)
ROWS = [one(attribute, size, type_, normalized) for attribute in TABLE for size in SIZES
        for type_ in TYPES for normalized in (False, True)]
ROWS += [
    ("instances " + document({"TRANSLATION": 1}, [], b"\0" * 32),
     "/attributes/TRANSLATION: Index out of bounds;"),
    ("instances " + document({}, [], b"\0" * 32), "translations none; rotations none; scales none"),
    ("instances " + document({"_COLOR": 7}, [], b"\0" * 32),
     "translations none; rotations none; scales none"),
    ('instances {"asset":{"version":"2.0"},"nodes":[{}]}', "none"),
]
