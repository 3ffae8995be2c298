"""Positions and indices of each type of components in each dimensions, from the bytes of a file
(glTF 2.0, section 3.7.2.1): positions are three floats each, indices one unsigned integer of one,
two or four bytes; of any other type none are read, whatever the bytes of an item."""
import base64
import json

CODES = {5120: 1, 5121: 1, 5122: 2, 5123: 2, 5125: 4, 5126: 4}
SHAPES = "SCALAR VEC2 VEC3 VEC4 MAT2 MAT3 MAT4".split()
BYTES = bytes(range(1, 65))


def document(component, shape):
    accessor = {"bufferView": 0, "count": 1, "componentType": component, "type": shape,
                "min": [0], "max": [0]}
    uri = "data:;base64," + base64.b64encode(BYTES).decode("ascii")
    members = {"asset": {"version": "2.0"}, "buffers": [{"byteLength": 64, "uri": uri}],
               "bufferViews": [{"buffer": 0, "byteLength": 64}], "accessors": [accessor],
               "meshes": [{"primitives": [{"attributes": {"POSITION": 0}, "indices": 0}]}]}
    return json.dumps(members, separators=(",", ":"))


def positions(component, shape):
    if (component, shape) != (5126, "VEC3"):
        return "None"
    parts = [", ".join(map(str, BYTES[4 * i:4 * i + 4])) for i in range(3)]
    return "Some([[" + ", ".join(f"F32 {{ bytes: [{it}] }}" for it in parts) + "]])"


def indices(component, shape):
    if component not in (5121, 5123, 5125) or shape != "SCALAR":
        return "None"
    return f"Some([{int.from_bytes(BYTES[:CODES[component]], 'little')}])"


ROWS = [(f"{call} 0 0 : {document(component, shape)}", answer(component, shape))
        for call, answer in (("read_positions", positions), ("read_indices", indices))
        for component in CODES for shape in SHAPES]
