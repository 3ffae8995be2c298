"""Of what types the standard has the items of attributes, indices, morph targets, skins and keyframes
(glTF 2.0, sections 3.7.2.1, 3.7.2.2, 3.7.3.1 and 3.11): each type of components in each dimensions.
What the standard has is read. Of any other type the reason is that; and the reader, which goes by
the types of components and by bytes alone where it reads floats, says what it does itself."""
import json

# The types of components: the code, the name, how a program prints it, and its bytes (3.6.2.2).
COMPONENTS = {
    5120: ("BYTE", "I8", 1), 5121: ("UNSIGNED_BYTE", "U8", 1), 5122: ("SHORT", "I16", 2),
    5123: ("UNSIGNED_SHORT", "U16", 2), 5125: ("UNSIGNED_INT", "U32", 4), 5126: ("FLOAT", "F32", 4)}
# The dimensions: how a program prints them, and the components of an item.
SHAPES = {"SCALAR": ("Scalar", 1), "VEC2": ("Vec2", 2), "VEC3": ("Vec3", 3), "VEC4": ("Vec4", 4),
          "MAT2": ("Mat2", 4), "MAT3": ("Mat3", 9), "MAT4": ("Mat4", 16)}
I8, U8, I16, U16, U32, F32 = COMPONENTS
FRACTIONS, SIGNED = (U8, U16, F32), (I8, U8, I16, U16, F32)
# What the standard has: the dimensions and the types of components of each.
STANDARD = {
    "POSITION": {"VEC3": (F32,)}, "NORMAL": {"VEC3": (F32,)}, "TANGENT": {"VEC4": (F32,)},
    "COLOR_0": {"VEC3": FRACTIONS, "VEC4": FRACTIONS}, "TEXCOORD_0": {"VEC2": FRACTIONS},
    "JOINTS_0": {"VEC4": (U8, U16)}, "WEIGHTS_0": {"VEC4": FRACTIONS},
    "indices": {"SCALAR": (U8, U16, U32)}, "targets/POSITION": {"VEC3": (F32,)},
    "targets/NORMAL": {"VEC3": (F32,)}, "targets/TANGENT": {"VEC3": (F32,)},
    "inverseBindMatrices": {"MAT4": (F32,)}, "input": {"SCALAR": (F32,)},
    "translation": {"VEC3": (F32,)}, "scale": {"VEC3": (F32,)}, "rotation": {"VEC4": SIGNED},
    "weights": {"SCALAR": SIGNED}}


def bytes_of(component, shape):
    """The bytes of an item, without padding."""
    return COMPONENTS[component][2] * SHAPES[shape][1]


def reader_reads(what, component, shape):
    """Whether the reader reads such items: floats by their bytes alone; else items of a type of
    components that it has, which have the bytes that these have; colours by the dimensions too."""
    kinds = STANDARD[what]
    if what == "COLOR_0" and shape not in kinds:
        return False
    components = {it for of in kinds.values() for it in of}
    if components == {F32}:
        return bytes_of(component, shape) in {bytes_of(F32, it) for it in kinds}
    return component in components and bytes_of(component, shape) in {
        bytes_of(component, it) for it in kinds}


def answer(what, component, shape):
    name, printed, _ = COMPONENTS[component]
    if component in STANDARD[what].get(shape, ()):
        return "read"
    ending = "; the reader gives items" if reader_reads(what, component, shape) else ""
    return (f"Type {{ component: {printed}, dimensions: {SHAPES[shape][0]} }}: the standard has no "
            f"items of type {shape} of {name} here{ending}")


def document(what, component, shape):
    """A document in which accessor 0 has such items, and what is asked for names it."""
    accessors = [{"bufferView": 0, "count": 1, "componentType": component, "type": shape,
                  "min": [0], "max": [0]}]
    members = {"asset": {"version": "2.0"}, "buffers": [{"byteLength": 64}],
               "bufferViews": [{"buffer": 0, "byteLength": 64}], "accessors": accessors}
    if what in ("input", "translation", "scale", "rotation", "weights"):
        accessors.append({"bufferView": 0, "count": 1, "componentType": F32, "type": "SCALAR",
                          "min": [0], "max": [0]})
        times, values = (0, 1) if what == "input" else (1, 0)
        path = "scale" if what == "input" else what
        members["nodes"] = [{}]
        members["animations"] = [{"channels": [{"sampler": 0, "target": {"node": 0, "path": path}}],
                                  "samplers": [{"input": times, "output": values}]}]
    elif what == "inverseBindMatrices":
        members["nodes"] = [{}]
        members["skins"] = [{"joints": [0], "inverseBindMatrices": 0}]
    else:
        primitive = {"attributes": {}}
        if what == "indices":
            primitive["indices"] = 0
        elif what.startswith("targets/"):
            primitive["targets"] = [{what[8:]: 0}]
        else:
            primitive["attributes"][what] = 0
        members["meshes"] = [{"primitives": [primitive]}]
    return json.dumps(members, separators=(",", ":"))


def asked(what):
    return "output" if what in ("translation", "scale", "rotation", "weights") else what


ROWS = [(f"why +{'00' * 64} {asked(what)} : {document(what, component, shape)}",
         answer(what, component, shape))
        for what in STANDARD for component in COMPONENTS for shape in SHAPES]
