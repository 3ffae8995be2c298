"""Rows of `findings.py`: for codes of records a document that breaks the rule, and one that just does
not, by hand from the standard; and which objects no member names. SEVERITIES has the codes that are
no errors, as the Khronos validator ranks them."""
import base64

U8, I16, U16, U32, FLOAT = 5121, 5122, 5123, 5125, 5126
WARNING, INFO, HINT = 1, 2, 3
SEVERITIES = {
    "ACCESSOR_INDEX_TRIANGLE_DEGENERATE": INFO,
    "ACCESSOR_ITEMS_NOT_LOOKED_AT": WARNING,
    "BUFFER_VIEW_TARGET_MISSING": HINT,
    "MATERIAL_ALPHA_CUTOFF_INVALID_MODE": WARNING,
    "MEMBER_NEEDED_BY_READER": WARNING,
    "MESH_PRIMITIVE_INCOMPATIBLE_MODE": WARNING,
    "MESH_PRIMITIVE_NO_POSITION": WARNING,
    "MESH_PRIMITIVE_TANGENT_WITHOUT_NORMAL": WARNING,
    "NODE_EMPTY": INFO,
    "NODE_SKINNED_MESH_WITHOUT_SKIN": WARNING,
    "UNUSED_OBJECT": INFO,
}


def severity(code, pointer):
    """0 for an error. An extension that a reader does not know is one only where it is required."""
    if code == "UNSUPPORTED_EXTENSION":
        return INFO if pointer.startswith("/extensionsUsed") else 0
    return SEVERITIES.get(code, 0)


def accessor(shape, component=FLOAT, count=3, **members):
    return {"componentType": component, "type": shape, "count": count, **members}


BOUNDS = {"min": [0, 0, 0], "max": [0, 0, 0]}
POSITIONS = accessor("VEC3", **BOUNDS)
PRIMITIVE = "/meshes/0/primitives/0"
ATTRIBUTES = f"{PRIMITIVE}/attributes"


def mesh(*indices, **attributes):
    """A mesh of one primitive: each attribute with its accessor, and one of the indices behind."""
    primitive = {"attributes": {name: i for i, name in enumerate(attributes)}}
    if indices:
        primitive["indices"] = len(attributes)
    return {"accessors": [*attributes.values(), *indices], "meshes": [{"primitives": [primitive]}]}


def views(*members, data=bytes(64)):
    """A buffer of these bytes, and views of them with these members."""
    uri = "data:;base64," + base64.b64encode(data).decode()
    return {"buffers": [{"byteLength": len(data), "uri": uri}],
            "bufferViews": [{"buffer": 0, "byteLength": 64, **it} for it in members]}


def one(code, pointer):
    return [(code, pointer)]


# Values that the standard lists (5.1, 5.19 and 5.24).
ROWS = [
    ({"accessors": [accessor("SCALAR", U32)]}, []),
    ({"accessors": [accessor("SCALAR", 5124)]},
     one("VALUE_NOT_IN_LIST", "/accessors/0/componentType")),
    ({"accessors": [accessor("VEC5")]}, one("VALUE_NOT_IN_LIST", "/accessors/0/type")),
    ({"materials": [{"alphaMode": "BLEND"}]}, []),
    ({"materials": [{"alphaMode": "blend"}]}, one("VALUE_NOT_IN_LIST", "/materials/0/alphaMode")),
    ({"samplers": [{"magFilter": 9729, "wrapS": 33071}]}, []),
    ({"samplers": [{"magFilter": 9730}]}, one("VALUE_NOT_IN_LIST", "/samplers/0/magFilter")),
]

# Members that need others, or that others forbid (3.5.3, 3.9.4, 3.12 and 5.1.4).
CUTOFF = one("MATERIAL_ALPHA_CUTOFF_INVALID_MODE", "/materials/0/alphaCutoff")
NORMALIZED = one("ACCESSOR_NORMALIZED_INVALID", "/accessors/0/normalized")
BOTH = one("NODE_MATRIX_TRS", "/nodes/0/matrix")
UNIT = [1, 0, 0, 0, 0, 1, 0, 0, 0, 0, 1, 0, 0, 0, 0, 1]
ROWS += [
    ({"materials": [{"alphaCutoff": 0.5, "alphaMode": "MASK"}]}, []),
    ({"materials": [{"alphaCutoff": 0.5}]}, CUTOFF),
    ({"materials": [{"alphaCutoff": 0.5, "alphaMode": "BLEND"}]}, CUTOFF),
    *(({"accessors": [accessor("VEC2", it, normalized=True)]}, []) for it in (5120, U8, I16, U16)),
    *(({"accessors": [accessor("VEC2", it, normalized=True)]}, NORMALIZED) for it in (U32, FLOAT)),
    ({"nodes": [{"matrix": UNIT, "extras": 0}]}, []),
    ({"nodes": [{"scale": [1, 1, 1], "rotation": [0, 0, 0, 1], "extras": 0}]}, []),
    *(({"nodes": [{"matrix": UNIT, "extras": 0, **it}]}, BOTH)
      for it in ({"scale": [1, 1, 1]}, {"rotation": [0, 0, 0, 1]}, {"translation": [0, 0, 0]})),
    ({"extensionsUsed": ["KHR_materials_unlit"], "extensionsRequired": ["KHR_materials_unlit"]}, []),
    ({"extensionsRequired": ["KHR_materials_unlit"]},
     one("UNUSED_EXTENSION_REQUIRED", "/extensionsRequired/0")),
]

# Strides of views (3.6.1, 3.6.2.4 and 5.11.4).
STRIDE = "/bufferViews/0/byteStride"
IN_VIEW = {"accessors": [accessor("VEC3", bufferView=0, count=1)]}
PICTURE = {"images": [{"bufferView": 0, "mimeType": "image/png"}]}
ROWS += [
    (views({"byteStride": 16}), []),
    (views({"byteStride": 14}), one("VALUE_MULTIPLE_OF", STRIDE)),
    (views({"byteStride": 12, "byteLength": 12}), []),
    (views({"byteStride": 16, "byteLength": 12}), one("BUFFER_VIEW_TOO_BIG_BYTE_STRIDE", STRIDE)),
    (views({"byteStride": 12}) | IN_VIEW, []),
    (views({"byteStride": 8}) | IN_VIEW, one("ACCESSOR_SMALL_BYTESTRIDE", "/accessors/0")),
    (views({}) | PICTURE, []),
    (views({"byteStride": 4}) | PICTURE,
     one("IMAGE_BUFFER_VIEW_WITH_BYTESTRIDE", "/images/0/bufferView")),
]


def replaced(count):
    """So many items, of which the first, second and third are replaced."""
    data = bytes([0, 1, 2, 0]) + bytes(12)
    part = {"count": 3, "indices": {"bufferView": 0, "componentType": U8},
            "values": {"bufferView": 1}}
    return views({"byteLength": 3}, {"byteOffset": 4, "byteLength": 12}, data=data) | {
        "accessors": [accessor("SCALAR", count=count, sparse=part)]}


# Sparse parts (5.2.1): three distinct indices are not all below a count of 2.
ROWS += [
    (replaced(3), []),
    (replaced(2), one("ACCESSOR_SPARSE_COUNT_OUT_OF_RANGE", "/accessors/0/sparse/count")
     + one("ACCESSOR_SPARSE_INDEX_OOB", "/accessors/0/sparse/indices")),
]


def bad(code, name):
    return one(f"MESH_PRIMITIVE_{code}", f"{ATTRIBUTES}/{name}")


# Attributes (3.7.2.1).
NO_BOUNDS = bad("POSITION_ACCESSOR_WITHOUT_BOUNDS", "POSITION")
ROWS += [
    (mesh(POSITION=POSITIONS, _COLOUR=accessor("VEC3")), []),
    (mesh(POSITION=POSITIONS, COLOUR=accessor("VEC3")), bad("INVALID_ATTRIBUTE", "COLOUR")),
    (mesh(POSITION=POSITIONS, TEXCOORD=accessor("VEC2")), bad("INVALID_ATTRIBUTE", "TEXCOORD")),
    *((mesh(POSITION=accessor("VEC3", **{it: [0, 0, 0]})), NO_BOUNDS) for it in ("min", "max")),
    (mesh(POSITION=accessor("VEC3")), NO_BOUNDS),
    (mesh(POSITION=POSITIONS, NORMAL=accessor("VEC3"), TANGENT=accessor("VEC4")), []),
    (mesh(POSITION=POSITIONS, TANGENT=accessor("VEC4")), bad("TANGENT_WITHOUT_NORMAL", "TANGENT")),
    (mesh(POSITION=POSITIONS, NORMAL=accessor("VEC3", count=4)),
     bad("UNEQUAL_ACCESSOR_COUNT", "NORMAL")),
]


def indexed(stride=None, **members):
    """A triangle with indices in a view."""
    view = {"target": 34963} | ({} if stride is None else {"byteStride": stride})
    indices = accessor("SCALAR", U8, bufferView=0, **members)
    data = bytes([0, 1, 2]) if stride is None else bytes([0, 0, 0, 0, 1, 0, 0, 0, 2, 0, 0, 0])
    return views(view | {"byteLength": len(data)}, data=data) | mesh(indices, POSITION=POSITIONS)


# Indices (3.6.2.4 and 3.7.2.1).
INDICES = f"{PRIMITIVE}/indices"
BAD_INDICES = one("MESH_PRIMITIVE_INDICES_ACCESSOR_INVALID_FORMAT", INDICES)
ROWS += [
    (indexed(), []),
    (indexed(stride=4), one("MESH_PRIMITIVE_INDICES_ACCESSOR_WITH_BYTESTRIDE", INDICES)),
    *((mesh(accessor("SCALAR", it), POSITION=POSITIONS), BAD_INDICES) for it in (I16, FLOAT)),
    (mesh(accessor("VEC2", U16), POSITION=POSITIONS), BAD_INDICES),
    (mesh(accessor("SCALAR", U16, normalized=True), POSITION=POSITIONS), BAD_INDICES),
]


def skinned(matrices, joints=2):
    """A skin of some joints below one node."""
    return {"accessors": [matrices], "skins": [{"joints": [*range(joints)],
                                                "inverseBindMatrices": 0}],
            "nodes": [{"children": [*range(1, joints)]}, *[{}] * (joints - 1)]}


# Inverse bind matrices (3.7.3.1).
MATRICES = "/skins/0/inverseBindMatrices"
ROWS += [
    *((skinned(accessor("MAT4", count=count)), []) for count in (2, 3)),
    (skinned(accessor("MAT4", count=1)), one("INVALID_IBM_ACCESSOR_COUNT", MATRICES)),
    (skinned(accessor("MAT3", count=2)), one("SKIN_IBM_INVALID_FORMAT", MATRICES)),
    (skinned(accessor("MAT4", U16, count=2)), one("SKIN_IBM_INVALID_FORMAT", MATRICES)),
]


def animated(times, values=3, interpolation="LINEAR", **node):
    """A node whose scale is animated."""
    return {
        "accessors": [times, accessor("VEC3", count=values)],
        "nodes": [{"extras": 0, **node}],
        "animations": [{"channels": [{"sampler": 0, "target": {"node": 0, "path": "scale"}}],
                        "samplers": [{"input": 0, "output": 1, "interpolation": interpolation}]}],
    }


def times(count=3, **members):
    return accessor("SCALAR", count=count, min=[0], max=[1], **members)


def input_(code):
    return one(f"ANIMATION_SAMPLER_INPUT_ACCESSOR_{code}", "/animations/0/samplers/0/input")


# Animations (3.11).
PATH = "/animations/0/channels/0/target/path"
SPLINE = {"interpolation": "CUBICSPLINE"}
ROWS += [
    (animated(times()), []),
    (animated(times(), matrix=UNIT), one("ANIMATION_CHANNEL_TARGET_NODE_MATRIX", PATH)),
    (animated(times(component=U16)), input_("INVALID_FORMAT")),
    (animated(accessor("VEC3", min=[0, 0, 0], max=[1, 1, 1])), input_("INVALID_FORMAT")),
    *((animated(accessor("SCALAR", **{it: [0]})), input_("WITHOUT_BOUNDS"))
      for it in ("min", "max")),
    (animated(times(1), 1), []),
    (animated(times(2), 6, **SPLINE), []),
    (animated(times(1), 3, **SPLINE), input_("TOO_FEW_ELEMENTS")),
]

# Each list of the root with an element that a member names, and behind these one that none names;
# and the places of the latter (5.17).
UNUSED = [
    ({
        "scene": 0, "scenes": [{"nodes": [0]}],
        "nodes": [{"mesh": 0, "skin": 0, "camera": 0}, {}, {"mesh": 0}],
        "skins": [{"joints": [1]}, {"joints": [1]}],
        "cameras": [{"type": "perspective", "perspective": {"yfov": 1, "znear": 1}}] * 2,
        "meshes": [{"primitives": [{"attributes": {"POSITION": 0}, "material": 0}]}] * 2,
        "materials": [{"emissiveTexture": {"index": 0}}, {"emissiveTexture": {"index": 0}}],
        "textures": [{"source": 0, "sampler": 0}] * 2,
        "samplers": [{}, {}],
        "images": [{"uri": "a.png"}, {"uri": "b.png"}],
        "accessors": [POSITIONS | {"bufferView": 0}, accessor("SCALAR")],
    } | views({}, {}) | {"buffers": [views({})["buffers"][0]] * 2},
     ["/accessors/1", "/bufferViews/1", "/buffers/1", "/cameras/1", "/images/1", "/materials/1",
      "/meshes/1", "/nodes/2", "/samplers/1", "/skins/1", "/textures/1"]),
    ({"accessors": [POSITIONS], "meshes": [{"primitives": [{"attributes": {"POSITION": 0}}]}],
      "nodes": [{"mesh": 0}], "scenes": [{"nodes": [0]}]}, []),
]
