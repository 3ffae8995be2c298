#!/usr/bin/env python3
"""Runs the proved program `gltf_show inspect --json` on small documents. A row is a document and what
is found in it, as (code, pointer), by hand from the standard: for each code one document that breaks
the rule and one that just does not. What nothing names, UNUSED_OBJECT, has rows of its own. Each
finding has the severity of its code. `make test` calls it after `rt ci`; arguments are another program to run. The last line is
`N passed, M failed`."""
import base64
import json
import pathlib
import struct
import subprocess
import sys
import tempfile

sys.dont_write_bytecode = True

import codes
import crates
import graphs
import outside
import unkept
from graphs import ROOTED, apart, nodes

U8, U16, U32, FLOAT = 5121, 5123, 5125, 5126


def accessor(shape, component=FLOAT, count=3, normalized=False, **members):
    return {"componentType": component, "type": shape, "count": count, "normalized": normalized,
            **members}


BOUNDS = {"min": [0, 0, 0], "max": [1, 1, 1]}
POSITIONS = accessor("VEC3", **BOUNDS)


def mesh(attributes, mode=4, **members):
    """A document with one mesh of one primitive: each attribute with its accessor."""
    names = {name: i for i, name in enumerate(attributes)}
    primitive = {"attributes": names, "mode": mode, **members}
    return {"accessors": list(attributes.values()), "meshes": [{"primitives": [primitive]}]}


def attributes(**others):
    return mesh({"POSITION": POSITIONS, **others})


PRIMITIVE = "/meshes/0/primitives/0"
ATTRIBUTES = f"{PRIMITIVE}/attributes"
FORMAT = "MESH_PRIMITIVE_ATTRIBUTES_ACCESSOR_INVALID_FORMAT"
WIDE = "MESH_PRIMITIVE_ATTRIBUTES_ACCESSOR_UNSIGNED_INT"


def bad_format(name):
    return [(FORMAT, f"{ATTRIBUTES}/{name}")]


# The formats of attributes (3.7.2.1).
ROWS = [
    (mesh({"POSITION": accessor("VEC3", **BOUNDS)}), []),
    (mesh({"POSITION": accessor("VEC4", **BOUNDS)}), bad_format("POSITION")),
    (mesh({"POSITION": accessor("VEC3", U16, **BOUNDS)}), bad_format("POSITION")),
    (attributes(NORMAL=accessor("VEC3")), []),
    (attributes(NORMAL=accessor("VEC2")), bad_format("NORMAL")),
    (attributes(NORMAL=accessor("VEC3"), TANGENT=accessor("VEC4")), []),
    (attributes(NORMAL=accessor("VEC3"), TANGENT=accessor("VEC3")), bad_format("TANGENT")),
    (attributes(TEXCOORD_0=accessor("VEC2")), []),
    (attributes(TEXCOORD_0=accessor("VEC2", U16, normalized=True)), []),
    (attributes(TEXCOORD_0=accessor("VEC2", U16)), bad_format("TEXCOORD_0")),
    (attributes(TEXCOORD_0=accessor("VEC3")), bad_format("TEXCOORD_0")),
    (attributes(COLOR_0=accessor("VEC3", U8, normalized=True)), []),
    (attributes(COLOR_0=accessor("VEC4", U16, normalized=True)), []),
    (attributes(COLOR_0=accessor("VEC4", U8)), bad_format("COLOR_0")),
    (attributes(COLOR_0=accessor("VEC2")), bad_format("COLOR_0")),
    (attributes(JOINTS_0=accessor("VEC4", U8), WEIGHTS_0=accessor("VEC4")), []),
    (attributes(JOINTS_0=accessor("VEC4", U16), WEIGHTS_0=accessor("VEC4", U8, normalized=True)), []),
    (attributes(JOINTS_0=accessor("VEC4"), WEIGHTS_0=accessor("VEC4")), bad_format("JOINTS_0")),
    (attributes(JOINTS_0=accessor("VEC4", U8, normalized=True), WEIGHTS_0=accessor("VEC4")),
     bad_format("JOINTS_0")),
    (attributes(JOINTS_0=accessor("VEC4", U8), WEIGHTS_0=accessor("VEC4", U8)),
     bad_format("WEIGHTS_0")),
    # Attributes of an application have any format but of unsigned integers of four bytes.
    *((attributes(_MINE=accessor(shape, component)), [])
      for shape in ("SCALAR", "VEC4", "MAT4") for component in (5120, U8, 5122, U16, FLOAT)),
    *((attributes(_MINE=accessor(shape, U32)), [(WIDE, f"{ATTRIBUTES}/_MINE")])
      for shape in ("SCALAR", "VEC4")),
    (attributes(COLOR_0=accessor("VEC4", U32)), bad_format("COLOR_0")),
]


ZEROS = "data:;base64," + base64.b64encode(bytes(64)).decode()


def in_view(color, offset=0, **view):
    """Colors in a view."""
    placed = accessor("VEC3", color, normalized=True, bufferView=0, byteOffset=offset)
    return attributes(COLOR_0=placed) | {
        "buffers": [{"byteLength": 64, "uri": ZEROS}],
        "bufferViews": [{"buffer": 0, "byteLength": 64, "target": 34962} | view]}


UNALIGNED = [("MESH_PRIMITIVE_ACCESSOR_UNALIGNED", f"{ATTRIBUTES}/COLOR_0")]
# Offsets and strides are multiples of 4 (3.6.2.4).
ROWS += [
    (in_view(U8, byteStride=4), []),
    (in_view(U8), UNALIGNED),
    (in_view(U8, offset=2, byteStride=4), UNALIGNED),
    (in_view(U8, offset=4, byteStride=4), []),
    (in_view(U16, byteStride=8), []),
    (in_view(U16), UNALIGNED),
]

I8, I16 = 5120, 5122
QUANTIZED = {"extensionsUsed": ["KHR_mesh_quantization"]}
UNKNOWN = [("UNSUPPORTED_EXTENSION", "/extensionsUsed/0")]


def quantized(**attributes):
    return mesh(attributes) | QUANTIZED


BYTES, SHORTS = accessor("VEC3", I8, normalized=True), accessor("VEC3", I16)
# The formats that KHR_mesh_quantization adds.
ROWS += [
    (quantized(POSITION=accessor("VEC3", U16, **BOUNDS)), []),
    (quantized(POSITION=accessor("VEC3", I8, normalized=True, **BOUNDS)), []),
    (quantized(POSITION=accessor("VEC3", U32, **BOUNDS)), bad_format("POSITION")),
    (quantized(POSITION=accessor("VEC2", U16, **BOUNDS)), bad_format("POSITION")),
    (quantized(POSITION=POSITIONS, NORMAL=BYTES), []),
    (quantized(POSITION=POSITIONS, NORMAL=SHORTS), bad_format("NORMAL")),
    (attributes(NORMAL=BYTES), bad_format("NORMAL")),
    (quantized(POSITION=POSITIONS, NORMAL=BYTES, TANGENT=accessor("VEC4", I16, normalized=True)),
     []),
    (quantized(POSITION=POSITIONS, NORMAL=BYTES, TANGENT=accessor("VEC4", U8, normalized=True)),
     bad_format("TANGENT")),
    (quantized(POSITION=POSITIONS, TEXCOORD_0=accessor("VEC2", I16)), []),
    (quantized(POSITION=POSITIONS, TEXCOORD_0=accessor("VEC2", U32)),
     bad_format("TEXCOORD_0")),
    (quantized(POSITION=POSITIONS, COLOR_0=accessor("VEC3", I8, normalized=True)),
     bad_format("COLOR_0")),
]

PAIR, JOINT, WEIGHT = accessor("VEC2"), accessor("VEC4", U8), accessor("VEC4")
GAP = [("MESH_PRIMITIVE_INDEXED_SEMANTIC_CONTINUITY", ATTRIBUTES)]
MISMATCH = [("MESH_PRIMITIVE_JOINTS_WEIGHTS_MISMATCH", ATTRIBUTES)]
# The sets of attributes (3.7.2.1 and 3.7.3.3).
ROWS += [
    (attributes(TEXCOORD_0=PAIR, TEXCOORD_1=PAIR), []),
    (attributes(TEXCOORD_1=PAIR), GAP),
    (attributes(TEXCOORD_0=PAIR, TEXCOORD_2=PAIR), GAP),
    (attributes(COLOR_1=accessor("VEC3")), GAP),
    (attributes(JOINTS_0=JOINT, WEIGHTS_0=WEIGHT, JOINTS_1=JOINT, WEIGHTS_1=WEIGHT), []),
    (attributes(JOINTS_0=JOINT, JOINTS_1=JOINT, WEIGHTS_0=WEIGHT), MISMATCH),
    (attributes(WEIGHTS_0=WEIGHT), MISMATCH),
    (attributes(JOINTS_1=JOINT, WEIGHTS_0=WEIGHT), GAP),
]


FEW = [("MESH_PRIMITIVE_TOO_FEW_TEXCOORDS", f"{PRIMITIVE}/material")]
USES = {"extensionsUsed": ["KHR_texture_transform", "KHR_materials_specular"]}


PICTURE = {"textures": [{"source": 0}], "images": [{"uri": "a.png"}]}


def textured(sets, **material):
    """A primitive with so many sets of texture coordinates, and its material."""
    made = attributes(**{f"TEXCOORD_{n}": PAIR for n in range(sets)}) | USES
    made["meshes"][0]["primitives"][0]["material"] = 0
    return made | {"materials": [material]} | PICTURE


def texture(n, **members):
    return {"index": 0, "texCoord": n, **members}


def moved(n, **members):
    """A texture with a transform that names a set."""
    return texture(n, extensions={"KHR_texture_transform": members})


# The uses of textures of which records keep the extensions as JSON: of a texCoord that is no whole
# number nothing is found there.
KEPT = ("normalTexture", "occlusionTexture")
# The sets of texture coordinates that materials use (3.9.2).
ROWS += [
    (textured(0), []),
    (textured(1, emissiveTexture=texture(0)), []),
    (textured(0, emissiveTexture=texture(0)), FEW),
    (textured(1, emissiveTexture={"index": 0}), []),
    (textured(0, emissiveTexture={"index": 0}), FEW),
    (textured(2, pbrMetallicRoughness={"baseColorTexture": texture(1)}), []),
    (textured(1, pbrMetallicRoughness={"baseColorTexture": texture(1)}), FEW),
    (textured(1, pbrMetallicRoughness={"metallicRoughnessTexture": texture(1)}), FEW),
    (textured(1, normalTexture=texture(0), occlusionTexture=texture(0)), []),
    (textured(1, normalTexture=texture(1), occlusionTexture=texture(0)), FEW),
    (textured(1, normalTexture=texture(0), occlusionTexture=texture(1)), FEW),
    (textured(1, emissiveTexture=moved(1, texCoord=0)), []),
    (textured(1, emissiveTexture=moved(0, texCoord=1)), FEW),
    (textured(1, emissiveTexture=moved(1)), FEW),
    *((textured(1, **{use: moved(1, texCoord=0)}), []) for use in KEPT),
    *((textured(1, **{use: moved(0, texCoord=1)}), FEW) for use in KEPT),
    *((textured(1, **{use: moved(0, texCoord=2 ** 40)}), FEW) for use in KEPT),
    *((textured(1, **{use: moved(1)}), FEW) for use in KEPT),
    *((textured(1, **{use: moved(0)}), []) for use in KEPT),
    *((textured(1, **{use: texture(1, extensions={})}), FEW) for use in KEPT),
    *((textured(0, **{use: moved(0, texCoord=other)}), [])
      for use in KEPT for other in (None, "0", 0.5, -1)),
    (textured(1, extensions={"KHR_materials_specular": {"specularTexture": texture(0)}}), []),
    (textured(1, extensions={"KHR_materials_specular": {"specularTexture": texture(1)}}), FEW),
    (textured(1, extensions={"KHR_materials_specular": {"specularColorTexture": texture(1)}}), FEW),
]

TARGET = [("BUFFER_VIEW_TARGET_MISSING", "/bufferViews/0")]


def two_views(first, second, **mesh):
    """Positions in a view, and another accessor in another view."""
    made = attributes() | {
        "buffers": [{"byteLength": 42, "uri": "data:;base64," + base64.b64encode(
            bytes(36) + bytes([0, 0, 1, 0, 2, 0])).decode()}],
        "bufferViews": [{"buffer": 0, "byteLength": 36} | first,
                        {"buffer": 0, "byteOffset": 36, "byteLength": 6} | second],
        "accessors": [POSITIONS | {"bufferView": 0, "max": [0, 0, 0]},
                      accessor("SCALAR", U16, bufferView=1)]}
    made["meshes"][0]["primitives"][0] |= mesh
    return made


VERTICES, ELEMENTS = {"target": 34962}, {"target": 34963}
# Views of vertices and indices have a target (3.6.1).
ROWS += [
    (two_views(VERTICES, {}), []),
    (two_views({}, {}), TARGET),
    (two_views(VERTICES, ELEMENTS, indices=1), []),
    (two_views(VERTICES, {}, indices=1), [("BUFFER_VIEW_TARGET_MISSING", "/bufferViews/1")]),
    (two_views({}, {}, attributes={}, targets=[{"POSITION": 0}]),
     TARGET + [("EMPTY_ENTITY", ATTRIBUTES), ("MESH_PRIMITIVE_NO_POSITION", ATTRIBUTES),
               ("MESH_PRIMITIVE_MORPH_TARGET_NO_BASE_ACCESSOR", f"{PRIMITIVE}/targets/0/POSITION")]),
]


def drawn(mode, count):
    return mesh({"POSITION": accessor("VEC3", count=count, **BOUNDS)}, mode)


INCOMPATIBLE = [("MESH_PRIMITIVE_INCOMPATIBLE_MODE", PRIMITIVE)]
# The number drawn (3.7.2.1).
ROWS += [
    (drawn(mode, count), [] if count in good else INCOMPATIBLE)
    for mode, good in [(0, [1, 2, 3, 4, 5, 6]), (1, [2, 4, 6]), (2, [2, 3, 4, 5, 6]),
                       (3, [2, 3, 4, 5, 6]), (4, [3, 6]), (5, [3, 4, 5, 6]), (6, [3, 4, 5, 6])]
    for count in range(1, 7)
]
INDEXED = drawn(4, 4)
INDEXED["meshes"][0]["primitives"][0]["indices"] = 1
ROWS += [
    (INDEXED | {"accessors": INDEXED["accessors"] + [accessor("SCALAR", U16, count=6)]}, []),
    (INDEXED | {"accessors": INDEXED["accessors"] + [accessor("SCALAR", U16, count=5)]}, INCOMPATIBLE),
]


def morphed(target, others=({},), **members):
    """Positions, and a mesh with a target for each of the primitives."""
    whole = {"attributes": {"POSITION": 0}}
    primitives = [whole | {"targets": targets} for targets in ([target], *others) if targets != {}]
    return {"accessors": [POSITIONS, accessor("VEC3", count=4), accessor("VEC3")],
            "meshes": [{"primitives": primitives, **members}]}


MESH_WEIGHTS = [("MESH_INVALID_WEIGHTS_COUNT", "/meshes/0/weights")]
# Morph targets and their weights (3.7.2.2).
ROWS += [
    (morphed({"POSITION": 2}), []),
    (morphed({"POSITION": 1}),
     [("MESH_PRIMITIVE_MORPH_TARGET_INVALID_ATTRIBUTE_COUNT", f"{PRIMITIVE}/targets/0/POSITION")]),
    (morphed({"NORMAL": 2}),
     [("MESH_PRIMITIVE_MORPH_TARGET_NO_BASE_ACCESSOR", f"{PRIMITIVE}/targets/0/NORMAL")]),
    (morphed({"POSITION": 2}, [[{"POSITION": 2}]]), []),
    (morphed({"POSITION": 2}, [[{"POSITION": 2}] * 2]),
     [("MESH_PRIMITIVES_UNEQUAL_TARGETS_COUNT", "/meshes/0/primitives")]),
    (morphed({"POSITION": 2}, weights=[0.5]), []),
    (morphed({"POSITION": 2}, weights=[0.5, 0.5]), MESH_WEIGHTS),
    (morphed({"POSITION": 2}, weights=[]), MESH_WEIGHTS),
    (morphed({"POSITION": 2}) | {"nodes": [{"mesh": 0, "weights": [1]}]}, []),
    (morphed({"POSITION": 2}) | {"nodes": [{"mesh": 0, "weights": [1, 0]}]},
     [("NODE_WEIGHTS_INVALID", "/nodes/0/weights")]),
]

SKINNED = attributes(JOINTS_0=JOINT, WEIGHTS_0=WEIGHT)
SKIN = {"skins": [{"joints": [0]}]}
# Skins and skinned meshes (3.7.3.3).
ROWS += [
    (SKINNED | SKIN | {"nodes": [{"mesh": 0, "skin": 0}]}, []),
    (attributes() | SKIN | {"nodes": [{"mesh": 0, "skin": 0}]},
     [("NODE_SKIN_WITH_NON_SKINNED_MESH", "/nodes/0")]),
    (SKINNED | {"nodes": [{"mesh": 0}]}, [("NODE_SKINNED_MESH_WITHOUT_SKIN", "/nodes/0")]),
    (attributes() | {"nodes": [{"mesh": 0}]}, []),
]


def animated(path, output, times=2, interpolation="LINEAR", targets=2, mesh=True):
    """A node that is animated, with a mesh of so many morph targets."""
    time = accessor("SCALAR", count=times, min=[0], max=[1])
    made = morphed({"POSITION": 2})
    made["meshes"][0]["primitives"][0]["targets"] = [{"POSITION": 2}] * targets
    channel = {"sampler": 0, "target": {"node": 0, "path": path}}
    sampler = {"input": 3, "output": 4, "interpolation": interpolation}
    return made | {
        "accessors": made["accessors"] + [time, output],
        "nodes": [{"mesh": 0} if mesh else {"extras": "no mesh"}],
        "animations": [{"channels": [channel], "samplers": [sampler]}],
    }


OUTPUT = "/animations/0/samplers/0/output"
OUTPUT_FORMAT = [("ANIMATION_SAMPLER_OUTPUT_ACCESSOR_INVALID_FORMAT", OUTPUT)]
OUTPUT_COUNT = [("ANIMATION_SAMPLER_OUTPUT_ACCESSOR_INVALID_COUNT", OUTPUT)]
NO_MORPHS = [("ANIMATION_CHANNEL_TARGET_NODE_WEIGHTS_NO_MORPHS", "/animations/0/channels/0/target/path")]
# The outputs of samplers (3.11).
ROWS += [
    (animated("translation", accessor("VEC3", count=2)), []),
    (animated("translation", accessor("VEC4", count=2)), OUTPUT_FORMAT),
    (animated("scale", accessor("VEC3", U16, count=2, normalized=True)), OUTPUT_FORMAT),
    (animated("rotation", accessor("VEC4", U16, count=2, normalized=True)), []),
    (animated("rotation", accessor("VEC4", U16, count=2)), OUTPUT_FORMAT),
    (animated("rotation", accessor("VEC3", count=2)), OUTPUT_FORMAT),
    (animated("translation", accessor("VEC3", count=3)), OUTPUT_COUNT),
    (animated("translation", accessor("VEC3", count=6), interpolation="CUBICSPLINE"), []),
    (animated("translation", accessor("VEC3", count=2), interpolation="CUBICSPLINE"), OUTPUT_COUNT),
    (animated("weights", accessor("SCALAR", count=4)), []),
    (animated("weights", accessor("SCALAR", count=2)), OUTPUT_COUNT),
    (animated("weights", accessor("SCALAR", count=12), interpolation="CUBICSPLINE"), []),
    (animated("weights", accessor("VEC2", count=4)), OUTPUT_FORMAT),
    (animated("weights", accessor("SCALAR", count=2), targets=0), NO_MORPHS + OUTPUT_COUNT),
    (animated("weights", accessor("SCALAR", count=2), mesh=False), NO_MORPHS + OUTPUT_COUNT),
]


def lost(path, output, node=None, **members):
    """The same, where the channel names no node, or the node a mesh that is not there."""
    made = animated(path, output, **members)
    if node:
        made["nodes"] = [node]
    else:
        made["animations"][0]["channels"][0]["target"]["node"] = 1
    return made


NO_NODE = [("UNRESOLVED_REFERENCE", "/animations/0/channels/0/target/node")]
NO_MESH = [("UNRESOLVED_REFERENCE", "/nodes/0/mesh")]
# How many weights there are to be is not known where the node, or its mesh, is not there.
ROWS += [
    *((lost("weights", accessor("SCALAR", count=count)), NO_NODE) for count in (2, 4)),
    *((lost("weights", accessor("SCALAR", count=count), {"mesh": 1}), NO_MESH) for count in (2, 4)),
    (lost("weights", accessor("VEC2", count=4)), NO_NODE + OUTPUT_FORMAT),
    (lost("translation", accessor("VEC3", count=2)), NO_NODE),
    (lost("translation", accessor("VEC3", count=3)), NO_NODE + OUTPUT_COUNT),
    (lost("translation", accessor("VEC3", count=3), {"mesh": 1}), NO_MESH + OUTPUT_COUNT),
]


NEEDED = "MEMBER_NEEDED_BY_READER"
TEXTURE_SOURCE = [(NEEDED, "/textures/0/source")]
TARGET_NODE = [(NEEDED, "/animations/0/channels/0/target/node")]


def target(**members):
    """An animation of a node, whose channel has this target."""
    made = animated("translation", accessor("VEC3", count=2))
    made["animations"][0]["channels"][0]["target"] = members
    return made


# Members that the standard lets be absent (5.29.2 and 5.7.1), without which no file is loaded, and
# members that it does not.
ROWS += [
    (PICTURE, []),
    ({"textures": [{}]}, TEXTURE_SOURCE),
    ({"textures": [{"sampler": 0}], "samplers": [{}]}, TEXTURE_SOURCE),
    ({"textures": [{"extensions": {"KHR_texture_basisu": {"source": 0}}}],
      "images": [{"uri": "a.ktx2"}], "extensionsUsed": ["KHR_texture_basisu"]}, TEXTURE_SOURCE),
    (PICTURE | {"textures": [{"source": 0}, {}]}, [(NEEDED, "/textures/1/source")]),
    (target(node=0, path="translation"), []),
    (target(path="translation"), TARGET_NODE),
    (target(path="pointer", extensions={"KHR_animation_pointer": {"pointer": "/nodes/0/scale"}})
     | {"extensionsUsed": ["KHR_animation_pointer"]}, TARGET_NODE),
    (target(node=0), [("UNDEFINED_PROPERTY", "/animations/0/channels/0/target/path")]),
    ({"skins": [{}]}, [("UNDEFINED_PROPERTY", "/skins/0/joints")]),
]


CHILD = [("SCENE_NON_ROOT_NODE", "/scenes/0/nodes/1")]
# The nodes of scenes are roots (3.5.1).
ROWS += [
    (nodes(ROOTED, ROOTED, scenes=[{"nodes": [0, 1]}]), []),
    (nodes({"children": [1]}, ROOTED, scenes=[{"nodes": [0, 1]}]), CHILD),
    (nodes({"children": [1]}, ROOTED, scenes=[{"nodes": [0]}]), []),
    (nodes({"children": [2]}, ROOTED, scenes=[{"nodes": [0, 2]}]),
     [("UNRESOLVED_REFERENCE", "/nodes/0/children/0"), ("UNRESOLVED_REFERENCE", "/scenes/0/nodes/1")]),
]

EMPTY = [("NODE_EMPTY", "/nodes/0")]
# Empty nodes (5.25).
ROWS += [
    (nodes({}), EMPTY),
    (nodes({"name": "a", "translation": [0, 0, 0]}), EMPTY),
    (nodes({"children": [1]}, ROOTED), []),
    (nodes({"extras": 0}), []),
    (nodes({"extensions": {"EXT_mine": {}}}, extensionsUsed=["EXT_mine"]),
     [("UNSUPPORTED_EXTENSION", "/extensionsUsed/0")]),
    (nodes({}, skins=[{"joints": [0]}]), []),
    (nodes({}, ROOTED, skins=[{"joints": [1]}]), EMPTY),
    (nodes({"camera": 0}, cameras=[{"type": "perspective", "perspective": {"yfov": 1, "znear": 1}}]),
     []),
]


# Loops, common roots and skeletons.
ROWS += graphs.ROWS


def twice(place):
    return [("DUPLICATE_ELEMENTS", place)]


# Lists that name a node twice (5.25, 5.27 and 5.28). A list of children breaks the tree, too.
ROWS += [
    (nodes(ROOTED, ROOTED, scenes=[{"nodes": [0, 1, 0]}]), twice("/scenes/0/nodes/2")),
    (nodes(ROOTED, ROOTED, scenes=[{"nodes": [0, 1]}, {"nodes": [1, 0]}]), []),
    (nodes(ROOTED, ROOTED, scenes=[{"nodes": [0, 0]}, {"nodes": [1, 0, 1]}]),
     twice("/scenes/0/nodes/1") + twice("/scenes/1/nodes/2")),
    (nodes({}, {}, skins=[{"joints": [0, 1]}, {"joints": [1, 1, 1]}]),
     twice("/skins/1/joints/1") + twice("/skins/1/joints/2") + apart(0)),
    (nodes({"children": [1, 1]}, ROOTED),
     twice("/nodes/0/children/1") + [("NODE_PARENT_OVERRIDE", "/nodes/0/children/1")]),
]


def targets(*targets):
    """An animation with these channels, of nodes 0 and 1."""
    moved = animated("translation", accessor("VEC3", count=2))
    channels = [{"sampler": 0, "target": {"node": node, "path": path}} for node, path in targets]
    samplers = moved["animations"][0]["samplers"]
    return moved | {"nodes": [{"mesh": 0}, {"mesh": 0}],
                    "animations": [{"channels": channels, "samplers": samplers}]}


def again(channel):
    return [("ANIMATION_DUPLICATE_TARGETS", f"/animations/0/channels/{channel}/target")]


# Targets of one animation (5.5).
ROWS += [
    (targets((0, "translation"), (0, "scale"), (1, "translation"), (1, "scale")), []),
    (targets((0, "translation"), (0, "translation")), again(1)),
    (targets((0, "scale"), (1, "scale"), (0, "scale"), (1, "scale")), again(2) + again(3)),
    (targets((1, "translation"), (0, "scale"), (1, "translation"), (1, "translation")),
     again(2) + again(3)),
    (targets((2, "translation"), (2, "translation")),
     [("UNRESOLVED_REFERENCE", f"/animations/0/channels/{i}/target/node") for i in range(2)]),
]


def version(text, **members):
    return {"asset": {"version": text, **members}}


FORM = [("PATTERN_MISMATCH", "/asset/version")]
MAJOR = [("UNKNOWN_ASSET_MAJOR_VERSION", "/asset/version")]
LEAST_FORM = [("PATTERN_MISMATCH", "/asset/minVersion")]
LEAST = [("ASSET_MIN_VERSION_GREATER_THAN_VERSION", "/asset/minVersion")]
HUGE = "9" * 30
# Versions (3.2 and 5.9).
ROWS += [
    *((version(text), []) for text in ("2.0", "2.1", "02.00", f"2.{HUGE}")),
    *((version(text), FORM) for text in ("", "2", "2.", ".0", "2.0.0", "v2.0", "2.0 ", "2,0", "2.x")),
    *((version(text), MAJOR) for text in ("1.0", "3.0", "20.0", "22.0", "0.2", "00.0", f"{HUGE}.0")),
    *((version("2.0", minVersion=text), []) for text in ("2.0", "1.9", "02.0", "2.00", "0.1")),
    *((version("2.0", minVersion=text), LEAST) for text in ("2.1", "3.0", "2.01", f"2.{HUGE}", "10.0")),
    (version("2.10", minVersion="2.9"), []),
    (version("2.9", minVersion="2.10"), LEAST),
    (version("2.19", minVersion="2.21"), LEAST),
    (version("2.0", minVersion="2"), LEAST_FORM),
    (version("2", minVersion="3.0"), FORM),
    (version("1.0", minVersion="1.1"), MAJOR + LEAST),
]


def camera(**kind):
    (name, members), = kind.items()
    return {"cameras": [{"type": name, name: members}]}


def lens(**members):
    return {"yfov": 1, "znear": 1, **members}


def planes(name):
    return [("CAMERA_ZFAR_LEQUAL_ZNEAR", f"/cameras/0/{name}")]


def out_of_range(*places):
    return [("VALUE_NOT_IN_RANGE", place) for place in places]


BOX = {"xmag": 1, "ymag": 1}
# The clipping planes of cameras (5.13 and 5.14).
ROWS += [
    (camera(perspective=lens()), []),
    (camera(perspective=lens(zfar=2)), []),
    (camera(perspective=lens(zfar=1.0000000000000002)), []),
    (camera(perspective=lens(zfar=1)), planes("perspective")),
    (camera(perspective=lens(zfar=0.5)), planes("perspective")),
    (camera(orthographic=BOX | {"znear": 0, "zfar": 0.1}), []),
    (camera(orthographic=BOX | {"znear": 0, "zfar": 0}),
     planes("orthographic") + out_of_range("/cameras/0/orthographic/zfar")),
    (camera(orthographic=BOX | {"znear": 3, "zfar": 2}), planes("orthographic")),
]


TINY, ABOVE_ONE = 5e-324, 1.0000000000000002
# The ranges of cameras (5.13 and 5.14).
ROWS += [
    *((camera(perspective=lens(**{name: TINY, "zfar": 2})), []) for name in ("yfov", "znear", "aspectRatio")),
    *((camera(perspective=lens(**{name: number})), out_of_range(f"/cameras/0/perspective/{name}"))
      for name in ("yfov", "znear", "aspectRatio") for number in (0, -0.0, -TINY, -1)),
    *((camera(perspective=lens(zfar=number)),
       planes("perspective") + out_of_range("/cameras/0/perspective/zfar")) for number in (0, -1)),
    *((camera(perspective=lens(aspectRatio=other)), []) for other in ("0", None, [0])),
    *((camera(orthographic=BOX | {"znear": number, "zfar": 1}), []) for number in (0, -0.0, TINY)),
    *((camera(orthographic=BOX | {"znear": number, "zfar": 1}),
       out_of_range("/cameras/0/orthographic/znear")) for number in (-TINY, -1)),
    (camera(orthographic=BOX | {"znear": -2, "zfar": -1}),
     out_of_range("/cameras/0/orthographic/znear", "/cameras/0/orthographic/zfar")),
    (camera(orthographic=BOX | {"znear": 0, "zfar": TINY}), []),
]


def surface(**members):
    return {"materials": [members]} | PICTURE


def metallic(**members):
    return surface(pbrMetallicRoughness=members)


MODEL = "/materials/0/pbrMetallicRoughness"
INSIDE, OUTSIDE = (0, -0.0, TINY, 0.5, 1), (-TINY, ABOVE_ONE, -1, 2)
# The ranges of materials (5.19, 5.21 and 5.22): of a list once.
ROWS += [
    *((metallic(**{name: number}), []) for name in ("metallicFactor", "roughnessFactor")
      for number in INSIDE),
    *((metallic(**{name: number}), out_of_range(f"{MODEL}/{name}"))
      for name in ("metallicFactor", "roughnessFactor") for number in OUTSIDE),
    (metallic(metallicFactor="2", roughnessFactor=None), []),
    *((metallic(baseColorFactor=[0, 1, 0, number]), []) for number in INSIDE),
    *((metallic(baseColorFactor=[number, 1, 0, 1]), out_of_range(f"{MODEL}/baseColorFactor"))
      for number in OUTSIDE),
    (metallic(baseColorFactor=[0, 2, 0, -1]), out_of_range(f"{MODEL}/baseColorFactor")),
    *((metallic(baseColorFactor=other), []) for other in ([], ["2", None], 2, {"0": 2})),
    *((surface(emissiveFactor=[1, 0, number]), []) for number in INSIDE),
    *((surface(emissiveFactor=[1, 0, number]), out_of_range("/materials/0/emissiveFactor"))
      for number in OUTSIDE),
    *((surface(occlusionTexture={"index": 0, "strength": number}), []) for number in INSIDE),
    *((surface(occlusionTexture={"index": 0, "strength": number}),
       out_of_range("/materials/0/occlusionTexture/strength")) for number in OUTSIDE),
    *((surface(alphaMode="MASK", alphaCutoff=number), []) for number in (*INSIDE, 2)),
    *((surface(alphaMode="MASK", alphaCutoff=number), out_of_range("/materials/0/alphaCutoff"))
      for number in (-TINY, -1)),
]


def one_of(place):
    return [("ONE_OF_MISMATCH", place)]


def lacks(place):
    return [("UNSATISFIED_DEPENDENCY", place)]


BYTES_OF_IMAGE = {"buffers": [{"byteLength": 64, "uri": ZEROS}],
                  "bufferViews": [{"buffer": 0, "byteLength": 64}]}
INSIDE_VIEW = {"bufferView": 0, "mimeType": "image/png"}
# Members of which exactly one is there (5.12 and 5.18), and members that need another (5.1, 5.18 and
# 5.25).
ROWS += [
    ({"images": [{"uri": "a.png"}]}, []),
    (BYTES_OF_IMAGE | {"images": [INSIDE_VIEW]}, []),
    (BYTES_OF_IMAGE | {"images": [INSIDE_VIEW | {"uri": "a.png"}]}, one_of("/images/0")),
    ({"images": [{}]}, one_of("/images/0/uri")),
    ({"cameras": [{"type": "perspective", "perspective": lens(),
                   "orthographic": BOX | {"znear": 0, "zfar": 1}}]}, one_of("/cameras/0")),
    (BYTES_OF_IMAGE | {"images": [{"bufferView": 0}]}, lacks("/images/0/mimeType")),
    (nodes({"skin": 0, "children": [1]}, ROOTED, skins=[{"joints": [1]}]), lacks("/nodes/0/skin")),
    (nodes(ROOTED | {"weights": [1]}), lacks("/nodes/0/weights")),
    (nodes(ROOTED | {"weights": [1], "skin": 0}, skins=[{"joints": [0]}]),
     lacks("/nodes/0/skin") + lacks("/nodes/0/weights")),
    *(({"accessors": [accessor("SCALAR", byteOffset=offset)]}, lacks("/accessors/0/byteOffset"))
      for offset in (0, 4)),
    (BYTES_OF_IMAGE | {"accessors": [accessor("SCALAR", byteOffset=4, bufferView=0)]}, []),
]

MAPPINGS = f"{PRIMITIVE}/extensions/KHR_materials_variants/mappings"


def mapped(*mappings, variants=2, materials=2):
    """A primitive with these mappings, each a material and its variants."""
    made = attributes()
    made["meshes"][0]["primitives"][0]["extensions"] = {"KHR_materials_variants": {
        "mappings": [{"material": material, "variants": them} for material, them in mappings]}}
    names = [{"name": str(i)} for i in range(variants)]
    return made | {"materials": [{}] * materials, "extensionsUsed": ["KHR_materials_variants"]} | (
        {"extensions": {"KHR_materials_variants": {"variants": names}}} if variants else {})


def unresolved(*places):
    return [("UNRESOLVED_REFERENCE", f"{MAPPINGS}/{place}") for place in places]


# The mappings of KHR_materials_variants.
ROWS += [
    (mapped((0, [0, 1]), (1, [])), []),
    (mapped((2, [0]), (1, [1])), unresolved("0/material")),
    (mapped((1, [0, 2, 1, 2 ** 32 - 1])), unresolved("0/variants/1", "0/variants/3")),
    (mapped((0, [1]), (5, [2])), unresolved("1/material", "1/variants/0")),
    (mapped((0, [0]), variants=0, materials=0), unresolved("0/material", "0/variants/0")),
]


# The extensions that are read, with the document or by gltf_extensions, and others.
READ = ["KHR_lights_punctual", "KHR_materials_variants", "KHR_texture_transform",
        "KHR_materials_pbrSpecularGlossiness", "KHR_materials_unlit", "KHR_materials_transmission",
        "KHR_materials_ior", "KHR_materials_emissive_strength", "KHR_materials_volume",
        "KHR_materials_specular", "EXT_mesh_gpu_instancing", "EXT_meshopt_compression",
        "EXT_texture_webp", "KHR_animation_pointer", "KHR_materials_anisotropy",
        "KHR_materials_clearcoat", "KHR_materials_diffuse_transmission", "KHR_materials_dispersion",
        "KHR_materials_iridescence", "KHR_materials_sheen", "KHR_mesh_quantization",
        "KHR_node_visibility", "KHR_texture_basisu", "KHR_xmp_json_ld"]
ROWS += [
    ({"extensionsUsed": READ}, []),
    *(({"extensionsUsed": [name]}, UNKNOWN)
      for name in ("", "KHR_mesh_quantisation", "KHR_mesh_quantization2", "EXT_mine",
                   "KHR_draco_mesh_compression")),
    ({"extensionsUsed": READ + ["EXT_mine"]},
     [("UNSUPPORTED_EXTENSION", f"/extensionsUsed/{len(READ)}")]),
]


def repeated(*places, name="extensionsUsed"):
    return [("DUPLICATE_ELEMENTS", f"/{name}/{place}") for place in places]


UNLIT, IOR = "KHR_materials_unlit", "KHR_materials_ior"
# Names of extensions are each there once (5.17).
ROWS += [
    ({"extensionsUsed": [UNLIT, IOR], "extensionsRequired": [UNLIT, IOR]}, []),
    ({"extensionsUsed": [UNLIT, IOR, UNLIT]}, repeated(2)),
    ({"extensionsUsed": [UNLIT, UNLIT, IOR, UNLIT, IOR]}, repeated(1, 3, 4)),
    ({"extensionsUsed": [UNLIT, UNLIT + "2", UNLIT[:-1]]},
     [("UNSUPPORTED_EXTENSION", f"/extensionsUsed/{i}") for i in (1, 2)]),
    ({"extensionsUsed": [UNLIT, IOR], "extensionsRequired": [UNLIT, IOR, IOR]},
     repeated(2, name="extensionsRequired")),
    ({"extensionsUsed": [UNLIT, UNLIT], "extensionsRequired": [UNLIT, UNLIT]},
     repeated(1) + repeated(1, name="extensionsRequired")),
]


def undeclared(place):
    return [("UNDECLARED_EXTENSION", place)]


ROOT = {"extensions": {"EXT_mine": {}}}
LIGHTS = {"KHR_lights_punctual": {"lights": [{"type": "point"}]}}
AT_TEXTURE = "/materials/0/emissiveTexture/extensions/KHR_texture_transform"
# Extensions that are used are declared (3.12).
ROWS += [
    (ROOT, undeclared("/extensions/EXT_mine")),
    (ROOT | {"extensionsUsed": ["EXT_mine"]}, UNKNOWN),
    (ROOT | {"extensionsUsed": ["EXT_min"]}, UNKNOWN + undeclared("/extensions/EXT_mine")),
    ({"extensions": {"a/b": {}}}, undeclared("/extensions/a~1b")),
    ({"extensions": LIGHTS}, undeclared("/extensions/KHR_lights_punctual")),
    ({"extensions": LIGHTS, "extensionsUsed": ["KHR_lights_punctual"]}, []),
    ({"asset": {"version": "2.0"} | ROOT}, undeclared("/asset/extensions/EXT_mine")),
    (nodes(ROOTED | ROOT), undeclared("/nodes/0/extensions/EXT_mine")),
    (nodes({"extensions": {"KHR_lights_punctual": {"light": 0}}}, extensions=LIGHTS),
     undeclared("/extensions/KHR_lights_punctual")
     + undeclared("/nodes/0/extensions/KHR_lights_punctual")),
    (nodes(ROOTED, scenes=[{"nodes": [0]} | ROOT]), undeclared("/scenes/0/extensions/EXT_mine")),
    (nodes(ROOTED, skins=[{"joints": [0]} | ROOT]), undeclared("/skins/0/extensions/EXT_mine")),
    ({"accessors": [POSITIONS | ROOT]}, undeclared("/accessors/0/extensions/EXT_mine")),
    ({"buffers": [{"byteLength": 64, "uri": ZEROS} | ROOT]},
     undeclared("/buffers/0/extensions/EXT_mine")),
    (in_view(U8, byteStride=4, **ROOT), undeclared("/bufferViews/0/extensions/EXT_mine")),
    (camera(perspective=lens(**ROOT)), undeclared("/cameras/0/perspective/extensions/EXT_mine")),
    (camera(orthographic=BOX | {"znear": 0, "zfar": 1} | ROOT),
     undeclared("/cameras/0/orthographic/extensions/EXT_mine")),
    ({"images": [{"uri": "a.png"} | ROOT]}, undeclared("/images/0/extensions/EXT_mine")),
    ({"samplers": [ROOT]}, undeclared("/samplers/0/extensions/EXT_mine")),
    (PICTURE | {"textures": [{"source": 0} | ROOT]},
     undeclared("/textures/0/extensions/EXT_mine")),
    ({"meshes": [attributes()["meshes"][0] | ROOT], "accessors": [POSITIONS]},
     undeclared("/meshes/0/extensions/EXT_mine")),
    ({"materials": [ROOT]}, undeclared("/materials/0/extensions/EXT_mine")),
    ({"materials": [{"extensions": {"KHR_materials_unlit": {}}}]},
     undeclared("/materials/0/extensions/KHR_materials_unlit")),
    ({"materials": [{"extensions": {"KHR_materials_unlit": {}}}],
      "extensionsUsed": ["KHR_materials_unlit"]}, []),
    ({"materials": [{"pbrMetallicRoughness": ROOT}]},
     undeclared("/materials/0/pbrMetallicRoughness/extensions/EXT_mine")),
    ({"materials": [{"emissiveTexture": moved(0)}]} | PICTURE, undeclared(AT_TEXTURE)),
    ({"materials": [{"emissiveTexture": moved(0)}]} | PICTURE | USES, []),
]
VARIANTS = attributes()
VARIANTS["meshes"][0]["primitives"][0] |= ROOT
ROWS += [(VARIANTS, undeclared(f"{PRIMITIVE}/extensions/EXT_mine"))]
MOVES = animated("translation", accessor("VEC3", count=2))
MOVES["animations"][0] |= ROOT
ROWS += [(MOVES, undeclared("/animations/0/extensions/EXT_mine"))]
ROWS += unkept.ROWS


def packed(form, *numbers):
    """The bytes of numbers, the lowest one first."""
    return struct.pack(f"<{len(numbers)}{form}", *numbers)


def floats(*numbers):
    return packed("f", *numbers)


def words(*bits):
    """The bytes of floats with these bits."""
    return packed("I", *bits)


def views(*parts):
    """A buffer, and a view of each part of it."""
    data = b"".join(part + bytes(-len(part) % 4) for part in parts)
    starts = [sum(len(part) + -len(part) % 4 for part in parts[:i]) for i in range(len(parts))]
    return {
        "buffers": [{"byteLength": len(data),
                     "uri": "data:;base64," + base64.b64encode(data).decode()}],
        "bufferViews": [{"buffer": 0, "byteOffset": start, "byteLength": len(part)}
                        for start, part in zip(starts, parts)]}


def holds(data, shape="SCALAR", component=FLOAT, count=None, **members):
    """An accessor that holds these bytes."""
    size = {U8: 1, I8: 1, U16: 2, I16: 2, U32: 4, FLOAT: 4}[component]
    sizes = {"SCALAR": 1, "VEC2": 2, "VEC3": 3, "VEC4": 4, "MAT2": 4, "MAT3": 9, "MAT4": 16}
    count = count or len(data) // (size * sizes[shape])
    return views(data) | {"accessors": [accessor(shape, component, count, bufferView=0, **members)]}


INFINITE = [("ACCESSOR_INVALID_FLOAT", "/accessors/0")]
NAN, INFINITY = float("nan"), float("inf")
LEAST_FLOAT, GREATEST_FLOAT = 2.0 ** -149, 2.0 ** 128 - 2.0 ** 104
# Floats: infinities and what is not a number have all eight bits of the exponent set (3.6.2.2).
ROWS += [
    (holds(floats(0, -0.0, 1, LEAST_FLOAT, -LEAST_FLOAT, GREATEST_FLOAT, -GREATEST_FLOAT)), []),
    *((holds(words(0, bits)), [])
      for bits in (0x7F7FFFFF, 0xFF7FFFFF, 0x7F000000, 0x3F800000, 0x007FFFFF, 0x80000000, 0x00800000)),
    *((holds(words(0, bits)), INFINITE)
      for bits in (0x7F800000, 0xFF800000, 0x7F800001, 0x7FC00000, 0xFFC00000, 0x7FFFFFFF, 0xFFFFFFFF)),
    (holds(floats(INFINITY, 0)), INFINITE),
    (holds(floats(0, 0, 0, 0, NAN, 0), "VEC3"), INFINITE),
    (holds(floats(*[0] * 15, INFINITY), "MAT4"), INFINITE),
    (holds(floats(NAN, INFINITY, NAN)), INFINITE),
    (holds(words(0x7F800000), component=U32), []),
    (holds(words(0x7F800000), "VEC2", U16), []),
    (holds(words(0xFFFFFFFF), "VEC4", I8), []),
]

LOW, BELOW = "ACCESSOR_MIN_MISMATCH", "ACCESSOR_ELEMENT_OUT_OF_MIN_BOUND"
HIGH, ABOVE = "ACCESSOR_MAX_MISMATCH", "ACCESSOR_ELEMENT_OUT_OF_MAX_BOUND"


def least(*codes, column=0):
    return [(code, f"/accessors/0/min/{column}") for code in codes]


def greatest(*codes, column=0):
    return [(code, f"/accessors/0/max/{column}") for code in codes]


def bounded(data, least, greatest, *shape):
    return holds(data, *shape, min=least, max=greatest)


THREE = packed("B", 3, 1, 2)
PAIRS = floats(1, 5, 2, 4)
# Stated minima and maxima (3.6.2.5): those of whole numbers are exact,
ROWS += [
    (bounded(THREE, [1], [3], "SCALAR", U8), []),
    (bounded(THREE, [1.0], [3.0], "SCALAR", U8), []),
    (bounded(THREE, [0], [4], "SCALAR", U8), least(LOW) + greatest(HIGH)),
    (bounded(THREE, [2], [2], "SCALAR", U8), least(LOW, BELOW) + greatest(HIGH, ABOVE)),
    (bounded(THREE, [0.5], [3.5], "SCALAR", U8), least(LOW) + greatest(HIGH)),
    (bounded(THREE, [1.5], [2.5], "SCALAR", U8), least(LOW, BELOW) + greatest(HIGH, ABOVE)),
    (bounded(THREE, [-1e300], [1e300], "SCALAR", U8), least(LOW) + greatest(HIGH)),
    (bounded(THREE, [10 ** 30], [-10 ** 30], "SCALAR", U8),
     least(LOW, BELOW) + greatest(HIGH, ABOVE)),
    (bounded(packed("b", 0, -128, 127), [-128], [127], "SCALAR", I8), []),
    (bounded(packed("b", 0, -128, 127), [0], [0], "SCALAR", I8),
     least(LOW, BELOW) + greatest(HIGH, ABOVE)),
    (bounded(packed("B", 127, 128), [127], [128], "SCALAR", U8), []),
    (bounded(packed("h", 5, -32768), [-32768], [5], "SCALAR", I16), []),
    (bounded(packed("h", 256, 1), [1], [256], "SCALAR", I16), []),
    (bounded(packed("H", 65535, 32768), [32768], [65535], "SCALAR", U16), []),
    (bounded(packed("I", 4294967295, 0), [0], [4294967295], "SCALAR", U32), []),
    (bounded(packed("I", 4294967295, 0), [0], [4294967296], "SCALAR", U32), greatest(HIGH)),
    (bounded(packed("I", 4294967294, 1), [1], [4294967293], "SCALAR", U32), greatest(HIGH, ABOVE)),
]
# each number is stated for a column, and what stands behind the last one for none,
ROWS += [
    (bounded(THREE, [1] * 40, [3], "SCALAR", U8), []),
    (bounded(THREE, [1], [3, 9, 9], "SCALAR", U8), []),
    (bounded(THREE, [2, 1], [3], "SCALAR", U8), least(LOW, BELOW)),
    *((bounded(floats(*range(n)), [*range(n), 7, 7], [*range(n), 7, 7], shape), [])
      for shape, n in (("SCALAR", 1), ("VEC2", 2), ("VEC3", 3), ("VEC4", 4), ("MAT2", 4),
                       ("MAT3", 9), ("MAT4", 16))),
    *((bounded(floats(*range(n)), [*range(n - 1), 99], [*range(n)], shape),
       least(LOW, BELOW, column=n - 1))
      for shape, n in (("SCALAR", 1), ("VEC2", 2), ("VEC3", 3), ("VEC4", 4), ("MAT2", 4),
                       ("MAT3", 9), ("MAT4", 16))),
]
# and those of floats are rounded to single precision first; 0 and -0 are the same.
ROWS += [
    (bounded(floats(0.1, 0.2), [0.1], [0.2]), []),
    (bounded(floats(0.1, 0.2), [0.100000001], [0.200000003]), []),
    (bounded(floats(0.1, 0.2), [0.1000001], [0.2]), least(LOW, BELOW)),
    (bounded(floats(0.1, 0.2), [0.1], [0.2000001]), greatest(HIGH)),
    (bounded(floats(-1, 1), [-1], [1]), []),
    (bounded(floats(-1, 1), [1], [-1]), least(LOW, BELOW) + greatest(HIGH, ABOVE)),
    (bounded(floats(0), [-0.0], [0]), []),
    (bounded(floats(-0.0), [0], [-0.0]), []),
    (bounded(floats(LEAST_FLOAT, 1), [LEAST_FLOAT], [1]), []),
    (bounded(floats(LEAST_FLOAT, 1), [0], [1]), least(LOW)),
    (bounded(floats(-LEAST_FLOAT, 1), [0], [1]), least(LOW, BELOW)),
    (bounded(floats(-GREATEST_FLOAT, GREATEST_FLOAT), [-GREATEST_FLOAT], [GREATEST_FLOAT]), []),
    (bounded(floats(1, INFINITY), [1], [1]), INFINITE + greatest(HIGH, ABOVE)),
    (bounded(floats(-INFINITY, 1), [1], [1]), INFINITE + least(LOW, BELOW)),
    (bounded(floats(1, NAN, 2), [1], [2]), INFINITE),
    (bounded(floats(NAN), [1], [2]), INFINITE + least(LOW) + greatest(HIGH)),
    (bounded(PAIRS, [1, 4], [2, 5], "VEC2"), []),
    (bounded(PAIRS, [1, 5], [2, 4], "VEC2"),
     least(LOW, BELOW, column=1) + greatest(HIGH, ABOVE, column=1)),
    (bounded(PAIRS, [4, 1], [2, 5], "VEC2"), least(LOW, BELOW) + least(LOW, column=1)),
    (bounded(PAIRS, [1], [2], "VEC2"), []),
    (bounded(PAIRS, [1, 4, 0], [2, 5], "VEC2"), []),
    (bounded(PAIRS, [1, None], [2, "5"], "VEC2"), []),
    (bounded(PAIRS, 1, {"0": 2}, "VEC2"), []),
    (bounded(floats(*range(16)), [*range(16)], [*range(16)], "MAT4"), []),
    (bounded(floats(*range(16)), [*range(15), 14], [*range(16)], "MAT4"), least(LOW, column=15)),
    (bounded(packed("H", *range(4)), [*range(4)], [*range(4)], "MAT2", U16), []),
    (bounded(packed("H", *range(4)), [0, 1, 2, 4], [*range(4)], "MAT2", U16),
     least(LOW, BELOW, column=3)),
    (holds(bytes([1, 2, 0, 9, 3, 4, 0, 9]), "MAT2", U8, count=1, min=[1, 2, 3, 4], max=[1, 2, 3, 4]), []),
    ({"accessors": [accessor("SCALAR", min=[7], max=[7])]}, []),
]


def sparse(base, indices, values, component=U8, count=4, **members):
    """An accessor of bytes, some of which are replaced."""
    form = {U8: "B", U16: "H", U32: "I"}[component]
    made = views(packed("B", *(base or [0])), packed(form, *indices), packed("B", *values))
    part = {"count": len(indices), "values": {"bufferView": 2},
            "indices": {"bufferView": 1, "componentType": component}}
    view = {"bufferView": 0} if base else {}
    return made | {"accessors": [accessor("SCALAR", U8, count, sparse=part, **view, **members)]}


FALLS = [("ACCESSOR_SPARSE_INDICES_NON_INCREASING", "/accessors/0/sparse/indices")]
PAST = [("ACCESSOR_SPARSE_INDEX_OOB", "/accessors/0/sparse/indices")]
FIVES = [5, 5, 5, 5]
# The indices of sparse accessors (5.2 and 5.3), whether these have a view or not, and whatever their
# count is; the items are those with the values in their places.
ROWS += [
    *((sparse(base, [0, 3], [1, 2], component), []) for base in (FIVES, None)
      for component in (U8, U16, U32)),
    *((sparse(base, [3, 3], [1, 2], component), FALLS) for base in (FIVES, None)
      for component in (U8, U16, U32)),
    *((sparse(base, [1, 4], [1, 2], component), PAST) for base in (FIVES, None)
      for component in (U8, U16, U32)),
    (sparse(FIVES, [3, 0], [1, 2]), FALLS),
    (sparse(FIVES, [0, 2, 1], [1, 2, 3]), FALLS),
    (sparse(FIVES, [0, 2, 1, 3], [1, 2, 3, 4]), FALLS),
    (sparse(FIVES, [0, 1, 2, 3], [1, 2, 3, 4]), []),
    (sparse(FIVES, [4, 4], [1, 2]), FALLS + PAST),
    (sparse(FIVES, [256, 0], [1, 2], U16), FALLS + PAST),
    (sparse(None, [0, 65535], [1, 2], U16, count=65536), []),
    (sparse(None, [0, 65535], [1, 2], U16, count=65535), PAST),
    (sparse(None, [0, 2 ** 32 - 1], [1, 2], U32, count=2 ** 53), []),
    (sparse(None, [0, 2 ** 32 - 1], [1, 2], U32, count=2 ** 53, min=[0], max=[2]), []),
    (sparse(None, [0, 0], [1, 2], U32, count=2 ** 53, min=[9], max=[9]),
     FALLS + least(LOW, BELOW) + greatest(HIGH)),
    *((sparse(None, [0, 3], [1, 2], min=[low], max=[2]), least(*codes))
      for low, codes in ((0, []), (1, [LOW, BELOW]))),
    (sparse(None, [0, 3], [1, 2], min=[0], max=[1]), greatest(HIGH, ABOVE)),
    *((sparse(None, [0, 1], [5, 6], count=count, min=[low], max=[6]), least(*codes))
      for count, low, codes in ((2, 5, []), (2, 0, [LOW]), (3, 5, [LOW, BELOW]), (3, 0, []))),
    *((sparse(None, [i, 4], [1, 2], min=[0], max=[1]), PAST) for i in (0, 3)),
    (sparse(None, [4, 5], [1, 2], min=[0], max=[0]), PAST),
    (sparse(None, [2, 1], [3, 9], min=[0], max=[3]), FALLS),
    (sparse(FIVES, [2], [1], min=[1], max=[5]), []),
    (sparse(FIVES, [2], [9], min=[5], max=[5]), greatest(HIGH, ABOVE)),
    (sparse([5, 5, 1, 5], [2], [5], min=[5], max=[5]), []),
    (sparse([5, 5, 1, 5], [2], [5], min=[1], max=[5]), least(LOW)),
]
OVER = views(floats(0, NAN), packed("B", 1), floats(1))
UNDER = views(floats(0, 1), packed("B", 1), floats(NAN))
REPLACED = {"accessors": [accessor("SCALAR", count=2, bufferView=0, sparse={
    "count": 1, "indices": {"bufferView": 1, "componentType": U8}, "values": {"bufferView": 2}})]}
ROWS += [(OVER | REPLACED, []), (UNDER | REPLACED, INFINITE)]


def placed(count, places, *values, component=FLOAT, **members):
    """So many zeros without a view, with these values in place of some of them."""
    made = views(packed("B", *places), packed({U8: "B", FLOAT: "f"}[component], *values))
    part = {"count": len(places), "values": {"bufferView": 1},
            "indices": {"bufferView": 0, "componentType": U8}}
    return made | {"accessors": [accessor("SCALAR", component, count, sparse=part, **members)]}


def drawn(count, places, *values):
    """Three vertices, drawn by such indices."""
    made, drawing = placed(count, places, *values, component=U8), attributes()
    drawing["meshes"][0]["primitives"][0]["indices"] = 1
    return made | drawing | {"accessors": drawing["accessors"] + made["accessors"]}


def drawn_wrong(code):
    return [(f"ACCESSOR_INDEX_{code}", f"{PRIMITIVE}/indices")]


# Floats and indices of sparse accessors without a view (3.6.2.3).
ROWS += [
    (placed(3, [1], 1), []),
    *((placed(n, [1], NAN), INFINITE) for n in (2, 2 ** 50)), (placed(2, [2], NAN), PAST),
    (drawn(3, [1, 2], 1, 2), []),
    (drawn(3, [1, 2], 1, 3), drawn_wrong("OOB")),
    (drawn(3, [1, 2], 1, 255), drawn_wrong("PRIMITIVE_RESTART")),
    *((drawn(count, [1, 2], 1, 2), drawn_wrong("TRIANGLE_DEGENERATE")) for count in (6, 3 * 2 ** 50)),
]


def animation(samplers=1):
    """Samplers with the same times."""
    return {
        "nodes": [ROOTED] * samplers,
        "animations": [{
            "channels": [{"sampler": i, "target": {"node": i, "path": "scale"}} for i in range(samplers)],
            "samplers": [{"input": 0, "output": 1}] * samplers}]}


def timed(*times, least=None, greatest=None, samplers=1):
    """An animation at these times."""
    bounds = {"min": [min(times) if least is None else least],
              "max": [max(times) if greatest is None else greatest]}
    return views(floats(*times)) | animation(samplers) | {
        "accessors": [accessor("SCALAR", count=len(times), bufferView=0, **bounds),
                      accessor("VEC3", count=len(times))]}


def late(count, places, *values, least=0, greatest=0):
    """An animation at zeros without a view, with these times in place of some of them."""
    made = placed(count, places, *values, min=[least], max=[greatest])
    return made | animation() | {"accessors": made["accessors"] + [accessor("VEC3", count=count)]}


def times(*codes, sampler=0):
    return [(f"ACCESSOR_ANIMATION_INPUT_{code}", f"/animations/0/samplers/{sampler}/input")
            for code in codes]


NEGATIVE, NON_INCREASING = "NEGATIVE", "NON_INCREASING"
# The times of animations (3.11).
ROWS += [
    (timed(0, 1), []),
    (timed(-0.0, 1), []),
    (timed(0), []),
    (timed(0, LEAST_FLOAT, 2 * LEAST_FLOAT), []),
    (timed(1, 1 + 2.0 ** -23), []),
    (timed(0, GREATEST_FLOAT), []),
    (timed(-LEAST_FLOAT, 1), times(NEGATIVE)),
    (timed(-1, 0, 1), times(NEGATIVE)),
    (timed(0, 0), times(NON_INCREASING)),
    (timed(-0.0, 0), times(NON_INCREASING)),
    (timed(0, 1, 1), times(NON_INCREASING)),
    (timed(0, 2, 1), times(NON_INCREASING)),
    (timed(0, 2, 1, 3), times(NON_INCREASING)),
    (timed(1, 2, 0), times(NON_INCREASING)),
    (timed(0, 3, 2, 1, 5), times(NON_INCREASING)),
    (timed(-1, -2), times(NEGATIVE, NON_INCREASING)),
    (timed(0, NAN, 1, least=0, greatest=1), INFINITE),
    (timed(0, INFINITY, least=0, greatest=0), INFINITE + greatest(HIGH, ABOVE)),
    (timed(-INFINITY, 0, least=0, greatest=0), INFINITE + least(LOW, BELOW) + times(NEGATIVE)),
    (timed(1, 0, samplers=2), times(NON_INCREASING) + times(NON_INCREASING, sampler=1)),
    (late(3, [1, 2], 1, 2, greatest=2), []),
    (late(3, [2], 1, greatest=1), times(NON_INCREASING)),
    (late(2, [0], -1, least=-1), times(NEGATIVE)),
    (late(2 ** 50, [0], -1, least=-1), times(NEGATIVE, NON_INCREASING)),
    (late(2, [2], -1), times(NON_INCREASING) + PAST),
]


# Codes of records by themselves.
ROWS += codes.ROWS


def found(report):
    """What is found, but for objects that nothing names: the code and the pointer, and the severity
    where it is not that of the code."""
    messages = json.loads(report)["issues"]["messages"]
    return [(it["code"], it["pointer"], *wrong_severity(it)) for it in messages
            if it["code"] != "UNUSED_OBJECT" or wrong_severity(it)]


def wrong_severity(message):
    is_right = message["severity"] == codes.severity(message["code"], message["pointer"])
    return [] if is_right else [message["severity"]]


def unused(report):
    """The objects that nothing names."""
    messages = json.loads(report)["issues"]["messages"]
    return [it["pointer"] for it in messages if it["code"] == "UNUSED_OBJECT"]


def main():
    program = sys.argv[1:] or [crates.program("gltf_show")]
    failed, rows = 0, ROWS + codes.UNUSED
    with tempfile.TemporaryDirectory() as folder:
        paths = [pathlib.Path(folder) / f"{i}.gltf" for i in range(len(rows))]
        for path, (members, _) in zip(paths, rows):
            text = members if isinstance(members, str) else unkept.text(members)
            path.write_text(text)
        ran = subprocess.run([*program, "inspect", "--json", *paths], capture_output=True, text=True)
    reports = [line for line in ran.stdout.splitlines() if line.startswith("{")]
    if len(reports) != len(rows):
        print(f"{len(reports)} reports, {len(rows)} documents\n{ran.stderr}")
        failed = len(rows)
    for number, (report, (members, expected)) in enumerate(zip(reports, rows)):
        shown = found(report) if number < len(ROWS) else unused(report)
        if sorted(shown) != sorted(expected):
            failed += 1
            print(f"{json.dumps(members)}\n  expected {expected}\n  found {shown}")
    failed += sum(not outside.is_found(program, *row) for row in outside.LOOKED_AT)
    print(f"{len(rows) + len(outside.LOOKED_AT) - failed} passed, {failed} failed")
    return 1 if failed else 0


if __name__ == "__main__":
    sys.exit(main())
