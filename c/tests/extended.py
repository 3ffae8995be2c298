#!/usr/bin/env python3
"""Writes files with every extension that gltf.h has a call for: `extended.py FOLDER`.

Each record of `extended.gltf` has one case of each extension of its kind: whole, with its
defaults, with members of wrong kinds and with indices out of range. `once.gltf` has each extension
once, whole. What the calls return of them is in expected.py."""
import itertools
import json
import pathlib
import sys

COUNTS = {"textures": 3, "images": 3, "accessors": 4, "buffers": 2}
PACKETS = "KHR_xmp_json_ld"
NOT_OBJECTS = (None, True, 1, "text", [], [{}])
MOVED = {"offset": [0.5, -0.25], "rotation": 1.5, "scale": [2, 3e-3], "texCoord": 7}


def indices(kind):
    """Those that are in range, and others."""
    count = COUNTS[kind]
    return (0, count - 1), (count, count + 1, -1, 1.0, "0", [0], 4294967296, 1e2)


NUMBERS = (0, 0.1, -3, 1e-7, 9007199254740994), ("1", False, [1], {})
WHOLE = (0, 3, 4294967295), (-1, 2.0, "1", 4294967296)
SIZES = (0, 5, 4294967296, 9223372036854775808), (-1, 2.0, "1", 18446744073709551616)
PAIRS = ([0, 0], [0.25, -2]), (1, [1], [1, 2, 3], [1, None], ["1", 2])
COLORS = ([0.5, 0.25, 1], [0, 0, 0]), (1, [1, 2], [1, 2, 3, 4], [1, "2", 3], [1, None, 3], {})
FLAGS = (True, False), (0, 1, "true", [True])
MODES = ("ATTRIBUTES", "TRIANGLES", "INDICES"), ("attributes", "", 0, ["INDICES"])
FILTERS = ("NONE", "OCTAHEDRAL", "QUATERNION", "EXPONENTIAL"), ("COLOR", 1)
TRANSFORM = {"offset": PAIRS, "rotation": NUMBERS, "scale": PAIRS, "texCoord": WHOLE}
USE = {"index": indices("textures"), "texCoord": WHOLE}


def changed(whole, members):
    """An object with one member after the other absent, null, good and wrong."""
    yield from (whole, {"unknown": {"member": 1}, **whole})
    for member, (good, wrong) in members.items():
        yield {name: value for name, value in whole.items() if name != member}
        for value in (None, *good, *wrong):
            yield {**whole, member: value}


def uses(is_normal=False):
    """Uses of textures."""
    whole = {"index": 1, "texCoord": 2, "extensions": {"KHR_texture_transform": MOVED}}
    members = USE
    if is_normal:
        whole, members = {**whole, "scale": 0.5}, {**USE, "scale": NUMBERS}
    yield from changed(whole, members)
    yield {"index": 2}
    for transform in (*changed(MOVED, TRANSFORM), {}, *NOT_OBJECTS):
        yield {"index": 0, "texCoord": 1, "extensions": {"KHR_texture_transform": transform}}
    yield from ({"index": 0, "extensions": value} for value in (*NOT_OBJECTS, {}, {"EXT_a": 1}))
    yield from NOT_OBJECTS


def extensions():
    """Of each kind of record the extensions, each with a value that has all members, and with the
    values of each member."""
    use, normal = (tuple(uses()), ()), (tuple(uses(True)), ())
    one = {"index": 1}
    attributes = {name: indices("accessors") for name in ("TRANSLATION", "ROTATION", "SCALE")}
    whole = {"TRANSLATION": 0, "ROTATION": 1, "SCALE": 2}
    return {
        "materials": {
            "KHR_materials_clearcoat": (
                {"clearcoatFactor": 0.5, "clearcoatRoughnessFactor": 0.25,
                 "clearcoatTexture": one, "clearcoatRoughnessTexture": {"index": 2},
                 "clearcoatNormalTexture": {"index": 0, "scale": 3}},
                {"clearcoatFactor": NUMBERS, "clearcoatRoughnessFactor": NUMBERS,
                 "clearcoatTexture": use, "clearcoatRoughnessTexture": use,
                 "clearcoatNormalTexture": normal}),
            "KHR_materials_sheen": (
                {"sheenColorFactor": [1, 0.5, 0.25], "sheenRoughnessFactor": 0.75,
                 "sheenColorTexture": one, "sheenRoughnessTexture": {"index": 0}},
                {"sheenColorFactor": COLORS, "sheenRoughnessFactor": NUMBERS,
                 "sheenColorTexture": use, "sheenRoughnessTexture": use}),
            "KHR_materials_iridescence": (
                {"iridescenceFactor": 1, "iridescenceIor": 1.5, "iridescenceThicknessMinimum": 50,
                 "iridescenceThicknessMaximum": 900.5, "iridescenceTexture": one,
                 "iridescenceThicknessTexture": {"index": 2}},
                {"iridescenceFactor": NUMBERS, "iridescenceIor": NUMBERS,
                 "iridescenceThicknessMinimum": NUMBERS, "iridescenceThicknessMaximum": NUMBERS,
                 "iridescenceTexture": use, "iridescenceThicknessTexture": use}),
            "KHR_materials_anisotropy": (
                {"anisotropyStrength": 0.5, "anisotropyRotation": -1, "anisotropyTexture": one},
                {"anisotropyStrength": NUMBERS, "anisotropyRotation": NUMBERS,
                 "anisotropyTexture": use}),
            "KHR_materials_dispersion": ({"dispersion": 0.1}, {"dispersion": NUMBERS}),
            "KHR_materials_diffuse_transmission": (
                {"diffuseTransmissionFactor": 0.5, "diffuseTransmissionColorFactor": [1, 0, 0.5],
                 "diffuseTransmissionTexture": one,
                 "diffuseTransmissionColorTexture": {"index": 0}},
                {"diffuseTransmissionFactor": NUMBERS, "diffuseTransmissionColorFactor": COLORS,
                 "diffuseTransmissionTexture": use, "diffuseTransmissionColorTexture": use})},
        "textures": {
            "KHR_texture_basisu": ({"source": 1}, {"source": indices("images")}),
            "EXT_texture_webp": ({"source": 2}, {"source": indices("images")})},
        "nodes": {
            "EXT_mesh_gpu_instancing": (
                {"attributes": whole},
                {"attributes": ((*changed(whole, attributes), {}, {"_ID": 3}), NOT_OBJECTS)}),
            "KHR_node_visibility": ({"visible": False}, {"visible": FLAGS})},
        "bufferViews": {
            "EXT_meshopt_compression": (
                {"buffer": 1, "byteOffset": 4, "byteLength": 8, "byteStride": 16, "count": 3,
                 "mode": "TRIANGLES", "filter": "QUATERNION"},
                {"buffer": indices("buffers"), "byteOffset": SIZES, "byteLength": SIZES,
                 "byteStride": SIZES, "count": SIZES, "mode": MODES, "filter": FILTERS})},
    }


def packets():
    """The extension that names a packet."""
    yield from ({"packet": 0}, {"packet": 2, "more": 1}, {"packet": 3}, {"packet": 4294967296})
    yield from ({"packet": value} for value in (-1, 1.0, "0", None, [0]))
    yield from ({}, *NOT_OBJECTS)


def records(each, base):
    """So many records that each case of each extension is at one."""
    columns = [[(name, value) for value in (*changed(*cases), {}, *NOT_OBJECTS)]
               for name, cases in each.items()]
    columns.append([(PACKETS, value) for value in packets()])
    for row in itertools.zip_longest(*columns):
        yield {**base, "extensions": dict(cell for cell in row if cell is not None)}
    yield base


def document():
    each = extensions()
    named = {"extensions": {PACKETS: {"packet": 1}}}
    textures = list(records(each["textures"], {"source": 0}))
    # There are more textures than cases named so far: their indices are tried against this number.
    COUNTS["textures"] = len(textures)
    USE["index"] = indices("textures")
    each = extensions()
    return {
        "asset": {"version": "2.0", **named},
        "extensionsUsed": sorted({name for kind in each.values() for name in kind} | {PACKETS}),
        "materials": list(records(each["materials"], {})), "textures": textures,
        "nodes": list(records(each["nodes"], {})), "scenes": [{"nodes": [0], **named}],
        "images": [{"uri": "a.png", **named}, {"uri": "b.ktx2"}, {"uri": "c.webp"}],
        "meshes": [{"primitives": [{"attributes": {"POSITION": 0}, **named}], **named}],
        "accessors": [{"componentType": 5126, "count": 1, "type": "VEC3", "bufferView": 0,
                       **named}] * COUNTS["accessors"],
        "bufferViews": list(records(each["bufferViews"], {"buffer": 0, "byteLength": 12})),
        "buffers": [{"byteLength": 12, "uri": "data:;base64,AACAPwAAAEAAAEBA", **named},
                    {"byteLength": 3, "uri": "data:;base64,AAEC"}],
        "extensions": {PACKETS: {"packets": [{"dc:title": "one"}, {"dc:title": "two"}, {}]}},
    }


def once():
    """A document with each extension once, at the first record of its kind."""
    each = {kind: {name: whole for name, (whole, _) in named.items()}
            for kind, named in extensions().items()}
    each["materials"]["KHR_materials_clearcoat"]["clearcoatTexture"] = {
        "index": 1, "texCoord": 2, "extensions": {"KHR_texture_transform": MOVED}}
    named = {PACKETS: {"packet": 1}}
    return {
        "asset": {"version": "2.0", "extensions": named},
        "extensionsUsed": sorted({name for kind in each.values() for name in kind} | {PACKETS}),
        "materials": [{"extensions": each["materials"]}],
        "textures": [{"source": 0, "extensions": each["textures"]}, *[{"source": 1}] * 2],
        "nodes": [{"extensions": {**each["nodes"], **named}}],
        "images": [{"uri": name} for name in ("a.png", "b.ktx2", "c.webp")],
        "accessors": [{"componentType": 5126, "count": 1, "type": "VEC3"}] * 3,
        "bufferViews": [{"buffer": 0, "byteLength": 12, "extensions": each["bufferViews"]}],
        "buffers": [{"byteLength": 12, "uri": "data:;base64,AACAPwAAAEAAAEBA"},
                    {"byteLength": 3, "uri": "data:;base64,AAEC"}],
        "extensions": {PACKETS: {"packets": [{"dc:title": "one"}, {"dc:title": "two"}]}},
    }


def main():
    for name, made in (("extended", document()), ("once", once())):
        text = json.dumps(made, separators=(",", ":"))
        (pathlib.Path(sys.argv[1]) / f"{name}.gltf").write_text(text)


if __name__ == "__main__":
    main()
