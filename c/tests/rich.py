#!/usr/bin/env python3
"""Writes files with nearly every kind of record, in nearly every form: `rich.py FOLDER`.

`rich.gltf` has a buffer in `rich data.bin` beside it and one in a data URI. `rich.glb` is the same
document with the first of them in its BIN chunk. `valid.glb` has no record that the standard
forbids. `plain.gltf` has all members absent that may be."""
import base64
import json
import pathlib
import struct
import sys

CODES = {"b": 5120, "B": 5121, "h": 5122, "H": 5123, "I": 5125, "f": 5126}
UNIT = [1, 0, 0, 0, 0, 1, 0, 0, 0, 0, 1, 0, 0, 0, 0, 1]
# What an application may store, at each record with a number of its own.
EXTRAS = {"list": [1, 2.5, None, True, "ü\n\"\\"], "empty": {}, "small": 1e-7, "big": 2**53 + 2}

data, views, accessors = bytearray(), [], []
marks = 0
# Whether only what the standard allows is made.
is_valid = False


def marked(record):
    """The record with a name, extras and an unknown extension, which differ from record to
    record."""
    global marks
    marks += 1
    more = {} if is_valid else EXTRAS
    return {"name": f"record {marks} é", **record, "extras": {"mark": marks, **more},
            "extensions": {"EXT_mark": {"mark": [marks]}, **record.get("extensions", {})}}


def unnamed(record):
    """The same of a record that has no name."""
    record = marked(record)
    del record["name"]
    return record


def view(piece, **more):
    data.extend(bytes(-len(data) % 4))
    views.append(marked({"buffer": 0, "byteOffset": len(data), "byteLength": len(piece), **more}))
    data.extend(piece)
    return len(views) - 1


def accessor(form, kind, rows, bounds=True, view_more=None, **more):
    """An accessor over a view of its own."""
    flat = [x for row in rows for x in (row if isinstance(row, (list, tuple)) else [row])]
    at = view(struct.pack(f"<{len(flat)}{form}", *flat), **(view_more or {}))
    record = {"bufferView": at, "componentType": CODES[form], "count": len(rows), "type": kind}
    n = len(flat) // len(rows)
    if bounds:
        record["min"] = [min(flat[i::n]) for i in range(n)]
        record["max"] = [max(flat[i::n]) for i in range(n)]
    accessors.append(marked({**record, **more}))
    return len(accessors) - 1


def over(at, form, kind, count, **more):
    """An accessor over a view that is there."""
    accessors.append({"bufferView": at, "componentType": CODES[form], "count": count, "type": kind,
                      **more})
    return len(accessors) - 1


def columns(form, kind, rows):
    """The bytes of matrices: each column begins at a multiple of four bytes (3.6.2.4). What lies
    behind a column is no zero, so that a reader shows whether it took it."""
    side = int(kind[-1])
    pieces = [struct.pack(f"<{side}{form}", *row[i:i + side])
              for row in rows for i in range(0, side * side, side)]
    return b"".join(piece + b"\xee" * (-len(piece) % 4) for piece in pieces)


def make_matrices():
    """Accessors of matrices with padding, over a view of their own, sparse, and without a view. It
    gives one of small matrices with three columns."""
    nine, four = list(range(-4, 5)), [1, -2, 3, -128]
    over(view(columns("b", "MAT2", [four, [5, 6, 7, 8]])), "b", "MAT2", 2)
    over(view(columns("B", "MAT2", [[1, 2, 3, 255]])), "B", "MAT2", 1)
    small = over(view(columns("b", "MAT3", [nine, nine[::-1]])), "b", "MAT3", 2)
    over(view(columns("B", "MAT3", [list(range(247, 256))])), "B", "MAT3", 1, normalized=True)
    over(view(columns("h", "MAT3", [[1000 * k for k in nine], nine])), "h", "MAT3", 2)
    shorts = view(columns("H", "MAT3", [list(range(9)), list(range(65527, 65536))]))
    over(shorts, "H", "MAT3", 2)
    over(view(columns("h", "MAT2", [[-300, 300, 7, 8]])), "h", "MAT2", 1)
    over(view(columns("B", "MAT4", [list(range(16))])), "B", "MAT4", 1)
    # At a stride, and behind other bytes.
    spread = view(b"\xaa" * 4 + columns("B", "MAT2", [[9, 8, 7, 6]]) + b"\xaa" * 8
                  + columns("B", "MAT2", [[5, 4, 3, 2]]) + b"\xaa" * 4, byteStride=16)
    over(spread, "B", "MAT2", 2, byteOffset=4)
    # The sparse values have the same layout (3.6.2.3).
    places = view(bytes([1, 4]))
    where = {"count": 2, "indices": {"bufferView": places, "componentType": 5121},
             "values": {"bufferView": view(columns("b", "MAT3", [nine, [7] * 9]))}}
    over(view(columns("b", "MAT3", [[k] * 9 for k in range(5)])), "b", "MAT3", 5, sparse=where)
    accessors.append({"componentType": 5120, "count": 6, "type": "MAT3", "sparse": where})
    # Without a view all items are zeros (5.1.1).
    accessors.append({"componentType": 5123, "count": 3, "type": "VEC2"})
    accessors.append({"componentType": 5122, "count": 2, "type": "MAT3"})
    accessors.append({"componentType": 5126, "count": 1, "type": "MAT4"})
    if not is_valid:
        # The last item needs no padding behind its last column, but for cgltf's validation.
        over(view(columns("b", "MAT2", [four, four])[:-2]), "b", "MAT2", 2)
        over(view(columns("B", "MAT3", [list(range(9))])[:-1]), "B", "MAT3", 1)
        over(view(columns("h", "MAT3", [nine, nine])[:-2]), "h", "MAT3", 2)
        over(view(columns("b", "MAT2", [four])[:5]), "b", "MAT2", 1)
        over(shorts, "H", "MAT3", 3)
        over(view(bytes(36), byteStride=18), "h", "MAT3", 2)  # they overlap
        for stride in (10, 11):  # an item ends with its eleventh byte
            over(view(bytes(range(22)), byteStride=stride), "b", "MAT3", 2)
        accessors.append({"componentType": 5121, "count": 0, "type": "MAT2"})
    return small


def make_accessors():
    """The accessors that the records name, by what they are for."""
    vertices = {"target": 34962}
    at = {
        "POSITION": accessor("f", "VEC3", [(0, 0, 0), (1, 0, 0), (0, 1, 0), (1, 1, 0.5)],
                             view_more=vertices),
        "NORMAL": accessor("f", "VEC3", [(0, 0, 1)] * 4),
        "TANGENT": accessor("f", "VEC4", [(1, 0, 0, 1)] * 4),
        "TEXCOORD_0": accessor("H", "VEC2", [(0, 0), (65535, 0), (0, 65535), (1, 2)],
                               normalized=True),
        "TEXCOORD_11": accessor("B", "VEC2", [(0, 0), (255, 0), (0, 255), (1, 2)], bounds=False,
                                normalized=True),
        "COLOR_0": accessor("B", "VEC4", [(255, 0, 0, 255), (0, 9, 0, 255), (0, 0, 7, 1),
                                          (9, 9, 9, 128)], normalized=True),
        "JOINTS_0": accessor("B", "VEC4", [(0, 1, 0, 0)] * 4),
        "WEIGHTS_0": accessor("f", "VEC4", [(0.75, 0.25, 0, 0)] * 4),
        "_HEAT": accessor("f", "SCALAR", [1.5, 2.5, 3.5, 4.5]),
        "_ÄRGER 2": accessor("h", "SCALAR", [-32768, -32767, 0, 32767], normalized=True),
        "indices": accessor("B", "SCALAR", [0, 1, 2, 2, 1, 3], view_more={"target": 34963}),
        "more indices": accessor("H", "SCALAR", [0, 65534, 2], bounds=False),
        "most indices": accessor("I", "SCALAR", [0, 4294967294, 16777217], bounds=False),
        "moved": accessor("f", "VEC3", [(0, 0, 0.5)] * 4),
        "turned": accessor("f", "VEC3", [(0, 0.5, 0)] * 4, bounds=False),
        "bent": accessor("f", "VEC3", [(0.25, 0, 0)] * 4, bounds=False),
        "inverse": accessor("f", "MAT4", [UNIT, [k / 3 for k in range(16)]], bounds=False),
        "times": accessor("f", "SCALAR", [0, 0.5, 1]),
        "moves": accessor("f", "VEC3", [(0, 0, 0), (1, 0, 0), (2, 1, 0)]),
        "turns": accessor("f", "VEC4", [(0, 0, 0, 1), (0, 0, 0.6, 0.8), (0, 0, 1, 0)]),
        "cubic": accessor("f", "VEC3", [(1, 1, 1), (1, 2, 1), (0, 0, 0)] * 3),
        "morphs": accessor("f", "SCALAR", [0, 0.5, 1, 0.25, 0, 1]),
        "small": accessor("b", "VEC3", [(-128, -127, 0), (127, 1, -1)], normalized=True),
        "matrices": accessor("f", "MAT2", [(1, 2, 3, 4)], bounds=False),
        "wide": accessor("f", "MAT3", [list(range(9))], bounds=False),
    }
    strided = view(struct.pack("<3fI3fI", 1, 2, 3, 9, 4, 5, 6, 8), byteStride=16)
    at["strided"] = over(strided, "f", "VEC3", 2)
    at["between"] = over(strided, "I", "SCALAR", 2, byteOffset=12)
    where = {"indices": {"bufferView": view(b"\1\0\3\0"), "componentType": 5123},
             "values": {"bufferView": view(struct.pack("<6f", 7, 7, 7, 8, 8, 8))}, "count": 2}
    at["sparse"] = over(accessors[at["POSITION"]]["bufferView"], "f", "VEC3", 4, sparse=where)
    accessors.append({"componentType": 5126, "count": 5, "type": "VEC3", "sparse": {
        "indices": {"bufferView": where["indices"]["bufferView"], "componentType": 5123,
                    "byteOffset": 2},
        "values": {"bufferView": where["values"]["bufferView"], "byteOffset": 12}, "count": 1}})
    at["zeros"] = len(accessors) - 1
    if not is_valid:
        accessors[at["zeros"]].update(min=[0, None, 0], max="none")
        over(0, "f", "VEC3", 4000)  # more than its view holds: it cannot be read
        over(strided, "f", "VEC4", 2)  # the same, of items that are too wide
    at["small inverse"] = make_matrices()
    return at


def use(texture, **more):
    return {"index": texture, **more}


def moved(texture, **more):
    """A use of a texture with a transform."""
    transform = {"offset": [0.5, 0.25 * texture], "rotation": 1.5, "scale": [2, 3]}
    if not is_valid:  # cgltf's users do not look at it
        transform["texCoord"] = 3
    return use(texture, texCoord=1, extensions={"KHR_texture_transform": transform}, **more)


def materials():
    yield marked({
        "alphaMode": "MASK", "alphaCutoff": 0.25, "doubleSided": True,
        "emissiveFactor": [0.1, 0.2, 0.3], "emissiveTexture": moved(1),
        "pbrMetallicRoughness": {
            "baseColorFactor": [0.1, 0.2, 0.3, 0.4], "metallicFactor": 0.5,
            "roughnessFactor": 0.75, "baseColorTexture": moved(0),
            "metallicRoughnessTexture": use(1, texCoord=2)},
        "normalTexture": moved(0, scale=0.5), "occlusionTexture": moved(1, strength=0.25),
        "extensions": {
            "KHR_materials_transmission": {"transmissionFactor": 0.875,
                                           "transmissionTexture": moved(1)},
            "KHR_materials_ior": {"ior": 1.25},
            "KHR_materials_volume": {
                "thicknessFactor": 0.5, "attenuationDistance": 2, "thicknessTexture": use(0),
                "attenuationColor": [0.5, 0.25, 0.125]},
            "KHR_materials_specular": {
                "specularFactor": 0.5, "specularColorFactor": [1, 0.5, 0.25],
                "specularTexture": use(1), "specularColorTexture": moved(0)},
            "KHR_materials_emissive_strength": {"emissiveStrength": 4},
            "KHR_materials_clearcoat": {"clearcoatFactor": 1}}})
    yield marked({"alphaMode": "BLEND", "extensions": {
        "KHR_materials_unlit": {}, "KHR_materials_pbrSpecularGlossiness": {
            "diffuseFactor": [1, 0.5, 0.25, 0], "specularFactor": [0.5, 0, 1],
            "glossinessFactor": 0.25, "diffuseTexture": moved(0),
            "specularGlossinessTexture": use(1, texCoord=5)}}})
    empty = {f"KHR_materials_{name}": {} for name in (
        "transmission", "ior", "volume", "specular", "emissive_strength",
        "pbrSpecularGlossiness")}
    yield {"alphaMode": "OPAQUE", "pbrMetallicRoughness": {}, "extensions": empty}
    if is_valid:
        return
    # Numbers that are none, and lists of another length: the defaults hold.
    yield {"alphaCutoff": "x", "emissiveFactor": [1, 1], "pbrMetallicRoughness": {
        "baseColorFactor": [1, 1, 1, 1, 1], "metallicFactor": [1], "roughnessFactor": None},
        "normalTexture": {"index": 0, "scale": {}}, "extensions": {
            "KHR_materials_ior": {"ior": "1"}}}
    yield {}


def animations(at):
    paths = ("translation", "rotation", "scale", "weights")
    outputs = ("moves", "turns", "cubic", "morphs")
    kinds = ({}, {"interpolation": "STEP"}, {"interpolation": "CUBICSPLINE"},
             {"interpolation": "LINEAR"})
    samplers = [unnamed({"input": at["times"], "output": at[output], **kind})
                for output, kind in zip(outputs, kinds)]
    channels = [unnamed({"sampler": 3 - k, "target": {"node": k, "path": path}})
                for k, path in enumerate(reversed(paths))]
    yield marked({"samplers": samplers, "channels": channels})
    yield {"samplers": samplers[:1], "channels": channels[3:]}


def nodes():
    lamp = {"KHR_lights_punctual": {"light": 2}}
    yield marked({"mesh": 0, "skin": 0, "weights": [0.5, 0.25], "children": [3, 1]})
    yield marked({"children": [2], "translation": [0.1, 1, -2e-3], "rotation": [0, 0, 0.6, 0.8],
                  "scale": [2, 2, 2.5]})
    yield {"rotation": [0, 0, 0.6, 0.8]}
    yield marked({"camera": 0, "matrix": [*UNIT[:12], 3, 4, 5, 1]})
    yield {"translation": [0, 5, 0], "camera": 1, "extensions": {**lamp, "EXT_mark": {"a": 1}}}
    broken = {} if is_valid else {"scale": [1, 1], "rotation": [0, 0, 0, 1, 0]}
    yield {**broken, "name": ""}
    yield {} if is_valid else {"matrix": [1] * 15, "translation": [1, 2, 3], "weights": [1, "x"]}
    yield {"mesh": 1}


def meshes(at):
    attributes = {name: at[name] for name in at if name.isupper()}
    targets = [{"POSITION": at["moved"], "NORMAL": at["turned"], "TANGENT": at["bent"]},
               {"NORMAL": at["turned"]}]
    variants = {"KHR_materials_variants": {"mappings": [
        {"material": 1, "variants": [1]}, {"material": 2, "variants": [0, 2]}]}}
    if not is_valid:
        # Out of range: a fault in the variant that no mapping before it has.
        variants["KHR_materials_variants"]["mappings"].append({"material": 40, "variants": [1, 4]})
    first = unnamed({"attributes": attributes, "indices": at["indices"], "material": 0,
                     "targets": targets, "extensions": variants})
    mesh = marked({"weights": [0.25, 0.75], "primitives": [first]})
    mesh["extras"]["targetNames"] = ["smile", "frown"]
    more = [{"attributes": {"POSITION": at["POSITION"]}, "mode": mode} for mode in range(7)]
    odd = {"attributes": {"POSITION": at["sparse"], "TEXCOORD_0": at["strided"]},
           "indices": at["more indices"]}
    if is_valid:
        odd = {"attributes": {"POSITION": at["sparse"]}, "indices": at["indices"]}
        yield mesh
        yield {"primitives": [odd, *more[4:5]]}
    else:
        mesh["primitives"] += more
        yield mesh
        yield {"primitives": [odd]}


def skins(at):
    yield marked({"joints": [1, 2], "inverseBindMatrices": at["inverse"], "skeleton": 1})
    yield {"joints": [2]}
    if not is_valid:
        yield {"joints": [1, 2], "inverseBindMatrices": at["small inverse"]}


def cameras():
    yield marked({"type": "perspective", "perspective": {
        "yfov": 0.75, "znear": 0.1, "zfar": 50, "aspectRatio": 1.5}})
    yield marked({"type": "orthographic", "orthographic": {
        "xmag": 2, "ymag": 3.5, "znear": 0, "zfar": 10}})
    yield {"type": "perspective", "perspective": {"yfov": 1, "znear": 0.5}}


def lights():
    yield {"type": "directional"}
    yield {"type": "point", "color": [1, 0.5, 0.25], "intensity": 20, "range": 10, "name": "Sun",
           "extras": {"mark": "light"}}
    yield {"type": "spot", "spot": {"innerConeAngle": 0.1, "outerConeAngle": 0.5}}
    yield {"type": "spot", "spot": {}}


def document():
    at = make_accessors()
    picture = view(b"\x89PNG\r\n\x1a\n rest")
    images = [marked({"bufferView": picture, "mimeType": "image/png"}),
              marked({"uri": "wood%20planks.png"}),
              {"uri": "data:image/png;base64,iVBORw0KGgo=", "mimeType": "image/png"}]
    samplers = [marked({"magFilter": 9728, "minFilter": 9987, "wrapS": 33071, "wrapT": 33648}), {}]
    samplers += [{"minFilter": kind, "magFilter": 9729} for kind in (9728, 9729, 9984, 9985, 9986)]
    textures = [marked({"source": 0, "sampler": 0}), {"source": 1}, {"source": 2, "sampler": 1}]
    tail = base64.b64encode(bytes(range(10))).decode()
    views.append({"buffer": 1, "byteLength": 10})
    over(len(views) - 1, "B", "SCALAR", 10)
    used = ["KHR_lights_punctual", "KHR_materials_variants", "KHR_texture_transform",
            "KHR_materials_unlit", "KHR_materials_transmission", "KHR_materials_ior",
            "KHR_materials_volume", "KHR_materials_specular", "KHR_materials_emissive_strength",
            "KHR_materials_pbrSpecularGlossiness", "KHR_materials_clearcoat", "EXT_mark"]
    asset = unnamed({"version": "2.0", "minVersion": "2.0", "generator": "rich.py",
                     "copyright": "© none"})
    variants = [{"name": "day"}, {"name": "night"}, {"name": "fog"}, {"name": "none"},
                {"name": "lost"}]
    return {
        "asset": asset, "extensionsUsed": used, "extensionsRequired": used[:3], "scene": 1,
        "scenes": [marked({"nodes": [0, 4]}), {"nodes": [7, 5, 6], "name": "Main"}, {}],
        "nodes": list(nodes()), "meshes": list(meshes(at)), "materials": list(materials()),
        "skins": list(skins(at)),
        "animations": list(animations(at)), "cameras": list(cameras()), "images": images,
        "samplers": samplers, "textures": textures, "accessors": accessors, "bufferViews": views,
        "buffers": [marked({"byteLength": len(data), "uri": "rich%20data.bin"}),
                    {"byteLength": 10, "uri": "data:application/octet-stream;base64," + tail}],
        "extensions": {"KHR_lights_punctual": {"lights": list(lights())},
                       "KHR_materials_variants": {"variants": variants}, "EXT_mark": {"mark": 0}},
        "extras": ["root", 1 if is_valid else EXTRAS],
    }


def container(text, blob):
    text += b" " * (-len(text) % 4)
    blob += bytes(-len(blob) % 4)
    return b"".join([struct.pack("<4sIII4s", b"glTF", 2, 28 + len(text) + len(blob), len(text),
                                 b"JSON"), text, struct.pack("<I4s", len(blob), b"BIN\0"), blob])


def spelled(value):
    return json.dumps(value, ensure_ascii=False, separators=(",", ":")).encode()


def main():
    folder = pathlib.Path(sys.argv[1])
    root = document()
    (folder / "rich.gltf").write_bytes(spelled(root))
    (folder / "rich data.bin").write_bytes(bytes(data))
    del root["buffers"][0]["uri"]
    (folder / "rich.glb").write_bytes(container(spelled(root), bytes(data)))
    global is_valid, marks
    is_valid, marks = True, 0
    for it in (data, views, accessors):
        it.clear()
    root = document()
    del root["buffers"][0]["uri"]
    (folder / "valid.glb").write_bytes(container(spelled(root), bytes(data)))
    (folder / "plain.gltf").write_bytes(spelled({"asset": {"version": "2.0"}}))


if __name__ == "__main__":
    main()
