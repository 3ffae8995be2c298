#!/usr/bin/env python3
"""Runs the proved program `gltf_convert` on files that it makes, and on examples. A row is a call:
its words, its status, and what it writes, with the files that are left. What it writes is accepted
by `gltf_show` in a folder of its own, and converted to itself. `make test` calls it after `rt ci`.
The last line is `N passed, M failed`."""
import base64
import json
import pathlib
import re
import shutil
import struct
import subprocess
import sys
import tempfile
import urllib.parse
import zlib

sys.dont_write_bytecode = True

import crates
import outside
import programs
from programs import DANGLING, Begins, Failed


def data(media, contents):
    """A data: URI of these bytes."""
    return f"data:{media};base64,{base64.b64encode(contents).decode()}"


# Files that begin as images of the six known types do, in the order of their types.
TYPES = ["image/png", "image/jpeg", "image/webp", "image/ktx2", "image/avif", "image/vnd-ms.dds"]
PICTURES = [
    b"\x89PNG\r\n\x1a\n12345",
    b"\xff\xd8\xff12",
    b"RIFF\4\0\0\0WEBP",
    b"\xabKTX 20\xbb\r\n\x1a\n1",
    b"\0\0\0\x1cftypavif12",
    b"DDS |12",
]
NO_TYPE = ("/images/{}: no image/ type in a data: URI or mimeType, nor bytes of PNG, JPEG, WebP, "
           "KTX2, AVIF or DDS; give it a mimeType\n")
# A file of two buffers and two images beside it, of which one buffer is no multiple of four bytes
# long. A third image is a data: URI, and one is in a view.
TWO = {
    "asset": {"version": "2.0", "extras": [1.5, "\u00e9\n", None, 9007199254740993]},
    "buffers": [{"byteLength": 3, "uri": "a%20b.bin"}, {"byteLength": 5, "uri": "c.bin"}],
    "bufferViews": [
        {"buffer": 0, "byteLength": 2, "byteOffset": 1, "name": "first"},
        {"buffer": 1, "byteLength": 4, "byteOffset": 1, "STUDIO": {"buffer": 1}},
        {"buffer": 1, "byteLength": 5, "extensions": {"EXT_meshopt_compression": {
            "buffer": 0, "byteLength": 3, "byteStride": 1, "count": 3, "mode": "INDICES"}}},
    ],
    "accessors": [{"bufferView": 1, "componentType": 5121, "count": 4, "type": "SCALAR"}],
    "images": [
        {"uri": "p%20q.png", "name": "\u00e9", "extras": {"b": [1, None], "a": 1e3}},
        {"bufferView": 2, "mimeType": "image/x-own"},
        {"uri": data("image/jpeg", PICTURES[1])},
        {"uri": "own", "mimeType": "image/x-own", "extensions": {"STUDIO": {"link": "stays"}}},
    ],
    "unknown": {"b": 1e3, "a": []},
}
VIEWS = [
    {"buffer": 0, "byteLength": 2, "byteOffset": 1, "name": "first"},
    {"buffer": 0, "byteLength": 4, "byteOffset": 9, "STUDIO": {"buffer": 1}},
    {"buffer": 0, "byteLength": 5, "byteOffset": 8, "extensions": {"EXT_meshopt_compression": {
        "buffer": 0, "byteLength": 3, "byteOffset": 0, "byteStride": 1, "count": 3,
        "mode": "INDICES"}}},
]
# The same with one buffer, where images are kept. Each of the two is filled up to a multiple of
# eight, so the second begins at byte 8, and both have 16 bytes.
KEPT = TWO | {"buffers": [{"byteLength": 16}], "bufferViews": VIEWS}
# And where they are taken in: behind the buffers stand 13 bytes, which are filled up to 16, then 5,
# which are filled up to 8, and then 8.
ONE = TWO | {
    "buffers": [{"byteLength": 48}],
    "bufferViews": VIEWS + [
        {"buffer": 0, "byteLength": 13, "byteOffset": 16},
        {"buffer": 0, "byteLength": 5, "byteOffset": 32},
        {"buffer": 0, "byteLength": 8, "byteOffset": 40},
    ],
    "images": [
        {"bufferView": 3, "mimeType": "image/png", "name": "\u00e9",
         "extras": {"b": [1, None], "a": 1e3}},
        {"bufferView": 2, "mimeType": "image/x-own"},
        {"bufferView": 4, "mimeType": "image/jpeg"},
        {"bufferView": 5, "mimeType": "image/x-own", "extensions": {"STUDIO": {"link": "stays"}}},
    ],
}
JOINED = bytes([1, 2, 3, 0, 0, 0, 0, 0, 4, 5, 6, 7, 8, 0, 0, 0])
TAKEN = JOINED + PICTURES[0] + bytes(3) + PICTURES[1] + bytes(3) + b"12345678"
# Images alone: what a URI names goes before what the bytes are, and their own type between the two.
# A type is one of images, whatever its name is, with parameters behind it or not; where what stands
# there is none, it does not count.
AVIS = b"\0\0\0\x1cftypavis"
NAMED = [  # the media type in the URI, the bytes, the own type, and what is found
    ("image/png", PICTURES[1], "image/x-own", "image/png"),
    ("text/plain", PICTURES[1], "image/x-own", "image/x-own"),
    ("image/x-odd", b"odd", None, "image/x-odd"),
    ("image/svg+xml;charset=utf-8", b"<svg/>", "image/png", "image/svg+xml"),
    ("image/jxrA", PICTURES[0], None, "image/jxrA"),
    ("image/!#$&-^_.+", b"1", None, "image/!#$&-^_.+"),
    ("", b"1", "image/vnd.odd", "image/vnd.odd"),
    ("image/", PICTURES[0], "image/", "image/png"),
    ("image/a b", PICTURES[0], "image/a b", "image/png"),
    ("image/a/b", PICTURES[2], "image/a/b", "image/webp"),
    ("image/\u00e9", PICTURES[3], "image/\u00e9", "image/ktx2"),
    ('image/"', PICTURES[4], 'image/"', "image/avif"),
    ("ximage/png", PICTURES[5], "text/plain", "image/vnd-ms.dds"),
    ("application/octet-stream", AVIS, "application/octet-stream", "image/avif"),
]
KINDS = {
    "asset": {"version": "2.0"},
    "images": [{"uri": data("", picture)} for picture in PICTURES]
    + [{"uri": data(media, b"1")} for media in TYPES]
    + [{"uri": data(media, held)} | ({"mimeType": own} if own is not None else {})
       for media, held, own, _ in NAMED],
}
FOUND = [*TYPES, *TYPES, *(found for *_, found in NAMED)]
ALL_KINDS = [*PICTURES, *[b"1"] * len(TYPES), *(held for _, held, *_ in NAMED)]
# Each begins at a multiple of eight.
STARTS = [sum(len(held) + -len(held) % 8 for held in ALL_KINDS[:i])
          for i in range(len(ALL_KINDS) + 1)]
OWN_KINDS = {
    "asset": {"version": "2.0"},
    "buffers": [{"byteLength": STARTS[-1]}],
    "bufferViews": [
        {"buffer": 0, "byteLength": len(held), "byteOffset": at}
        for held, at in zip(ALL_KINDS, STARTS)
    ],
    "images": [{"bufferView": i, "mimeType": media} for i, media in enumerate(FOUND)],
}
# Images that name a view are what this holds, whatever URI stands beside it: its file is not read,
# and the URI does not stay.
BOTH = {
    "asset": {"version": "2.0"},
    "buffers": [{"byteLength": 8, "uri": data("", b"12345678")}],
    "bufferViews": [{"buffer": 0, "byteLength": 8}],
    "images": [
        {"bufferView": 0, "mimeType": "image/x-own", "uri": "lost.png", "name": "n"},
        {"uri": data("", PICTURES[0])},
        {"bufferView": 0, "mimeType": "image/jpeg", "uri": data("image/png", PICTURES[0])},
        {"bufferView": 0, "mimeType": "image/jpeg", "uri": None},
    ],
}
BOTH_ONE = BOTH | {
    "buffers": [{"byteLength": 24}],
    "bufferViews": [{"buffer": 0, "byteLength": 8, "byteOffset": 0},
                    {"buffer": 0, "byteLength": 13, "byteOffset": 8}],
    "images": [
        {"bufferView": 0, "mimeType": "image/x-own", "name": "n"},
        {"bufferView": 1, "mimeType": "image/png"},
        {"bufferView": 0, "mimeType": "image/jpeg"},
        {"bufferView": 0, "mimeType": "image/jpeg", "uri": None},
    ],
}
BOTH_KEPT = BOTH | {
    "buffers": [{"byteLength": 8}],
    "bufferViews": [{"buffer": 0, "byteLength": 8, "byteOffset": 0}],
}
BOTH_APART = BOTH | {
    "buffers": [{"byteLength": 8, "uri": "out.bin"}],
    "images": [
        {"mimeType": "image/x-own", "uri": "out_image0.bin", "name": "n"},
        {"uri": "out_image1.png"},
        {"mimeType": "image/jpeg", "uri": "out_image2.jpg"},
        {"mimeType": "image/jpeg", "uri": "out_image2.jpg"},
    ],
}
BOTH_BESIDE = {"out.bin": b"12345678", "out_image0.bin": b"12345678",
               "out_image1.png": PICTURES[0], "out_image2.jpg": b"12345678"}
CONVERT_USAGE = Begins("usage: gltf_convert IN OUT.glb [--keep-images|--keep-missing-images]\n")
ENDING = "out.txt: has to end in .glb or .gltf\n"
# Files that require extensions which the loader refuses: a conversion keeps what these say. A
# primitive of Draco, with bytes that no one reads; views that are compressed, over two buffers;
# numbers of fewer bits; textures whose other image is one of WebP or of Basis; and a name that
# nobody knows, twice.
BITS = bytes(range(1, 13))


def requires(*names, **members):
    """A document that requires these extensions."""
    return {"asset": {"version": "2.0"}, "extensionsUsed": list(names),
            "extensionsRequired": list(names), **members}


def in_buffers(*lengths):
    """As many buffers of these lengths, and their bytes one after the other."""
    held = [BITS[:n] for n in lengths]
    return [{"byteLength": n, "uri": data("", one)} for n, one in zip(lengths, held)]


DRACO = requires(
    "KHR_draco_mesh_compression",
    bufferViews=[{"buffer": 0, "byteLength": 12, "byteOffset": 0}],
    accessors=[{"componentType": 5126, "count": 3, "type": "VEC3", "min": [0, 0, 0],
                "max": [1, 1, 1]}],
    meshes=[{"primitives": [{"attributes": {"POSITION": 0}, "extensions": {
        "KHR_draco_mesh_compression": {"bufferView": 0, "attributes": {"POSITION": 0}}}}]}])
COMPRESSED = {"byteLength": 3, "byteStride": 4, "count": 2, "mode": "ATTRIBUTES"}
# The two names of one extension.
PACKINGS = ["EXT_meshopt_compression", "KHR_meshopt_compression"]


def packed(*names, **said):
    """Two views over two buffers, of which the first is compressed, as these extensions say."""
    return requires(
        *names,
        bufferViews=[
            {"buffer": 1, "byteLength": 8, "byteOffset": 0, "extensions": said},
            {"buffer": 0, "byteLength": 4, "byteOffset": 0}],
        accessors=[{"bufferView": 0, "componentType": 5121, "count": 8, "type": "SCALAR"}])


IN_FIRST = COMPRESSED | {"buffer": 0, "byteOffset": 1}
IN_SECOND = COMPRESSED | {"buffer": 1, "byteOffset": 6}
QUANTIZED = requires(
    "KHR_mesh_quantization",
    bufferViews=[{"buffer": 0, "byteLength": 12, "byteOffset": 0, "byteStride": 4}],
    accessors=[{"bufferView": 0, "componentType": 5120, "count": 3, "type": "VEC3",
                "min": [1, 2, 3], "max": [9, 10, 11]}],
    meshes=[{"primitives": [{"attributes": {"POSITION": 0}}]}])
IMAGE_VIEWS = [{"buffer": 0, "byteLength": 4, "byteOffset": 0},
               {"buffer": 0, "byteLength": 5, "byteOffset": 4}]


def textured(name, media):
    """A texture with an image of a further type."""
    return requires(
        name, bufferViews=IMAGE_VIEWS,
        images=[{"bufferView": 0, "mimeType": "image/png"}, {"bufferView": 1, "mimeType": media}],
        textures=[{"source": 0, "extensions": {name: {"source": 1}}}])


def textured_alone(name, media, **texture):
    """The same, where the texture has no other image."""
    value = textured(name, media)
    texture |= {"extensions": {name: {"source": 1}}, "name": "t"}
    return value | {"textures": [texture, {"source": 1}]}


# Animations of what an extension points to: their targets have no node.
POINTED = {"path": "pointer",
           "extensions": {"KHR_animation_pointer": {"pointer": "/nodes/0/scale"}}}
POINTING = requires(
    "KHR_animation_pointer", nodes=[{}],
    bufferViews=[{"buffer": 0, "byteLength": 12, "byteOffset": 0}],
    accessors=[{"bufferView": 0, "componentType": 5126, "count": 1,
                "type": "SCALAR", "min": [0], "max": [1]}],
    animations=[{
        "channels": [{"sampler": 0, "target": target} for target in targets],
        "samplers": [{"input": 0, "output": 0}]}
        for targets in ([POINTED, {"node": 0, "path": "scale"}], [POINTED | {"node": None}])])


def in_text(value, files, *lengths):
    """The value of the text of such a file, whose buffers have these lengths, and its files."""
    parts = [("out.bin" if len(lengths) == 1 else f"out{i}.bin") for i in range(len(lengths))]
    held = {part: BITS[:n] + bytes(-n % 4) for part, n in zip(parts, lengths)}
    images = [{"uri": name, "mimeType": image["mimeType"]}
              for name, image in zip(files, value.get("images", []))]
    return value | {
        "buffers": [{"byteLength": n, "uri": part} for n, part in zip(lengths, parts)],
        **({"images": images} if images else {})}, held | files


def in_container(value, *lengths):
    """The value of the container of such a file, and its buffer: views move with their buffers."""
    starts, whole = [], b""
    for n in lengths:
        starts.append(len(whole))
        whole += BITS[:n] + bytes(-n % 8)
    moved = json.loads(json.dumps(value))
    for one in moved.get("bufferViews", []):
        for named in (one, *(one.get("extensions", {}).get(name) for name in PACKINGS)):
            if named:
                named["byteOffset"] += starts[named["buffer"]]
                named["buffer"] = 0
    return moved | {"buffers": [{"byteLength": len(whole)}]}, whole


# The value without its buffers, the lengths of these, and the files of its images.
REQUIRED = {
    "draco.gltf": (DRACO, (12,), {}),
    "packed.gltf": (packed(PACKINGS[0], EXT_meshopt_compression=IN_FIRST), (5, 9), {}),
    "packed_khr.gltf": (packed(PACKINGS[1], KHR_meshopt_compression=IN_FIRST), (5, 9), {}),
    "packed_khr_second.gltf": (packed(PACKINGS[1], KHR_meshopt_compression=IN_SECOND), (5, 9), {}),
    "packed_both.gltf": (packed(*PACKINGS, EXT_meshopt_compression=IN_FIRST,
                                KHR_meshopt_compression=IN_SECOND), (5, 9), {}),
    "packed_other.gltf": (packed(*PACKINGS, EXT_meshopt_compression=IN_SECOND,
                                 KHR_meshopt_compression=IN_FIRST), (5, 9), {}),
    # A member that is null is absent.
    "packed_ext_null.gltf": (packed(PACKINGS[1], EXT_meshopt_compression=None,
                                    KHR_meshopt_compression=IN_SECOND), (5, 9), {}),
    "packed_khr_null.gltf": (packed(PACKINGS[0], EXT_meshopt_compression=IN_SECOND,
                                    KHR_meshopt_compression=None), (5, 9), {}),
    "packed_null.gltf": (packed(*PACKINGS, EXT_meshopt_compression=None,
                                KHR_meshopt_compression=None), (5, 9), {}),
    "quantized.gltf": (QUANTIZED, (12,), {}),
    "webp.gltf": (textured("EXT_texture_webp", "image/webp"), (9,),
                  {"out_image0.png": BITS[:4], "out_image1.webp": BITS[4:9]}),
    "basis.gltf": (textured("KHR_texture_basisu", "image/ktx2"), (9,),
                   {"out_image0.png": BITS[:4], "out_image1.ktx2": BITS[4:9]}),
    "webp_alone.gltf": (textured_alone("EXT_texture_webp", "image/webp"), (9,),
                        {"out_image0.png": BITS[:4], "out_image1.webp": BITS[4:9]}),
    "basis_alone.gltf": (textured_alone("KHR_texture_basisu", "image/ktx2", source=None), (9,),
                         {"out_image0.png": BITS[:4], "out_image1.ktx2": BITS[4:9]}),
    "pointing.gltf": (POINTING, (12,), {}),
    "twice.gltf": (requires("STUDIO", "STUDIO", "KHR_materials_unlit"), (4,), {}),
}
# Buffers of which some have no bytes: a length is one that has. Those stay, behind the one of a
# container, and so do the views in them; what these are compressed to moves.
NO_BYTES = [{"byteLength": 8, "name": "others", "extensions": {name: {"fallback": True}}}
            for name in PACKINGS]


def apart(names, buffers, *views):
    """A document of these buffers, and of views of which each that is in one without bytes is
    compressed."""
    return requires(*names, bufferViews=list(views), accessors=[
        {"bufferView": 0, "componentType": 5121, "count": 8, "type": "SCALAR"}]), buffers


def packed_view(buffer, into, offset, *names):
    """A view in a buffer without bytes, compressed in another one."""
    said = COMPRESSED | {"buffer": into, "byteOffset": offset}
    return {"buffer": buffer, "byteLength": 8, "byteStride": 4,
            "extensions": dict.fromkeys(names or PACKINGS[:1], said)}


PLAIN_VIEW = {"buffer": 0, "byteLength": 4, "byteOffset": 0}
LACKING = {
    "bare.gltf": apart(PACKINGS[:1], [5, NO_BYTES[0]], packed_view(1, 0, 1), PLAIN_VIEW),
    "bare.glb": apart(PACKINGS[:1], [8, NO_BYTES[0]], packed_view(1, 0, 1), PLAIN_VIEW),
    "bare_khr.gltf": apart(PACKINGS[1:], [5, NO_BYTES[1]], packed_view(1, 0, 1, PACKINGS[1]),
                           PLAIN_VIEW),
    "bare_both.gltf": apart(PACKINGS, [5, NO_BYTES[1]], packed_view(1, 0, 1, *PACKINGS)),
    "bare_first.gltf": apart(PACKINGS[:1], [NO_BYTES[0], 5], packed_view(0, 1, 2)),
    "bare_two.gltf": apart(
        PACKINGS[:1], [NO_BYTES[0], 5, NO_BYTES[0] | {"extras": [1]}, 9],
        packed_view(2, 3, 6) | {"byteOffset": 0, "name": "v"}, packed_view(0, 1, 0),
        PLAIN_VIEW | {"buffer": 3, "byteOffset": 4}),
    # A member that is null is absent.
    "bare_null.gltf": apart(PACKINGS[:1], [5, NO_BYTES[0] | {"uri": None}], packed_view(1, 0, 1)),
}


def written(value, buffers):
    """Such a file: a text, or where its first buffer has eight bytes, a container."""
    held = [one if isinstance(one, dict) else {"byteLength": one, "uri": data("", BITS[:one])}
            for one in buffers]
    if buffers[0] == 8:
        return container_of(value | {"buffers": [{"byteLength": 8}, *held[1:]]}, BITS[:8])
    return json.dumps(value | {"buffers": held}).encode()


def lacking_text(value, buffers):
    """The value of the text of such a file, and its files."""
    held = {f"out{i}.bin": BITS[:n] + bytes(-n % 4)
            for i, n in enumerate(buffers) if isinstance(n, int)}
    return value | {"buffers": [
        one if isinstance(one, dict) else {"byteLength": one, "uri": f"out{i}.bin"}
        for i, one in enumerate(buffers)]}, held


def lacking_container(value, buffers):
    """The value of the container of such a file, and its buffer."""
    seats, whole, rest = [], b"", []
    for one in buffers:
        if isinstance(one, dict):
            rest.append(one)
            seats.append((len(rest), None))
        else:
            seats.append((0, len(whole)))
            whole += BITS[:one] + bytes(-one % 8)
    moved = json.loads(json.dumps(value))
    for one in moved["bufferViews"]:
        for named in (one, *one.get("extensions", {}).values()):
            named["buffer"], start = seats[named["buffer"]]
            if start is not None:
                named["byteOffset"] += start
    return moved | {"buffers": [{"byteLength": len(whole)}, *rest]}, whole


# One of which a view is not compressed and one whose compressed bytes do not lie in their buffer, which
# become no container, but texts, where no view moves; two of
# which no extension says that they are for others, and one that has a member by which a conversion
# keeps such a view.
NOWHERE = [
    (*apart(PACKINGS[:1], [5, NO_BYTES[0]], PLAIN_VIEW | {"buffer": 1}), False),
    (*apart(PACKINGS[:1], [5, NO_BYTES[0]], packed_view(1, 0, 6)), False),
    (*apart(PACKINGS[:1], [5, {"byteLength": 8}], packed_view(1, 0, 1)), True),
    (*apart(PACKINGS[:1], [5, {"byteLength": 8, "extensions": {PACKINGS[0]: {"fallback": 1}}}],
            packed_view(1, 0, 1)), True),
    (*apart(PACKINGS[:1], [5, NO_BYTES[0]], packed_view(1, 0, 1) | {"gltf_fallback": 1}), True),
]
# A container whose first buffer is for others, and has the bytes of its BIN chunk.
FIRST_HAS = requires(PACKINGS[0], bufferViews=[packed_view(0, 1, 1)])
# Files in which the object of an extension names a buffer or a file itself: an emitter of sound, one
# deep in an extension that nobody knows, beside a member that is null, views that are compressed
# under another name, and one of the known names that does not stand in a view. Each value with the
# place of what it names, and the extension.
ELSEWHERE = ("{0}: {1}: {2} names a buffer or a file itself, which is not moved; "
             "--keep-unknown writes it as it stands\n")
NAMING = {
    "audio.gltf": (
        requires("KHR_audio_emitter", extensions={"KHR_audio_emitter": {
            "audio": [{"uri": "a.mp3"}]}}),
        "/extensions/KHR_audio_emitter/audio/0/uri", "KHR_audio_emitter"),
    "deep.gltf": (
        requires("STUDIO", nodes=[{"extensions": {"STUDIO": {
            "none": {"uri": None}, "some": [{"buffer": 1}]}}}]),
        "/nodes/0/extensions/STUDIO/some/0/buffer", "STUDIO"),
    "renamed.gltf": (
        requires("STUDIO_meshopt_compression", bufferViews=[
            {"buffer": 1, "byteLength": 8, "extensions": {
                "STUDIO_meshopt_compression": COMPRESSED | {"buffer": 0}}}]),
        "/bufferViews/0/extensions/STUDIO_meshopt_compression/buffer",
        "STUDIO_meshopt_compression"),
    "elsewhere.gltf": (
        requires("KHR_meshopt_compression", meshes=[{
            "primitives": [{"attributes": {"POSITION": 0}}],
            "extensions": {"KHR_meshopt_compression": COMPRESSED | {"buffer": 0}}}],
            accessors=[{"componentType": 5126, "count": 3, "type": "VEC3", "min": [0, 0, 0],
                        "max": [1, 1, 1]}]),
        "/meshes/0/extensions/KHR_meshopt_compression/buffer", "KHR_meshopt_compression"),
}
# What one of the two says does not lie in its buffer, which is filled up to a multiple of four.
PACKED_BEYOND = [
    packed(*PACKINGS, EXT_meshopt_compression=IN_FIRST | more,
           KHR_meshopt_compression=IN_SECOND | other)
    for more, other in (({"byteOffset": 6}, {}), ({}, {"byteOffset": 10}))]
# What a file that requires an extension is refused for is what it is refused for without it.
BROKEN = DRACO | {"buffers": in_buffers(12), "bufferViews": [{"buffer": 7, "byteLength": 12}]}
# The words, the status and the error of calls that write nothing.
NOT_CONVERTED = [
    (["two.gltf", "out.txt"], 2, ENDING),
    (["two.gltf", ".gltf"], 2, ".gltf" + ENDING[len("out.txt"):]),
    (["no.gltf", "out.glb"], 1, Failed("no.gltf")),
    (["lacks.gltf", "out.glb"], 1, Failed("no.bin")),
    (["beyond.gltf", "out.glb"], 1, "bufferViews[0]: not within its buffer\n"),
    *[([f"packed_beyond{i}.gltf", "out.glb"], 1, "bufferViews[0]: not within its buffer\n")
      for i in range(len(PACKED_BEYOND))],
    *[([f"nowhere{i}.gltf", out], 1, "missing binary portion of binary glTF\n" if is_missing
       else "bufferViews[0]: not within its buffer\n")
      for i, (*_, is_missing) in enumerate(NOWHERE)
      for out in ("out.glb", "out.gltf") if is_missing or out == "out.glb"],
    (["dangling.gltf", "out.glb"], 1, DANGLING),
    (["two.gltf", "folder"], 2, "folder: " + ENDING.partition(": ")[2]),
    (["two.gltf"], 2, CONVERT_USAGE),
    (["two.gltf", "out.glb", "out.glb"], 2, CONVERT_USAGE),
    (["two.gltf", "out.glb", "--keep"], 2, CONVERT_USAGE),
    (["--keep-images", "two.gltf", "out.glb"], 2, CONVERT_USAGE),
    (["two.gltf", "out.glb", "--keep-images", "--keep-images"], 2, CONVERT_USAGE),
    (["lost.gltf", "out.glb"], 1, Failed("lost.png")),
    *[([name, "out.glb"], 1, NO_TYPE.format(image))
      for name, image in (("odd.gltf", 1), ("text.gltf", 0), ("none.gltf", 0))],
    (["scheme.gltf", "out.glb"], 1, Begins("images[0].uri: ")),
    (["payload.gltf", "out.glb"], 1, Begins("images[0].uri: ")),
    (["two.gltf", "out.glb", "--pretty"], 2, CONVERT_USAGE),
    (["two.gltf", "out.gltf", "--pretty", "--pretty"], 2, CONVERT_USAGE),
    (["two.gltf", "out.glb", "--drop-image-views"], 2, CONVERT_USAGE),
    (["two.gltf", "out.glb", "--force"], 2, CONVERT_USAGE),
    (["two.gltf", "out.gltf", "--force", "--force"], 2, CONVERT_USAGE),
    (["two.gltf", "out.glb", "--outside", "--outside"], 2, CONVERT_USAGE),
    *[([name, out], 1, ELSEWHERE.format(name, place, extension))
      for name, (_, place, extension) in NAMING.items() for out in ("out.glb", "out.gltf")],
    (["two.gltf", "out.glb", "--keep-unknown", "--keep-unknown"], 2, CONVERT_USAGE),
    (["two.gltf", "out.gltf", "--keep-images", "--drop-image-views"], 2, CONVERT_USAGE),
    (["two.gltf", "out.gltf", "--drop-image-views", "--drop-image-views"], 2, CONVERT_USAGE),
    (["two.gltf", "out.glb", "--keep-images", "--keep-missing-images"], 2, CONVERT_USAGE),
    (["two.gltf", "out.gltf", "--keep-missing-images", "--keep-missing-images"], 2, CONVERT_USAGE),
    # A buffer that is missing is none of the images that may be.
    (["lacks.gltf", "out.glb", "--keep-missing-images"], 1, Failed("no.bin")),
    (["lacks.gltf", "out.gltf", "--keep-missing-images"], 1, Failed("no.bin")),
    (["stray.gltf", "out.gltf", "--keep-missing-images"], 1,
     "bufferViews[0]: not within its buffer\n"),
    (["stray.gltf", "out.gltf", "--drop-image-views"], 1,
     "bufferViews[0]: not within its buffer\n"),
    (["no.gltf", "out.gltf"], 1, Failed("no.gltf")),
    (["lacks.gltf", "out.gltf"], 1, Failed("no.bin")),
    (["dangling.gltf", "out.gltf"], 1, DANGLING),
    (["stray.gltf", "out.gltf"], 1, "bufferViews[0]: not within its buffer\n"),
    (["lost.gltf", "out.gltf"], 1, Failed("lost.png")),
    (["scheme.gltf", "out.gltf"], 1, Begins("images[0].uri: ")),
    (["payload.gltf", "out.gltf"], 1, Begins("images[0].uri: ")),
    (["broken.gltf", "out.glb"], 1,
     "invalid glTF: bufferViews[0].buffer: Index out of bounds;\n"),
    (["broken.gltf", "out.gltf"], 1,
     "invalid glTF: bufferViews[0].buffer: Index out of bounds;\n"),
    (["two.gltf", "taken.gltf"], 1, "taken1.bin: not a regular file\n"),
    (["two.gltf", "away/out.gltf"], 1, Failed("away/out0.bin.part")),
]
# Files with one image or two, which are refused unless images are kept.
IMAGES = {
    "lost.gltf": [{"uri": "lost.png"}],
    "odd.gltf": [{"uri": "p%20q.png"}, {"uri": data("application/x-odd", b"odd")}],
    "text.gltf": [{"uri": data("text/plain", b"odd"), "mimeType": "application/octet-stream"}],
    "none.gltf": [{"uri": data("image/", b"\0\0\0\x1cftypheic"), "mimeType": "image"}],
    "scheme.gltf": [{"uri": "http://example.org/p.png"}],
    "payload.gltf": [{"uri": "data:image/png;base64,?"}],
}
# Numbers of every spelling.
SPELLED = b"[1e3,1E+3,0.1,-0.0,1.5e-7,12345678901234567890,-9007199254740993,1.0]"
# A buffer that is short by its padding, over two views, of which one has an extension that nobody
# knows.
SHORT = {
    "asset": {"version": "2.0"},
    "buffers": [{"byteLength": 4, "uri": data("", b"123")},
                {"byteLength": 2, "uri": data("", b"45")}],
    "bufferViews": [
        {"buffer": 0, "byteLength": 4, "extensions": {"STUDIO": {"stays": [1, {"x": None}]}}},
        {"buffer": 1, "byteLength": 2, "name": "\u00e9"}],
}
SHORT_ONE = SHORT | {
    "buffers": [{"byteLength": 16}],
    "bufferViews": [
        SHORT["bufferViews"][0] | {"byteOffset": 0},
        SHORT["bufferViews"][1] | {"buffer": 0, "byteOffset": 8}],
}
# The words, the JSON value and the bytes of calls that write `out.glb`.
CONVERTED = [
    (["two.gltf"], [], ONE, TAKEN),
    (["two.gltf"], ["--keep-images"], KEPT, JOINED),
    (["kinds.gltf"], [], OWN_KINDS, b"".join(p + bytes(-len(p) % 8) for p in ALL_KINDS)),
    (["kinds.gltf"], ["--keep-images"], KINDS, b""),
    (["both.gltf"], [], BOTH_ONE, b"12345678" + PICTURES[0] + bytes(3)),
    (["both.gltf"], ["--keep-images"], BOTH_KEPT, b"12345678"),
    (["both.gltf"], ["--keep-missing-images"], BOTH_ONE, b"12345678" + PICTURES[0] + bytes(3)),
    (["short.gltf"], [], SHORT_ONE, b"123" + bytes(5) + b"45" + bytes(6)),
    (["numbers.gltf"], [], {"asset": {"version": "2.0", "extras": json.loads(SPELLED)}}, b""),
    *[([name], ["--keep-images"], {"asset": {"version": "2.0"}, "images": images}, b"")
      for name, images in IMAGES.items()],
    *[([name], [], *in_container(value, *lengths))
      for name, (value, lengths, _) in REQUIRED.items()],
    *[([name], [], *lacking_container(*row)) for name, row in LACKING.items()],
]

# A file as JSON text: each buffer has a file, filled up to a multiple of four bytes, and each image
# too. What the others say stays.
APART = TWO | {
    "buffers": [{"byteLength": 3, "uri": "out0.bin"}, {"byteLength": 5, "uri": "out1.bin"}],
    "images": [
        {"uri": "out_image0.png", "name": "\u00e9", "extras": {"b": [1, None], "a": 1e3}},
        {"uri": "out_image1.bin", "mimeType": "image/x-own"},
        {"uri": "out_image2.jpg"},
        {"uri": "out_image3.bin", "mimeType": "image/x-own",
         "extensions": {"STUDIO": {"link": "stays"}}},
    ],
}
HALVES = {"out0.bin": JOINED[:4], "out1.bin": JOINED[8:]}
BESIDE = HALVES | {
    "out_image0.png": PICTURES[0],
    "out_image1.bin": JOINED[8:13],
    "out_image2.jpg": PICTURES[1],
    "out_image3.bin": b"12345678",
}
# The name of a file is escaped where its URI needs it.
ODD = "\u00fc a%:b"
ODD_URI = "%C3%BC%20a%25%3Ab"
# The type that the bytes begin as goes before that which an image names.
ENDS = ["png", "jpg", "webp", "ktx2", "avif", "dds"]
# The container as JSON text: of its views the last four are of images.
ONE_APART = ONE | {
    "buffers": [{"byteLength": 48, "uri": "out.bin"}],
    "images": [{"uri": f"out_image{i}.{kind}",
                **{k: v for k, v in image.items() if k != "bufferView"}}
               for i, (kind, image) in enumerate(zip(["png", "bin", "jpg", "bin"],
                                                     ONE["images"]))],
}
ONE_BESIDE = {name: held for name, held in BESIDE.items() if "image" in name}


def plain(value):
    """The value without extensions."""
    if isinstance(value, dict):
        return {name: plain(one) for name, one in value.items() if name != "extensions"}
    return [plain(one) for one in value] if isinstance(value, list) else value


# What is left without them, where there are no extensions: the second of the two views that stay
# ends after 13 bytes, and behind it stand images and zeros.
PLAIN_LEFT = plain(ONE_APART) | {
    "buffers": [{"byteLength": 13, "uri": "out.bin"}], "bufferViews": VIEWS[:2]}
# What follows the last view of all.
TAIL = b"the tail"
DROPPED = ["--drop-image-views"]
KNOWN = {"extensionsUsed": ["KHR_texture_transform", "KHR_materials_ior"]}
UNKNOWN = {"extensionsUsed": ["KHR_materials_ior", "STUDIO"]}


def view(buffer, offset, length):
    """A view of a buffer."""
    return {"buffer": buffer, "byteLength": length} | ({"byteOffset": offset} if offset else {})


def eights(*held):
    """Buffers that declare eight bytes each."""
    return [{"byteLength": 8, "uri": data("", one)} for one in held]


def pictures(*views):
    """Images in these views."""
    return [{"bufferView": one, "mimeType": "image/x-own"} for one in views]


# Two buffers of eight bytes, and the views of two images: what else names a view changes what goes.
# Bytes that are in no view are zeros.
HELD = [b"01" + bytes(3) + b"56" + bytes(1), b"89abcdef"]
EIGHTS = {
    "asset": {"version": "2.0"},
    "buffers": eights(*HELD),
    "bufferViews": [view(0, 0, 2), view(1, 0, 3), view(0, 5, 2), view(1, 0, 8)],
    "images": pictures(3, 2),
}


def sparse(indices, values):
    """An accessor of one number that is stored in these views."""
    return {"accessors": [{"componentType": 5121, "count": 1, "type": "SCALAR", "sparse": {
        "count": 1, "indices": {"bufferView": indices, "componentType": 5121},
        "values": {"bufferView": values}}}]}


def material(**extensions):
    """A material with these extensions, and a texture."""
    return {"materials": [{"extensions": extensions}], "textures": [{"source": 0}]}


BYTE = {"componentType": 5121, "count": 1, "type": "SCALAR"}
COAT = {"clearcoatTexture": {"index": 0, "extensions": {"STUDIO": 3}}}
MESHOPT = {"buffer": 1, "byteLength": 8, "byteStride": 1, "count": 2, "mode": "INDICES"}
# What the file has besides or in place of its own, how many views stay, and how many bytes each
# buffer has then.
EIGHTS_LEFT = [
    ({"accessors": [BYTE | {"bufferView": 0}, BYTE | {"bufferView": 1}]}, 2, (2, 3)),
    ({"accessors": [BYTE | {"bufferView": 2}]}, 3, (8, 3)),
    ({"accessors": [BYTE | {"bufferView": 3}]}, 4, (8, 8)),
    (sparse(0, 2), 3, (8, 3)),
    (sparse(2, 0), 3, (8, 3)),
    (sparse(1, 3), 4, (8, 8)),
    ({}, 2, (2, 3)),
    ({"images": pictures(0, 1, 2, 3)}, 0, (1, 1)),
    (KNOWN, 2, (2, 3)),
    (UNKNOWN, 4, (8, 8)),
    *[({"extensionsUsed": [name]}, 4, (8, 8)) for name in PACKINGS],
    # Extensions that the file does not list, anywhere in it.
    ({"extensions": {"STUDIO": {"bufferView": 3}}}, 4, (8, 8)),
    *[({"bufferViews": [view(0, 0, 2) | {"extensions": {name: MESHOPT}},
                        *EIGHTS["bufferViews"][1:]]}, 4, (8, 8)) for name in PACKINGS],
    ({"images": [pictures(3)[0] | {"extensions": {"STUDIO": {"view": 2}}}, *pictures(2)]},
     4, (8, 8)),
    (material(KHR_materials_unlit={}, STUDIO={}), 4, (8, 8)),
    (material(KHR_materials_clearcoat=COAT), 4, (8, 8)),
    ({"extras": [{"extensions": {"STUDIO": 3}}]}, 4, (8, 8)),
    ({"extras": {"extensions": ["STUDIO"]}}, 4, (8, 8)),
    # Known ones name no view. Nor does what else extras hold.
    (material(KHR_materials_unlit={}), 2, (2, 3)),
    ({"extras": {"bufferView": 3, "STUDIO": {"bufferView": 2}}}, 2, (2, 3)),
    # Bytes that are in no view, and no zeros: behind the last view, in front of it, a number there
    # that ends in zeros, and behind the length that the buffer declares.
    ({"buffers": eights(b"01" + bytes(3) + b"567", HELD[1])}, 2, (8, 3)),
    ({"buffers": eights(b"01" + bytes(2) + b"456" + bytes(1), HELD[1])}, 2, (8, 3)),
    ({"buffers": eights(b"01\1" + bytes(2) + b"56" + bytes(1), HELD[1])}, 2, (8, 3)),
    ({"buffers": eights(HELD[0], HELD[1] + bytes(3) + b"!")}, 2, (2, 8)),
    # Views that go in another order, over one another, and over one that stays.
    ({"bufferViews": [view(0, 0, 2), view(1, 0, 3), view(0, 5, 3), view(0, 2, 4)]}, 2, (2, 8)),
    ({"bufferViews": [view(0, 0, 6), view(1, 0, 3), view(0, 4, 4), view(1, 0, 8)]}, 2, (6, 3)),
]


def eights_row(i, more, stay, lengths):
    """The row of a call for one of these."""
    value = EIGHTS | more
    whole = [base64.b64decode(one["uri"].partition(",")[2]) for one in value["buffers"]]
    kept = [held if n == 8 else held[:n] for held, n in zip(whole, lengths)]
    files = {f"out{k}.bin": held + bytes(-len(held) % 4) for k, held in enumerate(kept)}
    images = []
    for k, image in enumerate(value["images"]):
        one = value["bufferViews"][image["bufferView"]]
        held = whole[one["buffer"]][one.get("byteOffset", 0) :]
        files[f"out_image{k}.bin"] = held[: one["byteLength"]]
        rest = {name: one for name, one in image.items() if name != "bufferView"}
        images.append(rest | {"uri": f"out_image{k}.bin"})
    left = value | {
        "buffers": [{"byteLength": n, "uri": f"out{k}.bin"} for k, n in enumerate(lengths)],
        "bufferViews": value["bufferViews"][:stay],
        "images": images,
    }
    if not stay:
        del left["bufferViews"]
    return ([f"eights{i}.gltf"], "out", DROPPED, left, files)


# The words, the name without its ending, the JSON value and the files of calls that write text.
# Images that are read from one view, or by one URI: they have one file, where its name ends alike.
SHARED = {
    "asset": {"version": "2.0"},
    "bufferViews": [{"buffer": 0, "byteLength": 4}, {"buffer": 0, "byteLength": 4}],
    "images": [
        {"uri": "p%20q.png"}, {"bufferView": 0, "mimeType": "image/jpeg"},
        {"uri": "p%20q.png", "name": "again"}, {"bufferView": 1, "mimeType": "image/jpeg"},
        {"bufferView": 0, "mimeType": "image/jpeg", "uri": "p%20q.png"}, {"uri": "./p%20q.png"},
        {"bufferView": 0, "mimeType": "image/png"}]}
SHARED_APART = {
    "buffers": [{"byteLength": 4, "uri": "out.bin"}],
    "images": [
        {"uri": "out_image0.png"}, {"mimeType": "image/jpeg", "uri": "out_image1.jpg"},
        {"name": "again", "uri": "out_image0.png"},
        {"mimeType": "image/jpeg", "uri": "out_image3.jpg"},
        {"mimeType": "image/jpeg", "uri": "out_image1.jpg"}, {"uri": "out_image5.png"},
        {"mimeType": "image/png", "uri": "out_image6.png"}]}
SHARED_BESIDE = {"out.bin": BITS[:4], "out_image0.png": PICTURES[0], "out_image1.jpg": BITS[:4],
                 "out_image3.jpg": BITS[:4], "out_image5.png": PICTURES[0],
                 "out_image6.png": BITS[:4]}
SPLIT = [
    (["two.gltf"], "out", [], APART, BESIDE),
    (["two.gltf"], "out", ["--pretty"], APART, BESIDE),
    (["two.gltf"], "out", ["--keep-images"], TWO | {"buffers": APART["buffers"]}, HALVES),
    (["two.gltf"], "out", ["--pretty", "--keep-images"], TWO | {"buffers": APART["buffers"]},
     HALVES),
    (["pair.gltf"], ODD, [], APART | {
        "buffers": [{"byteLength": 3, "uri": ODD_URI + "0.bin"},
                    {"byteLength": 5, "uri": ODD_URI + "1.bin"}],
        "images": [{"uri": ODD_URI + "_image0.png"}]},
     {ODD + "0.bin": JOINED[:4], ODD + "1.bin": JOINED[8:], ODD + "_image0.png": PICTURES[0]}),
    (["alone.glb"], "out", [], ONE_APART, {"out.bin": TAKEN, **ONE_BESIDE}),
    # Two extensions stand in these files that they do not list, and that may name a view.
    (["alone.glb"], "out", DROPPED, ONE_APART, {"out.bin": TAKEN, **ONE_BESIDE}),
    (["two.gltf"], "out", DROPPED, APART, BESIDE),
    (["plain.glb"], "out", DROPPED, PLAIN_LEFT, {"out.bin": JOINED, **ONE_BESIDE}),
    (["plain.glb"], "out", ["--pretty", *DROPPED], PLAIN_LEFT, {"out.bin": JOINED, **ONE_BESIDE}),
    (["tail.glb"], "out", DROPPED, PLAIN_LEFT | {
        "buffers": [{"byteLength": 56, "uri": "out.bin"}]},
     {"out.bin": TAKEN + TAIL, **ONE_BESIDE}),
    *[eights_row(i, *row) for i, row in enumerate(EIGHTS_LEFT)],
    (["shared.gltf"], "out", [], SHARED | SHARED_APART, SHARED_BESIDE),
    (["shared.gltf"], "out", ["--pretty"], SHARED | SHARED_APART, SHARED_BESIDE),
    (["begun.gltf"], "out", [], {
        "asset": {"version": "2.0"},
        "images": [{"uri": f"out_image{i}.{kind}", "mimeType": "image/x-own"}
                   for i, kind in enumerate(ENDS)]
        + [{"uri": f"out_image{i}.{kind}", "mimeType": media}
           for i, (kind, media) in enumerate(zip(ENDS, TYPES), len(ENDS))]},
     {f"out_image{i}.{kind}": held
      for i, (kind, held) in enumerate(zip(ENDS * 2, [*PICTURES, *[b"1"] * len(ENDS)]))}),
    (["both.gltf"], "out", [], BOTH_APART, BOTH_BESIDE),
    (["numbers.gltf"], "out", ["--pretty"], {
        "asset": {"version": "2.0", "extras": json.loads(SPELLED)}}, {}),
    *[([name], "out", [], *in_text(value, files, *lengths))
      for name, (value, lengths, files) in REQUIRED.items()],
    *[([name], "out", flags, *lacking_text(*row))
      for name, row in LACKING.items() for flags in ([], ["--pretty"])],
    (["first_has.glb"], "out", [], FIRST_HAS | {"buffers": [
        NO_BYTES[0] | {"uri": "out0.bin"}, {"byteLength": 5, "uri": "out1.bin"}]},
     {"out0.bin": BITS[:8], "out1.bin": BITS[:5] + bytes(3)}),
]


def container_of(value, contents):
    """A container of this value and these bytes."""
    text = json.dumps(value).encode()
    return programs.container(programs.chunk(b"JSON", text + b" " * (-len(text) % 4)),
                              programs.chunk(b"BIN\0", contents))


def make_converted(room):
    """The folder that `gltf_convert` is called in."""
    beyond = TWO | {"bufferViews": [{"buffer": 0, "byteLength": 5}], "accessors": [], "images": []}
    lacks = TWO | {"buffers": [TWO["buffers"][0], {"byteLength": 5, "uri": "no.bin"}]}
    programs.make(room, {
        "two.gltf": json.dumps(TWO).encode(),
        "kinds.gltf": json.dumps(KINDS).encode(),
        "both.gltf": json.dumps(BOTH).encode(),
        "beyond.gltf": json.dumps(beyond).encode(),
        "lacks.gltf": json.dumps(lacks).encode(),
        "dangling.gltf": programs.document(nodes=[{"mesh": 3, "skin": 0}]),
        "a b.bin": JOINED[:3],
        "c.bin": JOINED[8:13],
        "p q.png": PICTURES[0],
        "own": b"12345678",
        **{name: programs.document(images=images) for name, images in IMAGES.items()},
        "some.gltf": programs.document(images=SOME),
        "short.gltf": json.dumps(SHORT).encode(),
        **{name: with_rest(*row[:3]) for name, row in OF_TEXT.items()},
        "pair.gltf": json.dumps(TWO | {"images": [{"uri": "p%20q.png"}]}).encode(),
        "stray.gltf": json.dumps(beyond | {"images": [
            {"bufferView": 0, "mimeType": "image/png"}]}).encode(),
        "alone.glb": container_of(ONE, TAKEN),
        "plain.glb": container_of(plain(ONE), TAKEN),
        "tail.glb": container_of(plain(ONE) | {"buffers": [{"byteLength": 56}]}, TAKEN + TAIL),
        "shared.gltf": json.dumps(SHARED | {"buffers": in_buffers(4)}).encode(),
        "begun.gltf": programs.document(images=[
            *[{"uri": data("", picture), "mimeType": "image/x-own"} for picture in PICTURES],
            *[{"uri": data("", b"1"), "mimeType": media} for media in TYPES]]),
        **{f"eights{i}.gltf": json.dumps(EIGHTS | row[0]).encode()
           for i, row in enumerate(EIGHTS_LEFT)},
        "numbers.gltf": b'{"asset":{"version":"2.0","extras":' + SPELLED + b"}}",
        **{name: json.dumps(value | {"buffers": in_buffers(*lengths)}).encode()
           for name, (value, lengths, _) in REQUIRED.items()},
        **{name: written(*row) for name, row in LACKING.items()},
        **{f"nowhere{i}.gltf": written(*row) for i, (*row, _) in enumerate(NOWHERE)},
        "first_has.glb": container_of(
            FIRST_HAS | {"buffers": [NO_BYTES[0], *in_buffers(5)]}, BITS[:8]),
        **{name: json.dumps(value | {"buffers": in_buffers(5, 9)}).encode()
           for name, (value, *_) in NAMING.items()},
        **{f"packed_beyond{i}.gltf": json.dumps(value | {"buffers": in_buffers(5, 9)}).encode()
           for i, value in enumerate(PACKED_BEYOND)},
        "broken.gltf": json.dumps(BROKEN).encode(),
        "taken1.bin/file": b"",
    })


def leaves_to_extensions(value):
    """Whether a texture has no source, or a target no node."""
    targets = [channel["target"] for one in value.get("animations", [])
               for channel in one["channels"]]
    sources = [one.get("source") for one in value.get("textures", [])]
    return None in [*sources, *(target.get("node") for target in targets)]


def checks(value):
    """The flags of `gltf_show check` for a file of this value."""
    if not leaves_to_extensions(value):
        return []
    return ["--extensions=" + ",".join(value["extensionsRequired"]), "--lenient"]


def is_shown(checked, value):
    """Whether `gltf_show check` accepts a file of this value. Where it requires extensions that the
    loader does not support, it has to be refused for their names alone, with the flag that takes
    them on a second line. Where it leaves to them what the loader needs, it is accepted with that
    flag."""
    if "extensionsRequired" in value and not checks(value):
        line, _, hint = checked.stderr.partition("\n")
        told = line.partition("invalid glTF: ")[2].rstrip(";").split("; ")
        places = [re.fullmatch(r"extensionsRequired\[(\d+)\]: Unsupported extension", one)
                  for one in told]
        return checked.returncode == 1 and all(places) and hint == programs.flag(
            *(value["extensionsRequired"][int(place[1])] for place in places))
    counts = [len(value.get(member, [])) for member in ("buffers", "accessors")]
    nodes = len(value.get("nodes", []))
    line = f"ok buffers={counts[0]} accessors={counts[1]} meshes=0 nodes={nodes}\n"
    return checked.stdout == line


def converts(convert, show, room, source, flags, value, buffer):
    """Whether a file becomes one container with this JSON value and these bytes. Where no image is
    kept, it is accepted alone, in an empty folder, and is converted to itself."""
    words = [*source, "out.glb", *flags]
    how = {"cwd": room, "capture_output": True, "text": True, "preexec_fn": programs.started()}
    ran = subprocess.run([convert, *words], **how)
    made = (room / "out.glb").read_bytes() if (room / "out.glb").exists() else bytes(20)
    (room / "out.glb").unlink(missing_ok=True)
    length = int.from_bytes(made[12:16], "little")
    rest = made[20 + length :]
    good = (ran.returncode, ran.stdout, ran.stderr) == (0, f"out.glb: {len(made)} bytes\n", "")
    good = good and made[:12] == b"glTF" + struct.pack("<2I", 2, len(made))
    good = good and made[16:20] == b"JSON"
    good = good and repr(json.loads(made[20 : 20 + length])) == repr(sorted_members(value))
    good = good and rest == (programs.chunk(b"BIN\0", buffer) if buffer else b"")
    if flags or not good:
        return programs.report(convert.name, words, good, ran)
    with tempfile.TemporaryDirectory() as name:
        alone = pathlib.Path(name)
        (alone / "out.glb").write_bytes(made)
        alone.chmod(0o777)
        how["cwd"] = alone
        checked = subprocess.run([show, "check", "out.glb", *checks(value)], **how)
        again = subprocess.run([convert, "out.glb", "again.glb"], **how)
        good = is_shown(checked, value) and again.returncode == 0
        good = good and (alone / "again.glb").read_bytes() == made
    return programs.report(convert.name, words, good, (ran, checked, again))


def splits(convert, show, room, source, name, flags, value, files):
    """Whether a file becomes JSON text of this value, with these files beside it. Unless images are
    kept, it is accepted in a folder with them alone, and converted to itself there, and to the same
    container as the file where that has no image in a view."""
    with tempfile.TemporaryDirectory() as folder:
        alone = pathlib.Path(folder)
        alone.chmod(0o777)
        text = f"{alone}/{name}.gltf"
        words = [*source, text, *flags]
        how = {"capture_output": True, "text": True, "preexec_fn": programs.started()}
        ran = subprocess.run([convert, *words], cwd=room, **how)
        made = {file.name: file.read_bytes() for file in alone.iterdir()}
        json_text = made.pop(f"{name}.gltf", b"")
        told = "".join(f"{alone}/{part}: {len(held)} bytes\n" for part, held in files.items())
        good = (ran.returncode, ran.stderr) == (0, "") and made == files
        good = good and ran.stdout == f"{told}{text}: {len(json_text)} bytes\n"
        good = good and repr(json.loads(json_text)) == repr(sorted_members(value))
        good = good and json_text.startswith(b'{\n  "' if "--pretty" in flags else b'{"')
        if "--keep-images" in flags or not good:
            return programs.report(convert.name, words, good, ran)
        how["cwd"] = alone
        checked = subprocess.run([show, "check", f"{name}.gltf", *checks(value)], **how)
        again = subprocess.run([convert, f"{name}.gltf", f"{name}.gltf", *flags], **how)
        left = {file.name: file.read_bytes() for file in alone.iterdir()}
        good = is_shown(checked, value) and again.returncode == 0
        good = good and left == files | {f"{name}.gltf": json_text}
        back = subprocess.run([convert, f"{name}.gltf", "back.glb"], **how)
        good = good and back.returncode == 0
        if source == ["pair.gltf"]:
            whole = [*source, f"{alone}/whole.glb"]
            whole = subprocess.run([convert, *whole], **(how | {"cwd": room}))
            made = [(alone / f"{part}.glb").read_bytes() for part in ("back", "whole")]
            good = good and whole.returncode == 0 and made[0] == made[1]
        return programs.report(convert.name, words, good, (ran, checked, again, back))


def sorted_members(value):
    """The value with the members of each object by their names."""
    if isinstance(value, dict):
        return {name: sorted_members(value[name]) for name in sorted(value)}
    return [sorted_members(one) for one in value] if isinstance(value, list) else value


# ---- Examples

def png_size(held):
    """The width and the height of a PNG: each chunk has its checksum, and the rows inflate to as
    many bytes as the header says. None of other bytes."""
    if not held.startswith(b"\x89PNG\r\n\x1a\n"):
        return None
    at, found = 8, {}
    while at < len(held):
        length, kind = struct.unpack(">I4s", held[at : at + 8])
        body, end = held[at + 8 : at + 8 + length], at + 12 + length
        if zlib.crc32(kind + body) != int.from_bytes(held[end - 4 : end], "big"):
            return None
        found[kind] = found.get(kind, b"") + body
        at = end
    width, height, depth, colour = struct.unpack(">2I2B", found[b"IHDR"][:10])
    row = 1 + (width * depth * {0: 1, 2: 3, 3: 1, 4: 2, 6: 4}[colour] + 7) // 8
    rows = zlib.decompress(found[b"IDAT"])
    return (width, height) if len(rows) == height * row and b"IEND" in found else None


def shows_the_same(show, files, how):
    """Whether all of these files are accepted, and show the same."""
    calls = [[[show, "check", file], [show, "indices", file, "0", "0"]] for file in files]
    told = [[subprocess.run(call, **how) for call in two] for two in calls]
    if any(ran.returncode for two in told for ran in two):
        return False
    return len({tuple(ran.stdout for ran in two) for two in told}) == 1


def positions_of(path):
    """The items of the first accessor of a file of floats, packed one behind the other: by the
    standard alone."""
    whole = path.read_bytes()
    if whole.startswith(b"glTF"):
        length = int.from_bytes(whole[12:16], "little")
        value, held = json.loads(whole[20 : 20 + length]), whole[28 + length :]
    else:
        value = json.loads(whole)
        held = (path.parent / urllib.parse.unquote(value["buffers"][0]["uri"])).read_bytes()
    one = value["accessors"][0]
    start = one.get("byteOffset", 0) + value["bufferViews"][one["bufferView"]].get("byteOffset", 0)
    return struct.unpack_from(f"<{3 * one['count']}f", held, start)


def opens_as(path, width, height):
    """Whether another program reads an image of this size. It is told where there is none."""
    if not shutil.which("convert"):
        print("conversions: another program opens the image: not tried, since there is none")
        return True
    ran = subprocess.run(["convert", path, "ppm:-"], capture_output=True)
    head = b"P6 %d %d 255 " % (width, height)
    return ran.returncode == 0 and ran.stdout[: len(head)].split() == head.split() \
        and len(ran.stdout) == len(head) + 3 * width * height


def converts_square(convert, show):
    """Whether the example of two files becomes a container that is accepted in a folder where it is
    alone, and which becomes two files again that show the same."""
    with tempfile.TemporaryDirectory() as name:
        room = pathlib.Path(name)
        for file in sorted((crates.TOP / "examples" / "two files").iterdir()):
            (room / "from").mkdir(exist_ok=True)
            (room / "from" / file.name).write_bytes(file.read_bytes())
        for folder in ("alone", "again", "."):
            (room / folder).mkdir(exist_ok=True)
            (room / folder).chmod(0o777)
        how = {"cwd": room, "capture_output": True, "text": True, "preexec_fn": programs.started()}
        files = ["from/square.gltf", "alone/square.glb", "again/square.gltf"]
        ran = [subprocess.run([convert, *two], **how) for two in (files[:2], files[1:])]
        good = [one.returncode for one in ran] == [0, 0] and shows_the_same(show, files, how)
        good = good and {file.name for file in (room / "alone").iterdir()} == {"square.glb"}
        left = {file.name for file in (room / "again").iterdir()}
        good = good and left == {"square.gltf", "square.bin"}
        good = good and len({positions_of(room / file) for file in files}) == 1
    return programs.report(convert.name, ["square"], good, ran)


def converts_box(convert, show):
    """Whether the image of the example of one container becomes a file that is a PNG of 8 times 8
    pixels, and the set shows what the container shows."""
    with tempfile.TemporaryDirectory() as name:
        room = pathlib.Path(name)
        room.chmod(0o777)
        (room / "from.glb").write_bytes((crates.TOP / "examples" / "box.glb").read_bytes())
        how = {"cwd": room, "capture_output": True, "text": True, "preexec_fn": programs.started()}
        ran = subprocess.run([convert, "from.glb", "box.gltf", "--pretty"], **how)
        good = ran.returncode == 0 and shows_the_same(show, ["from.glb", "box.gltf"], how)
        left = {file.name for file in room.iterdir()}
        good = good and left == {"from.glb", "box.gltf", "box.bin", "box_image0.png"}
        good = good and png_size((room / "box_image0.png").read_bytes()) == (8, 8)
        good = good and opens_as(room / "box_image0.png", 8, 8)
    return programs.report(convert.name, ["box"], good, ran)


# ---- Files that stand where others are to be written

ONE_BUFFER = programs.document(buffers=[{"byteLength": 4, "uri": "out.bin"}])
OTHER_BUFFER = programs.document(buffers=[{"byteLength": 4, "uri": "a.bin"}])
WITH_IMAGE = programs.document(
    buffers=[{"byteLength": 4, "uri": data("", b"1234")}], images=[{"uri": "out.bin"}])
NEEDED = "out.bin: not written, in.gltf needs it; give the text another name\n"
IS_THERE = "out.bin: is there, and no earlier out.gltf names it; --force replaces it\n"
FORCE = ["--force"]
# The files of a folder, and links there; the words behind the names of the file and of the text;
# and why nothing is written, or the bytes of `out.bin` then.
STANDING = [
    ({"in.gltf": OTHER_BUFFER, "a.bin": b"abcd"}, {}, [], b"abcd"),
    ({"in.gltf": OTHER_BUFFER, "a.bin": b"abcd", "out.bin": b"mine"}, {}, [], IS_THERE),
    ({"in.gltf": OTHER_BUFFER, "a.bin": b"abcd", "out.bin": b"mine"}, {}, FORCE, b"abcd"),
    # A text of that name stands there, which names it, or does not, or is no text.
    ({"in.gltf": OTHER_BUFFER, "a.bin": b"abcd", "out.bin": b"mine", "out.gltf": ONE_BUFFER}, {},
     [], b"abcd"),
    ({"in.gltf": OTHER_BUFFER, "a.bin": b"abcd", "out.bin": b"mine", "out.gltf": OTHER_BUFFER}, {},
     [], IS_THERE),
    ({"in.gltf": OTHER_BUFFER, "a.bin": b"abcd", "out.bin": b"mine", "out.gltf": b"mine"}, {},
     [], IS_THERE),
    ({"in.gltf": OTHER_BUFFER, "a.bin": b"abcd", "out.bin": b"mine", "out.gltf": b"mine"}, {},
     FORCE, b"abcd"),
    # It is a file of the first one: by its name, by a link of either kind, and as an image.
    ({"in.gltf": ONE_BUFFER, "out.bin": b"mine"}, {}, [], NEEDED),
    ({"in.gltf": ONE_BUFFER, "out.bin": b"mine"}, {}, FORCE, NEEDED),
    ({"in.gltf": ONE_BUFFER, "out.bin": b"mine", "out.gltf": ONE_BUFFER}, {}, FORCE, NEEDED),
    ({"in.gltf": OTHER_BUFFER, "a.bin": b"mine"}, {"out.bin": "a.bin"}, FORCE, NEEDED),
    ({"in.gltf": OTHER_BUFFER, "out.bin": b"mine"}, {"a.bin": "out.bin"}, FORCE, NEEDED),
    ({"in.gltf": WITH_IMAGE, "out.bin": b"mine"}, {}, FORCE, NEEDED),
    ({"in.gltf": WITH_IMAGE, "out.bin": b"mine"}, {}, [*FORCE, "--keep-images"], NEEDED),
    ({"in.gltf": WITH_IMAGE, "out.bin": b"mine"}, {}, [*FORCE, "--keep-missing-images"], NEEDED),
    # A link to another file is followed, as that of a text's earlier file.
    ({"in.gltf": OTHER_BUFFER, "a.bin": b"abcd", "other": b"mine"}, {"out.bin": "other"}, [],
     IS_THERE),
    ({"in.gltf": OTHER_BUFFER, "a.bin": b"abcd", "other": b"mine"}, {"out.bin": "other"}, FORCE,
     b"abcd"),
]


def spares(convert, files, links, flags, expected):
    """Whether a text is written beside these files, and `out.bin` has these bytes then; or it is
    refused so, and all is as it was."""
    with tempfile.TemporaryDirectory() as name:
        room = pathlib.Path(name)
        room.chmod(0o777)
        for file, held in files.items():
            (room / file).write_bytes(held)
            (room / file).chmod(0o666)
        for link, target in links.items():
            (room / link).symlink_to(target)
        before = programs.state(room)
        words = ["in.gltf", "out.gltf", *flags]
        ran = subprocess.run([convert, *words], cwd=room, capture_output=True, text=True,
                             preexec_fn=programs.started())
        if isinstance(expected, str):
            good = (ran.returncode, ran.stdout, ran.stderr) == (1, "", expected)
            good = good and programs.state(room) == before
        else:
            good = (ran.returncode, ran.stderr) == (0, "")
            good = good and (room / "out.bin").read_bytes() == expected
    return programs.report(convert.name, words, good, (ran, files.keys()))


def replaces_itself(convert):
    """Whether a text may take its own place, with the files that it names, which stay what they
    are; and whether another text takes the place of the first with its files."""
    with tempfile.TemporaryDirectory() as name:
        room = pathlib.Path(name)
        room.chmod(0o777)
        how = {"cwd": room, "capture_output": True, "text": True, "preexec_fn": programs.started()}
        for file, held in {"out.gltf": ONE_BUFFER, "out.bin": b"mine", "a.bin": b"abcd",
                           "in.gltf": OTHER_BUFFER}.items():
            (room / file).write_bytes(held)
            (room / file).chmod(0o666)
        ran = [subprocess.run([convert, "out.gltf", "./out.gltf"], **how)]
        good = ran[0].returncode == 0 and (room / "out.bin").read_bytes() == b"mine"
        ran.append(subprocess.run([convert, "in.gltf", "out.gltf"], **how))
        good = good and ran[1].returncode == 0 and (room / "out.bin").read_bytes() == b"abcd"
    return programs.report(convert.name, ["out.gltf", "./out.gltf"], good, ran)


# Images of which some are missing, the indices of those that stay in a container and in a text, and
# the files that the others have beside a text.
SOME = [{"uri": "p%20q.png"}, {"uri": "lost.png", "name": "l"}, {"uri": "no/such.jpg"},
        {"uri": data("image/jpeg", PICTURES[1])}]
MISSING = {
    "lost.gltf": (IMAGES["lost.gltf"], [0], [0], {}),
    "odd.gltf": (IMAGES["odd.gltf"], [1], [],
                 {"image0.png": PICTURES[0], "image1.bin": b"odd"}),
    "text.gltf": (IMAGES["text.gltf"], [0], [], {"image0.bin": b"odd"}),
    "scheme.gltf": (IMAGES["scheme.gltf"], [0], [0], {}),
    "payload.gltf": (IMAGES["payload.gltf"], [0], [0], {}),
    "some.gltf": (SOME, [1, 2], [1, 2], {"image0.png": PICTURES[0], "image3.jpg": PICTURES[1]}),
    "kinds.gltf": (KINDS["images"], [], [], None),
}


def stay(name, images, indices):
    """What is said of the images that stay: a `data:` URI without its data."""
    uris = [(i, images[i]["uri"]) for i in indices]
    return "".join(
        f"{name}: /images/{i}/uri: "
        f'"{uri.partition(",")[0] if uri.startswith("data:") else uri}": '
        "not taken in, stays as it is\n" for i, uri in uris)


def keeps_missing(convert, room, name, ending):
    """Whether --keep-missing-images leaves the images that are missing, says so of each, and takes in
    the others, with their bytes."""
    images, in_glb, in_json, files = MISSING[name]
    staying = in_glb if ending == "glb" else in_json
    words = [name, f"missing_{ending}.{ending}", "--keep-missing-images"]
    how = {"cwd": room, "capture_output": True, "text": True, "preexec_fn": programs.started()}
    ran = subprocess.run([convert, *words], **how)
    made = {file.name: file.read_bytes() for file in room.glob("missing_*")}
    for file in made:
        (room / file).unlink()
    good = (ran.returncode, ran.stderr) == (0, stay(name, images, staying))
    whole = made.pop(words[1], b"")
    if good and ending == "glb":
        length = int.from_bytes(whole[12:16], "little")
        value, bin_chunk = json.loads(whole[20 : 20 + length]), whole[28 + length :]
        good = not made
        for i, image in enumerate(value["images"]):
            if i in staying:
                good = good and image == images[i]
                continue
            one = value["bufferViews"][image["bufferView"]]
            held = bin_chunk[one.get("byteOffset", 0) :][: one["byteLength"]]
            good = good and "uri" not in image and held == bytes_at(room, images[i]["uri"])
    elif good:
        value = json.loads(whole)
        good = [value["images"][i] for i in staying] == [images[i] for i in staying]
        if files is not None:
            good = good and made == {f"missing_gltf_{part}": held for part, held in files.items()}
    return programs.report(convert.name, words, good, [ran])


def bytes_at(room, uri):
    """The bytes that a URI leads to."""
    if uri.startswith("data:"):
        return base64.b64decode(uri.partition(",")[2])
    return (room / urllib.parse.unquote(uri)).read_bytes()


# Containers of which something is left out: members of buffers, where these become one; a chunk of
# unknown type before the BIN chunk and one behind it; bytes behind the end; and a BIN chunk that no
# buffer takes. Each with the lines that say so: for a container, and for a text.
HAS_URI = {"byteLength": 3, "uri": data("", b"123")}
OTHER = programs.chunk(b"OWN\0", b"1234")
BIN = programs.chunk(b"BIN\0", b"12345678")
OF_TEXT = {
    "other.glb": (HAS_URI | {"name": "n"}, [OTHER, OTHER], b"",
                  ["24 bytes of other chunks"], ["names, extras and extensions of 1 of the buffers"]),
    "behind.glb": ({"byteLength": 8}, [BIN, OTHER], b"tail!",
                   ["12 bytes of other chunks", "5 bytes behind the end of the container"], []),
    "blob.glb": (HAS_URI | {"extras": None}, [BIN], b"",
                 ["a BIN chunk of 8 bytes, which no buffer takes"], []),
    "extended.glb": (HAS_URI | {"extensions": {}, "extras": 0}, [], b"", [],
                     ["names, extras and extensions of 1 of the buffers"]),
    "nothing.glb": (HAS_URI | {"name": None}, [], b"", [], []),
}


def with_rest(value, chunks, rest):
    """A container of a document with this buffer and these chunks behind its text, and of what
    follows its end."""
    text = programs.document(buffers=[value])
    text += b" " * (-len(text) % 4)
    return programs.container(programs.chunk(b"JSON", text), *chunks) + rest


def tells_what_is_left(convert, room, name, ending):
    """Whether it is said of a container what the conversion leaves out of it, and all else is
    written."""
    _, _, _, both, joined = OF_TEXT[name]
    words = [name, f"rest_{ending}.{ending}"]
    how = {"cwd": room, "capture_output": True, "text": True, "preexec_fn": programs.started()}
    ran = subprocess.run([convert, *words], **how)
    made = list(room.glob("rest_*"))
    lines = (joined if ending == "glb" else []) + both
    good = ran.returncode == 0 and len(made) == (1 if ending == "glb" else 2)
    good = good and ran.stderr == "".join(f"{name}: left out: {line}\n" for line in lines)
    for file in made:
        file.unlink()
    return programs.report(convert.name, words, good, [ran])


def keeps_unknown(convert, room, name):
    """Whether --keep-unknown writes what an extension names as it stands, and says where."""
    value, place, _ = NAMING[name]
    words = [name, "unknown.gltf", "--keep-unknown"]
    how = {"cwd": room, "capture_output": True, "text": True, "preexec_fn": programs.started()}
    ran = subprocess.run([convert, *words], **how)
    text = room / "unknown.gltf"
    written = json.loads(text.read_text("utf-8")) if text.exists() else {}
    good = (ran.returncode == 0
            and ran.stderr == f"{name}: {place}: written as it stands\n"
            and {key: written.get(key) for key in value} == value)
    for made in room.glob("unknown*"):
        made.unlink()
    return programs.report(convert.name, words, good, [ran])


def main():
    with tempfile.TemporaryDirectory() as name:
        place = pathlib.Path(name)
        place.chmod(0o755)
        show, convert = (programs.copy_of(one, place) for one in ("gltf_show", "gltf_convert"))
        room = place / "converted"
        make_converted(room)
        good = [programs.refuses(convert, room, *row) for row in NOT_CONVERTED]
        good += [converts(convert, show, room, *row) for row in CONVERTED]
        good += [splits(convert, show, room, *row) for row in SPLIT]
        good += [keeps_unknown(convert, room, name) for name in NAMING]
        good += [tells_what_is_left(convert, room, name, ending)
                 for name in OF_TEXT for ending in ("glb", "gltf")]
        good += [keeps_missing(convert, room, name, ending)
                 for name in MISSING for ending in ("glb", "gltf")]
        good += [converts_square(convert, show), converts_box(convert, show)]
        good.append(programs.takes_text_alone(convert, room))
        good += outside.converts(convert, place / "outside")
        good += [spares(convert, *row) for row in STANDING]
        good.append(replaces_itself(convert))
    print(f"{sum(good)} passed, {len(good) - sum(good)} failed")
    return 0 if all(good) else 1


if __name__ == "__main__":
    sys.exit(main())
