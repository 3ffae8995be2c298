#!/usr/bin/env python3
"""Runs the proved programs `gltf_show` and `gltf_repack` on files that it makes. A row is a call:
its words, its status, and what it writes; and after the last what is in the folder. `make test`
calls it after `rt ci`. The last line is `N passed, M failed`. `tools/conversions.py` has the rows
of `gltf_convert`."""
import base64
import json
import os
import pathlib
import resource
import signal
import stat
import struct
import subprocess
import sys
import tempfile

sys.dont_write_bytecode = True

import crates

# A user who may read nothing of root's.
NOBODY = 65534
LONG = "n" * 5_000
# The greatest number that a usize holds, and the next one.
GREATEST, TOO_GREAT = str(2**64 - 1), str(2**64)


class Failed:
    """A line with the name of a file that was not read or not written, and some text after it."""

    def __init__(self, name):
        self.name = name

    def __eq__(self, text):
        begins = text.startswith(f"{self.name}: ") and len(text) > len(self.name) + 3
        return begins and text.count("\n") == 1


class Begins:
    """A text that begins so."""

    def __init__(self, text):
        self.text = text

    def __eq__(self, text):
        return text.startswith(self.text)


class Holds:
    """A text that holds this one."""

    def __init__(self, text):
        self.text = text

    def __eq__(self, text):
        return self.text in text


def chunk(kind, data):
    return struct.pack("<I4s", len(data), kind) + data


def container(*chunks, version=2):
    body = b"".join(chunks)
    return struct.pack("<4sII", b"glTF", version, 12 + len(body)) + body


def document(**members):
    return json.dumps({"asset": {"version": "2.0"}, **members}).encode()


def buffers(*pairs):
    return [{"byteLength": length, "uri": uri} for length, uri in pairs]


def view(offset, length):
    return {"buffer": 0, "byteOffset": offset, "byteLength": length}


def accessor(component_type, count, **members):
    kind = {"componentType": component_type, "count": count, "type": "SCALAR"}
    return {"bufferView": 0, **kind, **members}


def meshes(*indices):
    """One mesh, whose primitives have these accessors as their indices."""
    return [{"primitives": [{"attributes": {}, "indices": index} for index in indices]}]


OLD = container(version=1)
WHOLE = container(chunk(b"JSON", b"{}  "), chunk(b"BIN\0", bytes([1, 2, 3, 4, 5, 0, 0, 0])))
UNKNOWN = container(chunk(b"JSON", b"{}  "), chunk(b"XYZ\0", b"\xAA\xBB"), chunk(b"BIN\0", b"1234"))
# The numbers 1 and 2, of two bytes each.
NUMBERS = [(4, "data:;base64,AQACAA==")]
# Twelve bytes that are 0.
TWELVE = [(12, "data:;base64,AAAAAAAAAAAAAAAA")]
# The numbers 1, 0, 2 and 0 of one byte each; the index 1, and the 9 that it has in place of the 0.
REPLACED = [(6, "data:;base64,AQACAAEJ")]
SPARSE = {
    "count": 1,
    "indices": {"bufferView": 1, "componentType": 5121},
    "values": {"bufferView": 2},
}


def with_numbers(*accessors, **members):
    return document(bufferViews=[view(0, 4)], accessors=[*accessors], **members)


def drawn(vertices, *indices, mode=4):
    """A primitive with so many positions, which are 0, and these indices, of one byte each."""
    data = bytes(12 * vertices) + bytes(indices)
    uri = "data:;base64," + base64.b64encode(data).decode()
    positions = {"bufferView": 0, "componentType": 5126, "count": vertices, "type": "VEC3",
                 "min": [0, 0, 0], "max": [0, 0, 0]}
    numbers = {"bufferView": 1, "componentType": 5121, "count": len(indices), "type": "SCALAR"}
    primitive = {"attributes": {"POSITION": 0}, "indices": 1, "mode": mode}
    return document(
        buffers=buffers((len(data), uri)),
        bufferViews=[view(0, 12 * vertices) | {"target": 34962},
                     view(12 * vertices, len(indices)) | {"target": 34963}],
        accessors=[positions, numbers],
        meshes=[{"name": "tri", "primitives": [primitive]}],
        nodes=[{"mesh": 0}, {"mesh": 0}],
        scenes=[{"nodes": [0, 1]}],
        scene=0,
    )


def required(*names):
    return {"extensionsUsed": [*names], "extensionsRequired": [*names]}


def requiring(*names, **members):
    return document(**required(*names), **members)


def padded(text):
    return text + b" " * (-len(text) % 4)


def primitive(**members):
    return document(meshes=[{"primitives": [{"attributes": {}, **members}]}])


def variants(**members):
    return {"extensions": {"KHR_materials_variants": members}}


ELEMENT, MEMBER = "ARRAY_TYPE_MISMATCH", "TYPE_MISMATCH"
A_SIZE = "wanted a whole number from 0 to 18446744073709551615"
AN_INDEX = "wanted a whole number from 0 to 4294967295"
PRIMITIVE = "/meshes/0/primitives/0"
VARIANTS = "extensions/KHR_materials_variants"
# Control characters and a separator of lines in a text, as reports show them.
FORGED = r"\u000aerror\u007f\u0085\u2028B"
# Files with a value of the wrong kind: the code and its pointer, the loader's name of the place,
# and what was found and wanted.
KINDS = {
    "array.gltf": (b"[]", MEMBER, "", "", "a list, wanted an object"),
    "list.gltf": (document(nodes={}), MEMBER, "/nodes", "nodes", "an object, wanted a list"),
    "null.gltf": (document(nodes=[None]), ELEMENT, "/nodes/0", "nodes[0]",
                  "null, wanted an object"),
    "second.gltf": (document(materials=[{}, None]), ELEMENT, "/materials/1", "materials[1]",
                    "null, wanted an object"),
    "half.gltf": (document(accessors=[accessor(5121, 1.5)]), MEMBER, "/accessors/0/count",
                  "accessors[0].count", f"1.5, {A_SIZE}"),
    "below.gltf": (document(accessors=[accessor(5121, -1)]), MEMBER, "/accessors/0/count",
                   "accessors[0].count", f"-1, {A_SIZE}"),
    "quoted.gltf": (document(accessors=[accessor(5121, "3")]), MEMBER, "/accessors/0/count",
                    "accessors[0].count", f"a string, {A_SIZE}"),
    "sparse.gltf": (document(accessors=[accessor(5121, 1, sparse={"count": 1, "indices": 0})]),
                    MEMBER, "/accessors/0/sparse/indices", "accessors[0].sparse.indices",
                    "0, wanted an object"),
    "attribute.gltf": (primitive(attributes={"POSITION": "x"}), MEMBER,
                       f"{PRIMITIVE}/attributes/POSITION",
                       'meshes[0].primitives[0].attributes["POSITION"]', f"a string, {AN_INDEX}"),
    "slash.gltf": (primitive(attributes={"_A/B~": "x"}), MEMBER,
                   f"{PRIMITIVE}/attributes/_A~1B~0",
                   'meshes[0].primitives[0].attributes["_A/B~"]', f"a string, {AN_INDEX}"),
    "forged.gltf": (primitive(attributes={"_A\nerror\x7f\x85\u2028B": "x"}), MEMBER,
                    f"{PRIMITIVE}/attributes/_A{FORGED}",
                    f'meshes[0].primitives[0].attributes["_A{FORGED}"]', f"a string, {AN_INDEX}"),
    "drawn.gltf": (primitive(indices={}), MEMBER, f"{PRIMITIVE}/indices",
                   "meshes[0].primitives[0].indices", f"an object, {AN_INDEX}"),
    "version.gltf": (b'{"asset":{"version":2}}', MEMBER, "/asset/version", "asset.version",
                     "2, wanted a string"),
    "flag.gltf": (document(materials=[{"doubleSided": 1}]), MEMBER, "/materials/0/doubleSided",
                  "materials[0].doubleSided", "1, wanted true or false"),
    "texture.gltf": (document(materials=[{"normalTexture": 0}]), MEMBER,
                     "/materials/0/normalTexture", "materials[0].normalTexture",
                     "0, wanted an object"),
    "great.gltf": (document(textures=[{"source": 2 ** 32}]), MEMBER, "/textures/0/source",
                   "textures[0].source", f"4294967296, {AN_INDEX}"),
    "uri.gltf": (document(images=[{"uri": []}]), MEMBER, "/images/0/uri", "images[0].uri",
                 "a list, wanted a string"),
    "used.gltf": (document(extensionsUsed=[5]), ELEMENT, "/extensionsUsed/0", "extensionsUsed[0]",
                  "5, wanted a string"),
    "scene.gltf": (document(scenes=[{"nodes": [{}]}]), ELEMENT, "/scenes/0/nodes/0",
                   "scenes[0].nodes[0]", f"an object, {AN_INDEX}"),
    "kind.gltf": (document(nodes=[{"children": [True]}]), ELEMENT, "/nodes/0/children/0",
                  "nodes[0].children[0]", f"true or false, {AN_INDEX}"),
    "target.gltf": (document(bufferViews=[view(0, 4) | {"target": {}}]), MEMBER,
                    "/bufferViews/0/target", "bufferViews[0].target", f"an object, {A_SIZE}"),
    "channel.gltf": (document(animations=[{"channels": [{"sampler": 0, "target": 5}]}]), MEMBER,
                     "/animations/0/channels/0/target", "animations[0].channels[0].target",
                     "5, wanted an object"),
    "unlit.gltf": (document(materials=[{"extensions": {"KHR_materials_unlit": False}}]), MEMBER,
                   "/materials/0/extensions/KHR_materials_unlit",
                   "materials[0].extensions.KHR_materials_unlit",
                   "true or false, wanted an object"),
    "variant.gltf": (document(**variants(variants=["a"])), ELEMENT, f"/{VARIANTS}/variants/0",
                     "extensions.KHR_materials_variants.variants[0]", "a string, wanted an object"),
    "mapping.gltf": (primitive(**variants(mappings=[{"material": 0, "variants": ["a"]}])), ELEMENT,
                     f"{PRIMITIVE}/{VARIANTS}/mappings/0/variants/0",
                     "meshes[0].primitives[0].extensions.KHR_materials_variants.mappings[0]"
                     ".variants[0]", f"a string, {AN_INDEX}"),
    "kind.glb": (container(chunk(b"JSON", b'{"scene":"0","asset":{"version":"2.0"}} '),
                           chunk(b"BIN\0", b"1234")), MEMBER, "/scene", "scene",
                 f"a string, {AN_INDEX}"),
}


def shown(room):
    """The files that `gltf_show` is called on."""
    numbers, indices = accessor(5123, 2), {"meshes": meshes(0)}
    outside = with_numbers(numbers, buffers=buffers((4, "b%20c.bin")), **indices)
    more = document(
        buffers=buffers(*REPLACED),
        bufferViews=[view(0, 4), view(4, 1), view(5, 1)],
        accessors=[accessor(5121, 4, sparse=SPARSE), accessor(5125, 1), accessor(5125, 2)],
        meshes=[{"primitives": [{"attributes": {}}]}, *meshes(0, 1, 2)],
    )
    files = {
        "box.glb": WHOLE,
        "unknown.glb": UNKNOWN,
        "cut.glb": WHOLE[:24],
        "old.glb": OLD,
        "old.gltf": b'{"asset":{"version":"1.0"},"meshes":{"mesh":{}}}',
        "mixed.gltf": b'{"asset":{"version":"1.1"},"nodes":[{"mesh":3}]}',
        "plain.gltf": with_numbers(numbers, buffers=buffers(*NUMBERS)),
        "dangling.gltf": document(nodes=[{"mesh": 3, "skin": 0}]),
        "row.gltf": with_numbers(numbers, buffers=buffers(*NUMBERS), **indices),
        "float.gltf": with_numbers(accessor(5126, 1), buffers=buffers(*NUMBERS), **indices),
        "more.gltf": more,
        "outside.gltf": outside,
        "models/outside.gltf": outside,
        "models/far.gltf": document(buffers=buffers((4, "near.bin"))),
        "models/near.bin": b"near",
        "models/b c.bin": struct.pack("<2H", 3, 4),
        "b c.bin": struct.pack("<2H", 1, 2),
        "short.gltf": document(buffers=buffers((5, f"file://{room}/abc"))),
        "absolute.gltf": document(buffers=buffers((5, f"{room}/abc"))),
        "abc": b"abc",
        "two.gltf": document(buffers=buffers((4, "b%20c.bin"), (4, "no%20such.bin"))),
        "locked": b"1",
        "empty.gltf": document(),
        "twice.gltf": document(nodes=[{"children": [2]}, {"children": [2]}, {}]),
        "once.gltf": document(nodes=[{"children": [1]}, {}]),
        "past.gltf": document(
            buffers=buffers(*TWELVE),
            bufferViews=[{"buffer": 0, "byteLength": 12, "byteOffset": 1}],
            accessors=[{"bufferView": 0, "byteOffset": 2, "componentType": 5126, "count": 1,
                        "type": "VEC3"}],
        ),
        "fits.gltf": document(
            buffers=buffers(*TWELVE),
            bufferViews=[{"buffer": 0, "byteLength": 12}],
            accessors=[{"bufferView": 0, "componentType": 5126, "count": 1, "type": "VEC3"}],
        ),
        "blobless.gltf": document(buffers=[{"byteLength": 4}]),
        "payload.gltf": document(buffers=buffers((4, "data:;base64,****"))),
        # A text of more than 16 MiB is not kept.
        "long.gltf": b"[]" + b" " * 2 ** 24,
        "text.gltf": b'{"asset":',
        "tiny.glb": b"glTF\2\0\0\0\14\0\0",
        "short.glb": b"glTF\2\0\0\0\13\0\0\0",
        "headless.glb": b"glTF\2\0\0\0\20\0\0\0\4\0\0\0",
        "first.glb": container(chunk(b"BIN\0", b"1234")),
        "strange.glb": container(chunk(b"XYZ\0", b"1234")),
        "second.glb": container(chunk(b"JSON", b"{}  "), chunk(b"JSON", b"{}  ")),
        "big.glb": container(chunk(b"JSON", b"{}  "), struct.pack("<I4s", 8, b"BIN\0")),
        "indices.gltf": drawn(3, 0, 1, 2),
        "above.gltf": drawn(3, 0, 1, 3),
        "restart.gltf": drawn(3, 0, 1, 255),
        "thin.gltf": drawn(3, 2, 1, 2),
        "strip.gltf": drawn(3, 2, 1, 2, mode=5),
        "--dashed.gltf": document(),
        "draco.gltf": requiring("KHR_draco_mesh_compression"),
        "draco.glb": container(chunk(b"JSON", padded(requiring("KHR_draco_mesh_compression")))),
        "packed.gltf": with_numbers(numbers, buffers=buffers(*NUMBERS), **indices,
                                    **required("KHR_materials_unlit", "KHR_mesh_quantization",
                                               "EXT_meshopt_compression")),
        "forged name.gltf": requiring("A\nB"),
        "dangling draco.gltf": requiring("KHR_draco_mesh_compression", nodes=[{"mesh": 3}]),
        "basis.gltf": requiring("KHR_texture_basisu", images=[{"uri": "a.ktx2"}],
                                textures=[{"extensions": {"KHR_texture_basisu": {"source": 0}}}]),
        "moved.gltf": document(
            animations=[{"channels": [{"sampler": 0, "target": {"path": "translation"}}],
                         "samplers": [{"input": 0, "output": 0}]}],
            accessors=[accessor(5126, 1)], bufferViews=[view(0, 4)], buffers=buffers(*NUMBERS)),
        "extended.gltf": document(**USED),
        "named.gltf": document(materials=[{"name": "a\tb</script>"}]),
        "of\ntwo lines.gltf": document(),
        "unsourced.gltf": document(textures=[{}]),
    }
    files |= {name: contents for name, (contents, *_) in KINDS.items()}
    for name in ("missing", "folder", "locked", LONG):
        files[f"names {name[:9]}.gltf"] = document(buffers=buffers((1, name)))
    return files


USAGE = ("usage: gltf_show chunks PATH | check PATH [--extensions[=NAME,..]] [--lenient] | "
         "indices PATH MESH PRIMITIVE [--extensions[=NAME,..]] [--lenient] | "
         "inspect PATH.. [--json [--pretty]] [--no-files|--outside] | "
         "inspect PATH --html [--no-files|--outside]\n")
FIRST = "this is a glTF 1.0 file; glTF 2.0 is supported\n"
DANGLING = ("invalid glTF: nodes[0].mesh: Index out of bounds; "
            "nodes[0].skin: Index out of bounds;\n")
UNSUPPORTED = "invalid glTF: extensionsRequired[0]: Unsupported extension;\n"
BOTH = ("invalid glTF: extensionsRequired[1]: Unsupported extension; "
        "extensionsRequired[2]: Unsupported extension;\n")
UNSOURCED = "textures[0].source: missing member\n"


def flag(*names):
    return f"--extensions={','.join(names)} takes this file; what they say is not read\n"


DRACO, QUANTIZED = "KHR_draco_mesh_compression", "KHR_mesh_quantization"
MESHOPT, BASIS = "EXT_meshopt_compression", "KHR_texture_basisu"
NO_MESH, NO_PRIMITIVE, NO_INDICES = "no such mesh\n", "no such primitive\n", "no indices\n"

# The words, the status, the output, and the error.
SHOWS = [
    (["chunks", "box.glb"], 0, "glTF 2 40\nJSON 4\nBIN 8\n", ""),
    (["chunks", "unknown.glb"], 0, "glTF 2 46\nJSON 4\nBIN 4\n", ""),
    (["chunks", "old.glb"], 1, "", "unsupported version\n"),
    (["chunks", "cut.glb"], 1, "", "could not completely read the object\n"),
    (["check", "plain.gltf"], 0, "ok buffers=1 accessors=1 meshes=0 nodes=0\n", ""),
    (["check", "dangling.gltf"], 1, "", DANGLING),
    (["check", "old.glb"], 1, "", f"unsupported version\n{FIRST}"),
    (["check", "old.gltf"], 1, "", f"meshes: wrong kind\n{FIRST}"),
    (["check", "mixed.gltf"], 1, "",
     f"invalid glTF: nodes[0].mesh: Index out of bounds;\n{FIRST}"),
    (["indices", "old.gltf", "0", "0"], 1, "", "meshes: wrong kind\n"),
    (["check", "outside.gltf"], 0, "ok buffers=1 accessors=1 meshes=1 nodes=0\n", ""),
    (["check", "short.gltf"], 1, "", "buffer 0: expected 5 bytes but received 4 bytes\n"),
    (["check", "absolute.gltf"], 1, "", "buffer 0: expected 5 bytes but received 4 bytes\n"),
    (["indices", "outside.gltf", "0", "0"], 0, "1\n2\n", ""),
    (["indices", "models/outside.gltf", "0", "0"], 0, "3\n4\n", ""),
    (["indices", "row.gltf", "0", "0"], 0, "1\n2\n", ""),
    (["indices", "row.gltf", "00", "000"], 0, "1\n2\n", ""),
    (["indices", "more.gltf", "1", "0"], 0, "1\n9\n2\n0\n", ""),
    (["indices", "more.gltf", "1", "1"], 0, "131073\n", ""),
    (["indices", "row.gltf", "0", "1"], 1, "", NO_PRIMITIVE),
    (["indices", "row.gltf", "0", GREATEST], 1, "", NO_PRIMITIVE),
    (["indices", "row.gltf", "1", "1"], 1, "", NO_MESH),
    (["indices", "row.gltf", GREATEST, "0"], 1, "", NO_MESH),
    (["indices", "plain.gltf", "0", "0"], 1, "", NO_MESH),
    (["indices", "float.gltf", "0", "0"], 1, "", NO_INDICES),
    (["indices", "more.gltf", "0", "0"], 1, "", NO_INDICES),
    (["indices", "more.gltf", "1", "2"], 1, "", NO_INDICES),
    (["indices", "dangling.gltf", "0", "0"], 1, "", DANGLING),
    (["indices", "box.glb", "0", "0"], 1, "", "asset: missing member\n"),
    (["check", "draco.gltf"], 1, "", UNSUPPORTED + flag(DRACO)),
    (["check", "draco.glb"], 1, "", UNSUPPORTED + flag(DRACO)),
    (["check", "draco.gltf", "--extensions"], 1, "", UNSUPPORTED + flag(DRACO)),
    (["check", "draco.gltf", f"--extensions=A,{DRACO}"], 0,
     "ok buffers=0 accessors=0 meshes=0 nodes=0\n", ""),
    (["check", "draco.glb", f"--extensions={DRACO}"], 0,
     "ok buffers=0 accessors=0 meshes=0 nodes=0\n", ""),
    (["check", "packed.gltf"], 1, "", BOTH + flag(QUANTIZED, MESHOPT)),
    (["check", "packed.gltf", "--extensions"], 0,
     "ok buffers=1 accessors=1 meshes=1 nodes=0\n", ""),
    (["check", "packed.gltf", f"--extensions={MESHOPT}"], 1, "",
     "invalid glTF: extensionsRequired[1]: Unsupported extension;\n" + flag(QUANTIZED, MESHOPT)),
    (["indices", "packed.gltf", "0", "0"], 1, "", BOTH + flag(QUANTIZED, MESHOPT)),
    (["indices", "packed.gltf", "0", "0", "--extensions"], 0, "1\n2\n", ""),
    (["indices", "packed.gltf", "0", "0", "--extensions", "--lenient"], 0, "1\n2\n", ""),
    (["check", "forged name.gltf"], 1, "", UNSUPPORTED + flag(r"A\u000aB")),
    (["check", "dangling draco.gltf"], 1, "",
     "invalid glTF: nodes[0].mesh: Index out of bounds; "
     "extensionsRequired[0]: Unsupported extension;\n"),
    (["check", "basis.gltf"], 1, "", UNSOURCED),
    (["check", "basis.gltf", "--extensions"], 1, "", UNSOURCED),
    (["check", "basis.gltf", "--lenient"], 1, "", UNSUPPORTED + flag(BASIS)),
    (["check", "basis.gltf", "--lenient", "--extensions"], 0,
     "ok buffers=0 accessors=0 meshes=0 nodes=0\n", ""),
    (["check", "moved.gltf"], 1, "",
     "animations[0].channels[0].target.node: missing member\n"),
    (["check", "moved.gltf", "--lenient"], 0, "ok buffers=1 accessors=1 meshes=0 nodes=0\n", ""),
    (["check", "plain.gltf", "--extensions", "--lenient"], 0,
     "ok buffers=1 accessors=1 meshes=0 nodes=0\n", ""),
    (["check", "plain.gltf", "--lenient", "--lenient"], 2, "", USAGE),
    (["check", "plain.gltf", "--extensions", "--extensions=A"], 2, "", USAGE),
    (["check", "plain.gltf", "--extensions="], 2, "", USAGE),
    (["check", "plain.gltf", "--nothing"], 2, "", USAGE),
    (["check", "--lenient", "plain.gltf"], 2, "", USAGE),
    ([], 2, "", USAGE),
    (["chunks"], 2, "", USAGE),
    (["chunks", "box.glb", "box.glb"], 2, "", USAGE),
    (["check"], 2, "", USAGE),
    (["Chunks", "no.glb"], 2, "", USAGE),
    (["indices", "a", "0"], 2, "", USAGE),
    (["indices", "a", "0", TOO_GREAT], 2, "", USAGE),
    (["indices", "a", TOO_GREAT, "0"], 2, "", USAGE),
    (["indices", "row.gltf", "0", "+0"], 2, "", USAGE),
    (["indices", "row.gltf", "-0", "0"], 2, "", USAGE),
    (["indices", "row.gltf", "0", ""], 2, "", USAGE),
    (["indices", "row.gltf", "0x0", "0"], 2, "", USAGE),
    (["indices", "row.gltf", "0", "\u0660"], 2, "", USAGE),
    (["indices", "row.gltf", "0", "0", "0"], 2, "", USAGE),
    (["indices", "row.gltf"], 2, "", USAGE),
    (["chunks", "no.glb"], 1, "", Failed("no.glb")),
    (["indices", "no.glb", "0", "0"], 1, "", Failed("no.glb")),
    (["check", "two.gltf"], 1, "", Failed("no such.bin")),
    (["indices", "two.gltf", "0", "0"], 1, "", Failed("no such.bin")),
    (["check", "missing"], 1, "", Failed("missing")),
    (["check", "folder"], 1, "", Failed("folder")),
    (["check", "locked"], 1, "", Failed("locked")),
    (["chunks", "locked"], 1, "", Failed("locked")),
    (["check", LONG], 1, "", Failed(LONG)),
    (["check", "names missing.gltf"], 1, "", Failed("missing")),
    (["check", "names folder.gltf"], 1, "", Failed("folder")),
    (["check", "names locked.gltf"], 1, "", Failed("locked")),
    (["check", f"names {LONG[:9]}.gltf"], 1, "", Failed(LONG)),
]


# The sentences of codes, and their severities, as docs/INSPECT.md has them.
SENTENCES = {
    "UNRESOLVED_REFERENCE": "The index leads to no element of its list.",
    "ACCESSOR_OFFSET_ALIGNMENT": "The offset is not a multiple of the size of a component.",
    "ACCESSOR_TOTAL_OFFSET_ALIGNMENT":
        "The offset and that of the view together are not a multiple of the size of a component.",
    "ACCESSOR_TOO_LONG": "The items do not fit into the view.",
    "BUFFER_VIEW_TOO_LONG": "The view does not fit into its buffer.",
    "IO_ERROR": "A file cannot be read.",
    "INVALID_URI": "The URI cannot be decoded.",
    "BUFFER_MISSING_GLB_DATA":
        "The buffer has no uri, and the file has no binary chunk for it.",
    "BUFFER_BYTE_LENGTH_MISMATCH": "The buffer has fewer bytes than its byteLength.",
    "GLB_INVALID_VERSION": "The version of the container is not 2.",
    "GLB_LENGTH_TOO_SMALL": "The length in the header is less than that of the header.",
    "GLB_LENGTH_MISMATCH": "The length in the header is not that of the file.",
    "GLB_UNEXPECTED_END_OF_HEADER": "The file ends within the header.",
    "GLB_UNEXPECTED_END_OF_CHUNK_HEADER": "The file ends within the header of a chunk.",
    "GLB_CHUNK_TOO_BIG": "The chunk is longer than what is left of the file.",
    "GLB_UNEXPECTED_FIRST_CHUNK": "The first chunk is not the JSON chunk.",
    "GLB_DUPLICATE_CHUNK": "There is a chunk of this type already.",
    "INVALID_JSON": "The text is not JSON.",
    "UNDEFINED_PROPERTY": "A member is absent that has to be there.",
    "TYPE_MISMATCH": "The value is not of the type that the standard gives this member.",
    "ARRAY_TYPE_MISMATCH":
        "The element is not of the type that the standard gives those of this list.",
    "ACCESSOR_INDEX_OOB": "An index is at or above the number of vertices.",
    "ACCESSOR_INDEX_PRIMITIVE_RESTART":
        "An index is the greatest of its type, which would restart the primitive.",
    "ACCESSOR_INDEX_TRIANGLE_DEGENERATE": "A triangle names a vertex twice.",
    "NODE_PARENT_OVERRIDE": "The node is a child already.",
    "NODE_EMPTY": "The node is empty, and no skin has it as a joint.",
    "UNSUPPORTED_EXTENSION":
        "This reader does not know the extension, and leaves its data as they stand.",
    "UNUSED_OBJECT": "No member of the document names this object.",
}


PARTS = ["SCENES", "MESHES", "MATERIALS", "IMAGES", "ANIMATIONS", "BUFFERS", "EXTENSIONS"]


def tables(**parts):
    """The tables of a file that is loaded; each with its rows, none where it is not given."""
    return "\n" + "".join(parts.get(part, f"{part}  none\n") for part in PARTS)


def says(code, numbers=None):
    """The text of a message: its sentence, and then its numbers where it has some."""
    return f"{SENTENCES[code]} Found {numbers}." if numbers else SENTENCES[code]


def told(name, *found, infos=0, refused=None, holds=None):
    """The report of a file: what is found as (code, pointer) or (code, pointer, numbers), of which
    the last are infos; why it holds no document; and the tables, where it is loaded."""
    errors = len(found) - infos
    words = ["error"] * errors + ["info"] * infos
    lines = [f"{word} {code} {pointer or '-'} {says(code, *numbers)}\n"
             for word, (code, pointer, *numbers) in zip(words, found)]
    counts = f"FINDINGS  errors: {errors}, warnings: 0, infos: {infos}, hints: 0\n"
    cause = f"refused: {refused}\n" if refused else ""
    return f"{name}\n{counts}{''.join(lines)}{cause}{holds or ''}"


INFO = {"animationCount": 0, "drawCallCount": 0, "hasDefaultScene": False,
        "hasMorphTargets": False, "hasSkins": False, "hasTextures": False, "materialCount": 0,
        "totalVertexCount": 0, "version": "2.0"}


def told_json(name, *found, infos=0, info=None):
    """The same as a line of JSON."""
    errors = len(found) - infos
    grades = [0] * errors + [2] * infos
    messages = [{"code": code, "message": says(code, *numbers), "pointer": pointer,
                 "severity": grade}
                for grade, (code, pointer, *numbers) in zip(grades, found)]
    issues = {"messages": messages, "numErrors": errors, "numHints": 0, "numInfos": infos,
              "numWarnings": 0, "truncated": False}
    whole = {**({"info": info} if info else {}), "issues": issues, "uri": name,
             "validatorVersion": "gltf_inspect 1"}
    return json.dumps(whole, separators=(",", ":")) + "\n"


def unused(*pointers):
    return [("UNUSED_OBJECT", pointer) for pointer in pointers]


LOST = [("UNRESOLVED_REFERENCE", "/nodes/0/mesh"), ("UNRESOLVED_REFERENCE", "/nodes/0/skin"),
        *unused("/nodes/0")]
EMPTY = "NODE_EMPTY"
TWICE = [("NODE_PARENT_OVERRIDE", "/nodes/1/children/0"), *unused("/nodes/0", "/nodes/1"),
         (EMPTY, "/nodes/2")]
# Eleven bytes for an item of twelve, at an offset that is no multiple of four.
PAST = [("ACCESSOR_OFFSET_ALIGNMENT", "/accessors/0/byteOffset", "2, wanted a multiple of 4"),
        ("ACCESSOR_TOTAL_OFFSET_ALIGNMENT", "/accessors/0/byteOffset",
         "3, wanted a multiple of 4"),
        ("ACCESSOR_TOO_LONG", "/accessors/0/byteOffset", "14, wanted at most 12"),
        ("BUFFER_VIEW_TOO_LONG", "/bufferViews/0/byteLength", "13, wanted at most 12"),
        *unused("/accessors/0")]
TWELVE_TABLE = "BUFFERS\n# name storage  size uri\n0 -    data-uri 12   -\n"
TWELVE_TABLES = tables(BUFFERS=TWELVE_TABLE)
NAMED = "MATERIALS\n# name              instances alphaMode doubleSided\n" \
    "0 a\\u0009b</script> 0         OPAQUE    false\n"
INDICES = "/meshes/0/primitives/0/indices"


def drawn_tables(mode):
    wide = "mode     " if mode == "TRIANGLES" else "mode          "
    return tables(
        SCENES="SCENES\n# name roots\n0 -    2\n",
        MESHES=f"MESHES\n# name {wide} primitives vertices indices attributes instances\n"
               f"0 tri  {mode} 1          3        3       POSITION   2\n",
        BUFFERS="BUFFERS\n# name storage  size uri\n0 -    data-uri 39   -\n",
    )


def single(name, code, pointer, refused, *numbers):
    """A file that holds no document, for one reason."""
    return (["inspect", name], 1, told(name, (code, pointer, *numbers), refused=refused), "")


def of_indices(name, *found, infos=0, mode="TRIANGLES"):
    text = told(name, *found, infos=infos, holds=drawn_tables(mode))
    return (["inspect", name], 1 if len(found) > infos else 0, text, "")


# A file that breaks no rule, and that is not loaded.
UNSOURCED = ("unsourced.gltf\nFINDINGS  errors: 0, warnings: 1, infos: 0, hints: 0\n"
             "warning MEMBER_NEEDED_BY_READER /textures/0/source The standard lets this member be "
             "absent, and this reader does not load a file without it.\n"
             "refused: textures[0].source: missing member\n")

# Extensions that a file uses, one of which is required.
USED = {"extensionsUsed": ["KHR_materials_unlit", "KHR_materials_sheen", "STUDIO"],
        "extensionsRequired": ["KHR_materials_unlit"]}
UNREAD = [("UNSUPPORTED_EXTENSION", "/extensionsUsed/2")]
EXTENDED = "EXTENSIONS\n# name                required read\n" \
    "0 KHR_materials_unlit true     document\n" \
    "1 KHR_materials_sheen false    handles\n" \
    "2 STUDIO              false    JSON\n"
EXTENDED_INFO = {name: (INFO | USED)[name] for name in sorted(INFO | USED)}
CUT, ENDED = "could not completely read the object", "failed to fill whole buffer"
# A buffer in the folder of its file.
FAR = "BUFFERS\n# name storage  size uri\n0 -    external 4    near.bin\n"

SHOWS += [
    (["inspect", "empty.gltf"], 0, told("empty.gltf", holds=tables()), ""),
    (["inspect", "dangling.gltf"], 1, told("dangling.gltf", *LOST, infos=1), ""),
    (["inspect", "twice.gltf"], 1, told("twice.gltf", *TWICE, infos=3, holds=tables()), ""),
    (["inspect", "once.gltf"], 0,
     told("once.gltf", *unused("/nodes/0"), (EMPTY, "/nodes/1"), infos=2, holds=tables()), ""),
    (["inspect", "past.gltf"], 1, told("past.gltf", *PAST, infos=1, holds=TWELVE_TABLES), ""),
    (["inspect", "fits.gltf"], 0,
     told("fits.gltf", *unused("/accessors/0"), infos=1, holds=TWELVE_TABLES), ""),
    (["inspect", "named.gltf"], 0,
     told("named.gltf", *unused("/materials/0"), infos=1, holds=tables(MATERIALS=NAMED)), ""),
    (["inspect", "--json", "past.gltf"], 1, told_json("past.gltf", *PAST, infos=1, info=INFO), ""),
    (["inspect", "twice.gltf", "empty.gltf", "--json"], 1,
     told_json("twice.gltf", *TWICE, infos=3, info=INFO) + told_json("empty.gltf", info=INFO), ""),
    (["inspect", "missing", "empty.gltf"], 2, told("empty.gltf", holds=tables()),
     Failed("missing")),
    (["inspect", "box.glb", "empty.gltf"], 1,
     told("box.glb", ("UNDEFINED_PROPERTY", "/asset"), refused="asset: missing member")
     + told("empty.gltf", holds=tables()), ""),
    single("old.glb", "GLB_INVALID_VERSION", "", "unsupported version"),
    single("cut.glb", "GLB_LENGTH_MISMATCH", "", CUT),
    single("tiny.glb", "GLB_UNEXPECTED_END_OF_HEADER", "", ENDED),
    single("short.glb", "GLB_LENGTH_TOO_SMALL", "", CUT),
    single("headless.glb", "GLB_UNEXPECTED_END_OF_CHUNK_HEADER", "", ENDED),
    single("first.glb", "GLB_UNEXPECTED_FIRST_CHUNK", "", r"was not expecting BIN\0 chunk"),
    single("strange.glb", "GLB_UNEXPECTED_FIRST_CHUNK", "", "unknown chunk type"),
    single("second.glb", "GLB_DUPLICATE_CHUNK", "", "was not expecting JSON chunk"),
    single("big.glb", "GLB_CHUNK_TOO_BIG", "", r"BIN\0 chunk length exceeds that of slice"),
    single("text.gltf", "INVALID_JSON", "", "EOF while parsing at line 1 column 9"),
    *(single(name, code, pointer, f"{place}: wrong kind", kinds)
      for name, (_, code, pointer, place, kinds) in KINDS.items()),
    single("long.gltf", MEMBER, "", ": wrong kind"),
    (["inspect", "unsourced.gltf"], 0, UNSOURCED, ""),
    (["check", "unsourced.gltf"], 1, "", "textures[0].source: missing member\n"),
    (["inspect", "--no-files", "list.gltf"], 1,
     told("list.gltf", (MEMBER, "/nodes", "an object, wanted a list"), refused="nodes: wrong kind"),
     ""),
    (["inspect", "--json", "half.gltf", "kind.glb"], 1,
     told_json("half.gltf", (MEMBER, "/accessors/0/count", f"1.5, {A_SIZE}"))
     + told_json("kind.glb", (MEMBER, "/scene", f"a string, {AN_INDEX}")), ""),
    (["inspect", "--html", "null.gltf"], 1,
     Holds(f"<td>/nodes/0<td>{says(ELEMENT, 'null, wanted an object')}"), ""),
    (["inspect", "--outside", "short.gltf"], 1,
     told("short.gltf", ("BUFFER_BYTE_LENGTH_MISMATCH", "/buffers/0"), *unused("/buffers/0"),
          infos=1), ""),
    (["inspect", "blobless.gltf"], 1,
     told("blobless.gltf", ("BUFFER_MISSING_GLB_DATA", "/buffers/0"), *unused("/buffers/0"),
          infos=1), ""),
    (["inspect", "payload.gltf"], 1,
     told("payload.gltf", ("INVALID_URI", "/buffers/0/uri"), *unused("/buffers/0"), infos=1), ""),
    (["inspect", "two.gltf"], 1,
     told("two.gltf", ("IO_ERROR", "/buffers/1/uri"), *unused("/buffers/0", "/buffers/1"),
          infos=2), ""),
    (["inspect", "two.gltf", "--no-files"], 1,
     told("two.gltf", ("IO_ERROR", "/buffers/0/uri"), ("IO_ERROR", "/buffers/1/uri"),
          *unused("/buffers/0", "/buffers/1"), infos=2), ""),
    (["inspect", "models/far.gltf"], 0,
     told("models/far.gltf", *unused("/buffers/0"), infos=1, holds=tables(BUFFERS=FAR)), ""),
    (["inspect", "--json", "empty.gltf", "models/far.gltf"], 0,
     told_json("empty.gltf", info=INFO)
     + told_json("models/far.gltf", *unused("/buffers/0"), infos=1, info=INFO), ""),
    of_indices("indices.gltf"),
    of_indices("above.gltf", ("ACCESSOR_INDEX_OOB", INDICES)),
    of_indices("restart.gltf", ("ACCESSOR_INDEX_PRIMITIVE_RESTART", INDICES)),
    of_indices("thin.gltf", ("ACCESSOR_INDEX_TRIANGLE_DEGENERATE", INDICES), infos=1),
    of_indices("strip.gltf", mode="TRIANGLE_STRIP"),
    (["inspect", "extended.gltf"], 0,
     told("extended.gltf", *UNREAD, infos=1, holds=tables(EXTENSIONS=EXTENDED)), ""),
    (["inspect", "--json", "extended.gltf"], 0,
     told_json("extended.gltf", *UNREAD, infos=1, info=EXTENDED_INFO), ""),
    (["inspect", "--", "--dashed.gltf"], 0, told("--dashed.gltf", holds=tables()), ""),
    (["inspect", "of\ntwo lines.gltf"], 0, told(r"of\u000atwo lines.gltf", holds=tables()), ""),
    (["inspect", "--json", "--", "empty.gltf", "--dashed.gltf"], 0,
     told_json("empty.gltf", info=INFO) + told_json("--dashed.gltf", info=INFO), ""),
    (["check", "--", "--dashed.gltf"], 0, "ok buffers=0 accessors=0 meshes=0 nodes=0\n", ""),
    (["inspect", "--"], 2, "", USAGE),
    (["inspect"], 2, "", USAGE),
    (["inspect", "--json"], 2, "", USAGE),
    (["inspect", "--jason", "empty.gltf"], 2, "", f"--jason: no such option\n{USAGE}"),
    (["inspect", "--html", "a", "b"], 2, "", f"--html: one file at a time\n{USAGE}"),
    (["inspect", "--html", "--json", "a"], 2, "", f"--html: not with --json or --pretty\n{USAGE}"),
    (["inspect", "--no-files", "--outside", "a"], 2, "",
     f"--outside: not with --no-files\n{USAGE}"),
    (["inspect", "--pretty", "a"], 2, "", f"--pretty: only with --json\n{USAGE}"),
]

# What an output takes, and one byte more, before it fails.
FULL = [
    (["chunks", "box.glb"], "glTF 2 40\n"),
    (["indices", "row.gltf", "0", "0"], "1\n"),
]

# A report of a file without errors, which is written to a full device.
UNWRITTEN = ["inspect", "empty.gltf"]

REPACK_USAGE = Begins("usage: gltf_repack IN OUT\n")
# What the text `{}` is repacked as.
PACKED = container(chunk(b"JSON", b"{}  "))
WHOLE_FILE = "{}: 24 bytes\n".format
NO_FILE = "{}: not a regular file\n".format
# The words, the status, the output, the error, and what the call changes.
REPACKS = [
    (["in.gltf", "out.glb"], 0, WHOLE_FILE("out.glb"), "", {"out.glb": ("-rw-r--r--", PACKED)}),
    (["out.glb", "out.glb"], 0, WHOLE_FILE("out.glb"), "", {}),
    (["in.gltf", "private.glb"], 0, WHOLE_FILE("private.glb"), "",
     {"private.glb": ("-rw-------", PACKED)}),
    (["in.gltf", "shared.glb"], 0, WHOLE_FILE("shared.glb"), "",
     {"shared.glb": ("-rw-rw-rw-", PACKED)}),
    (["in.gltf", "read_only.glb"], 0, WHOLE_FILE("read_only.glb"), "",
     {"read_only.glb": ("-r--r-----", PACKED)}),
    (["in.gltf", "link.glb"], 0, WHOLE_FILE("link.glb"), "",
     {"linked.glb": ("-rw-------", PACKED)}),
    (["old.glb", "private.glb"], 1, "", "unsupported version\n", {}),
    (["no.gltf", "out.glb"], 1, "", Failed("no.gltf"), {}),
    (["folder", "out.glb"], 1, "", Failed("folder"), {}),
    (["locked", "out.glb"], 1, "", Failed("locked"), {}),
    (["in.gltf", "folder"], 1, "", NO_FILE("folder"), {}),
    (["in.gltf", "pipe"], 1, "", NO_FILE("pipe"), {}),
    (["in.gltf", "folder_link"], 1, "", NO_FILE("folder_link"), {}),
    (["in.gltf", "/dev/null"], 1, "", NO_FILE("/dev/null"), {}),
    (["in.gltf", "dangling.glb"], 1, "", Failed("dangling.glb"), {}),
    (["in.gltf", "out.glb/"], 1, "", Failed("out.glb/"), {}),
    (["in.gltf", "no/out.glb"], 1, "", Failed("no/out.glb.part"), {}),
    (["in.gltf", "mine.glb"], 1, "", Failed("mine.glb.part"), {}),
    ([], 2, "", REPACK_USAGE, {}),
    (["in.gltf"], 2, "", REPACK_USAGE, {}),
    (["in.gltf", "out.glb", "out.glb"], 2, "", REPACK_USAGE, {}),
]
NOT_TEXT = [b"chunks", b"\xff"]


def make_repacked(room):
    """The folder that `gltf_repack` is called in."""
    files = {"in.gltf": b"{}", "old.glb": OLD, "mine.glb.part": b"mine", "locked": b"{}"}
    modes = {"private.glb": 0o600, "shared.glb": 0o666, "read_only.glb": 0o440, "linked.glb": 0o600}
    make(room, files | {name: b"before" for name in modes})
    for name, mode in modes.items():
        (room / name).chmod(mode)
    for link, name in ("link.glb", "linked.glb"), ("folder_link", "folder"), ("dangling.glb", "no"):
        (room / link).symlink_to(name)
    os.mkfifo(room / "pipe")


def make(room, files):
    """A folder with these files, a folder in it, and a file that nobody may read."""
    for name, contents in files.items():
        file = room / name
        file.parent.mkdir(parents=True, exist_ok=True)
        file.write_bytes(contents)
    (room / "folder").mkdir()
    room.chmod(0o777)
    if "locked" in files:
        (room / "locked").chmod(0)


def state(room):
    """What is in a folder: of each name the kind and the mode, and the bytes of a file, or
    where a link leads."""
    found = {}
    for file in room.iterdir():
        mode = file.lstat().st_mode
        may_read = stat.S_ISREG(mode) and mode & stat.S_IRUSR
        held = file.read_bytes() if may_read else None
        found[file.name] = (stat.filemode(mode), os.readlink(file) if file.is_symlink() else held)
    return found


def started(limit=None):
    """What a program's process does first: it takes no more rights than nobody has, and may write
    no file that is longer than the limit."""
    def start():
        os.umask(0o022)
        if limit is not None:
            signal.signal(signal.SIGXFSZ, signal.SIG_IGN)
            resource.setrlimit(resource.RLIMIT_FSIZE, (limit, limit))
        if os.geteuid() == 0:
            os.setgroups([])
            os.setgid(NOBODY)
            os.setuid(NOBODY)
    return start


def report(program, words, good, ran):
    shown_words = " ".join(word[:20] for word in words)
    print(f"{program} {shown_words}: {'ok' if good else f'FAILED: {ran}'}")
    return good


def answers(program, room, words, status, out, error):
    """Whether a call answers so."""
    how = {"cwd": room, "capture_output": True, "text": True, "encoding": "utf-8"}
    ran = subprocess.run([program, *words], preexec_fn=started(), **how)
    good = ran.returncode == status and ran.stdout == out and error == ran.stderr
    return report(program.name, words, good, ran)


def ends_where_full(program, room, words, taken):
    """Whether a call ends with 1 where its output is full, and has written all it could."""
    with tempfile.TemporaryFile() as out:
        limit = len(taken) + 1
        how = {"cwd": room, "stdout": out, "stderr": subprocess.DEVNULL}
        ran = subprocess.run([program, *words], preexec_fn=started(limit), **how)
        out.seek(0)
        good = ran.returncode == 1 and out.read().startswith(taken.encode())
    return report(program.name, words, good, ran)


def names_its_output(program, room):
    """Whether a report that cannot be written is an error of the output, and not of its file."""
    with open("/dev/full", "wb") as full:
        how = {"cwd": room, "stdout": full, "stderr": subprocess.PIPE}
        ran = subprocess.run([program, *UNWRITTEN], preexec_fn=started(), **how)
    good = ran.returncode == 2 and Failed("standard output") == ran.stderr.decode()
    return report(program.name, UNWRITTEN, good, ran)


def leaves(program, room, words, status, out, error, changed):
    """Whether a call answers so, and changes no more in the folder than this."""
    wanted = state(room) | changed
    good = answers(program, room, words, status, out, error)
    left = state(room)
    if left != wanted:
        print(f"{program.name}: FAILED: the folder has {left}")
    return good and left == wanted


def takes_text_alone(program, room):
    """Whether words that are no UTF-8 are refused with 2 and a line that says so."""
    ran = subprocess.run([program, *NOT_TEXT], cwd=room, capture_output=True, preexec_fn=started())
    error = f"{program.name}: the words have to be UTF-8\n".encode()
    good = (ran.returncode, ran.stdout, ran.stderr) == (2, b"", error)
    return report(program.name, ["no text"], good, ran)


def takes_no_line(program, room):
    """Whether a file is repacked whole where the line that reports it cannot be written, and the
    program then ends with 1."""
    with open("/dev/full", "wb") as full:
        how = {"cwd": room, "stdout": full, "stderr": subprocess.DEVNULL}
        ran = subprocess.run([program, "in.gltf", "out.glb"], preexec_fn=started(), **how)
    good = ran.returncode == 1 and state(room)["out.glb"] == ("-rw-r--r--", PACKED)
    return report(program.name, ["in.gltf", "out.glb"], good, ran)


def refuses(program, room, words, status, error):
    """Whether a call is refused so, and leaves the folder as it was."""
    return leaves(program, room, words, status, "", error, {})


def copy_of(name, place):
    """A copy of a proved program, which nobody may run."""
    program = place / name
    program.write_bytes(crates.program(name).read_bytes())
    program.chmod(0o755)
    return program


def main():
    with tempfile.TemporaryDirectory() as name:
        place = pathlib.Path(name)
        place.chmod(0o755)
        show, repack = copy_of("gltf_show", place), copy_of("gltf_repack", place)
        room = place / "shown"
        make(room, shown(room))
        good = [answers(show, room, *row) for row in SHOWS]
        good += [ends_where_full(show, room, *row) for row in FULL]
        good.append(names_its_output(show, room))
        room = place / "repacked"
        make_repacked(room)
        good += [leaves(repack, room, *row) for row in REPACKS]
        good.append(takes_no_line(repack, room))
        good += [takes_text_alone(program, room) for program in (show, repack)]
    print(f"{sum(good)} passed, {len(good) - sum(good)} failed")
    return 0 if all(good) else 1


if __name__ == "__main__":
    sys.exit(main())
