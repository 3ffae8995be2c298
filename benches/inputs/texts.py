"""Texts that `gltf_show check` refuses, each for a fault of its own, and some that it accepts."""
from make_files import document, listed, records, spelled
from row import Row

# The bytes of a record of each kind in a text of records.
RECORD = 264
# What a fault of a record, a number that no double holds, and an empty name are made of.
LENGTH, WRONG_LENGTH = b'"byteLength":384', b'"byteLength":"384"'
TRANSLATION, TOO_LARGE = b"[0.5,1.25,-3.0]", b"[0.5,1.25,-3e999]"
ROOT = b'"name":"root"'
# A record that is written again and again.
NODE = b'{"mesh":0,"name":"node","translation":[0.5,1.25,-3.0],"rotation":[0.0,0.0,0.0,1.0]},'
# What an avatar of VRM 0.x has for each of its materials.
MATERIAL = {
    "name": "N00_000_00_Body_00_SKIN @ (Instance)", "renderQueue": 2000, "shader": "VRM/MToon",
    "floatProperties": {
        "_Cutoff": 0.5, "_BumpScale": 1.0, "_ReceiveShadowRate": 1.0, "_ShadingGradeRate": 1.0,
        "_ShadeShift": 0.0, "_ShadeToony": 0.9, "_LightColorAttenuation": 0.0,
        "_IndirectLightIntensity": 0.1, "_RimLightingMix": 0.0, "_RimFresnelPower": 1.0,
        "_RimLift": 0.0, "_OutlineWidth": 0.08, "_OutlineScaledMaxDistance": 1.0,
        "_OutlineLightingMix": 1.0, "_UvAnimScrollX": 0.0, "_UvAnimScrollY": 0.0,
        "_UvAnimRotation": 0.0, "_DebugMode": 0.0, "_BlendMode": 1.0, "_OutlineWidthMode": 1.0,
        "_OutlineColorMode": 1.0, "_CullMode": 2.0, "_OutlineCullMode": 1.0, "_SrcBlend": 1.0,
        "_DstBlend": 0.0, "_ZWrite": 1.0, "_AlphaToMask": 1.0},
    "vectorProperties": {
        "_Color": [1.0, 1.0, 1.0, 1.0], "_ShadeColor": [0.97, 0.81, 0.86, 1.0],
        "_MainTex": [0.0, 0.0, 1.0, 1.0], "_ShadeTexture": [0.0, 0.0, 1.0, 1.0],
        "_BumpMap": [0.0, 0.0, 1.0, 1.0], "_SphereAdd": [0.0, 0.0, 1.0, 1.0],
        "_EmissionMap": [0.0, 0.0, 1.0, 1.0], "_OutlineWidthTexture": [0.0, 0.0, 1.0, 1.0],
        "_EmissionColor": [0.0, 0.0, 0.0, 1.0], "_OutlineColor": [0.19, 0.09, 0.12, 1.0]},
    "textureProperties": {"_MainTex": "@", "_ShadeTexture": "@", "_BumpMap": 1, "_SphereAdd": 2},
    "keywordMap": {"_ALPHATEST_ON": True, "_NORMALMAP": True, "MTOON_OUTLINE_COLOR_MIXED": True},
    "tagMap": {"RenderType": "TransparentCutout"},
}


def put(text, at, old, new):
    return text[:at] + new + text[at + len(old):]


def first(old, new):
    """The change of the first place where a text has these bytes."""
    return lambda text: put(text, text.index(old), old, new)


def last(old, new):
    return lambda text: put(text, text.rindex(old), old, new)


def cut_off(text):
    """The text up to the middle of its last node."""
    return text[:text.rindex(ROOT)]


def changed(*changes):
    """The maker of a text of records of about so many bytes, with these changes."""
    def make(size):
        text = records(max(size // RECORD, 1))
        for change in changes:
            text = change(text)
        return text
    return make


def avatar(size, is_before):
    """A text whose bulk are the materials of an extension, and a fault of a record before them or
    behind them."""
    count = max(size // len(spelled(MATERIAL)), 1)
    extension = f'{{"VRM":{{"specVersion":"0.0","materialProperties":{listed(MATERIAL, count)}}}}}'
    bulk = {"extensions": extension, "extensionsUsed": '["VRM"]'}
    fault = {"nodes": '[{"mesh":"0"}]'}
    return document({**fault, **bulk} if is_before else {**bulk, **fault})


def without_brace(size):
    """A text whose nodes are the members of an object, and whose last brace is missing."""
    nodes = ",".join(f'"node {number}":{{"mesh":0,"children":[{number + 1}],"scale":[1.0,1.0,1.0]}}'
                     for number in range(size // 66))
    return document({"nodes": f"{{{nodes}}}"})[:-1]


def repeated(before, behind):
    """The maker of a text of about so many bytes, nearly all of them one node again and again."""
    return lambda size: before + NODE * (size // len(NODE)) + behind


def in_extras(begin, front):
    """The same in a list of extras, behind this text in front of the list and at its front."""
    return repeated(begin + b'{"asset":{"version":"2.0"},"extras":[' + front, b"0]}")


def broken(count):
    """Nodes each of which names a mesh that is not there."""
    return document({"nodes": listed({"mesh": 3}, count)})


def row(size, what, make, status=1):
    """The row of a text of so many megabytes."""
    return Row("gltf_show check in.gltf", f"{size} MB: {what}", int(size * 1e6), make, status)


FAULT, OUT_OF_RANGE = first(LENGTH, WRONG_LENGTH), last(TRANSLATION, TOO_LARGE)
ROWS = [
    row(6.6, "materials of VRM in `extensions`, a fault of a record before them",
        lambda size: avatar(size, is_before=True)),
    row(6.6, "materials of VRM in `extensions`, a fault of a record behind them",
        lambda size: avatar(size, is_before=False)),
    row(16, '`"nodes":{..}`, and a brace is missing at the end', without_brace),
    row(2.4, '`{"mesh":}` near the end', changed(last(b"{" + ROOT, b'{"mesh":},{' + ROOT))),
    row(2.4, "`}` for `]` near the end", changed(last(b"]}]}", b"}}]}"))),
    row(2.4, "a member in a list near the end", changed(last(b'"nodes":[', b'"nodes":["a":0,'))),
    row(2.4, "a fault of a record at the front, and cut off", changed(FAULT, cut_off)),
    row(2.4, "a fault of a record at the front, a number out of range at the end",
        changed(FAULT, OUT_OF_RANGE)),
    row(2.4, "a number out of range at the end", changed(OUT_OF_RANGE)),
    row(2.4, "a fault of a record in the last node", changed(last(ROOT, b'"name":0'))),
    row(2.4, "cut off", changed(cut_off)),
    row(100, "the first byte begins no JSON", in_extras(b"%", b"")),
    row(100, "a number out of range at the front", in_extras(b"", b"1e999,")),
    row(100, "the first byte is no UTF-8", in_extras(b"\xff", b"")),
    row(2, "accepted: a member of empty name at the end",
        changed(last(ROOT, b'"":0,' + ROOT)), status=0),
    row(2, "accepted: a member twice at the front, whose first value does not fit",
        changed(first(LENGTH, WRONG_LENGTH + b"," + LENGTH)), status=0),
    row(2, "accepted: a member twice at the end, whose first value does not fit",
        changed(last(ROOT, b'"name":0,' + ROOT)), status=0),
    row(16, "a fault of a record at the front", changed(FAULT)),
    row(16, "no `asset`", changed(first(b'"asset":{"version":"2.0"},', b""))),
    row(10, "accepted: all in a member that nobody reads",
        repeated(b'{"asset":{"version":"2.0"},"editor":[', b"0]}"), status=0),
    Row("gltf_show check in.gltf", "300,000 broken rules", 300_000, broken, 1),
]
