"""Extensions that the loader keeps as JSON. What is answered is made of the tables of the
extensions, by hand: each comes whole, with its defaults, with members of a wrong kind, with an index
that is the length of its list, and not at all."""
import json


def document(**members):
    return json.dumps({"asset": {"version": "2.0"}, **members}, separators=(",", ":"))


IMAGES = {"images": [{"uri": "a.png"}], "textures": [{"source": 0}, {"source": 0}]}


def of_material(name, value):
    return document(materials=[{"extensions": {name: value}}], **IMAGES)


def number(x):
    return "Number { value: %s }" % (repr(float(x)))


def numbers(xs):
    return "Numbers { values: [%s] }" % ", ".join(repr(float(x)) for x in xs)


def index(i):
    return "Index { value: %d, .. }" % i


def some(text):
    return "None" if text is None else "Some(%s)" % text


def info(i, coord=0, extensions=None):
    return "TextureInfo { index: %s, tex_coord: %d, extensions: %s }" % (
        index(i), coord, some(extensions))


def normal_info(i, coord=0, scale=1):
    return "NormalTextureInfo { index: %s, tex_coord: %d, scale: %s, extensions: None }" % (
        index(i), coord, number(scale))


def record(name, **members):
    return "%s { %s }" % (name, ", ".join("%s: %s" % item for item in members.items()))


TRANSFORM = record("TextureInfoExtensions", texture_transform=some(record(
    "TextureTransform", offset=numbers([0.5, 0]), rotation=number(0), scale=numbers([1, 1]),
    tex_coord="Some(3)")))

MATERIALS = [
    # the call, the extension, the record, its members: name, field, kind, a value, the default
    ("clearcoat", "KHR_materials_clearcoat", "Clearcoat", [
        ("clearcoatFactor", "clearcoat_factor", "number", 0.5, 0),
        ("clearcoatTexture", "clearcoat_texture", "info", 1, None),
        ("clearcoatRoughnessFactor", "clearcoat_roughness_factor", "number", 0.25, 0),
        ("clearcoatRoughnessTexture", "clearcoat_roughness_texture", "info", 0, None),
        ("clearcoatNormalTexture", "clearcoat_normal_texture", "normal", 1, None)]),
    ("sheen", "KHR_materials_sheen", "Sheen", [
        ("sheenColorFactor", "sheen_color_factor", "numbers", [0.5, 1, 2], [0, 0, 0]),
        ("sheenColorTexture", "sheen_color_texture", "info", 1, None),
        ("sheenRoughnessFactor", "sheen_roughness_factor", "number", 1, 0),
        ("sheenRoughnessTexture", "sheen_roughness_texture", "info", 0, None)]),
    ("iridescence", "KHR_materials_iridescence", "Iridescence", [
        ("iridescenceFactor", "iridescence_factor", "number", 0.5, 0),
        ("iridescenceTexture", "iridescence_texture", "info", 1, None),
        ("iridescenceIor", "iridescence_ior", "number", 1.5, 1.3),
        ("iridescenceThicknessMinimum", "iridescence_thickness_minimum", "number", 50, 100),
        ("iridescenceThicknessMaximum", "iridescence_thickness_maximum", "number", 500, 400),
        ("iridescenceThicknessTexture", "iridescence_thickness_texture", "info", 0, None)]),
    ("anisotropy", "KHR_materials_anisotropy", "Anisotropy", [
        ("anisotropyStrength", "anisotropy_strength", "number", 0.5, 0),
        ("anisotropyRotation", "anisotropy_rotation", "number", 3.5, 0),
        ("anisotropyTexture", "anisotropy_texture", "info", 1, None)]),
    ("dispersion", "KHR_materials_dispersion", "Dispersion", [
        ("dispersion", "dispersion", "number", 0.125, 0)]),
    ("diffuse_transmission", "KHR_materials_diffuse_transmission", "DiffuseTransmission", [
        ("diffuseTransmissionFactor", "diffuse_transmission_factor", "number", 0.5, 0),
        ("diffuseTransmissionTexture", "diffuse_transmission_texture", "info", 1, None),
        ("diffuseTransmissionColorFactor", "diffuse_transmission_color_factor", "numbers",
         [0.5, 0, 1], [1, 1, 1]),
        ("diffuseTransmissionColorTexture", "diffuse_transmission_color_texture", "info", 0,
         None)]),
]


def shown(kind, value):
    if kind == "number":
        return number(value)
    if kind == "numbers":
        return numbers(value)
    if value is None:
        return "None"
    return some(info(value) if kind == "info" else normal_info(value))


def material_cases():
    for call, name, type_, members in MATERIALS:
        whole = {m: v if k.startswith("number") else {"index": v} for m, f, k, v, d in members}
        yield call, of_material(name, whole), record(
            type_, **{f: shown(k, v) for m, f, k, v, d in members})
        defaults = record(type_, **{f: shown(k, d) for m, f, k, v, d in members})
        yield call, of_material(name, {}), defaults
        yield call, of_material(name, {m: None for m, f, k, v, d in members}), defaults
        yield call, of_material(name, []), ": wrong kind"
        yield call, of_material("X", {}), "none"
        for m, f, k, v, d in members:
            yield call, of_material(name, {m: "1"}), "/%s: wrong kind" % m
            if k == "numbers":
                yield call, of_material(name, {m: [1, 2]}), "/%s: wrong kind" % m
            if k in ("info", "normal"):
                yield call, of_material(name, {m: {"index": 2}}), (
                    "/%s/index: Index out of bounds;" % m)
                yield call, of_material(name, {m: {}}), "/%s/index: missing member" % m
        if len([m for m in members if m[2] == "info"]) == 2:
            names = [m[0] for m in members if m[2] == "info"]
            yield call, of_material(name, {m: {"index": 2} for m in names}), "".join(
                "/%s/index: Index out of bounds;" % m for m in names)
    transformed = {"index": 0, "texCoord": 2, "extensions": {
        "KHR_texture_transform": {"offset": [0.5, 0], "texCoord": 3}}}
    call, name, type_, members = MATERIALS[3]
    yield call, of_material(name, {"anisotropyTexture": transformed}), record(
        type_, anisotropy_strength=number(0), anisotropy_rotation=number(0),
        anisotropy_texture=some(info(0, 2, TRANSFORM)))


def other_cases():
    for call, name in (("basisu", "KHR_texture_basisu"), ("webp", "EXT_texture_webp")):
        def of_texture(value):
            return document(images=[{"uri": "a.png"}, {"uri": "a.b"}],
                            textures=[{"source": 0, "extensions": {name: value}}])
        yield call, of_texture({"source": 1}), "TextureSource { source: Some(%s) }" % index(1)
        yield call, of_texture({}), "TextureSource { source: None }"
        yield call, of_texture({"source": 2}), "/source: Index out of bounds;"
        yield call, of_texture({"source": 1.5}), "/source: wrong kind"
        yield call, document(images=[{"uri": "a.png"}], textures=[{"source": 0}]), "none"

    def of_node(name, value):
        accessor = {"componentType": 5126, "count": 1, "type": "VEC3"}
        return document(accessors=[accessor] * 3, nodes=[{"extensions": {name: value}}])
    name = "KHR_node_visibility"
    yield "visibility", of_node(name, {"visible": False}), "NodeVisibility { visible: false }"
    yield "visibility", of_node(name, {}), "NodeVisibility { visible: true }"
    yield "visibility", of_node(name, {"visible": 0}), "/visible: wrong kind"
    yield "visibility", of_node("X", {}), "none"
    name = "EXT_mesh_gpu_instancing"
    for value, t, r, s in (({"TRANSLATION": 0, "ROTATION": 1, "SCALE": 2}, 0, 1, 2),
                           ({"SCALE": 1, "_ID": 2}, None, None, 1)):
        yield "instancing", of_node(name, {"attributes": value}), record(
            "MeshGpuInstancing", attributes=record("InstanceAttributes", **{
                f: some(None if i is None else index(i))
                for f, i in (("translation", t), ("rotation", r), ("scale", s))}))
    yield "instancing", of_node(name, {}), "/attributes: missing member"
    yield "instancing", of_node(name, {"attributes": {"ROTATION": "1"}}), (
        "/attributes/ROTATION: wrong kind")
    yield "instancing", of_node(name, {"attributes": {"TRANSLATION": 3, "SCALE": 3}}), (
        "/attributes/TRANSLATION: Index out of bounds;/attributes/SCALE: Index out of bounds;")

    name = "EXT_meshopt_compression"

    def of_view(**value):
        return document(buffers=[{"byteLength": 8}], bufferViews=[
            {"buffer": 0, "byteLength": 8, "extensions": {name: value}}])
    whole = {"buffer": 0, "byteOffset": 4, "byteLength": 3, "byteStride": 2, "count": 1,
             "mode": "TRIANGLES", "filter": "QUATERNION"}
    least = {m: whole[m] for m in ("buffer", "byteLength", "byteStride", "count", "mode")}

    def compression(offset, filter_):
        return record("MeshoptCompression", buffer=index(0), byte_offset=offset, byte_length=3,
                      byte_stride=2, count=1, mode="Valid(Triangles)", filter=filter_)
    yield "meshopt", of_view(**whole), compression(4, "Valid(Quaternion)")
    yield "meshopt", of_view(**least), compression(0, "Valid(None)")
    for missing in least:
        value = {m: v for m, v in whole.items() if m != missing}
        yield "meshopt", of_view(**value), "/%s: missing member" % missing
    yield "meshopt", of_view(**{**whole, "buffer": 1}), "/buffer: Index out of bounds;"
    yield "meshopt", of_view(**{**whole, "mode": "OTHER"}), "/mode: Invalid value;"
    yield "meshopt", of_view(**{**whole, "filter": "none"}), "/filter: Invalid value;"
    yield "meshopt", of_view(**{**whole, "count": -1}), "/count: wrong kind"

    name = "KHR_xmp_json_ld"

    def of_scene(packets, value):
        return document(extensions={name: packets}, scenes=[{"extensions": {name: value}}])
    two = {"packets": [{}, {"a": True}]}
    yield "packet", of_scene(two, {"packet": 1}), 'Object {"a": Bool(true)}'
    yield "packet", of_scene(two, {"packet": 2}), "/packet: Index out of bounds;"
    yield "packet", of_scene({}, {"packet": 0}), "/packet: Index out of bounds;"
    yield "packet", of_scene(two, {}), "/packet: missing member"
    yield "packet", of_scene(two, {"packet": "0"}), "/packet: wrong kind"
    yield "packet", document(scenes=[{}]), "none"
    for packets in (5, "1", {}, True):
        yield "packet", of_scene({"packets": packets}, {"packet": 0}), (
            "/packet: Index out of bounds;")
    yield "packet", of_scene([], {"packet": 0}), "/packet: Index out of bounds;"


def transform(offset=(0, 0), rotation=0, scale=(1, 1), coord=None):
    return record("TextureTransform", offset=numbers(offset), rotation=number(rotation),
                  scale=numbers(scale), tex_coord=some(coord))


TRANSFORMS = [
    # KHR_texture_transform: a value, and what it means or the fault in it
    ({"offset": [0.5, 0.25], "rotation": 1.5, "scale": [2, 3], "texCoord": 4},
     transform((0.5, 0.25), 1.5, (2, 3), 4)),
    ({}, transform()),
    ({"offset": None, "rotation": None, "scale": None, "texCoord": None}, transform()),
    ({"scale": [0, -1]}, transform(scale=(0, -1))),
    ({"offset": [1]}, "/offset: wrong kind"),
    ({"offset": [0, "0"]}, "/offset: wrong kind"),
    ({"rotation": [0]}, "/rotation: wrong kind"),
    ({"scale": 2}, "/scale: wrong kind"),
    ({"texCoord": -1}, "/texCoord: wrong kind"),
    ({"texCoord": 0.5}, "/texCoord: wrong kind"),
    ([], ": wrong kind"),
]


def transform_cases():
    name = "KHR_texture_transform"
    for call, texture in (("normal_transform", "normalTexture"),
                          ("occlusion_transform", "occlusionTexture")):
        def of_use(**members):
            return document(materials=[{texture: {"index": 0, **members}}], **IMAGES)
        for value, answer in TRANSFORMS:
            yield call, of_use(extensions={name: value}), answer
        yield call, of_use(extensions={"X": {}}), "none"
        yield call, of_use(), "none"
        yield call, document(materials=[{}]), "no texture"
    for value, answer in TRANSFORMS:
        used = {"index": 0, "extensions": {name: value}}
        place = f"/anisotropyTexture/extensions/{name}"
        is_fault = not answer.startswith("TextureTransform")
        yield "anisotropy", of_material("KHR_materials_anisotropy", {"anisotropyTexture": used}), (
            place + answer if is_fault else record(
                "Anisotropy", anisotropy_strength=number(0), anisotropy_rotation=number(0),
                anisotropy_texture=some(info(0, 0, record(
                    "TextureInfoExtensions", texture_transform=some(answer))))))


def pointer_cases():
    name = "KHR_animation_pointer"

    def target(value):
        return json.dumps({"path": "pointer", "extensions": {name: value}})
    yield "pointer", target({"pointer": "/nodes/0/rotation"}), (
        'AnimationPointer { pointer: "/nodes/0/rotation" }')
    yield "pointer", target({"pointer": ""}), 'AnimationPointer { pointer: "" }'
    yield "pointer", target({"pointer": 5}), "/pointer: wrong kind"
    yield "pointer", target({"pointer": None}), "/pointer: missing member"
    yield "pointer", target({}), "/pointer: missing member"
    yield "pointer", target("/nodes/0"), ": wrong kind"
    yield "pointer", target(None), "none"
    yield "pointer", json.dumps({"path": "rotation", "node": 0}), "none"
    yield "pointer", json.dumps({"extensions": {"X": {}}}), "none"


def own_cases():
    """The extension of docs/LIBRARY.md, which a user adds."""
    name = "STUDIO_wetness"

    def wetness(layers, mask):
        return "Wetness { layers: %d, mask: %s }" % (layers, some(mask and index(mask)))
    yield "wetness", of_material(name, {"layers": 3, "mask": 1}), wetness(3, 1)
    yield "wetness", of_material(name, {}), wetness(1, None)
    yield "wetness", document(materials=[{}]), "none"
    yield "wetness", of_material(name, {"mask": 2}), "/mask: Index out of bounds;"
    yield "wetness", of_material(name, {"layers": "3"}), "/layers: wrong kind"
    yield "wetness", of_material(name, []), ": wrong kind"


ROWS = [(f"{call} {text}", answer) for call, text, answer in (
    *material_cases(), *other_cases(), *transform_cases(), *pointer_cases(), *own_cases())]
