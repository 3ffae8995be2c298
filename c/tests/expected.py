#!/usr/bin/env python3
"""Compares what `list` printed of files with what is in them, read here by Python's own means:
`expected.py PRINTED FILE..`. It prints the lines that differ, and ends with 1 if there are any.
`expected.py --items FILE` prints what `items` is to print of a file.

The defaults are those of glTF 2.0 and of the extensions, written down here anew. JSON texts are
compared by what they mean."""
import base64
import difflib
import json
import pathlib
import struct
import sys
import urllib.parse

KINDS = (
    "buffers", "bufferViews", "accessors", "meshes", "nodes", "materials", "scenes", "skins",
    "animations", "images", "textures", "samplers", "cameras",
)
COMPONENTS = {"SCALAR": 1, "VEC2": 2, "VEC3": 3, "VEC4": 4, "MAT2": 4, "MAT3": 9, "MAT4": 16}
# The columns of the types that have several.
COLUMNS = {"MAT2": 2, "MAT3": 3, "MAT4": 4}
LETTERS = {5120: "b", 5121: "B", 5122: "h", 5123: "H", 5125: "I", 5126: "f"}
# What a normalized integer is divided by (3.6.2.2).
DIVISORS = {5120: 127, 5121: 255, 5122: 32767, 5123: 65535}
# The meanings in the order of gltf.h, and that of a custom one.
MEANINGS = ("POSITION", "NORMAL", "TANGENT", "COLOR", "TEXCOORD", "JOINTS", "WEIGHTS")
PATHS = ("translation", "rotation", "scale", "weights")
INTERPOLATIONS = ("LINEAR", "STEP", "CUBICSPLINE")
UNIT = [1, 0, 0, 0, 0, 1, 0, 0, 0, 0, 1, 0, 0, 0, 0, 1]
LARGEST = sys.float_info.max
LIGHTS, VARIANTS = "KHR_lights_punctual", "KHR_materials_variants"
PACKETS = "KHR_xmp_json_ld"
# The extensions that gltf.h has members or calls for.
KNOWN = {LIGHTS, VARIANTS, "KHR_texture_transform", *("KHR_materials_" + name for name in (
    "unlit", "pbrSpecularGlossiness", "transmission", "ior", "emissive_strength", "volume",
    "specular"))}
# The members that are JSON texts.
JSON = ("extras", "EXT_mark", "KHR_materials_clearcoat")
# The statuses of a read: the accessor does not fit, and its components are of another type.
SUCCESS, UNREADABLE, OTHER_TYPE = 0, 13, 16
# The status of an extension that is not of its form.
BAD_EXTENSION = 17

lines = []


def put(about, member, *values):
    values = ["none" if value is None else str(value) for value in values]
    lines.append(" ".join([f"{about} {member}:", *values]))


def put_numbers(about, member, numbers):
    put(about, member, *("%.17g" % number for number in numbers))


def is_number(value):
    return isinstance(value, (int, float)) and not isinstance(value, bool)


def number(record, member, default):
    value = record.get(member)
    return value if is_number(value) else default


def numbers(record, member, default):
    value = record.get(member)
    fits = isinstance(value, list) and len(value) == len(default) and all(map(is_number, value))
    return value if fits else default


def all_numbers(record, member):
    """A list of numbers of any length; empty where it is no such list."""
    value = record.get(member)
    return value if isinstance(value, list) and all(map(is_number, value)) else []


def known(record, name):
    """What a record has under the name of an extension."""
    return record.get("extensions", {}).get(name)


def parts(data):
    """The document and the binary chunk of a file."""
    if data[:4] != b"glTF":
        return json.loads(data), None
    length = struct.unpack_from("<I", data, 12)[0]
    document, end = json.loads(data[20:20 + length]), 20 + length
    if end == len(data):
        return document, None
    size = struct.unpack_from("<I", data, end)[0]
    return document, data[end + 8:end + 8 + size]


def bytes_of(path, buffer, blob):
    """The bytes of a buffer, filled up with zeros to a multiple of four."""
    uri = buffer.get("uri")
    if uri is None:
        data = blob
    elif uri.startswith("data:"):
        data = base64.b64decode(uri.partition(",")[2])
    else:
        data = (path.parent / urllib.parse.unquote(uri)).read_bytes()
    return data + bytes(-len(data) % 4)


def layout(accessor):
    """The bytes from an item to the next, and where the bytes of each of its columns are: a column
    of a matrix begins at a multiple of four bytes (3.6.2.4), and the last item needs no more than
    its last column."""
    width = struct.calcsize(LETTERS[accessor["componentType"]])
    many = COLUMNS.get(accessor["type"], 1)
    column = COMPONENTS[accessor["type"]] // many * width
    step = -(-column // 4) * 4 if accessor["type"] in COLUMNS else column
    return many * step, [slice(k * step, k * step + column) for k in range(many)]


class Unreadable(Exception):
    """A part of an accessor does not fit into its view."""


class File:
    def __init__(self, path):
        self.document, blob = parts(path.read_bytes())
        self.buffers = [bytes_of(path, it, blob) for it in self.document.get("buffers", [])]

    def list(self, kind):
        extensions = self.document.get("extensions", {})
        if kind in ("lights", "variants"):
            name = LIGHTS if kind == "lights" else VARIANTS
            return extensions.get(name, {}).get(kind, [])
        return self.document.get(kind, [])

    def view_bytes(self, index):
        """The bytes of a view that lies in its buffer; None of another."""
        view = self.list("bufferViews")[index]
        at, data = view.get("byteOffset", 0), self.buffers[view["buffer"]]
        whole = data[at:at + view["byteLength"]]
        return whole if len(whole) == view["byteLength"] else None

    def part(self, part, size, count, apart=None):
        """So many items of a part of an accessor, each as its bytes; they are `apart` where the
        view states no distance."""
        view = self.list("bufferViews")[part["bufferView"]]
        stride, at = view.get("byteStride") or apart or size, part.get("byteOffset", 0)
        data = self.view_bytes(part["bufferView"])
        if data is None or count == 0 or stride < size:
            raise Unreadable
        items = [data[at + k * stride:at + k * stride + size] for k in range(count)]
        if len(items[-1]) < size:
            raise Unreadable
        return items

    def items(self, accessor):
        """The items of an accessor, each as the bytes of its components: those of its view, or
        zeros without one (5.1.1), with the sparse values in their places."""
        apart, columns = layout(accessor)
        size = columns[-1].stop
        count, sparse = accessor["count"], accessor.get("sparse")
        if "bufferView" in accessor:
            items = self.part(accessor, size, count, apart)
        elif count == 0:
            raise Unreadable
        else:
            items = [bytes(size)] * count
        if sparse:
            places = LETTERS[sparse["indices"]["componentType"]]
            at = self.part(sparse["indices"], struct.calcsize(places), sparse["count"])
            for place, item in zip(at, self.part(sparse["values"], size, sparse["count"], apart)):
                items[struct.unpack("<" + places, place)[0]] = item
        return [b"".join(item[column] for column in columns) for item in items]


def print_extras(file, about, record):
    """The extras, and the unknown extensions, which are not kept of some records."""
    is_kept = about.split()[0] not in ("channels", "animationSamplers", "lights", "variants")
    values = dict(record.get("extensions", {})) if is_kept else {}
    values.pop("extras", None)
    if record.get("extras") is not None:
        values["extras"] = record["extras"]
    for member in JSON:
        if member in values:
            put(about, member, json.dumps(values[member]))
    if is_kept:
        print_packet(file, about, record)


def meaning(line):
    """A line, with a JSON text spelled in one way."""
    about, _, text = line.partition(": ")
    if not about.endswith(JSON):
        return line
    return f"{about}: {json.dumps(json.loads(text), sort_keys=True)}"


# ---- The extensions at the end of gltf.h. Unlike a member of a record, one of these that is of
# another kind is a fault.

class Bad(Exception):
    """An extension is not of its form."""


def must(holds):
    if not holds:
        raise Bad


def without_nulls(value):
    """The same with the members left out that are null, which is to be absent."""
    if not isinstance(value, dict):
        return value
    return {name: without_nulls(it) for name, it in value.items() if it is not None}


def is_whole(value, bits=32):
    return isinstance(value, int) and not isinstance(value, bool) and 0 <= value < 1 << bits


def must_be(check, record, *members):
    """Each of the members is absent, or the check holds."""
    must(isinstance(record, dict))
    for member in members:
        must(member not in record or check(record[member]))


def number_kind(default):
    def read(file, about, name, value):
        must(value is None or is_number(value))
        return lambda: put_numbers(about, name, [default if value is None else value])
    return read


def is_list_of_numbers(count):
    return lambda value: isinstance(value, list) and len(value) == count and all(
        map(is_number, value))


def numbers_kind(default):
    def read(file, about, name, value):
        must(value is None or is_list_of_numbers(len(default))(value))
        return lambda: put_numbers(about, name, default if value is None else value)
    return read


def use_kind(is_normal=False):
    """A use of a texture (5.20, 5.30)."""
    def read(file, about, name, value):
        if value is not None:
            must_be(is_whole, value, "texCoord")
            must(is_whole(value.get("index")) and value["index"] < len(file.list("textures")))
            must_be(is_number, value, *["scale"] * is_normal)
            transform = value.get("extensions", {})
            must(isinstance(transform, dict))
            transform = transform.get("KHR_texture_transform", {})
            must_be(is_whole, transform, "texCoord")
            must_be(is_number, transform, "rotation")
            must_be(is_list_of_numbers(2), transform, "offset", "scale")
        return lambda: print_use(about, name, value, "scale" if is_normal else "no member")
    return read


def index_kind(kind, is_required=False):
    def read(file, about, name, value):
        must(not is_required if value is None else
             is_whole(value) and value < len(file.list(kind)))
        return lambda: put(about, name, value)
    return read


def size_kind(default=None):
    """A number of bytes or of items; required where there is no default."""
    def read(file, about, name, value):
        value = default if value is None else value
        must(is_whole(value, 64))
        return lambda: put(about, name, value)
    return read


def word_kind(*words, default=None):
    def read(file, about, name, value):
        value = default if value is None else value
        must(isinstance(value, str) and value in words)
        return lambda: put(about, name, words.index(value))
    return read


def flag_kind(default):
    def read(file, about, name, value):
        value = default if value is None else value
        must(isinstance(value, bool))
        return lambda: put(about, name, int(value))
    return read


# Of each call the kind of its records, the extension, and its members: by their names in the
# struct, what they are in JSON, and how they are read.
EXTENSIONS = {
    "meshopt": ("bufferViews", "EXT_meshopt_compression", {
        "buffer": ("buffer", index_kind("buffers", True)),
        "byte_offset": ("byteOffset", size_kind(0)), "byte_length": ("byteLength", size_kind()),
        "byte_stride": ("byteStride", size_kind()), "count": ("count", size_kind()),
        "mode": ("mode", word_kind("ATTRIBUTES", "TRIANGLES", "INDICES")),
        "filter": ("filter", word_kind("NONE", "OCTAHEDRAL", "QUATERNION", "EXPONENTIAL",
                                       default="NONE"))}),
    "clearcoat": ("materials", "KHR_materials_clearcoat", {
        "clearcoat_factor": ("clearcoatFactor", number_kind(0)),
        "clearcoat_roughness_factor": ("clearcoatRoughnessFactor", number_kind(0)),
        "clearcoat": ("clearcoatTexture", use_kind()),
        "clearcoat_roughness": ("clearcoatRoughnessTexture", use_kind()),
        "clearcoat_normal": ("clearcoatNormalTexture", use_kind(True))}),
    "sheen": ("materials", "KHR_materials_sheen", {
        "sheen_color_factor": ("sheenColorFactor", numbers_kind([0, 0, 0])),
        "sheen_roughness_factor": ("sheenRoughnessFactor", number_kind(0)),
        "sheen_color": ("sheenColorTexture", use_kind()),
        "sheen_roughness": ("sheenRoughnessTexture", use_kind())}),
    "iridescence": ("materials", "KHR_materials_iridescence", {
        "iridescence_factor": ("iridescenceFactor", number_kind(0)),
        "iridescence_ior": ("iridescenceIor", number_kind(1.3)),
        "iridescence_thickness_minimum": ("iridescenceThicknessMinimum", number_kind(100)),
        "iridescence_thickness_maximum": ("iridescenceThicknessMaximum", number_kind(400)),
        "iridescence": ("iridescenceTexture", use_kind()),
        "iridescence_thickness": ("iridescenceThicknessTexture", use_kind())}),
    "anisotropy": ("materials", "KHR_materials_anisotropy", {
        "anisotropy_strength": ("anisotropyStrength", number_kind(0)),
        "anisotropy_rotation": ("anisotropyRotation", number_kind(0)),
        "anisotropy": ("anisotropyTexture", use_kind())}),
    "dispersion": ("materials", "KHR_materials_dispersion", {
        "dispersion": ("dispersion", number_kind(0))}),
    "diffuse_transmission": ("materials", "KHR_materials_diffuse_transmission", {
        "diffuse_transmission_factor": ("diffuseTransmissionFactor", number_kind(0)),
        "diffuse_transmission_color_factor": ("diffuseTransmissionColorFactor",
                                              numbers_kind([1, 1, 1])),
        "diffuse_transmission": ("diffuseTransmissionTexture", use_kind()),
        "diffuse_transmission_color": ("diffuseTransmissionColorTexture", use_kind())}),
    "basisu": ("textures", "KHR_texture_basisu", {"image": ("source", index_kind("images"))}),
    "webp": ("textures", "EXT_texture_webp", {"image": ("source", index_kind("images"))}),
    "instancing": ("nodes", "EXT_mesh_gpu_instancing", {
        name.lower(): (f"attributes/{name}", index_kind("accessors"))
        for name in ("TRANSLATION", "ROTATION", "SCALE")}),
    "visibility": ("nodes", "KHR_node_visibility", {"visible": ("visible", flag_kind(True))}),
}


def member_at(value, path):
    """A member of an object; the objects that lead to it are required."""
    for name in path.split("/")[:-1]:
        must(isinstance(value.get(name), dict))
        value = value[name]
    return value.get(path.split("/")[-1])


def print_extension(file, about, value, members):
    try:
        must(isinstance(value, dict))
        value = without_nulls(value)
        found = [read(file, about, name, member_at(value, member))
                 for name, (member, read) in members.items()]
    except Bad:
        put(about, "status", BAD_EXTENSION)
        return
    for line in found:
        line()


def print_extensions(file, kind, index, record):
    """Those that the record has."""
    for call, (of, name, members) in EXTENSIONS.items():
        if of == kind and name in record.get("extensions", {}):
            print_extension(file, f"{call} {index}", record["extensions"][name], members)


def print_packet(file, about, record):
    """The packet of metadata that a record names."""
    if PACKETS not in record.get("extensions", {}):
        return
    stated = file.document.get("extensions", {}).get(PACKETS)
    packets = stated.get("packets") if isinstance(stated, dict) else None
    value = record["extensions"][PACKETS]
    packet = value.get("packet") if isinstance(value, dict) else None
    if is_whole(packet) and isinstance(packets, list) and packet < len(packets):
        put(about, "packet", packet)
    else:
        put(about, "status of packet", BAD_EXTENSION)


def print_buffer(file, about, index, record):
    put(about, "byte_length", record["byteLength"])
    put(about, "waits", 0)
    put(about, "bytes", file.buffers[index].hex())
    if "uri" in record:
        put(about, "uri", record["uri"])


def print_view(file, about, index, record):
    put(about, "buffer", record["buffer"])
    for name, member in (("byte_offset", "byteOffset"), ("byte_length", "byteLength"),
                         ("byte_stride", "byteStride"), ("target", "target")):
        put(about, name, record.get(member, 0))
    data = file.view_bytes(index)
    put(about, "bytes", None if data is None else data.hex())


def as_float(value, record):
    kind = record["componentType"]
    if record.get("normalized"):
        value = max(value / DIVISORS[kind], -1.0)
    return "%.9g" % struct.unpack("<f", struct.pack("<f", value))[0]


def print_items(file, about, record):
    kind = record["componentType"]
    try:
        items = b"".join(file.items(record))
    except Unreadable:
        items = None
    put(about, "read", SUCCESS if items is not None else UNREADABLE)
    if items is not None:
        put(about, "items", items.hex())
        flat = struct.unpack(f"<{len(items) // struct.calcsize(LETTERS[kind])}{LETTERS[kind]}",
                             items)
    if kind not in (5121, 5123, 5125):
        put(about, "read_u32", OTHER_TYPE)
    else:
        put(about, "read_u32", SUCCESS if items is not None else UNREADABLE)
        if items is not None:
            put(about, "words", *flat)
    if items is not None:
        put(about, "floats", *(as_float(value, record) for value in flat))


def print_accessor(file, about, index, record):
    letter, each = LETTERS[record["componentType"]], COMPONENTS[record["type"]]
    size = struct.calcsize("<" + letter * each)
    view = record.get("bufferView")
    padded, _ = layout(record)
    stride = file.list("bufferViews")[view].get("byteStride") if view is not None else None
    try:
        in_place = (view is not None and "sparse" not in record and padded == size
                    and bool(file.items(record)))
    except Unreadable:
        in_place = False
    put(about, "count", record["count"])
    put(about, "item_size", size)
    put(about, "component_type", record["componentType"])
    put(about, "components", each)
    put(about, "is_matrix", int(record["type"].startswith("MAT")))
    put(about, "normalized", int(record.get("normalized", False)))
    put(about, "sparse", record.get("sparse", {}).get("count", 0))
    put(about, "view", view)
    put(about, "byte_offset", record.get("byteOffset", 0))
    put(about, "stride", stride or padded)
    put(about, "in place", int(in_place))
    for member in ("min", "max"):
        put_numbers(about, member, all_numbers(record, member))
    print_items(file, about, record)


def in_order(attributes):
    """The names of attributes, by meaning, and then by set; the custom ones are first, by name."""
    def order(name):
        word, _, number = name.partition("_")
        if name.startswith("_"):
            return 0, 0, name.encode()
        return 1 + MEANINGS.index(word), int(number or 0), b""

    return sorted(attributes, key=order)


def print_attributes(about, attributes):
    for name in in_order(attributes):
        put(about, name, attributes[name])


def print_variants(file, about, record):
    """The material in each variant: that of the first mapping with it. Of an index that is out of
    range the place is shown."""
    mappings = (known(record, VARIANTS) or {}).get("mappings", [])
    for variant in range(len(file.list("variants"))):
        of = [k for k, it in enumerate(mappings) if variant in it["variants"]]
        if not of:
            continue
        put(about, "variant", variant)
        if mappings[of[0]]["material"] < len(file.list("materials")):
            put(about, "of material", mappings[of[0]]["material"])
            continue
        _, mesh, primitive = about.split()
        put(about, "of no material", f"/meshes/{mesh}/primitives/{primitive}/extensions/{VARIANTS}"
            f"/mappings/{of[0]}/material")
        put(about, "reason", "the document has no material with this index")


def print_primitive(file, about, record):
    put(about, "mode", record.get("mode", 4))
    put(about, "indices", record.get("indices"))
    put(about, "material", record.get("material"))
    put(about, "attributes", len(record["attributes"]))
    put(about, "targets", len(record.get("targets", [])))
    print_variants(file, about, record)
    print_extras(file, about, record)
    print_attributes(about, record["attributes"])


def print_mesh(file, about, index, record):
    put(about, "primitives", len(record["primitives"]))
    put(about, "weights", len(all_numbers(record, "weights")))
    put_numbers(about, "weights", all_numbers(record, "weights"))
    for k, primitive in enumerate(record["primitives"]):
        print_primitive(file, f"primitives {index} {k}", primitive)
        for n, target in enumerate(primitive.get("targets", [])):
            print_attributes(f"target {index} {k} {n}", target)


def print_use(about, name, record, factor="scale"):
    if record is None:
        return
    transform = known(record, "KHR_texture_transform")
    moved = transform or {}
    at = f"{about} {name}"
    lines.append(f"{at} texture: {record['index']}, set "
                 f"{moved.get('texCoord', record.get('texCoord', 0))}, transform "
                 f"{int(transform is not None)}")
    put_numbers(at, "scale", [number(record, factor, 1)])
    put_numbers(at, "offset", numbers(moved, "offset", [0, 0]))
    put_numbers(at, "rotation", [number(moved, "rotation", 0)])
    put_numbers(at, "size", numbers(moved, "scale", [1, 1]))


def print_material(file, about, index, record):
    extension = {name: known(record, "KHR_materials_" + name) for name in (
        "unlit", "pbrSpecularGlossiness", "transmission", "ior", "emissive_strength", "volume",
        "specular")}
    has = sum(1 << k for k, value in enumerate(extension.values()) if value is not None)
    extension = {name: value or {} for name, value in extension.items()}
    pbr, glossy = record.get("pbrMetallicRoughness"), extension["pbrSpecularGlossiness"]
    volume, specular = extension["volume"], extension["specular"]
    has, pbr = has + 128 * (pbr is not None), pbr or {}
    put(about, "alpha_mode", ("OPAQUE", "MASK", "BLEND").index(record.get("alphaMode", "OPAQUE")))
    put(about, "double_sided", int(record.get("doubleSided", False)))
    put(about, "has", has)
    for name, of, member, default in (
            ("alpha_cutoff", record, "alphaCutoff", 0.5),
            ("base_color_factor", pbr, "baseColorFactor", [1] * 4),
            ("metallic_factor", pbr, "metallicFactor", 1),
            ("roughness_factor", pbr, "roughnessFactor", 1),
            ("emissive_factor", record, "emissiveFactor", [0] * 3),
            ("diffuse_factor", glossy, "diffuseFactor", [1] * 4),
            ("specular_glossiness_factor", glossy, "specularFactor", [1] * 3),
            ("glossiness_factor", glossy, "glossinessFactor", 1),
            ("transmission_factor", extension["transmission"], "transmissionFactor", 0),
            ("ior", extension["ior"], "ior", 1.5),
            ("emissive_strength", extension["emissive_strength"], "emissiveStrength", 1),
            ("thickness_factor", volume, "thicknessFactor", 0),
            ("attenuation_distance", volume, "attenuationDistance", LARGEST),
            ("attenuation_color", volume, "attenuationColor", [1] * 3),
            ("specular_factor", specular, "specularFactor", 1),
            ("specular_color_factor", specular, "specularColorFactor", [1] * 3)):
        if isinstance(default, list):
            put_numbers(about, name, numbers(of, member, default))
        else:
            put_numbers(about, name, [number(of, member, default)])
    for name, of, member in (
            ("base_color", pbr, "baseColorTexture"),
            ("metallic_roughness", pbr, "metallicRoughnessTexture"),
            ("normal", record, "normalTexture"),
            ("occlusion", record, "occlusionTexture"),
            ("emissive", record, "emissiveTexture"),
            ("diffuse", glossy, "diffuseTexture"),
            ("specular_glossiness", glossy, "specularGlossinessTexture"),
            ("transmission", extension["transmission"], "transmissionTexture"),
            ("thickness", volume, "thicknessTexture"),
            ("specular", specular, "specularTexture"),
            ("specular_color", specular, "specularColorTexture")):
        factor = {"normal": "scale", "occlusion": "strength"}.get(name, "no member")
        print_use(about, name, of.get(member), factor)


def print_sampler(file, about, index, record):
    put(about, "mag_filter", record.get("magFilter", 0))
    put(about, "min_filter", record.get("minFilter", 0))
    put(about, "wrap_s", record.get("wrapS", 10497))
    put(about, "wrap_t", record.get("wrapT", 10497))


def print_texture(file, about, index, record):
    sampler = record.get("sampler")
    put(about, "image", record.get("source"))
    put(about, "sampler", sampler)
    print_sampler(file, about, index, file.list("samplers")[sampler] if sampler is not None else {})


def print_image(file, about, index, record):
    view = record.get("bufferView")
    put(about, "view", view)
    put(about, "size", 0 if view is None else file.list("bufferViews")[view]["byteLength"])
    put(about, "bytes", None if view is None else file.view_bytes(view).hex())
    for member in ("uri", "mimeType"):
        if member in record:
            put(about, member, record[member])


def print_scene(file, about, index, record):
    put(about, "nodes", *record.get("nodes", []))


def print_node(file, about, index, record):
    for member in ("mesh", "skin", "camera"):
        put(about, member, record.get(member))
    put(about, "light", (known(record, LIGHTS) or {}).get("light"))
    put(about, "weights", len(all_numbers(record, "weights")))
    members = ("matrix", "translation", "rotation", "scale")
    put(about, "has", sum(1 << k for k, member in enumerate(members) if member in record))
    for member, default in zip(members, (UNIT, [0] * 3, [0, 0, 0, 1], [1] * 3)):
        put_numbers(about, member, numbers(record, member, default))
    put(about, "children", *record.get("children", []))
    put_numbers(about, "weights", all_numbers(record, "weights"))


def print_skin(file, about, index, record):
    put(about, "skeleton", record.get("skeleton"))
    put(about, "inverse_bind_matrices", record.get("inverseBindMatrices"))
    put(about, "joints", *record["joints"])


def print_animation(file, about, index, record):
    put(about, "channels", len(record["channels"]))
    put(about, "samplers", len(record["samplers"]))
    for k, channel in enumerate(record["channels"]):
        sampler, at = record["samplers"][channel["sampler"]], f"channels {index} {k}"
        put(at, "node", channel["target"].get("node"))
        put(at, "path", PATHS.index(channel["target"]["path"]))
        put(at, "interpolation",
            INTERPOLATIONS.index(sampler.get("interpolation", "LINEAR")))
        put(at, "sampler", channel["sampler"])
        put(at, "input", sampler["input"])
        put(at, "output", sampler["output"])
        print_extras(file, at, channel)
    for k, sampler in enumerate(record["samplers"]):
        print_extras(file, f"animationSamplers {index} {k}", sampler)


def print_camera(file, about, index, record):
    is_flat = record["type"] == "orthographic"
    flat, deep = record.get("orthographic", {}), record.get("perspective", {})
    put(about, "orthographic", int(is_flat))
    for name, of, member in (
            ("znear", flat if is_flat else deep, "znear"),
            ("zfar", flat if is_flat else deep, "zfar"),
            ("xmag", flat if is_flat else {}, "xmag"), ("ymag", flat if is_flat else {}, "ymag"),
            ("yfov", {} if is_flat else deep, "yfov"),
            ("aspect_ratio", {} if is_flat else deep, "aspectRatio")):
        put_numbers(about, name, [number(of, member, 0)])


def print_light(file, about, index, record):
    spot = record.get("spot", {})
    put(about, "type", ("directional", "point", "spot").index(record["type"]))
    put_numbers(about, "color", numbers(record, "color", [1] * 3))
    put_numbers(about, "intensity", [number(record, "intensity", 1)])
    put_numbers(about, "range", [number(record, "range", 0)])
    put_numbers(about, "inner_cone_angle", [number(spot, "innerConeAngle", 0)])
    put_numbers(about, "outer_cone_angle", [number(spot, "outerConeAngle", 0.7853981633974483)])


def print_nothing(file, about, index, record):
    """A record that has a name alone."""


PRINT = dict(zip(KINDS, (
    print_buffer, print_view, print_accessor, print_mesh, print_node, print_material, print_scene,
    print_skin, print_animation, print_image, print_texture, print_sampler, print_camera)))
PRINT.update(lights=print_light, variants=print_nothing)


def print_file(path):
    file = File(path)
    for kind, print_record in PRINT.items():
        records = file.list(kind)
        lines.append(f"{len(records)} {kind}")
        for index, record in enumerate(records):
            about = f"{kind} {index}"
            if "name" in record:
                put(about, "name", record["name"])
            print_extras(file, about, record)
            print_record(file, about, index, record)
            print_extensions(file, kind, index, record)
    for kind in ("extensionsUsed", "extensionsRequired"):
        lines.append(f"{len(file.list(kind))} {kind}")
        for index, name in enumerate(file.list(kind)):
            put(f"{kind} {index}", "name", name)
    asset = file.document["asset"]
    lines.append("1 asset")
    print_extras(file, "asset 0", asset)
    for member in ("version", "minVersion", "generator", "copyright"):
        if member in asset:
            put("asset 0", member, asset[member])
    lines.append("1 root")
    print_extras(file, "root 0", file.document)
    put("root 0", "scene", file.document.get("scene"))
    print_material(file, "default", None, {})


def print_of_wrapper(path):
    """What items.cpp prints of a file."""
    file = File(path)
    for index, record in enumerate(file.list("accessors")):
        letter = LETTERS[record["componentType"]]
        try:
            items = b"".join(file.items(record))
        except Unreadable:
            put("accessor", index, f"status {UNREADABLE}")
            continue
        flat = struct.unpack(f"<{len(items) // struct.calcsize(letter)}{letter}", items)
        put("accessor", index, *(("%.9g" if letter == "f" else "%d") % value for value in flat))
        put("floats", index, *(as_float(value, record) for value in flat))
    for number, mesh in enumerate(file.list("meshes")):
        for k, primitive in enumerate(mesh["primitives"]):
            print_attributes(f"attribute {number} {k} -1", primitive["attributes"])
            for n, target in enumerate(primitive.get("targets", [])):
                print_attributes(f"attribute {number} {k} {n}", target)
    print("\n".join(lines))


def main():
    if sys.argv[1] == "--items":
        print_of_wrapper(pathlib.Path(sys.argv[2]))
        return 0
    printed = pathlib.Path(sys.argv[1]).read_text("utf-8").splitlines()
    for name in sys.argv[2:]:
        print_file(pathlib.Path(name))
    wanted = "\n".join(lines).splitlines()
    differ = list(difflib.unified_diff(list(map(meaning, wanted)), list(map(meaning, printed)),
                                       "wanted", "printed", n=0, lineterm=""))
    print("\n".join(differ[:40]), end="\n" * bool(differ))
    return 1 if differ or not wanted else 0


if __name__ == "__main__":
    sys.exit(main())
