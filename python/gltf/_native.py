"""The library for C, by ctypes: its structs and calls, as gltf.h has them.

The calls of a `ctypes.CDLL` give up the interpreter's lock, so threads read side by side.
"""
from __future__ import annotations

import ctypes
import os
import pathlib
from ctypes import POINTER, c_char, c_char_p, c_double, c_size_t, c_uint, c_void_p
from typing import Any, List, Tuple, Type

# The version that is needed: the same major version, and no older one.
VERSION = 20200
NAME = "libgltf.so.2"
# An index that is absent.
NONE = c_size_t(-1).value
EXTERNAL, EXACT_LENGTHS = 1, 2

_TYPES = {"z": c_size_t, "u": c_uint, "d": c_double, "p": c_void_p}


def _fields(text: str) -> List[Tuple[str, Any]]:
    """The members of a struct: `z count, d4 factor` is a size_t and a double[4]."""
    members = []
    for word in text.split(","):
        kind, name = word.split()
        base = _TYPES[kind[0]]
        members.append((name, base * int(kind[1:]) if kind[1:] else base))
    return members


def _struct(name: str, members: List[Tuple[str, Any]], reserved: int) -> Type[ctypes.Structure]:
    """A struct that ends in so many reserved words."""
    tail = [("reserved", c_size_t * reserved)] if reserved else []
    return type(name, (ctypes.Structure,), {"_fields_": members + tail})


Fault = _struct(
    "Fault",
    _fields("u status, u rules, z buffer, z expected, z actual, z4 reserved")
    + [("path", c_char * 128), ("text", c_char * 512)], 0)
OpenOptions = _struct(
    "OpenOptions",
    _fields("u flags, u reserved_word") + [("extensions", POINTER(c_char_p))]
    + _fields("z extension_count"), 4)
Buffer = _struct("Buffer", _fields(
    "p bytes, z size, z byte_length, u waits, u reserved_word"), 2)
BufferView = _struct("BufferView", _fields(
    "z buffer, z byte_offset, z byte_length, z byte_stride, u target, u reserved_word, p bytes"), 1)
Accessor = _struct("Accessor", _fields(
    "z count, z item_size, u component_type, u components, u is_matrix, u normalized, z sparse, "
    "z view, z byte_offset, z stride, p data"), 4)
Mesh = _struct("Mesh", _fields("z primitives, z weights"), 2)
Primitive = _struct("Primitive", _fields(
    "u mode, u reserved_word, z indices, z material, z attributes, z targets"), 2)
Attribute = _struct("Attribute", _fields("u meaning, u set, z accessor"), 2)
TextureUse = _struct("TextureUse", _fields(
    "z texture, u tex_coord, u has_transform, d scale, d2 offset, d rotation, d2 size"), 0)


def _uses(names: str) -> List[Tuple[str, Any]]:
    """Members that are uses of textures."""
    return [(name, TextureUse) for name in names.split()]


Material = _struct(
    "Material",
    _fields("u alpha_mode, u double_sided, u has, u reserved_word, d alpha_cutoff, "
            "d4 base_color_factor, d metallic_factor, d roughness_factor, d3 emissive_factor")
    + _uses("base_color metallic_roughness normal occlusion emissive")
    + _fields("d4 diffuse_factor, d3 specular_glossiness_factor, d glossiness_factor")
    + _uses("diffuse specular_glossiness")
    + _fields("d transmission_factor, d ior, d emissive_strength") + _uses("transmission")
    + _fields("d thickness_factor, d attenuation_distance, d3 attenuation_color")
    + _uses("thickness") + _fields("d specular_factor, d3 specular_color_factor")
    + _uses("specular specular_color"), 8)
Texture = _struct("Texture", _fields(
    "z image, z sampler, u mag_filter, u min_filter, u wrap_s, u wrap_t"), 2)
Sampler = _struct("Sampler", _fields("u mag_filter, u min_filter, u wrap_s, u wrap_t"), 2)
Image = _struct("Image", _fields("z view, p bytes, z size"), 2)
Scene = _struct("Scene", _fields("z nodes"), 2)
Node = _struct("Node", _fields(
    "z mesh, z skin, z camera, z light, z children, z weights, u has, u reserved_word, "
    "d16 matrix, d3 translation, d4 rotation, d3 scale"), 4)
Skin = _struct("Skin", _fields("z joints, z skeleton, z inverse_bind_matrices"), 2)
Animation = _struct("Animation", _fields("z channels, z samplers"), 2)
Channel = _struct("Channel", _fields(
    "z node, u path, u interpolation, z sampler, z input, z output"), 2)
Camera = _struct("Camera", _fields(
    "u orthographic, u reserved_word, d znear, d zfar, d xmag, d ymag, d yfov, d aspect_ratio"), 2)
Light = _struct("Light", _fields(
    "u type, u reserved_word, d3 color, d intensity, d range, d inner_cone_angle, "
    "d outer_cone_angle"), 2)
Clearcoat = _struct(
    "Clearcoat", _fields("d clearcoat_factor, d clearcoat_roughness_factor")
    + _uses("clearcoat clearcoat_roughness clearcoat_normal"), 4)
Sheen = _struct(
    "Sheen", _fields("d3 sheen_color_factor, d sheen_roughness_factor")
    + _uses("sheen_color sheen_roughness"), 4)
Iridescence = _struct(
    "Iridescence",
    _fields("d iridescence_factor, d iridescence_ior, d iridescence_thickness_minimum, "
            "d iridescence_thickness_maximum") + _uses("iridescence iridescence_thickness"), 4)
Anisotropy = _struct(
    "Anisotropy", _fields("d anisotropy_strength, d anisotropy_rotation") + _uses("anisotropy"), 4)
Dispersion = _struct("Dispersion", _fields("d dispersion"), 4)
DiffuseTransmission = _struct(
    "DiffuseTransmission",
    _fields("d diffuse_transmission_factor, d3 diffuse_transmission_color_factor")
    + _uses("diffuse_transmission diffuse_transmission_color"), 4)
TextureSource = _struct("TextureSource", _fields("z image"), 3)
Instancing = _struct("Instancing", _fields("z translation, z rotation, z scale"), 5)
Visibility = _struct("Visibility", _fields("u visible, u reserved_word"), 3)
Meshopt = _struct("Meshopt", _fields(
    "z buffer, z byte_offset, z byte_length, z byte_stride, z count, u mode, u filter"), 2)

# The structs by their names in gltf.h; a test compares their layout with the header's.
STRUCTS = {
    "gltf_fault": Fault, "gltf_open_options": OpenOptions, "gltf_buffer": Buffer,
    "gltf_buffer_view": BufferView, "gltf_accessor": Accessor, "gltf_mesh": Mesh,
    "gltf_primitive": Primitive, "gltf_attribute": Attribute, "gltf_texture_use": TextureUse,
    "gltf_material": Material, "gltf_texture": Texture, "gltf_sampler": Sampler,
    "gltf_image": Image, "gltf_scene": Scene, "gltf_node": Node, "gltf_skin": Skin,
    "gltf_animation": Animation, "gltf_channel": Channel, "gltf_camera": Camera,
    "gltf_light": Light, "gltf_clearcoat": Clearcoat, "gltf_sheen": Sheen,
    "gltf_iridescence": Iridescence, "gltf_anisotropy": Anisotropy, "gltf_dispersion": Dispersion,
    "gltf_diffuse_transmission": DiffuseTransmission, "gltf_texture_source": TextureSource,
    "gltf_instancing": Instancing, "gltf_visibility": Visibility, "gltf_meshopt": Meshopt,
}

_TEXT = [c_char_p, c_size_t, POINTER(c_size_t)]
# The parameters of the calls that return a status, after the file.
_CALLS = {
    "name": [c_uint, c_size_t, *_TEXT],
    "text": [c_uint, c_size_t, *_TEXT],
    "json": [c_uint, c_size_t, c_size_t, c_char_p, c_size_t, *_TEXT],
    "list": [c_uint, c_size_t, POINTER(c_size_t), c_size_t, POINTER(c_size_t)],
    "numbers": [c_uint, c_size_t, POINTER(c_double), c_size_t, POINTER(c_size_t)],
    "give": [c_size_t, c_void_p, c_size_t],
    "accessor_read": [c_size_t, c_void_p, c_size_t],
    "accessor_read_u32": [c_size_t, c_void_p, c_size_t],
    "default_scene": [POINTER(c_size_t)],
    "variant_material": [c_size_t, c_size_t, c_size_t, POINTER(c_size_t)],
    "variant_fault": [c_size_t, c_size_t, c_size_t, POINTER(Fault)],
    "attribute_name": [c_size_t, c_size_t, c_size_t, c_size_t, *_TEXT],
    "attribute_info": [c_size_t] * 4 + [POINTER(Attribute)],
    "primitive_info": [c_size_t] * 2 + [POINTER(Primitive)],
    "channel_info": [c_size_t] * 2 + [POINTER(Channel)],
}
_INFOS = {
    "buffer": Buffer, "buffer_view": BufferView, "accessor": Accessor, "mesh": Mesh,
    "material": Material, "texture": Texture, "sampler": Sampler, "image": Image, "scene": Scene,
    "node": Node, "skin": Skin, "animation": Animation, "camera": Camera, "light": Light,
}
# Those that return 12 of a record without the extension.
EXTENSIONS = {
    "clearcoat": Clearcoat, "sheen": Sheen, "iridescence": Iridescence, "anisotropy": Anisotropy,
    "dispersion": Dispersion, "diffuse_transmission": DiffuseTransmission,
    "basisu": TextureSource, "webp": TextureSource, "instancing": Instancing,
    "visibility": Visibility, "meshopt": Meshopt,
}


def _place() -> str:
    """The path of the library: GLTF_LIBRARY, else one beside this file, else the system's."""
    stated = os.environ.get("GLTF_LIBRARY")
    beside = pathlib.Path(__file__).with_name(NAME)
    return stated or (str(beside) if beside.is_file() else NAME)


def _load() -> ctypes.CDLL:
    place = _place()
    try:
        library = ctypes.CDLL(place)
    except OSError as why:
        raise ImportError(
            "the library %s cannot be loaded (%s); install it, or set GLTF_LIBRARY to its path"
            % (place, why)) from why
    library.gltf_version.argtypes, library.gltf_version.restype = [], c_uint
    found = library.gltf_version()
    if found // 10000 != VERSION // 10000 or found < VERSION:
        raise ImportError("%s has version %d.%d, and version %d.%d is needed" % (
            place, found // 10000, found // 100 % 100, VERSION // 10000, VERSION // 100 % 100))
    calls = dict(_CALLS)
    calls.update((kind + "_info", [c_size_t, POINTER(it)])
                 for kind, it in [*_INFOS.items(), *EXTENSIONS.items()])
    for name, words in calls.items():
        call = getattr(library, "gltf_" + name)
        call.argtypes, call.restype = [c_void_p, *words], c_uint
    library.gltf_open.argtypes = [
        c_void_p, c_size_t, POINTER(OpenOptions), POINTER(c_void_p), POINTER(Fault)]
    library.gltf_open.restype = c_uint
    library.gltf_count.argtypes, library.gltf_count.restype = [c_void_p, c_uint], c_size_t
    library.gltf_close.argtypes, library.gltf_close.restype = [c_void_p], None
    return library


library = _load()
