"""The records of a document: meshes, nodes, materials and all others but accessors.

Members have the names of the format, in snake case, and the values that it gives them where they
are absent (glTF 2.0, section 5). Where a member names another record, it is that record.
"""
from __future__ import annotations

from ctypes import byref, c_size_t
from typing import TYPE_CHECKING, Any, Dict, List, Optional, Tuple

from . import _native
from ._accessor import Accessor
from ._file import or_none
from ._native import NONE
from ._record import Record, Records

if TYPE_CHECKING:
    from ._document import Document

MODES = ("POINTS", "LINES", "LINE_LOOP", "LINE_STRIP", "TRIANGLES", "TRIANGLE_STRIP",
         "TRIANGLE_FAN")
PATHS = ("translation", "rotation", "scale", "weights")
INTERPOLATIONS = ("LINEAR", "STEP", "CUBICSPLINE")
ALPHA_MODES = ("OPAQUE", "MASK", "BLEND")
LIGHT_TYPES = ("directional", "point", "spot")

# The extensions of a material that are members of it, by their bits.
MATERIAL_EXTENSIONS = {
    1: "KHR_materials_unlit", 2: "KHR_materials_pbrSpecularGlossiness",
    4: "KHR_materials_transmission", 8: "KHR_materials_ior",
    16: "KHR_materials_emissive_strength", 32: "KHR_materials_volume",
    64: "KHR_materials_specular"}


class Extension:
    """An extension of a record, by the names that gltf.h gives its members: numbers, tuples of
    numbers, and textures with `_texture` behind their names, each a TextureUse or None."""

    def __init__(self, document: "Document", info: Any) -> None:
        for name, kind in info._fields_:
            value = getattr(info, name)
            if kind is _native.TextureUse:
                self.__dict__[name + "_texture"] = _use_of(document, value)
            elif not name.startswith("reserved"):
                is_one = isinstance(value, (int, float))
                self.__dict__[name] = value if is_one else tuple(value)

    def __getattr__(self, member: str) -> Any:
        raise AttributeError("the extension has no %s" % member)

    def __repr__(self) -> str:
        return "<gltf Extension %s>" % ", ".join(self.__dict__)


def _extension(call: str, name: str) -> Any:
    """A member that is an extension. One that is not of its form is a BadExtensionError."""
    def read(self: Record) -> Optional[Extension]:
        info = self._file.extension(call, self.index)
        return None if info is None else Extension(self.document, info)
    return property(read, doc="%s, or None." % name)


class Buffer(Record):
    """A buffer (section 5.10)."""

    kind = "buffers"

    def _read(self) -> Any:
        return self._file.get("buffer", _native.Buffer, self.index)

    @property
    def byte_length(self) -> int:
        """The bytes that the file declares."""
        return int(self._info.byte_length)

    @property
    def uri(self) -> Optional[str]:
        return self._file.text("buffer_uri", self.index)

    @property
    def bytes(self) -> Optional[memoryview]:
        """Its bytes, read-only and without a copy, filled up with zeros to a multiple of four.
        None where they were never given."""
        info = self._file.get("buffer", _native.Buffer, self.index)
        return None if info.waits else self._file.lend(info.bytes, info.size)


class BufferView(Record):
    """A buffer view (section 5.11)."""

    kind = "buffer_views"

    def _read(self) -> Any:
        return self._file.get("buffer_view", _native.BufferView, self.index)

    meshopt = _extension("meshopt", "EXT_meshopt_compression")

    @property
    def buffer(self) -> Buffer:
        return self.document.buffers[self._info.buffer]

    @property
    def byte_offset(self) -> int:
        return int(self._info.byte_offset)

    @property
    def byte_length(self) -> int:
        return int(self._info.byte_length)

    @property
    def byte_stride(self) -> Optional[int]:
        return self._info.byte_stride or None

    @property
    def target(self) -> Optional[int]:
        """34962 for vertices, 34963 for indices, or None."""
        return self._info.target or None

    @property
    def bytes(self) -> Optional[memoryview]:
        """Its bytes, read-only and without a copy; None where they do not lie in the buffer."""
        whole = self.buffer.bytes
        end = self.byte_offset + self.byte_length
        return None if whole is None or end > len(whole) else whole[self.byte_offset:end]


class Sampler(Record):
    """How textures are sampled (section 5.26), by the numbers of the format."""

    kind = "samplers"

    def _read(self) -> Any:
        return self._file.get("sampler", _native.Sampler, self.index)

    mag_filter = property(lambda self: self._info.mag_filter or None,
                          doc="9728 or 9729, or None.")
    min_filter = property(lambda self: self._info.min_filter or None,
                          doc="9728, 9729, 9984 to 9987, or None.")
    wrap_s = property(lambda self: int(self._info.wrap_s), doc="33071, 33648 or 10497.")
    wrap_t = property(lambda self: int(self._info.wrap_t), doc="33071, 33648 or 10497.")


class Image(Record):
    """An image (section 5.18). It is not decoded."""

    kind = "images"

    def _read(self) -> Any:
        return self._file.get("image", _native.Image, self.index)

    @property
    def uri(self) -> Optional[str]:
        return self._file.text("image_uri", self.index)

    @property
    def mime_type(self) -> Optional[str]:
        return self._file.text("image_mime_type", self.index)

    @property
    def buffer_view(self) -> Optional[BufferView]:
        index = or_none(self._info.view)
        return None if index is None else self.document.buffer_views[index]

    @property
    def bytes(self) -> Optional[memoryview]:
        """The bytes of its file, read-only and without a copy, where they are in a buffer view;
        None where it has a URI, or the view does not lie in its buffer."""
        at = self._info.bytes
        return self._file.lend(at, self._info.size) if at else None


class Texture(Record):
    """A texture (section 5.29)."""

    kind = "textures"

    def _read(self) -> Any:
        return self._file.get("texture", _native.Texture, self.index)

    @property
    def source(self) -> Optional[Image]:
        index = or_none(self._info.image)
        return None if index is None else self.document.images[index]

    @property
    def sampler(self) -> Optional[Sampler]:
        index = or_none(self._info.sampler)
        return None if index is None else self.document.samplers[index]

    def _image_of(self, call: str) -> Optional[Image]:
        info = self._file.extension(call, self.index)
        index = None if info is None else or_none(info.image)
        return None if index is None else self.document.images[index]

    @property
    def basisu(self) -> Optional[Image]:
        """The image of KHR_texture_basisu, or None."""
        return self._image_of("basisu")

    @property
    def webp(self) -> Optional[Image]:
        """The image of EXT_texture_webp, or None."""
        return self._image_of("webp")

    wrap_s = property(lambda self: int(self._info.wrap_s), doc="That of the sampler, or 10497.")
    wrap_t = property(lambda self: int(self._info.wrap_t), doc="That of the sampler, or 10497.")


class TextureUse:
    """A use of a texture (section 5.30), with its KHR_texture_transform."""

    def __init__(self, texture: Texture, info: Any) -> None:
        self.texture = texture
        self.tex_coord: int = info.tex_coord
        # The `scale` of a normal texture, the `strength` of an occlusion texture, else 1.
        self.scale: float = info.scale
        self.has_transform = bool(info.has_transform)
        self.offset: Tuple[float, float] = tuple(info.offset)
        self.rotation: float = info.rotation
        self.transform_scale: Tuple[float, float] = tuple(info.size)

    def __repr__(self) -> str:
        return "<gltf TextureUse of %r>" % self.texture


def _use_of(document: "Document", use: Any) -> Optional[TextureUse]:
    """A use of a texture, or None where no texture is named."""
    index = or_none(use.texture)
    return None if index is None else TextureUse(document.textures[index], use)


class Material(Record):
    """A material (section 5.19), with the extensions that the loader reads.

    `base_color_factor`, `metallic_factor` and all other factors are numbers or tuples of numbers.
    `base_color_texture` and all other textures are a TextureUse or None. `extensions` names which
    of the extensions the file states here; the members of one that it does not state have the
    values that leave the material as it is. `clearcoat` and the others that are an Extension are
    not among them.
    """

    kind = "materials"

    def _read(self) -> Any:
        return self._file.get("material", _native.Material, self.index)

    clearcoat = _extension("clearcoat", "KHR_materials_clearcoat")
    sheen = _extension("sheen", "KHR_materials_sheen")
    iridescence = _extension("iridescence", "KHR_materials_iridescence")
    anisotropy = _extension("anisotropy", "KHR_materials_anisotropy")
    dispersion = _extension("dispersion", "KHR_materials_dispersion")
    diffuse_transmission = _extension(
        "diffuse_transmission", "KHR_materials_diffuse_transmission")

    def _use(self, member: str) -> Optional[TextureUse]:
        return _use_of(self.document, getattr(self._info, member))

    @property
    def alpha_mode(self) -> str:
        return ALPHA_MODES[self._info.alpha_mode]

    @property
    def double_sided(self) -> bool:
        return bool(self._info.double_sided)

    @property
    def extensions(self) -> List[str]:
        return [name for bit, name in MATERIAL_EXTENSIONS.items() if self._info.has & bit]

    @property
    def unlit(self) -> bool:
        """Whether it has KHR_materials_unlit."""
        return bool(self._info.has & 1)

    def __getattr__(self, member: str) -> Any:
        if member.startswith("_"):
            raise AttributeError(member)
        name = member[:-len("_texture")] if member.endswith("_texture") else ""
        if name in _USES:
            return self._use(name)
        if member in _FACTORS:
            value = getattr(self._info, member)
            return value if isinstance(value, float) else tuple(value)
        raise AttributeError("a material has no %s" % member)

    def __dir__(self) -> List[str]:
        return [*super().__dir__(), *_FACTORS, *(name + "_texture" for name in _USES)]


_USES = frozenset(name for name, kind in _native.Material._fields_  # type: ignore[attr-defined]
                  if kind is _native.TextureUse)
_FACTORS = frozenset(name for name, kind in _native.Material._fields_  # type: ignore[attr-defined]
                     if kind is not _native.TextureUse) - {
                         "alpha_mode", "double_sided", "has", "reserved_word", "reserved"}


class Primitive:
    """A primitive of a mesh (section 5.24)."""

    def __init__(self, mesh: "Mesh", index: int) -> None:
        self.mesh = mesh
        self.index = index
        self.document = mesh.document
        self._info = _native.Primitive()
        self.document._open().call("primitive_info", mesh.index, index, byref(self._info))

    @property
    def mode(self) -> str:
        """`TRIANGLES` and so on."""
        return MODES[self._info.mode]

    @property
    def indices(self) -> Optional[Accessor]:
        index = or_none(self._info.indices)
        return None if index is None else self.document.accessors[index]

    @property
    def material(self) -> Optional[Material]:
        index = or_none(self._info.material)
        return None if index is None else self.document.materials[index]

    def _attributes(self, target: int) -> Dict[str, Accessor]:
        file, info, found, position = self.document._open(), _native.Attribute(), {}, 0
        place = (self.mesh.index, self.index, target)
        while file.returned("attribute_info", *place, position, byref(info)) == 0:
            name = file.attribute_name(*place, position)
            found[name] = self.document.accessors[info.accessor]
            position += 1
        return found

    @property
    def attributes(self) -> Dict[str, Accessor]:
        """The accessors by the names of the attributes, as `POSITION` or `_TEMPERATURE`."""
        return self._attributes(NONE)

    @property
    def targets(self) -> List[Dict[str, Accessor]]:
        """The attributes of each morph target (section 3.7.2.2)."""
        return [self._attributes(target) for target in range(self._info.targets)]

    def material_of(self, variant: int) -> Optional[Material]:
        """The material under a variant of KHR_materials_variants, by the number of the variant:
        that which the variant names here, else the primitive's own. Raises BadExtensionError, with
        the place of the index, where the variant names a material that the document has not: no
        rule looks at that index."""
        material, file = c_size_t(), self.document._open()
        place = (self.mesh.index, self.index, variant)
        file.check_variant(*place)
        status = file.returned("variant_material", *place, byref(material))
        return self.document.materials[material.value] if status == 0 else self.material

    @property
    def extras(self) -> Any:
        return self.document._open().json("primitives", self.mesh.index, self.index)

    def extension(self, name: str) -> Any:
        """What it has of an extension that the loader keeps as JSON, or None."""
        return self.document._open().json("primitives", self.mesh.index, self.index, name)

    def __repr__(self) -> str:
        return "<gltf Primitive %d of mesh %d>" % (self.index, self.mesh.index)


class Mesh(Record):
    """A mesh (section 5.23)."""

    kind = "meshes"

    def _read(self) -> Any:
        return self._file.get("mesh", _native.Mesh, self.index)

    @property
    def primitives(self) -> "Records[Primitive]":
        return Records(self._info.primitives, lambda at: Primitive(self, at))

    @property
    def weights(self) -> List[float]:
        """The weights of the morph targets, empty where there are none."""
        return self._file.numbers("mesh_weights", self.index)


class Camera(Record):
    """A camera (section 5.12): `xmag` and `ymag` are those of an orthographic one, `yfov` (in
    radians) and `aspect_ratio` those of a perspective one."""

    kind = "cameras"

    def _read(self) -> Any:
        return self._file.get("camera", _native.Camera, self.index)

    @property
    def type(self) -> str:
        return "orthographic" if self._info.orthographic else "perspective"

    znear = property(lambda self: self._info.znear)
    zfar = property(lambda self: self._info.zfar or None, doc="None: there is no end.")
    xmag = property(lambda self: self._info.xmag)
    ymag = property(lambda self: self._info.ymag)
    yfov = property(lambda self: self._info.yfov)
    aspect_ratio = property(lambda self: self._info.aspect_ratio or None,
                            doc="None: that of the window.")


class Light(Record):
    """A light of KHR_lights_punctual."""

    kind = "lights"

    def _read(self) -> Any:
        return self._file.get("light", _native.Light, self.index)

    @property
    def type(self) -> str:
        """`directional`, `point` or `spot`."""
        return LIGHT_TYPES[self._info.type]

    color = property(lambda self: tuple(self._info.color))
    intensity = property(lambda self: self._info.intensity)
    range = property(lambda self: self._info.range or None, doc="None: there is no end.")
    inner_cone_angle = property(lambda self: self._info.inner_cone_angle, doc="In radians.")
    outer_cone_angle = property(lambda self: self._info.outer_cone_angle, doc="In radians.")


class Node(Record):
    """A node (section 5.25)."""

    kind = "nodes"

    def _read(self) -> Any:
        return self._file.get("node", _native.Node, self.index)

    @property
    def mesh(self) -> Optional[Mesh]:
        index = or_none(self._info.mesh)
        return None if index is None else self.document.meshes[index]

    @property
    def skin(self) -> Optional["Skin"]:
        index = or_none(self._info.skin)
        return None if index is None else self.document.skins[index]

    @property
    def camera(self) -> Optional[Camera]:
        index = or_none(self._info.camera)
        return None if index is None else self.document.cameras[index]

    @property
    def light(self) -> Optional[Light]:
        index = or_none(self._info.light)
        return None if index is None else self.document.lights[index]

    @property
    def children(self) -> List["Node"]:
        nodes = self.document.nodes
        return [nodes[at] for at in self._file.indices("node_children", self.index)]

    @property
    def weights(self) -> List[float]:
        """Its own weights of morph targets; where there are none, those of the mesh hold."""
        return self._file.numbers("node_weights", self.index)

    @property
    def instancing(self) -> Optional[Dict[str, Accessor]]:
        """The accessors of the instances of its mesh (EXT_mesh_gpu_instancing), as `TRANSLATION`;
        None where it has no such extension."""
        info = self._file.extension("instancing", self.index)
        if info is None:
            return None
        found = {name.upper(): or_none(getattr(info, name))
                 for name in ("translation", "rotation", "scale")}
        return {name: self.document.accessors[at] for name, at in found.items() if at is not None}

    @property
    def visible(self) -> bool:
        """Whether it is shown, with the nodes below it (KHR_node_visibility)."""
        info = self._file.extension("visibility", self.index)
        return info is None or bool(info.visible)

    @property
    def has_matrix(self) -> bool:
        """Whether the file gives a matrix; else translation, rotation and scale hold."""
        return bool(self._info.has & 1)

    matrix = property(lambda self: tuple(self._info.matrix), doc="16 numbers, column by column.")
    translation = property(lambda self: tuple(self._info.translation))
    rotation = property(lambda self: tuple(self._info.rotation), doc="x, y, z, w.")
    scale = property(lambda self: tuple(self._info.scale))


class Scene(Record):
    """A scene (section 5.27)."""

    kind = "scenes"

    @property
    def nodes(self) -> List[Node]:
        """Its root nodes."""
        nodes = self.document.nodes
        return [nodes[at] for at in self._file.indices("scene_nodes", self.index)]


class Skin(Record):
    """A skin (section 5.28)."""

    kind = "skins"

    def _read(self) -> Any:
        return self._file.get("skin", _native.Skin, self.index)

    @property
    def joints(self) -> List[Node]:
        nodes = self.document.nodes
        return [nodes[at] for at in self._file.indices("skin_joints", self.index)]

    @property
    def skeleton(self) -> Optional[Node]:
        index = or_none(self._info.skeleton)
        return None if index is None else self.document.nodes[index]

    @property
    def inverse_bind_matrices(self) -> Optional[Accessor]:
        """None: each is the unit matrix."""
        index = or_none(self._info.inverse_bind_matrices)
        return None if index is None else self.document.accessors[index]


class Channel:
    """A channel of an animation, with its sampler (sections 5.6 to 5.8)."""

    def __init__(self, animation: "Animation", index: int) -> None:
        self.animation = animation
        self.index = index
        self.document = animation.document
        self._info = _native.Channel()
        self.document._open().call("channel_info", animation.index, index, byref(self._info))

    @property
    def node(self) -> Optional[Node]:
        """The node that it animates; None: the channel is to be ignored."""
        index = or_none(self._info.node)
        return None if index is None else self.document.nodes[index]

    path = property(lambda self: PATHS[self._info.path],
                    doc="`translation`, `rotation`, `scale` or `weights`.")
    interpolation = property(lambda self: INTERPOLATIONS[self._info.interpolation],
                             doc="`LINEAR`, `STEP` or `CUBICSPLINE`.")
    input = property(lambda self: self.document.accessors[self._info.input],
                     doc="The times, in seconds.")
    output = property(lambda self: self.document.accessors[self._info.output],
                      doc="The values; three for each time of a cubic spline.")

    def __repr__(self) -> str:
        return "<gltf Channel %d of animation %d>" % (self.index, self.animation.index)


class Animation(Record):
    """An animation (section 5.5)."""

    kind = "animations"

    def _read(self) -> Any:
        return self._file.get("animation", _native.Animation, self.index)

    @property
    def channels(self) -> "Records[Channel]":
        return Records(self._info.channels, lambda at: Channel(self, at))


class Variant(Record):
    """A variant of KHR_materials_variants: it has a name. `Primitive.material_of` takes its
    number."""

    kind = "variants"
