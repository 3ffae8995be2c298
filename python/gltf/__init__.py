"""glTF 2.0 files, read by a loader that is proved: no file can crash it.

    import gltf

    with gltf.open("box.glb") as document:
        for mesh in document.meshes:
            for primitive in mesh.primitives:
                print(mesh.name, primitive.attributes["POSITION"].array())

`open` gives a Document, or raises a GltfError that says what is wrong and where. `check` gives a
report of everything that is wrong. Needs Python 3.8; NumPy for `Accessor.array` alone.
"""
from ._accessor import Accessor
from ._check import check
from ._document import Document, Folder, open
from ._errors import (
    BadArgumentError, BadExtensionError, Base64Error, ClosedError, ContainerError, DocumentError,
    ExternalReferenceError, GltfError, MissingBlobError, NoRoomError,
    NoSuchIndexError, OtherTypeError, OutOfMemoryError, RulesError, ShortBufferError,
    UnreadableError, UnsupportedSchemeError)
from ._record import Record, Records
from ._records import (
    Animation, Buffer, BufferView, Camera, Channel, Extension, Image, Light, Material, Mesh, Node,
    Primitive, Sampler, Scene, Skin, Texture, TextureUse, Variant)

__version__ = "2.2.0"
__all__ = [
    "Accessor", "Animation", "BadArgumentError", "BadExtensionError", "Base64Error", "Buffer",
    "BufferView", "Camera", "Channel", "ClosedError", "ContainerError", "Document",
    "DocumentError", "Extension", "ExternalReferenceError", "Folder", "GltfError", "Image",
    "Light", "Material", "Mesh", "MissingBlobError", "NoRoomError", "NoSuchIndexError", "Node",
    "OtherTypeError", "OutOfMemoryError", "Primitive", "Record", "Records", "RulesError",
    "Sampler", "Scene", "ShortBufferError", "Skin", "Texture", "TextureUse", "UnreadableError",
    "UnsupportedSchemeError", "Variant", "check", "open"]
