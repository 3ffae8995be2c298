"""Documents, and where the bytes of other files come from."""
from __future__ import annotations

import builtins
import os
import urllib.parse
from ctypes import byref, c_size_t
from typing import Any, Callable, Iterable, List, Optional, Union

from . import _native, _records
from ._accessor import Accessor
from ._errors import ClosedError, ExternalReferenceError
from ._file import File
from ._record import Records

Source = Union[str, "os.PathLike[str]", bytes, bytearray, memoryview]
Resolver = Callable[[str], Any]


class Folder:
    """Gives the bytes of the files in a folder, by the URIs of a document.

    A URI leads no further up than the folder, also through a symbolic link: `..`, absolute paths
    and schemes raise ExternalReferenceError, unless `outside` is true, which allows `..`, absolute
    paths and `file:` URIs.
    """

    def __init__(self, folder: Union[str, "os.PathLike[str]"], outside: bool = False) -> None:
        self.folder = os.path.realpath(os.fspath(folder) or ".")
        self.outside = outside

    def __call__(self, uri: str) -> bytes:
        with builtins.open(self.path(uri), "rb") as file:
            return file.read()

    def path(self, uri: str) -> str:
        """The path that a URI leads to."""
        scheme = uri.partition(":")[0] if ":" in uri.split("/")[0] else ""
        if scheme and not (self.outside and scheme.lower() == "file"):
            raise ExternalReferenceError("the URI %r has a scheme" % uri)
        rest = uri.partition(":")[2] if scheme else uri
        name = urllib.parse.unquote(rest[2:] if scheme and rest.startswith("//") else rest)
        if not name or "\0" in name:
            raise ExternalReferenceError("the URI %r names no file" % uri)
        place = os.path.realpath(os.path.join(self.folder, name))
        inside = os.path.commonpath([self.folder, place]) == self.folder
        if not self.outside and (not inside or os.path.isabs(name)):
            raise ExternalReferenceError("the URI %r leads out of %s" % (uri, self.folder))
        return place


class Document:
    """An open glTF file. Its lists have the names of the format, in snake case.

    It is closed at the end of a `with`, by `close`, or when it is dropped. Arrays and views that
    it gave keep their bytes, also then. Threads may read one document side by side, and one of
    them may close it: `close` waits for the calls of the library that others are in.
    """

    def __init__(self, file: File) -> None:
        self._held: Optional[File] = file

    def _open(self) -> File:
        file = self._held
        if file is None:
            raise ClosedError("the document is closed")
        return file

    def close(self) -> None:
        """Closes the document, when no other thread is in a call of the library on it. What follows
        raises ClosedError."""
        file, self._held = self._held, None
        if file is not None:
            file.close()

    @property
    def closed(self) -> bool:
        return self._held is None

    def __enter__(self) -> "Document":
        return self

    def __exit__(self, *why: object) -> None:
        self.close()

    def _list(self, make: Any) -> Any:
        return Records(self._open().count(make.kind), lambda at: make(self, at))

    @property
    def accessors(self) -> "Records[Accessor]":
        return self._list(Accessor)

    @property
    def animations(self) -> "Records[_records.Animation]":
        return self._list(_records.Animation)

    @property
    def buffers(self) -> "Records[_records.Buffer]":
        return self._list(_records.Buffer)

    @property
    def buffer_views(self) -> "Records[_records.BufferView]":
        return self._list(_records.BufferView)

    @property
    def cameras(self) -> "Records[_records.Camera]":
        return self._list(_records.Camera)

    @property
    def images(self) -> "Records[_records.Image]":
        return self._list(_records.Image)

    @property
    def lights(self) -> "Records[_records.Light]":
        """Those of KHR_lights_punctual."""
        return self._list(_records.Light)

    @property
    def materials(self) -> "Records[_records.Material]":
        return self._list(_records.Material)

    @property
    def meshes(self) -> "Records[_records.Mesh]":
        return self._list(_records.Mesh)

    @property
    def nodes(self) -> "Records[_records.Node]":
        return self._list(_records.Node)

    @property
    def samplers(self) -> "Records[_records.Sampler]":
        return self._list(_records.Sampler)

    @property
    def scenes(self) -> "Records[_records.Scene]":
        return self._list(_records.Scene)

    @property
    def skins(self) -> "Records[_records.Skin]":
        return self._list(_records.Skin)

    @property
    def textures(self) -> "Records[_records.Texture]":
        return self._list(_records.Texture)

    @property
    def variants(self) -> "Records[_records.Variant]":
        """Those of KHR_materials_variants."""
        return self._list(_records.Variant)

    @property
    def scene(self) -> Optional["_records.Scene"]:
        """The scene to show (section 3.5.1), or None where the file names none."""
        at = c_size_t()
        status = self._open().returned("default_scene", byref(at))
        return _records.Scene(self, at.value) if status == 0 else None

    def _names(self, kind: str) -> List[str]:
        file = self._open()
        return [file.name(kind, at) or "" for at in range(file.count(kind))]

    @property
    def extensions_used(self) -> List[str]:
        return self._names("extensions_used")

    @property
    def extensions_required(self) -> List[str]:
        return self._names("extensions_required")

    @property
    def version(self) -> str:
        """`asset.version` (section 3.2)."""
        return self._open().text("version") or ""

    @property
    def min_version(self) -> Optional[str]:
        return self._open().text("min_version")

    @property
    def generator(self) -> Optional[str]:
        return self._open().text("generator")

    @property
    def copyright(self) -> Optional[str]:
        return self._open().text("copyright")

    @property
    def extras(self) -> Any:
        """The `extras` of the document itself, as `json.loads` gives them, or None."""
        return self._open().json("root", 0)

    def extension(self, name: str) -> Any:
        """What the document has of an extension that the loader keeps as JSON, or None."""
        return self._open().json("root", 0, extension=name)

    def __repr__(self) -> str:
        if self._held is None:
            return "<gltf Document, closed>"
        return "<gltf Document of %d nodes, %d meshes, %d materials>" % (
            len(self.nodes), len(self.meshes), len(self.materials))


def open(source: Source, *, resolver: Optional[Resolver] = None, extensions: Iterable[str] = (),
         outside: bool = False, exact_lengths: bool = False) -> Document:
    """Opens a glTF file: a path, or the bytes of a file.

    A file that breaks the format raises the GltfError of what is wrong, with its place. The files
    that its buffers name are read by `resolver`, which gets a URI and returns bytes. Without one
    they are looked for in the folder of the file, and nowhere above it unless `outside` is true;
    bytes alone have no folder, and raise ExternalReferenceError where they name a file.

    `extensions` names extensions that the caller handles: a file that requires them opens too. A
    name with a zero character raises ValueError.

    A buffer may have up to three bytes fewer than it declares, as many as there are zeros up to a
    multiple of four; with `exact_lengths` none may.
    """
    data: Any = source
    if isinstance(source, (str, os.PathLike)):
        with builtins.open(source, "rb") as it:
            data = it.read()
        resolver = resolver or Folder(os.path.dirname(os.fspath(source)), outside)
    flags = _native.EXTERNAL if resolver is not None else 0
    file = File(data, extensions, flags | (_native.EXACT_LENGTHS if exact_lengths else 0))
    for index in range(file.count("buffers")):
        if file.get("buffer", _native.Buffer, index).waits and resolver is not None:
            file.give(index, _resolved(resolver, file.text("buffer_uri", index) or "", index))
    return Document(file)


def _resolved(resolver: Resolver, uri: str, index: int) -> Any:
    """The bytes of a URI; an error names the buffer."""
    try:
        return resolver(uri)
    except (ExternalReferenceError, OSError) as why:
        raise ExternalReferenceError(
            "buffers[%d].uri: %s" % (index, why), path="/buffers/%d/uri" % index,
            buffer=index) from why
