"""An open file of the library, and its calls in terms of Python."""
from __future__ import annotations

import ctypes
import json
import threading
from ctypes import byref, c_char, c_double, c_size_t, c_void_p
from typing import Any, Dict, Iterable, List, Optional

from . import _native
from ._errors import ClosedError, GltfError, error
from ._native import NONE, library

# The kinds of records, by their numbers in gltf.h.
KINDS = (
    "buffers", "buffer_views", "accessors", "meshes", "nodes", "materials", "scenes", "skins",
    "animations", "images", "textures", "samplers", "cameras", "lights", "variants",
    "extensions_used", "extensions_required", "asset", "root", "primitives", "channels",
    "animation_samplers")
KIND = {name: number for number, name in enumerate(KINDS)}
TEXTS = {"buffer_uri": 0, "image_uri": 1, "image_mime_type": 2, "version": 3, "min_version": 4,
         "generator": 5, "copyright": 6}
LISTS = {"scene_nodes": 0, "node_children": 1, "skin_joints": 2}
NUMBERS = {"min": 0, "max": 1, "mesh_weights": 2, "node_weights": 3}
NO_SUCH_INDEX = 12


def or_none(index: int) -> Optional[int]:
    """An index, or None where it is absent."""
    return None if index == NONE else index


def _fault_error(fault: Any) -> GltfError:
    """The exception of a fault."""
    return error(
        fault.status, fault.text.decode("utf-8", "replace"),
        path=fault.path.decode("utf-8", "replace"), buffer=or_none(fault.buffer),
        expected=fault.expected, actual=fault.actual, rules=fault.rules)


def _extension_name(name: str) -> bytes:
    """The name of an extension, as the library takes it: it would end at a zero."""
    if "\0" in name:
        raise ValueError("the name of an extension has a zero character: %r" % name)
    return name.encode("utf-8")


class _UnderWay:
    """The calls of the library that are under way on one file, by their threads."""

    def __init__(self) -> None:
        self._changed = threading.Condition()
        self._counts: Dict[int, int] = {}
        self._is_over = False

    def __enter__(self) -> None:
        thread = threading.get_ident()
        with self._changed:
            if self._is_over:
                raise ClosedError("the document is closed")
            self._counts[thread] = self._counts.get(thread, 0) + 1

    def __exit__(self, *why: object) -> None:
        thread = threading.get_ident()
        with self._changed:
            self._counts[thread] -= 1
            if not self._counts[thread]:
                del self._counts[thread]
                self._changed.notify_all()

    def end(self) -> None:
        """Refuses further calls, and waits for those of other threads. One of this thread is under
        way where a signal's handler is called during it: it ends after this."""
        with self._changed:
            self._is_over = True
            self._changed.wait_for(lambda: not set(self._counts) - {threading.get_ident()})


class File:
    """What the library holds of one file. Its memory is freed when the last that uses it is
    dropped: a document, or an array over the file's bytes."""

    def __init__(self, data: Any, extensions: Iterable[str] = (), flags: int = 0) -> None:
        self.at: Optional[int] = None
        self._under_way = _UnderWay()
        names = [_extension_name(name) for name in extensions]
        options = _native.OpenOptions(
            flags=flags,
            extensions=(ctypes.c_char_p * len(names))(*names), extension_count=len(names))
        at, fault = c_void_p(), _native.Fault()
        whole = bytes(data)
        status = library.gltf_open(whole, len(whole), byref(options), byref(at), byref(fault))
        if status != 0:
            raise _fault_error(fault)
        self.at = at.value

    def __del__(self, close: Any = library.gltf_close) -> None:
        at, self.at = getattr(self, "at", None), None
        if at is not None:
            close(at)

    def close(self) -> None:
        """Refuses further calls, and returns when no other thread is in one. Bytes that were lent
        stay."""
        self._under_way.end()

    def returned(self, name: str, *words: Any) -> int:
        """What a call of the library returns. No other thread closes the file meanwhile."""
        with self._under_way:
            return int(getattr(library, "gltf_" + name)(self.at, *words))

    def lend(self, at: int, size: int) -> memoryview:
        """Bytes that the library holds, read-only and without a copy. The view keeps the file."""
        block = (c_char * size).from_address(at)
        block.file = self
        return memoryview(block).cast("B").toreadonly()

    def count(self, kind: str) -> int:
        return self.returned("count", KIND[kind])

    def get(self, what: str, struct: Any, *indices: int) -> Any:
        """The struct of a record."""
        out = struct()
        self.call(what + "_info", *indices, byref(out))
        return out

    def extension(self, what: str, index: int) -> Any:
        """The struct of an extension of a record, or None where the record has none."""
        out = _native.EXTENSIONS[what]()
        status = self.returned(what + "_info", index, byref(out))
        if status == NO_SUCH_INDEX:
            return None
        if status != 0:
            raise error(status)
        return out

    def check_variant(self, *place: int) -> None:
        """Raises where the material of a primitive in a variant is out of range: the indices of the
        mesh, the primitive and the variant."""
        fault = _native.Fault()
        if self.returned("variant_fault", *place, byref(fault)) == 0:
            raise _fault_error(fault)

    def call(self, name: str, *words: Any, about: str = "") -> None:
        """A call that returns a status; raises where it does not succeed."""
        status = self.returned(name, *words)
        if status != 0:
            raise error(status, path=about)

    def give(self, index: int, data: Any) -> None:
        """Gives the bytes of a buffer that waits for them."""
        whole = bytes(data)
        status = self.returned("give", index, whole, len(whole))
        if status == 6:
            expected = self.get("buffer", _native.Buffer, index).byte_length
            raise error(
                status, "buffers[%d]: %d bytes where %d are declared"
                % (index, len(whole), expected), path="/buffers/%d" % index, buffer=index,
                expected=expected, actual=len(whole))
        if status != 0:
            raise error(status, path="/buffers/%d" % index, buffer=index)

    def _string(self, name: str, *words: Any) -> Optional[str]:
        """A text, or None where there is none."""
        length = c_size_t()
        status = self.returned(name, *words, None, 0, byref(length))
        if status == NO_SUCH_INDEX:
            return None
        if status != 0:
            raise error(status)
        room = ctypes.create_string_buffer(length.value + 1)
        status = self.returned(name, *words, room, len(room), byref(length))
        if status != 0:
            raise error(status)
        return room.raw[:length.value].decode("utf-8")

    def name(self, kind: str, index: int) -> Optional[str]:
        return self._string("name", KIND[kind], index)

    def text(self, what: str, index: int = 0) -> Optional[str]:
        return self._string("text", TEXTS[what], index)

    def attribute_name(self, *words: int) -> str:
        return self._string("attribute_name", *words) or ""

    def json(self, kind: str, index: int, part: int = 0, extension: Optional[str] = None) -> Any:
        """The extras of a record, or what it has of an extension; None where it has none."""
        name = None if extension is None else extension.encode("utf-8")
        text = self._string("json", KIND[kind], index, part, name, len(name or b""))
        return None if text is None else json.loads(text)

    def indices(self, what: str, index: int) -> List[int]:
        return self._listed("list", c_size_t, LISTS[what], index)

    def numbers(self, what: str, index: int) -> List[float]:
        return self._listed("numbers", c_double, NUMBERS[what], index)

    def _listed(self, name: str, kind: Any, what: int, index: int) -> List[Any]:
        count = c_size_t()
        self.call(name, what, index, None, 0, byref(count))
        room = (kind * count.value)()
        if count.value:
            self.call(name, what, index, room, count.value, byref(count))
        return list(room)
