"""The exceptions: one class for each status of the library."""
from __future__ import annotations

from typing import Optional


class GltfError(ValueError):
    """A file is refused, or a call failed.

    `path` is a JSON Pointer (RFC 6901) to the member at fault, or empty. `buffer` is the index of
    the buffer at fault, or None. `expected` and `actual` are bytes, of a buffer that is too short,
    else 0. `rules` is how many rules a file breaks, where it breaks some, else 0.
    """

    def __init__(self, text: str, path: str = "", buffer: Optional[int] = None,
                 expected: int = 0, actual: int = 0, rules: int = 0) -> None:
        super().__init__(text)
        self.text = text
        self.path = path
        self.buffer = buffer
        self.expected = expected
        self.actual = actual
        self.rules = rules

    def __str__(self) -> str:
        return self.text


class OutOfMemoryError(GltfError, MemoryError):
    """There was no memory. This says nothing about the file."""


class ContainerError(GltfError):
    """The bytes begin with `glTF` and are no GLB container (glTF 2.0, section 4.4)."""


class DocumentError(GltfError):
    """The text is no JSON, or its value is no glTF document (section 3.2)."""


class RulesError(GltfError):
    """The document breaks rules; `path` is that of the first."""


class Base64Error(GltfError):
    """The payload of a data URI is no base64 (section 2.8)."""


class ShortBufferError(GltfError):
    """A buffer has fewer bytes than it declares (section 3.6.1)."""


class MissingBlobError(GltfError):
    """A buffer has no URI, and the file has no BIN chunk for it (section 3.6.1.2)."""


class ExternalReferenceError(GltfError):
    """A buffer names another file, which cannot be had or must not be read."""


class UnsupportedSchemeError(GltfError):
    """A URI has a scheme that is neither `data` nor `file`."""


class ClosedError(GltfError):
    """The document is closed."""


class NoSuchIndexError(GltfError, IndexError):
    """Nothing has that index, or it has not what was asked for."""


class UnreadableError(GltfError):
    """The items of an accessor do not lie in its views, or these not in their buffers."""


class NoRoomError(GltfError):
    """There is no room for the items."""


class OtherTypeError(GltfError, TypeError):
    """The components of the accessor are not of the type that was asked for."""


class BadExtensionError(GltfError):
    """An extension has a member that is missing or of another kind, or an index out of range."""


class BadArgumentError(GltfError):
    """The library does not know what was asked for when the file was opened."""


# By the number of the status, as gltf.h has it.
BY_STATUS = {
    1: OutOfMemoryError, 2: ContainerError, 3: DocumentError, 4: RulesError, 5: Base64Error,
    6: ShortBufferError, 7: MissingBlobError, 8: ExternalReferenceError,
    9: UnsupportedSchemeError, 11: ClosedError, 12: NoSuchIndexError, 13: UnreadableError,
    14: NoRoomError, 16: OtherTypeError, 17: BadExtensionError,
    18: BadArgumentError,
}
# What is said where the library gives no text.
SENTENCES = {
    1: "out of memory", 11: "the document is closed", 12: "there is nothing with that index",
    13: "the accessor cannot be read: its items do not lie in its view, or its view not in its "
        "buffer",
    14: "there is no room for the items", 16: "the accessor has components of another type",
    17: "the extension is not of its form, or has an index out of range",
}


def error(status: int, text: str = "", **about: object) -> GltfError:
    """The exception of a status."""
    kind = BY_STATUS.get(status, GltfError)
    words = text or SENTENCES.get(status, "the call failed with status %d" % status)
    return kind(words, **about)  # type: ignore[arg-type]
