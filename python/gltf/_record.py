"""What all records have, and lists of them."""
from __future__ import annotations

from typing import TYPE_CHECKING, Any, Callable, Generic, Optional, Sequence, TypeVar

if TYPE_CHECKING:
    from ._document import Document
    from ._file import File

T = TypeVar("T")


class Record:
    """A record of a document: its index, its name, and what the file says beside the standard.

    Two records are equal where they are the same one of the same document.
    """

    kind = ""

    def __init__(self, document: "Document", index: int) -> None:
        self.document = document
        self.index = index
        self._info = self._read()

    def _read(self) -> Any:
        return None

    @property
    def _file(self) -> "File":
        return self.document._open()

    @property
    def name(self) -> Optional[str]:
        """The name in the file, or None."""
        return self._file.name(self.kind, self.index)

    @property
    def extras(self) -> Any:
        """The `extras`, as `json.loads` gives them, or None."""
        return self._file.json(self.kind, self.index)

    def extension(self, name: str) -> Any:
        """What the record has of an extension that the loader keeps as JSON, or None."""
        return self._file.json(self.kind, self.index, extension=name)

    def __eq__(self, other: object) -> bool:
        return (type(self) is type(other) and isinstance(other, Record)
                and self.document is other.document and self.index == other.index)

    def __hash__(self) -> int:
        return hash((self.kind, id(self.document), self.index))

    def __repr__(self) -> str:
        return "<gltf %s %d>" % (type(self).__name__, self.index)


class Records(Sequence[T], Generic[T]):
    """A list of records, which are made when they are asked for."""

    def __init__(self, length: int, make: Callable[[int], T]) -> None:
        self._length = length
        self._make = make

    def __len__(self) -> int:
        return self._length

    def __getitem__(self, index: Any) -> Any:
        if isinstance(index, slice):
            return [self._make(at) for at in range(*index.indices(self._length))]
        if not -self._length <= index < self._length:
            raise IndexError("there are %d, and no number %d" % (self._length, index))
        return self._make(index % self._length)

    def __repr__(self) -> str:
        return repr(list(self))
