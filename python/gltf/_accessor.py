"""Accessors: the items of a file, as arrays, views, numbers or bytes."""
from __future__ import annotations

import math
import struct
from ctypes import c_char
from typing import TYPE_CHECKING, Any, List, Optional, Sequence, Tuple, Union

from . import _native
from ._errors import NoRoomError
from ._file import or_none
from ._record import Record

try:
    import numpy
except ImportError:  # all but `array` does without
    numpy = None  # type: ignore[assignment]

if TYPE_CHECKING:
    from ._records import BufferView

# The letters of the module `struct` for component types, and NumPy's names.
_FORMATS = {5120: "b", 5121: "B", 5122: "h", 5123: "H", 5125: "I", 5126: "f"}
_DTYPES = {5120: "<i1", 5121: "<u1", 5122: "<i2", 5123: "<u2", 5125: "<u4", 5126: "<f4"}
# What a normalized integer is divided by (section 3.6.2.2).
_ONES = {5120: 127.0, 5121: 255.0, 5122: 32767.0, 5123: 65535.0}
_MOST = 1 << 47

Item = Union[int, float, Tuple[Union[int, float], ...]]


class Accessor(Record):
    """The items of one accessor (glTF 2.0, section 5.1). It has a length, the number of items."""

    kind = "accessors"

    def _read(self) -> Any:
        return self._file.get("accessor", _native.Accessor, self.index)

    @property
    def count(self) -> int:
        """How many items there are, as the file says it."""
        return int(self._info.count)

    def __len__(self) -> int:
        return self.count

    @property
    def type(self) -> str:
        """`SCALAR`, `VEC2`, `VEC3`, `VEC4`, `MAT2`, `MAT3` or `MAT4`."""
        many = self._info.components
        if self._info.is_matrix:
            return "MAT%d" % math.isqrt(many)
        return "SCALAR" if many == 1 else "VEC%d" % many

    @property
    def component_type(self) -> int:
        """5120 to 5126, as in section 3.6.2.2: signed and unsigned bytes and shorts, unsigned
        ints, floats."""
        return int(self._info.component_type)

    @property
    def components(self) -> int:
        """How many numbers an item has: 1 to 4, and 4, 9 or 16 of a matrix, column by column."""
        return int(self._info.components)

    @property
    def item_size(self) -> int:
        """The bytes of the components of an item, without padding."""
        return int(self._info.item_size)

    @property
    def normalized(self) -> bool:
        """Whether integers stand for fractions (section 3.6.2.2); `floats` gives these."""
        return bool(self._info.normalized)

    @property
    def sparse(self) -> int:
        """How many items are overridden by sparse values (section 3.6.2.3)."""
        return int(self._info.sparse)

    @property
    def buffer_view(self) -> Optional["BufferView"]:
        index = or_none(self._info.view)
        return None if index is None else self.document.buffer_views[index]

    @property
    def byte_offset(self) -> int:
        """The bytes of the view before the first item."""
        return int(self._info.byte_offset)

    @property
    def min(self) -> List[float]:
        """The least value of each component, as the file states it; empty where it does not."""
        return self._file.numbers("min", self.index)

    @property
    def max(self) -> List[float]:
        """The greatest value of each component, as the file states it."""
        return self._file.numbers("max", self.index)

    def bytes(self) -> bytearray:
        """A copy of the components of all items, one item after the other, sparse values applied.

        The padding of small matrices is left out (section 3.6.2.4), and without a view the items
        are zeros (section 5.1.1): a file may state any number of these. Raises UnreadableError
        where the items do not lie in the file, and NoRoomError where there are more than a program
        can hold.
        """
        size = self.count * self.item_size
        if size >= _MOST:
            raise NoRoomError("accessor %d states %d items" % (self.index, self.count))
        room = bytearray(size)
        at = (c_char * size).from_buffer(room) if size else None
        self._file.call("accessor_read", self.index, at, size,
                        about="/accessors/%d" % self.index)
        return room

    def view(self) -> Optional[memoryview]:
        """The file's own bytes from the first item to the end of the last one, read-only, without
        a copy. Item i begins at `i * stride`. None where there are no items, or they are not
        plain: with a sparse part, also one of no values, padded inside, at a stride below their
        size, or without a view that holds them."""
        if not self._info.data:
            return None
        size = (self.count - 1) * self.stride + self.item_size
        return self._file.lend(self._info.data, size)

    @property
    def stride(self) -> int:
        """The bytes from one item of the view to the next, with the padding of an item: the
        view's stride, or what an item takes up there (section 3.6.2.4)."""
        return int(self._info.stride)

    def items(self) -> Sequence[Item]:
        """The items as they are stored: numbers, or tuples of numbers."""
        one = struct.Struct("<%d%s" % (self.components, _FORMATS[self.component_type]))
        packed = one.iter_unpack(self.bytes())
        return [it[0] for it in packed] if self.components == 1 else list(packed)

    def floats(self) -> Sequence[Item]:
        """The items as floats: a normalized integer as the fraction that it stands for."""
        most = _ONES.get(self.component_type) if self.normalized else None

        def number(it: Any) -> float:
            return float(it) if most is None else max(it / most, -1.0)

        if self.components == 1:
            return [number(it) for it in self.items()]
        return [tuple(number(part) for part in it) for it in self.items()]  # type: ignore

    def array(self, copy: bool = False) -> Any:
        """A NumPy array of shape `(count,)`, or `(count, components)`, or for a matrix
        `(count, columns, rows)`.

        It is over the file's own bytes, read-only and without a copy, where items are plain, and
        keeps the file open as long as it lives. Else, or with `copy`, it is a copy with the
        sparse values applied. Raises ImportError where there is no NumPy.
        """
        if numpy is None:
            raise ImportError("Accessor.array needs NumPy; Accessor.items does without")
        kind = numpy.dtype(_DTYPES[self.component_type])
        side = math.isqrt(self.components)
        inner: Tuple[int, ...] = (side, side) if self._info.is_matrix else (self.components,)
        inner = () if self.components == 1 else inner
        view = None if copy else self.view()
        if view is None:
            return numpy.frombuffer(self.bytes(), kind).reshape((self.count, *inner))
        steps = (side * kind.itemsize, kind.itemsize)[2 - len(inner):]
        return numpy.ndarray((self.count, *inner), kind, view, 0, (self.stride, *steps))

    def __array__(self, dtype: Any = None, copy: Any = None) -> Any:
        """What `numpy.asarray` uses."""
        made = self.array(bool(copy))
        return made if dtype is None else made.astype(dtype, copy=False)
