"""The bytes of the components of accessors, as the standard lays them out: each column of a matrix
begins at a multiple of four bytes, and the padding between is no component (glTF 2.0, section
3.6.2.4); behind the last column of the last item there need be none, since only the beginnings of
columns are at such multiples; the values of a sparse part have the same layout (3.6.2.3); and
without a view all items are zeros (5.1.1). A row has the room's bytes after the call: it held 5a
everywhere before."""
import json

# The bytes of a component by its type, and the columns and rows of a type of items (3.6.2.2).
WIDTHS = {5120: 1, 5121: 1, 5122: 2, 5123: 2, 5125: 4, 5126: 4}
SHAPES = {"SCALAR": (1, 1), "VEC2": (1, 2), "VEC3": (1, 3), "VEC4": (1, 4), "MAT2": (2, 2),
          "MAT3": (3, 3), "MAT4": (4, 4)}
UNREADABLE = "the accessor cannot be read"
NO_ROOM = "the items have more bytes than there is room for"


def places(component, shape):
    """Where the components of an item begin, column by column, and the bytes that it takes up."""
    width, (columns, rows) = WIDTHS[component], SHAPES[shape]
    at, begins = 0, []
    for _ in range(columns):
        if columns > 1:
            at += -at % 4
        begins += [at + row * width for row in range(rows)]
        at += rows * width
    return begins, at + (-at % 4 if columns > 1 else 0)


def padding_at_end(component, shape):
    """The bytes behind the last component of an item, up to where the next one begins."""
    begins, size = places(component, shape)
    return size - begins[-1] - WIDTHS[component]


def components(item, component, shape):
    begins, _ = places(component, shape)
    return b"".join(item[at:at + WIDTHS[component]] for at in begins)


def size_of(component, shape):
    return len(places(component, shape)[0]) * WIDTHS[component]


def document(accessor, views, buffers):
    members = {"asset": {"version": "2.0"}, "buffers": [{"byteLength": len(it)} for it in buffers]}
    members["buffers"].append({"byteLength": 24})
    if views:
        members["bufferViews"] = views
    return json.dumps({**members, "accessors": [accessor]}, separators=(",", ":"))


def row(accessor, views, buffers, room, answer, wanted=b""):
    blob = ",".join(it.hex() for it in buffers)
    case = f"components +{blob} 0 {room} : {document(accessor, views, buffers)}"
    return case, f"{answer} {(wanted + bytes([0x5a]) * (room - len(wanted))).hex()}"


def counting(size, first=1):
    """Bytes that all differ, up to 255 of them."""
    return bytes((first + at) % 256 for at in range(size))


def plain(component, shape, count=2, stride=0, offset=0, short=0, room=None):
    """Items of a view, which lie there with `offset` bytes before them; the view ends `short` bytes
    before the end of the last one with its padding."""
    _, size = places(component, shape)
    step, bare = stride or size, size_of(component, shape)
    behind = padding_at_end(component, shape)
    data = counting(offset + (count - 1) * step + size)
    view = {"buffer": 0, "byteLength": len(data) - short}
    if stride:
        view["byteStride"] = stride
    accessor = {"bufferView": 0, "byteOffset": offset, "componentType": component, "count": count,
                "type": shape}
    whole = b"".join(components(data[offset + at * step:], component, shape) for at in range(count))
    room = len(whole) + 2 if room is None else room
    data = data[:len(data) - short]
    if short > behind or step < size - behind:
        return row(accessor, [view], [data], room, UNREADABLE + ":")
    if room < len(whole):
        return row(accessor, [view], [data], room, NO_ROOM + ":")
    return row(accessor, [view], [data], room, str(count * bare), whole)


def sparse(component, shape, has_view, indices=(1, 3), count=4, short=0, base_short=0):
    """The same with values over some items, or over zeros; the views of the values and of the items
    end so many bytes before the end of the last one with its padding."""
    _, size = places(component, shape)
    data, values = counting(count * size), counting(len(indices) * size, 101)
    accessor = {"componentType": component, "count": count, "type": shape, "sparse": {
        "count": len(indices), "indices": {"bufferView": 0, "componentType": 5121},
        "values": {"bufferView": 1}}}
    views = [{"buffer": 0, "byteLength": len(indices)},
             {"buffer": 1, "byteLength": len(values) - short}]
    buffers = [bytes(indices), values]
    if has_view:
        accessor["bufferView"] = 2
        views.append({"buffer": 2, "byteLength": len(data) - base_short})
        buffers.append(data)
    items = [data[at * size:] if has_view else bytes(size) for at in range(count)]
    for at, index in enumerate(indices):
        items[index] = values[at * size:]
    whole = b"".join(components(it, component, shape) for it in items)
    if max(short, base_short) > padding_at_end(component, shape):
        return row(accessor, views, buffers, len(whole), UNREADABLE + ":")
    return row(accessor, views, buffers, len(whole) + 1, str(len(whole)), whole)


def empty(component, shape, count, room):
    """Items of an accessor that has neither a view nor a sparse part."""
    size = size_of(component, shape)
    accessor = {"componentType": component, "count": count, "type": shape}
    if count == 0:
        return row(accessor, [], [b"\0"], room, UNREADABLE + ":")
    if room < count * size:
        return row(accessor, [], [b"\0"], room, NO_ROOM + ":")
    return row(accessor, [], [b"\0"], room, str(count * size), bytes(count * size))


PADDED = [(5120, "MAT2"), (5121, "MAT2"), (5120, "MAT3"), (5121, "MAT3"), (5122, "MAT3"),
          (5123, "MAT3")]
ROWS = [
    *(plain(component, shape) for component in WIDTHS for shape in SHAPES),
    *(plain(*it, count=3, offset=4) for it in PADDED),
    *(plain(*it, stride=places(*it)[1] + 4) for it in PADDED),
    # Without padding items overlap.
    *(plain(*it, stride=size_of(*it)) for it in PADDED),
    # The view ends with the last component, or before its end.
    *(plain(*it, count=count, short=padding_at_end(*it)) for it in PADDED for count in (1, 2)),
    *(plain(*it, count=count, short=padding_at_end(*it) + 1) for it in PADDED for count in (1, 2)),
    *(plain(*it, stride=places(*it)[1] + 4, short=padding_at_end(*it)) for it in PADDED),
    *(plain(*it, count=1, room=size_of(*it)) for it in PADDED),
    *(plain(*it, count=1, room=size_of(*it) - 1) for it in PADDED),
    *(sparse(*it, has_view) for it in PADDED for has_view in (True, False)),
    *(sparse(*it, has_view, short=padding_at_end(*it) + more)
      for it in PADDED for has_view in (True, False) for more in (0, 1)),
    *(sparse(*it, True, base_short=padding_at_end(*it) + more) for it in PADDED for more in (0, 1)),
    *(sparse(*it, True) for it in ((5123, "SCALAR"), (5126, "VEC3"), (5122, "MAT2"), (5121, "MAT4"))),
    *(sparse(5121, "MAT2", has_view, indices=(0,), count=1) for has_view in (True, False)),
    *(empty(component, shape, 2, 2 * size_of(component, shape) + 1)
      for component in WIDTHS for shape in SHAPES),
    empty(5120, "MAT2", 3, 11),
    empty(5126, "VEC3", 0, 4),
    # A product of 2^64 and more is no number of bytes.
    empty(5126, "MAT4", 2**58, 16),
    empty(5121, "SCALAR", 2**64 - 1, 16),
    row({"bufferView": 0, "componentType": 5121, "count": 0, "type": "MAT2"},
        [{"buffer": 0, "byteLength": 8}], [bytes(8)], 4, UNREADABLE + ":"),
    # The bytes of the first buffer alone are given.
    *(row({"bufferView": 0, "componentType": component, "count": 1, "type": "MAT3"},
          [{"buffer": 1, "byteLength": 24}], [bytes(24)], 9, UNREADABLE + ":")
      for component in (5121, 5126)),
]
