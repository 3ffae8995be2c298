"""An independent reader of glTF files, for the tests: JSON by `json`, numbers by `struct`."""
import base64
import json
import pathlib
import struct
import urllib.parse

COMPONENTS = {5120: "b", 5121: "B", 5122: "h", 5123: "H", 5125: "I", 5126: "f"}
MANY = {"SCALAR": 1, "VEC2": 2, "VEC3": 3, "VEC4": 4, "MAT2": 4, "MAT3": 9, "MAT4": 16}
# Each column of a matrix begins at a multiple of four bytes (glTF 2.0, section 3.6.2.4).
PADDED = {("MAT2", 1): "2%s2x2%s2x", ("MAT3", 1): "3%sx3%sx3%sx", ("MAT3", 2): "3%s2x3%s2x3%s2x"}


def form_of(one):
    """How the items of an accessor are packed."""
    letter = COMPONENTS[one["componentType"]]
    form = PADDED.get((one["type"], struct.calcsize(letter)), "%d%%s" % MANY[one["type"]])
    return "<" + form.replace("%s", letter)


class Reader:
    """A file, as Python's own JSON reads it."""

    def __init__(self, path):
        self.path, self.blob = pathlib.Path(path), b""
        data = self.path.read_bytes()
        if data[:4] == b"glTF":
            size = struct.unpack_from("<I", data, 12)[0]
            self.root = json.loads(data[20:20 + size])
            self.blob = data[28 + size:]
        else:
            self.root = json.loads(data)

    def buffer(self, index):
        """The bytes of a buffer."""
        uri = self.root["buffers"][index].get("uri")
        if uri is None:
            return self.blob
        if uri.startswith("data:"):
            return base64.b64decode(uri.partition("base64,")[2])
        return (self.path.parent / urllib.parse.unquote(uri)).read_bytes()

    def view(self, index):
        """The bytes of a view, and its stride."""
        view = self.root["bufferViews"][index]
        start = view.get("byteOffset", 0)
        return (self.buffer(view["buffer"])[start:start + view["byteLength"]],
                view.get("byteStride"))

    def _packed(self, view, offset, count, form):
        """So many items of a form in a view."""
        data, stride = self.view(view)
        stride = stride or struct.calcsize(form)
        return [struct.unpack_from(form, data, offset + at * stride) for at in range(count)]

    def accessor(self, index):
        """The items of an accessor, as tuples."""
        one = self.root["accessors"][index]
        form = form_of(one)
        if "bufferView" in one:
            items = self._packed(one["bufferView"], one.get("byteOffset", 0), one["count"], form)
        else:
            items = [(0,) * MANY[one["type"]]] * one["count"]
        if "sparse" in one:
            sparse = one["sparse"]
            where, what = sparse["indices"], sparse["values"]
            places = self._packed(where["bufferView"], where.get("byteOffset", 0), sparse["count"],
                                  "<" + COMPONENTS[where["componentType"]])
            values = self._packed(what["bufferView"], what.get("byteOffset", 0), sparse["count"],
                                  form)
            for (place,), value in zip(places, values):
                items[place] = value
        return items
