"""Files that ask for much memory: a small one with a great count, and documents of which much is
told."""
import json


def counted(count):
    """A file with one sparse accessor without a view, which has so many items: 2 at index 0 over
    zeros, each of one byte."""
    view = {"bufferView": 0, "componentType": 5121}
    sparse = {"count": 1, "indices": view, "values": {"bufferView": 1}}
    accessor = {"componentType": 5121, "count": count, "type": "SCALAR", "sparse": sparse}
    document = {
        "asset": {"version": "2.0"},
        "buffers": [{"byteLength": 5, "uri": "data:;base64,AAIAAAA="}],
        "bufferViews": [
            {"buffer": 0, "byteLength": 1},
            {"buffer": 0, "byteOffset": 1, "byteLength": 1},
        ],
        "accessors": [accessor],
    }
    return json.dumps(document, separators=(",", ":"))


def broken(count):
    """A scene of so many nodes that are not there: the length of what tells it, and its end."""
    faults = [f" scenes[0].nodes[{index}]: Index out of bounds;" for index in range(count)]
    told = "invalid glTF:" + "".join(faults)
    return f"broken {count}", f"{len(told)} bytes, and at the end {told[-60:]}"


ROWS = [
    (f"read u8 0 : {counted(3)}", "Some([2, 0, 0])"),
    (f"read u8 0 : {counted(2**64 - 1)}", "out of memory"),
    broken(3),
    broken(1000000),
]
