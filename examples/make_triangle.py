#!/usr/bin/env python3
"""Writes triangle.gltf beside this file: two triangles with all bytes in data URIs (glTF 2.0, section 2.8).

The second triangle has the corners of the first with one of them raised, by a sparse accessor over the same view. The
first one can be bent by a morph target, whose sparse accessor has no view: zeros but for one corner (section 3.6.2.3).
"""
import base64
import json
import pathlib
import struct

CORNERS = [(0.0, 0.0, 0.0), (1.0, 0.0, 0.0), (0.5, 1.0, 0.0)]
INDICES = [0, 1, 2]
RAISED = {2: (0.5, 1.0, 0.25)}
BENT = {1: (0.25, -0.5, 0.0)}


def replaced(items, overrides):
    """The items of a sparse accessor."""
    return [overrides.get(i, item) for i, item in enumerate(items)]


def vectors(items):
    """The bytes of vectors of single precision."""
    return b"".join(struct.pack("<3f", *item) for item in items)


def bounds(items):
    """The least and the greatest value of each component, which POSITION has to have (section 3.7.2.1)."""
    return {"min": [min(axis) for axis in zip(*items)], "max": [max(axis) for axis in zip(*items)]}


def uri(data):
    """A data URI of these bytes."""
    return "data:application/octet-stream;base64," + base64.b64encode(data).decode()


def main():
    geometry = vectors(CORNERS) + struct.pack("<3H", *INDICES)
    overrides = struct.pack("<H", *RAISED) + struct.pack("<B", *BENT) + b"\0"
    overrides += vectors(RAISED.values()) + vectors(BENT.values())

    def corners(items, **members):
        return {**members, "componentType": 5126, "count": 3, "type": "VEC3", **bounds(items)}

    def sparse(indices, component_type, values):
        return {
            "count": 1,
            "indices": {"bufferView": indices, "componentType": component_type},
            "values": {"bufferView": values},
        }

    document = {
        "asset": {"version": "2.0", "generator": "examples/make_triangle.py"},
        "scene": 0,
        "scenes": [{"nodes": [0, 1]}],
        "nodes": [{"mesh": 0, "name": "Flat"}, {"mesh": 1, "name": "Raised", "translation": [2.0, 0.0, 0.0]}],
        "meshes": [
            {
                "name": "Flat",
                "primitives": [{"attributes": {"POSITION": 0}, "indices": 1, "targets": [{"POSITION": 3}]}],
                "weights": [0.0],
            },
            {"name": "Raised", "primitives": [{"attributes": {"POSITION": 2}, "indices": 1}]},
        ],
        "accessors": [
            corners(CORNERS, bufferView=0),
            {"bufferView": 1, "componentType": 5123, "count": 3, "type": "SCALAR"},
            corners(replaced(CORNERS, RAISED), bufferView=0, sparse=sparse(2, 5123, 4)),
            corners(replaced([(0.0, 0.0, 0.0)] * 3, BENT), sparse=sparse(3, 5121, 5)),
        ],
        "bufferViews": [
            {"buffer": 0, "byteLength": 36, "byteStride": 12, "target": 34962},
            {"buffer": 0, "byteOffset": 36, "byteLength": 6, "target": 34963},
            {"buffer": 1, "byteLength": 2},
            {"buffer": 1, "byteOffset": 2, "byteLength": 1},
            {"buffer": 1, "byteOffset": 4, "byteLength": 12},
            {"buffer": 1, "byteOffset": 16, "byteLength": 12},
        ],
        "buffers": [{"byteLength": len(data), "uri": uri(data)} for data in (geometry, overrides)],
    }
    text = json.dumps(document, indent=2) + "\n"
    pathlib.Path(__file__).with_name("triangle.gltf").write_text(text)


if __name__ == "__main__":
    main()
