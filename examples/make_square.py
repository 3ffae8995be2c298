#!/usr/bin/env python3
"""Writes `two files/square.gltf` and `two files/square data.bin` beside this file: a square whose
bytes stand in a file that the document names by a relative reference, percent-encoded (glTF 2.0,
section 2.8)."""
import json
import pathlib
import struct

CORNERS = [(0.0, 0.0, 0.0), (1.0, 0.0, 0.0), (1.0, 1.0, 0.0), (0.0, 1.0, 0.0)]
INDICES = [0, 1, 2, 0, 2, 3]


def main():
    corners = b"".join(struct.pack("<3f", *corner) for corner in CORNERS)
    indices = struct.pack("<6H", *INDICES)
    document = {
        "asset": {"version": "2.0", "generator": "examples/make_square.py"},
        "scene": 0,
        "scenes": [{"nodes": [0]}],
        "nodes": [{"mesh": 0}],
        "meshes": [
            {"name": "Square", "primitives": [{"attributes": {"POSITION": 0}, "indices": 1}]}
        ],
        "accessors": [
            {
                "bufferView": 0,
                "componentType": 5126,
                "count": 4,
                "type": "VEC3",
                "min": [0.0, 0.0, 0.0],
                "max": [1.0, 1.0, 0.0],
            },
            {"bufferView": 1, "componentType": 5123, "count": 6, "type": "SCALAR"},
        ],
        "bufferViews": [
            {"buffer": 0, "byteLength": len(corners), "byteStride": 12, "target": 34962},
            {"buffer": 0, "byteOffset": len(corners), "byteLength": len(indices), "target": 34963},
        ],
        "buffers": [{"byteLength": len(corners + indices), "uri": "square%20data.bin"}],
    }
    folder = pathlib.Path(__file__).with_name("two files")
    folder.mkdir(exist_ok=True)
    (folder / "square data.bin").write_bytes(corners + indices)
    (folder / "square.gltf").write_text(json.dumps(document, indent=2) + "\n")


if __name__ == "__main__":
    main()
