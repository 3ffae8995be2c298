#!/usr/bin/env python3
"""Writes box.glb beside this file: a textured box, as one GLB container (glTF 2.0, section 4.4)."""
import json
import pathlib
import struct
import zlib


def png(side=8):
    """A small checkerboard as PNG (ISO/IEC 15948): 8-bit RGB, no filter."""
    rows = b"".join(
        b"\0" + b"".join(b"\xf0\xf0\xf0" if (x + y) % 2 else b"\x30\x60\xa0" for x in range(side))
        for y in range(side)
    )

    def chunk(kind, body):
        return struct.pack(">I", len(body)) + kind + body + struct.pack(">I", zlib.crc32(kind + body))

    header = struct.pack(">IIBBBBB", side, side, 8, 2, 0, 0, 0)
    return b"\x89PNG\r\n\x1a\n" + chunk(b"IHDR", header) + chunk(b"IDAT", zlib.compress(rows)) + chunk(b"IEND", b"")


def faces():
    """Each face's normal, and its four corners counter-clockwise as seen from outside."""
    for axis in range(3):
        for sign in (1.0, -1.0):
            normal = [0.0, 0.0, 0.0]
            normal[axis] = sign
            u, v = (axis + 1) % 3, (axis + 2) % 3
            corners = []
            for a, b in ((-0.5, -0.5), (0.5, -0.5), (0.5, 0.5), (-0.5, 0.5)):
                corner = [0.0, 0.0, 0.0]
                corner[axis], corner[u], corner[v] = sign / 2, a * sign, b
                corners.append(corner)
            yield normal, corners


def vertices():
    """The positions, normals and texture coordinates of all corners, and the corners of all triangles."""
    positions, normals, tex_coords, indices = [], [], [], []
    for normal, corners in faces():
        first = len(positions)
        positions += corners
        normals += [normal] * 4
        tex_coords += [(0.0, 1.0), (1.0, 1.0), (1.0, 0.0), (0.0, 0.0)]
        indices += [first + i for i in (0, 1, 2, 0, 2, 3)]
    return positions, normals, tex_coords, indices


def main():
    positions, normals, tex_coords, indices = vertices()
    parts = [
        b"".join(struct.pack("<3f", *p) for p in positions),
        b"".join(struct.pack("<3f", *n) for n in normals),
        b"".join(struct.pack("<2f", *t) for t in tex_coords),
        struct.pack(f"<{len(indices)}H", *indices),
        png(),
    ]
    views, blob = [], b""
    for part, target in zip(parts, (34962, 34962, 34962, 34963, None)):
        blob += b"\0" * (-len(blob) % 4)
        view = {"buffer": 0, "byteOffset": len(blob), "byteLength": len(part)}
        views.append(view if target is None else {**view, "target": target})
        blob += part

    document = {
        "asset": {"version": "2.0", "generator": "examples/make_box.py"},
        "scene": 0,
        "scenes": [{"nodes": [0]}],
        "nodes": [{"mesh": 0, "name": "Box"}],
        "meshes": [
            {
                "name": "Box",
                "primitives": [
                    {"attributes": {"POSITION": 0, "NORMAL": 1, "TEXCOORD_0": 2}, "indices": 3, "material": 0}
                ],
            }
        ],
        "materials": [
            {"name": "Checker", "pbrMetallicRoughness": {"baseColorTexture": {"index": 0}, "metallicFactor": 0.0}}
        ],
        "textures": [{"sampler": 0, "source": 0}],
        "samplers": [{"magFilter": 9728, "minFilter": 9728}],
        "images": [{"bufferView": 4, "mimeType": "image/png"}],
        "accessors": [
            {"bufferView": 0, "componentType": 5126, "count": 24, "type": "VEC3", "min": [-0.5] * 3, "max": [0.5] * 3},
            {"bufferView": 1, "componentType": 5126, "count": 24, "type": "VEC3"},
            {"bufferView": 2, "componentType": 5126, "count": 24, "type": "VEC2"},
            {"bufferView": 3, "componentType": 5123, "count": 36, "type": "SCALAR"},
        ],
        "bufferViews": views,
        "buffers": [{"byteLength": len(blob)}],
    }
    text = json.dumps(document, separators=(",", ":")).encode()
    text += b" " * (-len(text) % 4)
    blob += b"\0" * (-len(blob) % 4)
    chunks = struct.pack("<I", len(text)) + b"JSON" + text + struct.pack("<I", len(blob)) + b"BIN\0" + blob
    glb = b"glTF" + struct.pack("<II", 2, 12 + len(chunks)) + chunks
    pathlib.Path(__file__).with_name("box.glb").write_bytes(glb)


if __name__ == "__main__":
    main()
