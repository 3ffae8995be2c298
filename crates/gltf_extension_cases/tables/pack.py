#!/usr/bin/env python3
"""Makes packed.gltf anew: what Debian's gltfpack makes of examples/box.glb, with its buffer in it."""
import base64
import json
import pathlib
import subprocess
import tempfile

HERE = pathlib.Path(__file__).resolve().parent
BOX = HERE.parent.parent.parent / "examples" / "box.glb"

with tempfile.TemporaryDirectory() as name:
    made = pathlib.Path(name) / "packed.gltf"
    subprocess.run(["gltfpack", "-i", BOX, "-o", made], check=True)
    value = json.loads(made.read_text("utf-8"))
    for buffer in value["buffers"]:
        held = (made.parent / buffer["uri"]).read_bytes()
        buffer["uri"] = ("data:application/octet-stream;base64,"
                         + base64.b64encode(held).decode())
(HERE / "packed.gltf").write_text(json.dumps(value, indent=1) + "\n", "utf-8")
