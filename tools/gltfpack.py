#!/usr/bin/env python3
"""Converts what Debian's gltfpack makes of examples/box.glb, in each of its ways. `gltf_convert`
turns each file into a text with its files, and that back into a container, in a folder of its own.
Each view has to have the same bytes there, and what is compressed of it too. Where gltfpack or
assimp opens the first file, it has to open what was made of it, and to count the same.

What a machine has no tool for is reported as not tried, and counts neither as passed nor as failed.
The last line is `N passed, M failed`."""
import json
import pathlib
import re
import shutil
import subprocess
import sys
import tempfile

sys.dont_write_bytecode = True

import crates

BOX = crates.TOP / "examples" / "box.glb"
CONVERT = crates.program("gltf_convert")
# Quantized; not so; and compressed, with the bytes of another buffer for readers that do not know
# how, and without them: neither gltfpack nor assimp opens such a file.
WAYS = ([], ["-noq"], ["-kn", "-km", "-ke"], ["-vpn"], ["-mi"], ["-cf"], ["-c"], ["-cc"])
# One of its buffers says that it is for readers that do not know how, if it has bytes.
MARKED = "{}: left out: names, extras and extensions of 1 of the buffers\n"
# What `assimp info` counts, but for textures, which are embedded in a container alone.
COUNTED = ("Nodes", "Meshes", "Animations", "Materials", "Cameras", "Lights", "Vertices", "Faces",
           "Bones", "Animation Channels", "Primitive Types")


def ran(folder, *words):
    return subprocess.run([*map(str, words)], cwd=folder, capture_output=True, text=True)


def packer_counts(folder, name):
    """What gltfpack says that a file has; None where it does not open it."""
    report = folder / "report.json"
    report.unlink(missing_ok=True)
    if ran(folder, "gltfpack", "-i", name, "-o", "opened.glb", "-r", report.name).returncode:
        return None
    told = json.loads(report.read_text("utf-8"))
    return told["scene"], told["render"]


def assimp_counts(folder, name):
    """What assimp says that a file has; None where it does not open it."""
    told = ran(folder, "assimp", "info", name)
    if told.returncode:
        return None
    lines = dict(re.findall(r"^([A-Z][A-Za-z ]*):\s+(.*)$", told.stdout, re.MULTILINE))
    return [lines[name] for name in COUNTED]


# Each reader, with what it counts.
READERS = {"gltfpack": packer_counts, "assimp": assimp_counts}


def views_of(folder, name):
    """The bytes of each view, None where its buffer has none, and of what is compressed of it, with
    all that is said of either but its place. Images have no views in a text."""
    held = (folder / name).read_bytes()
    blob = None
    if held.startswith(b"glTF"):
        length = int.from_bytes(held[12:16], "little")
        held, blob = held[20 : 20 + length], held[28 + length :]
    value = json.loads(held)
    buffers = [(folder / one["uri"]).read_bytes() if "uri" in one else None
               for one in value["buffers"]]
    buffers[0] = buffers[0] or blob
    pictures = {image.get("bufferView") for image in value.get("images", [])}

    def part(one):
        whole, start = buffers[one["buffer"]], one.get("byteOffset", 0)
        rest = {key: it for key, it in one.items()
                if key not in ("buffer", "byteOffset", "extensions")}
        return whole and whole[start : start + one["byteLength"]], rest

    return [(part(one), [part(said) for said in one.get("extensions", {}).values()])
            for i, one in enumerate(value["bufferViews"]) if i not in pictures]


def converts(way, ending):
    """What is wrong with the conversions of a file that is packed so; none where nothing is."""
    with tempfile.TemporaryDirectory() as name:
        room = pathlib.Path(name)
        shutil.copy(BOX, room)
        packed = f"packed{ending}"
        made = ran(room, "gltfpack", "-i", BOX.name, "-o", packed, *way)
        if made.returncode:
            return [f"gltfpack ends with {made.returncode}: {made.stderr}"]
        steps = [(packed, "text.gltf"), ("text.gltf", "back.glb"), (packed, "one.glb"),
                 ("back.glb", "again.gltf")]
        for source, target in steps:
            told = ran(room, CONVERT, source, target)
            is_marked = way == ["-cf"] and target.endswith(".glb")
            if told.returncode or told.stderr != (MARKED.format(source) if is_marked else ""):
                return [f"{source} {target}: {told.returncode} {told.stderr}"]
        files = [target for _, target in steps]
        faults = [f"{file} has other views" for file in files if differs(room, packed, file)]
        for reader, counts in READERS.items():
            first = shutil.which(reader) and counts(room, packed)
            later = [counts(room, file) for file in files] if first else []
            faults += [f"{reader}: {one}, and {first} before" for one in later if one != first]
        return faults


def differs(room, packed, file):
    """Whether a view of the first file is not in the other one. A view of an image may stay there,
    where the image has a file."""
    left = views_of(room, file)
    return any(one not in left for one in views_of(room, packed))


def main():
    if not CONVERT.is_file():
        print("gltfpack: gltf_convert is not built: make prove builds it", file=sys.stderr)
        print("0 passed, 1 failed")
        return 1
    if not shutil.which("gltfpack"):
        print("gltfpack: not tried, since there is none")
        print("0 passed, 0 failed")
        return 0
    for reader in READERS:
        if not shutil.which(reader):
            print(f"gltfpack: {reader} opens what is made: not tried, since there is none")
    passed = failed = 0
    for way in WAYS:
        for ending in ".glb", ".gltf":
            faults = converts(way, ending)
            passed, failed = passed + (not faults), failed + bool(faults)
            print(f"gltfpack {' '.join(way)} {ending}: {'FAILED: ' if faults else 'ok'}"
                  f"{'; '.join(faults)}")
    print(f"{passed} passed, {failed} failed")
    return 1 if failed else 0


if __name__ == "__main__":
    sys.exit(main())
