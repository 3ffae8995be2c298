#!/usr/bin/env python3
"""Measures how much memory a text can take: `import_slice` on texts of a million elements of one
kind, each as short as can be. Prints a table in Markdown.

The memory is the most that the process had, with the program and the text; the factor is that
memory by the bytes of the text. The times are those of the whole process, of half as many elements
and of all. Where they grow with the elements and no faster, the second is twice the first.

Exit status: 0; 1 where a factor is above the bound, or the program fails."""
import argparse
import os
import pathlib
import subprocess
import sys
import tempfile

BOUND = 200
COUNT = 1_000_000
SCALAR = '{"componentType":5126,"count":1,"type":"SCALAR"}'
# Of each kind: what stands before the elements, an element, and what stands after them. An @ in an
# element is its number. Where the text breaks a rule, all of it has been read before.
KINDS = {
    "nodes `{}`": ('"nodes":[', "{}", "]"),
    "nodes `{}` and a number (the tree is read too)": ('"nodes":[', "{}", ",0]"),
    "images `{}`, broken": ('"images":[', "{}", "]"),
    "materials `{}`": ('"materials":[', "{}", "]"),
    "materials `{\"extensions\":{}}`": ('"materials":[', '{"extensions":{}}', "]"),
    "scenes `{}`": ('"scenes":[', "{}", "]"),
    "samplers `{}`": ('"samplers":[', "{}", "]"),
    "accessors": ('"accessors":[', SCALAR, "]"),
    "accessors, broken": ('"accessors":[', '{"componentType":0,"count":0,"type":""}', "]"),
    "buffers, without bytes": ('"buffers":[', '{"byteLength":1}', "]"),
    "views, broken": ('"bufferViews":[', '{"buffer":0,"byteLength":1}', "]"),
    "cameras, broken": ('"cameras":[', '{"type":"a"}', "]"),
    "meshes with a primitive": ('"meshes":[', '{"primitives":[{"attributes":{}}]}', "]"),
    "meshes `{\"primitives\":[]}`": ('"meshes":[', '{"primitives":[]}', "]"),
    "primitives": ('"meshes":[{"primitives":[', '{"attributes":{}}', "]}]"),
    "morph targets `{}`": ('"meshes":[{"primitives":[{"attributes":{},"targets":[', "{}", "]}]}]"),
    "attributes, broken": ('"meshes":[{"primitives":[{"attributes":{', '"_@":0', "}}]}]"),
    "animations": ('"animations":[', '{"channels":[],"samplers":[]}', "]"),
    "channels, broken": ('"animations":[{"samplers":[],"channels":[',
                         '{"sampler":0,"target":{"path":"a"}}', "]}]"),
    "animation samplers, broken": ('"animations":[{"channels":[],"samplers":[',
                                   '{"input":0,"output":0}', "]}]"),
    "skins": ('"skins":[', '{"joints":[]}', "]"),
    "textures": ('"images":[{"uri":"data:,"}],"textures":[', '{"source":0}', "]"),
    "textures, broken": ('"textures":[', '{"source":0}', "]"),
    "children": ('"nodes":[{"children":[', "0", "]}]"),
    "joints, broken": ('"skins":[{"joints":[', "0", "]}]"),
    "weights": ('"nodes":[{"weights":[', "0", "]}]"),
    "names of extensions": ('"extensionsUsed":[', '""', "]"),
    "numbers in extras": ('"extras":[', "0", "]"),
    "lists in extras": ('"extras":[', "[]", "]"),
    "objects in extras": ('"extras":[', "{}", "]"),
    "members in extras": ('"extras":{', '"@":0', "}"),
    "lights, broken": ('"extensions":{"KHR_lights_punctual":{"lights":[', '{"type":"spot"}', "]}}"),
    "variants": ('"extensions":{"KHR_materials_variants":{"variants":[', '{"name":""}', "]}}"),
}


def write(path, kind, count):
    """Writes a text of so many elements, piece by piece: a child counts the most memory of its
    parent, which is this process, as its own."""
    before, element, after = KINDS[kind]
    with open(path, "w", encoding="ascii") as file:
        file.write('{"asset":{"version":"2.0"},' + before)
        for k in range(count):
            file.write("," * (k > 0) + element.replace("@", str(k)))
        file.write(after + "}")


def measured(program, path):
    """The processor time in seconds and the most memory in bytes of an import."""
    with subprocess.Popen([program, path, "1"], stdout=subprocess.PIPE) as process:
        process.stdout.read()
        _, status, usage = os.wait4(process.pid, 0)
        process.returncode = os.waitstatus_to_exitcode(status)
    if process.returncode:
        sys.exit(f"memory: the import ends with {process.returncode}")
    return usage.ru_utime + usage.ru_stime, usage.ru_maxrss * 1024


def main():
    form = argparse.RawDescriptionHelpFormatter
    parser = argparse.ArgumentParser(prog="run.sh", description=__doc__, formatter_class=form)
    parser.add_argument("--program", type=pathlib.Path, help="the program, where it is built")
    words = parser.parse_args()
    if not words.program or not words.program.is_file():
        parser.error("--program names no file")
    print("| elements | text | memory | factor | time of half | time |")
    print("|---|---|---|---|---|---|")
    over = []
    with tempfile.TemporaryDirectory() as name:
        path = pathlib.Path(name, "text.gltf")
        for kind in KINDS:
            write(path, kind, COUNT // 2)
            half, _ = measured(words.program, path)
            write(path, kind, COUNT)
            size = path.stat().st_size
            time, memory = measured(words.program, path)
            factor = memory / size
            if factor > BOUND:
                over.append(kind)
            print(f"| {kind} | {size / 1e6:.1f} MB | {memory / 1e6:,.0f} MB | {factor:.0f} "
                  f"| {half:.2f} s | {time:.2f} s |", flush=True)
    for kind in over:
        print(f"memory: {kind}: more than {BOUND} bytes a byte of text", file=sys.stderr)
    return 1 if over else 0


if __name__ == "__main__":
    sys.exit(main())
