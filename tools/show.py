#!/usr/bin/env python3
"""Runs a call of gltf_show on a file: `make show`.

GLTF_CALL and GLTF_FILE have the words. The file is named from the folder that make was called in,
GLTF_FROM, or from the top of the repository. The proved program runs where it is built of the
present sources; else the toolchain's quick runner runs the same sources, on a copy of the
file and of those beside it that its buffers name."""
import json
import os
import shutil
import subprocess
import sys
import urllib.parse

sys.dont_write_bytecode = True

import crates

UNPROVED = (
    "make show: gltf_show is not built of these sources, so the quick runner runs them: no proof, "
    "run-time checks, about a minute. make prove proves and builds it, in about half an hour on "
    "four processors."
)
# The names that the runner keeps for itself.
KEPT = ("program", "stdin", "stdout", "stderr")


def found(file):
    """The path of a file that is named from the caller's folder or from the top of the repository;
    None where there is none."""
    for folder in (os.environ.get("GLTF_FROM", ""), crates.TOP):
        path = os.path.join(folder, file)
        if os.path.isabs(path) and os.path.isfile(path):
            return path
    return None


def is_taken(name):
    """Whether the runner takes a file of that name: no path, and without `=`, which ends a name."""
    kept = name in ("", ".", "..", *KEPT)
    return name.isprintable() and not kept and "/" not in name and "=" not in name


def named_beside(path):
    """The names that the buffers of a document have for files in its own folder. What is no such
    document names none: the program says why it is refused."""
    if not path.lower().endswith(".gltf"):
        return []
    try:
        with open(path, encoding="utf-8") as file:
            buffers = json.load(file).get("buffers", [])
        uris = [buffer.get("uri") or "" for buffer in buffers]
        return [urllib.parse.unquote(uri) for uri in uris if ":" not in uri]
    except (AttributeError, OSError, RecursionError, TypeError, ValueError):
        return []


def tried(call, path):
    """The status of the quick runner. It gives the program copies, in a folder of its own."""
    folder, name = os.path.split(path)
    copies = {other: os.path.join(folder, other) for other in named_beside(path) if is_taken(other)}
    copies = {other: place for other, place in copies.items() if os.path.isfile(place)}
    name = name if is_taken(name) else "file"
    copies[name] = path
    words = ["rt", "try"]
    for copy, place in copies.items():
        words += ["--data", f"{copy}={place}"]
    how = {"cwd": crates.TOP / "crates" / "gltf_show", "stdin": subprocess.DEVNULL}
    return subprocess.run([*words, "--", call, name], **how).returncode


def main():
    call, file = os.environ["GLTF_CALL"], os.environ["GLTF_FILE"]
    path = found(file)
    if path is None:
        sys.exit(f"make show: there is no file {file}")
    if crates.is_fresh("gltf_show"):
        program = os.fspath(crates.program("gltf_show"))
        os.execv(program, [program, call, path])
    if not shutil.which("rt"):
        sys.exit(
            "make show: gltf_show is not built, and the Rattle toolchain (rt) is not on the path"
        )
    print(UNPROVED, file=sys.stderr, flush=True)
    sys.exit(tried(call, path))


main()
