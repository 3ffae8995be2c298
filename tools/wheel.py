#!/usr/bin/env python3
"""Writes the wheel of the Python package, with the shared library and the program inside.

    wheel.py [FOLDER]     writes FOLDER/gltf-VERSION-py3-none-linux_x86_64.whl (out/dist)

The library is out/c/libgltf.so.2, which `make c` builds, and the program that of `make prove`. A
wheel without the program is written where there is none, and says so: `gltf.check` then looks for
gltf_show on the path. The same files give the same bytes."""
import base64
import hashlib
import pathlib
import re
import sys
import zipfile

TOP = pathlib.Path(__file__).resolve().parent.parent
SOURCES = TOP / "python" / "gltf"
LIBRARY = TOP / "out" / "c" / "libgltf.so.2"
PROGRAM = TOP / "crates" / "gltf_show" / "out" / "gltf_show"
TAG = "py3-none-linux_x86_64"
SUMMARY = "glTF 2.0 files, read by a loader that is proved: no file can crash it"
# What a wheel has for every file: when it was made is left out, so that its bytes stay the same.
WHEN = (1980, 1, 1, 0, 0, 0)


def version():
    """The version that the package states."""
    text = (SOURCES / "__init__.py").read_text(encoding="utf-8")
    return re.search(r'__version__ = "([^"]+)"', text)[1]


def metadata(number):
    """The file METADATA."""
    about = (TOP / "python" / "README.md").read_text(encoding="utf-8")
    return (f"Metadata-Version: 2.1\nName: gltf\nVersion: {number}\nSummary: {SUMMARY}\n"
            "License: Apache-2.0 OR MIT\nRequires-Python: >=3.8\nProvides-Extra: numpy\n"
            "Requires-Dist: numpy; extra == 'numpy'\nDescription-Content-Type: text/markdown\n\n"
            + about)


def files_of(number):
    """The files of the wheel, by their names in it: bytes, and whether a program."""
    info = f"gltf-{number}.dist-info"
    found = {}
    for path in sorted(SOURCES.glob("*")):
        if path.suffix == ".py" or path.name == "py.typed":
            found[f"gltf/{path.name}"] = path.read_bytes(), False
    found["gltf/libgltf.so.2"] = LIBRARY.read_bytes(), True
    if PROGRAM.is_file():
        found["gltf/gltf_show"] = PROGRAM.read_bytes(), True
    else:
        print("wheel.py: there is no gltf_show to put in; `make prove` builds it", file=sys.stderr)
    for name in ("LICENSE-APACHE", "LICENSE-MIT"):
        found[f"{info}/{name}"] = (TOP / name).read_bytes(), False
    found[f"{info}/METADATA"] = metadata(number).encode(), False
    wheel = f"Wheel-Version: 1.0\nGenerator: wheel.py\nRoot-Is-Purelib: false\nTag: {TAG}\n"
    found[f"{info}/WHEEL"] = wheel.encode(), False
    lines = [f"{name},sha256={digest(data)},{len(data)}" for name, (data, _) in found.items()]
    record = "\n".join([*lines, f"{info}/RECORD,,", ""])
    found[f"{info}/RECORD"] = record.encode(), False
    return found


def digest(data):
    """A checksum, as a wheel's RECORD has it."""
    return base64.urlsafe_b64encode(hashlib.sha256(data).digest()).rstrip(b"=").decode()


def main(words):
    if len(words) > 1 or words[:1] in (["-h"], ["--help"]):
        print(__doc__)
        return 2
    if not LIBRARY.is_file():
        print("wheel.py: there is no out/c/libgltf.so.2; `make c` builds it", file=sys.stderr)
        return 1
    number = version()
    folder = pathlib.Path(words[0]) if words else TOP / "out" / "dist"
    folder.mkdir(parents=True, exist_ok=True)
    place = folder / f"gltf-{number}-{TAG}.whl"
    with zipfile.ZipFile(place, "w", zipfile.ZIP_DEFLATED) as wheel:
        for name, (data, runs) in files_of(number).items():
            entry = zipfile.ZipInfo(name, WHEN)
            entry.compress_type = zipfile.ZIP_DEFLATED
            entry.external_attr = (0o100755 if runs else 0o100644) << 16
            wheel.writestr(entry, data)
    print(place)
    return 0


sys.exit(main(sys.argv[1:]))
