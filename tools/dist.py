#!/usr/bin/env python3
"""Packs what is proved and built as one archive: `make dist`.

    dist.py [FOLDER] [--no-gate]   writes FOLDER/gltf-VERSION-x86_64-linux.tar.gz (out/dist)

It has the programs, the library for C, manual pages and completion below bin/, lib/, include/ and
share/, which can be copied to any prefix; README.md, docs/, examples/ and the licences; PROOF.txt,
which says what was proved by what; and SHA256SUMS of all. It is refused where something is not
built of the present sources, or the gate has not passed on them; with --no-gate PROOF.txt says so
instead. The same tree, with the same programs and library, gives the same bytes."""
import gzip
import hashlib
import io
import pathlib
import sys
import tarfile

sys.dont_write_bytecode = True

import c_install
import crates
import package

PAGES = ("README.md", "CHANGELOG.md", *package.LICENSES)
# The programs in C of docs/C.md, which are beside the other examples.
OF_C = ("show.c", "draw.c", "contents.h")
PREFIX = "/gltf"


def contents(words):
    """What is packed: of each path its bytes, or of a link its text."""
    found = {"PROOF.txt": package.proof(words)}
    for path, held in package.parts(PREFIX, {}):
        bytes_or_link = held if isinstance(held, str) else c_install.bytes_of(held)
        found[path[len(PREFIX) + 1:]] = bytes_or_link
    for name in PAGES:
        found[name] = (crates.TOP / name).read_bytes()
    for name in OF_C:
        found[f"examples/{name}"] = (crates.TOP / "c" / name).read_bytes()
    for folder in ("docs", "examples"):
        for file in (crates.TOP / folder).rglob("*"):
            if file.is_file() and file.suffix != ".pyc":
                found[str(file.relative_to(crates.TOP))] = file.read_bytes()
    sums = [f"{hashlib.sha256(held).hexdigest()}  {path}\n"
            for path, held in sorted(found.items()) if isinstance(held, bytes)]
    found["SHA256SUMS"] = "".join(sums).encode()
    return found


def entry(path, kind, mode):
    """An entry of the archive, which names nobody and no time."""
    it = tarfile.TarInfo(path)
    it.type, it.mode, it.mtime = kind, mode, int(package.WHEN.timestamp())
    return it


def archive(top, found):
    """The bytes of the archive: folders before what is in them, all sorted."""
    whole = io.BytesIO()
    folders = {str(parent) for path in found for parent in pathlib.PurePath(path).parents}
    with gzip.GzipFile("", "wb", 9, whole, mtime=0) as packed, \
            tarfile.open(fileobj=packed, mode="w", format=tarfile.GNU_FORMAT) as tar:
        for path in sorted(folders | set(found)):
            name, held = str(pathlib.PurePath(top, path)), found.get(path)
            if held is None:
                tar.addfile(entry(name, tarfile.DIRTYPE, 0o755))
            elif isinstance(held, str):
                it = entry(name, tarfile.SYMTYPE, 0o777)
                it.linkname = held
                tar.addfile(it)
            else:
                it = entry(name, tarfile.REGTYPE, c_install.mode_of(path))
                it.size = len(held)
                tar.addfile(it, io.BytesIO(held))
    return whole.getvalue()


def pack(folder, words):
    top = f"gltf-{package.version()}-x86_64-linux"
    held = archive(top, contents(words))
    folder.mkdir(parents=True, exist_ok=True)
    file = folder / f"{top}.tar.gz"
    file.write_bytes(held)
    yield file


if __name__ == "__main__":
    sys.exit(package.run(pack, "dist"))
