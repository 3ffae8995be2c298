#!/usr/bin/env python3
"""Packs what is proved and built as Debian packages: `make deb`.

    deb.py [FOLDER] [--no-gate]   writes libgltf2, libgltf-dev and gltf-tools into FOLDER (out/dist)

They are refused as the tarball of `make dist` is, and each holds the same PROOF.txt. Programs and
libraries lose the symbols that only a debugger reads. It needs dpkg-deb and binutils. DEBFULLNAME
and DEBEMAIL can name the maintainer. The same tree, with the same programs and library, gives the
same bytes."""
import email.utils
import gzip
import hashlib
import os
import pathlib
import re
import shutil
import subprocess
import sys
import tempfile

sys.dont_write_bytecode = True

import c
import c_install
import crates
import package

TEMPLATES = crates.TOP / "packages" / "debian"
LIBDIR = "/usr/lib/x86_64-linux-gnu"
# The part of the version that counts the packages of one version of the sources.
REVISION = "1"
LIBRARY, DEVELOPMENT, PROGRAMS = "libgltf2", "libgltf-dev", "gltf-tools"
CHANGES = """gltf ({version}) unstable; urgency=medium

  * The changes of each version are in CHANGELOG.md of the sources.

 -- {maintainer}  {when}
"""
WHEN = str(int(package.WHEN.timestamp()))


def ran(*words, **how):
    """What a command prints; it has to end with 0."""
    how = {"check": True, "text": True, "stdout": subprocess.PIPE, **how}
    return subprocess.run([os.fspath(word) for word in words], **how).stdout


def version():
    return f"{package.version()}-{REVISION}"


def maintainer():
    name = os.environ.get("DEBFULLNAME") or "The authors of gltf"
    return f"{name} <{os.environ.get('DEBEMAIL') or 'gltf@packages.invalid'}>"


def home(path):
    """The package that a part is in."""
    if re.search(r"\.so\.[\d.]+$", path):
        return LIBRARY
    is_of_programs = "/bin/" in path or "/man1/" in path or "completion" in path
    return PROGRAMS if is_of_programs else DEVELOPMENT


def zipped(data):
    """Bytes as Debian's pages are compressed: as short as can be, without a time."""
    return gzip.compress(data, 9, mtime=0)


def stage(room, words):
    """Writes what each package holds below a folder of its name."""
    proof = package.proof(words)
    for path, held in package.parts("/usr", {"LIBDIR": LIBDIR}):
        if "/man/" in path:
            path += ".gz"
            data = c_install.bytes_of(held)
            page = re.fullmatch(rb"\.so man\d/(.*)\n", data)
            held = f"{page[1].decode()}.gz" if page else zipped(data)
        c_install.put(f"{room}/{home(path)}{path}", held)
    words = {"version": version(), "maintainer": maintainer(),
             "when": email.utils.format_datetime(package.WHEN)}
    license_of_mit = (crates.TOP / "LICENSE-MIT").read_text("utf-8").partition("\n\n")[2]
    license_of_mit = "\n".join(f" {line or '.'}" for line in license_of_mit.strip().split("\n"))
    about = (TEMPLATES / "copyright").read_text("utf-8").replace("@MIT@", license_of_mit)
    for name in (LIBRARY, DEVELOPMENT, PROGRAMS):
        folder = f"{room}/{name}/usr/share/doc/{name}"
        c_install.put(f"{folder}/copyright", about.encode())
        c_install.put(f"{folder}/changelog.Debian.gz", zipped(CHANGES.format(**words).encode()))
        c_install.put(f"{folder}/PROOF.txt", proof)


def files_below(folder):
    """The regular files below a folder, sorted."""
    return sorted(file for file in folder.rglob("*") if file.is_file() and not file.is_symlink())


def strip(room):
    """Drops the symbols that only a debugger reads."""
    for file in files_below(room):
        if file.suffix == ".a":
            ran("strip", "--strip-debug", "--enable-deterministic-archives", file)
        elif file.open("rb").read(4) == b"\x7fELF":
            ran("strip", "--strip-unneeded", "-R", ".comment", "-R", ".note", file)


def libc(folder):
    """The least version of the C library that the programs and libraries of a package want."""
    found = [(2, 3, 4)]
    for file in files_below(folder):
        if file.open("rb").read(4) == b"\x7fELF":
            found += [tuple(int(part) for part in named.split("."))
                      for named in re.findall(r"GLIBC_([\d.]+)", ran("readelf", "-VW", file))]
    return ".".join(str(part) for part in max(found))


def stanzas():
    """The control file of each package, without what is known only when it is packed."""
    text = (TEMPLATES / "control").read_text("utf-8")
    return {re.match(r"Package: (.*)", stanza)[1]: stanza.strip() for stanza in text.split("\n\n")}


def control(room, name, stanza):
    """Writes the control files of a package."""
    folder, files = room / name, files_below(room / name)
    sums = [f"{hashlib.md5(file.read_bytes()).hexdigest()}  {file.relative_to(folder)}\n"
            for file in files]
    size = sum(1 + file.stat().st_size // 1024 for file in files)
    stanza = stanza.replace("@VERSION@", version()).replace("@LIBC@", libc(folder))
    head, _, rest = stanza.partition("\n")
    text = (f"{head}\nSource: gltf\nVersion: {version()}\nArchitecture: amd64\n"
            f"Maintainer: {maintainer()}\nInstalled-Size: {size}\nPriority: optional\n{rest}\n")
    held = {"control": text, "md5sums": "".join(sums)}
    if name == LIBRARY:
        major, whole = package.version().partition(".")[0], package.version()
        symbols = sorted(f" {symbol}@{node} {whole}\n" for node, calls in c.nodes().items()
                         for symbol in (node, *calls))
        held["shlibs"] = f"libgltf {major} {LIBRARY} (>= {whole})\n"
        held["symbols"] = f"libgltf.so.{major} {LIBRARY} #MINVER#\n{''.join(symbols)}"
        held["triggers"] = "activate-noawait ldconfig\n"
    for file, text in held.items():
        c_install.put(f"{folder}/DEBIAN/{file}", text.encode())


def settle(folder):
    """Gives all below a folder the modes and the times that they always have."""
    for path in [folder, *folder.rglob("*")]:
        if path.is_dir():
            path.chmod(0o755)
        elif not path.is_symlink():
            is_program = path.parent.name == "bin"
            path.chmod(0o755 if is_program else 0o644)
    for path in sorted([folder, *folder.rglob("*")], reverse=True):
        os.utime(path, (int(WHEN), int(WHEN)), follow_symlinks=False)


def pack(folder, words):
    for tool in ("dpkg-deb", "strip", "readelf"):
        if not shutil.which(tool):
            raise package.Refused(f"there is no {tool}: Debian's packages dpkg and binutils")
    folder.mkdir(parents=True, exist_ok=True)
    with tempfile.TemporaryDirectory() as name:
        room = pathlib.Path(name)
        stage(room, words)
        strip(room)
        for name, stanza in stanzas().items():
            control(room, name, stanza)
            settle(room / name)
            file = folder / f"{name}_{version()}_amd64.deb"
            ran("dpkg-deb", "--build", "--root-owner-group", "-Zxz", "-z9", room / name, file,
                env={**os.environ, "SOURCE_DATE_EPOCH": WHEN, "LC_ALL": "C.UTF-8"})
            yield file


if __name__ == "__main__":
    sys.exit(package.run(pack, "deb"))
