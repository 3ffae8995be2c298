"""Where the parts of the library for C are installed, by the GNU names of folders: PREFIX, LIBDIR,
INCLUDEDIR and MANDIR, with DESTDIR in front of each."""
import os
import pathlib

import c
import c_code
import crates

HEADERS = ("gltf.h", "gltf_load.h", "gltf.hpp")


def is_built():
    """Whether the library was built of the present sources: those of the code, and the shim."""
    return crates.is_built_of(c.LIBRARY, "gltf_c") and all(
        os.stat(c.C / name).st_mtime_ns < os.stat(c.LIBRARY).st_mtime_ns
        for name in ("gltf.h", "gltf_shim.c"))


def folders(prefix, environment):
    """The folders of the library: `lib`, `include` and `man`. What is not named is below the
    prefix."""
    chosen = {"lib": environment.get("LIBDIR") or f"{prefix}/lib",
              "include": environment.get("INCLUDEDIR") or f"{prefix}/include",
              "man": environment.get("MANDIR") or f"{prefix}/share/man"}
    return {name: os.path.abspath(os.path.join(prefix, folder)) for name, folder in chosen.items()}


def filled(name, words):
    """A template of `c/install`, with its words."""
    text = (c.C / "install" / name).read_text("utf-8")
    for word, value in words.items():
        text = text.replace(f"@{word}@", value)
    return text.encode()


def from_prefix(prefix, folder):
    """How pkg-config writes a folder, so that what is below the prefix moves with it."""
    relative = os.path.relpath(folder, prefix)
    return folder if relative.startswith("..") else f"${{prefix}}/{relative}"


def parts(prefix, environment):
    """What is installed, in order: of each its path, and the file that it is a copy of, its bytes,
    or, of a link, the text that it has."""
    place = folders(prefix, environment)
    lib, version = place["lib"], c_code.version()
    major = version.partition(".")[0]
    words = {
        "VERSION": version, "MAJOR": major,
        "PREFIX": os.path.relpath(prefix, f"{lib}/pkgconfig"),
        "LIBDIR": from_prefix(prefix, lib),
        "INCLUDEDIR": from_prefix(prefix, place["include"]),
        "INCLUDE_FROM_HERE": os.path.relpath(place["include"], f"{lib}/cmake/gltf"),
    }
    for name in HEADERS:
        yield f"{place['include']}/{name}", c.C / name
    yield f"{lib}/libgltf.a", c.LIBRARY
    yield f"{lib}/libgltf.so.{version}", c.OUT / f"libgltf.so.{version}"
    yield f"{lib}/libgltf.so.{major}", f"libgltf.so.{version}"
    yield f"{lib}/libgltf.so", f"libgltf.so.{major}"
    yield f"{lib}/pkgconfig/gltf.pc", filled("gltf.pc.in", words)
    for name in ("gltf-config.cmake", "gltf-config-version.cmake"):
        yield f"{lib}/cmake/gltf/{name}", filled(f"{name}.in", words)
    yield f"{place['man']}/man3/gltf.3", c.C / "install" / "gltf.3"
    for name in c_code.calls():
        yield f"{place['man']}/man3/{name}.3", b".so man3/gltf.3\n"


def put(path, contents):
    """Writes a part. A program or a library that is in use is replaced, and not written over."""
    file = pathlib.Path(path)
    file.parent.mkdir(parents=True, exist_ok=True)
    part = file.parent / f".{file.name}.{os.getpid()}"
    if isinstance(contents, str):
        part.symlink_to(contents)
    else:
        part.write_bytes(bytes_of(contents))
        part.chmod(mode_of(path))
    part.replace(file)
    return file


def write(parts, destination=""):
    """Writes parts, and prints where."""
    for path, contents in parts:
        print(put(destination + path, contents))


def bytes_of(contents):
    """The bytes of a part that is no link."""
    return contents if isinstance(contents, bytes) else contents.read_bytes()


def mode_of(path):
    """The mode of a part that is no link: programs and the shared library can be run."""
    file = pathlib.PurePath(path)
    return 0o755 if file.parent.name == "bin" or ".so." in file.name else 0o644


def remove(parts, destination=""):
    """Removes parts, and the folders that held nothing else and are the library's own."""
    own = set()
    for path, _ in parts:
        file = pathlib.Path(destination + path)
        if file.is_symlink() or file.exists():
            file.unlink()
            print(file)
        if file.parent.name == "gltf":
            own.add(file.parent)
    for folder in own:
        if folder.is_dir() and not any(folder.iterdir()):
            folder.rmdir()


def install(prefix, environment, destination=""):
    """Writes all parts of the library."""
    write(parts(prefix, environment), destination)


def uninstall(prefix, environment, destination=""):
    """Removes all parts of the library."""
    remove(parts(prefix, environment), destination)
