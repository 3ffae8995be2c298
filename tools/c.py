#!/usr/bin/env python3
"""Builds the library for C and tries it: `make c`, and a part of `make test`.

`rt lib` proves `crates/gltf_c` before a byte of it is built: the exports, over the calls in
`crates/gltf_c_calls`; and before that the crates below it, where they have changed.
`out/c/libgltf.a` is that library, the few lines of C in `c/gltf_shim.c` and those of the toolchain
over malloc, joined, and shows the calls of `c/gltf.h` alone. `out/c/libgltf.so` is the same as a
shared library.

    c.py            all of this
    c.py --long     the same with more files and more turns, some forty minutes
    c.py --prove    proves it and builds the archive, and no more
    c.py --beside   the same in a copy of the crates, beside another run of rt: the next c.py takes
                    the archive from there, if it is of the same sources

A test whose tool is not there is reported as not tried, and counts neither as passed nor as failed.
The last line is `N passed, M failed`."""
import os
import pathlib
import shutil
import signal
import subprocess
import sys
import time

sys.dont_write_bytecode = True

import c_code
import c_copy
import crates
import proving

CRATE = crates.TOP / "crates" / "gltf_c"
C = c_code.C
OUT = crates.TOP / "out" / "c"
# Those that need no long way through crates.txt are proved side by side, with all below them. The
# others are proved by the one call that builds the archive, since each call goes over all ways.
SIDE_BY_SIDE = ("gltf_options", "gltf_access", "gltf_extensions", "gltf_c_look")
LIBRARY = OUT / "libgltf.a"
SHARED = OUT / "libgltf.so"
# What the shim is compiled by, and with which warnings.
SHIM = ["-std=c89", "-O2", "-fPIC", "-fvisibility=default", "-Wall", "-Wextra", "-Wconversion",
        "-pedantic", "-Werror"]


def ran(*words, **how):
    """What a command writes; it has to end with 0."""
    how = {"check": True, "text": True, "stdout": subprocess.PIPE, **how}
    return subprocess.run([os.fspath(word) for word in words], **how).stdout


def kit():
    """The folder of the toolchain, which has libraries to link with."""
    return pathlib.Path(ran("rt", "doc").strip()).parent


def prove():
    """Proves the crate and those below it, and builds the archive."""
    if not proving.Proving(crates.below(*SIDE_BY_SIDE), lambda _: [["lib"]]).run():
        sys.exit("the library for C is not proved")
    subprocess.run(["rt", "lib"], cwd=CRATE, check=True)


def build():
    """The archive of the crate, proved, here or in the copy."""
    archive = OUT / c_copy.ARCHIVE.name
    OUT.mkdir(parents=True, exist_ok=True)
    with c_copy.alone():
        if c_copy.is_of_these_sources():
            shutil.copy(c_copy.ARCHIVE, archive)
            return archive
    prove()
    return CRATE / "out" / c_copy.ARCHIVE.name


def joined(archive, name, shown, *more):
    """One object of the archive, of the shim and of those over malloc, which shows some symbols."""
    shim, whole = OUT / f"{name}_shim.o", OUT / f"{name}.o"
    ran("cc", *SHIM, *more, "-c", C / "gltf_shim.c", "-o", shim)
    ran("ld", "-r", "-o", whole, "--whole-archive", archive, f"{kit()}/c/liblibc_c.a",
        "--no-whole-archive", shim)
    ran("objcopy", *(f"--keep-global-symbol={symbol}" for symbol in shown), whole)
    return whole


def join(archive):
    """One archive that shows the calls of the header alone."""
    OUT.mkdir(parents=True, exist_ok=True)
    whole = joined(archive, "gltf", c_code.calls())
    LIBRARY.unlink(missing_ok=True)
    ran("ar", "rcs", LIBRARY, whole)


def nodes():
    """The calls that are in each node of the shared library. A node has those that were in it."""
    major = c_code.version().partition(".")[0]
    return {f"GLTF_{major}": c_code.calls(), f"GLTF_{major}.1": c_code.of_2_1()}


def share(archive):
    """The shared library. Its soname has the major version alone: a library with the same soname
    has all that the former one had."""
    version = c_code.version()
    major = version.partition(".")[0]
    first, second = nodes()
    later = nodes()[second]
    shown = [*(set(c_code.calls()) - set(later)),
             *(f"{name}{at}" for name in later for at in (f"@{first}", f"@@{second}"))]
    whole = joined(archive, "gltf_shared", shown, "-DGLTF_SYMBOL_VERSIONS")
    lists = {node: "".join(f"    {name};\n" for name in names) for node, names in nodes().items()}
    script = OUT / "libgltf.map"
    script.write_text(f"{first} {{\n  global:\n{lists[first]}  local:\n    *;\n}};\n"
                      f"{second} {{\n  global:\n{lists[second]}}} {first};\n")
    for old in OUT.glob("libgltf.so*"):
        old.unlink()
    file = OUT / f"libgltf.so.{version}"
    ran("cc", "-shared", "-nostartfiles", whole, f"-Wl,-soname,libgltf.so.{major}",
        f"-Wl,--version-script={script}", "-Wl,-z,defs,-z,relro,-z,now,-z,noexecstack",
        "-Wl,--hash-style=gnu", "-Wl,--build-id", "-o", file)
    (OUT / f"libgltf.so.{major}").symlink_to(file.name)
    SHARED.symlink_to(f"libgltf.so.{major}")


def main(words):
    if words == ["--prove"]:
        return prove()
    if words == ["--beside"]:
        return c_copy.prove()

    import c_tests

    begun = time.time()
    archive = build()
    join(archive)
    share(archive)
    # It is of the sources that were there then.
    os.utime(LIBRARY, (begun, begun))
    results = c_tests.results("--long" in words)
    print(f"{results.count(True)} passed, {results.count(False)} failed")
    return 1 if False in results else 0


if __name__ == "__main__":
    # `kill` ends what runs, as an interrupt does.
    signal.signal(signal.SIGTERM, signal.default_int_handler)
    try:
        sys.exit(main(sys.argv[1:]))
    except KeyboardInterrupt:
        sys.exit(130)
