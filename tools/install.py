#!/usr/bin/env python3
"""Installs what is built of the present sources: the proved programs, which `make prove` builds,
with their manual pages and their completion for bash, and the library for C, which `make c` builds:
`make install PREFIX=..`. It reports what is missing. With the word `uninstall` it removes what it
installed to the same folders.

GLTF_PREFIX is the folder, relative to the one that make was called in, GLTF_FROM. LIBDIR,
INCLUDEDIR and MANDIR are folders below it, if they are not absolute. DESTDIR is put in front of
all."""
import os
import sys

sys.dont_write_bytecode = True

import c_install
import crates
import program_install


def install(prefix, destination):
    programs = [program for program in crates.PROGRAMS if crates.is_fresh(program)]
    has_library = c_install.is_built()
    if not programs and not has_library:
        sys.exit("make install: nothing is built of these sources: make prove proves and builds "
                 "the programs, and make c the library for C")
    c_install.write(program_install.parts(prefix, os.environ, programs), destination)
    if has_library:
        c_install.install(prefix, os.environ, destination)
    for program in crates.PROGRAMS:
        if program not in programs:
            print(f"{program} is not built of these sources: make prove proves and builds it")
    if not has_library:
        print("the library for C is not built of these sources: make c proves and builds it")


def uninstall(prefix, destination):
    c_install.remove(program_install.parts(prefix, os.environ), destination)
    c_install.uninstall(prefix, os.environ, destination)


def main():
    where = os.environ.get("GLTF_FROM", "")
    prefix = os.path.abspath(os.path.join(where, os.environ["GLTF_PREFIX"]))
    destination = os.environ.get("DESTDIR", "")
    if destination:
        destination = os.path.abspath(os.path.join(where, destination))
    if "uninstall" in sys.argv[1:]:
        uninstall(prefix, destination)
    else:
        install(prefix, destination)


try:
    main()
except OSError as error:
    sys.exit(f"make {' '.join(sys.argv[1:]) or 'install'}: {error.filename}: {error.strerror}")
