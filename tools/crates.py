"""The crates that crates.txt lists, and whether a program is built of their present sources."""
import os
import pathlib

TOP = pathlib.Path(__file__).resolve().parent.parent

# What a crate is made of.
PARTS = ("src", "specs", "proofs")
# The programs for users.
PROGRAMS = ("gltf_show", "gltf_repack", "gltf_convert")


def listed():
    """The libraries that each crate names."""
    crates = {}
    for line in (TOP / "crates.txt").read_text(encoding="utf-8").splitlines():
        head, _, libraries = line.partition("#")[0].partition(":")
        if head.strip():
            crates[head.split()[0]] = libraries.split()
    return crates


def lines(names):
    """The lines of crates.txt for some crates, as they stand there."""
    text = (TOP / "crates.txt").read_text(encoding="utf-8")
    heads = ((line, line.partition("#")[0].partition(":")[0].split()) for line in text.splitlines())
    return "".join(f"{line}\n" for line, head in heads if head and head[0] in names)


def below(*names):
    """The crates of this repository that some crates use, and these themselves: each after those
    that it names."""
    crates, order = listed(), []

    def visit(crate):
        if crate in crates and crate not in order:
            for library in crates[crate]:
                visit(library)
            order.append(crate)

    for name in names:
        visit(name)
    return order


def has_tests(name):
    """Whether a crate has test functions."""
    sources = (TOP / "crates" / name / "src").rglob("*.rt")
    return any("#[test]" in file.read_text(encoding="utf-8") for file in sources)


def program(name, top=TOP):
    """Where the program of a crate is, once it is built, in this checkout or in another one."""
    return top / "crates" / name / "out" / name


def is_fresh(name):
    """Whether the program of a crate was built of its present sources. rt builds
    none that it has not proved."""
    return is_built_of(program(name), name)


def is_built_of(file, name):
    """Whether a file was made after the last change of what a crate is made of. A file that was
    removed has changed its folder."""
    try:
        built = os.stat(file).st_mtime_ns
    except FileNotFoundError:
        return False
    sources = [TOP / "crates.txt"]
    for crate in below(name):
        for part in PARTS:
            for folder, _, files in os.walk(TOP / "crates" / crate / part):
                sources += [folder, *(os.path.join(folder, file) for file in files)]
    return all(os.stat(source).st_mtime_ns < built for source in sources)
