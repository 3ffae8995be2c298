"""What the tarball and the Debian packages have in common: the version, the time that their files
have, what is packed, and PROOF.txt."""
import datetime
import sys

import c_code
import c_install
import crates
import gate_record
import program_install

OUT = crates.TOP / "out" / "dist"
# The word that packs what the gate has not passed.
NO_GATE = "--no-gate"
# When each packed file was made: the same for all, so that the same tree gives the same bytes.
WHEN = datetime.datetime(2026, 11, 26, tzinfo=datetime.timezone.utc)
LICENSES = ("LICENSE-APACHE", "LICENSE-MIT")
PROOF = """gltf {version}, x86_64-linux

toolchain: {toolchain}
tree:      {tree}
gate:      {gate}

`toolchain` is what `rt version` prints. `tree` is the tree of the sources, as `git rev-parse
HEAD^{{tree}}` prints it. `gate` is the last line of tools/gate.py on that tree by that toolchain:
`make test` runs it, and it proves all crates and runs all tests. docs/PROVED.md of the sources says
what is proved, and docs/TRUST.md what has to be believed.
"""


class Refused(Exception):
    """Why nothing is packed."""


def version():
    return c_code.version()


def parts(prefix, environment):
    """What is installed of programs and library. Refused where it is not built of these sources."""
    for name in crates.PROGRAMS:
        if not crates.is_fresh(name):
            raise Refused(f"{name} is not built of these sources: make prove proves and builds it")
    if not c_install.is_built():
        raise Refused("the library for C is not built of these sources: make c proves and builds "
                      "it")
    yield from program_install.parts(prefix, environment)
    yield from c_install.parts(prefix, environment)


def proof(words):
    """PROOF.txt. Refused where the gate has not passed on this tree, unless the words say that this
    is no matter; then PROOF.txt says so."""
    try:
        tree, sources = gate_record.trees()
    except gate_record.Unknown as why:
        raise Refused(f"the tree of the sources has no name: {why}") from why
    last = gate_record.result(sources)
    if NO_GATE not in words and not gate_record.has_passed(last):
        raise Refused(
            f"the gate has not passed on this tree ({last or 'it was not run'}): make test runs "
            f"it. WORDS={NO_GATE} packs nevertheless, and PROOF.txt says so")
    return PROOF.format(version=version(), tree=tree, gate=last or "was not run on this tree",
                        toolchain=gate_record.toolchain() or "there is no rt").encode()


def run(pack, name):
    """Packs, prints what was written, and gives the exit status. The words are a folder, by default
    out/dist, and NO_GATE."""
    words = [word for word in sys.argv[1:] if word != NO_GATE]
    if len(words) > 1 or any(word.startswith("-") for word in words):
        print(sys.modules["__main__"].__doc__)
        return 2
    folder = crates.pathlib.Path(words[0]) if words else OUT
    try:
        for file in pack(folder, sys.argv[1:]):
            print(file)
    except Refused as why:
        print(f"make {name}: {why}", file=sys.stderr)
        return 1
    return 0
