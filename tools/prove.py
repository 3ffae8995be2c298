#!/usr/bin/env python3
"""Proves and builds the programs for users and each crate that they use, several at once, each
after those that it uses: `make prove`. With GLTF_NAME, which names a crate, it proves that one and
those that it uses, and runs its tests: `make check NAME=CRATE`.

It prints a line for each crate on standard error. What the prover says of one goes to a log, which
is named where it fails. What a former run proved is used."""
import os
import pathlib
import signal
import sys
import time

sys.dont_write_bytecode = True

import crates
import proving
from proving import say

BOX = os.fspath(crates.TOP / "examples" / "box.glb")
# What each program is run on once.
WORDS = {
    "gltf_show": ["chunks", BOX],
    "gltf_repack": [BOX, os.fspath(crates.TOP / "out" / "box.glb")],
    "gltf_convert": [BOX, os.fspath(crates.TOP / "out" / "converted.glb")],
}


def calls(crate, asked):
    """What rt is called with in a crate: a program for users is built and run once, on a file of
    the examples, a library is built, and the crate that is asked for is checked, and its tests
    run."""
    if crate == asked:
        return [["check"], ["test"]] if crates.has_tests(crate) else [["check"]]
    return [["run", "--", *WORDS[crate]] if crate in WORDS else ["lib"]]


def main():
    asked = os.environ.get("GLTF_NAME")
    if asked and asked not in crates.listed():
        say(f"make check: there is no crate {asked}: NAME is one of {' '.join(crates.listed())}")
        return 2
    pathlib.Path(WORDS["gltf_repack"][-1]).parent.mkdir(exist_ok=True)
    order = crates.below(asked) if asked else crates.below(*crates.PROGRAMS)
    begun = time.time()
    if not proving.Proving(order, lambda crate: calls(crate, asked)).run():
        return 1
    for program in () if asked else crates.PROGRAMS:
        # It may have been built before, of the same text: rt has just found that it is of the
        # sources that were there when it began.
        os.utime(crates.program(program), (begun, begun))
        say(f"{program} is proved and built: {crates.program(program)}")
    return 0


if __name__ == "__main__":
    # `kill` ends what runs, as an interrupt does.
    signal.signal(signal.SIGTERM, signal.default_int_handler)
    try:
        sys.exit(main())
    except KeyboardInterrupt:
        say("\nmake prove: interrupted; what is proved so far is kept")
        sys.exit(130)
    except FileNotFoundError as error:
        sys.exit(
            f"\nmake prove: {error.filename} is not there: "
            "the Rattle toolchain (rt) has to be on the path"
        )
