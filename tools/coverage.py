#!/usr/bin/env python3
"""Says which code of the library for C the fuzzer's inputs reach: `make coverage`, after `make c`.

The build carries no instrumentation, so that the machine's own instructions are counted: the target
of the fuzzer is run under Callgrind, which lists each instruction that was executed, and objdump
lists those that the library has. A function is reached where one of its instructions is. The
program that refuses each growth of memory (`c/tests/failing.c`) is run too: what is done then is
reached by no file.

    coverage.py [FILES=400]    over the seeds of `make fuzz` and so many files of its corpus

It prints how many functions and instructions were reached, by crate, and those functions that were
not. The last line is `N of M functions, N of M instructions`."""
import collections
import concurrent.futures
import os
import pathlib
import re
import subprocess
import sys
import tempfile

sys.dont_write_bytecode = True

import c
import crates
import fuzz

MAIN = """
#include "contents.h"
int LLVMFuzzerTestOneInput(const unsigned char *bytes, size_t size);
int main(int words, char **word)
{
    int i;
    for (i = 1; i < words; i++) {
        size_t size;
        unsigned char *bytes = contents_of(word[i], &size);
        if (bytes != NULL)
            LLVMFuzzerTestOneInput(bytes, size);
        free(bytes);
    }
    return 0;
}
"""
INSTRUCTION = re.compile(r"^ +([0-9a-f]+):\t")
FUNCTION = re.compile(r"^([0-9a-f]+) <(.*)>:$")
# What stands between functions, and what is never executed.
PADDING = re.compile(r"\t(nop|xchg +%ax,%ax|data16|cs nop|int3|ud2)")
# The files whose growths are refused.
REFUSED = [crates.TOP / "examples" / name for name in ("box.glb", "triangle.gltf", "dangling.gltf")]


def built(room):
    """The target with a `main` that runs files, and the program that refuses growths, both at fixed
    addresses."""
    (room / "main.c").write_text(MAIN)
    wraps = ",".join(f"--wrap={name}" for name in ("malloc", "realloc", "free"))
    parts = {"target": [room / "main.c", fuzz.FUZZ / "target.c", c.LIBRARY],
             "failing": [c.C / "tests" / "failing.c", c.LIBRARY, f"-Wl,{wraps}"]}
    for name, sources in parts.items():
        words = ["cc", "-std=c11", "-O1", "-no-pie", f"-I{c.C}", *sources, "-o", room / name]
        subprocess.run(words, check=True)
    return [Program(room / name) for name in parts]


class Program:
    """A program over the library: of each address of an instruction of the library, the function
    that it is in and its place there, which is the same in each program."""

    def __init__(self, path):
        self.path, self.place_at = path, {}
        own = {line.split()[-1] for line in c.ran("nm", c.OUT / "gltf.o").splitlines()
               if line.split()[-2] in "tTwW"}
        name, first = None, 0
        for line in c.ran("objdump", "-d", "--no-show-raw-insn", path).splitlines():
            begins = FUNCTION.match(line)
            if begins:
                name, first = begins[2] if begins[2] in own else None, int(begins[1], 16)
            elif name and (found := INSTRUCTION.match(line)) and not PADDING.search(line):
                at = int(found[1], 16)
                self.place_at[at] = name, at - first

    def reached(self, words, out):
        """The places of the instructions that a run executes."""
        how = ["valgrind", "-q", "--tool=callgrind", "--dump-instr=yes", "--dump-line=no",
               "--compress-pos=no", f"--callgrind-out-file={out}", self.path, *words]
        subprocess.run(how, check=True, stdout=subprocess.DEVNULL)
        found = set()
        with open(out, encoding="utf-8", errors="replace") as lines:
            for line in lines:
                if line.startswith("0x"):
                    place = self.place_at.get(int(line.split(maxsplit=1)[0], 16))
                    if place:
                        found.add(place)
        out.unlink()
        return found


def crate_of(name):
    """The crate that a symbol is of: the first known name in it."""
    known = re.findall(r"gltf(?:_[a-z]+)*|serde_json|std_[a-z]+|fast_float|json|base64|byteorder|"
                       r"percent_encoding|simdutf8|itoa|ryu|core|std", name)
    return known[0] if known else "other"


def table(places, found):
    """The counts of each crate, a line each; their sums, and the functions not reached."""
    own, reached = (collections.Counter(name for name, _ in some) for some in (places, found))
    counts = collections.defaultdict(lambda: [0, 0, 0, 0])
    for name, size in own.items():
        of_crate = counts[crate_of(name)]
        for at, more in enumerate((reached[name] > 0, 1, reached[name], size)):
            of_crate[at] += more
    print("| crate | functions | of | instructions | of |\n|---|---|---|---|---|")
    for crate, count in sorted(counts.items(), key=lambda it: -it[1][3]):
        print(f"| `{crate}` | " + " | ".join(f"{it:,}" for it in count) + " |")
    sums = [sum(count[at] for count in counts.values()) for at in range(4)]
    return sums, sorted(name for name in own if not reached[name])


def inputs(room, most):
    """The seeds, and so many files of the corpus of the last runs of the fuzzer."""
    fuzz.seeds(room)
    corpus = sorted((fuzz.OUT / "corpus").glob("*")) if (fuzz.OUT / "corpus").is_dir() else []
    corpus = [file for file in corpus if file.stat().st_size < 20_000]
    return sorted(room.iterdir()), corpus[:: max(1, len(corpus) // max(most, 1))][:most]


def main():
    most = int(sys.argv[1]) if sys.argv[1:] else 400
    jobs = int(os.environ.get("JOBS", os.cpu_count() or 1))
    with tempfile.TemporaryDirectory() as folder:
        room = pathlib.Path(folder)
        target, failing = built(room)
        (room / "seeds").mkdir()
        seeds, corpus = inputs(room / "seeds", most)
        files = [*seeds, *corpus]
        rows = [(failing, [file]) for file in REFUSED]
        rows += [(target, files[part::8 * jobs]) for part in range(8 * jobs)]
        with concurrent.futures.ThreadPoolExecutor(jobs) as pool:
            runs = [pool.submit(program.reached, words, room / f"callgrind{number}")
                    for number, (program, words) in enumerate(rows) if words]
            of_refused = set().union(*(run.result() for run in runs[:len(REFUSED)]))
            of_files = set().union(*(run.result() for run in runs[len(REFUSED):]))
        places = set(target.place_at.values())
        print("files alone:")
        table(places, of_files)
        print("with each growth refused:")
        sums, missed = table(places, of_files | of_refused)
    (crates.TOP / "out" / "missed.txt").write_text("\n".join(missed) + "\n", "utf-8")
    print(f"{len(seeds)} seeds and {len(corpus)} files of the corpus; "
          f"out/missed.txt names the functions that were not reached")
    print(f"{sums[0]} of {sums[1]} functions, {sums[2]} of {sums[3]} instructions")
    return 0


if __name__ == "__main__":
    sys.exit(main())
