#!/usr/bin/env python3
"""Runs libFuzzer over the whole header of the library for C: `make fuzz [SECONDS=60]`.

It needs Debian's `clang` and `libclang-rt-14-dev`, and the library that `make c` builds. The target
(`fuzz/target.c`) opens the bytes, makes every call, gives waiting buffers their bytes and closes
the file, under address and undefined-behaviour sanitizers, with blocks that end where a page begins
that nobody may touch (`fuzz/rooms.h`); the mutations keep the form of a text and of a container
whole (`fuzz/mutator.c`). What is found is kept in `out/fuzz/`; move it to `fuzz/regressions/`,
whose files the gate opens.

    fuzz.py [SECONDS]       fuzzes on all processors, or with JOBS processes, and prints the closing
                            lines of each; with LONGEST, inputs of at most so many bytes
    fuzz.py SECONDS --keep  the same, and adds the closing lines to fuzz/runs.txt
    fuzz.py --regressions   opens the files of fuzz/regressions alone
    fuzz.py --planted       plants two faults, and fails where a minute does not find each

The last line is `N executions, nothing found`, or what was found."""
import datetime
import hashlib
import os
import pathlib
import re
import shutil
import subprocess
import sys
import tempfile
import time

sys.dont_write_bytecode = True

import crates

TOP = crates.TOP
FUZZ, OUT = TOP / "fuzz", TOP / "out" / "fuzz"
LIBRARY = TOP / "out" / "c" / "libgltf.a"
SANITIZERS = "address,undefined"
# An input is longer than no seed by much; a process has so many MB, and an input so many seconds.
LONGEST, MEMORY, TIME = int(os.environ.get("LONGEST", 65_536)), 2_048, 10
JOBS = int(os.environ.get("JOBS", os.cpu_count() or 1))
# The sanitizers keep no trace of where each block was taken, which would take most of the time.
OPTIONS = {**os.environ, "ASAN_OPTIONS": "malloc_context_size=0:quarantine_size_mb=16"}
RUNS = FUZZ / "runs.txt"


def keywords():
    """The words of the format: the names of members and the strings that the tables of records
    have, and those of containers."""
    words = {"glTF", "JSON", "BIN\\x00", "data:", ";base64,", "data:application/octet-stream"}
    for file in (TOP / "crates").glob("gltf_json*/src/**/*.rt"):
        words |= set(re.findall(r'"([A-Za-z][A-Za-z0-9_ ]*)"', file.read_text("utf-8")))
    for file in (TOP / "crates").glob("gltf_json*/specs/**/*.antt"):
        words |= set(re.findall(r'codes "([A-Za-z][A-Za-z0-9_]*)"', file.read_text("utf-8")))
    return sorted(words)


def seeds(folder):
    """The examples, the documents of the tests, and the texts of the cases, a file each."""
    files = [*(TOP / "examples").rglob("*.gl*"), *(TOP / "c" / "tests").glob("*.gltf")]
    for number, file in enumerate(files):
        (folder / f"file{number}").write_bytes(file.read_bytes())
    number = 0
    for file in sorted((TOP / "crates").glob("*/data/*.txt")):
        for line in file.read_text("utf-8", "replace").splitlines():
            at = line.find('{"')
            if at >= 0 and '"asset"' in line and len(line) < LONGEST:
                (folder / f"case{number}").write_text(line[at:], "utf-8")
                number += 1


def build(program, *more, target=None):
    words = ["clang", "-std=c11", "-g", "-O2", f"-fsanitize=fuzzer,{SANITIZERS}",
             "-fno-sanitize-recover=undefined", "-I", TOP / "c", target or FUZZ / "target.c",
             FUZZ / "mutator.c", *more, LIBRARY, "-o", program]
    subprocess.run([os.fspath(word) for word in words], check=True)


def has_sanitizers():
    """Whether a fuzzer can be built here."""
    if not shutil.which("clang"):
        return False
    with tempfile.TemporaryDirectory() as room:
        empty = pathlib.Path(room) / "empty.c"
        empty.write_text("int LLVMFuzzerTestOneInput(const unsigned char *b, unsigned long n)\n"
                         "{ return b == 0 && n != 0; }\n")
        words = ["clang", f"-fsanitize=fuzzer,{SANITIZERS}", empty, "-o", empty.with_suffix("")]
        return subprocess.run(words, capture_output=True).returncode == 0


def limits():
    return [f"-max_len={LONGEST}", f"-rss_limit_mb={MEMORY}", f"-timeout={TIME}"]


def executions(text):
    """How many inputs a run tried: what its last line of that kind says."""
    found = re.findall(r"stat::number_of_executed_units:\s*(\d+)", text) or re.findall(
        r"^#(\d+)", text, re.MULTILINE)
    return int(found[-1]) if found else 0


def seed_of(job):
    """A number that no other process of this day has."""
    return int(time.time()) % 86_400 * 16 + job + 1


def run(program, corpus, seconds, jobs, found=OUT):
    """How many inputs the processes tried, what they found, and the closing lines of each."""
    OUT.mkdir(parents=True, exist_ok=True)
    dictionary = OUT / "gltf.dict"
    dictionary.write_text("".join(f'"{word}"\n' for word in keywords()))
    processes = []
    for job in range(jobs):
        log = open(OUT / f"run{job}.log", "w", encoding="utf-8", errors="replace")
        words = [program, corpus, f"-max_total_time={seconds}", f"-dict={dictionary}",
                 f"-artifact_prefix={found}/", "-print_final_stats=1", f"-seed={seed_of(job)}",
                 *limits()]
        processes.append((job, log, subprocess.Popen(
            [os.fspath(word) for word in words], stdout=log, stderr=log, env=OPTIONS)))
    total, failed, closing = 0, [], []
    for job, log, process in processes:
        status = process.wait()
        log.close()
        text = pathlib.Path(log.name).read_text("utf-8", "replace")
        total += executions(text)
        closing.append(f"{executions(text)} executions, inputs of at most {LONGEST} bytes, status "
                       f"{status}: {closing_lines(text)}")
        print(f"process {job}: {closing[-1]}", flush=True)
        if status != 0:
            failed.append(text[-4000:])
    return total, failed, closing


def closing_lines(text):
    """The last line that libFuzzer prints of what it did, and its figures."""
    lines = [line for line in text.splitlines() if line.startswith(("stat::", "Done", "#"))]
    return "; ".join(" ".join(line.split()) for line in lines[-7:])


def keep(closing):
    """Adds the closing lines of processes to the file that has those of all runs."""
    library = hashlib.sha256(LIBRARY.read_bytes()).hexdigest()[:16]
    with open(RUNS, "a", encoding="utf-8") as runs:
        for line in closing:
            runs.write(f"{datetime.date.today()} library {library}: {line}\n")


def fuzz(seconds, is_kept):
    OUT.mkdir(parents=True, exist_ok=True)
    program, corpus = OUT / "target", OUT / "corpus"
    corpus.mkdir(exist_ok=True)
    seeds(corpus)
    build(program)
    total, failed, closing = run(program, corpus, seconds, JOBS)
    for text in failed:
        print(text)
    if is_kept:
        keep(closing)
    print(f"{total} executions, {'nothing' if not failed else f'{len(failed)} faults'} found")
    return 1 if failed else 0


def regressions():
    """Each kept file, once."""
    files = sorted(file for file in (FUZZ / "regressions").glob("*") if file.suffix != ".md")
    OUT.mkdir(parents=True, exist_ok=True)
    if not has_sanitizers():
        print("fuzz: not tried: clang with its runtime is not there (Debian: libclang-rt-14-dev)")
        print("0 passed, 0 failed")
        return 0
    build(OUT / "target")
    words = [OUT / "target", *limits(), *files]
    words = [os.fspath(word) for word in words]
    good = not files or subprocess.run(words, capture_output=True).returncode == 0
    print(f"{len(files) if good else 0} passed, {0 if good else 1} failed")
    return 0 if good else 1


# Faults in front of the library: a call that the target makes in the place of the library's own,
# without the sanitizers, as the library is.
PLANTED = {
    "gltf_node_info": """
static gltf_status planted(const gltf_file *file, size_t index, gltf_node *out)
{
    /* The index at the length is taken for one below it. */
    gltf_node last;
    if (index > 0 && index == gltf_count(file, GLTF_NODES)
        && gltf_node_info(file, index - 1, &last) == GLTF_SUCCESS && last.children > 1) {
        *out = last;
        return GLTF_SUCCESS;
    }
    return gltf_node_info(file, index, out);
}
""",
    "gltf_name": """
__attribute__((no_sanitize("address", "undefined")))
static gltf_status planted(const gltf_file *file, unsigned int kind, size_t index, char *text,
                           size_t room, size_t *length)
{
    /* A text that is cut is ended a byte past its room. */
    gltf_status status = gltf_name(file, kind, index, text, room, length);
    if (status == GLTF_SUCCESS && room > 0 && *length >= room)
        text[room] = 0;
    return status;
}
""",
}


def finds(call, text):
    """Whether the harness finds a fault of a call within a minute."""
    with tempfile.TemporaryDirectory() as folder:
        room = pathlib.Path(folder)
        target, corpus = room / "target.c", room / "corpus"
        target.write_text(f'#define _DEFAULT_SOURCE\n#include "gltf.h"\n{text}\n'
                          f'#define {call} planted\n#include "{FUZZ}/target.c"\n')
        corpus.mkdir()
        seeds(corpus)
        build(room / "target", target=target)
        began = time.time()
        failed = run(room / "target", corpus, 60, JOBS, found=room)[1]
    said = f"found in {time.time() - began:.0f} seconds" if failed else "not found"
    print(f"the fault planted in {call}: {said}")
    return bool(failed)


def planted():
    """Whether the harness finds the faults that are planted."""
    return 0 if all([finds(call, text) for call, text in PLANTED.items()]) else 1


def main():
    words = sys.argv[1:]
    if not LIBRARY.exists():
        sys.exit("fuzz: build the library first: make c")
    if words == ["--regressions"]:
        return regressions()
    if words == ["--planted"]:
        return planted()
    is_kept = "--keep" in words
    return fuzz(int(words[0]) if words else 60, is_kept)


if __name__ == "__main__":
    sys.exit(main())
