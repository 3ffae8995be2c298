"""Which files other loaders of Debian accept and ours refuses, and the other way, by reason: for
`soak.py --peers`.

    assimp     the program `assimp info` of Debian's package assimp-utils
    tinygltf   a program over libtinygltf-dev with nlohmann-json3-dev, of benches/peers

Ours is `gltf_show check`; its reason is the first code of `gltf_show inspect --json`."""
import collections
import concurrent.futures
import json
import os
import pathlib
import re
import shutil
import subprocess
import tempfile

import crates

SOURCES = crates.TOP / "benches" / "peers"
SECONDS = 20


def tinygltf(room):
    """The program over tinygltf: `PROGRAM open FILE 1`; None where it cannot be built."""
    if not pathlib.Path("/usr/include/tiny_gltf.h").is_file() or not shutil.which("c++"):
        return None
    words = ["-O1", "-w", f"-I{SOURCES}", f"-I{crates.TOP / 'c'}"]
    program, part = room / "by_tinygltf", room / "main.o"
    built = subprocess.run(["cc", *words, "-c", SOURCES / "main.c", "-o", part]).returncode == 0
    built = built and subprocess.run(["c++", "-std=c++17", *words, SOURCES / "by_tinygltf.cc", part,
                                      "-o", program]).returncode == 0
    return program if built else None


def loaders(room):
    """The loaders that are there: of each how it is called on a file, and why others are not."""
    found = {}
    if shutil.which("assimp"):
        found["assimp"] = lambda file: ["assimp", "info", file]
    else:
        print("assimp: not tried: Debian's package assimp-utils is not there")
    program = tinygltf(room)
    if program:
        found["tinygltf"] = lambda file: [program, "open", file, "1"]
    else:
        print("tinygltf: not tried: Debian's packages libtinygltf-dev and nlohmann-json3-dev")
    return found


def ran(words, room):
    """The status of a call, and what it prints; "no end" where it has none."""
    how = {"cwd": room, "stdin": subprocess.DEVNULL, "capture_output": True, "timeout": SECONDS,
           "errors": "replace"}
    try:
        done = subprocess.run([os.fspath(word) for word in words], **how)
    except subprocess.TimeoutExpired:
        return "no end", "", ""
    return done.returncode, done.stdout, done.stderr


def plain(text):
    """A reason without numbers and names of files, so that those of one kind are the same."""
    text = re.sub(r'"[^"]{12,}"|/tmp/\S+', "..", text.strip())
    text = re.sub(r"[0-9]+(\.[0-9]+)?(e[+-]?[0-9]+)?", "N", text)
    text = re.sub(r"[^ -~]", "?", text).replace("|", "/")
    return text[:90].strip() or "no reason given"


def of_ours(file, room):
    """Why ours refuses a file; None where it is accepted."""
    show = crates.program("gltf_show")
    status, _, error = ran([show, "check", file], room)
    if status == 0:
        return None
    _, report, _ = ran([show, "inspect", "--json", file], room)
    try:
        messages = json.loads(report)["issues"]["messages"]
        code = next(it["code"] for it in messages if it["severity"] == 0)
    except (ValueError, KeyError, StopIteration):
        code = plain(error.splitlines()[0] if error else "")
    return code


def of_theirs(words, room):
    """Why another loader refuses a file; None where it accepts it."""
    status, out, error = ran(words, room)
    if status == 0:
        return None
    if status == "no end":
        return f"no end in {SECONDS} seconds"
    if status < 0:
        return f"ended by signal {-status}"
    told = re.search(r"ERROR: Failed to load file: (.*)|refused: (.*)", out + error)
    return plain(next(filter(None, told.groups()), "") if told else error)


def compared(file, room, found):
    return of_ours(file, room), {name: of_theirs(words(file), room)
                                 for name, words in found.items()}


def tables(results):
    """The tables of each loader: how many files both accept or refuse, and the two differences."""
    for name in sorted({name for _, theirs in results for name in theirs}):
        pairs = [(ours, theirs[name]) for ours, theirs in results]
        both = collections.Counter((ours is None, theirs is None) for ours, theirs in pairs)
        print(f"\n{name}: {len(pairs)} files; both accept {both[True, True]}, both refuse "
              f"{both[False, False]}, we alone accept {both[True, False]}, they alone "
              f"{both[False, True]}\n")
        we = collections.Counter(theirs for ours, theirs in pairs if ours is None and theirs)
        they = collections.Counter(ours for ours, theirs in pairs if ours and theirs is None)
        for title, counts in (("we accept, they refuse: why they do", we),
                              ("we refuse, they accept: why we do", they)):
            print(f"| {name}: {title} | files |\n|---|---|")
            for reason, count in sorted(counts.items(), key=lambda it: (-it[1], it[0])):
                print(f"| {reason} | {count} |")
            print()


def by_peers(files, jobs):
    """Compares the loaders on files, each an ending and its bytes."""
    with tempfile.TemporaryDirectory() as folder:
        room = pathlib.Path(folder)
        found = loaders(room)
        if not found:
            return
        names = []
        for number, (ending, data) in enumerate(files):
            names.append(f"file{number}{ending}")
            (room / names[-1]).write_bytes(data)
        with concurrent.futures.ThreadPoolExecutor(jobs) as pool:
            tables(list(pool.map(lambda file: compared(file, room, found), names)))
