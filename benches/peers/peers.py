#!/usr/bin/env python3
"""Measures loaders of glTF side by side on the same files, and prints a table in Markdown.

  gltf.h    out/c/libgltf.a, the proved loader, which `make c` builds
  cgltf     from CGLTF=FOLDER, the folder of cgltf.h, or as installed
  tinygltf  from TINYGLTF=FOLDER, the folder of tiny_gltf.h, or as installed
  rust      the Rust crate gltf, built by cargo

Each run is a process that reads the file's bytes, and then opens and frees the file: it parses,
loads the buffers and validates. Loaders take turns. A loader that is not there is reported as not
measured, with the command that gets it. With --open the files are of the kinds that the workload
`open` of bench/workloads.txt opens, and the tables have the medians of the turns.

Exit status: 0; 1 where the proved loader refuses a file, two loaders disagree about what a file
holds, or a program does not compile; 2 where the words are wrong or a tool is missing."""
import argparse
import datetime
import enum
import os
import pathlib
import platform
import re
import resource
import shutil
import statistics
import subprocess
import sys
import tempfile

sys.dont_write_bytecode = True

HERE = pathlib.Path(__file__).resolve().parent
TOP = HERE.parent.parent
sys.path.insert(0, os.fspath(TOP / "tools"))

import crates

LIBRARY = TOP / "out" / "c" / "libgltf.a"
PAGE = TOP / "docs" / "BENCHMARKS.md"
BEGIN, END = "<!-- peers: begin -->\n", "<!-- peers: end -->\n"
# The same target and the same optimization for all that is compiled here.
FLAGS = ["-O2", "-DNDEBUG", "-march=x86-64-v2", "-w", f"-I{HERE}", f"-I{TOP / 'c'}"]


class Items(enum.Enum):
    """What is done with the items of a file: SUMMED are those whose sums alone are compared."""

    TIMED, SUMMED, LEFT = range(3)


# The files of a table: of each its name, what it is, and what is done with its items.
TIMED = {
    "records.gltf": ("JSON of 21 MB, compact", Items.SUMMED),
    "records_pretty.gltf": ("the same, indented: 45 MB", Items.SUMMED),
    "accessors.glb": ("50,000 accessors", Items.TIMED),
    "character.glb": ("character, 60 animations", Items.TIMED),
    "large.glb": ("container of 100 MB", Items.TIMED),
    "payload.gltf": ("data URI of 30 MB", Items.TIMED),
    "sparse.glb": ("sparse, a million vectors", Items.TIMED),
    "box.glb": ("small, 2 kB", Items.TIMED),
}
KINDS = ("materials", "nodes", "accessors", "meshes", "animations", "textures")
MILLIONS = {f"million_{kind}.gltf": (f"a million {kind}", Items.SUMMED) for kind in KINDS}
FILES = {**TIMED, **MILLIONS}
# Those of the workload `open`. The accessors of short elements state thirty billion items.
OPENED = {
    "open_scene.glb": ("a scene as a container", Items.SUMMED),
    "open_scene_pretty.gltf": ("a scene as pretty text", Items.SUMMED),
    "open_character.glb": ("a character with animations", Items.SUMMED),
    "open_payload.gltf": ("a payload", Items.SUMMED),
    "open_short_elements.gltf": ("short elements", Items.LEFT),
    "open_deep_extras.gltf": ("extras nested a hundred deep", Items.SUMMED),
}
BOX = TOP / "examples" / "box.glb"
# A file below this many bytes is opened many times in each run.
SMALL, TIMES = 100_000, 500
GET_CGLTF = (
    "apt-get source meshoptimizer && export CGLTF=$PWD/meshoptimizer-0.18+dfsg/extern")
GET_TINYGLTF = "apt-get install libtinygltf-dev nlohmann-json3-dev"
GET_CRATE = "cargo fetch --manifest-path benches/peers/rust/Cargo.toml"


class Wrong(Exception):
    """What ends the run, and its exit status."""

    def __init__(self, text, status=1):
        super().__init__(text)
        self.status = status


class NotThere(Exception):
    """What a loader lacks, and the command that gets it."""


def say(text):
    print(text, file=sys.stderr, flush=True)


def compiled(work, name, compiler, source, more=()):
    """The program that measures a loader."""
    program = work / name
    words = [compiler, *FLAGS, source, *more, work / "main.o", "-lm", "-o", program]
    ran = subprocess.run(words, stderr=subprocess.PIPE, text=True)
    if ran.returncode:
        raise Wrong(f"{name} does not compile:\n{ran.stderr.rstrip()}")
    return program


def folder_of(header, variable, get):
    """The flag for the folder of a header, and the header."""
    named = os.environ.get(variable)
    folders = [named] if named else ["/usr/include", "/usr/local/include", "/usr/include/cgltf"]
    for folder in map(pathlib.Path, folders):
        if (folder / header).is_file():
            return [f"-I{folder}"], folder / header
    if named:
        raise Wrong(f"{variable}={named}: there is no {header} in this folder", 2)
    raise NotThere(get)


def by_gltf(work):
    if not crates.is_built_of(LIBRARY, "gltf_c"):
        raise NotThere("make c")
    version = first_line("rt", "version") or "built by an unknown toolchain: rt is not on the path"
    return compiled(work, "by_gltf", "cc", HERE / "by_gltf.c", [LIBRARY]), version


def by_cgltf(work):
    flags, header = folder_of("cgltf.h", "CGLTF", GET_CGLTF)
    version = re.search(r"Version: (\S+)", header.read_text("utf-8", "replace"))
    program = compiled(work, "by_cgltf", "cc", HERE / "by_cgltf.c", flags)
    return program, version[1] if version else "of an unknown version"


def by_tinygltf(work):
    flags, header = folder_of("tiny_gltf.h", "TINYGLTF", GET_TINYGLTF)
    if not shutil.which("c++"):
        raise NotThere("apt-get install g++")
    folders = (header.parent, "/usr/include", "/usr/local/include")
    if not any(pathlib.Path(folder, "nlohmann", "json.hpp").is_file() for folder in folders):
        raise NotThere(GET_TINYGLTF)
    # The header names its versions from the first to its own.
    text = header.read_text("utf-8", "replace")
    versions = re.findall(r"^// +- v(\d+)\.(\d+)\.(\d+)", text, re.MULTILINE)
    newest = max((tuple(map(int, version)) for version in versions), default=())
    program = compiled(work, "by_tinygltf", "c++", HERE / "by_tinygltf.cc", ["-std=c++17", *flags])
    return program, ".".join(map(str, newest)) or "of an unknown version"


def by_crate(work):
    if not shutil.which("cargo"):
        raise NotThere("apt-get install cargo && " + GET_CRATE)
    package = work / "rust"
    shutil.copytree(HERE / "rust", package, ignore=shutil.ignore_patterns("target"))
    words = ["--offline", "--quiet", "--manifest-path", package / "Cargo.toml"]
    if subprocess.run(["cargo", "fetch", *words], stderr=subprocess.DEVNULL).returncode:
        raise NotThere(GET_CRATE)
    how = {**os.environ, "RUSTFLAGS": "-C target-cpu=x86-64-v2"}
    words += ["--release", "--target-dir", work / "target"]
    if subprocess.run(["cargo", "build", *words], env=how).returncode:
        raise Wrong("the loader of the Rust crate does not compile")
    library = work / "target" / "release" / "libby_crate.a"
    (work / "none.c").write_text("")
    more = [library, "-lpthread", "-ldl"]
    return compiled(work, "by_crate", "cc", work / "none.c", more), "the crate `gltf` 1.4.1"


LOADERS = {"gltf.h": by_gltf, "cgltf": by_cgltf, "tinygltf": by_tinygltf, "rust": by_crate}


def first_line(*words):
    """The first line that a command prints; empty where there is no such command."""
    try:
        done = subprocess.run(words, stdout=subprocess.PIPE, stderr=subprocess.DEVNULL, text=True)
    except FileNotFoundError:
        return ""
    return done.stdout.partition("\n")[0]


def programs(work, names):
    """The programs of the loaders that are there, their versions, and what the others lack."""
    if not shutil.which("cc"):
        raise Wrong("there is no cc: apt-get install gcc", 2)
    words = ["cc", *FLAGS, "-c", HERE / "main.c", "-o", work / "main.o"]
    if subprocess.run(words).returncode:
        raise Wrong("main.c does not compile")
    found, versions, lacking = {}, {}, {}
    for name in names:
        say(f"peers: building {name}")
        try:
            found[name], versions[name] = LOADERS[name](work)
        except NotThere as get:
            lacking[name] = str(get)
            say(f"peers: {name} is not measured: {get}")
    return found, versions, lacking


def measured(program, call, path, times):
    """One run: its wall time and processor time in seconds, the most memory that its process had,
    in bytes, and the rest of what it prints. Or the text of its refusal."""
    words = [program, call, path, str(times)]
    pipes = {"stdout": subprocess.PIPE, "stderr": subprocess.PIPE, "text": True}
    with subprocess.Popen(words, **pipes) as process:
        wrote, why = process.stdout.read(), process.stderr.read()
        _, status, usage = os.wait4(process.pid, 0)
        process.returncode = os.waitstatus_to_exitcode(status)
    if process.returncode == 3:
        return why.strip()
    if process.returncode:
        raise Wrong(f"{program.name} {call} {path.name} ends with {process.returncode}: {why}")
    wall, cpu, *rest = map(int, wrote.split())
    return wall / 1e9, cpu / 1e9, usage.ru_maxrss * 1024, rest


class Figures:
    """What the runs of a loader on a file took. The seconds of each are by the clock and of the
    processor."""

    def __init__(self):
        self.seconds = []
        self.memory = self.items = self.instructions = self.refused = None

    def add(self, run):
        if isinstance(run, str):
            self.refused = run
            return
        wall, cpu, memory, _ = run
        self.seconds.append((wall, cpu))
        self.memory = max(self.memory or 0, memory)

    def of_both(self, choice):
        """The least or the median of both kinds of seconds; none where the file is refused."""
        return [None, None] if self.refused else [choice(kind) for kind in zip(*self.seconds)]


def least(one, other):
    return other if one is None else min(one, other)


def instructions(program, path):
    """How many instructions opening and freeing a file takes."""
    words = ["valgrind", "--tool=callgrind", "--callgrind-out-file=/dev/null",
             "--toggle-collect=measured_open", program, "open", path, "1"]
    done = subprocess.run(words, stdout=subprocess.DEVNULL, stderr=subprocess.PIPE, text=True)
    counted = re.search(r"Collected : (\d+)", done.stderr)
    if done.returncode or not counted:
        raise Wrong(f"callgrind ends with {done.returncode}:\n{done.stderr.rstrip()}")
    return int(counted[1])


def agree(path, holds):
    """Stops where two loaders disagree about what a file holds, or about the sum of its items. A
    sum of -1 is of a loader that reads none."""
    counts = {tuple(rest[1:]) for rest in holds.values()}
    sums = {rest[0] for rest in holds.values()} - {-1}
    if len(counts) > 1 or len(sums) > 1:
        raise Wrong(f"{path.name}: loaders disagree: {holds}")


def figures_of(path, found, rounds, items, callgrind=False):
    """What is measured of each loader on a file: they take turns."""
    times = TIMES if path.stat().st_size < SMALL else 1
    figures, holds = {name: Figures() for name in found}, {}
    for turn in range(rounds):
        # The one that goes first in a turn goes last in the next one.
        for name in found if turn % 2 == 0 else reversed(found):
            if not figures[name].refused:
                figures[name].add(measured(found[name], "open", path, times))
    if "gltf.h" in figures and figures["gltf.h"].refused:
        raise Wrong(f"{path.name}: the proved loader: {figures['gltf.h'].refused}")
    accepting = {name: it for name, it in figures.items() if not it.refused}
    for _ in range(rounds if items is Items.TIMED else 1):
        for name, it in accepting.items():
            reads = 0 if items is Items.LEFT else times
            wall, _, _, holds[name] = measured(found[name], "items", path, reads)
            if items is Items.TIMED and holds[name][0] != -1:
                it.items = least(it.items, wall)
    agree(path, holds)
    for name, it in accepting.items() if callgrind else ():
        it.instructions = instructions(found[name], path)
    return figures


def time_text(seconds):
    if seconds is None:
        return ""
    return f"{seconds * 1e6:.1f} µs" if seconds < 0.001 else f"{seconds * 1e3:,.1f} ms"


def seconds_text(seconds):
    return "" if seconds is None else f"{seconds:.4f}"


def millions(count):
    return "" if count is None else f"{count / 1e6:,.1f}"


def memory_text(memory):
    """A process counts the most memory of the one that began it, which is this one, as its own."""
    if memory is None:
        return ""
    own = resource.getrusage(resource.RUSAGE_SELF).ru_maxrss * 1024
    return f"{memory / 1e6:,.0f}" if memory > own else f"below {own / 1e6:.0f}"


def rows(what, figures):
    for name, it in figures.items():
        cells = [*map(time_text, it.of_both(min)), time_text(it.items),
                 millions(it.instructions), memory_text(it.memory)]
        if it.refused:
            cells = [it.refused, "", "", "", ""]
        yield f"| {what} | {name} | {' | '.join(cells)} |"
        what = ""


def machine():
    try:
        name = re.search(r"model name\s*: (.*)", pathlib.Path("/proc/cpuinfo").read_text())[1]
    except (OSError, TypeError):
        name = platform.machine()
    return f"{name}, {os.cpu_count()} processors, {platform.system()} {platform.release()}"


def head(versions, lacking, words, load):
    """What was measured, where and by what, as a list."""
    date = datetime.datetime.now(datetime.timezone.utc).strftime("%Y-%m-%d")
    yield f"- {date}, {machine()}; other work on the machine: a load of {load:.1f} at the start"
    yield f"- built by {first_line('cc', '--version')}, `-O2 -DNDEBUG -march=x86-64-v2`"
    yield from (f"- {name}: {version}" for name, version in versions.items())
    yield from (f"- {name}: not measured; `{get}` gets it" for name, get in lacking.items())
    if not words.no_instructions and not shutil.which("valgrind"):
        yield "- instructions: not measured; `apt-get install valgrind` gets what counts them"
    elif not words.no_instructions:
        yield f"- instructions: counted by {first_line('valgrind', '--version')}"
    which = "medians" if words.open else "best"
    best = "one run" if words.rounds == 1 else f"the {which} of {words.rounds} runs"
    yield f"- {best} of each" + (", on files of a thousandth" if words.quick else "")


TABLE = """
| file | loader | wall | processor | items | instructions, millions | memory, MB |
|---|---|---|---|---|---|---|"""


def table(words, work):
    """The lines of the page."""
    load = os.getloadavg()[0]
    found, versions, lacking = programs(work, words.loader or LOADERS)
    if not found:
        raise Wrong("no loader is there")
    folder = (words.files or work) / ("quick" if words.quick else "files")
    make(folder, words)
    lines = open_lines if words.open else file_lines
    return [*head(versions, lacking, words, load), *lines(words, folder, found)]


def file_lines(words, folder, found):
    """A table with a row for each file and loader."""
    yield TABLE
    callgrind = shutil.which("valgrind") and not words.no_instructions
    for name in words.only:
        what, items = FILES[name]
        path = BOX if name == BOX.name else folder / name
        say(f"peers: {name}")
        counts = callgrind and name in ([BOX.name] if words.quick else TIMED)
        yield from rows(what, figures_of(path, found, words.rounds, items, counts))


def open_lines(words, folder, found):
    """A table of the seconds by the clock and one of those of the processor; and before them which
    loader refuses a file, and why."""
    medians = {}
    for name in words.only:
        what, items = OPENED[name]
        say(f"peers: {name}")
        figures = figures_of(folder / name, found, words.rounds, items)
        for loader, it in figures.items():
            if it.refused:
                yield f"- {loader}: {what}: {it.refused}"
        head = f"{what} | {(folder / name).stat().st_size / 1e6:.1f}"
        medians[head] = [it.of_both(statistics.median) for it in figures.values()]
    for which, kind in enumerate(("by the clock", "of the processor")):
        yield from median_lines(f"seconds {kind} | MB", found, {
            head: [both[which] for both in of_loaders] for head, of_loaders in medians.items()})


def median_lines(title, found, medians):
    """A table with a row for each file and one for all of them, and a column for each loader."""
    yield f"\n| {title} | {' | '.join(found)} |\n|---|---{'|---' * len(found)}|"
    sums = [None if None in column else sum(column) for column in zip(*medians.values())]
    for head, seconds in {**medians, "all | ": sums}.items():
        yield f"| {head} | {' | '.join(map(seconds_text, seconds))} |"


def make(folder, words):
    """Makes the files in a process of its own: a child counts the most memory of its parent as its
    own."""
    say("peers: making the files")
    script = "open_files.py" if words.open else "make_files.py"
    names = [name for name in words.only if name != BOX.name]
    names = [name for name in names if not (folder / name).is_file()] if words.files else names
    divisor = ["--divisor", "1000" if words.quick else "1"]
    if names and subprocess.run(
            [sys.executable, HERE.parent / script, folder, *names, *divisor]).returncode:
        raise Wrong("the files cannot be made")


def write(lines):
    """Puts the table into the page of benchmarks."""
    text = PAGE.read_text("utf-8")
    before, begin, rest = text.partition(BEGIN)
    _, end, after = rest.partition(END)
    if not begin or not end:
        raise Wrong(f"{PAGE} has no lines {BEGIN.strip()} and {END.strip()}", 2)
    PAGE.write_text(before + BEGIN + "\n".join(lines) + "\n" + END + after, "utf-8")


def parsed():
    form = argparse.RawDescriptionHelpFormatter
    parser = argparse.ArgumentParser(prog="run.sh", description=__doc__, formatter_class=form)
    parser.add_argument("--quick", action="store_true",
                        help="tries it in seconds: one run, on files of a thousandth")
    parser.add_argument("--write", action="store_true",
                        help="also puts the table into docs/BENCHMARKS.md")
    parser.add_argument("--open", action="store_true",
                        help="the medians on files of the kinds of the workload `open`")
    parser.add_argument("--rounds", type=int,
                        help="how many runs there are of each (5, with --open 7)")
    parser.add_argument("--only", nargs="+", choices=[*FILES, *OPENED], metavar="FILE",
                        help=f"only these files: {', '.join(FILES)}; "
                             f"with --open {', '.join(OPENED)}")
    parser.add_argument("--loader", nargs="+", choices=LOADERS, metavar="LOADER",
                        help="only these loaders: " + ", ".join(LOADERS))
    parser.add_argument("--no-instructions", action="store_true",
                        help="counts no instructions, which takes most of the time")
    parser.add_argument("--files", type=pathlib.Path, metavar="FOLDER",
                        help="keeps the files there, 450 MB, and takes those that are there")
    words = parser.parse_args()
    if words.write and (words.quick or words.open):
        parser.error("--write takes no --quick, which measures nothing, and no --open")
    files = OPENED if words.open else FILES
    words.only = words.only or list(files)
    if not files.keys() >= set(words.only):
        parser.error(f"--only: these files are {', '.join(files)}")
    words.no_instructions |= words.open
    if words.rounds is None:
        words.rounds = 1 if words.quick else 7 if words.open else 5
    if words.rounds < 1:
        parser.error("--rounds is at least 1")
    return words


def main():
    words = parsed()
    try:
        with tempfile.TemporaryDirectory() as name:
            lines = table(words, pathlib.Path(name))
        print("\n".join(lines))
        if words.write:
            write(lines)
    except Wrong as why:
        say(f"peers: {why}")
        return why.status
    except OSError as why:
        say(f"peers: {why}")
        return 2
    except KeyboardInterrupt:
        say("peers: interrupted")
        return 130
    return 0


if __name__ == "__main__":
    sys.exit(main())
