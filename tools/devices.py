#!/usr/bin/env python3
"""Runs the programs where the system fails them: a folder or a device for a file or for a buffer, a
file that is cut while it is read, a pipe that ends early or that nobody reads, a closed output, a
full disk, too little memory, a name that is too long, no permission, a stop between two names. A
row is a call with its status and its error; what a program writes is whole or not there.

A row whose device cannot be had on this machine is reported as not tried, and counts neither as
passed nor as failed. The last line is `N passed, M failed`."""
import json
import os
import pathlib
import resource
import signal
import subprocess
import sys
import tempfile

sys.dont_write_bytecode = True

import crates
import preload
from programs import chunk, container, copy_of, document, started, state

LONG = "n" * 4096
# Room for a program and a small file, and not for what never ends.
SOME_MEMORY = 64 << 20
SECONDS = 20


def padded(text):
    return text + b" " * (-len(text) % 4)


LENGTH = 300_000
LARGE = document(buffers=[{"byteLength": LENGTH}])
LARGE = container(chunk(b"JSON", padded(LARGE)), chunk(b"BIN\0", bytes(LENGTH)))
# A file whose buffer is in another one.
OUTSIDE = document(buffers=[{"byteLength": LENGTH, "uri": "outside.bin"}])
SMALL = container(chunk(b"JSON", padded(document(nodes=[{"children": [1]}, {}]))))
# Files whose buffers, of four bytes each, are in a device without end, in a pipe, and in one large
# file.
FOUR = 4
ENDLESS = document(buffers=[{"byteLength": FOUR, "uri": "/dev/zero"}])
PIPED = document(buffers=2 * [{"byteLength": FOUR, "uri": "named"}])
BUFFERS = 1_000
SHARED = document(buffers=BUFFERS * [{"byteLength": FOUR, "uri": "shared.bin"}])
FILES = {"in.glb": SMALL, "endless.gltf": ENDLESS, "piped.gltf": PIPED, "shared.gltf": SHARED,
         "shared.bin": bytes(1 << 20), "large.glb": LARGE, "cut.glb": LARGE, "locked": SMALL,
         "outside.gltf": OUTSIDE, "outside.bin": bytes(LENGTH), "short.glb": SMALL[:24],
         "empty.glb": b""}
# A text whose buffers have the names that its conversion gives them the other way about, and what
# they and its image have, by the text. New files under the old text would give it wrong bytes.
NAMED = {"swapped1.bin": b"one!", "swapped0.bin": b"two!", "picture.png": b"\x89PNG\r\n\x1a\n"}
SWAPPED = document(buffers=[{"byteLength": FOUR, "uri": name} for name in [*NAMED][:2]],
                   images=[{"uri": "picture.png"}])
# What stands where a program is to write: links to devices, and what is no file.
ENDINGS = (".glb", ".gltf")
LINKS = {"full": "/dev/full", "null": "/dev/null", "lost": "missing/out"}


class Call:
    """A call of a program on a file: its words, the ending of the file that it writes, if it writes
    one, its status where it cannot do its work, and that of a file without bytes."""

    def __init__(self, name, *words, ending=None, status=1, empty=1):
        self.name, self.words, self.ending = name, words, ending
        self.status, self.empty = status, empty
        self.shown = " ".join([name, *words, *([f"to {ending}"] if ending else [])])

    def on(self, file, to="out"):
        return [*self.words, file, *([to + self.ending] if self.ending else [])]


# `inspect` has 1 for files with errors. `gltf_repack` does not read the text that it puts into a
# container, and so takes an empty one.
CALLS = (
    Call("gltf_show", "check"),
    Call("gltf_show", "inspect", status=2),
    Call("gltf_show", "inspect", "--json", status=2),
    Call("gltf_repack", ending=".glb", empty=0),
    Call("gltf_convert", ending=".glb"),
    Call("gltf_convert", ending=".gltf"),
)
WRITERS = [call for call in CALLS if call.ending]
# The calls that look at a file and at those that its buffers name, and write none.
LOOKERS = [call for call in CALLS if not call.ending] + [Call("gltf_show", "inspect", "--html")]


class Results:
    """How many rows passed, and how many failed."""

    def __init__(self):
        self.passed = self.failed = 0

    def row(self, what, good, ran=""):
        self.passed += bool(good)
        self.failed += not good
        print(f"{what}: {'ok' if good else f'FAILED: {ran}'}")

    def not_tried(self, what, why):
        print(f"{what}: not tried: {why}")


RESULTS = Results()
PROGRAMS = {}


def limited(memory=None, file_size=None, ignores=()):
    """What a process does first: it becomes nobody, and takes these limits."""
    start = started()

    def limit():
        for one in ignores:
            signal.signal(one, signal.SIG_IGN)
        if file_size is not None:
            resource.setrlimit(resource.RLIMIT_FSIZE, (file_size, file_size))
            resource.setrlimit(resource.RLIMIT_CORE, (0, 0))
        start()
        if memory is not None:
            resource.setrlimit(resource.RLIMIT_AS, (memory, memory))
    return limit


def ran(call, words, room, limits=None, **how):
    """What a call does; one that does not end is killed."""
    how = {"stdout": subprocess.PIPE, "stderr": subprocess.PIPE, "stdin": subprocess.DEVNULL, **how}
    words = [PROGRAMS[call.name], *words]
    try:
        return subprocess.run(words, cwd=room, timeout=SECONDS, preexec_fn=limited(**limits or {}),
                              restore_signals=False, **how)
    except subprocess.TimeoutExpired:
        return subprocess.CompletedProcess(words, "no end", b"", b"")


def is_line(text, name):
    """Whether an error is one line that names the file."""
    line = text.decode("utf-8", "replace")
    return line.startswith(f"{name[:200]}") and line.count("\n") == 1 and len(line) > len(name) + 3


# ---- What is read.

def refuses(call, file, room, memory=None):
    """A file that cannot be read: the status of that, a line that names it, and nothing is written.
    One that never ends takes all memory; then that is what is said."""
    before = state(room)
    got = ran(call, call.on(file), room, {"memory": memory})
    said = is_line(got.stderr, file) or memory is not None and got.stderr == b"out of memory\n"
    good = got.returncode == call.status and said and state(room) == before
    RESULTS.row(f"{call.shown} {file[:20]}", good, got)


def feeds(pipe, data):
    """A process that writes to a pipe. A reader that goes away is no fault of this side."""
    file = pipe.with_name("pipe.data")
    file.write_bytes(data)
    words = ["sh", "-c", 'exec cat "$0" > "$1"', file, pipe]
    return subprocess.Popen(words, stderr=subprocess.DEVNULL)


def taken(room):
    """The files that a call wrote, by name. They are removed."""
    written = {file.name: file.read_bytes() for file in room.glob("out.*")}
    for name in written:
        (room / name).unlink()
    return written


def answer(got, name, room):
    """The status of a call, what it prints but for the file's name, and what it writes."""
    written = taken(room)
    texts = [text.replace(name.encode(), b"NAME") for text in (got.stdout, got.stderr)]
    return got.returncode, *texts, written


def from_pipe(call, file, room):
    """A file that comes out of a pipe is read as one on a disk."""
    data = FILES[file]
    wanted = answer(ran(call, call.on(file), room), file, room)
    feeder = feeds(room / "pipe", data)
    got = ran(call, call.on("pipe"), room)
    feeder.kill()
    feeder.wait()
    found = answer(got, "pipe", room)
    RESULTS.row(f"{call.shown} pipe of {len(data)} bytes", found == wanted, (wanted, found))


def from_null(call, room):
    """A device without bytes is read as an empty file."""
    wanted = answer(ran(call, call.on("empty.glb"), room), "empty.glb", room)
    found = answer(ran(call, call.on("/dev/null"), room), "/dev/null", room)
    good = found == wanted and found[0] == call.empty
    RESULTS.row(f"{call.shown} /dev/null", good, (wanted, found))


def cut(call, file, shrinks, room, library):
    """A file that gets shorter while it is read: before each read of it in turn. It is refused, and
    nothing is written; or it was whole in memory before, and the answer is its own."""
    whole = room / shrinks
    bytes_of = whole.read_bytes()
    own = answer(ran(call, call.on(file), room), file, room)
    good, number, reads = own[0] == 0, 0, 1
    while good and number < min(reads, 8):
        number += 1
        whole.write_bytes(bytes_of)
        got = ran(call, call.on(file), room, env={
            "LD_PRELOAD": library, "CUT_FILE": str(whole), "CUT_AT": str(number), "CUT_TO": "100"})
        error, _, counted = got.stderr.rpartition(b"reads=")
        reads = int(counted) if counted.strip().isdigit() else 0
        got.stderr = error
        found = answer(got, file, room)
        refused = found[0] == 1 and found[1] + found[2] != b"" and not found[3]
        good = number <= reads and (refused or number > 1 and found == own)
    whole.write_bytes(bytes_of)
    RESULTS.row(f"{call.shown} {file}, of which {shrinks} is cut at each of {reads} reads", good,
                (own, found) if number else own)


def lacks(call, file, lacking, room, library):
    """A file that the system has no memory for, when it is opened and when it is read: that is a
    failed read of this file, which is named, and not want of memory here."""
    for way in ("open", "read"):
        before = state(room)
        got = ran(call, call.on(file), room, env={
            "LD_PRELOAD": library, "LACKS_FILE": str(room / lacking), "LACKS_CALL": way})
        good = (got.returncode == call.status and is_line(got.stderr, lacking)
                and got.stderr != b"out of memory\n" and state(room) == before)
        RESULTS.row(f"{call.shown} {file}, where {way} has no memory for {lacking}", good, got)


# ---- What buffers name, for the calls that look at a file and write none.

def is_looked_at(call, got, fails, buffers):
    """Whether a file of so many buffers is accepted, or a line says so of the name that failed:
    for `inspect` that is a finding at each buffer."""
    if call.words[0] == "check":
        wanted = (1, b"", f"{fails}: file too large\n".encode()) if fails else (
            0, f"ok buffers={buffers} accessors=0 meshes=0 nodes=0\n".encode(), b"")
        return (got.returncode, got.stdout, got.stderr) == wanted
    found = got.stdout.count(b"IO_ERROR")
    return (got.returncode, got.stderr, found) == (
        (1, b"", buffers) if fails else (0, b"", 0))


def from_device(call, room):
    """A buffer of four bytes in a device without end is a failed read, in little memory. `inspect`
    does not open it but where it is told to."""
    outside = [] if "check" in call.words else ["--outside"]
    got = ran(call, [*call.on("endless.gltf"), *outside], room, {"memory": SOME_MEMORY})
    good = is_looked_at(call, got, "/dev/zero", 1)
    RESULTS.row(f"{call.shown} of a buffer in /dev/zero", good, got)
    if outside:
        got = ran(call, call.on("endless.gltf"), room, {"memory": SOME_MEMORY})
        good = got.stderr.startswith(b"endless.gltf: /dev/zero: ") and got.stderr.count(b"\n") == 1
        got.stderr = b""
        good = good and is_looked_at(call, got, "/dev/zero", 1)
        RESULTS.row(f"{call.shown} of a buffer in /dev/zero, which is outside", good, got)


def from_named_pipe(call, room):
    """Buffers of four bytes in one pipe, which is opened once: one that has up to three more bytes
    is read, and one that has a fourth is a failed read."""
    for more, fails in ((0, None), (3, None), (4, "named"), (100_000, "named")):
        feeder = feeds(room / "named", bytes(FOUR + more))
        got = ran(call, call.on("piped.gltf"), room)
        feeder.kill()
        feeder.wait()
        good = is_looked_at(call, got, fails, 2)
        RESULTS.row(f"{call.shown} of two buffers in a pipe of {FOUR + more} bytes", good, got)


def from_shared(call, room):
    """Buffers of one large file have its bytes once."""
    got = ran(call, call.on("shared.gltf"), room, {"memory": SOME_MEMORY})
    good = is_looked_at(call, got, None, BUFFERS)
    RESULTS.row(f"{call.shown} of {BUFFERS} buffers in one file", good, got)


# ---- What is printed.

def is_container(data):
    return data[:4] == b"glTF" and int.from_bytes(data[8:12], "little") == len(data)


def is_text(data):
    try:
        return "asset" in json.loads(data)
    except ValueError:
        return False


def kept(call, room):
    """Whether the file that a call wrote is whole, and is alone, or was not asked for. It is
    removed."""
    written = taken(room)
    if call.ending is None:
        return not written
    whole = {".glb": is_container, ".gltf": is_text}[call.ending]
    return [*written] == [f"out{call.ending}"] and whole(written[f"out{call.ending}"])


def to_full(call, room):
    """Output to a full device: the status says so, and a file that was written is whole."""
    with open("/dev/full", "wb") as full:
        got = ran(call, call.on("in.glb"), room, stdout=full)
    good = kept(call, room) and got.returncode == call.status
    RESULTS.row(f"{call.shown} > /dev/full", good, got)


def to_nobody(call, room):
    """A pipe that nobody reads: the program ends, by the status or by the signal that says so;
    where that signal is ignored, by the status."""
    for ignores in ((), (signal.SIGPIPE,)):
        read, write = os.pipe()
        os.close(read)
        got = ran(call, call.on("in.glb"), room, {"ignores": ignores}, stdout=write)
        os.close(write)
        ended = (call.status,) if ignores else (call.status, -signal.SIGPIPE)
        how = "ignored" if ignores else "not ignored"
        good = kept(call, room) and got.returncode in ended
        RESULTS.row(f"{call.shown} | true, SIGPIPE {how}", good, got)


def to_nothing(call, room):
    """A closed output, and a closed one for errors, where the status is what it is without that."""
    closed = 'exec "$0" "$@" {}'
    for stream, file, status in ((">&-", "in.glb", call.status), ("2>&-", "missing", call.status),
                                 ("2>/dev/full", "missing", call.status)):
        got = subprocess.run(["sh", "-c", closed.format(stream), PROGRAMS[call.name],
                              *call.on(file)], cwd=room, stdout=subprocess.DEVNULL,
                             stderr=subprocess.PIPE, preexec_fn=started(), timeout=SECONDS)
        good = kept(call, room) if file == "in.glb" else not taken(room)
        good = good and got.returncode == status
        RESULTS.row(f"{call.shown} {file} {stream}", good, got)


# ---- What is written.

def put(place, files):
    """Writes files that anybody may write."""
    for name, data in files.items():
        (place / name).write_bytes(data)
        (place / name).chmod(0o666)


def writes_nowhere(call, to, room):
    """A file that cannot be written: 1, a line, and the folder is as it was."""
    before = state(room)
    got = ran(call, call.on("in.glb", to), room)
    good = got.returncode == 1 and got.stderr.count(b"\n") == 1 and state(room) == before
    RESULTS.row(f"{call.shown} in.glb {to[:20]}{call.ending}", good, got)


def too_long(call, room):
    """A file that may not get as long as it has to: 1, or the signal that says so. A file of its
    name stays as it was, and the first one is removed; where the signal stops the program, it is
    left behind, as the usage says."""
    for before in ({}, {f"out{call.ending}": b"before"}):
        for ignores in ((signal.SIGXFSZ,), ()):
            put(room, before)
            got = ran(call, call.on("large.glb"), room,
                      {"file_size": 50_000, "ignores": ignores})
            left = taken(room)
            whole = {name: data for name, data in left.items() if not name.endswith(".part")}
            good = whole == before and (
                got.returncode == 1 and left == before and got.stderr.count(b"\n") == 1 if ignores
                else got.returncode in (1, -signal.SIGXFSZ))
            how = "ignored" if ignores else "not ignored"
            where = "a file" if before else "no file"
            RESULTS.row(f"{call.shown} of more bytes than it may write over {where}, SIGXFSZ {how}",
                        good, (got, left.keys()))


class Disk:
    """A small disk, which is mounted at a folder; None where none can be."""

    def __init__(self, room, *options):
        self.place, self.options = room / "disk", options

    def __enter__(self):
        self.place.mkdir()
        options = ",".join(["size=16k", "mode=777", *self.options])
        words = ["mount", "-t", "tmpfs", "-o", options, "tmpfs", self.place]
        try:
            mounted = subprocess.run(words, capture_output=True).returncode == 0
        except OSError:
            mounted = False
        if not mounted:
            self.place.rmdir()
            self.place = None
        return self.place

    def __exit__(self, *_):
        if self.place is not None:
            subprocess.run(["umount", self.place], check=True)
            self.place.rmdir()


def on_full_disk(call, room):
    """A disk that is too small: 1, and neither the name nor its first one is left behind; a file
    that is there stays as it was."""
    for before in ({}, {f"out{call.ending}": b"before"}):
        what = f"{call.shown} on a full disk over {'a file' if before else 'no file'}"
        with Disk(room) as disk:
            if disk is None:
                RESULTS.not_tried(what, "no disk can be mounted here")
                continue
            put(disk, before)
            got = ran(call, call.on("large.glb", "disk/out"), room)
            left = {file.name: file.read_bytes() for file in disk.iterdir()}
            good = got.returncode == 1 and got.stderr.count(b"\n") == 1
            RESULTS.row(what, good and left == before, got)


def on_read_only_disk(call, room):
    with Disk(room, "ro") as disk:
        if disk is None:
            RESULTS.not_tried(f"{call.shown} on a disk that is read-only", "none can be mounted")
            return
        got = ran(call, call.on("in.glb", "disk/out"), room)
        good = got.returncode == 1 and got.stderr.count(b"\n") == 1
        RESULTS.row(f"{call.shown} on a disk that is read-only", good, got)


def prints_to_full_disk(call, room):
    """Output to a file on a full disk: the status says so."""
    with Disk(room) as disk:
        what = f"{call.shown} > a file on a full disk"
        if disk is None:
            RESULTS.not_tried(what, "no disk can be mounted here")
            return
        (disk / "filled").write_bytes(bytes(16 << 10))
        with open(disk / "out.txt", "wb") as out:
            got = ran(call, call.on("in.glb"), room, stdout=out)
        good = kept(call, room) and got.returncode == call.status
        RESULTS.row(what, good, got)


def meant(text):
    """The bytes of the buffers and images of a text, in order, with those of each file."""
    value = json.loads(text.read_bytes())
    return [(text.parent / one["uri"]).read_bytes() for one in value["buffers"] + value["images"]]


def stops(call, room, library):
    """A text that takes its own place, stopped before each of the calls that give and take names,
    and where each of them fails: the text that stands there names files with the bytes that it was
    written with. Where one fails, no new file is left, and a line says so, unless all else is
    done."""
    for how in ("is stopped", "fails"):
        number, calls, good, got = -1, 0, True, None
        while good and number < calls:
            number += 1
            with tempfile.TemporaryDirectory(dir=room.parent) as folder:
                place = pathlib.Path(folder)
                place.chmod(0o777)
                put(place, {**NAMED, "swapped.gltf": SWAPPED})
                got = ran(call, call.on("swapped.gltf", "swapped"), place, env={
                    "LD_PRELOAD": library, "STOPS_AT": str(number), "STOPS_HOW": how})
                left = sorted(file.name for file in place.iterdir())
                good = meant(place / "swapped.gltf") == [*NAMED.values()]
            error, _, counted = got.stderr.rpartition(b"calls=")
            calls = calls or int(counted.strip() or 0)
            if number == 0:
                good = good and got.returncode == 0 and left == sorted(
                    [*NAMED, "swapped.gltf", "swapped_image0.png"])
            elif how == "fails":
                good = good and not any(name.endswith(".part") for name in left)
                good = good and (got.returncode, error.count(b"\n")) in ((0, 0), (1, 1))
            else:
                good = good and got.returncode == -signal.SIGKILL
        RESULTS.row(f"{call.shown} over itself, where each of {calls} calls {how}",
                    good and calls > 0, (number, got))


def fill(room):
    put(room, FILES)
    for ending in ENDINGS:
        for name, target in LINKS.items():
            (room / f"{name}{ending}").symlink_to(target)
    (room / "locked").chmod(0)
    folders = {"folder": 0o777, "closed": 0o555, **{f"folder{it}": 0o777 for it in ENDINGS}}
    for name, mode in folders.items():
        (room / name).mkdir()
        (room / name).chmod(mode)
    for name in ("pipe", "named", *(f"pipe{it}" for it in ENDINGS)):
        os.mkfifo(room / name)
        (room / name).chmod(0o666)
    room.chmod(0o777)


def read_rows(call, room, libraries):
    for file in ("folder", "locked", "missing", LONG):
        refuses(call, file, room)
    for file in ("/dev/zero", "/dev/full"):
        refuses(call, file, room, SOME_MEMORY)
    from_null(call, room)
    for file in ("in.glb", "large.glb", "short.glb", "empty.glb"):
        from_pipe(call, file, room)
    if libraries is None:
        RESULTS.not_tried(f"{call.shown} of files that are cut", "there is no cc")
        return
    cut(call, "cut.glb", "cut.glb", room, libraries["cut"])
    lacks(call, "in.glb", "in.glb", room, libraries["lacks"])
    if call.name != "gltf_repack":
        cut(call, "outside.gltf", "outside.bin", room, libraries["cut"])
    # A buffer that cannot be read is a finding of `inspect`.
    if call.name == "gltf_convert" or "check" in call.words:
        lacks(call, "outside.gltf", "outside.bin", room, libraries["lacks"])


def write_rows(call, room):
    for to in ("folder", "closed/out", "missing/out", LONG, *LINKS, "pipe"):
        writes_nowhere(call, to, room)
    too_long(call, room)
    on_full_disk(call, room)
    on_read_only_disk(call, room)


def stops_rows(room, libraries):
    call = next(call for call in CALLS if call.shown == "gltf_convert to .gltf")
    if libraries is None:
        RESULTS.not_tried(f"{call.shown} over itself, stopped", "there is no cc")
        return
    stops(call, room, libraries["stops"])


def libraries_in(place):
    """The libraries that cut files, that fail their reads and that stop; None where there is no C compiler."""
    try:
        return {name: preload.library(name, place) for name in ("cut", "lacks", "stops")}
    except (OSError, subprocess.CalledProcessError):
        return None


def main():
    with tempfile.TemporaryDirectory() as folder:
        place = pathlib.Path(folder)
        place.chmod(0o755)
        PROGRAMS.update((name, copy_of(name, place)) for name in crates.PROGRAMS)
        room = place / "room"
        room.mkdir()
        fill(room)
        libraries = libraries_in(place)
        for call in CALLS:
            read_rows(call, room, libraries)
            for rows in (to_full, to_nobody, to_nothing, prints_to_full_disk):
                rows(call, room)
        for call in LOOKERS:
            for rows in (from_device, from_named_pipe, from_shared):
                rows(call, room)
        for call in WRITERS:
            write_rows(call, room)
        stops_rows(room, libraries)
    print(f"{RESULTS.passed} passed, {RESULTS.failed} failed")
    return 1 if RESULTS.failed else 0


if __name__ == "__main__":
    sys.exit(main())
