"""Crates that are proved side by side, each after those that it uses.

`rt` locks a crate and all below it, so that one repository proves one crate at a time. Here each
crate is proved in a folder of its own, ROOM/NAME: a repository of that crate and those below it, in
which sources and proved libraries are hard links to those of this one. What `rt` keeps of the crate
itself, its out/, is moved there and back."""
import contextlib
import fcntl
import hashlib
import os
import pathlib
import shutil
import subprocess
import sys
import time

import crates
import gate_page


def cache():
    """A folder for all copies of this repository, outside them, since `rt ci` refuses a crates.txt
    below the top."""
    caches = pathlib.Path(os.environ.get("XDG_CACHE_HOME") or pathlib.Path.home() / ".cache")
    return caches / "gltf-proved"


def own_cache():
    """A folder in it for this copy."""
    return cache() / hashlib.sha256(os.fsencode(crates.TOP)).hexdigest()[:16]


ROOM = own_cache() / "prove"
# What is in the folder of a crate and is no source.
OUT = "out"
# The most memory that a check was seen to take, and some more.
MEMORY_OF_A_CHECK = 4 << 30
SECONDS_BETWEEN_LOOKS = 0.2


def say(text):
    print(text, file=sys.stderr, flush=True)


@contextlib.contextmanager
def alone(folder):
    """Meanwhile no other run uses a folder. Gives the file beside it that is locked."""
    folder.mkdir(parents=True, exist_ok=True)
    with open(folder.with_suffix(".lock"), "w", encoding="utf-8") as lock:
        try:
            fcntl.flock(lock, fcntl.LOCK_EX | fcntl.LOCK_NB)
        except BlockingIOError:
            say(f"waiting for another run, which uses {folder}")
            fcntl.flock(lock, fcntl.LOCK_EX)
        yield lock


def checks_at_once():
    """One a processor, as many as there is memory for, and no more than RT_JOBS says, or the file
    that GLTF_JOBS names, which another run may change meanwhile."""
    most = max(1, min(gate_page.processors(), gate_page.memory() // MEMORY_OF_A_CHECK))
    file = os.environ.get("GLTF_JOBS")
    said = pathlib.Path(file).read_text(encoding="utf-8") if file else os.environ.get("RT_JOBS")
    return min(most, int(said or most))


def lines_of(name):
    """How many lines of code, definitions and proofs a crate has: about what its proof takes."""
    folders = (crates.TOP / "crates" / name / part for part in crates.PARTS)
    files = (file for folder in folders for file in folder.rglob("*") if file.is_file())
    return sum(file.read_bytes().count(b"\n") for file in files)


def ways(order):
    """For each crate the lines on the longest way from it up to a crate that none uses."""
    listed, way = crates.listed(), {}
    for name in reversed(order):
        users = (way[user] for user in order if name in listed[user])
        way[name] = lines_of(name) + max(users, default=0)
    return way


def link_or_copy(source, target):
    """The file once more: a hard link, or a copy on another file system."""
    try:
        os.link(source, target)
    except OSError:
        shutil.copy2(source, target)


def link(source, target, without=()):
    """The files of a folder once more."""
    shutil.copytree(source, target, copy_function=link_or_copy,
                    ignore=shutil.ignore_patterns(*without))


class Folder:
    """The folder in which a crate is proved."""

    def __init__(self, name):
        self.name, self.top = name, ROOM / name
        self.crate, self.home = self.top / "crates" / name, crates.TOP / "crates" / name

    def make(self):
        """Makes it, with the crates below this one as they are proved."""
        below = crates.below(self.name)
        self.top.mkdir(parents=True)
        for name in below[:-1]:
            link(crates.TOP / "crates" / name, self.top / "crates" / name)
        link(self.home, self.crate, without=[OUT])
        (self.top / "crates.txt").write_text(crates.lines(below), encoding="utf-8")
        shutil.copy(crates.TOP / "HANDLES", self.top)
        if (self.home / OUT).exists():
            shutil.move(self.home / OUT, self.crate / OUT)

    def remove(self):
        """Removes it. What `rt` keeps goes back, unless the crate has another one or is gone."""
        if (self.crate / OUT).exists() and self.home.exists() and not (self.home / OUT).exists():
            shutil.move(self.crate / OUT, self.home / OUT)
        shutil.rmtree(self.top, ignore_errors=True)


def remove_folders():
    """Removes the folders of a run that was killed."""
    for top in ROOM.iterdir() if ROOM.exists() else ():
        if top.is_dir():
            Folder(top.name).remove()


class Proof:
    """The calls of `rt` for a crate, one after the other, while others run; or alone."""

    def __init__(self, name, calls, is_alone):
        self.name, self.calls, self.begun = name, list(calls), time.monotonic()
        self.jobs = [] if is_alone else ["--jobs", "1"]
        self.folder = Folder(name)
        self.folder.make()
        self.log = open(ROOM / f"{name}.log", "wb")
        self.process = None
        self.next()

    def next(self):
        """Starts the next call, with one job where several crates are proved at once."""
        call, *words = self.calls.pop(0)
        self.process = subprocess.Popen(["rt", call, *self.jobs, *words], cwd=self.folder.crate,
                                        stdin=subprocess.DEVNULL, stdout=self.log, stderr=self.log)

    def has_ended(self):
        """Whether all calls have ended, or one has failed."""
        status = self.process.poll()
        if status == 0 and self.calls:
            self.next()
            return False
        return status is not None

    def is_proved(self):
        return self.process.returncode == 0

    def stop(self):
        self.process.terminate()
        self.process.wait()

    def end(self):
        """Removes the folder, and gives the seconds that it took."""
        self.log.close()
        self.folder.remove()
        return time.monotonic() - self.begun


class Proving:
    """Crates of which some are proved, some run, and some wait for others."""

    def __init__(self, order, calls_of):
        self.listed, self.calls_of = crates.listed(), calls_of
        way = ways(order)
        self.waiting = sorted(order, key=lambda name: -way[name])
        self.running, self.proved, self.failed = [], set(), []
        self.count, self.begun = len(order), time.monotonic()

    def is_ready(self, name):
        return all(it in self.proved for it in self.listed[name] if it in self.listed)

    def start(self):
        """Starts the crates that wait for none, those on the longest way first. One for which all
        others wait has all processors."""
        ready = [name for name in self.waiting if self.is_ready(name)]
        is_alone = len(ready) == 1 and not self.running and checks_at_once() > 1
        for name in ready:
            if len(self.running) >= checks_at_once() or self.failed:
                break
            self.waiting.remove(name)
            self.running.append(Proof(name, self.calls_of(name), is_alone))

    def note(self, proof):
        """Says how a crate ended, how many are left, and the time so far."""
        seconds = proof.end()
        if not proof.is_proved():
            self.failed.append(proof.name)
            say(f"{proof.name} is not proved: {ROOM / proof.name}.log has why")
            return
        self.proved.add(proof.name)
        minutes, rest = divmod(int(time.monotonic() - self.begun), 60)
        say(f"[{len(self.proved)}/{self.count}] {proof.name} proved ({seconds:.0f} s); "
            f"{self.count - len(self.proved)} left, {minutes} min {rest:02} s so far")

    def run(self):
        """Whether all are proved. After a failure what runs is waited for, and no other begun."""
        with alone(ROOM):
            return self.run_alone()

    def run_alone(self):
        remove_folders()
        try:
            self.start()
            while self.running:
                time.sleep(SECONDS_BETWEEN_LOOKS)
                for proof in [proof for proof in self.running if proof.has_ended()]:
                    self.running.remove(proof)
                    self.note(proof)
                self.start()
        finally:
            for proof in self.running:
                proof.stop()
                proof.end()
        return not self.failed
