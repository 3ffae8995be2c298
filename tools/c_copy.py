"""A copy of `crates/gltf_c` and of the crates below it, in which the library for C is proved while
`rt ci` runs: `rt` locks a crate and all below it, and what `rt ci` proves serves no other command.

It is a repository of its own, outside this one, and the same for all copies of this one on the
machine: what is proved there serves each of them. It is known to be of the sources at hand by
comparing them with those of the copy."""
import contextlib
import pathlib
import shutil
import subprocess
import sys

import crates
import gate_record
import proving

COPY = proving.cache() / "c"
ARCHIVE = COPY / "crates" / "gltf_c" / "out" / "libgltf_c.a"
# Which toolchain proved the copy; it is written last.
PROVED = COPY / "proved"
CRATE = "gltf_c"
# The files beside crates/ that rt and tools/c.py read.
BESIDE = ("HANDLES", "tools", "c")


def folders(top):
    """The folders of sources below a top."""
    found = (pathlib.Path("crates") / name / part
             for name in crates.below(CRATE) for part in crates.PARTS)
    return [folder for folder in found if (top / folder).exists()]


def make():
    """Makes the copy anew, but for what rt keeps there of a former proof."""
    PROVED.unlink(missing_ok=True)
    for name in BESIDE:
        shutil.rmtree(COPY / name, ignore_errors=True)
    for source in COPY.glob("crates/*/*"):
        if source.name in crates.PARTS:
            shutil.rmtree(source)
    for folder in folders(crates.TOP):
        shutil.copytree(crates.TOP / folder, COPY / folder)
    (COPY / "crates.txt").write_text(crates.lines(crates.below(CRATE)), encoding="utf-8")
    for name in BESIDE:
        copy = shutil.copytree if (crates.TOP / name).is_dir() else shutil.copy
        copy(crates.TOP / name, COPY / name)


def ended(process):
    """The status of a process at its end. Where this one is interrupted, it ends that one first."""
    try:
        return process.wait()
    except KeyboardInterrupt:
        process.terminate()
        process.wait()
        raise


@contextlib.contextmanager
def alone():
    """Meanwhile no other run uses the copy. Gives the file that is locked."""
    with proving.alone(COPY) as lock:
        yield lock


def prove():
    """Proves the library for C in the copy: the status of that. The proof keeps the lock too, and
    is a group of its own, so that it is ended by this run alone."""
    with alone() as lock:
        if is_of_these_sources():
            return 0
        make()
        status = ended(subprocess.Popen([sys.executable, "tools/c.py", "--prove"], cwd=COPY,
                                        pass_fds=[lock.fileno()], start_new_session=True))
        if status == 0:
            PROVED.write_text(gate_record.toolchain() + "\n", encoding="utf-8")
        return status


def files(top):
    """The sources below a top, by their paths."""
    return {path.relative_to(top): path.read_bytes()
            for folder in folders(top) for path in (top / folder).rglob("*") if path.is_file()}


def is_of_these_sources():
    """Whether the archive is proved, by this toolchain, of the sources at hand. Where the copy is
    made anew meanwhile, it is not."""
    try:
        return (ARCHIVE.exists()
                and PROVED.read_text(encoding="utf-8") == gate_record.toolchain() + "\n"
                and (COPY / "crates.txt").read_text(encoding="utf-8")
                == crates.lines(crates.below(CRATE))
                and files(crates.TOP) == files(COPY))
    except OSError:
        return False
