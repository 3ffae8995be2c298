"""What is known of the last run of the gate: out/gate.json, which tools/gate.py writes at its end.

It has the tree that the gate ran on, the toolchain, and the gate's last line. A tree is named as
git names it: that of the files as they are, committed or not, without those that .gitignore names.
"""
import json
import os
import re
import subprocess
import tempfile

import crates

RECORD = crates.TOP / "out" / "gate.json"
# The page of what the gate costs, which is written after the tests: trees that differ in it alone
# are the same.
PAGE = "docs/GATE.md"


class Unknown(Exception):
    """The tree has no name: there is no git, or no repository."""


def said(*words, **how):
    """What a command prints."""
    try:
        ran = subprocess.run(words, cwd=crates.TOP, stdout=subprocess.PIPE, stderr=subprocess.PIPE,
                             text=True, check=True, **how)
    except (OSError, subprocess.CalledProcessError) as why:
        raise Unknown(f"{' '.join(words)}: {getattr(why, 'stderr', '') or why}".strip()) from why
    return ran.stdout.strip()


def toolchain():
    """What `rt version` prints; nothing where there is no rt."""
    try:
        return said("rt", "version")
    except Unknown:
        return ""


def trees():
    """The tree of the files, and the same without the page of the gate. Nothing is written into the
    repository."""
    objects = os.path.join(crates.TOP, said("git", "rev-parse", "--git-path", "objects"))
    with tempfile.TemporaryDirectory() as room:
        known = {name: it for name, it in os.environ.items() if not name.startswith("GIT_")}
        known.update(GIT_INDEX_FILE=f"{room}/index", GIT_OBJECT_DIRECTORY=room,
                     GIT_ALTERNATE_OBJECT_DIRECTORIES=objects)
        said("git", "add", "--all", env=known)
        tree = said("git", "write-tree", env=known)
        said("git", "rm", "--cached", "--quiet", "--ignore-unmatch", PAGE, env=known)
        return tree, said("git", "write-tree", env=known)


def begin():
    """What is to be known at the end; None where the tree has no name."""
    RECORD.unlink(missing_ok=True)
    try:
        return trees()
    except Unknown as why:
        print(f"note: no record of this run is kept: {why}")
        return None


def end(begun, result):
    """Records a run, unless the files changed meanwhile."""
    if begun is None:
        return
    try:
        if trees() != begun:
            raise Unknown("the files changed while it ran")
    except Unknown as why:
        print(f"note: no record of this run is kept: {why}")
        return
    RECORD.parent.mkdir(exist_ok=True)
    RECORD.write_text(json.dumps({"tree": begun[0], "sources": begun[1],
                                  "toolchain": toolchain(), "result": result}) + "\n")


def result(sources):
    """The last line of the gate on a tree, by this toolchain; None where it was not run."""
    try:
        record = json.loads(RECORD.read_text("utf-8"))
    except (OSError, ValueError):
        return None
    is_same = record.get("sources") == sources and record.get("toolchain") == toolchain()
    return record.get("result") if is_same else None


def has_passed(line):
    """Whether a last line says that nothing failed."""
    return bool(line and re.fullmatch(r"[1-9]\d* passed, 0 failed", line))
