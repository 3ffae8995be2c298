#!/usr/bin/env python3
"""Copies some crates of a checkout, and all below them, into a repository of its own, without their
wrong bodies, so that a plain `rt ci` there proves and builds these alone:

    docs/aside/cut.py CHECKOUT FOLDER CRATE..

What passes is kept by `rt`, as anywhere else. A program is then at FOLDER/crates/CRATE/out/CRATE,
where bench/run and the scripts of tools/ look for it, once FOLDER/bench is a copy too."""
import pathlib
import shutil
import subprocess
import sys

LEFT_OUT = ("out", "must-fail")


def listed(top):
    """The line of each crate, and the libraries that it names."""
    lines = {}
    for line in (top / "crates.txt").read_text("utf-8").splitlines():
        head, _, libraries = line.partition("#")[0].partition(":")
        if head.strip():
            lines[head.split()[0]] = (head.strip(), libraries.split())
    return lines


def below(lines, names):
    """Some crates and those that they use, each once."""
    found = []
    rest = list(names)
    while rest:
        name = rest.pop()
        if name in lines and name not in found:
            found.append(name)
            rest += lines[name][1]
    return found


def main(checkout, folder, *names):
    top, target = pathlib.Path(checkout), pathlib.Path(folder)
    lines = listed(top)
    crates = below(lines, names)
    for name in crates:
        shutil.copytree(top / "crates" / name, target / "crates" / name,
                        ignore=shutil.ignore_patterns(*LEFT_OUT))
    shutil.copy(top / "HANDLES", target)
    shutil.copytree(top / "bench", target / "bench")
    (target / "crates.txt").write_text(
        "".join(f"{lines[name][0]}: {' '.join(lines[name][1])}\n" for name in crates), "utf-8")
    subprocess.run(["git", "init", "--quiet"], cwd=target, check=True)
    print(f"{len(crates)} crates")


main(*sys.argv[1:])
