#!/usr/bin/env python3
"""bench/lay for one job of the benchmark, so that what is proved is the cone of this job alone:

    docs/aside/lay_one.py FOLDER JOB COMMIT..

JOB is `values` or `convert`. FOLDER/crates is the repository in which `rt ci` builds the programs
`gltf_bench_JOB` of this tree and of the commits; FOLDER/here and FOLDER/COMMIT have each where
bench/run looks for `gltf_bench`: `bench/run FOLDER/COMMIT FOLDER/here --only JOB`."""
import importlib.machinery
import importlib.util
import pathlib
import re
import shutil
import subprocess
import sys
import tempfile

TOP = pathlib.Path(__file__).resolve().parent.parent.parent
LOADER = importlib.machinery.SourceFileLoader("lay", str(TOP / "bench" / "lay"))
lay = importlib.util.module_from_spec(importlib.util.spec_from_loader("lay", LOADER))
LOADER.exec_module(lay)
BENCH = TOP / "crates" / "gltf_bench"
MODULES = {"values": ["check", "imported", "values"], "convert": ["convert"]}
BELOW = {
    "values": "gltf_bench_digest gltf_bench_files gltf gltf_inspect_files gltf_report "
              "gltf_findings gltf_json gltf_json_record serde_json",
    "convert": "gltf_bench_digest gltf_bench_files gltf gltf_bundle gltf_split gltf_pack "
               "gltf_json gltf_json_record serde_json",
}
CHECK = """//! The report of a file as JSON.
use crate::jobs::imported::add_imported;
use gltf_bench_digest::digest::{Digest, Digested};
use gltf_bench_digest::errors::add_error;
use gltf_inspect_files::inspect::Inspected;
use gltf_report::json::json_text;
use std::alloc::{AllocError, Global};

"""


def module(name, is_old):
    """A module of the benchmark, without what the job does not call. The options of conversions
    that an older tree does not have are left out there."""
    text = (BENCH / "src" / "jobs" / f"{name}.rt").read_text("utf-8")
    if name == "check":
        return CHECK + text[text.index("/// Adds the report of a file as JSON, and what"):]
    if name == "imported":
        start, end = (text.index(it) for it in ("/// Imports a file from", "/// Adds a document"))
        text = text[:start] + text[end:]
        text = text.replace("{Document, import_slice}", "Document")
        text = text.replace("use gltf_bench_digest::errors::add_error;\n", "")
        return text.replace("use std::alloc::Global;\n", "")
    return re.sub(r"\n *keep_missing_images: false,", "", text) if is_old else text


def cut(top, job, is_old):
    """Adds the benchmark of one job to a tree."""
    name = f"gltf_bench_{job}"
    target = top / "crates" / name
    (target / "src" / "jobs").mkdir(parents=True)
    shutil.copy(BENCH / "args", target)
    printed = (top / "crates" / "gltf_bench" / "stdout").read_text("utf-8").splitlines()
    (target / "stdout").write_text(next(it for it in printed if it.startswith(job)) + "\n")
    text = (BENCH / "src" / "main.rt").read_text("utf-8")
    text = re.sub(r"const JOBS.*?;\n", f'const JOBS: [&str; 1] = ["{job}"];\n', text, flags=re.S)
    text = re.sub(r"use jobs::\w+::[^;]*;\n", "", text)
    text = text.replace("use std::alloc", f"use jobs::{job}::{job};\nuse std::alloc", 1)
    call = f"    let _ = job;\n    {job}(alloc, rounds, size, seed, &mut digest)?;\n"
    text = re.sub(r"    match job \{\n.*?\n    \}\n", call, text, flags=re.S)
    (target / "src" / "main.rt").write_text(text)
    (target / "src" / "jobs.rt").write_text("//! The job.\n\n" + "".join(
        f"{'' if it == 'imported' else 'pub '}mod {it};\n" for it in MODULES[job]))
    for it in MODULES[job]:
        (target / "src" / "jobs" / f"{it}.rt").write_text(module(it, is_old))
    subprocess.run(["rt", "fmt"], cwd=target, check=True, stdout=subprocess.DEVNULL)
    with open(top / "crates.txt", "a", encoding="utf-8") as lines:
        lines.write(f"{name}: {BELOW[job]}\n")


def main(folder, job, *commits):
    folder = pathlib.Path(folder)
    laid, lay.PROGRAMS = lay.Laid(folder), (f"gltf_bench_{job}",)
    with tempfile.TemporaryDirectory() as room:
        for commit in (lay.HERE, *commits):
            top = pathlib.Path(room) / commit
            subprocess.run(["git", "clone", "--quiet", TOP, top], check=True)
            if commit != lay.HERE:
                subprocess.run(["git", "checkout", "--quiet", commit], cwd=top, check=True)
                for name in lay.BENCHMARK[:2]:
                    shutil.rmtree(top / "crates" / name)
                    shutil.copytree(TOP / "crates" / name, top / "crates" / name,
                                    ignore=shutil.ignore_patterns(*lay.LEFT_OUT))
            cut(top, job, commit != lay.HERE)
            print(f"{commit}: {laid.add(lay.Tree(top, commit))} crates")
            out = folder / commit / "crates" / f"gltf_bench_{job}" / "out"
            link = folder / commit / "crates" / "gltf_bench" / "out"
            link.mkdir(parents=True)
            (link / "gltf_bench").symlink_to(out / f"gltf_bench_{job}")


main(*sys.argv[1:])
