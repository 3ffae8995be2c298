#!/usr/bin/env python3
"""Checks every glTF file below some folders, and writes one table of what is wrong.

    check_many.py PLACE.. [--out TABLE.csv] [--processes N]
    check_many.py PLACE.. [--out TABLE.csv] --dask ADDRESS [--batch N]
    check_many.py PLACE.. [--out TABLE.csv] --dask-workers N [--batch N]
    check_many.py PLACE.. [--out TABLE.csv] --reports REPORTS.jsonl

A place is a folder or a glTF file; --list FILE names a file with a path in each line, as `find`
prints them. Each file is checked by `gltf.check` of the Python package `gltf`, which runs
gltf_show. With --processes (the default: one for each processor) that is done on this machine. With
--dask it is done by the workers of the Dask scheduler at an address, which need the package and see
the same paths; with --dask-workers by a cluster of N processes that is started here. Dask gets the
files in batches of N, and without --batch in eight for each worker, of at most 50 files: a task for
each file would take longer than the check of a small one. A check that fails is tried again twice.
A batch whose worker is lost is given to another one; where that happens each time, its files are
checked one by one at the end.
With --reports nothing is checked: the table is made of the lines that `gltf_show inspect --json`
wrote of these files.

The table has a line for each file, in the order of their names: the path; `ok`, `faults`,
`unreadable` (there is no report) or `failed` (its worker was lost each time); the code and the
pointer of the first error, or why there is no report; and the milliseconds that the check took.
Standard error shows how many files are done, and its last lines sum it up. Exit status: 0 all files
are ok, 1 some are not, 2 usage."""
import argparse
import collections
import concurrent.futures
import csv
import importlib.util
import json
import os
import pathlib
import sys
import time

COLUMNS = ("file", "verdict", "code", "pointer", "milliseconds")
TRIES = 3
# At most so many files are one task of Dask, and at least so many tasks are there for each worker.
BATCH, TASKS = 50, 8
# So many seconds pass from one line about the progress to the next, on a terminal and elsewhere.
ON_TERMINAL, ELSEWHERE = 0.2, 10


def line_of(path, report, milliseconds):
    """The line of a file that has a report: its first error, if it has one."""
    for found in report["issues"]["messages"]:
        if found["severity"] == 0:
            return [path, "faults", found["code"], found.get("pointer", ""), milliseconds]
    return [path, "ok", "", "", milliseconds]


def check(path):
    """The line of one file. OSError where there is no report of it."""
    import gltf

    began = time.perf_counter()
    report = gltf.check(path)
    return line_of(path, report, round((time.perf_counter() - began) * 1000, 1))


def without_report(path, why):
    """The line of a file that has no report."""
    verdict = "unreadable" if isinstance(why, OSError) else "failed"
    return [path, verdict, str(why).strip() or repr(why), "", ""]


def check_here(path):
    """The line of one file, also where there is no report after all tries."""
    for _ in range(TRIES):
        try:
            return check(path)
        except OSError as why:
            last = why
    return without_report(path, last)


def by_processes(paths, count):
    """The lines, by processes of this machine."""
    with concurrent.futures.ProcessPoolExecutor(count) as pool:
        yield from pool.map(check_here, paths, chunksize=8)


def check_batch(paths):
    """The lines of some files."""
    return [check_here(path) for path in paths]


def batch_size(count, workers):
    """How many files are one task, of so many files and workers."""
    return max(1, min(BATCH, count // (TASKS * max(workers, 1))))


def by_batches(client, batches):
    """The lines of batches, as they are done. The files of one whose worker was lost each time are
    checked at the end, one after the other: only one that ends its worker has no report."""
    from dask.distributed import as_completed

    def submitted(batch):
        # A worker has a folder of its own.
        return client.submit(check_batch, [os.path.abspath(path) for path in batch], pure=False)

    tasks, left = {submitted(batch): batch for batch in batches}, []
    for task in as_completed(list(tasks)):
        if task.status != "finished":
            left += tasks[task]
            continue
        for path, line in zip(tasks[task], task.result()):
            yield [path, *line[1:]]
    for path in left:
        task = submitted([path])
        why = task.exception()
        yield without_report(path, why) if why else [path, *task.result()[0][1:]]


def by_dask(paths, address, workers, size):
    """The lines, by a Dask cluster."""
    from dask.distributed import Client, LocalCluster

    cluster = None
    if address is None:
        cluster = LocalCluster(n_workers=workers, threads_per_worker=1, dashboard_address=None)
    client = Client(address or cluster)
    try:
        size = size or batch_size(len(paths), len(client.ncores()))
        yield from by_batches(
            client, [paths[at:at + size] for at in range(0, len(paths), size)])
    finally:
        client.close()
        if cluster is not None:
            cluster.close()


def by_reports(paths, reports):
    """The lines, by reports that are there already."""
    found = {}
    with open(reports, encoding="utf-8") as lines:
        for line in lines:
            report = json.loads(line)
            found[report["uri"]] = report
    for path in paths:
        if path in found:
            yield line_of(path, found[path], "")
        else:
            yield without_report(path, OSError("there is no report of it"))


def paths_of(places, lists):
    """The paths of the files, each once, sorted."""
    found = set()
    for place in map(pathlib.Path, places):
        below = place.rglob("*") if place.is_dir() else [place]
        found.update(str(it) for it in below
                     if it == place or it.suffix in (".gltf", ".glb") and it.is_file())
    for name in lists:
        with open(name, encoding="utf-8", errors="surrogateescape") as lines:
            found.update(filter(None, (line.rstrip("\n") for line in lines)))
    return sorted(found)


def with_progress(lines, count):
    """The lines, while standard error shows how many there are already."""
    is_terminal, done, shown = sys.stderr.isatty(), 0, time.perf_counter()
    apart = ON_TERMINAL if is_terminal else ELSEWHERE
    for line in lines:
        yield line
        done += 1
        if time.perf_counter() - shown >= apart:
            shown = time.perf_counter()
            text = f"{done} of {count} files are done"
            print(f"\r{text}" if is_terminal else text, end="" if is_terminal else "\n",
                  file=sys.stderr, flush=True)
    if is_terminal:
        print("\r\33[K", end="", file=sys.stderr, flush=True)


def summary(table, seconds):
    """How many files there are of each verdict, and the codes that are found most."""
    verdicts = collections.Counter(line[1] for line in table)
    codes = collections.Counter(line[2] for line in table if line[1] == "faults")
    shown = ", ".join(f"{count} {verdict}" for verdict, count in sorted(verdicts.items()))
    yield (f"{len(table)} files in {seconds:.1f} s, {len(table) / max(seconds, 0.001):.0f} a "
           f"second: {shown or 'none'}")
    for code, count in codes.most_common(10):
        yield f"  {count} {code}"


def main():
    reader = argparse.ArgumentParser(description=__doc__.split("\n", maxsplit=1)[0])
    reader.add_argument("places", nargs="*", metavar="PLACE", help="a folder or a glTF file")
    reader.add_argument("--list", action="append", default=[], metavar="FILE",
                        help="a file with a path in each line")
    reader.add_argument("--out", metavar="TABLE.csv", help="the table; else standard output")
    reader.add_argument("--processes", type=int, default=os.cpu_count() or 1, metavar="N")
    reader.add_argument("--dask", metavar="ADDRESS", help="the address of a Dask scheduler")
    reader.add_argument("--dask-workers", type=int, metavar="N", help="a Dask cluster of its own")
    reader.add_argument("--batch", type=int, default=0, metavar="N",
                        help="how many files are one task of Dask")
    reader.add_argument("--reports", metavar="REPORTS.jsonl", help="what gltf_show wrote")
    words = reader.parse_args()
    if not words.places and not words.list:
        reader.error("a folder or a file is missing")
    is_here = not (words.reports or words.dask or words.dask_workers)
    if is_here and importlib.util.find_spec("gltf") is None:
        reader.error("the package gltf is not installed")
    paths, began = paths_of(words.places, words.list), time.perf_counter()
    if words.reports:
        lines = by_reports(paths, words.reports)
    elif words.dask or words.dask_workers:
        lines = by_dask(paths, words.dask, words.dask_workers, max(words.batch, 0))
    else:
        lines = by_processes(paths, words.processes)
    table = sorted(with_progress(lines, len(paths)))
    seconds = time.perf_counter() - began
    how = {"newline": "", "encoding": "utf-8", "errors": "surrogateescape"}
    with open(words.out or sys.stdout.fileno(), "w", closefd=bool(words.out), **how) as out:
        csv.writer(out, lineterminator="\n").writerows([COLUMNS, *table])
    for line in summary(table, seconds):
        print(line, file=sys.stderr)
    return 0 if all(line[1] == "ok" for line in table) else 1


if __name__ == "__main__":
    sys.exit(main())
