#!/usr/bin/env python3
"""Tests the Python package over the library that `make c` built: `make python`.

It runs the tests of python/tests, makes the wheel, installs it into a fresh virtual environment,
and runs there what python/README.md shows, in a folder with a copy of the examples. Tests with
NumPy run where a Python with NumPy is found. What a machine has no tool for is reported as not
tried, and counts neither as passed nor as failed. The last line is `N passed, M failed`."""
import os
import pathlib
import re
import shutil
import subprocess
import sys
import tempfile

TOP = pathlib.Path(__file__).resolve().parent.parent
LIBRARY = TOP / "out" / "c" / "libgltf.so.2"
PROGRAM = TOP / "crates" / "gltf_show" / "out" / "gltf_show"
counts = {"passed": 0, "failed": 0}


def note(what, well, text=""):
    """Counts one test, and prints what a failed one said."""
    counts["passed" if well else "failed"] += 1
    print(f"{'passed' if well else 'FAILED'}: {what}")
    if not well:
        print(text.rstrip())


def run(words, **how):
    """What a command said, and whether it went well."""
    ran = subprocess.run(words, stdout=subprocess.PIPE, stderr=subprocess.STDOUT, text=True,
                         check=False, **how)
    return ran.returncode == 0, ran.stdout


def pythons():
    """One Python, and one with NumPy where another one has it."""
    found = [sys.executable]
    for other in ("/usr/bin/python3", "python3"):
        path = shutil.which(other)
        if path and run([path, "-c", "import numpy"])[0]:
            return [*found, path] if path != found[0] else found
    print("not tried: tests with NumPy (Debian: python3-numpy)")
    return found


def test_package():
    """The tests of python/tests, by each Python."""
    known = dict(os.environ, GLTF_LIBRARY=str(LIBRARY), PYTHONPATH=str(TOP / "python"),
                 PYTHONDONTWRITEBYTECODE="1")
    if PROGRAM.is_file():
        known["GLTF_SHOW"] = str(PROGRAM)
    for python in pythons():
        well, text = run([python, "-m", "unittest", "-q", "test_gltf"],
                         cwd=TOP / "python" / "tests", env=known)
        note(f"the tests of python/tests by {python}", well, text)
    test_sanitized(known)


def test_sanitized(known):
    """A file with no items, over the heap of the address sanitizer."""
    well, heap = run(["cc", "-print-file-name=libasan.so"])
    if not well or not os.path.isabs(heap.strip()):
        print("not tried: the tests with the address sanitizer (Debian: gcc)")
        return
    known = dict(known, LD_PRELOAD=os.path.realpath(heap.strip()), PYTHONMALLOC="malloc",
                 ASAN_OPTIONS="detect_leaks=0")
    well, text = run([sys.executable, "-m", "unittest", "-q",
                      "test_gltf.Faults.test_there_are_no_items",
                      "test_gltf.Faults.test_lengths_are_exact_where_that_is_asked_for"],
                     cwd=TOP / "python" / "tests", env=known)
    note("no items, and lengths, over the heap of the address sanitizer", well, text)


def snippet(page):
    """The code in Python that a page shows first."""
    text = (TOP / page).read_text(encoding="utf-8")
    return re.search(r"```python\n(.*?)```", text, re.S)[1]


def test_wheel():
    """The wheel in a fresh virtual environment, and the code of the README there."""
    with tempfile.TemporaryDirectory() as folder:
        well, text = run([sys.executable, str(TOP / "tools" / "wheel.py"), folder])
        note("the wheel is made", well, text)
        wheels = list(pathlib.Path(folder).glob("*.whl"))
        if not wheels:
            return
        python = pythons()[-1]
        room = pathlib.Path(folder, "venv")
        well, text = run([python, "-m", "venv", "--system-site-packages", str(room)])
        if not well:
            print("not tried: the wheel in a virtual environment (Debian: python3-venv)")
            return
        known = {name: it for name, it in os.environ.items() if not name.startswith("PYTHON")}
        own = str(room / "bin" / "python")
        well, text = run([own, "-m", "pip", "install", "--no-index", "--no-deps", "-q",
                          str(wheels[0])], env=known)
        note("pip installs the wheel", well, text)
        for name in ("box.glb", "dangling.gltf"):
            shutil.copy(TOP / "examples" / name, folder)
        well, text = run([own, "-c", "import gltf; print(gltf.__file__)"], cwd=folder, env=known)
        note("the installed package is imported", well and str(room) in text, text)
        for page in ("python/README.md", "README.md"):
            if not run([own, "-c", "import numpy"])[0]:
                print(f"not tried: the code of {page} (Debian: python3-numpy)")
                continue
            well, text = run([own, "-c", snippet(page)], cwd=folder, env=known)
            shown = re.search(r"^(\(24, 3\).*)$", text, re.M)
            note(f"the code of {page}", well and bool(shown), text)


def main():
    if not LIBRARY.is_file():
        print("python.py: there is no out/c/libgltf.so.2; `make c` builds it", file=sys.stderr)
        print("0 passed, 1 failed")
        return 1
    test_package()
    test_wheel()
    print(f"{counts['passed']} passed, {counts['failed']} failed")
    return 1 if counts["failed"] else 0


sys.exit(main())
