#!/usr/bin/env python3
"""Tests the Rust crate over the library that `make c` built: `make rust`.

It compares the declarations of `rust/gltf-proved/src/sys.rs` with `c/gltf.h`, runs the tests of the
crate, its lints and its pages, compares what it reads of files with what Python reads of them, and
runs its example and the code that the READMEs show. A test whose tool is not there is reported as
not tried, and counts neither as passed nor as failed. The last line is `N passed, M failed`."""
import contextlib
import os
import pathlib
import re
import shutil
import struct
import subprocess
import sys
import tempfile

sys.dont_write_bytecode = True

import c
import c_code
import c_install
import c_tests
import crates
from c_code import same
from c_tests import EXAMPLES, Lacking, need

CRATE = crates.TOP / "rust" / "gltf-proved"
SYS = CRATE / "src" / "sys.rs"
OUT = crates.TOP / "out" / "rust"
sys.path.insert(0, str(c_tests.TESTS_OF_C))

import expected

# What the crate does not show, of lines of expected.py: only that of used samplers, of what a
# material or node states what the crate `gltf` shows, and no packet of the document itself.
UNSHOWN = re.compile(r"buffers \d+ waits:|animations \d+ samplers:|animationSamplers \d+ \d+ EXT_"
                    r"|root 0 status of packet:")
# The factors of the extensions of a material, by the bit of the extension.
FACTORS = {2: "diffuse_factor specular_glossiness_factor glossiness_factor",
           4: "transmission_factor", 8: "ior", 16: "emissive_strength",
           32: "thickness_factor attenuation_distance attenuation_color",
           64: "specular_factor specular_color_factor"}


def known(**more):
    """The variables that cargo is run with: it finds the library, and so do the programs."""
    return {**os.environ, "CARGO_TARGET_DIR": str(OUT), "GLTF_LIB_DIR": str(c.OUT),
            "LD_LIBRARY_PATH": str(c.OUT), "CARGO_TERM_COLOR": "never",
            # Half of the time goes into what debuggers read.
            "CARGO_PROFILE_DEV_DEBUG": "0", "CARGO_INCREMENTAL": "0", **more}


def cargo(*words, cwd=CRATE, **more):
    """What cargo says; it has to end with 0."""
    need("cargo")
    came = subprocess.run(["cargo", words[0], "--offline", "--quiet", *words[1:]], cwd=cwd,
                          env=known(**more), stdout=subprocess.PIPE, stderr=subprocess.STDOUT,
                          text=True, check=False)
    assert came.returncode == 0, f"cargo {' '.join(words)}:\n{came.stdout}"
    return came.stdout


# ---- The declarations.

def declared():
    """The text of sys.rs, without comments."""
    return re.sub(r"(?m)//.*$", "", SYS.read_text("utf-8"))


def structs():
    """The structs of sys.rs: of each its name, and its members, of which a status is a u32."""
    form = r"#\[repr\(C\)\]\s*#\[derive\([^)]*\)\]\s*pub struct (\w+) \{([^}]*)\}"
    members = r"pub (?:r#)?(\w+): ([^,]+),"
    return [(name, [(member, kind.replace("gltf_status", "u32"))
                    for member, kind in re.findall(members, inner)])
            for name, inner in re.findall(form, declared())]


def constants():
    """The enumerators of sys.rs with their numbers."""
    return dict(re.findall(r"pub const (GLTF_\w+): u32 = (\d+);", declared()))


def c_type(kind):
    """What a type of a parameter is in C."""
    kind = kind.strip()
    if kind.startswith(("*const ", "*mut ")):
        word, _, inner = kind.partition(" ")
        inner = c_type(inner)
        star = "*" if inner.endswith("*") else " *"
        return f"{'const ' if word == '*const' else ''}{inner}{star}"
    return {"usize": "size_t", "u32": "unsigned int", "f64": "double", "c_void": "void",
            "c_char": "char"}.get(kind, kind)


def functions():
    """The functions of sys.rs, each as C declares it."""
    block = declared().partition('extern "C" {')[2]
    for name, inner, result in re.findall(r"pub fn (\w+)\(([^)]*)\)(?:\s*-> (\w+))?;", block):
        kinds = [pair.partition(": ")[2] for pair in inner.split(",") if pair.strip()]
        result = c_type(result) if result else "void"
        yield name, f"extern {result} {name}({', '.join(map(c_type, kinds)) or 'void'});"


def declarations_have_the_names_of_the_header():
    """Calls, structs, members and enumerators."""
    same(sorted(name for name, _ in functions()), sorted(c_code.calls()))
    same({struct: [member for member, _ in members] for struct, members in structs()},
         c_code.header_structs())
    numbers = constants()
    number = "".join(f"{int(part):02}" for part in c_code.version().split("."))
    same(numbers.pop("GLTF_VERSION"), str(int(number)))
    same(sorted(numbers), sorted(c_code.header_enumerators()))


def declarations_are_those_of_the_header():
    """The types of calls and members, the layout of structs and the numbers, by the C compiler."""
    need("cc")
    numbers = (c_code.holds_in_c(f"{name} == {number}") for name, number in constants().items())
    lines = ['#include "gltf.h"', *(line for _, line in functions()),
             *c_code.layouts(structs()), *numbers]
    file = OUT / "header.c"
    file.write_text("\n".join(lines) + "\n")
    c.ran("cc", "-std=c11", "-Wall", "-Werror", "-Wno-address", f"-I{c.C}", "-fsyntax-only", file)


def structs_lie_in_rust_as_in_c():
    """The same layout, by the Rust compiler."""
    need("rustc")
    lines = [f'#[path = "{SYS}"] mod sys;', "use std::mem::{offset_of, size_of};",
             "fn main() {}"]
    for struct, member, at, size, _ in c_code.places(structs()):
        held = f"size_of::<sys::{struct}>() == {size}"
        if member is not None:
            name = {"type": "r#type"}.get(member, member)
            held = f"offset_of!(sys::{struct}, {name}) == {at}"
        lines.append(f"const _: () = assert!({held});")
    file = OUT / "layout.rs"
    file.write_text("\n".join(lines) + "\n")
    c.ran("rustc", "--edition", "2021", "--emit", "metadata", "-o", OUT / "layout.rmeta", file)


# ---- The crate.

def tests_pass():
    passed = sum(map(int, re.findall(r"test result: ok\. (\d+) passed", cargo("test"))))
    assert passed > 30, passed
    print(f"{passed} tests of the crate passed")


def no_items_are_read_over_a_checked_heap():
    """With the heap of the address sanitizer, which sees what is read or written past a block."""
    heap = c_tests.checked_heap()
    cargo("test", "--test", "reading", "accessors_of_no_items_are_read",
          CARGO_TARGET_X86_64_UNKNOWN_LINUX_GNU_RUNNER="env " + " ".join(heap))


def tests_pass_over_the_archive():
    """Linked with libgltf.a in place of the shared library, which is not found then."""
    cargo("test", "--test", "examples", GLTF_STATIC="1", LD_LIBRARY_PATH="",
          CARGO_TARGET_DIR=str(OUT / "static"))


def pages_are_made_without_a_warning():
    cargo("doc", "--no-deps", RUSTDOCFLAGS="-D warnings")


def lints_find_nothing():
    need("cargo-clippy")
    cargo("clippy", "--all-targets", "--", "-D", "warnings")


def files_are_formatted():
    need("cargo-fmt")
    need("rustfmt")
    came = subprocess.run(["cargo", "fmt", "--check"], cwd=CRATE, env=known(), text=True,
                          stdout=subprocess.PIPE, stderr=subprocess.STDOUT, check=False)
    assert came.returncode == 0, came.stdout


def files_are_short():
    for file in CRATE.rglob("*.rs"):
        lines = file.read_text("utf-8").splitlines()
        assert len(lines) < 800 and all(len(line) <= 100 for line in lines), file


# ---- What it reads.

def in_bits(numbers):
    """Numbers as the digits of their floats of 32 bits."""
    def bits(number):
        try:
            return struct.pack(">f", number).hex()
        except OverflowError:
            return struct.pack(">f", float("inf")).hex()
    return [bits(number) for number in numbers]


def as_float(value, record):
    if record.get("normalized"):
        value = max(value / expected.DIVISORS[record["componentType"]], -1.0)
    return in_bits([value])[0]


expected.put_numbers = lambda about, member, numbers: expected.put(about, member,
                                                                    *in_bits(numbers))
expected.as_float = as_float


def wanted_of(file, printed):
    """The lines of expected.py that the crate shows of a file."""
    expected.lines.clear()
    expected.print_file(file)
    lines, shown, bits = "\n".join(expected.lines).splitlines(), [], {}
    has_default = any(line.startswith("default ") for line in printed)
    for line in lines:
        about, _, value = line.partition(": ")
        record, _, member = about.rpartition(" ")
        if member == "has" and record.startswith("nodes"):
            bits[record] = int(value)
            continue
        if member == "has":
            bits[record] = int(value) & 127
            line = f"{about}: {bits[record]}"
        if UNSHOWN.match(line) or (line.startswith("default ") and not has_default):
            continue
        if is_shown(record, member, bits):
            shown.append(expected.meaning(line))
    return shown


def is_shown(record, member, bits):
    """Whether the crate shows a member: a node has a matrix or its parts, and a material the
    factors of the extensions that it has."""
    if record.startswith("nodes") and member in ("matrix", "translation", "rotation", "scale"):
        return (member == "matrix") == bool(bits[record] & 1)
    of = [bit for bit, factors in FACTORS.items() if member in factors.split()]
    return not of or not record.startswith(("materials", "default")) or bool(bits[record] & of[0])


def listed(file):
    """What the crate shows of a file."""
    return c.ran(OUT / "debug" / "examples" / "list", file, env=known()).splitlines()


def reads_what_python_reads():
    """All members of all records, and all items."""
    cargo("build", "--example", "list")
    files = OUT / "files"
    files.mkdir(exist_ok=True)
    for writer in ("rich.py", "extended.py"):
        c.ran(sys.executable, c_tests.TESTS_OF_C / writer, files)
    found = [file for file in sorted(EXAMPLES.rglob("*"))
             if file.suffix in (".glb", ".gltf") and file != c_tests.DANGLING]
    assert len(found) >= 3
    for file in [*found, c_tests.RIG, c_tests.SURFACE,
                 *(files / name for name in ("rich.gltf", "rich.glb", "valid.glb", "plain.gltf",
                                             "extended.gltf", "once.gltf"))]:
        printed = listed(file)
        wanted = wanted_of(file, printed)
        shown = [expected.meaning(line) for line in printed]
        for one, other in zip(wanted, shown):
            assert one == other, f"{file}: wanted `{one[:200]}`, and not `{other[:200]}`"
        same(len(shown), len(wanted))
    same(listed(c_tests.DANGLING), [f"BrokenRules /nodes/0/mesh {c_tests.MESSAGE}"])


def displays_the_box():
    cargo("build", "--example", "display")
    shown = c.ran(OUT / "debug" / "examples" / "display", c_tests.BOX, env=known())
    for text in ("scene #0", "- node #0 Box", "Positions: 24 of Vec3 F32",
                 "first position: [0.5, -0.5, -0.5]", "36 indices"):
        assert text in shown, shown


# ---- As others use it.

def snippet(page):
    """The code in Rust of a page that uses the crate."""
    text = (crates.TOP / page).read_text("utf-8")
    return next(it for it in re.findall(r"```rust[,\w]*\n(.*?)```", text, re.DOTALL)
                if "gltf_proved" in it)


def package(room, code):
    """Makes a folder a package that depends on the crate."""
    (room / "src").mkdir(exist_ok=True)
    (room / "src" / "main.rs").write_text(code)
    (room / "Cargo.toml").write_text(
        '[package]\nname = "shown"\nversion = "0.1.0"\nedition = "2021"\n\n[dependencies]\n'
        f'gltf-proved = {{ path = "{CRATE}" }}\n')


def page_shows_code_that_runs(page):
    """In a package of its own, in a folder with the example."""
    with tempfile.TemporaryDirectory() as name:
        package(pathlib.Path(name), snippet(page))
        shutil.copy(c_tests.BOX, name)
        same(cargo("run", cwd=name), "24 points, the first [0.5, -0.5, -0.5]\n")


def handles_end_with_their_document():
    """The programs of the pages that must not compile fail for the reason that they are to."""
    text = (CRATE / "src" / "lib.rs").read_text("utf-8")
    found = re.findall(r"//! ```compile_fail,(E\d+)\n((?://!.*\n)*?)//! ```", text)
    same(len(found), 2)
    for code, lines in found:
        with tempfile.TemporaryDirectory() as name:
            inner = re.sub(r"(?m)^//! ?", "", lines)
            package(pathlib.Path(name), f"fn main() {{\n{inner}}}\n")
            try:
                cargo("check", cwd=name)
            except AssertionError as why:
                same(re.findall(r"error\[(E\d+)\]", str(why)), [code])
            else:
                raise AssertionError(f"it compiles:\n{inner}")


def is_found_by_pkg_config():
    """The installed library, with no variable that names its folder."""
    need("pkg-config")
    with tempfile.TemporaryDirectory() as name:
        with contextlib.redirect_stdout(None):
            c_install.install(f"{name}/usr", {})
        given = known(PKG_CONFIG_PATH=f"{name}/usr/lib/pkgconfig",
                      LD_LIBRARY_PATH=f"{name}/usr/lib", CARGO_TARGET_DIR=f"{name}/target")
        del given["GLTF_LIB_DIR"]
        need("cargo")
        came = subprocess.run(["cargo", "run", "--offline", "--quiet", "--example", "display",
                               c_tests.BOX], cwd=CRATE, env=given, stdout=subprocess.PIPE,
                              stderr=subprocess.STDOUT, text=True, check=False)
        assert came.returncode == 0 and "node #0 Box" in came.stdout, came.stdout


def says_what_to_do_without_the_library():
    need("cargo")
    with tempfile.TemporaryDirectory() as name:
        given = known(PKG_CONFIG_PATH="", PKG_CONFIG_LIBDIR=name, CARGO_TARGET_DIR=name)
        for folder in (None, name):
            given["GLTF_LIB_DIR"] = folder or ""
            if folder is None:
                del given["GLTF_LIB_DIR"]
            came = subprocess.run(["cargo", "check", "--offline", "--quiet"], cwd=CRATE, env=given,
                                  stdout=subprocess.PIPE, stderr=subprocess.STDOUT, text=True,
                                  check=False)
            assert came.returncode != 0, came.stdout
            for text in ("Do one of these", "export GLTF_LIB_DIR=FOLDER/lib", "make install"):
                assert text in came.stdout, came.stdout


TESTS = (
    [declarations_have_the_names_of_the_header], [declarations_are_those_of_the_header],
    [structs_lie_in_rust_as_in_c], [files_are_short], [files_are_formatted], [tests_pass],
    [no_items_are_read_over_a_checked_heap], [tests_pass_over_the_archive],
    [pages_are_made_without_a_warning], [lints_find_nothing], [reads_what_python_reads],
    [displays_the_box],
    [page_shows_code_that_runs, "rust/gltf-proved/README.md"],
    [page_shows_code_that_runs, "README.md"], [handles_end_with_their_document],
    [is_found_by_pkg_config],
    [says_what_to_do_without_the_library],
)


def holds(test, *given):
    """Whether a test passes; None where it is not tried."""
    name = " ".join([test.__name__.replace("_", " "), *given])
    try:
        test(*given)
    except Lacking as why:
        print(f"rust: {name}: not tried, since {why}")
        return None
    except (AssertionError, subprocess.CalledProcessError, StopIteration, OSError) as why:
        print(f"rust: {name}: FAILED: {why}")
        return False
    print(f"rust: {name}: ok")
    return True


def main():
    if not c.SHARED.exists():
        print("rust.py: there is no out/c/libgltf.so; `make c` builds it", file=sys.stderr)
        print("0 passed, 1 failed")
        return 1
    OUT.mkdir(parents=True, exist_ok=True)
    results = [holds(*row) for row in TESTS]
    print(f"{results.count(True)} passed, {results.count(False)} failed")
    return 1 if False in results else 0


if __name__ == "__main__":
    sys.exit(main())
