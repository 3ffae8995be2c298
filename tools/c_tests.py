"""The tests of the library for C."""
import ctypes
import json
import os
import pathlib
import re
import resource
import shutil
import subprocess
import sys
import tempfile

import c
import c_code
import c_install
import crates
import programs
from c import C, LIBRARY, OUT, SHARED, ran
from c_code import same

TESTS_OF_C = C / "tests"
EXAMPLES = crates.TOP / "examples"
BOX, TRIANGLE, DANGLING = (EXAMPLES / name for name in
                           ("box.glb", "triangle.gltf", "dangling.gltf"))
SQUARE = EXAMPLES / "two files" / "square.gltf"
RIG, SURFACE = TESTS_OF_C / "rig.gltf", TESTS_OF_C / "surface.gltf"
# What rich.py writes, and extended.py.
RICH, RICH_GLB, VALID, PLAIN, EXTENDED, ONCE = (
    OUT / "files" / name for name in
    ("rich.gltf", "rich.glb", "valid.glb", "plain.gltf", "extended.gltf", "once.gltf"))
FINE = [BOX, TRIANGLE, SQUARE, RIG, SURFACE, RICH, RICH_GLB, VALID, PLAIN, EXTENDED, ONCE]
MESSAGE = programs.DANGLING.rstrip("\n")
SHOWN = "the first point is 0.5 -0.5 -0.5\n"
STRICT = ["-Wall", "-Wextra", "-Wconversion", "-pedantic", "-Werror", "-O2"]
# The compilers, each with the languages that the headers are tried in.
LANGUAGES = {"gcc": ("c89", "c99", "c11"), "g++": ("c++98", "c++17"),
             "clang": ("c89", "c99", "c11"), "clang++": ("c++98", "c++17")}
# With --long: how many mutated copies of each file are tried by the sanitizers and by valgrind, and
# how often each of four threads reads a file under helgrind and drd. And the same without.
LONG, SHORT = (17_000, 170, 3_000), (2_000, 30, 40)


class Lacking(Exception):
    """A tool or a source that is not there."""


def need(tool):
    if not shutil.which(tool):
        raise Lacking(f"there is no {tool}")


def is_cpp(language):
    return language.startswith("c++")


def compiled(source, program, *more, by="cc", language="c89", library=LIBRARY):
    """A program of a file of C or C++."""
    words = ["-x", "c++"] if is_cpp(language) else ["-x", "c"]
    ran(by, *STRICT, f"-std={language}", *words, f"-I{C}", source, "-x", "none", *more, library,
        "-o", program)
    return program


def built(name, *more, to=None, language="c99"):
    """A program of `c/tests`."""
    return compiled(TESTS_OF_C / f"{name}.c", OUT / (to or name), *more, language=language)


# ---- What the library shows, and what the header says.

def shows_its_calls_alone():
    shown = {line.split()[-1] for line in ran("nm", "-g", "--defined-only", LIBRARY).splitlines()
             if len(line.split()) == 3}
    same(shown, set(c_code.calls()))


def shared_library_shows_its_calls_alone():
    """Each by its name and its node; those of version 2.1 also by the node that they had at first,
    by which a program finds them that was linked then."""
    shown = {line.split()[-1] for line in ran("nm", "-D", "--defined-only", SHARED).splitlines()
             if " T " in line}
    first, second = c.nodes()
    later = c.nodes()[second]
    same(shown, {f"{name}@@{first}" for name in set(c_code.calls()) - set(later)}
         | {f"{name}{at}" for name in later for at in (f"@{first}", f"@@{second}")})


def shared_library_is_plain():
    """Its soname; it needs the C library alone; no code at its start, no relocations of text, no
    memory of threads; all is bound at the start and read-only then, and no stack is code."""
    about, parts = ran("readelf", "-dW", SHARED), ran("readelf", "-lW", SHARED)
    same(re.findall(r"\((SONAME|NEEDED)\).*\[(.*)\]", about),
         [("NEEDED", "libc.so.6"),
          ("SONAME", f"libgltf.so.{c_code.version().partition('.')[0]}")])
    for word in ("TEXTREL", "(INIT)", "INIT_ARRAY", "(FINI)", "FINI_ARRAY", "RPATH", "RUNPATH"):
        assert word not in about, word
    assert re.search(r"\(FLAGS(_1)?\).*NOW", about) and "GNU_RELRO" in parts
    assert re.search(r"GNU_STACK.* RW ", parts) and " TLS " not in parts
    assert " RWE " not in parts


def header_says_what_the_code_has():
    """The header and the code have the same calls, structs, members and enumerators, of the same
    types and numbers, and each struct lies in memory alike."""
    c_code.check_names()
    file = OUT / "header.c"
    file.write_text(c_code.check_file())
    ran("cc", "-std=c11", "-Wall", "-Werror", "-Wno-address", f"-I{C}", "-fsyntax-only", file)


def headers_compile_by(compiler):
    need(compiler)
    for language in LANGUAGES[compiler]:
        for header in ("gltf.h", "gltf_load.h", "gltf.hpp"):
            if header == "gltf.hpp" and language != "c++17":
                continue
            file = OUT / f"header.{'cpp' if is_cpp(language) else 'c'}"
            file.write_text(f'#define GLTF_LOAD_IMPLEMENTATION\n#include "{header}"\n'
                            f'#include "{header}"\n')
            ran(compiler, *STRICT, f"-std={language}", f"-I{C}", "-fsyntax-only", file)


def shows_by(compiler):
    need(compiler)
    for language in LANGUAGES[compiler]:
        program = compiled(C / "show.c", OUT / f"show_{compiler}", by=compiler, language=language)
        same(ran(program, BOX), SHOWN)


def pages_name_all_calls():
    for page in (crates.TOP / "docs" / "C.md", C / "install" / "gltf.3"):
        words = set(re.findall(r"gltf_\w+", page.read_text("utf-8")))
        same(set(c_code.calls()) - words, set())


def page_shows_code_that_is_tried():
    """The code of the page is in the examples, and these do what the page says."""
    code = "".join((C / name).read_text("utf-8") for name in ("show.c", "draw.c"))
    page = (crates.TOP / "docs" / "C.md").read_text("utf-8")
    for block in re.findall(r"```c\n(.*?)```", page, re.DOTALL):
        assert block in code, block
    program = compiled(C / "draw.c", OUT / "draw")
    for file, wanted in {BOX: 12, TRIANGLE: 2, SQUARE: 2, VALID: 3}.items():
        same(ran(program, file).count("<path"), wanted)


# ---- What it reads.

def lists_every_member():
    program = built("list", language="c89")
    for file in FINE:
        printed = OUT / "printed"
        printed.write_text(ran(program, file))
        where = ran(sys.executable, TESTS_OF_C / "expected.py", printed, file, check=False)
        assert not where, f"{file}:\n{where}"
    same(ran(program, DANGLING).splitlines(), [
        "fault status: 4", "fault rules: 2", "fault buffer: none", "fault expected: 0",
        "fault actual: 0", "fault path: /nodes/0/mesh", f"fault text: {MESSAGE}"])


# The materials of a primitive in three variants: one that is there, one that is not, and none.
VARIED = {
    "asset": {"version": "2.0"}, "materials": [{}, {}],
    "meshes": [{"primitives": [{"attributes": {}, "extensions": {"KHR_materials_variants": {
        "mappings": [{"material": 1, "variants": [0]}, {"material": 7, "variants": [0, 1]}]}}}]}],
    "extensionsUsed": ["KHR_materials_variants"],
    "extensions": {"KHR_materials_variants": {"variants": [{"name": name} for name in "abc"]}}}
MAPPING = "/meshes/0/primitives/0/extensions/KHR_materials_variants/mappings/1/material"


def lists_by(compiler):
    """The wrapper for C++."""
    need(compiler)
    program = OUT / "list_cpp"
    wanted = ("points: 24, in place 24, last 1\nindices: 36\n"
              "node `Box`: 0 children, 0 weights, extras \n"
              "scene 0, version 2.0\n12 : gltf: an index is out of range\n"
              f"4 /nodes/0/mesh: {MESSAGE}\n")
    for language in ("c++11", "c++17", "c++20"):
        compiled(TESTS_OF_C / "list.cpp", program, by=compiler, language=language)
        same(ran(program, BOX, DANGLING), wanted)
        end = "scene -1, version 2.0\n12 : gltf: an index is out of range\n"
        same(ran(program, SURFACE), f"sheen: 1\nno film: 17\n{end}")
        varied = OUT / "varied.gltf"
        varied.write_text(json.dumps(VARIED))
        same(ran(program, varied), f"variant: 1\n17 {MAPPING}: the document has no material with "
             f"this index\nvariant: -1\n{end}")


def lists_items_by(compiler):
    """All items, also of padded matrices and without a view, by the wrapper for C++."""
    need(compiler)
    program = compiled(TESTS_OF_C / "items.cpp", OUT / "items_cpp", *SANITIZED, by=compiler,
                       language="c++11")
    for file in (BOX, TRIANGLE, RIG, RICH_GLB, VALID, EXTENDED, ONCE):
        wanted = ran(sys.executable, TESTS_OF_C / "expected.py", "--items", file)
        same(ran(program, file).splitlines(), wanted.splitlines())


# URIs of a buffer of eight bytes in below/file.gltf, with what gltf_load gives of them.
BESIDE, BELOW, ABOVE = "beside i", "below it", "above it"
OUTSIDE = "cannot get the bytes of `{}`: it is not in the folder of the file or below"
MISSING = "cannot get the bytes of `{}`: No such file or directory"
LOADED = {
    "a b.bin": BESIDE, "a%20b.bin": BESIDE, "./a b.bin": BESIDE, "dir/c..d": BELOW,
    "d%C3%ADr/%63": BELOW, "dir/../a b.bin": (8, OUTSIDE), "../up.bin": (8, OUTSIDE),
    "%2e%2E/up.bin": (8, OUTSIDE), "..%2Fup.bin": (8, OUTSIDE), "..": (8, OUTSIDE),
    "{room}/up.bin": (8, OUTSIDE), "%2Fetc/passwd": (8, OUTSIDE),
    "file:a%20b.bin": (8, OUTSIDE), "file:///etc/passwd": (8, OUTSIDE),
    "a%00b": (8, OUTSIDE), "a%3Ab": (8, OUTSIDE), "none": (10, MISSING), "%zz%4": (10, MISSING),
    "short": (6, "`{}` has fewer bytes than the buffer"), "nearly": "12345",
}
LOADED_ANYWHERE = {
    "a%20b.bin": BESIDE, "../up.bin": ABOVE, "%2e%2e/up.bin": ABOVE, "{room}/up.bin": ABOVE,
    "file://{room}/up.bin": ABOVE, "file:a%20b.bin": BESIDE, "none": (10, MISSING),
    "a%00b": (8, "cannot get the bytes of `{}`: no file name"),
}
RESOLVED = {"known": "from a r", "unknown": (13, "cannot get the bytes of `{}`")}


def loads_files():
    program = built("load", language="c89")
    with tempfile.TemporaryDirectory() as name:
        room = pathlib.Path(name)
        for path, contents in {"up.bin": "above it", "below/a b.bin": "beside it",
                               "below/dir/c..d": "below it", "below/d\u00edr/c": "below it",
                               "below/short": "four", "below/nearly": "12345"}.items():
            (room / path).parent.mkdir(parents=True, exist_ok=True)
            (room / path).write_text(contents)
        tables = ((), LOADED), (("anywhere",), LOADED_ANYWHERE), (("resolver",), RESOLVED)
        for word, table in tables:
            for uri, wanted in table.items():
                uri = uri.replace("{room}", name)
                file = room / "below" / "file.gltf"
                file.write_text('{"asset":{"version":"2.0"},"buffers":[{"byteLength":8,"uri":"'
                                f'{uri}"}}]}}')
                if not isinstance(wanted, str):
                    place, sizes = ("/buffers/0", "(4 of 8)") if wanted[0] == 6 else (
                        "/buffers/0/uri", "(0 of 0)")
                    wanted = f"{wanted[0]} {place}: {wanted[1].format(uri)} {sizes}"
                same(ran(program, file, *word), wanted + "\n")
        same(ran(program, room / "none"),
             "10 : cannot read the file: No such file or directory (0 of 0)\n")


def is_read_by_ctypes():
    """The shared library, by Python's own means."""
    library = ctypes.CDLL(os.fspath(SHARED))
    library.gltf_count.restype = ctypes.c_size_t
    data, file, fault = BOX.read_bytes(), ctypes.c_void_p(), ctypes.create_string_buffer(1024)
    status = library.gltf_open(data, ctypes.c_size_t(len(data)), None, ctypes.byref(file), fault)
    same((status, library.gltf_count(file, 2)), (0, 4))
    length, room = ctypes.c_size_t(), ctypes.create_string_buffer(8)
    status = library.gltf_name(file, 4, ctypes.c_size_t(0), room, ctypes.c_size_t(8),
                               ctypes.byref(length))
    same((status, room.value, length.value), (0, b"Box", 3))
    library.gltf_close(file)
    same(f"{library.gltf_version()}", str(int("".join(
        f"{int(part):02}" for part in c_code.version().split(".")))))


def links_from_rust():
    need("rustc")
    program = OUT / "main"
    ran("rustc", "-O", TESTS_OF_C / "main.rs", "-o", program, f"-Clink-arg={LIBRARY}")
    same(ran(program, BOX), "4 accessors\n")


# ---- What a caller may do.

# A finding ends the program, also one of undefined behaviour.
SANITIZED = ["-g", "-fsanitize=address,undefined", "-fno-sanitize-recover=all"]


def checked_heap():
    """The variables by which a program that is there runs with the heap of the address
    sanitizer."""
    library = ran("cc", "-print-file-name=libasan.so").strip()
    if not os.path.isabs(library):
        raise Lacking("the compiler has no libasan.so")
    return [f"LD_PRELOAD={os.path.realpath(library)}", "ASAN_OPTIONS=detect_leaks=0"]


def options_and_buffers_are_judged():
    ran(built("options", *SANITIZED, language="c89"))


def uris_are_decoded():
    ran(built("uris", *SANITIZED, language="c89"))


def no_items_are_read_by(compiler):
    """By each wrapper: gltf.h and gltf_load.h, and gltf.hpp."""
    need(compiler)
    if compiler == "gcc":
        ran(compiled(TESTS_OF_C / "empty.c", OUT / "empty", *SANITIZED, by=compiler))
    else:
        for language in ("c++11", "c++17"):
            ran(compiled(TESTS_OF_C / "empty.cpp", OUT / "empty_cpp", *SANITIZED,
                         "-Wl,--wrap=malloc", by=compiler, language=language))


def closed_files_are_defined():
    program = built("nothing")
    ran(program, BOX)
    need("valgrind")
    ran("valgrind", "-q", "--leak-check=full", "--error-exitcode=9", program, BOX)


def stack():
    """How many KiB of stack the header asks for."""
    return int(re.search(r"give a thread (\d+) KiB", (C / "gltf.h").read_text("utf-8"))[1])


def is_enough(program, file, kib):
    """Whether a program reads a file with a stack of so many KiB."""
    limit = (kib * 1024, kib * 1024)
    how = {"preexec_fn": lambda: resource.setrlimit(resource.RLIMIT_STACK, limit)}
    return subprocess.run([program, file], stdout=subprocess.DEVNULL, **how).returncode == 0


def a_stack_has_a_quarter_to_spare():
    levels, rules = "[" * 125 + "]" * 125, ",".join(['{"mesh":3}'] * 200_000)
    texts = {"deep": f'"extras":{levels}', "broken": f'"nodes":[{rules}]'}
    for name, member in texts.items():
        (OUT / f"{name}.gltf").write_text(f'{{"asset":{{"version":"2.0"}},{member}}}')
    files = [*FINE, DANGLING, *(OUT / f"{name}.gltf" for name in texts)]
    program, most = built("list", language="c89"), stack() * 3 // 4
    for file in files:
        enough = (kib for kib in range(64, most + 1, 16) if is_enough(program, file, kib))
        least = next(enough, None)
        assert least, f"{file} takes more than {most} KiB of stack"
        print(f"{file.name}: {least} KiB of stack")


def readers():
    return built("readers", "-pthread", f"-DSTACK={stack() * 1024}")


def threads_read_one_file():
    for file in (BOX, RIG, RICH):
        ran(readers(), "3000" if file != RICH else "300", file)


def sees_no_race(tool, turns):
    need("valgrind")
    for file in (BOX, RICH) if turns < LONG[2] else (BOX, RIG):
        ran("valgrind", "-q", f"--tool={tool}", "--error-exitcode=9", readers(),
            str(turns if file != RICH else 1), file)


def mutated_files_break_nothing(times):
    program = built("mutate", *SANITIZED)
    print(ran(program, str(times), BOX, TRIANGLE, DANGLING, RIG, RICH, RICH_GLB), end="")
    # A tenth as often, since it is read for longer than the others together.
    print(ran(program, str(times // 10), EXTENDED), end="")


def valgrind_sees_no_error(times):
    need("valgrind")
    program = built("mutate", to="mutate_by_valgrind")
    ran("valgrind", "-q", "--leak-check=full", "--error-exitcode=9", program, str(times), BOX,
        TRIANGLE, DANGLING, RIG, RICH, RICH_GLB)


def makes_every_call(source):
    """The program makes each call of the header, but for the one that only names the version."""
    made, is_own = set(), False
    for line in ran("cc", "-E", f"-I{C}", source).splitlines():
        mark = re.match(r'# \d+ "([^"]*)"', line)
        if mark:
            is_own = not mark[1].startswith("/usr") and not mark[1].endswith("/gltf.h")
        elif is_own:
            made |= set(re.findall(r"\bgltf_\w+", line))
    same(set(c_code.calls()) - made, {"gltf_version"})


def each_growth_is_refused_in_turn(is_long):
    wraps = ",".join(f"--wrap={name}" for name in ("malloc", "realloc", "free"))
    program = built("failing", f"-Wl,{wraps}")
    for file in (BOX, TRIANGLE, DANGLING, RIG, SURFACE, ONCE, *([RICH] if is_long else [])):
        print(ran(program, file), end="")


# ---- A program that was written for cgltf.

def meshoptimizer():
    """The folder of the source of gltfpack 0.18, with cgltf 1.12."""
    folder = os.environ.get("MESHOPTIMIZER", "")
    if not (pathlib.Path(folder) / "gltf" / "gltfpack.cpp").is_file():
        raise Lacking("MESHOPTIMIZER=FOLDER names no source of gltfpack: "
                      "apt-get source meshoptimizer")
    return pathlib.Path(folder)


def gltfpack_writes_the_same():
    """gltfpack over cgltf and over the adapter writes the same bytes."""
    source, room = meshoptimizer(), OUT / "gltfpack"
    room.mkdir(exist_ok=True)
    (room / "obj.c").write_text('#define FAST_OBJ_IMPLEMENTATION\n#include "fast_obj.h"\n')
    flags = ["-O1", "-w", f"-I{source}/extern", f"-I{C}", "-c"]
    ran("g++", "-std=c++17", "-x", "c++", *flags, C / "cgltf_over_gltf.c", "-o", room / "cpp.o")
    for file in (room / "obj.c", C / "cgltf_over_gltf.c", TESTS_OF_C / "cgltf_sorted.c"):
        ran("cc", *flags, file, "-o", room / f"{file.stem}.o")
    parts = [room / "obj.o"]
    for file in (*source.glob("gltf/*.cpp"), *source.glob("src/*.cpp")):
        parts.append(room / f"p_{file.stem}.o")
        ran("g++", *flags, file, "-o", parts[-1])
    ran("g++", room / "cgltf_sorted.o", *parts, "-lpthread", "-o", room / "over_cgltf")
    ran("g++", room / "cgltf_over_gltf.o", *parts, LIBRARY, "-lpthread", "-o", room / "over_gltf")
    packed = room / "packed.glb"
    ran(room / "over_cgltf", "-i", BOX, "-o", packed)
    for file in (BOX, TRIANGLE, SQUARE, RIG, VALID, PLAIN, packed):
        written = []
        for program in ("over_cgltf", "over_gltf"):
            to = room / f"by_{program}.glb"
            ran(room / program, "-i", file, "-o", to, "-ke", "-kn", "-km",
                stderr=subprocess.DEVNULL)
            written.append(to.read_bytes())
        assert written[0] == written[1], f"{file}: {room}/by_over_gltf.glb differs"
        print(f"{file.name}: the same {len(written[0])} bytes")
    came = subprocess.run([room / "over_gltf", "-i", DANGLING, "-o", room / "none.glb"],
                          stderr=subprocess.PIPE, text=True)
    same((came.returncode, came.stderr), (2, f"Error loading {DANGLING}: invalid GLTF\n"))


# ---- As it is installed.

def is_found_by(tool):
    """A program is built against the installed files, as this tool finds them, by the shared and by
    the static library."""
    need(tool)
    with tempfile.TemporaryDirectory() as name:
        room = pathlib.Path(name)
        c_install.install(f"{room}/usr", {"LIBDIR": f"{room}/usr/lib/x86_64-linux-gnu"})
        for file in ("show.c", "contents.h"):
            shutil.copy(C / file, room)
        by_cmake(room) if tool == "cmake" else by_pkg_config(room)


def by_pkg_config(room):
    where = {**os.environ, "PKG_CONFIG_PATH": f"{room}/usr/lib/x86_64-linux-gnu/pkgconfig"}
    same(ran("pkg-config", "--modversion", "gltf", env=where).strip(), c_code.version())
    flags = ran("pkg-config", "--cflags", "--libs", "gltf", env=where).split()
    ran("cc", room / "show.c", *flags, "-o", room / "show")
    where["LD_LIBRARY_PATH"] = f"{room}/usr/lib/x86_64-linux-gnu"
    same(ran(room / "show", BOX, env=where), SHOWN)


def by_cmake(room):
    targets = "".join(f"add_executable(by_{kind} show.c)\n"
                      f"target_link_libraries(by_{kind} gltf::{kind})\n"
                      for kind in ("gltf", "shared", "static"))
    text = ("cmake_minimum_required(VERSION 3.10)\nproject(show C)\n"
            "find_package(gltf {} REQUIRED)\n" + targets)
    for version in ("3.0", "2.3", "1.9", "2.2", "2.1", "2.0.0", "2.0"):
        (room / "CMakeLists.txt").write_text(text.format(version))
        words = ["cmake", f"-DCMAKE_PREFIX_PATH={room}/usr", "-S", room,
                 "-B", room / f"built{version}"]
        is_wanted = version.startswith(("2.0", "2.1", "2.2"))
        came = subprocess.run(words, stdout=subprocess.DEVNULL, stderr=subprocess.DEVNULL)
        same(came.returncode == 0, is_wanted)
    ran("cmake", "--build", room / "built2.0")
    for kind in ("gltf", "shared", "static"):
        same(ran(room / "built2.0" / f"by_{kind}", BOX), SHOWN)


def leaves_nothing_when_uninstalled():
    with tempfile.TemporaryDirectory() as name:
        for environment in ({}, {"LIBDIR": "/usr/lib/x86_64-linux-gnu", "INCLUDEDIR": "/opt/inc",
                                 "MANDIR": "/usr/man"}):
            c_install.install("/usr", environment, name)
            files = {path for path, _ in c_install.parts("/usr", environment)}
            found = {"/" + os.path.relpath(os.path.join(folder, file), name)
                     for folder, _, files in os.walk(name) for file in files}
            same(found, files)
            c_install.uninstall("/usr", environment, name)
            same([files for _, _, files in os.walk(name) if files], [])


def man_page_is_clean():
    need("man")
    page = C / "install" / "gltf.3"
    came = subprocess.run(["man", "--warnings", "-E", "UTF-8", "-l", "-Tutf8", "-Z", page],
                          stdout=subprocess.PIPE, stderr=subprocess.PIPE, text=True,
                          env={**os.environ, "MANROFFSEQ": "", "LC_ALL": "C.UTF-8"})
    same((came.returncode, came.stderr, len(came.stdout) > 4000), (0, "", True))


def tests(is_long):
    """Each test, with what it is given."""
    mutated, by_valgrind, turns = LONG if is_long else SHORT
    return (
        [shows_its_calls_alone], [shared_library_shows_its_calls_alone],
        [shared_library_is_plain], [header_says_what_the_code_has],
        *([headers_compile_by, compiler] for compiler in LANGUAGES),
        *([shows_by, compiler] for compiler in LANGUAGES),
        [pages_name_all_calls], [page_shows_code_that_is_tried],
        [lists_every_member], [lists_by, "g++"], [lists_by, "clang++"], [lists_items_by, "g++"],
        [loads_files], [is_read_by_ctypes], [links_from_rust], [closed_files_are_defined],
        [options_and_buffers_are_judged], [uris_are_decoded],
        [no_items_are_read_by, "gcc"], [no_items_are_read_by, "g++"],
        [a_stack_has_a_quarter_to_spare], [threads_read_one_file],
        [sees_no_race, "helgrind", turns], [sees_no_race, "drd", turns],
        [mutated_files_break_nothing, mutated], [valgrind_sees_no_error, by_valgrind],
        [each_growth_is_refused_in_turn, is_long], [makes_every_call, TESTS_OF_C / "failing.c"],
        [makes_every_call, crates.TOP / "fuzz" / "target.c"], [gltfpack_writes_the_same],
        [is_found_by, "pkg-config"], [is_found_by, "cmake"], [leaves_nothing_when_uninstalled],
        [man_page_is_clean],
    )


def holds(test, *given):
    """Whether a test passes; None where it is not tried."""
    name = " ".join([test.__name__.replace("_", " "),
                     *(it.name if isinstance(it, pathlib.Path) else str(it) for it in given)])
    try:
        test(*given)
    except Lacking as why:
        print(f"c: {name}: not tried, since {why}")
        return None
    except (AssertionError, subprocess.CalledProcessError, KeyError, OSError) as why:
        print(f"c: {name}: FAILED: {why}")
        return False
    print(f"c: {name}: ok")
    return True


def results(is_long):
    (OUT / "files").mkdir(parents=True, exist_ok=True)
    for name in ("rich.py", "extended.py"):
        ran(sys.executable, TESTS_OF_C / name, OUT / "files")
    return [holds(*row) for row in tests(is_long)]
