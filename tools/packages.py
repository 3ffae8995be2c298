#!/usr/bin/env python3
"""Tests what users install, over the programs and the library that are built: manual pages, the
completion for bash, `make install`, the tarball of `make dist` and the packages of `make deb`.

    packages.py           what takes seconds: the gate runs it
    packages.py --long    also the packages by apt in a fresh Debian, which debootstrap makes: it
                          needs root and the network, and some five minutes

A test whose tool is not there is reported as not tried, and counts neither as passed nor as failed.
The last line is `N passed, M failed`."""
import contextlib
import json
import os
import pathlib
import pty
import re
import select
import shutil
import subprocess
import sys
import tarfile
import tempfile
import time

sys.dont_write_bytecode = True

import c_code
import c_install
import crates
import deb
import dist
import gate_record
import package
import program_install
from c_code import same

TOP = crates.TOP
PAGES = {name: TOP / "packages" / "man" / f"{name}.1" for name in crates.PROGRAMS}
COMPLETION = TOP / "packages" / "completion.bash"
BOX = TOP / "examples" / "box.glb"
SHOWN = "the first point is 0.5 -0.5 -0.5\n"
LIBDIR = deb.LIBDIR


class Lacking(Exception):
    """A tool that is not there."""


def need(*tools):
    for tool in tools:
        if not shutil.which(tool):
            raise Lacking(f"there is no {tool}")


def ran(*words, **how):
    """What a command writes; it has to end with 0."""
    how = {"text": True, "stdout": subprocess.PIPE, "stderr": subprocess.STDOUT, **how}
    came = subprocess.run([os.fspath(word) for word in words], check=False, **how)
    assert came.returncode == 0, f"{' '.join(map(str, words))}: {came.returncode}: {came.stdout}"
    return came.stdout


# ---- Manual pages.

def help_of(program):
    """The text that a program prints where its words make no call, as its source has it."""
    source = (TOP / "crates" / program / "src" / "refusal.rt").read_text("utf-8")
    more = r'(?:\s*\)\?;\s+write!\(\s*f,\s*"[^"]*")*'
    found = re.search(rf'"(usage: .*?)"({more})', source, re.DOTALL)
    return found[1] + "".join(re.findall(r'"([^"]*)"', found[2]))


def plain(text):
    """The text of a manual page without its requests and fonts, with one space between words."""
    lines = [line for line in text.splitlines() if not line.startswith((".", "'"))]
    text = re.sub(r"\\f(.)", "", " ".join(lines)).replace("\\-", "-")
    return " ".join(text.split())


def calls_of(text):
    """The calls that the usage lines list, each with the program's name."""
    lines = [line.strip().partition(" ") for line in text[len("usage: "):].splitlines()]
    return [f"{program} {call}" for program, _, calls in lines for call in calls.split(" | ")]


def page_says_what_help_says(program):
    """The synopsis has the calls of the usage lines, and the page each further paragraph."""
    usage, *paragraphs = help_of(program).split("\n\n")
    page = PAGES[program].read_text("utf-8")
    synopsis = re.search(r"^\.SH SYNOPSIS\n\.nf\n(.*?)^\.fi$", page, re.DOTALL | re.MULTILINE)[1]
    same([plain(line) for line in synopsis.splitlines()], calls_of(usage))
    for paragraph in paragraphs:
        for sentence in re.split(r"(?<=[.:;]) ", " ".join(paragraph.split())):
            assert sentence in plain(page), f"{PAGES[program].name} lacks: {sentence}"
    for option in set(re.findall(r"--[a-z-]+", usage)):
        assert f"\\fB{option}".replace("-", "\\-") in page, option


def program_says_its_help(program):
    """The built program prints that text, and `--help` is none of its calls."""
    came = subprocess.run([crates.program(program), "--help"], stdout=subprocess.PIPE,
                          stderr=subprocess.PIPE, text=True, check=False)
    same((came.returncode, came.stdout, came.stderr), (2, "", help_of(program) + "\n"))


def pages_have_the_version():
    for page in (*PAGES.values(), c_code.C / "install" / "gltf.3"):
        head = re.search(r"^\.TH .*$", page.read_text("utf-8"), re.MULTILINE)[0]
        assert f" {package.version()}\"" in head, f"{page.name}: {head}"


def pages_are_clean_by(tool):
    need(tool)
    words = {"man": ["man", "--warnings", "-E", "UTF-8", "-l", "-Tutf8", "-Z"],
             "groff": ["groff", "-t", "-man", "-ww", "-Tutf8"],
             "mandoc": ["mandoc", "-Tlint", "-Wwarning"]}[tool]
    for page in PAGES.values():
        came = subprocess.run([*words, page], stdout=subprocess.PIPE, stderr=subprocess.PIPE,
                              env={**os.environ, "MANROFFSEQ": "", "LC_ALL": "C.UTF-8"},
                              check=False)
        told = came.stderr + (came.stdout if tool == "mandoc" else b"")
        same((came.returncode, told.decode("utf-8", "replace")), (0, ""))


# ---- Completion.

FOLDER = {"box.glb": "", "a b.GLB": "", "scene.gltf": "", "notes.txt": "", "two files/x.glb": ""}
FILES = ["a b.GLB", "box.glb", "scene.gltf", "two files"]
CONTAINERS = ["a b.GLB", "box.glb", "two files"]
# The words of a line, the last of which is completed, and what completes it.
COMPLETED = [
    (["gltf_show", ""], ["check", "chunks", "indices", "inspect"]),
    (["gltf_show", "ch"], ["check", "chunks"]),
    (["gltf_show", "-"], []),
    (["gltf_show", "chunks", ""], CONTAINERS),
    (["gltf_show", "check", ""], FILES),
    (["gltf_show", "check", "s"], ["scene.gltf"]),
    (["gltf_show", "check", "two\\ f"], ["two files"]),
    (["gltf_show", "check", "\"two f"], ["two files"]),
    (["gltf_show", "check", "two files/"], ["two files/x.glb"]),
    (["gltf_show", "check", "box.glb", ""], []),
    (["gltf_show", "check", "box.glb", "-"], ["--extensions", "--lenient"]),
    (["gltf_show", "check", "box.glb", "--lenient", "--"], ["--extensions"]),
    (["gltf_show", "check", "box.glb", "--extensions", "--lenient", "-"], []),
    (["gltf_show", "indices", "b"], ["box.glb"]),
    (["gltf_show", "indices", "box.glb", ""], []),
    (["gltf_show", "indices", "box.glb", "-"], []),
    (["gltf_show", "indices", "box.glb", "0", "0", "--l"], ["--lenient"]),
    (["gltf_show", "inspect", ""], FILES),
    (["gltf_show", "inspect", "box.glb", "s"], ["scene.gltf"]),
    (["gltf_show", "inspect", "-"], ["--html", "--json", "--no-files", "--outside", "--pretty"]),
    (["gltf_show", "inspect", "--json", "--"], ["--no-files", "--outside", "--pretty"]),
    (["gltf_show", "inspect", "box.glb", "--html", "--"], ["--no-files", "--outside"]),
    (["gltf_show", "inspect", "box.glb", "--html", "--outside", "--"], []),
    (["gltf_show", "nothing", ""], []),
    (["gltf_repack", ""], FILES),
    (["gltf_repack", "scene.gltf", "b"], ["box.glb"]),
    (["gltf_repack", "scene.gltf", "box.glb", ""], []),
    (["gltf_convert", ""], FILES),
    (["gltf_convert", "scene.gltf", ""], FILES),
    (["gltf_convert", "scene.gltf", "box.glb", ""],
     ["--keep-images", "--keep-missing-images", "--keep-unknown", "--outside"]),
    (["gltf_convert", "scene.gltf", "box.glb", "--keep-images", ""],
     ["--keep-unknown", "--outside"]),
    (["gltf_convert", "scene.gltf", "box.glb", "--keep-missing-images", ""],
     ["--keep-unknown", "--outside"]),
    (["gltf_convert", "scene.gltf", "box.glb", "--keep-images", "--outside", "--keep-unknown", ""],
     []),
    (["gltf_convert", "box.glb", "scene.gltf", ""],
     ["--drop-image-views", "--force", "--keep-images", "--keep-missing-images", "--keep-unknown",
      "--outside", "--pretty"]),
    (["gltf_convert", "box.glb", "scene.gltf", "--pretty", ""],
     ["--drop-image-views", "--force", "--keep-images", "--keep-missing-images", "--keep-unknown",
      "--outside"]),
    (["gltf_convert", "box.glb", "scene.gltf", "--drop-image-views", ""],
     ["--force", "--keep-missing-images", "--keep-unknown", "--outside", "--pretty"]),
    (["gltf_convert", "box.glb", "scene.gltf", "--keep-images", "--pretty", ""],
     ["--force", "--keep-unknown", "--outside"]),
    (["gltf_convert", "box.glb", "scene.gltf", "--keep-images", "--pretty", "--force", "--"],
     ["--keep-unknown", "--outside"]),
]
# Calls the function that `complete` names for the first word, as bash calls it.
COMPLETE = r"""
source "$1" || exit
shift
COMP_WORDS=("$@")
COMP_CWORD=$(($# - 1))
call=$(complete -p "$1") || exit
call=${call#*-F }
"${call%% *}" "$1" "${COMP_WORDS[COMP_CWORD]}" "${COMP_WORDS[COMP_CWORD - 1]}"
printf '%s\n' "${COMPREPLY[@]}"
"""
# What is typed, with the key Tab as `\t`, and the words that the call then has.
TYPED = [
    ("gltf_show ins\tbo\t", "<inspect><box.glb>"),
    ("gltf_show inspect --js\tsc\t", "<inspect><--json><scene.gltf>"),
    ("gltf_show check tw\tx\t", "<check><two files/x.glb>"),
    ("gltf_show check \"tw\tx\t", "<check><two files/x.glb>"),
    ("gltf_convert sc\tbo\t--keep-i\t", "<scene.gltf><box.glb><--keep-images>"),
]


@contextlib.contextmanager
def folder_of_files():
    with tempfile.TemporaryDirectory() as name:
        for path, text in FOLDER.items():
            c_install.put(f"{name}/{path}", text.encode())
        yield name


def completes_words():
    need("bash")
    with folder_of_files() as room:
        for words, wanted in COMPLETED:
            told = ran("bash", "--norc", "-c", COMPLETE, "bash", COMPLETION, *words, cwd=room)
            same((words, sorted(filter(None, told.split("\n")))), (words, wanted))


def completes_what_is_typed():
    """The same by bash itself, as a user has it."""
    need("bash")
    with folder_of_files() as room:
        for typed, wanted in TYPED:
            name = typed.split()[0]
            told = typed_in_bash(room, [f"source {COMPLETION}",
                                        f"{name}() {{ printf '<%s>' \"$@\"; echo; }}", typed])
            assert f"\n{wanted}\r" in told, f"{typed!r}: {told!r}"


def typed_in_bash(room, lines):
    """What a terminal shows where lines are typed in bash, the last one key by key."""
    pid, terminal = pty.fork()
    if pid == 0:
        os.chdir(room)
        known = {"PATH": os.environ["PATH"], "PS1": "$ ", "INPUTRC": "/dev/null", "TERM": "dumb",
                 "HOME": room, "LC_ALL": "C.UTF-8"}
        os.execvpe("bash", ["bash", "--norc", "--noprofile", "-i"], known)
    told = b""

    def until(text, seconds=20):
        nonlocal told
        end = time.monotonic() + seconds
        while text not in told and time.monotonic() < end:
            if select.select([terminal], [], [], 0.1)[0]:
                try:
                    told += os.read(terminal, 65536)
                except OSError:
                    return

    try:
        os.write(terminal, "".join(f"{line}\n" for line in lines[:-1]).encode())
        os.write(terminal, b"echo rea''dy\n")
        until(b"ready\r\n$ ")
        for key in lines[-1]:
            os.write(terminal, key.encode())
            until(b"\0", 0.05)
        os.write(terminal, b"\necho en''d; exit\n")
        until(b"end\r\n")
    finally:
        os.close(terminal)
        os.waitpid(pid, 0)
    return told.decode("utf-8", "replace")


# ---- What is installed.

def files_below(folder):
    """All that is no folder, as paths from the root."""
    return {"/" + os.path.relpath(os.path.join(place, file), folder)
            for place, _, files in os.walk(folder) for file in files}


def installs_below_destdir():
    """`make install` with all its words writes below DESTDIR alone, and `make uninstall` with the
    same words leaves no file."""
    need("make")
    words = {"PREFIX": "/usr", "LIBDIR": LIBDIR, "INCLUDEDIR": "/opt/include", "MANDIR": "/opt/man"}
    with tempfile.TemporaryDirectory() as room:
        given = [f"{name}={it}" for name, it in {**words, "DESTDIR": room}.items()]
        ran("make", "-C", TOP, "install", *given)
        wanted = {path for path, _ in (*program_install.parts("/usr", words),
                                       *c_install.parts("/usr", words))}
        same(files_below(room), wanted)
        assert f"{room}/opt/man/man1/gltf_show.1" in map(str, pathlib.Path(room).rglob("*.1"))
        ran(f"{room}/usr/bin/gltf_show", "check", BOX)
        if shutil.which("man"):
            told = ran("man", "-M", f"{room}/opt/man", "gltf_repack", stdin=subprocess.DEVNULL)
            assert "canonical GLB container" in told, told
        ran("make", "-C", TOP, "uninstall", *given)
        same(files_below(room), set())


def is_built_and_run(root, prefix=""):
    """A program in C is built over what is below a root, by the shared library that pkg-config
    names and by the archive, and runs; so do the programs."""
    need("pkg-config", "cc")
    lib = next(file.parent for file in pathlib.Path(f"{root}{prefix}").rglob("libgltf.so"))
    known = {**os.environ, "PKG_CONFIG_PATH": f"{lib}/pkgconfig", "LD_LIBRARY_PATH": str(lib),
             "PKG_CONFIG_ALLOW_SYSTEM_CFLAGS": "1", "PKG_CONFIG_ALLOW_SYSTEM_LIBS": "1"}
    same(ran("pkg-config", "--modversion", "gltf", env=known), package.version() + "\n")
    include, link = (ran("pkg-config", it, "gltf", env=known).split() for it in
                     ("--cflags", "--libs"))
    for library in link, [f"{lib}/libgltf.a"]:
        ran("cc", c_code.C / "show.c", *include, *library, "-o", f"{root}/show", env=known)
        same(ran(f"{root}/show", BOX, env=known), SHOWN)
    os.unlink(f"{root}/show")
    for name in crates.PROGRAMS:
        came = subprocess.run([f"{root}{prefix}/bin/{name}"], stderr=subprocess.PIPE, text=True,
                              check=False)
        same((came.returncode, came.stderr), (2, help_of(name) + "\n"))


# ---- PROOF.txt.

@contextlib.contextmanager
def record(**members):
    """A record of the gate in the place of the one that there is; none where nothing is given."""
    before = gate_record.RECORD
    with tempfile.TemporaryDirectory() as room:
        gate_record.RECORD = pathlib.Path(room, "gate.json")
        if members:
            gate_record.RECORD.write_text(json.dumps(members))
        try:
            yield
        finally:
            gate_record.RECORD = before


def trees():
    try:
        return gate_record.trees()
    except gate_record.Unknown as why:
        raise Lacking(str(why)) from why


def packs_only_what_the_gate_passed():
    tree, sources = trees()
    passed = "7 passed, 0 failed"
    fine = {"tree": tree, "sources": sources, "toolchain": gate_record.toolchain(),
            "result": passed}
    refused = ({}, {**fine, "sources": "0" * 40}, {**fine, "toolchain": "another"},
               {**fine, "result": "7 passed, 1 failed"}, {**fine, "result": "0 passed, 0 failed"})
    for members in refused:
        with record(**members):
            try:
                package.proof([])
            except package.Refused:
                pass
            else:
                raise AssertionError(f"packed over {members}")
            assert passed not in package.proof([package.NO_GATE]).decode()
    with record(**fine):
        lines = package.proof([]).decode().split("\n")
        assert f"gate:      {passed}" in lines and f"tree:      {tree}" in lines
    with record():
        assert "gate:      was not run on this tree" in package.proof([package.NO_GATE]).decode()
        came = subprocess.run([sys.executable, TOP / "tools" / "dist.py", "--no-such"],
                              stdout=subprocess.PIPE, check=False)
        same(came.returncode, 2)


def tree_is_that_of_git():
    """Where all is committed, the tree has the name that git gives it; a further file changes it,
    and the page of the gate does not change the tree without it."""
    need("git")
    here = trees()
    if not gate_record.said("git", "status", "--porcelain"):
        same(here[0], gate_record.said("git", "rev-parse", "HEAD^{tree}"))
    assert here[0] != here[1]


# ---- The tarball.

def packed_twice(tool, room):
    """What a tool packs, twice: in another folder, at another hour, by another user's habits."""
    other = {"TZ": "Asia/Tokyo", "USER": "other", "HOME": "/", "LC_ALL": "C"}
    for folder, known, umask in (("one", {}, "022"), ("two", other, "077")):
        ran("sh", "-c", f"umask {umask}; exec \"$@\"", "sh", sys.executable,
            TOP / "tools" / f"{tool}.py", f"{room}/{folder}", package.NO_GATE,
            env={**os.environ, **known}, cwd="/" if known else room)
    names = sorted(os.listdir(f"{room}/one"))
    same(sorted(os.listdir(f"{room}/two")), names)
    for name in names:
        one, two = (pathlib.Path(room, folder, name).read_bytes() for folder in ("one", "two"))
        assert one == two, f"{name} differs when it is packed again"
    return [pathlib.Path(room, "one", name) for name in names]


def tarball_holds_what_it_says():
    trees()
    with tempfile.TemporaryDirectory() as room:
        [file] = packed_twice("dist", room)
        top = f"gltf-{package.version()}-x86_64-linux"
        same(file.name, f"{top}.tar.gz")
        with tarfile.open(file) as tar:
            members = tar.getmembers()
        same([it.name for it in members], sorted(it.name for it in members))
        same({(it.uid, it.gid, it.uname, it.gname) for it in members}, {(0, 0, "", "")})
        same({int(it.mtime) for it in members}, {int(package.WHEN.timestamp())})
        ran("tar", "-xzf", file, "-C", room)
        root = pathlib.Path(room, top)
        sums = (root / "SHA256SUMS").read_text().splitlines()
        listed = {f"/{line.split('  ', 1)[1]}" for line in sums}
        regular = {path for path in files_below(root) if not (root / path[1:]).is_symlink()}
        same(listed, regular - {"/SHA256SUMS"})
        ran("sha256sum", "--check", "--strict", "--quiet", "SHA256SUMS", cwd=root)
        proof = (root / "PROOF.txt").read_text()
        for word in ("toolchain", "tree", "gate"):
            assert re.search(rf"^{word}: +\S", proof, re.MULTILINE), proof
        text = b"".join((root / path[1:]).read_bytes() for path in regular
                        if path.startswith(("/lib/pkgconfig", "/lib/cmake")))
        assert b"/gltf/" not in text.replace(b"lib/gltf", b"") and str(TOP).encode() not in text
        same((root / "examples" / "show.c").read_bytes(), (c_code.C / "show.c").read_bytes())
        is_built_and_run(root)


# ---- The packages.

def need_to_pack():
    trees()
    need("dpkg-deb", "strip", "readelf")


def packages_are_fine():
    """They are the same when they are packed again, and hold all that is installed, once."""
    need_to_pack()
    with tempfile.TemporaryDirectory() as room:
        files = packed_twice("deb", room)
        same([file.name.partition("_")[0] for file in files],
             sorted((deb.LIBRARY, deb.DEVELOPMENT, deb.PROGRAMS)))
        held = []
        for file in files:
            lines = ran("dpkg-deb", "--contents", file).splitlines()
            assert all(" root/root " in line for line in lines), lines
            held += [line.split(" ./")[1].partition(" -> ")[0] for line in lines
                     if not line.startswith("d")]
        same(len(held), len(set(held)))
        wanted = {path for path, _ in (*program_install.parts("/usr", {"LIBDIR": LIBDIR}),
                                       *c_install.parts("/usr", {"LIBDIR": LIBDIR}))}
        found = {"/" + re.sub(r"\.gz$", "", path) for path in held if "share/doc" not in path}
        same(found, wanted)


def lintian_sees_no_error():
    need_to_pack()
    need("lintian")
    with tempfile.TemporaryDirectory() as room:
        ran(sys.executable, TOP / "tools" / "deb.py", room, package.NO_GATE)
        words = ["lintian", "--fail-on", "error", *pathlib.Path(room).glob("*.deb")]
        told = ran(*words, stderr=subprocess.DEVNULL)
        assert not re.search("^E:", told, re.MULTILINE), told


def dpkg_installs_and_removes():
    """dpkg installs the packages below a root that has what this machine's C library says of
    itself, so that it checks what they depend on, and removes them."""
    need_to_pack()
    need("dpkg", "dpkg-query")
    if os.geteuid() != 0:
        raise Lacking("this is not root")
    with tempfile.TemporaryDirectory() as room:
        root = pathlib.Path(room, "root")
        (root / "var/lib/dpkg/info").mkdir(parents=True)
        (root / "var/lib/dpkg/updates").mkdir()
        came = subprocess.run(["dpkg-query", "--status", "libc6"], stdout=subprocess.PIPE,
                              stderr=subprocess.DEVNULL, text=True, check=False)
        if came.returncode:
            raise Lacking("dpkg knows no libc6")
        about = re.sub(r"^(Conffiles|Depends|Recommends|Suggests|Breaks|Replaces):.*\n(?: .*\n)*",
                       "", came.stdout.strip() + "\n", flags=re.MULTILINE)
        (root / "var/lib/dpkg/status").write_text(about + "\n")
        (root / "var/lib/dpkg/info/format").write_text("1\n")
        (root / "var/lib/dpkg/info/libc6:amd64.list").write_text("/.\n")
        ran(sys.executable, TOP / "tools" / "deb.py", room, package.NO_GATE)
        files = sorted(pathlib.Path(room).glob("*.deb"))
        alone = subprocess.run(["dpkg", f"--root={root}", "--install", *(
            file for file in files if deb.DEVELOPMENT in file.name)], stdout=subprocess.PIPE,
            stderr=subprocess.STDOUT, text=True, check=False)
        assert alone.returncode and f"depends on {deb.LIBRARY}" in alone.stdout, alone.stdout
        ran("dpkg", f"--root={root}", "--install", *files)
        is_built_and_run(root, "/usr")
        same(ran("dpkg", f"--root={root}", "--verify"), "")
        ran("dpkg", f"--root={root}", "--purge", deb.DEVELOPMENT, deb.LIBRARY, deb.PROGRAMS)
        same({path for path in files_below(root) if path.startswith("/usr")}, set())


def apt_installs_in_a_fresh_debian():
    """apt installs the packages in a Debian that has nothing else; a program in C is built over
    them with Debian's own compiler, and the programs run."""
    need_to_pack()
    need("debootstrap", "chroot")
    if os.geteuid() != 0:
        raise Lacking("this is not root")
    with tempfile.TemporaryDirectory(dir=TOP / "out") as room:
        root = pathlib.Path(room, "root")
        came = subprocess.run(["debootstrap", "--variant=minbase", "stable", root],
                              stdout=subprocess.PIPE, stderr=subprocess.STDOUT, text=True,
                              check=False)
        if came.returncode:
            raise Lacking(f"debootstrap makes no Debian: {came.stdout.strip().splitlines()[-1]}")
        ran(sys.executable, TOP / "tools" / "deb.py", root / "tmp", package.NO_GATE)
        for file in (c_code.C / "show.c", c_code.C / "contents.h", BOX):
            shutil.copy(file, root / "tmp")
        known = {"PATH": "/usr/sbin:/usr/bin:/sbin:/bin", "LC_ALL": "C.UTF-8",
                 "DEBIAN_FRONTEND": "noninteractive"}

        def inside(command):
            return ran("chroot", root, "sh", "-ec", f"cd /tmp; {command}", env=known)

        inside("apt-get install -y ./*.deb")
        told = inside("gltf_show check box.glb; gltf_repack box.glb a.glb; "
                      "gltf_convert box.glb b.glb; ldconfig -p")
        assert told.startswith("ok ") and "libgltf.so.2 " in told, told
        inside("apt-get install -y --no-install-recommends gcc libc6-dev pkg-config")
        told = inside("cc show.c $(pkg-config --cflags --libs gltf) -o show; ./show box.glb")
        same(told, SHOWN)
        inside("apt-get purge -y libgltf2 libgltf-dev gltf-tools")
        same([file for file in files_below(root / "usr") if "gltf" in file], [])


def tests(is_long):
    """Each test, with what it is given."""
    return (
        *([page_says_what_help_says, name] for name in crates.PROGRAMS),
        *([program_says_its_help, name] for name in crates.PROGRAMS),
        [pages_have_the_version], *([pages_are_clean_by, it] for it in ("man", "groff", "mandoc")),
        [completes_words], [completes_what_is_typed], [installs_below_destdir],
        [tree_is_that_of_git], [packs_only_what_the_gate_passed], [tarball_holds_what_it_says],
        [packages_are_fine], [lintian_sees_no_error], [dpkg_installs_and_removes],
        *([apt_installs_in_a_fresh_debian] for _ in range(is_long)),
    )


def holds(test, *given):
    """Whether a test passes; None where it is not tried."""
    name = " ".join([test.__name__.replace("_", " "), *map(str, given)])
    try:
        test(*given)
    except Lacking as why:
        print(f"packages: {name}: not tried, since {why}", flush=True)
        return None
    except (AssertionError, subprocess.SubprocessError, package.Refused, LookupError, TypeError,
            OSError) as why:
        print(f"packages: {name}: FAILED: {why}", flush=True)
        return False
    print(f"packages: {name}: ok", flush=True)
    return True


def main(words):
    if words not in ([], ["--long"]):
        print(__doc__)
        return 2
    missing = [name for name in crates.PROGRAMS if not crates.program(name).is_file()]
    if missing or not c_install.is_built():
        print(f"packages.py: {' '.join(missing) or 'the library for C'}: not built of these "
              "sources; make prove and make c build them", file=sys.stderr)
        print("0 passed, 1 failed")
        return 1
    results = [holds(*row) for row in tests("--long" in words)]
    print(f"{results.count(True)} passed, {results.count(False)} failed")
    return 1 if False in results else 0


sys.exit(main(sys.argv[1:]))
