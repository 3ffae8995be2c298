#!/usr/bin/env python3
"""Writes what the programs of cases are run on, and what they have to print then, from the tables
of their crates.

usage: cases.py            writes data/, args and stdout of each crate
       cases.py --check    fails where these are not what the tables say
       cases.py --compare CRATE FILE [TABLE..]    shows where FILE, which a run of these tables
                                                  printed, is not what they say

A table `tables/NAME.txt` of a crate has rows: a case, and below it, indented, its answer. Answers
are made by hand from the format, and never from what the program prints. A case is `CALL [+BLOB]
WORD.. : GIVEN`; the crate's src/calls.rt says what the calls are. Lines of a case are joined by
nothing, those of an answer by a space. Besides rows a table has

    # ..                a comment
    let NAME = TEXT     a text that recurs, as $NAME; its further lines are indented
    bytes NAME = BYTES  the same of bytes, as hexadecimal digits
    by CASE             what the rows below stand in, at the place of …; below it, indented, the
                        same of answers. Each row is a case for each `by` of the last group. Where
                        there are several …, a row has a part for each, with | between them
    for N in 3..9       the next row for each number from 3 to 8, as $N

and in cases and answers

    {*                  {"asset":{"version":"2.0"}
    $NAME[2:5]          a part of a text, by characters, or of bytes, by bytes
    ⟨BYTES⟩             hexadecimal digits: of "text", of 12. as a number of four bytes with the
                        lowest first, of digits as they stand, and of 00×12, a byte twelve times
    [×12                a character twelve times
    ∅                   nothing
    Index 3, F32[1, 2, 3, 4]    how a program prints these

A table `tables/NAME.py` has a list ROWS of cases and answers. It may have FILES, the texts of files
that stand beside the cases, by their names.
"""
import collections
import pathlib
import re
import runpy
import sys

sys.dont_write_bytecode = True
TOP = pathlib.Path(__file__).resolve().parent.parent
# Of each crate: its tables in the order in which the program reads them; and the files of
# examples/ that stand beside them, each under its name without its folder.
CRATES = {
    "gltf_cases": (
        """containers imports faults rules documents geometry meshes materials scenes animations
        items walks iterators lists looks surfaces primitives nodes channels reads uris payloads
        repacked files streams named examples memory growths
        typed""".split(),
        (
            "box.glb",
            "triangle.gltf",
            "dangling.gltf",
            "two files/square.gltf",
            "two files/square data.bin",
        ),
    ),
    "gltf_use_cases": (
        "joined numbers walks reasons buffers names pointers".split(),
        ("two files/square data.bin",),
    ),
    "gltf_caller_cases": (
        "users options bytes components nothing types".split(),
        ("two files/square.gltf", "two files/square data.bin"),
    ),
    "gltf_extension_cases": ("extensions quantized mended lenient instances".split(), ()),
    "gltf_meshopt_cases": ("attributes triangles indices broken faults".split(), ()),
}
BYTES = r'"([^"]*)"|(\d+)\.(?!\S)|([0-9A-Fa-f]{2})×(\d+)|([0-9A-Fa-f]+)|\S+'
# Lines at the margin, and lines below them that are not.
BLOCKS = r"(?m)^(?![ \n#])(.*\n(?:(?![ \n#]).+\n)*)((?: .*\n)*)"
NAME = r"\$([A-Z][A-Z_0-9]*)(?:\[(\$?[A-Z0-9]*):(\$?[A-Z0-9]*)\])?"


def digits_of(notation):
    """The hexadecimal digits of some bytes."""
    digits = ""
    for text, number, byte, times, plain in re.findall(BYTES, notation):
        if number:
            digits += int(number).to_bytes(4, "little").hex()
        elif byte:
            digits += byte * int(times)
        elif plain and len(plain) % 2 == 0:
            digits += plain
        elif text:
            digits += text.encode("ascii").hex()
        else:
            raise ValueError(f"no bytes: {notation}")
    return digits.lower()


class Table:
    """The rows of a table, read line by line."""

    def __init__(self, name, text):
        self.name, self.texts, self.bytes, self.rows = name, {}, {}, []
        self.frames, self.numbers, self.is_group_open = [("…", "…")], None, False
        for head, below in re.findall(BLOCKS, re.sub(r"(?m)^#.*\n", "", text) + "\n"):
            self.read(head.splitlines(), [it.strip() for it in below.splitlines()])

    def read(self, head, below):
        """Reads lines that begin at the margin, and those below them that do not."""
        while head:
            word, _, rest = head[0].partition(" ")
            if word == "for":
                name, first, end = re.fullmatch(r"([A-Z]+) in (\d+)\.\.(\d+)", rest).groups()
                self.numbers = (name, range(int(first), int(end)))
            elif word in ("let", "bytes"):
                self.define(word, rest, below if len(head) == 1 else [])
            elif word == "by":
                self.frames = self.frames if self.is_group_open else []
                self.is_group_open = True
                self.frames.append((rest, " ".join(below) if len(head) == 1 and below else "…"))
            else:
                self.is_group_open = False
                self.put("".join(head), " ".join(below))
                return
            head = head[1:]

    def define(self, word, rest, below):
        """A name of a text, or of bytes."""
        name, text = re.fullmatch(r"([A-Z][A-Z_0-9]*) =(.*)", rest).groups()
        text = self.expanded((" " if word == "bytes" else "").join([text.strip(), *below]))
        if word == "bytes":
            self.bytes[name] = digits_of(text)
        else:
            self.texts[name] = text

    def put(self, case, answer):
        """A row, in each of its frames and for each of its numbers."""
        if not answer:
            raise ValueError(f"{self.name}: no answer below {case[:100]}")
        name, numbers = self.numbers or ("", [0])
        self.numbers = None
        for number in numbers:
            self.texts.update({name: str(number)} if name else {})
            for outer, outer_answer in self.frames:
                whole = self.expanded(filled(outer, case)).rstrip()
                self.rows.append((whole, shown(self.expanded(filled(outer_answer, answer)))))

    def expanded(self, text):
        """A text with what its abbreviations stand for."""
        text = re.sub(NAME, self.part, text)
        text = re.sub(r"⟨([^⟩]*)⟩", lambda it: digits_of(it[1]), text)
        text = re.sub(r"(.)×(\d+)", lambda it: it[1] * int(it[2]), text)
        return re.sub(r"\{\*(?=[,}])", '{"asset":{"version":"2.0"}', text).replace("∅", "")

    def part(self, found):
        """A named text or a part of it, or named bytes."""
        name, first, end = found[1], *(self.expanded(it or "") for it in found.groups()[1:])
        size = 2 if name in self.bytes else 1
        text = self.bytes[name] if name in self.bytes else self.texts[name]
        return text[size * int(first or 0) : size * int(end) if end else len(text)]


def filled(frame, text):
    """A frame with a text at its place, or with the parts of one at several places."""
    places = frame.count("…")
    parts = text.split(" | ") if places > 1 else [text] * places
    if len(parts) != places:
        raise ValueError(f"{len(parts)} parts for {places} places: {text[:100]}")
    for part in parts:
        frame = frame.replace("…", part, 1)
    return frame


def shown(answer):
    """An answer with what abbreviates printed values written out."""
    answer = re.sub(r"\bF32(\[[\d, ]*\])", r"F32 { bytes: \1 }", answer)
    return re.sub(r"\bIndex (\d+)", r"Index { value: \1, .. }", answer)


def folder_of(crate):
    """The folder of a crate."""
    return TOP / "crates" / crate


def rows_of(crate, name):
    """The cases and answers of a table."""
    file = folder_of(crate) / "tables" / f"{name}.py"
    if file.exists():
        return runpy.run_path(str(file))["ROWS"]
    return Table(name, file.with_suffix(".txt").read_text("utf-8")).rows


def texts_beside(crate, name):
    """The texts of the files that stand beside the cases of a table, by their names."""
    file = folder_of(crate) / "tables" / f"{name}.py"
    return runpy.run_path(str(file)).get("FILES", {}) if file.exists() else {}


def files_of(crate):
    """What is to stand in each file of a crate, and the number of its cases."""
    tables, examples = CRATES[crate]
    files = {"args": "".join(f"{name}.txt\n" for name in tables)}
    stdout, cases = "", []
    for name in tables:
        rows = rows_of(crate, name)
        files[f"data/{name}.txt"] = "".join(f"{case}\n" for case, _ in rows)
        files.update({f"data/{it}": text for it, text in texts_beside(crate, name).items()})
        stdout += f"{name}.txt\n" + "".join(f"{answer}\n" for _, answer in rows)
        cases += [case for case, _ in rows]
    twice = [case for case, count in collections.Counter(cases).items() if count > 1]
    if twice:
        raise ValueError(f"there twice: {twice[:3]}")
    files = {path: text.encode() for path, text in {**files, "stdout": stdout}.items()}
    examples = [TOP / "examples" / name for name in examples]
    files.update({f"data/{path.name}": path.read_bytes() for path in examples})
    return files, len(cases)


def write(folder, files):
    """Writes the files, and takes away others of data/."""
    for path, text in files.items():
        (folder / path).parent.mkdir(exist_ok=True)
        (folder / path).write_bytes(text)
    for path in (folder / "data").iterdir():
        if f"data/{path.name}" not in files:
            path.unlink()


def differences(folder, files):
    """The files that are not what the tables say."""
    data, whole = folder / "data", ("args", "stdout")
    there = {f"data/{path.name}": path for path in data.iterdir()} if data.exists() else {}
    there.update({name: folder / name for name in whole if (folder / name).exists()})
    found = {name: path.read_bytes() for name, path in there.items()}
    return sorted(it for it in {**found, **files} if found.get(it) != files.get(it))


def compare(crate, printed, tables):
    """Shows the cases whose answers are not what is printed."""
    lines, wrong, at = printed.split("\n")[:-1], 0, 0
    for name in tables:
        for case, answer in [("the file's name", f"{name}.txt"), *rows_of(crate, name)]:
            found = lines[at] if at < len(lines) else "nothing"
            at += 1
            if found != answer:
                wrong += 1
                print(f"{name}: {case[:300]}")
                print(f"  has to be {answer[:1500]}\n  and is    {found[:1500]}")
    print(f"{wrong} of {at} lines differ, and there are {max(0, len(lines) - at)} more")
    return wrong or len(lines) > at


def main():
    words = sys.argv[1:]
    if words[:1] == ["--compare"] and len(words) > 2 and words[1] in CRATES:
        printed = pathlib.Path(words[2]).read_text("utf-8")
        return bool(compare(words[1], printed, words[3:] or CRATES[words[1]][0]))
    if words not in ([], ["--check"]):
        print(__doc__)
        return 2
    wrong, total = [], 0
    for crate in CRATES:
        files, cases = files_of(crate)
        if words:
            wrong += [f"{crate}/{name}" for name in differences(folder_of(crate), files)]
        else:
            write(folder_of(crate), files)
        print(f"{crate}: {cases} cases")
        total += cases
    if wrong:
        print(f"not what the tables say: {', '.join(wrong)}; cases.py writes them")
        return 1
    print(f"{total} cases")
    return 0


if __name__ == "__main__":
    sys.exit(main())
