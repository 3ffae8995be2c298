#!/usr/bin/env python3
"""Checks docs/TRUST.md: it lists the definitions that the contracts of the headline use, and no
others, and each count of lines is right.

    trust.py            says what is wrong, and prints the total
    trust.py --write    writes the counts and the total

The first table has the calls: of a row that names functions the contracts of these are taken, of
any other row the contracts of all public functions in its files. The definitions are those that
these contracts name, those that these name, and so on: by the `use` lines, in the files
specs/*.antt of the crates.

A row of the further tables has a file, the definitions of it that count (`all`, `all but` some, or
their names), and how many lines they have. A line counts where it states something: no empty line,
comment, import or head of a block over parameters, and of a kind of JSON values neither the laws,
which the prover checks, nor what it has for these alone (`fits`)."""
import functools
import pathlib
import re
import sys

TOP = pathlib.Path(__file__).resolve().parent.parent
CRATES = TOP / "crates"
PAGE = TOP / "docs" / "TRUST.md"

# The rows of the page.
CALLS = re.compile(r"^\| ([^|]+) \| ([^|]*`[\w/]+(?:\.rt|/)`[^|]*) \|", re.MULTILINE)
ROW = re.compile(r"(\| `([\w/]+\.antt)` \| ([^|]+) \| )(\d+|\?)( \|)")
TOTAL = re.compile(r"(\*\*)([\d,]+|\?)( lines\*\*)")

# The lines of a file of definitions.
HEAD = re.compile(r"\s*(?:(?:pub|abbrev|unfoldable|opaque|data|record) )*(\S+)")
UNCOUNTED = re.compile(r"\s*--|pub mod |module _ |infix")
LAW = re.compile(r"  (?:pub )?(?:fits|needs|apart|either|alike) [=:] ")

# `use` lines: of names in a module, and of a module by another name. Then clauses.
USE = re.compile(r"^ *(?:pub |ghost )*use ([\w«»]+(?:\.[\w«»]+)*)(?:\.\{([^}]*)\}| as (\w+))?;?$",
                 re.MULTILINE)
CLAUSE = re.compile(r"\b(?:(?:requires|ensures)\*?(?: \w+)?|ghost \w+(?::| =)) *\{")
FUNCTION = re.compile(r"\bfn (\w+)")

# The words of a definition; of `a.b` it is `a` that may be another one.
WORD = re.compile(r"[^\s(){}\[\],;|⟦⟧]+")
TEXTS = re.compile(r'"(?:[^"\\]|\\.)*"')


def blocks(file):
    """The lines of each definition of a file that state something, and beside each whether it
    counts. Definitions are separated by empty lines."""
    found, name, law = {}, None, False
    for line in USE.sub("", file.read_text(encoding="utf-8")).splitlines():
        if not line.strip():
            name = None
        elif not UNCOUNTED.match(line):
            name = name or HEAD.match(line)[1]
            # A law goes on in the lines that are further in.
            law = bool(LAW.match(line)) or law and line.startswith("   ")
            found.setdefault(name, []).append((line, not law))
    return found


@functools.cache
def definitions(file):
    """What each definition of a file says, and how many of its lines count."""
    return {
        name: ("\n".join(line for line, counts in lines if counts), sum(it[1] for it in lines))
        for name, lines in blocks(file).items()
    }


@functools.cache
def constructors(file):
    """The constructors of a file's types, each with its type."""
    return {
        constructor: name
        for name, (text, _) in definitions(file).items()
        for constructor in re.findall(r"^  ([\w']+) : ", text, re.MULTILINE)
        if text.startswith("pub data ")
    }


def file_of(module):
    """The file of definitions that a module is, where it is one of this repository."""
    parts = module.split(".")
    if parts[0] != "Rattle" or "specs" not in parts or len(parts) < 4:
        return None
    file = CRATES.joinpath(*parts[1:]).with_suffix(".antt")
    return file if file.is_file() else None


def imports(text):
    """What the `use` lines of a text bring in: by its name there, the file and the name in it, or
    None for a whole file."""
    found = {}
    for module, names, alias in USE.findall(text):
        file = file_of(module)
        if file and alias:
            found[alias] = (file, None)
        for name in names.split(",") if file else ():
            own, _, renamed = name.strip().partition(" as ")
            found[renamed or own] = (file, own)
    return found


def defined(file, name):
    """The definition of that name in a file, or in the file that it has it from."""
    if name in definitions(file):
        return [(file, name)]
    if name in constructors(file):
        return [(file, constructors(file)[name])]
    further = imports(file.read_text(encoding="utf-8")).get(name)
    return defined(*further) if further else []


def named_in(text, brought):
    """The definitions that a text names, by what was brought in."""
    text = TEXTS.sub("", re.sub(r"--.*|//.*", "", text))
    words = [word for word in WORD.findall(text) if not word.startswith(".")]
    plain = {word.split(".")[0] for word in words}
    for name, (file, own) in brought.items():
        if own is None:
            inner = {word.split(".")[1] for word in words if word.startswith(f"{name}.")}
            yield from (it for word in sorted(inner) for it in defined(file, word))
        elif {piece for piece in name.split("◌") if piece} <= plain:
            yield from defined(file, own)


def named_by(file, name):
    """The definitions that one names."""
    text = definitions(file)[name][0]
    brought = imports(file.read_text(encoding="utf-8"))
    brought |= {own: (file, own) for own in [*definitions(file), *constructors(file)]}
    return named_in(text, brought)


def closing(text, at):
    """Where the brace is closed that is opened before a place."""
    depth = 1
    while depth:
        depth += {"{": 1, "}": -1}.get(text[at], 0)
        at += 1
    return at


def named_by_contracts(file, functions):
    """The definitions that the contracts of some functions name; with none named, those of all
    public functions, and what the traits and their `impl` blocks say beside their functions."""
    text = file.read_text(encoding="utf-8")
    of_file = imports("\n".join(line for line in text.splitlines() if not line.startswith(" ")))
    for item in re.split(r"\n\n(?=\S)", text):
        brought = of_file | imports(item)
        is_trait = re.match(r"(?:pub )?trait |impl\b[^{]* for ", item)
        for clause in CLAUSE.finditer(item):
            heads = list(FUNCTION.finditer(item, 0, clause.start()))
            is_ghost = clause[0].startswith("ghost")
            if functions:
                taken = heads and not is_ghost and heads[-1][1] in functions
            else:
                line = item[item.rfind("\n", 0, heads[-1].start()) + 1:] if heads else ""
                taken = is_ghost or is_trait or line.strip().startswith("pub fn")
            if taken:
                yield from named_in(item[clause.end():closing(item, clause.end())], brought)


def files_below(folder):
    """The files of code in a folder, but those of laws, which say more of the same calls."""
    return [file for file in sorted(folder.rglob("*.rt")) if file.name != "laws.rt"]


def headline(text):
    """The definitions that the contracts of the first table name, and what is not there."""
    found, faults = [], []
    for calls, places in CALLS.findall(text):
        files = []
        for place in re.findall(r"`([\w/]+(?:\.rt|/))`", places):
            path = CRATES / place
            if not path.exists():
                faults.append(f"{place} is gone")
            files += files_below(path) if path.is_dir() else [path] * path.exists()
        heads = {name for file in files for name in FUNCTION.findall(file.read_text("utf-8"))}
        functions = set(re.findall(r"`([a-z]\w*)`", calls))
        if functions & heads:
            faults += [f"there is no function {name}" for name in sorted(functions - heads)]
        functions &= heads
        found += [it for file in files for it in named_by_contracts(file, functions)]
    return found, faults


def closure(found):
    """These definitions and all that they use."""
    reached = set()
    while found:
        one = found.pop()
        if one not in reached:
            reached.add(one)
            found += named_by(*one)
    return reached


def names_of(file, words):
    """The definitions of a file that a row names: some, all, or all but some."""
    names = re.findall(r"`([^`]+)`", words)
    if not words.startswith("all"):
        return names
    return [name for name in definitions(file) if name not in names]


def compared(text):
    """Where the page's list and the definitions that the contracts use differ."""
    found, faults = headline(text)
    listed = set()
    for _, place, names, _, _ in ROW.findall(text):
        file = CRATES / place
        if not file.is_file():
            faults.append(f"{place} is gone")
            continue
        for name in names_of(file, names):
            if name not in definitions(file):
                faults.append(f"{place} has no definition {name}")
            elif (file, name) in listed:
                faults.append(f"{name} of {place} is there twice")
            listed.add((file, name))
    if faults:
        return faults
    reached = closure(found)
    shown = lambda it: f"{it[1]} of {it[0].relative_to(CRATES)}"
    return [
        *(f"{shown(it)} is listed, and no contract uses it" for it in sorted(listed - reached)),
        *(f"{shown(it)} is not listed, and a contract uses it"
          for it in sorted(reached - listed)),
    ]


def main():
    text = PAGE.read_text(encoding="utf-8")
    wrong = compared(text)
    if wrong:
        return report(wrong)
    total, stale = 0, []

    def counted(row):
        nonlocal total
        counts = {name: count for name, (_, count) in definitions(CRATES / row[2]).items()}
        lines = sum(counts[name] for name in names_of(CRATES / row[2], row[3]))
        total += lines
        if row[4] != str(lines):
            stale.append(f"{row[2]}: {lines} lines, and not {row[4]}")
        return f"{row[1]}{lines}{row[5]}"

    written = ROW.sub(counted, text)
    if [it[1] for it in TOTAL.findall(text)] != [f"{total:,}"]:
        stale.append(f"{total:,} lines in all")
    if sys.argv[1:] == ["--write"]:
        PAGE.write_text(TOTAL.sub(lambda it: f"{it[1]}{total:,}{it[3]}", written), encoding="utf-8")
    elif stale:
        return report([*stale, "tools/trust.py --write mends the counts"])
    print(f"{len(ROW.findall(text))} files of definitions, {total:,} lines")
    return 0


def report(faults):
    print("\n".join(f"docs/TRUST.md: {it}" for it in faults))
    return 1


if __name__ == "__main__":
    sys.exit(main())
