#!/usr/bin/env python3
"""Checks that each wrong body, of the gate and beside it, still fits the code, and that
docs/ASSURANCE.md lists those of the gate. `make test` runs it first. The last line counts them."""
import pathlib
import re
import sys

TOP = pathlib.Path(__file__).resolve().parent.parent


def fault(edit, crate):
    """Why an edit cannot be applied to a crate; None where it can."""
    if not re.fullmatch(r"[a-z0-9_]+\.edit", edit.name):
        return "its name is not in snake case"
    texts, file, old, pairs = {}, None, None, 0
    for line in edit.read_text(encoding="utf-8").splitlines():
        key, _, text = line.partition(": ")
        if key == "file":
            file = text.strip()
        elif key == "old":
            old = text
        elif key in ("new", "new:"):
            if not file or not old:
                return "a 'new:' comes before any 'file:' or 'old:'"
            if file not in texts:
                if not (crate / file).is_file():
                    return f"there is no file {file}"
                texts[file] = (crate / file).read_text(encoding="utf-8")
            if texts[file].count(old) != 1:
                return f"an 'old:' text is {texts[file].count(old)} times in {file}"
            texts[file] = texts[file].replace(old, text)
            old, pairs = None, pairs + 1
    return None if pairs else "it changes nothing"


def main():
    gate = sorted(TOP.glob("crates/*/must-fail/*.edit"))
    others = sorted(TOP.glob("wrong-bodies/*/*.edit"))
    listed = (TOP / "docs" / "ASSURANCE.md").read_text(encoding="utf-8")
    faults = 0
    for edit in gate + others:
        crate = edit.parent.name if edit in others else edit.parent.parent.name
        why = fault(edit, TOP / "crates" / crate)
        namesake = TOP / "crates" / crate / "must-fail" / edit.name
        if not why and edit in others and namesake.exists():
            why = "the gate has one of that name"
        if not why and edit in gate and f"`{edit.stem}`" not in listed:
            why = "docs/ASSURANCE.md does not list it"
        if why:
            faults += 1
            print(f"{edit.relative_to(TOP)}: {why}")
    print(f"{len(gate)} wrong bodies in the gate, {len(others)} beside it")
    return 1 if faults else 0


sys.exit(main())
