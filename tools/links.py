#!/usr/bin/env python3
"""Checks that each link in the pages of the repository leads somewhere: to a file that is there,
and to a heading in it. Links to other sites are not followed. And that README.md is short.

A heading's anchor is made as GitHub makes it: in small letters, with no punctuation, and with a
hyphen for each space."""
import pathlib
import re
import sys
import urllib.parse

TOP = pathlib.Path(__file__).resolve().parent.parent
# The most bytes that README.md may have.
MOST = 9_000

FENCED = re.compile(r"^ {0,3}(```|~~~).*?^ {0,3}\1[^\n]*$", re.MULTILINE | re.DOTALL)
CODE = re.compile(r"(`+)(?!`).*?(?<!`)\1(?!`)", re.DOTALL)
# `](PLACE)` in a text, and `[NAME]: PLACE` on a line of its own.
LINK = re.compile(r"\]\(\s*<?([^)\s>]+)>?[^)]*\)|^ {0,3}\[[^\]]+\]: +<?(\S+?)>?\s*$", re.MULTILINE)
HEADING = re.compile(r"^ {0,3}#{1,6} +(.*?)(?: +#+)?\s*$", re.MULTILINE)
ELSEWHERE = re.compile(r"[a-z][a-z0-9+.-]*:")


def anchors(text):
    """The anchors of a page."""
    found = set()
    for heading in HEADING.findall(FENCED.sub("", text)):
        # Of a link in a heading its text counts.
        shown = re.sub(r"\[([^\]]*)\]\([^)]*\)", r"\1", heading)
        anchor = re.sub(r"[^\w\- ]", "", shown.lower()).replace(" ", "-")
        number = 0
        while (name := f"{anchor}-{number}" if number else anchor) in found:
            number += 1
        found.add(name)
    return found


def faults_of(page):
    """The links of a page that lead nowhere."""
    text = page.read_text(encoding="utf-8")
    for link in LINK.finditer(CODE.sub("", FENCED.sub("", text))):
        target = link[1] or link[2]
        if ELSEWHERE.match(target):
            continue
        path, _, anchor = urllib.parse.unquote(target).partition("#")
        place = (page.parent / path).resolve() if path else page
        if not place.exists():
            yield f"there is no {target}"
        elif TOP not in (place, *place.parents):
            yield f"{target} is outside of the repository"
        elif anchor and (place.suffix != ".md" or anchor not in anchors(place.read_text("utf-8"))):
            yield f"there is no heading {target}"


def main():
    pages = [*sorted(TOP.glob("*.md")), *sorted((TOP / "docs").rglob("*.md"))]
    faults = [f"{page.relative_to(TOP)}: {it}" for page in pages for it in faults_of(page)]
    size = (TOP / "README.md").stat().st_size
    if size > MOST:
        faults.append(f"README.md: {size:,} bytes, and {MOST:,} at most")
    print("\n".join(faults) or f"the links of {len(pages)} pages lead somewhere")
    return 1 if faults else 0


if __name__ == "__main__":
    sys.exit(main())
