#!/usr/bin/env python3
"""Shows where the instructions of one import of a file go, as valgrind's callgrind counts them:
those of some imports less those of fewer, so that the start of the program is left out. Prints a
table in Markdown: what takes them, and how many it takes.

callgrind counts an instruction for each byte that the processor clears or copies by one `rep`
instruction: 33,000 where 33 kB are cleared.

Exit status: 0; 1 where the import fails; 2 where valgrind is not there."""
import argparse
import pathlib
import re
import shutil
import subprocess
import sys
import tempfile

BOX = pathlib.Path(__file__).resolve().parent.parent.parent / "examples" / "box.glb"
# A file below this many bytes is imported twelve times and twice, a larger one twice and once.
SMALL = 100_000
# The first of these that a function's name begins with is what it counts for.
PARTS = {
    "memory cleared (`memset`)": "__memset",
    "memory copied (`memcpy`, `memmove`)": "__memcpy|__memmove",
    "`malloc`, `realloc`, `free`": r"_int_|malloc|realloc|calloc|free|unlink_chunk|systrim"
                                   r"|sysmalloc|tcache|rattle_(de|re)?alloc",
    "names of members looked up, values read in place": r"gltf_json_pull::rows",
    "records and lists": r"gltf_json_pull::|std_alloc::",
    "the index of the text's marks": r"json::index",
    "the reader of tokens": r"json::",
    "numbers": r"gltf_json_tokens::number|fast_float|core::dec2flt",
    "values kept as JSON": r"gltf_json_tokens::build|serde_json|std_collections",
    "UTF-8": r"simdutf8",
    "records read from such values": r"gltf_json_(record|geometry|material|scene|animation)",
    "records dropped": r"gltf_json::",
    "rules": r"gltf_validation|gltf_rules",
    "`import_slice` and what is inlined into it": r"gltf::|gltf_buffers|gltf_glb"
                                                  r"|gltf_json_deserialize",
}
OTHERS = "all else"


def counted(program, file, times):
    """How many instructions each function takes, while a file is imported so many times."""
    with tempfile.TemporaryDirectory() as name:
        out = pathlib.Path(name, "out")
        words = ["valgrind", "--tool=callgrind", f"--callgrind-out-file={out}", program, file,
                 str(times)]
        done = subprocess.run(words, stdout=subprocess.PIPE, stderr=subprocess.PIPE, text=True)
        if done.returncode or done.stdout.strip() != str(times):
            sys.exit(f"profile: {file} cannot be imported: {done.stdout}{done.stderr}")
        words = ["callgrind_annotate", "--threshold=100", out]
        text = subprocess.run(words, stdout=subprocess.PIPE, text=True, check=True).stdout
    counts = {}
    for line in text.splitlines():
        row = re.match(r"\s*([\d,]+) \(\s*[\d.]+%\)\s+\S*?:(\S+)", line)
        if row:
            counts[row[2]] = counts.get(row[2], 0) + int(row[1].replace(",", ""))
    return counts


def part_of(function):
    return next((part for part, names in PARTS.items() if re.match(names, function)), OTHERS)


def main():
    form = argparse.RawDescriptionHelpFormatter
    parser = argparse.ArgumentParser(prog="run.sh", description=__doc__, formatter_class=form)
    parser.add_argument("--program", type=pathlib.Path, help="the program, where it is built")
    parser.add_argument("--file", type=pathlib.Path, default=BOX, help="another file")
    parser.add_argument("--functions", action="store_true", help="prints each function")
    words = parser.parse_args()
    if not words.program or not words.program.is_file():
        parser.error("--program names no file")
    if not shutil.which("valgrind"):
        print("profile: apt-get install valgrind gets what counts instructions", file=sys.stderr)
        return 2
    least, most = (2, 12) if words.file.stat().st_size < SMALL else (1, 2)
    few = counted(words.program, words.file, least)
    many = counted(words.program, words.file, most)
    each = {name: (many[name] - few.get(name, 0)) / (most - least) for name in many}
    parts = {}
    for name, count in each.items():
        part = name if words.functions else part_of(name)
        parts[part] = parts.get(part, 0) + count
    whole = sum(each.values())
    print("| what | instructions | of all |\n|---|---|---|")
    for part, count in sorted(parts.items(), key=lambda it: -it[1]):
        if count >= 0.5:
            print(f"| {part} | {count:,.0f} | {count / whole:.1%} |")
    print(f"| all | {whole:,.0f} | |")
    return 0


if __name__ == "__main__":
    sys.exit(main())
