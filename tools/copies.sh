#!/bin/sh
# Checks that the copies of example files are the same: a program of the gate sees the files in its
# own data/ alone. And that the code of README.md and of docs/LIBRARY.md is what a crate holds.
cd "$(dirname "$0")/.." || exit 2
status=0
for file in examples/*; do
    for copy in crates/*/data/"$(basename "$file")"; do
        if [ -e "$copy" ] && ! cmp "$file" "$copy"; then
            status=1
        fi
    done
done
python3 - crates/gltf_tests/src/tests/first_steps.rt c/show.c <<'END' || status=1
import pathlib, re, sys, textwrap

# The lines of C are the body of a function.
readme = pathlib.Path("README.md").read_text("utf-8")
for language, before, place in zip(("rust", "c"), ("", "    "), sys.argv[1:]):
    code = re.search(f"```{language}\n(.*?)```", readme, re.DOTALL)[1]
    if textwrap.indent(code, before) not in pathlib.Path(place).read_text("utf-8"):
        sys.exit(f"the code of README.md is not in {place}")
END
python3 - crates/gltf_guide/src/*.rt crates/gltf_tests/src/tests/first_steps.rt <<'END' || status=1
import pathlib, re, sys

code = "".join(pathlib.Path(place).read_text("utf-8") for place in sys.argv[1:])
code = re.sub("(?m)^pub fn ", "fn ", code)
for block in re.findall("```rust\n(.*?)```", pathlib.Path("docs/LIBRARY.md").read_text("utf-8"), re.DOTALL):
    for part in re.split(r"\n(?=///)", block.rstrip("\n")):
        if part.rstrip("\n") not in code:
            sys.exit(f"this code of docs/LIBRARY.md is in no crate:\n{part}")
END
exit "$status"
