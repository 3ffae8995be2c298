"""Libraries that are loaded in front of the C library, so that a program fails as it may."""
import os
import pathlib
import subprocess

TOOLS = pathlib.Path(__file__).resolve().parent


def library(name, folder):
    """The library of `tools/NAME.c`, made in a folder."""
    made = os.path.join(folder, f"{name}.so")
    words = ["cc", "-O1", "-shared", "-fPIC", "-nostdlib", "-o", made, TOOLS / f"{name}.c"]
    subprocess.run(words, check=True)
    return made
