"""What is wrong with a file, by the program `gltf_show inspect`."""
from __future__ import annotations

import json
import os
import pathlib
import shutil
import subprocess
import tempfile
from typing import Any, Dict

from ._document import Source


def _program() -> str:
    """The path of gltf_show: GLTF_SHOW, else one beside this file, else that of the path."""
    stated = os.environ.get("GLTF_SHOW")
    beside = pathlib.Path(__file__).with_name("gltf_show")
    found = stated or (str(beside) if beside.is_file() else shutil.which("gltf_show"))
    if not found:
        raise FileNotFoundError("gltf_show is not installed; GLTF_SHOW can have its path")
    return found


def check(source: Source) -> Dict[str, Any]:
    """The report of a file: a path, or the bytes of a file.

    It is in the layout of the Khronos validator: `issues` with `numErrors`, `numWarnings`,
    `numInfos`, `numHints` and `messages`, each with `code`, `severity` (0 is an error), `pointer`
    and `message`. Without an error the file opens. A buffer outside the folder of the file is not
    read, which is an error. Raises OSError where the file cannot be read.
    """
    if isinstance(source, (str, os.PathLike)):
        return _report(os.fspath(source))
    with tempfile.NamedTemporaryFile(suffix=".gltf") as file:
        file.write(source)
        file.flush()
        return _report(file.name)


def _report(path: str) -> Dict[str, Any]:
    # A name that looks like an option is one of the present folder.
    named = f"./{path}" if path.startswith("-") else path
    ran = subprocess.run([_program(), "inspect", "--json", named], stdout=subprocess.PIPE,
                         stderr=subprocess.PIPE, check=False)
    if ran.returncode not in (0, 1) or not ran.stdout:
        raise OSError(ran.stderr.decode("utf-8", "replace").strip() or "gltf_show failed")
    report: Dict[str, Any] = json.loads(ran.stdout)
    return report
