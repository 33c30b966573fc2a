"""The sandbox of --isolate, made by bwrap: no network, a separate process space, and only the room is writable."""
from __future__ import annotations

import functools
import os
import shutil
import subprocess
from typing import Any

from .options import Unwanted

SECONDS = 20
# These are tried in turn, since a new /proc may be refused inside another container.
FORMS = (["--unshare-pid", "--proc", "/proc"], ["--ro-bind", "/proc", "/proc"])


@functools.cache
def sandbox() -> list[str]:
    """Returns the words that start a program in a sandbox here, without the binds of its room."""
    program = shutil.which("bwrap")
    if program is None:
        raise Unwanted("--isolate needs bwrap, which isn't in PATH; Debian has it in the package bubblewrap")
    said = ""
    for form in FORMS:
        words = [os.path.abspath(program), "--ro-bind", "/", "/", "--dev", "/dev", *form, "--tmpfs", "/tmp", "--unshare-net",
                 "--die-with-parent", "--new-session"]
        tried = subprocess.run([*words, "--", "/bin/true"], stdin=subprocess.DEVNULL, capture_output=True, text=True, timeout=SECONDS,
                               check=False)
        if tried.returncode == 0:
            return words
        said = tried.stderr.strip()
    raise Unwanted(f"--isolate: bwrap can't make a sandbox here: {said}")


def bound(words: list[str], start: str, reads: list[str]) -> dict[str, Any]:
    """Returns the sandbox for programs of a list: the start folder is empty in it, except for the files that they need."""
    binds = [word for path in dict.fromkeys(reads) if is_below(path, start) for word in ("--ro-bind", path, path)]
    return {"words": [*words, "--tmpfs", start, *binds], "start": start}


def is_below(path: str, folder: str) -> bool:
    """Returns True if a file is below a folder and exists."""
    return os.path.exists(path) and os.path.abspath(path).startswith(os.path.join(folder, ""))
