"""Builds a measuring program of dev/bench as a trial, in a copy of the repository.

Such a program isn't proved and needn't be, so its files have the ending .in, which the gate skips. The build takes a minute or two.
"""
from __future__ import annotations

import contextlib
import pathlib
import shutil
import subprocess
import sys
import tempfile
from collections.abc import Iterator

TOP = pathlib.Path(__file__).resolve().parent.parent
COPIED = ("build", "tools", "dev", "crates", "crates.txt", "HANDLES", "VERSION")


def copy_repository(to: pathlib.Path, name: str, below: str) -> None:
    """Copies what a build reads, and makes a crate of the program that measures."""
    for it in COPIED:
        if (TOP / it).is_dir():
            shutil.copytree(TOP / it, to / it, ignore=shutil.ignore_patterns("out"))
        else:
            shutil.copy(TOP / it, to / it)
    measuring = TOP / "dev/bench" / name
    for path in measuring.glob("*/*.in"):
        folder = to / "crates" / name / path.parent.name
        folder.mkdir(parents=True, exist_ok=True)
        shutil.copy(path, folder / path.stem)
    with open(to / "crates.txt", "a", encoding="utf-8") as file:
        file.write(f"{name}: {below}\n")


@contextlib.contextmanager
def trial_of(name: str, below: str) -> Iterator[pathlib.Path]:
    """Yields the path of the program, which depends on the crates `below`. It is removed afterwards."""
    with tempfile.TemporaryDirectory(prefix=f"{name}-") as room:
        copy = pathlib.Path(room)
        copy_repository(copy, name, below)
        subprocess.run(["./build", "--trial", name], cwd=copy, check=True, stdout=sys.stderr)
        yield copy / "bin" / name


def prints_stored(name: str, printed: str) -> bool:
    """Returns whether the program printed what is stored in its folder, and says so if it didn't."""
    is_same = printed == (TOP / "dev/bench" / name / "stdout").read_text(encoding="utf-8")
    if not is_same:
        print(f"the output of {name} isn't that of dev/bench/{name}/stdout:\n{printed}", file=sys.stderr)
    return is_same
