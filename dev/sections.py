"""Replaces a script's section of a program's stored input and expected output."""
from __future__ import annotations

import pathlib

CRATES = pathlib.Path(__file__).resolve().parent.parent / "crates"


def put(crate: str, heading: str, asked: list[str], told: list[str]) -> None:
    """Writes the lines after the heading, which begins with `##`, up to the next heading or the end."""
    for name, lines in (("stdin", asked), ("stdout", told)):
        file = CRATES / crate / name
        stands = file.read_text().splitlines()
        first = stands.index(heading) + 1
        behind = next((at for at in range(first, len(stands)) if stands[at].startswith("##")), len(stands))
        file.write_text("\n".join(stands[:first] + lines + stands[behind:]) + "\n")
