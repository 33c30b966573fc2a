"""Tells whether a program is proved or a trial, and from which sources it was built.

A record is a few lines `key: value`, and contains the SHA-256 of its program, so that it never applies to a program that replaced
it. A program's record is next to it, PROGRAM.proof or PROGRAM.trial; in a release the file PROOF, one folder above, has the records
of all programs, with empty lines between them.
"""
from __future__ import annotations

import dataclasses
import hashlib
import os

PROVED, TRIAL, UNKNOWN = "proved", "trial", "unknown"

# The words of a trial's record, and of a proved program's if the prover's last line isn't known.
NOTHING = "nothing is proved"
BY_RT = "rt proved it and built it"


@dataclasses.dataclass(frozen=True)
class State:
    """What is known of a program."""

    kind: str  # PROVED, TRIAL or UNKNOWN
    sources: str = ""  # the sum of the sources that it was built from
    kit: str = ""  # the line of `rt version`
    verdict: str = ""  # the prover's last line on the program's own crate; of a trial NOTHING

    def __str__(self) -> str:
        """Returns it in words, for one line."""
        if self.kind == UNKNOWN:
            return "of unknown origin: no record says how it was built"
        said = "proved" if self.kind == PROVED else f"a TRIAL, {NOTHING}"
        return f"{said}; sources {self.sources[:16]}, {self.kit}"


def release_version() -> str:
    """Returns the version of the checkout, release or installation that this file is part of."""
    top = os.path.dirname(os.path.dirname(os.path.realpath(__file__)))
    try:
        with open(f"{top}/VERSION", encoding="utf-8") as file:
            return file.read().strip()
    except OSError:
        return "of an unknown version"


def sum_of_file(path: str) -> str:
    """Returns the SHA-256 of a file. Raises OSError if it can't be read."""
    with open(path, "rb") as file:
        return hashlib.sha256(file.read()).hexdigest()


def record(name: str, sha256: str, state: State) -> str:
    """Returns the record of a program of this name with this sum."""
    rows = {"program": name, state.kind: state.verdict, "sources": state.sources, "kit": state.kit, "sha256": sha256}
    return "".join(f"{key}: {value}\n" for key, value in rows.items())


def record_path(program: str, kind: str) -> str:
    """Returns where the record of a program stands that is PROVED or a TRIAL."""
    return program + {PROVED: ".proof", TRIAL: ".trial"}[kind]


def _records(path: str) -> list[dict[str, str]]:
    """Returns the records of a file: none if it can't be read."""
    try:
        with open(path, encoding="utf-8", errors="replace") as file:
            parts = file.read().split("\n\n")
    except OSError:
        return []
    return [dict(line.split(": ", 1) for line in part.splitlines() if ": " in line) for part in parts]


def state_of(program: str) -> State:
    """Returns what is known of the program at this path; UNKNOWN if it isn't there."""
    try:
        is_sum = sum_of_file(program)
    except OSError:
        return State(UNKNOWN)
    above = os.path.join(os.path.dirname(os.path.dirname(os.path.realpath(program))), "PROOF")
    for path in (record_path(program, TRIAL), record_path(program, PROVED), above):
        for it in _records(path):
            kind = next((kind for kind in (TRIAL, PROVED) if kind in it), UNKNOWN)
            if it.get("sha256") == is_sum and kind != UNKNOWN:
                return State(kind, it.get("sources", ""), it.get("kit", ""), it[kind])
    return State(UNKNOWN)


def put_program(made: str, program: str, state: State) -> None:
    """Moves a program that was made to its place, and its record with it. Its folder is of the same file system.

    A kill at any moment leaves a whole program at its place, the old or the new one, and no record that isn't true of it.
    Raises OSError.
    """
    with open(f"{made}.record", "w", encoding="utf-8") as file:
        file.write(record(os.path.basename(program), sum_of_file(made), state))
    os.chmod(made, 0o755)
    os.replace(made, program)
    os.replace(f"{made}.record", record_path(program, state.kind))
    other = record_path(program, TRIAL if state.kind == PROVED else PROVED)
    if os.path.lexists(other):
        os.remove(other)
