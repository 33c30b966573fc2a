"""The successes of actions, and why one isn't up to date any more."""
from __future__ import annotations

import json
from collections.abc import Container
from typing import NamedTuple

from .digests import Files, sum_of, write_whole
from .listing import Action

SPOILED = "what is remembered of it can't be read"


class Success(NamedTuple):
    """The digests of an action's words, of its reads and of its outputs, and the digest of each file as JSON."""

    shape: str
    reads: str
    outputs: str
    details: str


class Memory:
    """The successes of a list's actions, a line each. The last line of a name counts."""

    def __init__(self, path: str) -> None:
        self.path = path
        self.successes: dict[str, Success] = {}
        self.lines = 0
        self.is_torn = False  # a write was cut off at the end of the file, for example by a full disk
        try:
            with open(path, encoding="utf-8", errors="surrogateescape", newline="\n") as file:
                for line in file:
                    self.is_torn = not line.endswith("\n")
                    parts = line.rstrip("\n").split("\t", 4)
                    if len(parts) == 5 and not self.is_torn:
                        self.successes[parts[0]] = Success(*parts[1:])
                    self.lines += 1
        except OSError:
            pass

    def add(self, found: dict[str, Success]) -> None:
        """Remembers successes, at once and for good."""
        if not found:
            return
        self.successes.update(found)
        with open(self.path, "a", encoding="utf-8", errors="surrogateescape", newline="\n") as file:
            file.write(("\n" if self.is_torn else "") + lines_of(found))
        self.lines += len(found)
        self.is_torn = False

    def tidy(self) -> None:
        """Writes the file again if most of its lines no longer count."""
        if self.lines > 2 * len(self.successes) + 100:
            write_whole(self.path, lines_of(self.successes))


def lines_of(found: dict[str, Success]) -> str:
    """Returns the lines of successes."""
    return "".join(f"{name}\t" + "\t".join(it) + "\n" for name, it in found.items())


def success_of(action: Action, shape: str, files: Files) -> Success:
    """Returns the success of an action that has just succeeded."""
    reads, outputs = files.digests(action.reads()), files.digests(action.outputs)
    return Success(shape, sum_of(reads.items()), sum_of(outputs.items()), json.dumps([reads, outputs]))


def reason(action: Action, shape: str, last: Success | None, files: Files, unsettled: Container[str]) -> str | None:
    """Returns why an action isn't up to date, or None if it is, regardless of its unsettled inputs."""
    if last is None:
        return "it hasn't succeeded before"
    if last.shape != shape:
        return "its words changed"
    reads = action.reads()
    has_unsettled = any(path in unsettled for path in reads)
    reads_differ = has_unsettled or sum_of((path, files.digest(path)) for path in reads) != last.reads
    outputs_differ = sum_of((path, files.digest(path)) for path in action.outputs) != last.outputs
    if not (reads_differ or outputs_differ):
        return None
    try:
        read_before, made_before = json.loads(last.details)
    except (ValueError, TypeError):
        return SPOILED
    for path in reads if reads_differ else ():
        if path not in unsettled and files.digest(path) != read_before.get(path):
            return f"{path} {'is gone' if files.digest(path) is None else 'changed'}"
    for path in action.outputs if outputs_differ else ():
        if files.digest(path) != made_before.get(path):
            return f"its output {path} {'is gone' if files.digest(path) is None else 'was changed'}"
    return None if has_unsettled and not outputs_differ else SPOILED
