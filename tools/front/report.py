"""A program's report, read back: each action with its outcome and its text."""
from __future__ import annotations

import re
from typing import NamedTuple

LINE = re.compile(r"(\S+) (ok (?:local|remote)|failed (?:local|remote) -?\d+|broken|skipped \S+|open) local=(.+?) remote=(.+)$")
TOTAL = re.compile(r"actions=\d+ ok=\d+ failed=\d+ broken=\d+ skipped=\d+$")


class Reported(NamedTuple):
    """The part of a report about an action."""

    name: str
    outcome: str  # ok, failed, broken, skipped, open
    detail: str  # the branch, the branch and the exit code, or the producer
    local: str
    remote: str
    text: str

    def branch(self) -> str:
        """Returns the branch whose answer counted."""
        return self.detail.split(" ")[0] if self.outcome in ("ok", "failed") else ""

    def exit(self) -> int | None:
        """Returns the exit code, if there is one."""
        return 0 if self.outcome == "ok" else int(self.detail.split(" ")[1]) if self.outcome == "failed" else None


def read_report(path: str, names: set[str]) -> tuple[dict[str, Reported], bool]:
    """Reads a report. Returns what it contains of the actions that were run, and whether it is complete."""
    found: dict[str, Reported] = {}
    texts: dict[str, list[str]] = {}
    now, is_whole = "", False
    with open(path, encoding="utf-8", errors="replace", newline="\n") as file:
        for line in file:
            line = line.rstrip("\n")
            if line.startswith("  | "):
                texts.setdefault(now, []).append(line[4:])
                continue
            shaped = LINE.match(line)
            if shaped and shaped[1] in names:
                now = shaped[1]
                outcome, _, detail = shaped[2].partition(" ")
                found[now] = Reported(now, outcome, detail, shaped[3], shaped[4], "")
            elif TOTAL.match(line):
                is_whole = True
                break
    found.update((name, found[name]._replace(text="\n".join(lines))) for name, lines in texts.items() if name in found)
    return found, is_whole
