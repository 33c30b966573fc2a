#!/usr/bin/env python3
"""Replaces worker_tool: runs journal_run with the same arguments, and checks that a legal journal follows its report.

It is started by a link, which is next to links to journal_run and journal_check. Standard output gets only the report. Standard
error gets journal_run's messages with worker_tool's name, so that a case for worker_tool works for both programs. If the journal
isn't as expected, standard output gets the fault instead of the report, and the status is 99.
"""
from __future__ import annotations

import json
import os
import pathlib
import subprocess
import sys

HERE = pathlib.Path(os.path.realpath(__file__)).parent
sys.path[:0] = [str(HERE), str(HERE.parent.parent / "tools")]
sys.dont_write_bytecode = True

import journal_texts  # noqa: E402
from journal_rules import first_wrong  # noqa: E402

# Up to how many entries the rules in Python judge a journal too: their time grows with the square.
MOST_ENTRIES = 1000

WRONG = 99


def fault_in(report: bytes, text: bytes, check: str) -> str | None:
    """What is wrong with the text of a run's journal, if anything is. It is checked with the report before it, and without."""
    plan, *entries = [json.loads(line) for line in text.splitlines()]
    legal = f"legal actions={len(plan[0])} entries={len(entries)}\n"
    for given in (text, report + text):
        checked = subprocess.run([check], input=given, capture_output=True, check=False)
        if (checked.returncode, checked.stdout) != (0, legal.encode()):
            return f"journal_check: status {checked.returncode}, {checked.stdout!r}"
    at = first_wrong(plan, entries) if len(entries) <= MOST_ENTRIES else None
    stops = [entry for entry in entries if entry[2] == ["Stop"]]
    lanes = 2 * sum(group[2] for group in plan[1])
    if at is None and len(stops) == lanes:
        return None
    return f"the rules: first wrong {at}, {len(stops)} of {lanes} lanes were told to stop"


def main() -> int:
    place = os.path.dirname(os.path.abspath(sys.argv[0]))
    ended = subprocess.run([f"{place}/journal_run", *sys.argv[1:]], capture_output=True, check=False)
    report, text = journal_texts.split(ended.stdout)
    fault = None
    if ended.returncode in (0, 1):
        fault = fault_in(report, text, f"{place}/journal_check") if text else "no text"
    elif ended.stdout:
        fault = f"something was put with status {ended.returncode}: {ended.stdout!r}"
    sys.stdout.buffer.write(report if fault is None else fault.encode())
    sys.stderr.buffer.write(ended.stderr.replace(b"journal_run: ", b"worker_tool: ", 1))
    return ended.returncode if fault is None else WRONG


if __name__ == "__main__":
    sys.exit(main())
