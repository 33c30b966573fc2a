"""Reads the text of a journal, in the form of docs/FORMATS.md. Anything before its plan, for example a report, is skipped."""
from __future__ import annotations

import dataclasses
import json
from collections.abc import Iterable
from typing import Any

Entry = tuple[int, list[Any], list[Any]]


class NoPlan(Exception):
    """No line is a plan."""


@dataclasses.dataclass(frozen=True)
class Plan:
    """The actions of a run and the groups of its berths."""

    actions: list[list[Any]]
    groups: list[list[Any]]
    limit: int


@dataclasses.dataclass(frozen=True)
class Text:
    """A plan, its entries, and the number of the first line that couldn't be read, if any."""

    plan: Plan
    entries: list[Entry]
    bad: int | None


def value_of(line: str) -> Any:
    """Returns the JSON value of a line, or `None` if it isn't JSON."""
    try:
        return json.loads(line)
    except ValueError:
        return None


def plan_in(value: Any) -> Plan | None:
    is_plan = isinstance(value, list) and len(value) == 3 and [type(it) for it in value] == [list, list, int]
    return Plan(*value) if is_plan else None


def entry_in(value: Any) -> Entry | None:
    is_entry = isinstance(value, list) and len(value) == 3 and [type(it) for it in value] == [int, list, list]
    return (value[0], value[1], value[2]) if is_entry and value[1] and value[2] else None


def read(lines: Iterable[str]) -> Text:
    """Returns the text, up to the first line that isn't an entry."""
    plan: Plan | None = None
    entries: list[Entry] = []
    for number, line in enumerate(lines, 1):
        value = value_of(line)
        if plan is None:
            plan = plan_in(value)
            continue
        entry = entry_in(value)
        if entry is None:
            return Text(plan, entries, number)
        entries.append(entry)
    if plan is None:
        raise NoPlan
    return Text(plan, entries, None)


def split(out: bytes) -> tuple[bytes, bytes]:
    """Returns the part before the first line that is a plan, for example a report, and the text from that line on.

    If no line is a plan, the text is empty. No line of a report is a JSON value: words follow a name, and `  | ` precedes a
    line of a response's text.
    """
    at = 0
    for line in out.splitlines(keepends=True):
        if line.startswith(b"[") and plan_in(value_of(line.decode(errors="replace"))) is not None:
            return out[:at], out[at:]
        at += len(line)
    return out, b""


def line_of(value: Any) -> str:
    """Returns a value as a line, as the programs write it."""
    return json.dumps(value, separators=(",", ":"), ensure_ascii=False)
