"""Failures in the form that GitHub shows next to the lines of a change: `::error file=..,line=..::text` on standard output."""
from __future__ import annotations

import os
import re

from .options import Words

PLACE = re.compile(r"^(?P<path>[^\s:][^:\n]*?)[:(](?P<line>\d+)(?:[:,](?P<column>\d+))?\)?:\s*(?:fatal )?(?P<kind>error|warning)?:?\s*(?P<text>.+)$")
ROOM = re.compile(r"^.*/\.worker_rooms/\d+(?:\.\d+)?/(?:__sandbox/\d+/)?")
MOST = 10  # of each action; GitHub itself shows ten of a kind for a step


def are_wanted(words: Words) -> bool:
    """Returns True if annotations are requested, or if GitHub started the run."""
    when = words.last("--annotate", "auto")
    return when == "always" or (when == "auto" and os.environ.get("GITHUB_ACTIONS") == "true")


def annotations_of(name: str, lines: list[str]) -> list[str]:
    """Returns the annotations of an action that failed: one for each line of its text that names a place, or one for all."""
    found = []
    for line in lines:
        shaped = PLACE.match(line)
        if shaped and shaped["kind"] != "warning":
            where = f"file={escaped(own_path(shaped['path']), True)},line={shaped['line']}"
            where += f",col={shaped['column']}" if shaped["column"] else ""
            found.append(f"::error {where},title={escaped(name, True)}::{escaped(shaped['text'])}")
    return found[:MOST] or [f"::error title={escaped(name, True)}::{escaped(chr(10).join(lines[:20]) or 'not made')}"]


def own_path(path: str) -> str:
    """Converts a path in a room to a path from the top of the checked-out repository."""
    path = ROOM.sub("", path)
    if os.path.isabs(path):
        return path
    top = os.environ.get("GITHUB_WORKSPACE", os.getcwd())
    return os.path.normpath(os.path.join(os.path.relpath(os.getcwd(), top), path))


def escaped(text: str, is_property: bool = False) -> str:
    """Returns a text with the escapes that the command needs."""
    for plain, code in (("%", "%25"), ("\r", "%0D"), ("\n", "%0A"), *(((":", "%3A"), (",", "%2C")) if is_property else ())):
        text = text.replace(plain, code)
    return text
