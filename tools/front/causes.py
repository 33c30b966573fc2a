"""Why an action isn't made, and what to do about it: from the report, the watchers' events, and what is in the start folder."""
from __future__ import annotations

import os
import re
from typing import TYPE_CHECKING, Iterator

from .faults import program_trouble
from .listing import Action
from .report import Reported
from .watch import how_ended

if TYPE_CHECKING:
    from .build import Build
    from .follow import Event

FATE = re.compile(r"(dropped|spoiled):(.*?)(?::\d+)?$")


def causes_of(made: Build, it: Reported) -> list[str]:
    """Returns the causes for which an action isn't made, a line each, the most telling first."""
    action = made.by_name[it.name]
    lines = []
    for branch, fate in (("local", it.local), ("remote", it.remote)):
        found = FATE.match(fate)
        if found:
            lines += branch_lines(made, action, branch, found[1], found[2])
    return list(dict.fromkeys(lines)) or program_lines(made.said, it.name)


def branch_lines(made: Build, action: Action, branch: str, kind: str, cause: str) -> list[str]:
    """Returns what is known of a branch that was dropped or spoiled."""
    if kind == "spoiled":
        return [spoiled_line(action.outputs[int(cause)]) if cause.isdigit() else "an output couldn't be written"]
    if cause == "launch":
        program = action.argv[0] if branch == "local" else made.words.last("--executor", "remote_exec")
        trouble = program_trouble(program) if branch == "local" else None
        return [trouble] if trouble else program_lines(made.said, action.name) or [f"{program}: the system refused to start it"]
    if cause == "refused":
        trouble = program_trouble(action.argv[0])
        return [f"the executor refused the job: {trouble}"] if trouble else program_lines(made.said, action.name)
    if cause == "room":
        return [*program_lines(made.said, action.name), room_line()]
    if cause.startswith("missing("):
        return missing_lines(cause[8:-1])
    if cause == "large":
        return ["the job has more than 64 MiB with its inputs; a worker has no such limit"]
    noted = made.causes.get(action.name, []) or (made.unclaimed.get(action.mnemonic, []) if branch == "local" else [])
    return list(event_lines(noted, action)) or program_lines(made.said, action.name)


def event_lines(events: list[Event], action: Action) -> Iterator[str]:
    """Yields what the watchers noted of an action that wasn't answered, its last attempt first."""
    was_limited = any(it["e"] == "limit" for it in events)
    for it in reversed(events):
        what = it["e"]
        if what == "limit":
            wrote = "what it wrote isn't a complete answer" if it.get("held", "''") != "''" else \
                "it wrote nothing: does it flush its output, and does it read the protocol that the list asks for?"
            yield f"it owed an answer for longer than --limit; {wrote}"
        elif what == "end" and not was_limited:
            yield f"its worker {how_ended(it['status'])}"
        elif what == "text":
            yield f"on its standard output, where only answers belong, it wrote {it['text']}; {text_hint(it['text'], action.form())}"
        elif what == "stray":
            yield f"it answered request {it['id']}, which wasn't open; an answer has its request's number"
        elif what == "closed":
            yield "it closed its standard output and went on"


def text_hint(text: str, form: str) -> str:
    """Returns what a text that is no answer most often is."""
    if text.startswith(("'{", '"{')):
        return "an answer in JSON is one line with a line feed at its end" if form == "json" else \
            'that is JSON, for which a list asks by "requires-worker-protocol": "json"'
    if "\\x" not in text:
        return "messages for people belong on standard error"
    return "the list asks for JSON; is that protobuf?" if form == "json" else "that spells no answer"


def missing_lines(path: str) -> list[str]:
    """Returns why an output wasn't there after the answer."""
    if os.path.lexists(path) and not os.path.isdir(path):
        here = f"; there is a {path} in the start folder: is it an old one, or did the worker write to an absolute path?"
    else:
        here = ""
    return [f"it answered, but created no regular file at {path} below its own folder, the room{here}"]


def spoiled_line(path: str) -> str:
    """Returns why an output couldn't be written."""
    if os.path.isdir(path):
        return f"{path} wasn't written: a folder is there"
    parts = path.split("/")
    above = ["/".join(parts[:count]) for count in range(1, len(parts))]
    for folder in above:
        if os.path.lexists(folder) and not os.path.isdir(folder):
            return f"{path} wasn't written: {folder} is a file, and a folder is needed"
    for folder in reversed([".", *above]):
        if os.path.isdir(folder):
            if not os.access(folder, os.W_OK):
                return f"{path} wasn't written: {os.path.abspath(folder)} isn't writable"
            break
    return f"{path} wasn't written: is the disk full? (df .)"


def room_line() -> str:
    """Returns why a room couldn't be made or filled."""
    for path in (".worker_rooms", "."):
        if os.path.lexists(path) and not (os.path.isdir(path) and os.access(path, os.W_OK)):
            return f"{os.path.abspath(path)} isn't a folder that can be written"
    return "the room couldn't be made or filled: is the disk full? (df .)"


def program_lines(said: list[str], name: str) -> list[str]:
    """Returns what the program itself printed about an action on standard error."""
    found, is_on = [], False
    for line in said:
        if not line.startswith("   "):
            is_on = line.strip().startswith((f"{name}: ", f"{name} "))
        if is_on:
            found.append(line.strip().removeprefix(f"{name}: "))
    return found
