"""The faults of single actions that can be seen before a list is run: all of them at once, each with its place.

docs/FORMATS.md has the rules. worker_tool doesn't depend on this: it reads the list by itself.
"""
from __future__ import annotations

import json
import os
import re
from typing import Any, Iterator

Action = dict[str, Any]

KEYS = ("name", "mnemonic", "argv", "env", "tools", "inputs", "outputs", "requirements", "strategy")
WANTED = ("name", "mnemonic", "argv", "outputs")
FLAGS = ("supports-workers", "supports-multiplex-workers", "supports-worker-cancellation", "supports-multiplex-sandboxing")
REQUIREMENTS = (*FLAGS, "requires-worker-protocol", "worker-key-mnemonic")
STRATEGIES = ("worker", "remote", "dynamic")
PATHS = ("tools", "inputs", "outputs")
MOST = {"argv": 1024, "env": 256, "tools": 256, "inputs": 4096, "outputs": 256, "requirements": 64}
MOST_PATH_BYTES, MOST_DEPTH = 4096, 16
RESERVED, PART = ("__sandbox", ".worker_rooms"), ".worker_tool."
TEXTS = {str}
FLAG_WORD = re.compile(r"(@|--?flagfile=).", re.DOTALL)


class Unreadable(Exception):
    """A list none of whose actions can be read."""


def near(word: str, known: tuple[str, ...]) -> str:
    """Returns a hint at the known word that is most like another one, or nothing."""
    import difflib  # few lists need it

    found = difflib.get_close_matches(word, known, 1)
    return f'; did you mean "{found[0]}"?' if found else ""


def read_list(path: str) -> list[Any]:
    """Returns the values of a list's actions. Raises `Unreadable`, with the place, if there are none."""
    try:
        with open(path, "rb") as file:
            return actions_of(file.read(), path)
    except OSError as error:
        raise Unreadable(f"{path}: {error.strerror}, seen from {os.getcwd()}") from error


def actions_of(data: bytes, path: str) -> list[Any]:
    """Returns the values of the actions in a list's bytes. `path` is the list's name in a fault."""
    try:
        held = json.loads(data.decode())
    except json.JSONDecodeError as error:
        raise Unreadable(f"{path}:{error.lineno}:{error.colno}: not JSON: {error.msg}") from error
    except UnicodeDecodeError as error:
        raise Unreadable(f"{path}: not UTF-8: {error.reason} at byte {error.start}") from error
    except RecursionError as error:
        raise Unreadable(f"{path}: not a list: its arrays or objects are nested too deeply") from error
    if not isinstance(held, dict):
        raise Unreadable(f'{path}: the whole text must be an object, for example {{"actions": [..]}}')
    if not isinstance(held.get("actions"), list):
        unknown = "".join(f"; unknown key {key!r}{near(key, ('actions',))}" for key in held if key != "actions")
        raise Unreadable(f'{path}: its key "actions" must be an array{unknown}')
    actions: list[Any] = held["actions"]
    return actions


def program_trouble(program: str) -> str | None:
    """Returns why a program can't be started, as far as that can be seen from the start folder."""
    if not os.path.exists(program):
        hint = "" if "/" in program else "; PATH isn't searched, so give its whole path"
        return f"{program} isn't there, seen from {os.getcwd()}{hint}"
    if not os.path.isfile(program):
        return f"{program} isn't a regular file"
    if not os.access(program, os.X_OK):
        return f"{program} may not be executed: chmod +x {program}"
    try:
        with open(program, "rb") as file:
            return script_trouble(program, file.readline(300))
    except OSError as error:
        return f"{program} can't be read: {error.strerror}"


def script_trouble(program: str, first: bytes) -> str | None:
    """Returns why a program with this first line can't be started."""
    if first[:4] == b"\x7fELF":
        return None
    if first[:2] != b"#!":
        return f"{program} has no #! line and isn't a program of the system: begin it with #!/bin/sh or the like"
    if first.endswith(b"\r\n"):
        return f"{program} has lines that end in CR LF, so the system looks for an interpreter whose name ends in CR"
    words = first[2:].split()
    interpreter = os.fsdecode(words[0]) if words else ""
    return None if os.path.exists(interpreter) else f"its first line names {interpreter!r}, which isn't there: {program}"


def path_trouble(path: str) -> str | None:
    """Returns why a string isn't a valid path of a list."""
    segments = path.split("/")
    if not path or "" in segments:
        return "is empty, begins or ends with a slash, or has two in a row"
    if "." in segments or ".." in segments:
        return "has a segment . or ..; a path is relative to the start folder, in its shortest form"
    if segments[0] in RESERVED:
        return f"begins with {segments[0]}, which the run uses itself"
    part = next((it for it in segments if it.startswith(PART)), None)
    if part is not None:
        return f"has the segment {part}; names that begin with {PART} belong to the run"
    if len(path.encode()) > MOST_PATH_BYTES or "\0" in path:
        return f"has more than {MOST_PATH_BYTES} bytes, or a zero byte"
    return None


def is_kind(key: str, value: Any) -> bool:
    """Returns True if a value is of the kind that a key needs."""
    if key in ("name", "mnemonic", "strategy"):
        return isinstance(value, str)
    if key in ("env", "requirements"):
        return isinstance(value, dict) and set(map(type, value.values())) <= TEXTS
    return isinstance(value, list) and set(map(type, value)) <= TEXTS


KINDS = {"env": "an object of strings", "requirements": 'an object of strings, for example {"supports-workers": "1"}',
         **dict.fromkeys(("argv", *PATHS), "an array of strings"), **dict.fromkeys(("name", "mnemonic", "strategy"), "a string")}


def key_faults(action: Action) -> Iterator[str]:
    """Yields keys that are unknown, missing, or have a value of the wrong kind."""
    for key in action:
        if key not in KEYS:
            yield f": unknown key {key!r}{near(key, KEYS)}"
    for key in KEYS:
        if key in action and not is_kind(key, action[key]):
            yield f".{key}: {KINDS[key]} is needed"
        elif key in MOST and len(action.get(key, ())) > MOST[key]:
            yield f".{key}: more than {MOST[key]}"
        elif key in WANTED and key not in action:
            yield f": the key {key!r} is missing"
    for key in ("mnemonic", "argv"):
        if key in action and is_kind(key, action[key]) and not (action[key] and action[key][0]):
            yield f".{key}: is empty"


def held(action: Action, key: str) -> Any:
    """Returns the value of a key, or an empty one if it is of another kind."""
    value = action.get(key)
    if value is not None and is_kind(key, value):
        return value
    return {} if key in ("env", "requirements") else "" if key in ("name", "mnemonic", "strategy") else []


def need_faults(action: Action) -> Iterator[str]:
    """Yields what its requirements and its strategy lack."""
    needs, strategy = held(action, "requirements"), action.get("strategy", "worker")
    for key, value in needs.items():
        if key not in REQUIREMENTS and near(key, REQUIREMENTS):
            yield f".requirements: unknown key {key!r}{near(key, REQUIREMENTS)}"
        elif key in FLAGS and value != "1":
            yield f'.requirements: {key} is {json.dumps(value)}, and only "1" means yes'
    if needs.get("requires-worker-protocol", "proto") not in ("proto", "json"):
        yield ".requirements: requires-worker-protocol must be proto or json"
    if needs.get("worker-key-mnemonic") == "":
        yield ".requirements: worker-key-mnemonic is empty"
    if strategy not in STRATEGIES:
        yield f".strategy: {strategy!r} is not one of {', '.join(STRATEGIES)}"
    elif strategy != "remote":
        if needs.get("supports-workers") != "1":
            yield f'.requirements: the strategy {strategy} needs "supports-workers": "1"'
        if not any(FLAG_WORD.match(word) for word in held(action, "argv")[1:]):
            yield ".argv: no argument names a flag file, for example @FILE"


def name_faults(action: Action) -> Iterator[str]:
    """Yields what is wrong with its name."""
    name = held(action, "name")
    if "name" in action and not 1 <= len(name.encode()) <= 256:
        yield ".name: 1 to 256 bytes are needed"
    if any(ord(it) <= 32 or ord(it) == 127 for it in name):
        yield ".name: it has a space or a control character"


def path_faults(action: Action) -> Iterator[str]:
    """Yields strings that aren't valid paths."""
    for key in PATHS:
        for path in held(action, key):
            trouble = path_trouble(path)
            if trouble:
                yield f".{key}: {path!r} {trouble}"


def file_faults(action: Action, made: dict[str, int]) -> Iterator[str]:
    """Yields files that are missing, programs that can't be started, and outputs that can't be written."""
    for key in ("tools", "inputs"):
        for path in held(action, key):
            if path not in made and not os.path.isfile(path):
                what = "is a folder, and a file is needed" if os.path.isdir(path) else f"isn't there, seen from {os.getcwd()}"
                yield f".{key}: {path} {what}"
    for program in held(action, "argv")[:1]:
        trouble = program_trouble(program) if program and program not in made else None
        if trouble:
            yield f".argv: {trouble}"
    for path in held(action, "outputs"):
        if os.path.isdir(path):
            yield f".outputs: a folder stands at {path}, so no file can be written there"


def flag_faults(action: Action, made: dict[str, int]) -> Iterator[str]:
    """Yields flag files that aren't among the inputs, aren't UTF-8, or name each other."""
    sources = {path for path in held(action, "inputs") if path not in made}
    words = [word for word in held(action, "argv")[1:] if FLAG_WORD.match(word)]
    yield from (f".argv: {fault}" for fault in expansion_faults(words, sources, 0))


def expansion_faults(words: list[str], sources: set[str], depth: int) -> Iterator[str]:
    """Yields the first fault of the flag files that these arguments name."""
    for word in words:
        if not word.startswith("@") or word == "@" or word.startswith("@@") or "//" in word:
            continue
        path = word[1:]
        if depth == MOST_DEPTH:
            yield f"{word} is more than {MOST_DEPTH} flag files deep; do they name each other?"
            return
        if path not in sources:
            yield f"{word} names a flag file that isn't among the action's inputs, or that an action makes"
            return
        faults = list(file_expansion_faults(path, sources, depth)) if os.path.isfile(path) else []
        if faults:
            yield faults[0]
            return


def file_expansion_faults(path: str, sources: set[str], depth: int) -> Iterator[str]:
    """Yields the first fault of a flag file: it isn't UTF-8, can't be read, or has a line at fault."""
    try:
        with open(path, encoding="utf-8", newline="") as file:
            words = file.read().split("\n")
    except UnicodeDecodeError:
        yield f"the flag file {path} isn't UTF-8"
        return
    except OSError as error:
        yield f"the flag file {path} can't be read: {error.strerror}"
        return
    yield from expansion_faults([word.removesuffix("\r") for word in words], sources, depth + 1)


def place(number: int, action: Any) -> str:
    """Returns where an action is, with its name."""
    name = action.get("name") if isinstance(action, dict) else None
    return f"actions[{number}]" + (f" {json.dumps(name)}" if name else "")


def action_faults(number: int, action: Any, made: dict[str, int]) -> Iterator[str]:
    """Yields all faults of an action. `made` has the outputs of the actions before it."""
    if not isinstance(action, dict):
        yield f"{place(number, action)}: an object is needed"
        return
    for found in (key_faults(action), name_faults(action), path_faults(action), need_faults(action),
                  file_faults(action, made), flag_faults(action, made)):
        yield from (place(number, action) + fault for fault in found)
