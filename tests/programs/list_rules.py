"""The rules of action lists, implemented again from docs/FORMATS.md: the first fault of a list, by Python's json.

This uses no code of the programs. So if both agree, that shows more than that one of them doesn't change.
"""
from __future__ import annotations

import json
import math
from collections.abc import Callable
from typing import Any, TypeVar

T = TypeVar("T")

MOST_BYTES = 33_554_432
MOST_ACTIONS = 4_096
MOST_KEYS = 48
STRATEGIES = ("worker", "remote", "dynamic")
MOST_DEEP = 127

# The required keys.
NEEDED = {"name", "mnemonic", "argv", "outputs"}


class Refused(Exception):
    """A list is refused: the text of its fault's line, and the text that the next line must contain."""

    def __init__(self, fault: str, hint: str, action: int | None = None) -> None:
        super().__init__(fault)
        self.line = f"worker_tool: list refused: {fault}" + ("" if action is None else f" action {action}")
        self.hint = hint


def depth(text: str) -> int:
    """Returns how deeply arrays and objects are nested."""
    deepest = now = 0
    quoted = escaped = False
    for letter in text:
        if quoted:
            quoted, escaped = escaped or letter != '"', not escaped and letter == "\\"
        elif letter == '"':
            quoted = True
        elif letter in "[{":
            now += 1
            deepest = max(deepest, now)
        elif letter in "]}":
            now -= 1
    return deepest


def parsed(given: bytes) -> object:
    def finite(word: str) -> float:
        if not math.isfinite(number := float(word)):
            raise ValueError(word)
        return number

    def constant(word: str) -> object:
        raise ValueError(word)

    try:
        text = given.decode()
        value = json.loads(text, parse_float=finite, parse_constant=constant)
    except (ValueError, RecursionError):
        raise Refused("NotJson", "isn't JSON") from None
    if depth(text) > MOST_DEEP:
        raise Refused("NotJson", "isn't JSON")
    return value


def path_fault(path: str) -> str | None:
    """Returns the hint for a bad path, or None if the path is good."""
    parts = path.split("/")
    rules = [
        (not path, "is empty"),
        (len(path.encode()) > 4096, "is longer than 4096 bytes"),
        ("\0" in path, "has a zero byte"),
        (path.startswith("/"), "begins with a slash"),
        ("" in parts, "has an empty segment"),
        ("." in parts, "has a segment `.`"),
        (".." in parts, "has a segment `..`"),
        (parts[0] in ("__sandbox", ".worker_rooms") or any(part.startswith(".worker_tool.") for part in parts),
         "first segment is `__sandbox` or `.worker_rooms`, or a segment begins with `.worker_tool.`"),
    ]
    return next((said for broken, said in rules if broken), None)


class Action:
    """One action's keys, checked in their order."""

    def __init__(self, number: int, value: object) -> None:
        self.number = number
        if not isinstance(value, dict):
            raise Refused("WrongKind", f"actions[{number}]: ", number)
        self.value: dict[str, Any] = value
        self.name = self.take("name", str, self.check_name)
        self.mnemonic = self.take("mnemonic", str, lambda it: self.check(bool(it), "WrongKind", "mnemonic"))
        self.argv = self.take("argv", list, self.check_argv)
        self.env = self.take("env", dict, lambda it: self.check_texts("env", list(it.values()), 256, "variables"))
        self.tools: list[str] = self.take("tools", list, lambda it: self.check_paths("tools", it, 256, "tools"))
        self.inputs: list[str] = self.take("inputs", list, lambda it: self.check_paths("inputs", it, 4096, "inputs"))
        self.outputs: list[str] = self.take("outputs", list, lambda it: self.check_paths("outputs", it, 256, "outputs"))
        self.requirements = self.take("requirements", dict, self.check_requirements)
        self.strategy = self.take("strategy", str, self.check_strategy, "worker")
        if self.strategy != "remote" and not any(is_flag_file(word) for word in self.argv[1:]):
            self.refuse("NoFlagFile", f"actions[{number}].argv: ")

    def refuse(self, fault: str, hint: str) -> None:
        raise Refused(fault, hint, self.number)

    def check(self, holds: bool, fault: str, key: str) -> None:
        if not holds:
            self.refuse(fault, f"actions[{self.number}].{key}: ")

    def take(self, key: str, kind: type[T], check: Callable[[T], None], default: T | None = None) -> T:
        if key not in self.value:
            self.check(key not in NEEDED, "MissingKey", key)
            value: T = kind() if default is None else default
        else:
            value = self.value[key]
            self.check(isinstance(value, kind), "WrongKind", key)
        check(value)
        return value

    def check_name(self, name: str) -> None:
        plain = all(ord(letter) > 32 and not 127 <= ord(letter) < 160 for letter in name)
        self.check(0 < len(name.encode()) <= 256 and plain, "BadName", "name")

    def check_texts(self, key: str, texts: list[str], most: int, many: str) -> None:
        self.check(all(isinstance(it, str) for it in texts), "WrongKind", key)
        if len(texts) > most:
            raise Refused("TooMany", f"{len(texts)} {many}")

    def check_argv(self, argv: list[str]) -> None:
        self.check(bool(argv), "WrongKind", "argv")
        self.check_texts("argv", argv, 1024, "words")
        self.check(bool(argv[0]), "WrongKind", "argv")

    def check_paths(self, key: str, paths: list[str], most: int, many: str) -> None:
        self.check_texts(key, paths, most, many)
        for path in paths:
            if said := path_fault(path):
                self.refuse("BadPath", said)

    def check_requirements(self, given: dict[str, str]) -> None:
        self.check_texts("requirements", list(given.values()), 64, "requirements")
        protocol = given.get("requires-worker-protocol", "proto")
        fits = protocol in ("proto", "json") and given.get("worker-key-mnemonic", "x")
        self.check(bool(fits), "BadRequirement", "requirements")

    def check_strategy(self, strategy: str) -> None:
        can = self.requirements.get("supports-workers") == "1" or strategy == "remote"
        if strategy not in STRATEGIES:
            self.refuse("NoStrategy", f"actions[{self.number}].strategy: ")
        if not can:
            self.refuse("NoStrategy", f"actions[{self.number}].requirements")

    def key(self) -> object:
        """Returns the worker key. Actions with equal keys share a worker. In a list, equal tools are one file."""
        has = {key: self.requirements.get(f"supports-{key}") == "1" for key in
               ("multiplex-workers", "worker-cancellation", "multiplex-sandboxing")}
        boxed = has["multiplex-workers"] and has["multiplex-sandboxing"]
        multi = has["multiplex-workers"] and self.strategy == "worker"
        mode = "b" if boxed else "m" if multi else "s"
        mnemonic = self.requirements.get("worker-key-mnemonic", self.mnemonic)
        startup = tuple(word for at, word in enumerate(self.argv) if at == 0 or not is_flag_file(word))
        protocol = self.requirements.get("requires-worker-protocol", "proto")
        env = tuple(sorted(self.env.items()))
        return mnemonic, startup, env, tuple(self.tools), protocol, mode, has["worker-cancellation"]


def is_flag_file(word: str) -> bool:
    return any(word.startswith(front) and len(word) > len(front) for front in ("@", "-flagfile=", "--flagfile="))


def check_between(actions: list[Action]) -> None:
    names: set[str] = set()
    made: set[str] = set()
    for at, action in enumerate(actions):
        if action.name in names:
            action.refuse("TwiceNamed", f"actions[{at}].name: ")
        names.add(action.name)
        for path in action.outputs:
            if path in made:
                action.refuse("TwiceMade", f'"{path}" is made before')
            made.add(path)
        later = {path for other in actions[at:] for path in other.outputs}
        for path in action.inputs:
            if path in later and path not in made - set(action.outputs):
                action.refuse("MadeLater", f'"{path}" is made by this action')


def read(given: bytes) -> list[Action]:
    """Returns the actions of a list. Raises Refused for its first fault."""
    if len(given) > MOST_BYTES:
        raise Refused("TooMany", f"{len(given)} bytes")
    value = parsed(given)
    if not isinstance(value, dict):
        raise Refused("WrongKind", "the whole text")
    if "actions" not in value:
        raise Refused("MissingKey", "actions: ")
    if not isinstance(value["actions"], list):
        raise Refused("WrongKind", "actions: ")
    if len(value["actions"]) > MOST_ACTIONS:
        raise Refused("TooMany", f"{len(value['actions'])} actions")
    actions = [Action(number, it) for number, it in enumerate(value["actions"])]
    check_between(actions)
    keys = {action.key() for action in actions if action.strategy != "remote"}
    if len(keys) > MOST_KEYS:
        raise Refused("TooMany", f"{len(keys)} worker keys")
    return actions


def first_source(actions: list[Action]) -> str | None:
    """Returns the file that is read first: a tool or input that no action makes, of the first action that has one."""
    made = {path for action in actions for path in action.outputs}
    for action in actions:
        for path in [*action.tools, *(it for it in action.inputs if it not in made)]:
            return path
    return None
