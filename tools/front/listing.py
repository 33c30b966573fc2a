"""An action list after reading: the actions, their worker keys, and which action needs which."""
from __future__ import annotations

import fnmatch
import hashlib
import json
import os
import sys
from typing import Any, Callable, NamedTuple

from .faults import FLAG_WORD, Unreadable, actions_of, is_kind, read_list
from .list_faults import list_faults, state_faults

Json = dict[str, Any]
WANTED = ("name", "mnemonic", "argv", "outputs")
USED = (*WANTED, "inputs", "tools", "requirements", "env", "strategy")
STATE = ".lenthuvi"
spelt = json.JSONEncoder(sort_keys=True).encode  # `json.dumps` would make an encoder for each action
IMPORTED = ".imported"  # the folder, in a build folder, that an import writes


class Action:
    """An action of a list."""

    __slots__ = ("object", "name", "mnemonic", "argv", "inputs", "outputs", "tools", "strategy", "known_key")

    def __init__(self, held: Json) -> None:
        self.object = held
        self.known_key = ""
        self.name: str = held["name"]
        self.mnemonic: str = held["mnemonic"]
        self.argv: list[str] = held["argv"]
        self.inputs: list[str] = held.get("inputs", [])
        self.outputs: list[str] = held["outputs"]
        self.tools: list[str] = held.get("tools", [])
        self.strategy: str = held.get("strategy", "worker")

    in_place = ""  # why it runs in the project's own folder and not by a program, if it does

    def needs(self) -> dict[str, str]:
        """Returns its requirements."""
        held: dict[str, str] = self.object.get("requirements", {})
        return held

    def has(self, need: str) -> bool:
        """Returns True if a requirement is "1"."""
        return self.needs().get(need) == "1"

    def reads(self) -> list[str]:
        """Returns its inputs, its tools and its program, each once."""
        return [*dict.fromkeys([*self.inputs, *self.tools, self.argv[0]])]

    def may_read(self) -> list[str]:
        """Returns the files that it may read. Once it has run, `reads` may return only some of them."""
        return self.reads()

    def needs_made(self) -> list[str]:
        """Returns the paths whose makers must run before it."""
        return self.inputs

    def waits_for(self, maker: Action) -> bool:
        """Returns True if it can't be in the same call of a program as `maker`, which makes an input of it."""
        return False

    def always(self) -> str:
        """Returns why it is never up to date, or nothing."""
        return ""

    def start_words(self) -> list[str]:
        """Returns the arguments that start its worker."""
        return [it for it in self.argv if not FLAG_WORD.match(it)]

    def flag_words(self) -> list[str]:
        """Returns the arguments that name flag files."""
        return [it for it in self.argv[1:] if FLAG_WORD.match(it)]

    def form(self) -> str:
        """Returns the protocol of its worker: json or proto."""
        return "json" if self.needs().get("requires-worker-protocol") == "json" else "proto"

    def key(self) -> str:
        """Returns its worker key: actions with equal keys may share a worker."""
        if not self.known_key:
            needs = self.needs()
            flags = [needs.get(f"supports-{it}", "") for it in ("multiplex-workers", "multiplex-sandboxing", "worker-cancellation")]
            parts = [needs.get("worker-key-mnemonic", self.mnemonic), self.start_words(), self.object.get("env", {}), self.tools,
                     self.form(), flags, self.strategy == "dynamic"]
            self.known_key = spelt(parts)
        return self.known_key

    def shape(self, flags: list[str]) -> str:
        """Returns a digest of its object in the list and of the extra flags."""
        return hashlib.sha256(spelt([self.object, flags]).encode()).hexdigest()[:32]


class Origin:
    """The origin of a list that no person wrote, and its work during a build."""

    def extra_paths(self) -> list[str]:
        """Returns the files on which the list itself depends."""
        raise NotImplementedError

    def look_again(self, done: list[Action], left: list[Action]) -> None:
        """After some actions, finds again which files the remaining ones may read."""
        raise NotImplementedError

    def run_in_place(self, action: Action, is_over: Callable[[], bool]) -> tuple[int, str]:
        """Runs an action in the project's own folder. Returns its exit code and what it printed."""
        raise NotImplementedError

    def finish(self) -> None:
        """Does the remaining work at the end of a build."""
        raise NotImplementedError


class Listing(NamedTuple):
    """A list: its path, the folder of its memory, its actions in order, and its origin, if it has one."""

    path: str
    state: str
    actions: list[Action]
    origin: Origin | None = None

    def makers(self) -> dict[str, Action]:
        """Returns for each output the action that makes it."""
        return {path: it for it in self.actions for path in it.outputs}

    def mnemonics(self) -> set[str]:
        """Returns the mnemonics of its actions."""
        return {it.mnemonic for it in self.actions}

    def levels(self) -> dict[str, int]:
        """Returns for each action the length of the longest chain of actions below it."""
        made: dict[str, int] = {}
        levels: dict[str, int] = {}
        for it in self.actions:
            level = max((made[path] + 1 for path in it.inputs if path in made), default=0)
            levels[it.name] = level
            made.update(dict.fromkeys(it.outputs, level))
        return levels

    def chosen(self, globs: list[str]) -> list[Action]:
        """Returns the actions whose names or outputs match, and the actions that these need."""
        if not globs:
            return self.actions
        makers, wanted, waiting = self.makers(), set(), []
        for glob in globs:
            fitting = [it for it in self.actions if any(fnmatch.fnmatchcase(text, glob) for text in (it.name, *it.outputs))]
            if not fitting:
                raise Unreadable(f"--only={glob}: no action and no output has such a name")
            waiting += fitting
        while waiting:
            it = waiting.pop()
            if it.name not in wanted:
                wanted.add(it.name)
                waiting += [makers[path] for path in it.inputs if path in makers]
        return [it for it in self.actions if it.name in wanted]


class WrongList(Exception):
    """A list with faults. The text names all of them."""

    def __init__(self, faults: list[str]) -> None:
        super().__init__("\n".join(faults))
        self.faults = faults


def state_folder(path: str) -> str:
    """Returns the folder of a list's memory. No two lists share one."""
    name = "stdin" if path == "-" else os.path.basename(path)
    plain = "".join(it if it.isalnum() or it in "-_" else "_" for it in name.removesuffix(".json"))[:80]
    is_plain = path in ("-", f"{plain}.json", f"./{plain}.json") and plain != ""
    mark = "" if is_plain else "-" + hashlib.sha256(os.path.normpath(path).encode("utf-8", "surrogateescape")).hexdigest()[:8]
    return os.path.join(STATE, "lists", plain + mark)


def load(path: str) -> Listing:
    """Reads a list, or makes the list of an imported folder. If a fault would end a run, WrongList names all faults at once."""
    if is_imported(path):
        from .ninja.folders import load_imported

        return load_imported(path)
    if path == "-":
        data = sys.stdin.buffer.read()
        objects = actions_of(data, "standard input")
    else:
        objects = read_list(path)
        data = b""
    if all(is_plain(it) for it in objects):
        actions = [Action(it) for it in objects]
        if is_sound(actions, path):
            return Listing(path, state_folder(path), actions)
    if path != "-":
        with open(path, "rb") as file:
            data = file.read()
    raise WrongList(list_faults(data.decode(), objects, path) or ["an action isn't as docs/FORMATS.md describes"])


def is_sound(actions: list[Action], path: str) -> bool:
    """Returns True if each name and output occurs once, no input is made later, and no output replaces what the run needs."""
    names: set[str] = set()
    later = {out for it in actions for out in it.outputs}
    for it in actions:
        if it.name in names or not later.isdisjoint(it.inputs) or not later.issuperset(it.outputs):
            return False
        names.add(it.name)
        later.difference_update(it.outputs)
    return next(state_faults([it.object for it in actions], path), None) is None


def is_imported(path: str) -> bool:
    """Returns True if a path is the path of an imported folder's list."""
    return path.endswith(f"{IMPORTED}/list.json") and os.path.exists(os.path.join(os.path.dirname(path), "settings.json"))


def is_plain(held: Any) -> bool:
    """Returns True if an action has the keys that the front needs, and the keys that it uses have the right kinds."""
    return isinstance(held, dict) and all(it in held for it in WANTED) and bool(held["argv"]) and all(
        is_kind(key, held[key]) for key in USED if key in held)
