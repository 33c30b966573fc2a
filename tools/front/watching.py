"""The watchers of a call: their settings, and the list with a watcher before each worker."""
from __future__ import annotations

import json
import marshal
import os
import shutil
import sys
from typing import Iterator

from . import isolation, keeper, programs
from .digests import stamp_of, write_whole
from .faults import program_trouble
from .listing import STATE, Action, Json, Listing
from .options import Unwanted, Words
from .watch import STARTED, quoted, sum_of

MOST_ARGV = 1024
MOST_FLAG_DEPTH = 16


class Watching:
    """The settings of the watchers for one call of a program."""

    def __init__(self, listing: Listing, words: Words, tools: dict[str, str | None], executor: str) -> None:
        self.state, self.words, self.tools, self.executor = os.path.abspath(listing.state), words, tools, executor
        self.limits = programs.limits_of(words, listing.mnemonics())
        self.start = os.getcwd()
        self.sandbox = isolation.sandbox() if words.has("--isolate") else []
        self.prefix = [sys.executable, "-I", "-S", STARTED]
        self.turns = ""
        self.most_kept = programs.MOST_KEYS
        self.timer = shutil.which("timeout") or ""
        self.troubles: dict[str, bool] = {}
        for name in ("keys", "logs"):
            os.makedirs(os.path.join(self.state, name), exist_ok=True)

    def more_bytes(self) -> int:
        """Returns how many bytes a watcher adds to the text of an action."""
        return sum(len(json.dumps(it)) + 2 for it in self.prefix) + len(json.dumps(self.state)) + len(json.dumps(self.start)) + 80

    def common(self) -> Json:
        """Returns the settings of all watchers."""
        rooms = os.path.join(os.path.abspath(STATE), "rooms") if self.words.has("--keep-rooms") else ""
        return {"events": os.path.join(self.state, "events.jsonl"), "logs": os.path.join(self.state, "logs"), "rooms": rooms,
                "stop": os.path.join(self.state, "stop"), "stops": self.words.has("--stop"), "limit": self.limits.default,
                "keep": 0.0, "tools": "", "stamps": [], "local": False, "in_turn": True, "start": self.start, "turns": self.turns,
                "alone": False, "outputs": {}, "isolate": None, "timer": self.timer}

    def is_watched(self, action: Action) -> bool:
        """Returns True if a watcher is put before an action's worker."""
        program = action.argv[0]
        if program not in self.troubles:
            self.troubles[program] = program_trouble(program) is not None
        can = action.has("supports-workers") and not self.troubles[program] and len(action.argv) + len(self.prefix) < MOST_ARGV
        return can and (action.strategy != "remote" or self.words.has("--strategy")) and bool(action.flag_words())

    def watched(self, actions: list[Action]) -> list[Json]:
        """Writes the settings of the worker keys. Returns the actions with watchers before their workers."""
        groups: dict[str, list[Action]] = {}
        key_of = {it.name: it.key() for it in actions if self.is_watched(it)}
        for it in actions:
            if it.name in key_of:
                groups.setdefault(key_of[it.name], []).append(it)
        fronts = {key: [*self.prefix, self.write_key(sum_of([key]), found), os.path.abspath(found[0].argv[0])] for key, found in groups.items()}
        return [{**it.object, "argv": [*fronts[key_of[it.name]], *it.argv[1:]]} if it.name in key_of else it.object for it in actions]

    def write_key(self, mark: str, actions: list[Action]) -> str:
        """Writes the settings of a worker key. Returns the file's path."""
        first = actions[0]
        reads = [*first.tools, first.argv[0]]
        several = first.has("supports-multiplex-workers") and first.strategy == "worker"
        keep = self.words.number("--keep", 0)
        config = {**self.common(), "form": first.form(), "kind": first.mnemonic, "names": self.names_of(actions), "in_turn": not several,
                  "tools": sum_of([f"{path}={self.tools.get(path)}" for path in reads]),
                  "stamps": [[os.path.abspath(path), *(stamp_of(path) or ())] for path in (*reads, *keeper.named_files(first.start_words()))],
                  "keep": keep, "kept": keeper.folder() if keep else "", "most_kept": self.most_kept}
        if self.sandbox:
            config["isolate"] = isolation.bound(self.sandbox, self.start, [os.path.abspath(it) for it in reads])
        config["alone"] = self.words.has("--alone") and several
        if config["alone"] or keep:
            config["outputs"] = {it.name: it.outputs for it in actions}
        return self.write(f"keys/{mark}", config)

    def names_of(self, actions: list[Action]) -> Json:
        """Returns the names and limits of actions by their inputs. If several have equal inputs, adds their words."""
        same: dict[str, list[Action]] = {}
        for it in actions:
            same.setdefault(sum_of(it.inputs), []).append(it)
        return {mark: [[it.name, self.limits.of(it.mnemonic), expanded(it) if len(found) > 1 else None] for it in found]
                for mark, found in same.items()}

    def executor_words(self, program: str, actions: list[Action]) -> list[str]:
        """Writes the settings of the executor. Returns the arguments that specify it, with a watcher before it."""
        if not self.executor:
            return []
        name = os.path.basename(self.executor)
        is_local = programs.is_local(self.executor)
        if is_local and self.words.has("--limit") and not self.timer:
            raise Unwanted("--limit: the program `timeout`, which ends jobs of an executor here, isn't in PATH; Debian has it in coreutils")
        names = {sum_of(it.outputs): [[it.name, self.limits.of(it.mnemonic), None]] for it in actions}
        config = {**self.common(), "form": "job", "kind": name, "names": names, "local": is_local, "in_turn": is_local and name == "remote_exec"}
        if not is_local:
            config["turns"] = ""
        if self.sandbox:
            if not is_local:
                raise Unwanted(f"--isolate: jobs of {name} can't be isolated from here; only remote_exec and job_pool run them here")
            reads = [os.path.abspath(it.argv[0]) for it in actions if it.argv[0] not in it.inputs]
            config["isolate"] = isolation.bound(self.sandbox, self.start, reads)
        path = self.write("keys/executor", config)
        script = os.path.join(self.state, "executor")
        words = " ".join(quoted(it) for it in (*self.prefix, path, self.executor))
        write_whole(script, f'#!/bin/sh\nexec {words} "$@"\n')
        os.chmod(script, 0o755)
        return executor_words(script, program)

    def write(self, name: str, config: Json) -> str:
        """Writes settings, as a new file, since a watcher may read the old one. The watcher is run by this very Python."""
        path = os.path.join(self.state, name)
        write_whole(path, marshal.dumps(config))
        return path


def executor_words(executor: str, program: str) -> list[str]:
    """Returns the arguments that specify an executor."""
    if not executor:
        return []
    return [f"--executor={executor}", *([f"--sandbox_executor={executor}"] if program in programs.WITH_STRATEGIES else [])]


def expanded(action: Action) -> list[str]:
    """Returns the words of an action's request: the lines of its flag files, which may name further ones."""
    return list(expand(action.flag_words(), 0))


def expand(words: list[str], depth: int) -> Iterator[str]:
    """Yields the words, with the lines of flag files in their places."""
    for word in words:
        if not word.startswith("@") or word.startswith("@@") or "//" in word or depth > MOST_FLAG_DEPTH:
            yield word
            continue
        try:
            with open(word[1:], encoding="utf-8", newline="") as file:
                lines = [line.removesuffix("\r") for line in file.read().split("\n")]
        except (OSError, ValueError):
            yield word
            continue
        yield from expand(lines[:-1] if lines and not lines[-1] else lines, depth + 1)
