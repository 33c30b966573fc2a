"""Chooses the program that runs a list and its options, and cuts a list that is too large for one call."""
from __future__ import annotations

import json
import os
import shutil
from typing import NamedTuple

from .faults import program_trouble
from .listing import Action
from .options import Unwanted, Words, checked_number, did_you_mean

MOST_ACTIONS, MOST_BYTES, MOST_KEYS = 4096, 30_000_000, 48
MOST_INSTANCES, MOST_SHARED, MOST_SANDBOXED, MOST_EXECUTORS = 48, 24, 8, 16
AT_ONCE = 8  # requests that a multiplex worker has, or jobs that an executor is given
LOCAL_EXECUTORS = ("remote_exec", "job_pool")
STRATEGIES = ("worker", "sandboxed", "remote", "dynamic")
WITH_STRATEGIES = ("spawn_tool", "run_tool")
HERE = os.path.dirname(os.path.realpath(__file__))


class Missing(Exception):
    """A program that a run needs and that isn't there."""


class Chosen(NamedTuple):
    """A program, its options, why it was chosen, and how many worker keys a call of it may have."""

    name: str
    options: list[str]
    why: str
    most_keys: int

    def is_shared(self) -> bool:
        """Returns True if worker keys share the workers."""
        return any(it.startswith("--max_workers=") for it in self.options)


class Limits(NamedTuple):
    """The seconds for which an answer may be owed: by default, and by mnemonic."""

    default: float
    by_mnemonic: dict[str, float]

    def of(self, mnemonic: str) -> float:
        """Returns the limit for a mnemonic's actions; 0 means none."""
        return self.by_mnemonic.get(mnemonic, self.default)


def bin_folder() -> str:
    """Returns the folder of the programs."""
    return os.environ.get("LENTHUVI_BIN") or os.path.join(os.path.dirname(os.path.dirname(HERE)), "bin")


def path_of(name: str) -> str:
    """Returns the path of a program that can be started."""
    path = os.path.join(bin_folder(), name)
    if not os.access(path, os.X_OK):
        named = "" if "LENTHUVI_BIN" not in os.environ else ", the folder that LENTHUVI_BIN names"
        raise Missing(f"{path} isn't there{named}; `./build {name}` proves and makes it, `./build --trial {name}` makes it unproved in minutes")
    return path


def identity(name: str) -> str:
    """Returns whether a program is proved or a trial, and from which sources it was built."""
    from program_state import state_of  # it loads much, and few calls need it

    path = os.path.join(bin_folder(), name)
    return str(state_of(path)) if os.path.exists(path) else "not there"


def processors() -> int:
    """Returns how many processors this process may use."""
    return len(os.sched_getaffinity(0))


def no_mnemonic(option: str, text: str, mnemonic: str, mnemonics: set[str]) -> Unwanted:
    """Returns the error for a mnemonic that no action has."""
    there = ", ".join(sorted(mnemonics)) or "none"
    hint = did_you_mean(mnemonic, sorted(mnemonics))
    return Unwanted(f"{option}={text}: no action has the mnemonic {mnemonic}{hint or f'; there are {there}'}")


def limits_of(words: Words, mnemonics: set[str]) -> Limits:
    """Reads --limit."""
    limit, by_mnemonic = 0.0, {}
    for text in words.all("--limit"):
        mnemonic, named, seconds = text.rpartition("=")
        value = checked_number("--limit" + (f"={mnemonic}" if named else ""), seconds, 0.001, 1e6)
        if not named:
            limit = value
        elif mnemonic in mnemonics:
            by_mnemonic[mnemonic] = value
        else:
            raise no_mnemonic("--limit", text, mnemonic, mnemonics)
    return Limits(limit, by_mnemonic)


def strategies_of(words: Words, mnemonics: set[str]) -> list[str]:
    """Reads --strategy, and returns the words of spawn_tool and run_tool for it."""
    found = {}
    for text in words.all("--strategy"):
        mnemonic, _, names = text.rpartition("=")
        for it in names.split(","):
            if it not in STRATEGIES:
                hint = did_you_mean(it, list(STRATEGIES))
                raise Unwanted(f"--strategy={text}: {it!r} is not one of {', '.join(STRATEGIES)}{hint}")
        if mnemonic in ("", "*"):
            found["*"] = f"--spawn_strategy={names}"
        elif mnemonic in mnemonics:
            found[mnemonic] = f"--strategy={mnemonic}={names}"
        else:
            raise no_mnemonic("--strategy", text, mnemonic, mnemonics)
    return list(found.values())


def jobs_of(words: Words) -> int:
    """Reads -j."""
    return words.whole("-j", processors())


def choose(words: Words, actions: list[Action], mnemonics: set[str]) -> Chosen:
    """Chooses the program that has what the words ask for."""
    jobs = min(jobs_of(words), width_of(actions) if words.number("--keep", 0) else 1000)
    strategies = strategies_of(words, mnemonics)
    keys = len({it.key() for it in actions if it.strategy != "remote" or strategies})
    many = keys > MOST_KEYS or (words.has("-j") and keys > jobs)
    shared = [f"--max_workers={min(jobs, MOST_SHARED)}"] if many else []
    options = [f"--retries={words.whole('--retries', 2)}", f"--instances={min(jobs, MOST_INSTANCES)}"]
    options += [f"--extra_flag={it}" for it in words.all("--extra-flag")]
    if words.has("--remote"):
        options.append(f"--remote={words.whole('--remote', 1)}")
    if strategies or words.has("--local-delay"):
        sandboxed = min(jobs, MOST_SANDBOXED, MOST_EXECUTORS - words.whole("--remote", 1))
        if any("sandboxed" in it for it in strategies):
            if sandboxed < 1:
                raise Unwanted(f"--remote={words.last('--remote')} and the strategy sandboxed: both together have at most "
                               f"{MOST_EXECUTORS} executors; --remote={MOST_EXECUTORS - 1} leaves one for sandboxed actions")
            options.append(f"--sandboxed={sandboxed}")
        delay = [f"--local_delay={words.whole('--local-delay', 0)}"] if words.has("--local-delay") else []
        if many:
            why = f"it has strategies and a delay, and there are {keys} worker keys"
            return Chosen("run_tool", [*options, *strategies, *delay, *shared], why, MOST_ACTIONS)
        if sandboxed < 1:
            # spawn_tool keeps one of the 16 executors for sandboxed actions, also if there are none.
            return Chosen("run_tool", [*options, *strategies, *delay], f"it has strategies and a delay, and {MOST_EXECUTORS} executors", MOST_KEYS)
        return Chosen("spawn_tool", [*options, *strategies, *delay], "it has strategies and a delay", MOST_KEYS)
    if words.has("--journal"):
        return Chosen("journal_run", options, "it prints the journal", MOST_KEYS)
    if many:
        return Chosen("shared_tool", [*options, *shared], f"there are {keys} worker keys", MOST_ACTIONS)
    return Chosen("worker_tool", options, "no option needs another program", MOST_KEYS)


def needs_turns(words: Words, chosen: Chosen, actions: list[Action]) -> bool:
    """Returns True if more than -j actions could be at work here at once, so that watchers have to ask for turns."""
    jobs = jobs_of(words)
    widest: dict[str, int] = {}
    for it in actions:
        if it.strategy != "remote":
            widest[it.key()] = AT_ONCE if it.has("supports-multiplex-workers") else 1
    if chosen.is_shared():
        workers = min(jobs, MOST_SHARED) * 2 * max(widest.values(), default=0)
    else:
        workers = min(jobs, MOST_INSTANCES) * sum(widest.values())
    is_remote = chosen.name in WITH_STRATEGIES or any(it.strategy != "worker" for it in actions)
    executors = (words.whole("--remote", 1) + MOST_SANDBOXED) * AT_ONCE if is_remote else 0
    return workers + executors > jobs


def width_of(actions: list[Action]) -> int:
    """Returns how many workers a round can use, so that a short round finds the workers that are kept in the first rooms."""
    levels: dict[str, int] = {}
    counts: dict[int, int] = {}
    for it in actions:
        level = max((levels[path] + 1 for path in it.inputs if path in levels), default=0)
        levels.update(dict.fromkeys(it.outputs, level))
        counts[level] = counts.get(level, 0) + 1
    most = max(counts.values(), default=1)
    return most if most == 1 or len(counts) == 1 else 2 * most


def executor_of(words: Words, actions: list[Action]) -> str:
    """Returns the executor's path, or nothing if no action may need one."""
    needs = any(it.strategy != "worker" for it in actions) or any(
        name in text for text in words.all("--strategy") for name in ("remote", "dynamic", "sandboxed"))
    given = words.last("--executor")
    if not given:
        return path_of("remote_exec") if needs else ""
    beside = os.path.join(bin_folder(), given)
    found = given if "/" in given else (beside if os.access(beside, os.X_OK) else shutil.which(given) or beside)
    trouble = program_trouble(found)
    if trouble:
        raise Unwanted(f"--executor={given}: {trouble}")
    return os.path.abspath(found)


def is_local(executor: str) -> bool:
    """Returns True if an executor is one of our programs, which run jobs on this machine, and not a script of that name."""
    if os.path.basename(executor) not in LOCAL_EXECUTORS:
        return False
    try:
        with open(executor, "rb") as file:
            return file.read(4) == b"\x7fELF"
    except OSError:
        return False


def cut(actions: list[Action], levels: dict[str, int], most_keys: int, more_bytes: int) -> list[list[Action]]:
    """Cuts actions into calls that a program takes, at whole levels if one level fits. What fits into one call keeps its order.

    `more_bytes` is what a watcher adds to the text of an action.
    """
    total = len(json.dumps([it.object for it in actions])) + len(actions) * more_bytes
    if len(actions) <= MOST_ACTIONS and total <= MOST_BYTES and len({it.key() for it in actions}) <= most_keys:
        return [actions] if actions else []
    weights = {it.name: len(json.dumps(it.object)) + more_bytes for it in actions}
    calls: list[list[Action]] = []
    now: list[Action] = []
    keys: set[str] = set()
    size = 0
    for it in sorted(actions, key=lambda it: levels[it.name]):
        key = it.key()
        if now and (len(now) == MOST_ACTIONS or size + weights[it.name] > MOST_BYTES or len(keys | {key}) > most_keys):
            level = levels[it.name]
            whole = [other for other in now if levels[other.name] < level]
            rest = [other for other in now if levels[other.name] == level]
            if not whole:
                whole, rest = now, []
            calls.append(whole)
            now, keys = rest, {other.key() for other in rest}
            size = sum(weights[other.name] for other in rest)
        now.append(it)
        keys.add(key)
        size += weights[it.name]
    return [*calls, now] if now else calls
