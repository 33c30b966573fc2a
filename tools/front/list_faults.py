"""The faults of a list as a whole: keys that are doubled, names and outputs that collide, cycles, outputs that replace the run's own state."""
from __future__ import annotations

import functools
import json
import os
from typing import Any, Iterator

from .faults import action_faults, held, near, place

TOP_KEYS = ("actions", "version")
OWN_FOLDERS = (".worker_rooms", ".lenthuvi")


def list_faults(text: str, actions: list[Any], path: str) -> list[str]:
    """Returns all faults of a list, each once. `path` is the list's own path, and - for standard input."""
    found = list(text_faults(text))
    made: dict[str, int] = {}
    for number, action in enumerate(actions):
        found += action_faults(number, action, made)
        made.update(dict.fromkeys(held(action, "outputs"), number) if isinstance(action, dict) else {})
    objects = [it if isinstance(it, dict) else {} for it in actions]
    cycle = cycle_of(objects)
    found += [f"a cycle: {' needs '.join(cycle)}"] if cycle else []
    return list(dict.fromkeys([*found, *order_faults(objects, set(cycle)), *state_faults(objects, path)]))


def text_faults(text: str) -> Iterator[str]:
    """Yields keys that appear twice in an object, and keys at the top that nothing reads."""
    faults: list[str] = []

    def take(pairs: list[tuple[str, Any]]) -> dict[str, Any]:
        """Takes an object's pairs."""
        found = dict(pairs)
        if len(found) < len(pairs):
            names = [key for key, _ in pairs]
            twice = next(key for key in names if names.count(key) > 1)
            where = f" of {json.dumps(found['name'])}" if isinstance(found.get("name"), str) else ""
            faults.append(f"the key {twice!r}{where} appears twice in one object, and only the last one counts")
        return found

    top = json.loads(text, object_pairs_hook=take)
    yield from faults
    if isinstance(top, dict):
        yield from (f"unknown key {key!r} at the top, which nothing reads{near(key, TOP_KEYS)}" for key in top if key not in TOP_KEYS)


def order_faults(actions: list[dict[str, Any]], cycle: set[str]) -> Iterator[str]:
    """Yields names and outputs that are used twice, and inputs that are made later. A cycle is one separate fault, so it is left out."""
    names: set[str] = set()
    makers = {path: number for number, action in reversed(list(enumerate(actions))) for path in held(action, "outputs")}
    for number, action in enumerate(actions):
        name, outputs = held(action, "name"), held(action, "outputs")
        if name and name in names:
            yield f"{place(number, action)}.name: an earlier action has it"
        names.add(name)
        for path in dict.fromkeys(it for it in outputs if makers[it] < number or outputs.count(it) > 1):
            yield f"{place(number, action)}.outputs: {path} is made twice"
        for path in held(action, "inputs"):
            if makers.get(path, -1) >= number and not {name, held(actions[makers[path]], "name")} <= cycle:
                yield f"{place(number, action)}.inputs: {path} is made by a later action; put that one first"


def cycle_of(actions: list[dict[str, Any]]) -> list[str]:
    """Returns the names along the first cycle of actions, its first name again at the end, or nothing if there is none."""
    makers = {path: held(it, "name") for it in actions for path in held(it, "outputs")}
    below = {held(it, "name"): [makers[path] for path in held(it, "inputs") if path in makers] for it in actions}
    done: set[str] = set()
    for start in below:
        way: list[str] = []
        places: dict[str, int] = {}
        waiting = [(start, 0)]
        while waiting:
            name, step = waiting.pop()
            if step == 0:
                if name in done:
                    continue
                places[name] = len(way)
                way.append(name)
            if step < len(below[name]):
                waiting.append((name, step + 1))
                following = below[name][step]
                if following in places:
                    return [*way[places[following]:], following]
                waiting.append((following, 0))
            else:
                done.add(name)
                way.pop()
                del places[name]
    return []


def state_faults(actions: list[dict[str, Any]], path: str) -> Iterator[str]:
    """Yields outputs that would replace the list, a program, a source or the run's own folders, or that are below one another."""
    made = {out for it in actions for out in held(it, "outputs")}
    own = "" if path == "-" else os.path.normpath(os.path.relpath(path))
    programs: set[str] = set()
    for number, it in enumerate(actions):
        programs.update(shortest(word) for word in held(it, "argv")[:1])
        for out in held(it, "outputs"):
            trouble = state_trouble(out, own, programs, made)
            if trouble:
                yield f"{place(number, it)}.outputs: {out} {trouble}"


@functools.cache
def shortest(path: str) -> str:
    """Returns a path in its shortest form. Most actions of a list have the same program."""
    return os.path.normpath(path)


def state_trouble(out: str, own: str, programs: set[str], made: set[str]) -> str:
    """Returns why an output would replace what the run needs, or nothing. `own` is the list's path, if it has one."""
    front = out.split("/", 1)[0]
    if front in OWN_FOLDERS:
        return f"is in {front}, which belongs to the run"
    if out == own:
        return "is the list itself"
    if out in programs:
        return "is the program of an action that doesn't wait for it"
    above = above_in(out, made)
    return f"is below {above}, which is an output too" if above else ""


def above_in(path: str, made: set[str]) -> str:
    """Returns the output below which a path is, or nothing."""
    at = path.rfind("/")
    while at > 0:
        if path[:at] in made:
            return path[:at]
        at = path.rfind("/", 0, at)
    return ""
