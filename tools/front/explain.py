"""Why an action would run or failed, how to repeat it, and which action needs which."""
from __future__ import annotations

import difflib
import json
import os
import shlex
from typing import Iterator

from .build import Build
from .digests import write_whole
from .events import read_events
from .faults import Unreadable
from .follow import Event
from .listing import Action, Listing, load
from .options import Unwanted, Words
from .voice import Voice, joined
from .watch import file_name


def find(listing: Listing, name: str) -> Action:
    """Returns the action of a name, or the one that makes a path."""
    for it in listing.actions:
        if name == it.name or name in it.outputs:
            return it
    near = difflib.get_close_matches(name, [it.name for it in listing.actions], 3, 0.4)
    raise Unreadable(f"no action is named {name}, and none makes it" + (f"; did you mean {' or '.join(near)}?" if near else ""))


def explain(words: Words) -> int:
    """Prints everything that is known about an action."""
    if not words.rest:
        raise Unwanted("explain needs the name of an action, or a path that it makes: lenthuvi explain NAME [LIST]")
    listing = load(words.rest[1] if len(words.rest) > 1 else "list.json")
    action = find(listing, words.rest[0])
    made = Build(listing, words, Voice(), recovers=False)  # a run may be at work
    makers = listing.makers()
    print(f"{action.name}  ({action.mnemonic}, {action.strategy})")
    print(f"  makes  {', '.join(action.outputs)}")
    below = dict.fromkeys(makers[path].name for path in action.inputs if path in makers)
    print(f"  reads  {len(action.inputs)} files" + (f", from {', '.join(list(below)[:8])}" if below else ""))
    found = made.sort_out(False)
    if action.name in found.now:
        print(f"  would run: {found.now[action.name]}")
    elif action.name in found.waiting:
        print("  waits: what it reads may be made again")
    else:
        print("  is up to date")
    for line in last_run(action, read_events(listing.state), listing.state):
        print("  " + line)
    return 0


def last_run(action: Action, events: list[Event], state: str) -> Iterator[str]:
    """Yields what happened to an action in the last run."""
    own = [it for it in events if it.get("n") == action.name]
    if not own:
        yield "wasn't run in the last run"
        return
    begun = events[0]["t"]
    workers: dict[int, Event] = {}
    for it in events:
        workers.update({it["w"]: it} if it["e"] == "start" else {})
        if it.get("n") == action.name:
            yield from told(it, it["t"] - begun, workers)
    failed = [it for it in own if it["e"] in ("sent", "limit")]
    request = os.path.join(state, "logs", file_name(action.name) + ".request")
    start = workers.get(failed[-1]["w"]) if failed else None
    if start is not None and os.path.exists(request):
        room = next((it["at"] for it in reversed(own) if it["e"] == "room"), start["room"])
        env = [f"{name}={value}" for name, value in action.object.get("env", {}).items()]
        yield f"once more, by hand: cd {shlex.quote(room)} && env -i {shlex.join([*env, *start['words']])} <{shlex.quote(os.path.abspath(request))}"
    elif action.strategy != "worker" and any(it["e"] == "answer" and it["exit"] for it in own):
        yield f"once more, by hand: {shlex.join(action.argv)}"


def told(event: Event, at: float, workers: dict[int, Event]) -> Iterator[str]:
    """Yields the lines about an event."""
    what = event["e"]
    if what == "sent":
        start = workers.get(event["w"])
        who = f"worker {start['pid']}{', kept from an earlier run' if start['kept'] else ''} in {os.path.relpath(start['room'])}" if start else "?"
        yield f"{at:8.3f} s  sent to {who}"
    elif what == "answer":
        yield f"{at:8.3f} s  answered: " + ("cancelled" if event.get("cancelled") else event.get("refusal") or f"exit {event['exit']}")
        yield from (f"            | {line}" for line in event.get("text", "").splitlines()[:20])
    elif what == "limit":
        yield f"{at:8.3f} s  ended, since it owed an answer for {event['s']:g} s"
    elif what == "held":
        yield f"{at:8.3f} s  not started, since another had failed (--stop)"
    elif what == "room":
        yield f"{at:8.3f} s  its room is kept: {os.path.relpath(event['at'])}"
    elif what == "action":
        yield joined([f"{at:8.3f} s  {event['outcome']} {event['detail']}".rstrip(), f"it ran since {event['why']}" if event["why"] else ""])


def graph(words: Words) -> int:
    """Prints which action needs which."""
    listing = load(words.rest[0] if words.rest else "list.json")
    makers = listing.makers()
    if words.has("--deps"):
        print("\n".join(deps(find(listing, words.last("--deps")), makers)))
    elif words.has("--rdeps"):
        print("\n".join(rdeps(words.last("--rdeps"), listing)))
    else:
        lines = list(dot(listing, makers)) if words.has("--dot") else list(plain(listing, makers))
        if words.has("--out"):
            write_whole(words.last("--out"), "\n".join(lines) + "\n")
        else:
            print("\n".join(lines))
    return 0


def deps(action: Action, makers: dict[str, Action]) -> list[str]:
    """Returns all that an action needs: actions by name, sources by path."""
    found: dict[str, None] = {}
    waiting = [action]
    while waiting:
        for path in waiting.pop().reads():
            maker = makers.get(path)
            name = maker.name if maker else path
            if name not in found:
                found[name] = None
                waiting += [maker] if maker else []
    return sorted(found)


def rdeps(path: str, listing: Listing) -> list[str]:
    """Returns all actions that need a file, or that need an output of an action."""
    named = [it for it in listing.actions if it.name == path]
    open_paths = set(named[0].outputs) if named else {path}
    known = {it for action in listing.actions for it in (*action.reads(), *action.outputs)}
    if not named and path not in known:
        near = difflib.get_close_matches(path, sorted(known), 3, 0.4)
        raise Unreadable(f"no action has this name and none reads or makes this file: {path}" + (f"; did you mean {' or '.join(near)}?" if near else ""))
    found = []
    for it in listing.actions:
        if open_paths.intersection(it.reads()):
            found.append(it.name)
            open_paths.update(it.outputs)
    return found


def plain(listing: Listing, makers: dict[str, Action]) -> Iterator[str]:
    """Yields each action with those that it needs."""
    for it in listing.actions:
        below = dict.fromkeys(makers[path].name for path in it.inputs if path in makers)
        yield f"{it.name}" + (f" <- {', '.join(below)}" if below else "")


def dot(listing: Listing, makers: dict[str, Action]) -> Iterator[str]:
    """Yields the graph for dot, colored by each action's outcome in the last run."""
    outcomes = {it["n"]: it["outcome"] for it in read_events(listing.state) if it["e"] == "action"}
    colors = {"ok": "palegreen", "failed": "tomato", "broken": "tomato", "skipped": "lightgray"}
    yield "digraph lenthuvi {"
    yield '  rankdir=LR; node [shape=box, style="rounded,filled", fillcolor=white, fontname="sans-serif", fontsize=10];'
    for it in listing.actions:
        color = colors.get(outcomes.get(it.name, ""), "white")
        yield f"  {json.dumps(it.name)} [fillcolor={color}, tooltip={json.dumps(it.mnemonic)}];"
        for name in dict.fromkeys(makers[path].name for path in it.inputs if path in makers):
            yield f"  {json.dumps(name)} -> {json.dumps(it.name)};"
    yield "}"
