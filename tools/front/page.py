"""A page of a run by the clock, for a browser: one file, no network."""
from __future__ import annotations

import collections
import html
import json
import os
import re
from typing import Any, NamedTuple

from .digests import write_whole
from .events import read_events
from .faults import Unreadable
from .follow import Event
from .listing import Listing, load
from .options import Words
from .voice import plural

TEMPLATE = os.path.join(os.path.dirname(os.path.realpath(__file__)), "page.html")
ORDER, MOST_BAD = ("failed", "broken", "skipped"), 50  # outcomes other than ok, the most important first
OPEN, CANCELLED = -1000, -1001  # the exits of requests that were never answered, and of cancelled ones


class Span(NamedTuple):
    """A request that a worker slot had: its row, its begin and end, its action and its exit."""

    row: int
    begin: float
    end: float
    name: str
    exit: int


class Clock:
    """The requests of a run by worker slot. If a slot's worker is started again, it keeps its row."""

    def __init__(self, events: list[Event]) -> None:
        self.start = float(events[0]["t"])
        self.end = max(float(it["t"]) for it in events) - self.start
        self.rows: list[str] = []
        self.places: dict[tuple[str, str], int] = {}
        self.row_of: dict[int, int] = {}
        self.starts: list[tuple[int, float, bool]] = []
        self.lives: list[tuple[int, float, float]] = []
        self.spans: list[Span] = []
        self.alive: dict[int, float] = {}
        self.open: dict[tuple[int, int], Event] = {}
        for it in events:
            self.take(it, float(it["t"]) - self.start)
        for watcher in list(self.alive):
            self.ended(watcher, max((it.end for it in self.spans if it.row == self.row_of[watcher]), default=self.end))
        for asked in self.open.values():
            self.spans.append(Span(self.row_of.get(asked["w"], 0), float(asked["t"]) - self.start, self.end, asked["n"], OPEN))

    def take(self, event: Event, at: float) -> None:
        """Takes in an event."""
        what, watcher = event["e"], event.get("w", 0)
        if what == "start":
            self.began(watcher, event, at)
        elif what == "sent":
            self.open[watcher, event["id"]] = event
        elif what == "answer" and (watcher, event["id"]) in self.open:
            asked = self.open.pop((watcher, event["id"]))
            code = CANCELLED if event.get("cancelled") else event["exit"] or (1 if event.get("refusal") else 0)
            self.spans.append(Span(self.row_of.get(watcher, 0), float(asked["t"]) - self.start, at, event["n"], code))
        elif what == "end":
            for key in [key for key in self.open if key[0] == watcher]:
                asked = self.open.pop(key)
                self.spans.append(Span(self.row_of.get(watcher, 0), float(asked["t"]) - self.start, at, asked["n"], OPEN))
            self.ended(watcher, at)

    def began(self, watcher: int, event: Event, at: float) -> None:
        """Notes a start, in the row of its slot."""
        key = event["kind"], slot_of(event["room"])
        row = self.places.setdefault(key, len(self.rows))
        if row == len(self.rows):
            self.rows.append(event["kind"])
        self.row_of[watcher] = row
        self.alive[watcher] = at
        self.starts.append((row, round(at, 4), bool(event.get("kept"))))

    def ended(self, watcher: int, at: float) -> None:
        """Notes the end of a worker."""
        if watcher in self.alive:
            self.lives.append((self.row_of[watcher], round(self.alive.pop(watcher), 4), round(at, 4)))

    def lanes(self) -> list[int]:
        """Returns for each request its place among those that its slot has at the same time."""
        order = sorted(range(len(self.spans)), key=lambda it: self.spans[it].begin)
        ends: list[list[float]] = [[] for _ in self.rows]
        found = [0] * len(self.spans)
        for number in order:
            span = self.spans[number]
            row = ends[span.row] if span.row < len(ends) else []
            lane = next((place for place, end in enumerate(row) if end <= span.begin + 1e-9), len(row))
            row[lane:lane + 1] = [span.end]
            found[number] = lane
        return found

    def took(self) -> dict[str, float]:
        """Returns the seconds of each action's longest request."""
        found: dict[str, float] = collections.defaultdict(float)
        for it in self.spans:
            found[it.name] = max(found[it.name], it.end - it.begin)
        return found


def slot_of(room: str) -> str:
    """Returns the slot that a room belongs to. Each process of a slot has a room with a new name: 0, 0.1, 0.2."""
    folder, _, name = room.rpartition("/")
    return f"{folder}/{name.partition('.')[0]}" if os.path.basename(folder) == ".worker_rooms" else room


def longest_chain(listing: Listing, took: dict[str, float]) -> tuple[float, list[str]]:
    """Returns the chain of actions that took longest. Each action in it needs the one before it."""
    makers = listing.makers()
    best: dict[str, float] = {}
    before: dict[str, str] = {}
    for it in listing.actions:
        below = max({makers[path].name for path in it.inputs if path in makers}, key=lambda name: best.get(name, 0.0), default="")
        best[it.name] = took.get(it.name, 0.0) + best.get(below, 0.0)
        before[it.name] = below
    last = max(best, key=lambda name: best[name], default="")
    seconds, chain = best.get(last, 0.0), []
    while last and took.get(last):
        chain.append(last)
        last = before[last]
    return seconds, chain[::-1]


def waits(listing: Listing, clock: Clock) -> dict[str, float]:
    """Returns the time for which each action was ready but not yet sent."""
    makers = listing.makers()
    first = {it.name: it.begin for it in sorted(clock.spans, key=lambda it: -it.begin)}
    last = {it.name: it.end for it in sorted(clock.spans, key=lambda it: it.end)}
    found = {}
    for it in listing.actions:
        if it.name in first:
            ready = max((last.get(makers[path].name, 0.0) for path in it.inputs if path in makers), default=0.0)
            found[it.name] = max(0.0, first[it.name] - ready)
    return found


def table(head: list[str], rows: list[list[str]], kind: str = "figures") -> str:
    """Returns a table in HTML, of figures or of words."""
    lines = ["<tr>" + "".join(f"<th>{it}" for it in head)]
    lines += ["<tr>" + "".join(f"<td>{it}" for it in row) for row in rows]
    return f'<table class="{kind}">' + "\n".join(lines) + "</table>"


def kinds_table(listing: Listing, clock: Clock, waiting: dict[str, float]) -> str:
    """Returns the totals by mnemonic."""
    kind_of = {it.name: it.mnemonic for it in listing.actions}
    times: dict[str, list[float]] = collections.defaultdict(list)
    queue: dict[str, float] = collections.defaultdict(float)
    for it in clock.spans:
        times[kind_of.get(it.name, "?")].append(it.end - it.begin)
    for name, seconds in waiting.items():
        queue[kind_of.get(name, "?")] += seconds
    rows = []
    for kind, held in sorted(times.items(), key=lambda it: -sum(it[1])):
        held.sort()
        rows.append([html.escape(kind), f"{len(held):,}", f"{sum(held):.2f}", f"{1000 * sum(held) / len(held):.0f}",
                     f"{1000 * held[int(0.95 * (len(held) - 1))]:.0f}", f"{1000 * held[-1]:.0f}", f"{1000 * queue[kind] / len(held):.0f}"])
    return table(["mnemonic", "requests", "sum s", "mean ms", "95% ms", "max ms", "mean wait ms"], rows)


def write_page(listing: Listing, path: str) -> None:
    """Writes the page of the last run."""
    events = read_events(listing.state)
    if not events:
        raise Unreadable(f"no run of {listing.path} is remembered here; lenthuvi build makes one")
    clock = Clock(events)
    took = clock.took()
    seconds, chain = longest_chain(listing, took)
    outcomes = {it["n"]: it for it in events if it["e"] == "action"}
    waiting = waits(listing, clock)
    with open(TEMPLATE, encoding="utf-8") as file:
        page = file.read()
    texts = {"TITLE": html.escape(f"{listing.path}, {len(listing.actions):,} actions"),
             "FIGURES": figures(clock, outcomes, seconds, len(chain)), "TABLES": tables(listing, clock, took, outcomes, waiting, chain),
             "DATA": json.dumps(data_of(clock, outcomes, chain, waiting)).replace("</", "<\\/")}
    pieces = re.split("@([A-Z]+)@", page)
    pieces[1::2] = [texts[name] for name in pieces[1::2]]
    write_whole(path, "".join(pieces))


def figures(clock: Clock, outcomes: dict[str, Event], seconds: float, length: int) -> str:
    """Returns the large figures."""
    counts = collections.Counter(it["outcome"] for it in outcomes.values())
    busy = sum(it.end - it.begin for it in clock.spans)
    kept = sum(is_kept for _, _, is_kept in clock.starts)
    shown = [("wall", f"{clock.end:.1f} s"), ("made", f"{counts['ok']:,}"), ("failed", counts["failed"]), ("broken", counts["broken"]),
             ("skipped", counts["skipped"]), ("starts of workers", f"{len(clock.starts) - kept}" + (f" and {kept} kept" if kept else "")),
             ("at work, mean", f"{busy / max(clock.end, 0.001):.1f}"), ("longest chain", f"{seconds:.1f} s, {plural(length, 'action')}")]
    return "".join(f'<span class="figure"><b>{value}</b><br>{label}</span>' for label, value in shown if value != 0)


def tables(listing: Listing, clock: Clock, took: dict[str, float], outcomes: dict[str, Event], waiting: dict[str, float],
           chain: list[str]) -> str:
    """Returns the tables: what isn't made, the totals, the slowest, and the chain."""
    bad = sorted((it for it in outcomes.values() if it["outcome"] in ORDER), key=lambda it: ORDER.index(it["outcome"]))
    parts = []
    if bad:
        rows = [[html.escape(it["n"]), html.escape(f"{it['outcome']} {it['detail']}"), f"<pre>{html.escape(it['text'][:300])}</pre>"]
                for it in bad[:MOST_BAD]]
        parts.append(f"<div><h3>Not made: {len(bad):,}{f', of which {MOST_BAD} are shown' if len(bad) > MOST_BAD else ''}</h3>{table(['action', 'outcome', 'text'], rows, 'words')}</div>")
    slow = [[html.escape(name), f"{1000 * seconds:.0f}"] for name, seconds in sorted(took.items(), key=lambda it: -it[1])[:12]]
    steps = [[html.escape(name), f"{1000 * took[name]:.0f}", f"{1000 * waiting.get(name, 0):.0f}"] for name in chain[:40]]
    parts += [f"<div><h3>By mnemonic</h3>{kinds_table(listing, clock, waiting)}</div>",
              f"<div><h3>Slowest</h3>{table(['action', 'ms'], slow)}</div>",
              f"<div><h3>Longest chain</h3>{table(['action', 'ms', 'wait ms'], steps)}</div>"]
    return "".join(parts)


def data_of(clock: Clock, outcomes: dict[str, Event], chain: list[str], waiting: dict[str, float]) -> dict[str, Any]:
    """Returns the data that the page's script draws."""
    order = sorted(range(len(clock.rows)), key=lambda it: (clock.rows[it], it))
    place = {old: new for new, old in enumerate(order)}
    spans = sorted([place[it.row], round(it.begin, 4), round(it.end, 4), it.name, it.exit] for it in clock.spans)
    return {"rows": [clock.rows[it] for it in order], "spans": spans, "end": round(clock.end, 4), "chain": chain,
            "lives": [[place[row], begin, end] for row, begin, end in clock.lives],
            "starts": [[place[row], at, int(is_kept)] for row, at, is_kept in clock.starts],
            "about": {name: [f"{it['outcome']} {it['detail']}".strip(), it["why"], it["text"][:300], round(waiting.get(name, 0), 3)]
                      for name, it in outcomes.items()}}


def page(words: Words) -> int:
    """Writes the page of the last run, and prints its path."""
    listing = load(words.rest[0] if words.rest else "list.json")
    path = words.last("--out") or os.path.join(listing.state, "page.html")
    write_page(listing, path)
    print(os.path.abspath(path))
    return 0
