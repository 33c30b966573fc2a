"""The times of a run for Perfetto (ui.perfetto.dev) or chrome://tracing: a track for each worker slot, a slice for each request."""
from __future__ import annotations

import json
from typing import Any

from .digests import write_whole
from .events import read_events
from .faults import Unreadable
from .listing import Listing
from .page import CANCELLED, OPEN, Clock, longest_chain, waits

PROCESS = 1  # all tracks are of one process: the run


def write_trace(listing: Listing, path: str) -> None:
    """Writes the trace of the last run."""
    events = read_events(listing.state)
    if not events:
        raise Unreadable(f"no run of {listing.path} is remembered here, so there is no trace")
    clock = Clock(events)
    outcomes = {it["n"]: it for it in events if it["e"] == "action"}
    chain = set(longest_chain(listing, clock.took())[1])
    waiting = waits(listing, clock)
    kinds = {it.name: it.mnemonic for it in listing.actions}
    found: list[dict[str, Any]] = [{"ph": "M", "name": "process_name", "pid": PROCESS, "tid": 0, "args": {"name": listing.path}}]
    lanes = lanes_of(clock)
    for (row, lane), track in lanes.items():
        name = f"{clock.rows[row]} {row}" + (f", request {lane + 1}" if lane else "")
        found.append({"ph": "M", "name": "thread_name", "pid": PROCESS, "tid": track, "args": {"name": name}})
    for span, lane in zip(clock.spans, clock.lanes()):
        about = outcomes.get(span.name, {})
        details = {"exit": exit_text(span.exit), "outcome": f"{about.get('outcome', '')} {about.get('detail', '')}".strip(),
                   "ran since": about.get("why", ""), "waited ms": round(1000 * waiting.get(span.name, 0.0), 1)}
        details.update({"chain": "on the longest chain"} if span.name in chain else {})
        found.append({"ph": "X", "name": span.name, "cat": kinds.get(span.name, "?"), "pid": PROCESS, "tid": lanes[span.row, lane],
                      "ts": round(span.begin * 1e6), "dur": max(1, round((span.end - span.begin) * 1e6)), "args": details})
    for row, at, is_kept in clock.starts:
        found.append({"ph": "i", "s": "t", "name": "kept worker" if is_kept else "worker starts", "pid": PROCESS, "tid": lanes.get((row, 0), 0),
                      "ts": round(at * 1e6)})
    write_whole(path, json.dumps({"displayTimeUnit": "ms", "traceEvents": found}))


def lanes_of(clock: Clock) -> dict[tuple[int, int], int]:
    """Returns the number of the track for each slot and each request that it has at the same time as others."""
    used = sorted({(span.row, lane) for span, lane in zip(clock.spans, clock.lanes())} | {(row, 0) for row in range(len(clock.rows))})
    return {place: number for number, place in enumerate(used, 1)}


def exit_text(code: int) -> str:
    """Returns an exit code in words."""
    return {OPEN: "never answered", CANCELLED: "cancelled"}.get(code, str(code))
