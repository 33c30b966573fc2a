"""The events of a run: the file that watchers append to, and the copy that --json asks for."""
from __future__ import annotations

import json
import os
import sys
import time
from typing import Any, Iterable, TextIO

from .follow import Event, events_of

NAMES = {"n": "name", "w": "watcher"}


class Sink:
    """The destination of the front's own events, and of the copy of all events."""

    def __init__(self, path: str, own: str) -> None:
        self.own_path = own
        self.own_file: Any = None
        self.begun = time.time()
        self.trouble = ""
        self.out: TextIO | None = None
        if path:
            self.out = sys.stdout if path == "-" else open(path, "w", encoding="utf-8")

    def begin(self) -> None:
        """Begins the file of this run. The file of the previous run is kept in the same folder."""
        if self.own_file is None:
            if os.path.exists(self.own_path):
                os.replace(self.own_path, self.own_path + ".before")
            self.own_file = open(self.own_path, "ab", buffering=0)

    def keep(self, events: Iterable[Event]) -> None:
        """Writes events into the run's own file, if there is one, all at once. Copies them."""
        held = list(events)
        if self.own_file is not None:
            lines = "".join(json.dumps(it) + "\n" for it in held).encode()
            try:
                while lines:
                    lines = lines[self.own_file.write(lines):]
            except OSError as error:
                self.trouble = f"{self.own_path}: {error.strerror}"
        for it in held if self.out is not None else ():
            self.put(it)

    def put(self, event: Event) -> None:
        """Copies an event, if a copy is wanted."""
        if self.out is not None:
            told = {NAMES.get(key, key): value for key, value in event.items()}
            told["t"] = round(event["t"] - self.begun, 4)
            try:
                self.out.write(json.dumps(told) + "\n")
                self.out.flush()
            except OSError as error:
                self.trouble = f"--json: {error.strerror}; later events are missing"
                self.out = None

    def close(self) -> None:
        """Closes the run's own file."""
        if self.own_file is not None:
            self.own_file.close()


def read_events(state: str) -> list[Event]:
    """Returns the events of the last run in the order of their times, without lines that were cut off."""
    found = []
    try:
        with open(os.path.join(state, "events.jsonl"), "rb") as file:
            lines = file.read().split(b"\n")
        for event in events_of(lines):
            try:
                event["t"] = float(event["t"])
                found.append(event)
            except (ValueError, KeyError, TypeError):
                continue
    except FileNotFoundError:
        pass
    return sorted(found, key=lambda it: float(it["t"]))
