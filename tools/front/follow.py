"""One call of a program: its start, the events of its watchers while it runs, its end, and Ctrl-C and Ctrl-Z."""
from __future__ import annotations

import ctypes
import json
import os
import selectors
import signal
import subprocess
import time
from typing import Any, Callable, Iterable, NamedTuple

from .child import PR_SET_PDEATHSIG, kill_group
from .turns import Turns

Event = dict[str, Any]
STEP = 0.1  # seconds between two looks at the events
LAST_SECONDS = 3.0  # seconds that a program has for its end after TERM
PROGRAMS = (b"worker_tool", b"shared_tool", b"spawn_tool", b"run_tool", b"journal_run")


def events_of(lines: list[bytes]) -> Iterable[Any]:
    """Returns the events that lines spell. They are read as one array, which takes a fifth of the time that line by line takes."""
    try:
        return list(json.loads(b"[" + b",".join(filter(None, lines)) + b"]"))
    except ValueError:
        return (event for line in lines if (event := event_of(line)) is not None)


def event_of(line: bytes) -> Any:
    """Returns the event that a line spells, or None for a line that was cut off, for example by a full disk."""
    try:
        return json.loads(line)
    except ValueError:
        return None


class Tracker:
    """The state of a run, computed from its events."""

    def __init__(self, path: str, tells: Callable[[Event], None], place: int | None = None) -> None:
        self.path, self.tells = path, tells
        self.place = place if place is not None else os.path.getsize(path) if os.path.exists(path) else 0
        self.held = b""
        self.open: dict[tuple[int, int], tuple[str, float]] = {}
        self.good: set[str] = set()
        self.bad: set[str] = set()
        self.slow: set[str] = set()
        self.held_back: set[str] = set()
        self.alive: dict[int, tuple[int, bool]] = {}  # by watcher: the worker's process, and whether it is kept
        self.causes: dict[str, list[Event]] = {}  # by action: events of its watcher other than answers
        self.stray: dict[int, list[Event]] = {}  # by watcher: such events whose action isn't known yet
        self.kinds: dict[int, str] = {}  # by watcher: the mnemonic of its actions
        self.times: dict[str, tuple[float, float, int]] = {}

    def read(self) -> None:
        """Takes in the events since the last call."""
        try:
            with open(self.path, "rb") as file:
                file.seek(self.place)
                data = file.read()
        except FileNotFoundError:
            return
        self.place += len(data)
        *lines, self.held = (self.held + data).split(b"\n")
        for event in events_of(lines):
            try:
                self.take(event)
            except (KeyError, TypeError):
                continue
            self.tells(event)

    def take(self, event: Event) -> None:
        """Takes in one event."""
        what, watcher, name = event["e"], event.get("w", 0), event.get("n", "")
        if what == "start":
            self.alive[watcher] = event["pid"], bool(event.get("held"))
            self.kinds[watcher] = event.get("kind", "")
        elif what == "sent":
            self.open[watcher, event["id"]] = name, event["t"]
            self.causes.setdefault(name, []).extend(self.stray.pop(watcher, ()))
        elif what == "answer":
            self.answered(watcher, event)
        elif what == "held":
            self.held_back.add(name)
        elif what == "end":
            self.alive.pop(watcher, None)
            for owed in event["owed"]:
                self.causes.setdefault(owed, []).append(event)
            self.open = {key: it for key, it in self.open.items() if key[0] != watcher}
        elif what in ("limit", "text", "stray", "closed"):
            (self.causes.setdefault(name, []) if name else self.stray.setdefault(watcher, [])).append(event)
            self.slow.update([name] if what == "limit" else [])

    def answered(self, watcher: int, event: Event) -> None:
        """Takes in an answer. The answer of a cancelled branch doesn't count."""
        name = event["n"]
        _, since = self.open.pop((watcher, event["id"]), ("", event["t"]))
        if event.get("cancelled"):
            return
        is_good = event["exit"] == 0 and not event.get("refusal")
        (self.good if is_good else self.bad).add(name)
        (self.bad if is_good else self.good).discard(name)
        self.times[name] = since, event["t"], self.alive.get(watcher, (0, False))[0]

    def unclaimed(self) -> dict[str, list[Event]]:
        """Returns by mnemonic the events of workers that never got a request, for example of one whose first output was no answer."""
        found: dict[str, list[Event]] = {}
        for watcher, events in self.stray.items():
            found.setdefault(self.kinds.get(watcher, ""), []).extend(events)
        return found

    def longest(self) -> tuple[str, float]:
        """Returns the action that has been running longest, and its start time."""
        return min(self.open.values(), key=lambda it: it[1], default=("", 0.0))


class Ended(NamedTuple):
    """The end of a program."""

    status: int
    was_interrupted: bool
    said: list[str]  # what the program itself printed on standard error


class Interrupt:
    """The signals by which the user ends or stops a run."""

    def __init__(self) -> None:
        self.number = self.count = 0
        self.stops = False
        numbers = (signal.SIGINT, signal.SIGTERM, signal.SIGHUP)
        self.before = {it: signal.signal(it, self.take) for it in numbers if signal.getsignal(it) != signal.SIG_IGN}
        self.before[signal.SIGTSTP] = signal.signal(signal.SIGTSTP, self.take_stop)

    def take(self, number: int, _: object) -> None:
        """Notes a signal that ends the run."""
        self.number, self.count = number, self.count + 1

    def take_stop(self, _: int, __: object) -> None:
        """Notes Ctrl-Z."""
        self.stops = True

    def restore(self) -> None:
        """Restores the previous signal handlers."""
        for number, before in self.before.items():
            signal.signal(number, before)


def end_with_parent() -> None:
    """Tells the kernel to end this process when the front ends."""
    ctypes.CDLL(None).prctl(PR_SET_PDEATHSIG, signal.SIGTERM)


class Call:
    """A running program, and everything that is watched while it runs."""

    def __init__(self, command: list[str], report: str, tracker: Tracker, interrupt: Interrupt, passes: Callable[[bytes], None]) -> None:
        self.tracker, self.interrupt = tracker, interrupt
        with open(report, "wb") as out:
            self.program = subprocess.Popen(command, stdin=subprocess.DEVNULL, stdout=out, stderr=subprocess.PIPE, process_group=0,
                                            preexec_fn=end_with_parent)
        assert self.program.stderr is not None
        self.errors = self.program.stderr.fileno()
        os.set_blocking(self.errors, False)
        self.watch = os.pidfd_open(self.program.pid)
        self.said = Said(self.errors, passes)
        self.until = 0.0
        self.ready = selectors.DefaultSelector()
        self.ready.register(self.watch, selectors.EVENT_READ)
        self.ready.register(self.errors, selectors.EVENT_READ)

    def follow(self, tick: Callable[[], None], turns: Turns | None) -> Ended:
        """Runs the program to its end."""
        if turns is not None:
            self.ready.register(turns, selectors.EVENT_READ)
        looked = 0.0
        try:
            while True:
                found = {key.fd for key, _ in self.ready.select(STEP)}
                if turns is not None and turns.fileno() in found:
                    turns.serve()
                if self.errors in found:
                    self.hear()
                if self.watch in found:
                    break
                if time.monotonic() - looked >= STEP:
                    looked = time.monotonic()
                    self.tracker.read()
                    tick()
                self.obey()
            return self.end()
        finally:
            self.abandon()

    def hear(self) -> None:
        """Reads standard error. The call doesn't wait for its end, since a process that a worker left may hold it open."""
        self.said.read()
        if self.said.is_ended:
            self.ready.unregister(self.errors)

    def obey(self) -> None:
        """Does what the user's signals ask for."""
        now = time.monotonic()
        if self.interrupt.stops:
            self.interrupt.stops = False
            self.stop()
        if self.interrupt.number and not self.until:
            self.until = now + LAST_SECONDS
            self.program.terminate()
        elif self.until and (now > self.until or self.interrupt.count > 1):
            self.program.kill()

    def stop(self) -> None:
        """Stops the program, its watchers, their workers and this process, until the user continues them."""
        self.tracker.read()
        groups = [self.program.pid, *(pid for pid, _ in self.tracker.alive.values())]
        for pid in groups:
            kill_group(pid, signal.SIGSTOP)
        os.kill(os.getpid(), signal.SIGSTOP)
        for pid in reversed(groups):
            kill_group(pid, signal.SIGCONT)

    def end(self) -> Ended:
        """Reads the last output of the program and the last events of its watchers. Returns how the program ended."""
        status = self.program.wait()
        if not self.said.is_ended:
            with selectors.DefaultSelector() as last:
                last.register(self.errors, selectors.EVENT_READ)
                last.select(0.05)
            self.said.read()
        self.said.flush()
        self.tracker.read()
        return Ended(status, bool(self.interrupt.number), self.said.lines)

    def abandon(self) -> None:
        """Kills everything that still runs, however the call ended."""
        if self.program.poll() is None:
            self.program.kill()
            self.program.wait()
            self.tracker.read()
        sweep(self.tracker)
        self.ready.close()
        os.close(self.watch)
        if self.program.stderr is not None:
            self.program.stderr.close()


class Said:
    """Standard error of a program and its workers, line by line."""

    def __init__(self, pipe: int, passes: Callable[[bytes], None]) -> None:
        self.pipe, self.passes = pipe, passes
        self.held = b""
        self.lines: list[str] = []
        self.is_ended = False

    def read(self) -> None:
        """Takes the lines that are complete."""
        while not self.is_ended:
            try:
                data = os.read(self.pipe, 1 << 16)
            except BlockingIOError:
                return
            self.is_ended = not data
            *lines, self.held = (self.held + data).split(b"\n")
            for line in lines:
                self.take(line)

    def take(self, line: bytes) -> None:
        """Keeps the program's own lines, which the summary uses, and passes on the others."""
        if line.startswith(b"  ") or line.split(b": ", 1)[0] in PROGRAMS:
            self.lines.append(line.decode("utf-8", "replace"))
        else:
            self.passes(line)

    def flush(self) -> None:
        """Takes the line that isn't complete."""
        if self.held:
            self.take(self.held)
            self.held = b""


def sweep(tracker: Tracker) -> None:
    """Kills the process groups that workers have left, except those of workers that are kept."""
    for pid, is_kept in tracker.alive.values():
        if not is_kept:
            kill_group(pid)
    tracker.alive.clear()
    tracker.open.clear()
