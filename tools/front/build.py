"""A build: rounds of the actions that aren't up to date. Each round calls a program once or several times."""
from __future__ import annotations

import fcntl
import itertools
import json
import os
import shutil
import subprocess
import time
from typing import Any, NamedTuple

from . import keeper, programs
from .digests import Files, stamp_of, write_whole
from .events import Sink
from .follow import Call, Ended, Event, Interrupt, Tracker
from .listing import STATE, Action, Listing
from .memory import Memory, Success, reason, success_of
from .options import Words
from .report import TOTAL, Reported, read_report
from .turns import Turns
from .voice import Voice, counted, joined, plural, short
from .watching import Watching, executor_words

MOST_ROUNDS = 8
OUTPUT_LOST, ENDED_BY_LIMIT, INTERRUPTED = 6, 9, 130
MOST_TEXT = 4000
PROGRAM_SECONDS = 10.0


class Busy(Exception):
    """Another run is at work, or something that this run needs belongs to another user."""


class Round(NamedTuple):
    """The actions of a round: those that run, each with its reason; those that wait; and those that an earlier failure blocks."""

    now: dict[str, str]
    waiting: set[str]
    blocked: dict[str, str]


class Build:
    """A build of a list: the list, the memory of earlier runs, and the result of each action in this call."""

    def __init__(self, listing: Listing, words: Words, voice: Voice, recovers: bool = True) -> None:
        self.listing, self.words, self.voice = listing, words, voice
        self.actions = listing.chosen(words.all("--only"))
        self.by_name = {it.name: it for it in self.actions}
        self.events_path = os.path.join(listing.state, "events.jsonl")
        self.open_path = os.path.join(listing.state, "open")
        self.files = Files(os.path.join(STATE, "stamps"))
        self.memory = Memory(os.path.join(listing.state, "memory"))
        self.flags = words.all("--extra-flag")
        self.shapes = {it.name: it.shape(self.flags) for it in self.actions}
        self.results: dict[str, Reported] = {}
        self.reasons: dict[str, str] = {}
        self.slow: set[str] = set()
        self.causes: dict[str, list[Event]] = {}  # by action
        self.unclaimed: dict[str, list[Event]] = {}  # by mnemonic, of workers that got no request
        self.held_back: set[str] = set()
        self.said: list[str] = []
        self.levels: dict[str, int] = {}
        # A round of an imported build takes longer than a link, which it may save, unless its workers are kept.
        self.at_once = listing.origin is not None and not words.number("--keep", 0)
        self.status = 0
        self.lost = False
        self.all_remembered = True  # no success was left out because a source changed meanwhile
        self.done = self.failures = 0
        self.pids: set[int] = set()
        self.total = self.calls = self.early = 0
        self.recovered = self.recover() if recovers else 0

    # Which actions run.

    def sort_out(self, all_at_once: bool) -> Round:
        """Finds the actions of the next round.

        An action that reads one of their outputs waits, unless it must run in any case.
        """
        found = Round({}, set(), {})
        makers: dict[str, str] = {}
        everything = self.words.command == "run"
        for it in self.actions:
            below = {makers[path] for path in it.needs_made() if path in makers}
            stopped = next((name for name in below if name in found.blocked or self.is_bad(name)), None)
            why = None
            if it.name in self.results:
                why = "it failed" if self.is_bad(it.name) else None
            elif stopped is not None:
                found.blocked[it.name] = found.blocked.get(stopped, stopped)
            else:
                why = "everything is wanted" if everything else self.reason(it, makers)
                if all_at_once and not why and any(path in makers for path in it.reads()):
                    why = "it reads what is made again"
                if why and below <= found.now.keys() and not any(it.waits_for(self.by_name[name]) for name in below):
                    found.now[it.name] = why
                elif why or below:
                    found.waiting.add(it.name)
            if it.name in found.now or it.name in found.waiting or it.name in found.blocked or self.is_bad(it.name):
                makers.update((path, it.name) for path in it.outputs)
        return found

    def is_bad(self, name: str) -> bool:
        """Returns True if an action was run and didn't succeed."""
        return name in self.results and self.results[name].outcome != "ok"

    def reason(self, action: Action, unsettled: dict[str, str]) -> str | None:
        """Returns why an action isn't up to date, or None if it is."""
        return action.always() or reason(action, self.shapes[action.name], self.memory.successes.get(action.name), self.files, unsettled)

    # Rounds.

    def run(self, interrupt: Interrupt, sink: Sink) -> int:
        """Runs rounds until everything is up to date. Returns the status."""
        for number in itertools.count(1):
            found = self.sort_out(number >= MOST_ROUNDS or self.at_once)
            if not found.now or (self.words.has("--stop") and any(self.is_bad(it) for it in self.results)):
                break
            self.reasons.update(found.now)
            self.total = max(self.total, len(self.results) + len(found.now) + len(found.waiting))
            if not self.run_round([self.by_name[name] for name in found.now], interrupt, sink):
                break
            self.look_again(list(found.now))
        if self.listing.origin is not None:
            self.listing.origin.finish()
        self.trim_kept()
        self.files.save()
        self.memory.tidy()
        if interrupt.number:
            return INTERRUPTED
        if self.status in (0, 1) and self.slow & {name for name in self.results if self.is_bad(name)}:
            return ENDED_BY_LIMIT
        return OUTPUT_LOST if self.lost and self.status == 0 else self.status

    def trim_kept(self) -> None:
        """Ends kept workers, the longest idle first, until together they have no more memory than --keep-memory allows."""
        if self.words.number("--keep", 0) and self.calls:
            quarter = os.sysconf("SC_PHYS_PAGES") * os.sysconf("SC_PAGE_SIZE") // 4
            memory = self.words.number("--keep-memory", 0) * 1e6 or quarter
            ended = keeper.make_room(keeper.folder(), programs.MOST_KEYS, memory)
            if ended and not self.words.has("-q"):
                self.voice.line(f"lenthuvi: {plural(len(ended), 'kept worker')} ended, since all together had more than {memory / 1e6:,.0f} MB")

    def look_again(self, done: list[str]) -> None:
        """After a round, lets the origin of the list find again which files the other actions may read."""
        if self.listing.origin is not None:
            left = [it for it in self.actions if it.name not in self.results]
            self.listing.origin.look_again([self.by_name[name] for name in done], left)
            self.levels = {}

    def run_round(self, actions: list[Action], interrupt: Interrupt, sink: Sink) -> bool:
        """Runs the actions of a round: first those in place, then the others by a program. Returns True if the build goes on."""
        for it in actions:
            if it.in_place and not self.run_in_place(it, interrupt, sink):
                return False
        return self.run_calls([it for it in actions if not it.in_place], interrupt, sink)

    def run_in_place(self, action: Action, interrupt: Interrupt, sink: Sink) -> bool:
        """Runs an action in the project's own folder. Returns True if the build goes on."""
        assert self.listing.origin is not None
        self.begin_run(sink)
        self.open_round([action])
        if self.words.has("-v"):
            self.voice.line(f"{action.name} runs in place: {action.in_place}")
        limit = programs.limits_of(self.words, self.listing.mnemonics()).of(action.mnemonic)
        begun = time.time()
        code, text = self.listing.origin.run_in_place(action, lambda: bool(interrupt.number) or 0 < limit < time.time() - begun)
        if 0 < limit < time.time() - begun and code:
            self.slow.add(action.name)
        found = Reported(action.name, "failed" if code else "ok", f"local {code}" if code else "local", "won", "unused", text.rstrip("\n"))
        if interrupt.number and code:
            os.remove(self.open_path)
            return False
        sink.keep([self.take_action(found, (begun, time.time(), 0))])
        self.remember({action.name} if code == 0 else set(), False)
        os.remove(self.open_path)
        self.done, self.failures, self.status = self.done + 1, self.failures + bool(code), max(self.status, int(bool(code)))
        return not interrupt.number and not (code and self.words.has("--stop"))

    def run_calls(self, actions: list[Action], interrupt: Interrupt, sink: Sink) -> bool:
        """Runs actions by a program, in several calls if they are too many for one. Returns True if the build goes on."""
        if not actions:
            return True
        chosen = programs.choose(self.words, actions, self.listing.mnemonics())
        programs.path_of(chosen.name)
        self.levels = self.levels or self.listing.levels()
        for part in programs.cut(actions, self.levels, chosen.most_keys, self.more_bytes()):
            bad = {path for name in self.results if self.is_bad(name) for path in self.by_name[name].outputs}
            able = []
            for it in part:
                if bad.intersection(it.inputs):
                    bad.update(it.outputs)
                else:
                    able.append(it)
            if able and not self.call(chosen, able, interrupt, sink):
                return False
            if self.words.has("--stop") and any(self.is_bad(it) for it in self.results):
                return False
        return True

    def more_bytes(self) -> int:
        """Returns how many bytes a watcher adds to the text of an action."""
        return 0 if self.words.has("--plain") else Watching(self.listing, self.words, {}, "").more_bytes()

    def call(self, chosen: programs.Chosen, actions: list[Action], interrupt: Interrupt, sink: Sink) -> bool:
        """Runs a program on some actions, and remembers their results. Returns True if the build goes on."""
        self.begin_run(sink)
        self.open_round(actions)
        turns = None
        if not self.words.has("--plain") and programs.needs_turns(self.words, chosen, actions):
            turns = Turns(programs.jobs_of(self.words))
        path, command = self.write_list(chosen, actions, turns)
        if self.words.has("-v"):
            self.voice.line(f"{chosen.name}: {plural(len(actions), 'action')}, since {chosen.why}; {programs.identity(chosen.name)}")
        tracker = Tracker(self.events_path, lambda event: self.hear(event, sink))
        report = os.path.join(self.listing.state, "report")
        try:
            ended = Call(command, report, tracker, interrupt, self.pass_line).follow(lambda: self.tick(tracker), turns)
        finally:
            if turns is not None:
                turns.close()
        found, is_whole = read_report(report, {it.name for it in actions})
        self.take_results(found, tracker, ended, sink)
        remembered = self.close_round(tracker, found if is_whole else None)
        try:
            self.keep_report(report, chosen.name)
        except OSError as error:
            self.lose(str(error.filename), error)
        self.early += 0 if is_whole else remembered
        os.remove(path)
        if not (is_whole and ended.status in (0, 1)) and not ended.was_interrupted:
            self.status = ended.status if ended.status > 0 else 1
            self.tell_refusal(chosen.name, ended, is_whole)
            return False
        self.status = max(self.status, ended.status if ended.status in (0, 1) else 1)
        return not interrupt.number

    def begin_run(self, sink: Sink) -> None:
        """Before the first call of a run, removes what earlier runs left in addition to their events."""
        self.calls += 1
        if self.calls == 1:
            sink.begin()
            for name in ("keys", "logs"):
                shutil.rmtree(os.path.join(self.listing.state, name), ignore_errors=True)
            sink.keep([{"t": time.time(), "e": "run", "list": self.listing.path, "actions": len(self.actions)}])

    def write_list(self, chosen: programs.Chosen, actions: list[Action], turns: Turns | None) -> tuple[str, list[str]]:
        """Writes the list for the program. Returns its path and the command."""
        executor = programs.executor_of(self.words, actions)
        if self.words.has("--plain"):
            objects: list[Any] = [it.object for it in actions]
            more = executor_words(executor, chosen.name)
        else:
            tools = self.files.digests({path for it in actions for path in (*it.tools, it.argv[0])})
            watching = Watching(self.listing, self.words, tools, executor)
            watching.turns = turns.address if turns is not None else ""
            if chosen.is_shared():
                watching.most_kept = min(programs.jobs_of(self.words), programs.MOST_SHARED)
            objects = watching.watched(actions)
            more = watching.executor_words(chosen.name, actions)
        path = os.path.join(self.listing.state, "round.json")
        write_whole(path, json.dumps({"actions": objects}))
        return path, [programs.path_of(chosen.name), *chosen.options, *more, path]

    def keep_report(self, report: str, program: str) -> None:
        """Keeps the report, and the journal that journal_run prints after it. Each later call has a separate journal file."""
        if not self.words.has("--report") and program != "journal_run":
            return
        with open(report, "rb") as held:
            lines = held.readlines()
        end = next((place for place, line in enumerate(lines)
                    if line.startswith(b"actions=") and TOTAL.match(line.decode("utf-8", "replace").strip())), len(lines)) + 1
        if self.words.has("--report"):
            with open(self.words.last("--report"), "ab" if self.calls > 1 else "wb") as file:
                file.writelines(lines[:end])
        if program == "journal_run":
            path = self.words.last("--journal") + (f".{self.calls}" if self.calls > 1 else "")
            with open(path, "wb") as file:
                file.writelines(lines[end:])
            self.check_journal(path)

    def lose(self, path: str, error: OSError) -> None:
        """Prints that an output file couldn't be written. The status shows it too."""
        self.voice.line(f"lenthuvi: {path} can't be written: {error.strerror}")
        self.lost = True

    def check_journal(self, path: str) -> None:
        """Runs journal_check on a journal, and prints its verdict."""
        try:
            checker = programs.path_of("journal_check")
        except programs.Missing as error:
            self.voice.line(f"{path}: not checked: {error}")
            return
        with open(path, "rb") as file:
            checked = subprocess.run([checker], stdin=file, capture_output=True, text=True, errors="replace", check=False)
        self.voice.line(f"{path}: {checked.stdout.strip() or f'journal_check ended with status {checked.returncode}'}")
        self.status = max(self.status, 1 if checked.returncode else 0)

    # While a program runs.

    def hear(self, event: Event, sink: Sink) -> None:
        """Takes an event of a watcher, and prints at once what people want to know."""
        what, name = event["e"], event.get("n", "")
        sink.put(event)
        if what == "start":
            self.pids.add(event["pid"])
        elif what == "answer" and not event.get("cancelled"):
            self.done += 1
            is_bad = event["exit"] != 0 or "refusal" in event
            self.failures += is_bad
            if is_bad and not self.words.has("-q"):
                self.voice.line(self.voice.paint(f"failed {name}", "red") + f": {event.get('refusal') or 'exit ' + str(event['exit'])}")
            elif self.words.has("-v"):
                self.voice.line(f"made {name}: {self.reasons.get(name, '')}")
        elif what == "limit":
            self.voice.line(self.voice.paint(f"ended {name}", "red") + f": no answer for {event['s']:g} s (--limit)")
        elif what == "late" and self.listing.origin is None:
            held = f"its standard output has {event['held']}, which isn't a complete answer" if event["held"] != "''" else \
                "nothing is on its standard output; is it flushed?"
            self.voice.line(f"{name}: no answer for {event['s']:g} s; {held}")
        elif what == "text":
            self.voice.line(f"{name or 'a worker'}: on its standard output, where only answers belong, it wrote {event['text']}")
        elif what == "room" and event.get("trouble"):
            self.voice.line(f"{name}: its room wasn't kept whole: {event['trouble']}")

    def tick(self, tracker: Tracker) -> None:
        """Shows the progress of the run."""
        name, since = tracker.longest()
        longest = f"longest: {name}, {time.time() - since:.0f} s" if name and time.time() - since >= 1 else ""
        text = joined([f"{counted(self.done)} of {counted(max(self.total, self.done))}", f"{len(tracker.open)} running",
                       f"{self.failures} failed" if self.failures else "", f"{self.voice.seconds():.0f} s"])
        self.voice.progress(f"lenthuvi: {text}{'; ' if longest else ''}{longest}")

    def pass_line(self, line: bytes) -> None:
        """Passes on a line that a worker or a job wrote to its standard error."""
        self.voice.line(line.decode("utf-8", "replace"))

    def take_results(self, found: dict[str, Reported], tracker: Tracker, ended: Ended, sink: Sink) -> None:
        """Takes in what a program has reported."""
        self.slow |= tracker.slow
        self.held_back |= tracker.held_back
        for name, events in tracker.causes.items():
            self.causes.setdefault(name, []).extend(events)
        for kind, events in tracker.unclaimed().items():
            self.unclaimed.setdefault(kind, []).extend(events)
        self.said += ended.said
        sink.keep(self.take_action(it, tracker.times.get(name, (0.0, 0.0, 0))) for name, it in found.items() if it.outcome != "open")

    def take_action(self, it: Reported, times: tuple[float, float, int]) -> Event:
        """Takes in the result of an action, and returns its event. Shows the output of a project's command, as ninja does."""
        if it.outcome != "skipped" and it.name not in self.held_back:
            self.results[it.name] = it
        if self.listing.origin is not None and it.outcome == "ok" and it.text.strip() and not self.words.has("-q"):
            self.voice.line("\n".join([f"{it.name}:", *short(it.text)]))
        return {"t": time.time(), "e": "action", "n": it.name, "mnemonic": self.by_name[it.name].mnemonic, "round": self.calls, "outcome": it.outcome,
                "detail": it.detail, "local": it.local, "remote": it.remote, "why": self.reasons.get(it.name, ""),
                "sent": times[0], "answered": times[1], "worker": times[2], "text": it.text[:MOST_TEXT]}

    def tell_refusal(self, name: str, ended: Ended, is_whole: bool) -> None:
        """Prints that a program ended early, and what it printed. A run that ran out of memory may have written a report."""
        for line in ended.said:
            self.voice.line(line)
        how = f"by signal {-ended.status}" if ended.status < 0 else f"with status {ended.status}"
        what = "; what is ok" if is_whole else " and printed no report; what was answered before"
        self.voice.line(f"lenthuvi: {name} ended {how}{what} is remembered")

    # The memory of successes, which also covers runs that were killed.

    def open_round(self, actions: list[Action]) -> None:
        """Records the state of the sources and outputs before some actions run."""
        made = {path for it in actions for path in it.outputs}
        sources = self.files.digests({path for it in actions for path in it.may_read() if path not in made})
        held = {"place": os.path.getsize(self.events_path) if os.path.exists(self.events_path) else 0, "sources": sources,
                "flags": self.flags,
                "actions": {it.name: [self.shapes[it.name], [stamp_of(path) for path in it.outputs]] for it in actions}}
        write_whole(self.open_path, json.dumps(held))
        stop = os.path.join(self.listing.state, "stop")
        if os.path.exists(stop):
            os.remove(stop)

    def close_round(self, tracker: Tracker, found: dict[str, Reported] | None) -> int:
        """Remembers the successes of a call, by its report or, without one, by the answers and outputs. Returns how many."""
        good = tracker.good if found is None else {name for name, it in found.items() if it.outcome == "ok"}
        number = self.remember(good, found is None)
        os.remove(self.open_path)
        return number

    def remember(self, good: set[str], looks: bool) -> int:
        """Remembers actions that succeeded, if their sources are as before. If `looks`, their outputs must also be new files."""
        with open(self.open_path, encoding="utf-8", errors="surrogateescape") as file:
            held = json.load(file)
        sources = held["sources"]
        self.files.look_again()
        found: dict[str, Success] = {}
        new_outputs: set[str] = set()
        for it in self.listing.actions:
            before = held["actions"].get(it.name)
            if before is None or it.name not in good or before[0] != self.shape(it, held["flags"]):
                continue
            if looks and not all(is_new(path, stamp) for path, stamp in zip(it.outputs, before[1])):
                continue
            if all(self.files.digest(path) == sources[path] if path in sources else path in new_outputs for path in it.reads()):
                found[it.name] = success_of(it, before[0], self.files)
                new_outputs.update(it.outputs)
        self.memory.add(found)
        self.all_remembered &= found.keys() >= good
        return len(found)

    def shape(self, action: Action, flags: list[str]) -> str:
        """Returns the digest of an action with these extra flags."""
        known = self.shapes.get(action.name) if flags == self.flags else None
        return known or action.shape(flags)

    def knows_all(self) -> bool:
        """Returns True if each success of this call is remembered, and no action runs each time."""
        return self.all_remembered and not any(it.always() for it in self.actions)

    def recover(self) -> int:
        """Remembers the successes of a run that was killed. Returns how many there are."""
        if not os.path.exists(self.open_path):
            return 0
        wait_for_program()
        try:
            with open(self.open_path, encoding="utf-8", errors="surrogateescape") as file:
                place = int(json.load(file)["place"])
            tracker = Tracker(self.events_path, lambda event: None, place)
            tracker.read()
            number = self.remember(tracker.good, True)
        except (ValueError, KeyError, TypeError):
            number = 0  # The file isn't one of ours, so nothing can be learned from it.
        os.remove(self.open_path)
        self.files.save()
        return number


def wait_for_program() -> None:
    """Waits until the program of a run whose front was killed has ended too. Until then its outputs may still change."""
    try:
        fd = os.open(os.path.join(".worker_rooms", "lock"), os.O_RDWR | os.O_CLOEXEC)
    except OSError:
        return
    try:
        until = time.monotonic() + PROGRAM_SECONDS
        while True:
            try:
                fcntl.flock(fd, fcntl.LOCK_EX | fcntl.LOCK_NB)
                return
            except BlockingIOError:
                if time.monotonic() > until:
                    raise Busy("another run of worker_tool is at work in this folder") from None
                time.sleep(0.02)
    finally:
        os.close(fd)


def is_new(path: str, stamp: list[int] | None) -> bool:
    """Returns True if the file at a path isn't the same as before."""
    now = stamp_of(path)
    return now is not None and (stamp is None or now[3] != stamp[3] or now != tuple(stamp))
