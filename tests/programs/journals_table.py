"""Texts of journals, and the verdicts of journal_check. The journals are played by the rules of journal_rules: lanes take turns
at random, and workers sometimes fail. In other texts one thing is changed. Some have a report before them, and some have a line
that would take much memory as a tree of values."""
from __future__ import annotations

import base64
import copy
import hashlib
import json
import os
import pathlib
import random
from collections.abc import Iterator
from typing import Any

from journal_changes import REPLIES, is_beyond
from journal_rules import Entry, History, Plan, first_wrong
from play import Case, Programs, compare, run

MOST_ATTEMPTS = 10
MOST_ACTIONS = 4_096
MOST_BERTHS = 64
MOST_BYTES = 268_435_456

ONE_PLAN: Plan = [[["a", ["o"], [], 0, None]], [[["Single"], False, 1]], 2]

ONE: list[Entry] = [
    [0, ["Ask"], ["Launch", 0, 0, ["Local"], 1]],
    [0, ["Launched", 0, ["Done"]], ["Noted"]],
    [1, ["Take"], ["Line", 0]],
    [0, ["Ask"], ["Send", 0, 0, 0, ["Local"], 1]],
    [0, ["Wrote", 0, 0, ["Done"]], ["Noted"]],
    [1, ["Answer", 0, [0, 0, False, "", "", [], 0]], ["Matched", 0, ["Local"], 1]],
    [0, ["Ask"], ["Gather", 0, 0, 0, ["Local"], 1, 0, False]],
    [0, ["Claim", 0, ["Local"], 1, ["Files", ["eA=="]]], ["Granted"]],
    [0, ["Committed", 0, ["Local"], ["Done"]], ["Noted"]],
    [0, ["Ask"], ["Kill", 0, ["Quit"]]],
    [0, ["Killed", 0], ["Noted"]],
    [1, ["Ended", 0, ["End"]], ["Noted"]],
    [0, ["Ask"], ["Stop"]],
    [1, ["Take"], ["Stop"]],
]


def text_of(plan: Plan, entries: list[Entry]) -> bytes:
    return b"".join(json.dumps(line, separators=(",", ":")).encode() + b"\n" for line in [plan, *entries])


# ---- journals that follow the rules


class Lanes:
    """The lanes of a run. Each lane's next call is chosen at random."""

    def __init__(self, plan: Plan, seed: int, trouble: float) -> None:
        self.history, self.dice, self.trouble = History(plan), random.Random(seed), trouble

    def fails(self) -> bool:
        return self.dice.random() < self.trouble

    def content(self) -> str:
        return base64.b64encode(self.dice.randbytes(self.dice.randrange(6))).decode()

    def call(self, lane: int) -> list[Any] | None:
        """Returns a call of the lane's script, or None if there is none. After Stop there is none."""
        if lane in self.history.stopped:
            return None
        newest = self.history.newest.get(lane)
        return self.of_tap(newest) if lane % 2 else self.of_proxy(newest)

    def of_proxy(self, newest: Entry | None) -> list[Any]:
        told = newest[2] if newest is not None else ["Noted"]
        commit = self.history.owed_commit(newest)
        if commit is not None:
            return ["Committed", *commit, ["PlaceFault", 0] if self.fails() else ["Done"]]
        if told[0] == "Launch":
            return ["Launched", told[1], [self.dice.choice(["RoomFault", "LaunchFault"])] if self.fails() else ["Done"]]
        if told[0] == "Send":
            return ["Wrote", *told[1:3], [self.dice.choice(["RoomFault", "FeedFault", "TooLarge"])] if self.fails() else ["Done"]]
        if told[0] == "Cancel":
            return ["Wrote", *told[1:3], ["FeedFault"] if self.fails() else ["Done"]]
        if told[0] == "Gather":
            return ["Claim", *told[3:6], self.found(told)]
        return ["Killed", told[1]] if told[0] == "Kill" else ["Ask"]

    def found(self, gather: list[Any]) -> list[Any]:
        outputs = self.history.actions[gather[3]][1]
        if gather[6] != 0:
            return ["Exit", gather[6]]
        if gather[7]:
            return ["Refused"]
        if outputs and self.fails():
            return ["Missing", self.dice.randrange(len(outputs))]
        return ["Files", [self.content() for _ in outputs]]

    def of_tap(self, newest: Entry | None) -> list[Any] | None:
        at = self.history.heard(newest)
        if at is None:
            return ["Take"]
        line = self.history.lines[at]
        if line.killed or self.dice.random() < self.trouble / 4:
            return ["Ended", at, [self.dice.choice(["End", "TapFault", "BadFrame", "Long"])]]
        waiting = self.history.pending(line)
        is_executor = self.history.kind_of(line.lane // 2) == "Remote"
        if is_executor and not line.spoken:
            return ["Answer", at, [0, 0, False, "", "", [], self.dice.choice([1, 2])]]
        if not waiting:
            return None
        return ["Answer", at, self.answer(self.dice.choice(waiting), is_executor)]

    def answer(self, request: Any, is_executor: bool) -> list[Any]:
        number = request.number + (1 if self.fails() else 0)
        files = [["o", self.content()]] if is_executor else []
        refusal = "no" if is_executor and self.fails() else ""
        is_cancelled = request.cancelled and self.dice.random() < 0.5
        return [number, 1 if self.fails() else 0, is_cancelled, self.dice.choice(["", "warn\u00fc\n"]), refusal, files, 2 * is_executor]


def played(plan: Plan, seed: int, trouble: float, most: int = 600) -> list[Entry]:
    """Returns a journal of the plan, which ends after at most `most` turns."""
    lanes = Lanes(plan, seed, trouble)
    entries: list[Entry] = []
    for _ in range(most):
        lane = lanes.dice.randrange(2 * len(lanes.history.seats))
        call = lanes.call(lane)
        reply = ["Idle"] if call is None else lanes.history.reply(lane, call)
        if reply[0] not in ("Idle", "Astray"):
            entries.append([lane, call, reply])
            lanes.history.add(entries[-1])
    return entries


def plan_of(dice: random.Random) -> Plan:
    """Returns a sound plan with a few actions, workers of any kind and sometimes an executor."""
    kinds = [["Single", False], ["Single", True], ["Multi", False], ["Boxed", True]]
    groups = [[[kind], cancels, dice.randrange(1, 3)] for kind, cancels in dice.sample(kinds, dice.randrange(1, 3))]
    executor = len(groups)
    if dice.random() < 0.7:
        groups.append([["Remote"], False, dice.randrange(1, 3)])
    actions: list[Any] = []
    for at in range(dice.randrange(1, 6)):
        makers = [[dice.randrange(at), 0]] if at and dice.random() < 0.4 else []
        remote = executor if len(groups) > executor and dice.random() < 0.7 else None
        local = None if remote is not None and dice.random() < 0.2 else dice.randrange(executor)
        actions.append([f"a{at}", ["o"], makers, local, remote])
    return [actions, groups, dice.randrange(1, 4)]


# ---- the expected results


def wanted(plan: Plan, entries: list[Entry]) -> tuple[int, bytes]:
    """Returns the expected status and line for a sound plan and entries."""
    at = first_wrong(plan, entries)
    if at is None:
        return 0, f"legal actions={len(plan[0])} entries={len(entries)}\n".encode()
    if is_beyond(plan, entries[at]):
        return 4, f"out of plan entry={at}\n".encode()
    return 1, f"illegal entry={at}\n".encode()


def case(name: str, text: bytes, status: int, line: bytes) -> Case:
    def check(programs: Programs, folder: pathlib.Path) -> None:
        ended = run([programs.journal_check], folder, given=text)
        compare(text, (status, line, b""), (ended.status, ended.out, ended.err))
    return Case(name, check)


def journal(name: str, plan: Plan, entries: list[Entry]) -> Case:
    return case(name, text_of(plan, entries), *wanted(plan, entries))


# ---- texts with one change


def changed_entry(at: int, change: Any) -> list[Entry]:
    """Returns the journal of one action with a change to this entry."""
    entries = copy.deepcopy(ONE)
    change(entries[at])
    return entries


def put(*path: int, value: Any) -> Any:
    """Returns a function that puts a value at a path in an entry."""
    def change(entry: Any) -> None:
        for step in path[:-1]:
            entry = entry[step]
        entry[path[-1]] = value
    return change


def one_thing(entry: Entry, dice: random.Random, actions: int) -> None:
    """Changes the reply, the lane, a number or the call of an entry."""
    lane, call, reply = entry
    which = dice.randrange(4)
    if which == 0:
        entry[0] = lane + dice.choice([1, 2, 100])
    elif which == 1:
        entry[2] = dice.choice([it for it in REPLIES if it != reply])
    elif which == 2 and any(isinstance(it, int) for it in reply[1:]):
        at = dice.choice([at for at in range(1, len(reply)) if isinstance(reply[at], int)])
        reply[at] = not reply[at] if isinstance(reply[at], bool) else reply[at] + dice.choice([1, actions, 1000])
    else:
        entry[1] = dice.choice([it for it in CALLS if it != call])


CALLS: list[list[Any]] = [["Ask"], ["Take"], ["Tick"], ["Killed", 0], ["Ended", 0, ["Long"]], ["Launched", 0, ["RoomFault"]],
                          ["Wrote", 0, 1, ["Done"]], ["Claim", 0, ["Local"], 1, ["Missing", 0]],
                          ["Committed", 0, ["Local"], ["Done"]], ["Look", ["Made", 0, 0]]]


def changed(number: int) -> Case:
    """Returns a case with a journal in which one entry is changed, removed or repeated."""
    dice = random.Random(10_000 + number)
    plan = plan_of(dice)
    entries = played(plan, number, 0.1)
    at = dice.randrange(len(entries))
    which = number % 5
    if which < 3:
        one_thing(entries[at], dice, len(plan[0]))
    elif which == 3:
        del entries[at]
    else:
        entries.insert(at, entries[at])
    return journal(f"one entry changed, {number}", plan, entries)


def slim(value: Any) -> Any:
    """Returns a copy of an entry with each content replaced by its SHA-256."""
    entry = copy.deepcopy(value)
    call = entry[1]
    if call[0] == "Claim" and call[4][0] == "Files":
        call[4][1] = [digest(it) for it in call[4][1]]
    if call[0] == "Answer":
        call[2][5] = [[path, digest(it)] for path, it in call[2][5]]
    return entry


def digest(content: str) -> str:
    return base64.b64encode(hashlib.sha256(base64.b64decode(content)).digest()).decode()


# ---- cases


def lines() -> Iterator[Case]:
    """Yields texts in every permitted form, and lines that can't be read."""
    text = text_of(ONE_PLAN, ONE)
    rows = text.splitlines(keepends=True)
    yes = (0, b"legal actions=1 entries=14\n")
    spaced = b"".join(json.dumps(json.loads(row)).encode() + b" \r\n" for row in rows)
    yield case("no last line feed", text[:-1], *yes)
    yield case("spaces and carriage returns", spaced, *yes)
    yield case("nothing", b"", 4, b"bad line=1\n")
    yield case("an empty first line", b"\n" + text, 4, b"bad line=1\n")
    yield case("an empty line inside", b"".join([*rows[:4], b"\n", *rows[4:]]), 4, b"bad line=5\n")
    yield case("an empty line at the end", text + b"\n", 4, b"bad line=16\n")
    yield case("an entry first", b"".join(rows[1:]), 4, b"bad line=1\n")
    yield case("no UTF-8", b"".join([*rows[:9], b"\xff" + rows[9]]), 4, b"bad line=10\n")
    yield case("two on a line", b"".join([*rows[:3], rows[3][:-1] + rows[4]]), 4, b"bad line=4\n")
    yield case("the plan twice", b"".join([rows[0], *rows]), 4, b"bad line=2\n")


def spellings() -> Iterator[Case]:
    """Yields texts with an invalid value in one line."""
    for name, at, old, new in [
        ("a limit with a fraction", 0, b",2]", b",2.0]"), ("a lane of 2^32", 3, b"[1,", b"[4294967296,"),
        ("a lane below 0", 3, b"[1,", b"[-1,"), ("base64 with unused bits", 8, b"eA==", b"eB=="),
        ("base64 without padding", 8, b"eA==", b"eA"), ("another name", 1, b"Ask", b"ask"),
        ("a field too many", 1, b'["Ask"]', b'["Ask",0]'), ("a field too few", 2, b'0,["Done"]', b'["Done"]'),
        ("a number in place of a flag", 7, b"0,false", b"0,0"), ("a request's number of 2^31", 4, b'"Send",0,0', b'"Send",0,2147483648'),
    ]:
        rows = text_of(ONE_PLAN, ONE).splitlines(keepends=True)
        rows[at] = rows[at].replace(old, new, 1)
        yield case(name, b"".join(rows), 4, f"bad line={at + 1}\n".encode())


def plans() -> Iterator[Case]:
    """Yields unsound plans, and the faults that take precedence."""
    action = ONE_PLAN[0][0]
    groups = ONE_PLAN[1]
    for name, plan in {
        "limit 0": [[action], groups, 0], "limit 11": [[action], groups, MOST_ATTEMPTS + 1],
        "65 berths": [[action], [[["Single"], False, MOST_BERTHS + 1]], 2],
        "many berths in two groups": [[action], [[["Single"], False, 2**32 - 1]] * 2, 2],
        "4,097 actions": [[action] * (MOST_ACTIONS + 1), groups, 2],
        "no branch": [[["a", ["o"], [], None, None]], groups, 2],
        "no such group": [[["a", ["o"], [], 1, None]], groups, 2],
        "one group for both branches": [[["a", ["o"], [], 0, 0]], groups, 2],
        "its own input": [[["a", ["o"], [[0, 0]], 0, None]], groups, 2],
        "an executor that is asked to cancel": [[action], [[["Single"], False, 1], [["Remote"], True, 1]], 2],
    }.items():
        yield case(f"unsound: {name}", text_of(plan, []), 4, b"bad plan\n")
    rows = text_of([[action], groups, 11], ONE).splitlines(keepends=True)
    yield case("unsound, with entries", b"".join(rows), 4, b"bad plan\n")
    yield case("unsound, and a bad line", b"".join([*rows[:2], b"x\n", *rows[3:]]), 4, b"bad line=3\n")
    yield case("a bad line behind a wrong entry", text_of(ONE_PLAN, ONE[1:]) + b"x\n", 4, b"bad line=15\n")
    yield case("the plan alone", text_of(ONE_PLAN, []), 0, b"legal actions=1 entries=0\n")
    yield case("no actions", text_of([[], [], 1], []), 0, b"legal actions=0 entries=0\n")


def entries_of_one() -> Iterator[Case]:
    """Yields the journal of one action, and slightly different texts."""
    yield journal("one action", ONE_PLAN, ONE)
    yield case("one action, said", text_of(ONE_PLAN, ONE), 0, b"legal actions=1 entries=14\n")
    for name, at, change, status, line in [
        ("Granted is Lost", 7, put(2, 0, value="Lost"), 1, b"illegal entry=7\n"),
        ("lane 2 asks first", 0, put(0, value=2), 4, b"out of plan entry=0\n"),
        ("a reply names line 4", 0, put(2, 1, value=4), 4, b"out of plan entry=0\n"),
        ("a reply names line 3", 0, put(2, 1, value=3), 1, b"illegal entry=0\n"),
        ("an output that isn't there", 7, put(1, 4, value=["Missing", 1]), 4, b"out of plan entry=7\n"),
        ("an entry that isn't kept", 2, put(2, value=["Idle"]), 1, b"illegal entry=2\n"),
    ]:
        yield case(name, text_of(ONE_PLAN, changed_entry(at, change)), status, line)
    for count in (1, 6, 13):
        yield case(f"cut after {count} entries", text_of(ONE_PLAN, ONE[:count]), 0, f"legal actions=1 entries={count}\n".encode())


def runs() -> Iterator[Case]:
    """Yields journals of other plans."""
    for number in range(20):
        dice = random.Random(number)
        plan = plan_of(dice)
        yield journal(f"played {number}", plan, played(plan, number, 0.15 * (number % 3)))
    plan = [[[f"a{at}", ["o"], [], 0, 1] for at in range(12)], [[["Multi"], True, 2], [["Remote"], False, 2]], 2]
    entries = played(plan, 7, 0.05, 3_000)
    yield journal("contents", plan, entries)
    yield journal("contents as digests", plan, [slim(entry) for entry in entries])


def too_long() -> Case:
    """Returns a case with a text that exceeds the limit: a file with lines of spaces."""
    def check(programs: Programs, folder: pathlib.Path) -> None:
        path = folder / "text"
        with path.open("wb") as text:
            for _ in range(MOST_BYTES // 2**20):
                text.write((b" " * 1023 + b"\n") * 1024)
            text.write(b"\n")
        with path.open("rb") as text:
            ended = run([programs.journal_check], folder, stdin=text.fileno())
        compare("too long", (4, b"too long\n", b""), (ended.status, ended.out, ended.err))
    return Case("too long", check)


# ---- a report before the text

COUNTS = b"actions=1 ok=1 failed=0 broken=0 skipped=0\n"
REPORT = b"a ok local local=won remote=unused\n  | a warning\n  | \n" + COUNTS


def reports() -> Iterator[Case]:
    """Yields texts with a report before them. A bad line is counted from the first line of the report."""
    text = text_of(ONE_PLAN, ONE)
    rows = text.splitlines(keepends=True)
    yes = (0, b"legal actions=1 entries=14\n")
    lost = text_of(ONE_PLAN, changed_entry(7, put(2, 0, value="Lost")))
    yield case("a report before it", REPORT + text, *yes)
    yield case("a short report before it", COUNTS + text, *yes)
    yield case("the report of no actions", b"actions=0 ok=0 failed=0 broken=0 skipped=0\n[[],[],2]\n", 0, b"legal actions=0 entries=0\n")
    yield case("a report of large counts", b"actions=4096 ok=12 failed=3000 broken=1084 skipped=0\n" + text, *yes)
    yield case("a report, and no last line feed", REPORT + text[:-1], *yes)
    yield case("a report, and a wrong entry", REPORT + lost, 1, b"illegal entry=7\n")
    yield case("a report, and an unsound plan", REPORT + text_of([ONE_PLAN[0], ONE_PLAN[1], 11], []), 4, b"bad plan\n")
    yield case("a report, and a bad line", REPORT + b"".join([*rows[:3], b"x\n", *rows[3:]]), 4, b"bad line=8\n")
    yield case("a report, and no plan", REPORT + b"".join(rows[1:]), 4, b"bad line=5\n")
    yield case("a report, and an empty line", REPORT + b"\n" + text, 4, b"bad line=5\n")


def report_lines() -> Iterator[Case]:
    """Yields reports some of whose lines look like other lines."""
    text = text_of(ONE_PLAN, ONE)
    yes = (0, b"legal actions=1 entries=14\n")
    for name, line in [
        ("a text like a last line", b"  | " + COUNTS), ("a text like a plan", b"  | [[],[],2]\n"),
        ("a name like a plan", b"[[],[],2] ok local local=won remote=unused\n"),
        ("a name like an entry", b'[0,["Ask"],["Stop"]] broken local=dropped:died:2 remote=unused\n'),
        ("a name like a last line", b"actions=1 ok local local=won remote=unused\n"),
        ("a path with a line feed", b"b broken local=dropped:missing(c\nd):2 remote=unused\n"),
        ("a number", b"12\n"), ("a line that isn't UTF-8", b"  | \xff\n"), ("an empty line", b"\n"),
    ]:
        yield case(f"a report with {name}", line + REPORT + text, *yes)


def no_reports() -> Iterator[Case]:
    """Yields texts without a whole report before them: of each the first line is bad, as if no report were read at all."""
    text = text_of(ONE_PLAN, ONE)
    rows = text.splitlines(keepends=True)
    bad = (4, b"bad line=1\n")
    yield case("a report cut in its first line", REPORT[:10] + b"\n" + text, *bad)
    yield case("a report cut in a text", REPORT[:40] + b"\n" + text, *bad)
    yield case("a report without its last line", REPORT[: -len(COUNTS)] + text, *bad)
    yield case("a report alone without its last line", REPORT[: -len(COUNTS)], *bad)
    yield case("a report whose last line runs on", REPORT[:-1] + text, *bad)
    yield case("an entry before the report", rows[1] + REPORT + text, *bad)
    yield case("an entry inside the report", b"a ok local local=won remote=unused\n" + rows[1] + COUNTS + text, *bad)
    yield case("a plan inside the report", b"a ok local local=won remote=unused\n" + rows[0] + COUNTS + text, *bad)
    for end in (len(COUNTS) // 2, len(COUNTS) - 2):
        yield case(f"a last line cut after {end} bytes", COUNTS[:end] + b"\n" + text, *bad)
    for name, line in [
        ("a space at its end", COUNTS[:-1] + b" \n"), ("a carriage return", COUNTS[:-1] + b"\r\n"), ("a space before it", b" " + COUNTS),
        ("a sign", COUNTS.replace(b"ok=1", b"ok=-1")), ("no number", COUNTS.replace(b"ok=1", b"ok=")),
        ("a fraction", COUNTS.replace(b"ok=1", b"ok=1.5")), ("its counts in another order", b"ok=1 actions=1 failed=0 broken=0 skipped=0\n"),
        ("a count too many", COUNTS[:-1] + b" open=0\n"), ("capitals", COUNTS.upper()), ("two spaces", COUNTS.replace(b" ok", b"  ok")),
    ]:
        yield case(f"a last line with {name}", line + text, *bad)


def not_once() -> Iterator[Case]:
    """Yields reports and texts one after another. Only what precedes the first text can be a report."""
    text = text_of(ONE_PLAN, ONE)
    at = REPORT.count(b"\n")
    yield case("a report, and nothing after it", REPORT, 4, f"bad line={at + 1}\n".encode())
    yield case("a short report, and nothing after it", COUNTS[:-1], 4, b"bad line=2\n")
    yield case("two reports", REPORT + REPORT + text, 4, f"bad line={at + 1}\n".encode())
    yield case("a report after the text", text + REPORT, 4, b"bad line=16\n")
    yield case("a report inside the text", text + COUNTS + text, 4, b"bad line=16\n")
    yield case("two outputs of runs", (REPORT + text) * 2, 4, f"bad line={at + 16}\n".encode())


# ---- lines that would take much memory

# Up to how many times its own bytes a line that spells nothing may take.
MOST_TIMES = 4

LONG = 16 << 20


# Starts the second word with an address space of as many KiB as the first one says.
LIMITED = 'ulimit -v "$1" && exec "$2"'


def memory(name: str, begin: bytes, unit: bytes, end: bytes, row: int, line: bytes) -> Case:
    """Returns a case with a long line, this one of the text. The program gets memory for four times as many bytes."""
    def check(programs: Programs, folder: pathlib.Path) -> None:
        path = folder / "text"
        with path.open("wb") as text:
            text.write(b"".join([text_of(ONE_PLAN, [])] * (row - 1)) + begin)
            for _ in range(LONG // (64 * len(unit))):
                text.write(unit * 64)
            text.write(end)
        with path.open("rb") as text:
            most = MOST_TIMES * path.stat().st_size >> 10
            ended = run(["sh", "-c", LIMITED, "sh", str(most), programs.journal_check], folder, stdin=text.fileno())
        compare(name, (4, line, b""), (ended.status, ended.out, ended.err))
    return Case(f"memory: {name}", check)


def long_lines() -> Iterator[Case]:
    """Yields texts with a long line that spells nothing."""
    bad = b"bad line=2\n"
    for name, begin, unit, end in [
        ("brackets", b"", b"[", b"\n"), ("numbers", b"[0", b",0", b"]\n"), ("empty rows", b"[[]", b",[]", b"]\n"),
        ("rows of numbers", b"[[0,0]", b",[0,0]", b"]\n"), ("objects", b"[{}", b",{}", b"]\n"), ("keys", b'{"":0', b',"":0', b"}\n"),
        ("numbers for a call", b'[0,["Ask"', b",0", b'],["Stop"]]\n'), ("numbers for a reply", b'[0,["Ask"],["Stop"', b",0", b"]]\n"),
        ("numbers for files", b'[0,["Claim",0,["Local"],1,["Files",[0', b",0", b']]],["Granted"]]\n'),
        ("a long name", b'[0,["', b"Ask", b'"],["Stop"]]\n'), ("escapes", b'[0,["', b"\\n", b'"],["Stop"]]\n'),
    ]:
        yield memory(name, begin, unit, end, 2, bad)
    for name, begin, unit, end in [("numbers for a plan", b"[0", b",0", b"]\n"), ("no text", b"", b"x", b"\n")]:
        yield memory(name, begin, unit, end, 1, b"bad line=1\n")


def words() -> Iterator[Case]:
    def refused(programs: Programs, folder: pathlib.Path) -> None:
        ended = run([programs.journal_check, "x"], folder)
        compare("a word", (2, b"", b"journal_check: words are not accepted\n"), (ended.status, ended.out, ended.err))
    yield Case("a word", refused)

    def folder_as_input(programs: Programs, folder: pathlib.Path) -> None:
        given = os.open(folder, os.O_RDONLY)
        try:
            ended = run([programs.journal_check], folder, stdin=given)
        finally:
            os.close(given)
        wanted = b"journal_check: input not read; give it a file, as in journal_check <journal.jsonl\n"
        compare("a folder", (5, b"", wanted), (ended.status, ended.out, ended.err))
    yield Case("a folder as input", folder_as_input)

    def full(programs: Programs, folder: pathlib.Path) -> None:
        out = os.open("/dev/full", os.O_WRONLY)
        try:
            ended = run([programs.journal_check], folder, given=text_of(ONE_PLAN, ONE), stdout=out)
        finally:
            os.close(out)
        wanted = b"journal_check: line not written; standard output is closed or full\n"
        compare("output that takes nothing", (6, wanted), (ended.status, ended.err))
    yield Case("output that takes nothing", full)


def cases() -> Iterator[Case]:
    for part in (entries_of_one, lines, spellings, plans, runs, reports, report_lines, no_reports, not_once, long_lines, words):
        yield from part()
    for number in range(50):
        yield changed(number)
    yield too_long()
