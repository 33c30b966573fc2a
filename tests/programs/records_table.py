"""Runs of journal_run: its report and faults are the same as worker_tool's. The text of a legal journal follows the report; if a
reply or a number in it is changed, the journal is refused."""
from __future__ import annotations

import dataclasses
import json
import os
import pathlib
import random
import subprocess
import sys
from collections.abc import Iterator
from typing import Any

HERE = pathlib.Path(__file__).resolve().parent
TOOLS = HERE.parent.parent / "tools"
sys.path.insert(0, str(TOOLS))

import journal_texts  # noqa: E402
import runs_table  # noqa: E402
from journal_changes import change, refusal  # noqa: E402
from journal_rules import Entry, Plan  # noqa: E402
from journals_table import ONE, ONE_PLAN, text_of  # noqa: E402
from play import Case, Ended, Programs, action, compare, exchange, fault_line, json_list, report, run, stand_in  # noqa: E402

# The number of changed texts for each generated list, and the number of these lists.
CHANGES, LISTS = 5, 10


def recorder(programs: Programs) -> pathlib.Path:
    """Returns a program that runs journal_run instead of worker_tool, and checks its journal."""
    return stand_in(HERE / "recorder.py", programs.journal_run, programs.journal_check)


def recorded(case: Case) -> Case:
    """Returns a case of worker_tool that journal_run plays. Its journal is checked."""
    def play(programs: Programs, folder: pathlib.Path) -> None:
        case.play(dataclasses.replace(programs, worker_tool=recorder(programs)), folder)
    return Case(f"recorded: {case.name}", play)


def split(ended: Ended) -> tuple[bytes, Plan, list[Entry]]:
    """Returns the report, the plan and the entries."""
    head, text = journal_texts.split(ended.out)
    plan, *entries = [json.loads(line) for line in text.splitlines()] or [None]
    return head, plan, entries


def checked(programs: Programs, folder: pathlib.Path, text: bytes) -> tuple[int, bytes]:
    ended = run([programs.journal_check], folder, given=text)
    return ended.status, ended.out


def of_lane(entries: list[Entry], lane: int) -> list[Entry]:
    return [entry for entry in entries if entry[0] == lane]


def one_action(programs: Programs, folder: pathlib.Path) -> None:
    """Checks the plan and each lane's entries against the page on the core. If a grant is changed to a loss, they are refused."""
    recording = dataclasses.replace(programs, worker_tool=programs.journal_run)
    serve = runs_table.serve("o", "x")
    ended = exchange(recording, folder, [action(inputs=["f"])], ["--instances=1"], t=[serve])
    head, plan, entries = split(ended)
    compare("the report", (0, report(f"a {runs_table.LOCAL}", ok=1), b""), (ended.status, head, ended.err))
    compare("the plan", ONE_PLAN, plan)
    for lane in (0, 1):
        compare(f"lane {lane}", of_lane(ONE, lane), of_lane(entries, lane))
    compare("its text", text_of(plan, entries), journal_texts.split(ended.out)[1])
    for given in (text_of(plan, entries), ended.out):
        compare("its audit", (0, b"legal actions=1 entries=14\n"), checked(programs, folder, given))
    at = next(at for at, entry in enumerate(entries) if entry[2] == ["Granted"])
    lost = [*entries[:at], [*entries[at][:2], ["Lost"]], *entries[at + 1 :]]
    compare("a loss", (1, f"illegal entry={at}\n".encode()), checked(programs, folder, text_of(plan, lost)))


def changed(number: int) -> Case:
    """Returns a case that runs a generated list in memory on threads, and checks its journal with one thing changed."""
    def play(programs: Programs, folder: pathlib.Path) -> None:
        dice = random.Random(number)
        count = dice.randrange(1, 41)
        ended = run([programs.journal_run, f"--generate={count}"], folder)
        head, plan, entries = split(ended)
        compare("the report", (0, report(ok=count), b""), (ended.status, head, ended.err))
        legal = f"legal actions={count} entries={len(entries)}\n".encode()
        for given in (text_of(plan, entries), ended.out):
            compare("its audit", (0, legal), checked(programs, folder, given))
        for _ in range(CHANGES):
            at, other = change(plan, entries, dice)
            compare((number, other[at]), refusal(plan, at, other), checked(programs, folder, text_of(plan, other)))
    return Case(f"one thing changed, {number}", play)


def slimmed(programs: Programs, folder: pathlib.Path) -> None:
    """Checks the journal without its contents. The report precedes it."""
    given = run([programs.journal_run, "--generate=20"], folder).out
    ways: list[list[str]] = [[], ["--contents"]]
    for words in ways:
        slim = run([TOOLS / "journal-slim", *words], folder, given=given)
        status, line = checked(programs, folder, slim.out)
        compare(words, (0, True), (status, line.startswith(b"legal actions=20 ")))
    compare("with its contents", journal_texts.split(given)[1], slim.out)


def drawn(programs: Programs, folder: pathlib.Path) -> None:
    """Checks that the page, the picture and the trace of a journal can be made."""
    given = run([programs.journal_run, "--generate=20"], folder).out
    ways: list[tuple[list[str], bytes]] = [([], b"<!DOCTYPE html>"), (["--svg"], b"<svg "), (["--trace"], b'{"traceEvents":[')]
    for words, begin in ways:
        ended = run([TOOLS / "journal-picture", *words], folder, given=given)
        compare(words, (0, begin, b""), (ended.status, ended.out[: len(begin)], ended.err))


def faults() -> Iterator[Case]:
    """Yields faulty runs. Nothing is written to standard output, and the fault's line names the program."""
    def fault(name: str, words: list[str], status: int, line: str, given: bytes | None = None) -> Case:
        def play(programs: Programs, folder: pathlib.Path) -> None:
            if given is not None:
                (folder / "list").write_bytes(given)
            ended = run([programs.journal_run, *words], folder)
            compare(words, (status, b"", line), (ended.status, ended.out, fault_line(ended.err)))
        return Case(name, play)
    yield fault("no word", [], 2, "journal_run: words are not accepted")
    yield fault("a list that isn't there", ["gone"], 5, "journal_run: not there: gone")
    yield fault("a list that is none", ["list"], 4, "journal_run: list refused: NotJson", b"no list")

    def full(programs: Programs, folder: pathlib.Path) -> None:
        out = os.open("/dev/full", os.O_WRONLY)
        try:
            ended = run([programs.journal_run, "--generate=3"], folder, stdout=out)
        finally:
            os.close(out)
        compare("output that takes nothing", (6, "journal_run: report not written"), (ended.status, fault_line(ended.err)))
    yield Case("output that takes nothing", full)


def no_actions(programs: Programs, folder: pathlib.Path) -> None:
    """Checks that a list without actions has a plan without actions and without lanes."""
    (folder / "list").write_bytes(json_list())
    ended = run([programs.journal_run, "list"], folder)
    compare("no actions", (0, report() + text_of([[], [], 2], [])), (ended.status, ended.out))


def cut_off(programs: Programs, folder: pathlib.Path) -> None:
    """Stops reading within the text. The program reports a fault, and the part that was read is a prefix."""
    run_words = [str(programs.journal_run), "--generate=1000"]
    with subprocess.Popen(run_words, cwd=folder, stdout=subprocess.PIPE, stderr=subprocess.PIPE) as program:
        assert program.stdout is not None and program.stderr is not None
        begin = program.stdout.read(100_000)
        program.stdout.close()
        said = program.stderr.read()
    head, text = journal_texts.split(begin)
    compare("a reader that is gone", (6, report(ok=1000), "journal_run: report not written"), (program.returncode, head, fault_line(said)))
    compare("a front of the text", True, text.startswith(b'[[["g0",'))


def cases() -> Iterator[Case]:
    yield Case("one action", one_action)
    yield from faults()
    yield Case("no actions", no_actions)
    yield Case("a reader that is gone", cut_off)
    yield Case("without its contents", slimmed)
    yield Case("drawn", drawn)
    for number in range(LISTS):
        yield changed(number)
    for case in runs_table.cases():
        yield recorded(case)
