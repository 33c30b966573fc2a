"""Runs of shared_tool: with as many workers as keys want it does what worker_tool does, row by row; with fewer, workers are given
up for others; and its own word."""
from __future__ import annotations

import dataclasses
import pathlib
from collections.abc import Iterator

import runs_table
import wire
from play import Case, Programs, action, compare, exchange, fault_line, fill, heard, json_list, put_player, report, run, stand_in

HERE = pathlib.Path(__file__).resolve().parent
LOCAL = "ok local local=won remote=unused"
OK = wire.framed(wire.response()).hex()


def sharer(programs: Programs) -> pathlib.Path:
    """A program that runs shared_tool, or another program with its options, in worker_tool's place."""
    return stand_in(HERE / "sharer.py", programs.shared_tool)


def shared(case: Case) -> Case:
    """A case of worker_tool, played by shared_tool."""
    def play(programs: Programs, folder: pathlib.Path) -> None:
        case.play(dataclasses.replace(programs, worker_tool=sharer(programs)), folder)
    return Case(f"shared: {case.name}", play)


def few_workers(programs: Programs, folder: pathlib.Path) -> None:
    """Six keys with one worker at a time: each key has a process of its own, and each action its output."""
    actions = [action(f"a{n}", argv=["t", f"--key={n}", "@f"], outputs=[f"o{n}"]) for n in range(6)]
    fill(folder, {"f": b"flag\n", "list": json_list(*actions)})
    put_player(folder, "t", [[["hear", 1], *(["leave", f"o{n}", "made"] for n in range(6)), ["give", OK]]] * 6)
    ended = run([programs.shared_tool, "--max_workers=1", "--retries=0", "list"], folder)
    compare("six keys, one worker", (0, report(*[f"a{n} {LOCAL}" for n in range(6)], ok=6), b""), (ended.status, ended.out, ended.err))
    compare("processes", 6, len(heard(folder, "t")))


def words(given: list[str], accepted: bool) -> Case:
    def play(programs: Programs, folder: pathlib.Path) -> None:
        fill(folder, {"l": json_list()})
        ended = run([programs.shared_tool, *given], folder)
        if accepted:
            compare(given, (0, report()), (ended.status, ended.out))
        else:
            line = f"{programs.shared_tool.name}: words are not accepted"
            compare(given, (2, b"", line), (ended.status, ended.out, fault_line(ended.err)))
    return Case(f"shared words: {given}", play)


def faults(programs: Programs, folder: pathlib.Path) -> None:
    """A status for each kind of fault, and the program's own name before it."""
    fill(folder, {"not": b"{", "gone": json_list(action(inputs=["f", "nowhere"])), "f": b"flag\n"})
    for name, status, line in (("not", 4, "list refused: NotJson"), ("gone", 5, "not there: nowhere"), ("none", 5, "not there: none")):
        ended = run([programs.shared_tool, "--max_workers=1", name], folder)
        wanted = f"{programs.shared_tool.name}: {line}"
        compare(name, (status, b"", wanted), (ended.status, ended.out, fault_line(ended.err)))
    broken = exchange(dataclasses.replace(programs, worker_tool=sharer(programs)), folder, [action()], ["--retries=1"],
                      t=[[["hear", 1], ["end"]]] * 2)
    compare("an action that is broken", (1, report("a broken local=dropped:died:2 remote=unused", broken=1)), (broken.status, broken.out))


def cases() -> Iterator[Case]:
    for case in runs_table.cases():
        if case.name != "the largest list":
            yield shared(case)
    yield Case("shared: more keys than workers", few_workers)
    yield Case("shared: faults", faults)
    one = "--max_workers=1"
    for given in ([one, "l"], ["l", "--max_workers=24"], [one, "--retries=9", "--instances=48", "--remote=16", "--worker_verbose", "l"],
                  [one, "--extra_flag=--max_workers=2", "--extra_flag=x", "l"], [one, "--executor=x", "l"]):
        yield words(given, True)
    for given in (["l"], ["--max_workers=0", "l"], ["--max_workers=25", "l"], ["--max_workers=", "l"], ["--max_workers", "1", "l"],
                  [one, one, "l"], [one], [one, "l", "l"], [one, "--retries=10", "l"], [one, "--instances=49", "l"], [one, "--generate=4"]):
        yield words(given, False)
