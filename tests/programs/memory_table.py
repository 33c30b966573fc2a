"""Runs that lack memory: one allocation after another is refused, and the lines on standard error are compared with what the run
left. A library before the C library's refuses it; it is compiled by `cc`, and without `cc` nothing is played."""
from __future__ import annotations

import dataclasses
import pathlib
import re
import shutil
import subprocess
import sys
import tempfile
from collections.abc import Callable, Iterator

HERE = pathlib.Path(__file__).resolve().parent
sys.path.insert(0, str(HERE.parent.parent / "dev"))

import refuser  # noqa: E402
from play import MOST_SECONDS, Case, Programs, Wrong, action, compare, fill, found, json_list, shown  # noqa: E402

# Of the allocations of a run, each of the last ones is refused, and some of those before.
EACH_OF_LAST, OF_OTHERS = 60, 60

# The outputs of the list, and their contents: what the worker copies.
NAMES = ("p", "q", "r")
WANTED = {name: f"the content of {name}\n".encode() for name in NAMES}

BEFORE = ["nothing was begun"]
# What a run says if the refused allocation was for a thread.
NO_THREAD = re.compile(r"the system started [0-9]+ of [0-9]+ threads, so nothing was begun: look at ulimit -u, pids\.max and the free memory")


@dataclasses.dataclass(frozen=True)
class Told:
    """The lines of a program that lacked memory during the run, and after it."""

    during: list[str]
    after: list[str]


HALTED = "memory ran out during the run"
ENDED = "memory ran out after the run"
IN_PLACE = ": the outputs of actions that succeeded are in place"
REPORTED = "the report says which succeeded, if it could be written"
ONLY_REPORT, NO_TEXT = "only the report is missing", "the journal's text is missing"

OF_LIST = Told([f"{HALTED}{IN_PLACE}, and some of others may be", REPORTED], [f"{ENDED}{IN_PLACE}", ONLY_REPORT])
OF_MEMORY = Told([HALTED, REPORTED], [ENDED, ONLY_REPORT])
RECORDED = Told([OF_LIST.during[0], f"{REPORTED}; {NO_TEXT}"], [OF_LIST.after[0], f"{NO_TEXT}, or the report with it"])
RECORDED_IN_MEMORY = Told([HALTED, RECORDED.during[1]], [ENDED, RECORDED.after[1]])


@dataclasses.dataclass(frozen=True)
class Lacking:
    """A program with its words, the lines that it prints, and whether its run makes files and prints a journal."""

    name: str
    program: Callable[[Programs], pathlib.Path]
    words: list[str]
    told: Told
    makes_files: bool
    records: bool = False

    def program_name(self) -> str:
        """Returns the name that the program gives itself."""
        return self.name.split(",")[0]


@dataclasses.dataclass(frozen=True)
class Left:
    """What a run left: its status, its report and what follows it, its lines on standard error, and its outputs."""

    status: int
    report: list[str]
    text: bytes
    lines: list[str]
    was_refused: bool
    outputs: dict[str, bytes | None]


LACKING = [
    Lacking("worker_tool", lambda it: it.worker_tool, ["list"], OF_LIST, True),
    Lacking("worker_tool, in memory", lambda it: it.worker_tool, ["--generate=3"], OF_MEMORY, False),
    Lacking("spawn_tool", lambda it: it.spawn_tool, ["list"], OF_LIST, True),
    Lacking("shared_tool", lambda it: it.shared_tool, ["--max_workers=2", "list"], OF_LIST, True),
    Lacking("run_tool", lambda it: it.run_tool, ["--max_workers=2", "--local_delay=1", "list"], OF_LIST, True),
    Lacking("run_tool, in memory", lambda it: it.run_tool, ["--max_workers=2", "--local_delay=1", "--generate=3"], OF_MEMORY, False),
    Lacking("journal_run", lambda it: it.journal_run, ["list"], RECORDED, True, True),
    Lacking("journal_run, in memory", lambda it: it.journal_run, ["--generate=3"], RECORDED_IN_MEMORY, False, True),
]


def prepare(programs: Programs, folder: pathlib.Path) -> None:
    """Writes a list of three actions that demo_tool does."""
    actions = [action(name, argv=[str(programs.demo_tool.resolve()), f"@{name}.words"], inputs=[f"{name}.words", f"{name}.in"], outputs=[name])
               for name in NAMES]
    fill(folder, {"list": json_list(*actions), **{f"{name}.in": content for name, content in WANTED.items()},
                  **{f"{name}.words": f"--in={name}.in\n--out={name}\n".encode() for name in NAMES}})


def run_lacking(program: pathlib.Path, words: list[str], folder: pathlib.Path, library: str, call: int) -> Left:
    """Runs a program in a folder, with this allocation refused."""
    for name in NAMES:
        (folder / name).unlink(missing_ok=True)
    try:
        ended = subprocess.run([program, *words], cwd=folder, stdin=subprocess.DEVNULL, capture_output=True, check=False,
                               env=refuser.environment(library, call), timeout=MOST_SECONDS)
    except subprocess.TimeoutExpired:
        raise Wrong(f"wanted an end although allocation {call} is refused: {shown(words)}") from None
    report, end, text = ended.stdout.partition(b"skipped=")
    last, feed, text = text.partition(b"\n")
    lines = (report + end + last + feed).decode().splitlines()
    return Left(ended.returncode, lines, text, ended.stderr.replace(refuser.SAID, b"").decode().splitlines(), refuser.SAID in ended.stderr,
                {name: found(folder, name) for name in NAMES})


def stage_of(case: Lacking, left: Left) -> str:
    """Returns the stage that a run's lines name, and compares what it left with them. A run that ended otherwise has no stage."""
    if left.status != 3:
        return ""
    compare("the fault's line", [f"{case.program_name()}: no memory"], left.lines[:1])
    lines = [line.removeprefix("  ") for line in left.lines[1:]]
    if len(lines) == 1 and NO_THREAD.fullmatch(lines[0]):
        lines = BEFORE
    stages = {"before": BEFORE, "during": case.told.during, "after": case.told.after}
    stage = next((stage for stage, wanted in stages.items() if lines == wanted), None)
    if stage is None:
        raise Wrong(f"wanted one of {shown(list(stages.values()))}\ngot    {shown(lines)}")
    compare_left(case, stage, left)
    return stage


def compare_left(case: Lacking, stage: str, left: Left) -> None:
    """Compares what a run left with its stage. The journal's text is there in none."""
    compare("what follows the report", b"", left.text)
    made = {name for name, content in left.outputs.items() if content == WANTED[name]}
    compare("outputs made in part", [], [name for name, content in left.outputs.items() if content is not None and name not in made])
    said_ok = {line.split(" ")[0] for line in left.report if " ok " in line}
    if stage == "before":
        compare("what a run that wasn't begun left", (set(), []), (made, left.report))
    elif stage == "during":
        compare("outputs that are ok in the report, and aren't in place", set(), said_ok - made if case.makes_files else set())
    else:
        compare("the outputs", set(NAMES) if case.makes_files else set(), made)
        whole = f"actions={len(NAMES)} ok={len(NAMES)} failed=0 broken=0 skipped=0"
        compare("the report", True, not left.report or case.records and left.report[-1] == whole)


def calls_of(run: Callable[[int], Left]) -> list[int]:
    """Returns the numbers of the allocations that are refused: each of the last, and some of the others."""
    most = 64
    while run(most).was_refused:
        most *= 2
    least = most // 2
    while most - least > 8:
        middle = (most + least) // 2
        least, most = (middle, most) if run(middle).was_refused else (least, middle)
    first = max(1, most - EACH_OF_LAST)
    return [*range(1, first, max(1, first // OF_OTHERS)), *range(first, most)]


def lacks(case: Lacking) -> Case:
    """Returns a case that refuses allocations, until each stage was seen."""
    def play(programs: Programs, folder: pathlib.Path) -> None:
        with tempfile.TemporaryDirectory() as place:
            library = refuser.made_library(place)
            prepare(programs, folder)

            def run(call: int) -> Left:
                return run_lacking(case.program(programs), case.words, folder, library, call)
            seen = set()
            for call in calls_of(run):
                try:
                    seen.add(stage_of(case, run(call)))
                except Wrong as wrong:
                    raise Wrong(f"allocation {call} is refused: {wrong}") from None
            compare("the stages that were seen", {"before", "during", "after"}, seen - {""})
    return Case(f"no memory: {case.name}", play)


def cases() -> Iterator[Case]:
    if shutil.which("cc") is None:
        print("tests/programs: no run lacks memory: cc isn't installed, by which the library that refuses it is made")
        return
    for case in LACKING:
        yield lacks(case)
