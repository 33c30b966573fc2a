"""Runs each program in its own folder, and compares the result with the expected one."""
from __future__ import annotations

import dataclasses
import functools
import json
import os
import pathlib
import select
import signal
import subprocess
import sys
import tempfile
import threading
from collections.abc import Callable, Iterable, Mapping, Sequence

# The longest time that one run of a program may take, in seconds.
MOST_SECONDS = 300

# The most characters of a value that a failing case shows.
MOST_SHOWN = 1500

PLAYER = pathlib.Path(__file__).resolve().parent / "player.py"


class Wrong(Exception):
    """The result of a case differs from the expected one."""


@dataclasses.dataclass(frozen=True)
class Programs:
    """The finished programs."""

    worker_tool: pathlib.Path
    remote_exec: pathlib.Path
    job_pool: pathlib.Path
    demo_tool: pathlib.Path
    journal_check: pathlib.Path
    journal_run: pathlib.Path
    spawn_tool: pathlib.Path
    shared_tool: pathlib.Path
    line_worker: pathlib.Path
    run_tool: pathlib.Path


@dataclasses.dataclass(frozen=True)
class Case:
    """A case: its name, and the function that plays it in an empty folder."""

    name: str
    play: Callable[[Programs, pathlib.Path], None]


@dataclasses.dataclass(frozen=True)
class Ended:
    """The status of a program that has ended, and the output that it wrote."""

    status: int
    out: bytes
    err: bytes


def shown(value: object) -> str:
    """Returns a value as text, cut if it is longer than `MOST_SHOWN`."""
    told = repr(value)
    return told if len(told) <= MOST_SHOWN else f"{told[:MOST_SHOWN]}.. ({len(told)} characters)"


def compare(given: object, wanted: object, got: object) -> None:
    """Raises `Wrong`, with the given value, if the result differs from the wanted value."""
    if got != wanted:
        raise Wrong(f"given  {shown(given)}\nwanted {shown(wanted)}\ngot    {shown(got)}")


def fill(folder: pathlib.Path, files: Mapping[str, bytes]) -> None:
    """Writes files at their paths below a folder."""
    for path, content in files.items():
        place = folder / path
        place.parent.mkdir(parents=True, exist_ok=True)
        place.write_bytes(content)


def found(folder: pathlib.Path, path: str) -> bytes | None:
    """Returns the content of the file at a path, or None if there is no file."""
    place = folder / path
    return place.read_bytes() if place.is_file() else None


def run(words: Sequence[str | bytes | pathlib.Path], folder: pathlib.Path, given: bytes = b"", stdin: int | None = None,
        stdout: int | None = None) -> Ended:
    """Runs a program in a folder. If it takes too long, kills it and the processes of its group."""
    source = subprocess.PIPE if stdin is None else stdin
    out = subprocess.PIPE if stdout is None else stdout
    program = subprocess.Popen(words, cwd=folder, stdin=source, stdout=out, stderr=subprocess.PIPE, start_new_session=True)
    try:
        told, said = program.communicate(given if stdin is None else None, timeout=MOST_SECONDS)
    except subprocess.TimeoutExpired:
        os.killpg(program.pid, signal.SIGKILL)
        told, said = program.communicate()
        raise Wrong(f"given  {shown(words)}\nwanted an end within {MOST_SECONDS} seconds\ngot    {shown((told, said))}") from None
    return Ended(program.returncode, told or b"", said)


def ended_unheard(words: Sequence[str | bytes | pathlib.Path], folder: pathlib.Path, heard: int, given: bytes) -> int:
    """Returns the status of a program. Only `heard` bytes of its output are read, and its input stays open after `given`."""
    reading, writing = os.pipe()
    with subprocess.Popen(words, cwd=folder, stdin=subprocess.PIPE, stdout=writing, stderr=subprocess.DEVNULL) as program:
        assert program.stdin is not None
        try:
            for _ in range(heard):
                if not select.select([reading], [], [], MOST_SECONDS)[0]:
                    raise Wrong(f"wanted {heard} bytes of output within {MOST_SECONDS} seconds")
                os.read(reading, 1)
            os.close(reading)
            await_no_reader(writing)
            os.close(writing)
            os.write(program.stdin.fileno(), given)
            return program.wait(MOST_SECONDS)
        except subprocess.TimeoutExpired:
            raise Wrong(f"given  {shown((words, given))}\nwanted an end within {MOST_SECONDS} seconds, with the input open") from None
        finally:
            program.kill()


def await_no_reader(writing: int) -> None:
    """Waits until no process has the reading end of this pipe. A process that another thread starts has it until its program begins."""
    poll = select.poll()
    poll.register(writing, 0)
    if not poll.poll(MOST_SECONDS * 1000):
        raise Wrong(f"wanted a pipe without a reader within {MOST_SECONDS} seconds")


def fault_line(err: bytes) -> str:
    """Returns the fault's line on standard error. The lines after it must begin with two spaces; they give hints."""
    first, *behind = err.decode().split("\n")
    if any(line and not line.startswith("  ") for line in behind):
        raise Wrong(f"wanted lines that begin with two spaces behind a fault's line\ngot    {shown(err)}")
    return first


def no_fault(ended: Ended) -> None:
    """Raises `Wrong` if standard error contains a fault.

    At status 1 it may contain reasons, which are lines that begin with two spaces. At other statuses it must be empty.
    """
    lines = ended.err.decode().splitlines()
    if (lines and ended.status != 1) or any(not line.startswith("  ") for line in lines):
        raise Wrong(f"wanted no fault on standard error, and at status 1 lines that begin with two spaces\ngot    {shown(ended)}")


def action(name: str = "a", **more: object) -> dict[str, object]:
    """Returns an action of the worker `t`, with the flag file `f` and the output `o`. The given keys replace these."""
    base = {"name": name, "mnemonic": "T", "argv": ["t", "@f"], "inputs": ["f"], "outputs": ["o"]}
    return {**base, "requirements": {"supports-workers": "1"}, **more}


def supports(*what: str, **more: str) -> dict[str, str]:
    """Returns the requirements of a worker that supports `what`. They include `supports-workers`."""
    return {"supports-workers": "1", **{f"supports-{it}": "1" for it in what}, **more}


def json_list(*actions: Mapping[str, object]) -> bytes:
    return json.dumps({"actions": actions}).encode()


# The steps of a played process, in the form that `player.py` reads.
Step = Sequence[object]
Steps = Sequence[Step]


@dataclasses.dataclass(frozen=True)
class Heard:
    """The arguments and the environment of one process, and the bytes that it read."""

    words: list[str]
    env: dict[str, str]
    given: bytes


def made_program(source: pathlib.Path) -> tempfile.TemporaryDirectory[str]:
    """Returns a folder that contains this script as a program, without its suffix.

    The program is written once, before any case begins. The system refuses to start a program that is open for writing,
    and a process that another case is starting may hold it open.
    """
    folder = tempfile.TemporaryDirectory()
    place = pathlib.Path(folder.name) / source.stem
    place.write_text(f"#!{sys.executable} -IS\n{source.read_text(encoding='utf-8')}", encoding="utf-8")
    place.chmod(0o755)
    return folder


PLAYERS = made_program(PLAYER)


def put_player(folder: pathlib.Path, name: str, plays: Iterable[Steps]) -> None:
    """Puts a program of this name into the folder. Its nth process plays the nth list of steps."""
    place = folder / name
    place.parent.mkdir(parents=True, exist_ok=True)
    place.symlink_to(pathlib.Path(PLAYERS.name) / "player")
    (folder / f"{place.name}.plays").write_text(json.dumps(list(plays)), encoding="utf-8")


def hear_and_give(answer: bytes) -> Steps:
    """Returns the steps that read a request and give this answer."""
    return [["hear", 1], ["give", answer.hex()]]


def heard(folder: pathlib.Path, name: str) -> list[Heard]:
    """Returns what each process of this program was started with and read, in the order of their starts."""
    out: list[Heard] = []
    while (place := folder / f"{name}.{len(out)}").is_dir():
        start = json.loads((place / "start").read_text(encoding="utf-8")) if (place / "start").exists() else [[], {}]
        out.append(Heard(start[0], start[1], found(place, "heard") or b""))
    return out


def exchange(programs: Programs, folder: pathlib.Path, actions: Sequence[Mapping[str, object]], words: Sequence[str] = (),
             files: Mapping[str, bytes] | None = None, **players: Iterable[Steps]) -> Ended:
    """Runs a list. These players replace its workers and its executor; the executor's player is named `x`."""
    fill(folder, {"f": b"flag\n", **(files or {}), "list": json_list(*actions)})
    for name, plays in players.items():
        put_player(folder, name, plays)
    executor = ["--executor=x"] if "x" in players else []
    return run([programs.worker_tool, "list", *executor, *words], folder)


def report(*lines: str, ok: int = 0, failed: int = 0, broken: int = 0, skipped: int = 0) -> bytes:
    """Returns the report of a run: these lines, and the totals."""
    count = ok + failed + broken + skipped
    total = f"actions={count} ok={ok} failed={failed} broken={broken} skipped={skipped}"
    return "".join(f"{line}\n" for line in [*lines, total]).encode()


def marked(said: bytes) -> list[str]:
    """Returns the lines of a response's text in the form in which they follow their action."""
    lines = said.decode().split("\n")
    return [f"  | {line}" for line in (lines if lines[-1] else lines[:-1])]


# Cases are played on threads. Without the lock two cases could make a folder each, and one folder would be removed while its
# case uses it.
MAKING = threading.Lock()


@functools.cache
def folder_of(links: tuple[tuple[str, pathlib.Path], ...]) -> tempfile.TemporaryDirectory[str]:
    folder = tempfile.TemporaryDirectory()
    for name, program in links:
        copy(program, pathlib.Path(folder.name), name)
    return folder


def stand_in(script: pathlib.Path, *programs: pathlib.Path) -> pathlib.Path:
    """Returns the path of a program that replaces worker_tool. These programs are in the same folder."""
    links = (("worker_tool", script), *((it.name, it) for it in programs))
    with MAKING:
        return pathlib.Path(folder_of(links).name) / "worker_tool"


def copy(program: pathlib.Path, folder: pathlib.Path, name: str) -> None:
    """Links a program into the folder under another name. A link avoids a program that is open for writing."""
    (folder / name).symlink_to(program.resolve())
