"""Lanes that rest: one that has work is woken, and doesn't wait until its rest ends by itself.

A rest ends after a second, so a lane that nobody wakes does all of its work, a second late. Each case has many rounds in which a
lane rests and is needed. How long a round takes depends on the machine: what counts is that most rounds lose a second, or that
they lose many seconds together, beside what the same program takes in the same minute where no lane is needed that rests.
"""
from __future__ import annotations

import dataclasses
import os
import pathlib
import select
import statistics
import subprocess
import time
from collections.abc import Callable, Iterator, Sequence

import play
import wire
from executor_table import rooms
from play import Case, Programs, compare
from wire import GREETING, framed, job, request, response, result

# The seconds that most rounds may lose. A rest that nobody ends takes one.
MOST_LATE = 0.5
MOST_LATE_UNHEARD = 0.7  # where the reader looks at the output every fifth of a second

# The rounds of a case, and the seconds before each, in which the lanes come to rest.
ROUNDS = 11
PAUSE = 0.05

# The requests of the case in which the reader waits for room, as many as fill some sixty reads. Without a waking they lose
# some ten to forty seconds. Sent all at once they may take this many times as long as in groups, and this many seconds more.
MANY = 65_536
MOST_TIMES = 4
MOST_LOST = 4.0

# The requests of a short run of the executor, in which its reader waits once. Most of these runs may take this many times as long
# as most runs in groups, and this many seconds more.
FEW = 7_500
FEW_TIMES = 3
FEW_LOST = 0.6

# It makes a request so long that those of a read, which takes 65,536 bytes, are as many as may wait.
PADDING = b"p" * 48


@dataclasses.dataclass(frozen=True)
class Worker:
    """A program, a request that it answers without any work, the answer, how many may wait, and what it puts first."""

    name: str
    program: Callable[[Programs], pathlib.Path]
    words: Sequence[str]
    asked: bytes
    answer: bytes
    depth: int = 1_024
    greeting: bytes = b""

    def command(self, programs: Programs) -> list[str | pathlib.Path]:
        return [self.program(programs), *self.words]


PADDED = framed(request(1, inputs=[(PADDING, b"")]))
REFUSED = framed(job(1, [b"t"], outputs=[b"../" + PADDING]))
REFUSAL = framed(result(1, refusal=b"bad path"))

DEMO = Worker("demo_tool", lambda it: it.demo_tool, ["--persistent_worker"], PADDED, framed(response(1)))
COUNTER = Worker("line_worker", lambda it: it.line_worker, ["--persistent_worker"], PADDED,
                 framed(response(1, 1, b"no output is named\n")))
POOL = Worker("job_pool", lambda it: it.job_pool, ["--serve"], REFUSED, REFUSAL, greeting=GREETING)
ONE = dataclasses.replace(POOL, name="job_pool with one lane", words=["--serve", "--jobs=1"])
EXECUTOR = Worker("remote_exec", lambda it: it.remote_exec, ["--serve"], REFUSED, REFUSAL, 4_096, GREETING)


class Running:
    """A worker that runs, and the time of each step."""

    def __init__(self, worker: Worker, programs: Programs, folder: pathlib.Path) -> None:
        self.worker = worker
        self.program = subprocess.Popen(worker.command(programs), cwd=folder, stdin=subprocess.PIPE, stdout=subprocess.PIPE)
        self.hear(worker.greeting)

    def __enter__(self) -> Running:
        return self

    def __exit__(self, *_: object) -> None:
        self.program.kill()
        with self.program:  # closes the pipes, and waits
            pass

    def ask(self, count: int) -> None:
        """Writes so many requests. Nothing is read meanwhile: a pipe has room for the answers of as many as may wait."""
        assert self.program.stdin is not None
        self.program.stdin.write(self.worker.asked * count)
        self.program.stdin.flush()

    def hear(self, wanted: bytes) -> None:
        """Reads these bytes, and compares them."""
        assert self.program.stdout is not None
        got, end = b"", time.monotonic() + play.MOST_SECONDS
        while len(got) < len(wanted):
            if not select.select([self.program.stdout], [], [], max(0.0, end - time.monotonic()))[0]:
                raise play.Wrong(f"wanted an answer within {play.MOST_SECONDS} seconds")
            more = os.read(self.program.stdout.fileno(), len(wanted) - len(got))
            if not more:
                break
            got += more
        compare(self.worker.name, wanted, got)

    def end(self) -> None:
        """Closes the input, and waits for the end."""
        assert self.program.stdin is not None
        self.program.stdin.close()
        compare(self.worker.name, 0, self.program.wait(play.MOST_SECONDS))


def seconds(act: Callable[[], None]) -> float:
    begun = time.monotonic()
    act()
    return time.monotonic() - begun


def shown(took: list[float]) -> list[float]:
    return [round(it, 3) for it in took]


def answers_soon(worker: Worker, programs: Programs, folder: pathlib.Path) -> None:
    """Checks that a request wakes a lane that answers. In each round the first of two requests finds all lanes at rest, and the
    second finds one awake."""
    rested, awake = [], []
    with Running(worker, programs, folder) as it:
        for _ in range(ROUNDS):
            time.sleep(PAUSE)
            begun = time.monotonic()
            it.ask(2)
            it.hear(worker.answer)
            rested.append(time.monotonic() - begun)
            awake.append(seconds(lambda: it.hear(worker.answer)))
        it.end()
    late = statistics.median(rested) - statistics.median(awake)
    compare(("seconds from a rest, and awake", shown(rested), shown(awake)), True, late < MOST_LATE)


def in_groups(worker: Worker, programs: Programs, folder: pathlib.Path, count: int) -> float:
    """Returns the seconds of so many requests in groups that leave room, each of which is sent once the one before was answered."""
    group = worker.depth - 64
    with Running(worker, programs, folder) as it:
        begun = time.monotonic()
        for sent in range(0, count, group):
            some = min(group, count - sent)
            it.ask(some)
            it.hear(worker.answer * some)
        took = time.monotonic() - begun
        it.end()
    return took


def all_at_once(worker: Worker, programs: Programs, folder: pathlib.Path, count: int) -> float:
    """Returns the seconds of so many requests that are sent at once, so that the reader waits for room."""
    begun = time.monotonic()
    ended = play.run(worker.command(programs), folder, worker.asked * count)
    took = time.monotonic() - begun
    compare(worker.name, (0, worker.greeting + worker.answer * count), (ended.status, ended.out))
    return took


def reads_on(worker: Worker, programs: Programs, folder: pathlib.Path) -> None:
    """Checks that the reader is woken once there is room, where it waits for room again and again."""
    grouped, at_once = in_groups(worker, programs, folder, MANY), all_at_once(worker, programs, folder, MANY)
    right = at_once < MOST_TIMES * grouped + MOST_LOST
    compare(("seconds at once, and in groups", round(at_once, 2), round(grouped, 2)), True, right)


def reads_ahead_on(worker: Worker, programs: Programs, folder: pathlib.Path) -> None:
    """Checks the same of the executor. It looks through all jobs that wait for each that it runs, which takes most of the time of a
    long run, so there are short runs."""
    grouped, at_once = [], []
    for _ in range(ROUNDS):
        grouped.append(in_groups(worker, programs, folder, FEW))
        at_once.append(all_at_once(worker, programs, folder, FEW))
    right = statistics.median(at_once) < FEW_TIMES * statistics.median(grouped) + FEW_LOST
    compare(("seconds at once, and in groups", shown(at_once), shown(grouped)), True, right)


def ends_soon(worker: Worker, programs: Programs, folder: pathlib.Path) -> None:
    """Checks that the end of the input wakes the lanes that answer."""
    took = []
    for _ in range(ROUNDS):
        with Running(worker, programs, folder) as it:
            it.ask(1)
            it.hear(worker.answer)
            time.sleep(PAUSE)
            took.append(seconds(it.end))
    compare(("seconds to the end", shown(took)), True, statistics.median(took) < MOST_LATE)


def gives_up_soon(worker: Worker, programs: Programs, folder: pathlib.Path) -> None:
    """Checks that a failed output wakes the lanes that answer, though the input is open. One of them fails, and others rest."""
    took = []
    for _ in range(ROUNDS):
        begun = time.monotonic()
        compare(worker.name, 6, play.ended_unheard(worker.command(programs), folder, len(worker.greeting), worker.asked))
        took.append(time.monotonic() - begun)
    compare(("seconds to the end", shown(took)), True, statistics.median(took) < MOST_LATE_UNHEARD)


# Each check, with the workers in which a lane rests that it needs. The reader of a mailbox never rests where its output fails.
CHECKS = [
    (answers_soon, [DEMO, COUNTER, POOL, ONE, EXECUTOR]), (reads_on, [DEMO, COUNTER, POOL, ONE]), (reads_ahead_on, [EXECUTOR]),
    (ends_soon, [DEMO, COUNTER, POOL, ONE, EXECUTOR]), (gives_up_soon, [DEMO, COUNTER, POOL]),
]


def cases() -> Iterator[Case]:
    for check, workers in CHECKS:
        for worker in workers:
            def played(programs: Programs, folder: pathlib.Path, worker: Worker = worker,
                       check: Callable[[Worker, Programs, pathlib.Path], None] = check) -> None:
                check(worker, programs, rooms(folder))
            yield Case(f"rests: {worker.name} {check.__name__.replace('_', ' ')}", played)
