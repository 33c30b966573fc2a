"""job_pool with jobs that Python encodes: its results, the jobs that run at once, cancelled jobs, and its status."""
from __future__ import annotations

import contextlib
import itertools
import os
import pathlib
import subprocess
import time
from collections.abc import Iterable, Iterator

import play
import wire
from executor_table import BAD_JOBS, JOBS, PATH, SHELL, rooms
from play import Case, Programs, action, compare, exchange, run
from wire import GREETING, framed, job, result

# The arguments of the command, and the number of jobs that then run at once.
SIZES = [(["--serve"], 8), (["--serve", "--jobs=2"], 2), (["--serve", "--jobs=64"], 64)]

WRONG_WORDS: list[list[str]] = [
    [], [""], ["--server"], ["--serve", "--serve"], ["--jobs=8"], ["--jobs=8", "--serve"], ["--serve", "--jobs=8", "--jobs=8"],
    *(["--serve", f"--jobs={it}"] for it in ["", "0", "00", "65", "99", "008", "+8", "-1", " 8", "8 ", "x", "8x", "\u0663"]),
]


# Eight jobs of a second that run at once end within this many seconds, even if other tests run on two processors.
MOST_AT_ONCE = 4


def meeting(folder: str, count: int) -> bytes:
    """Returns a command that ends when `count` of them are in this folder at once."""
    return f"mkdir -p {folder}; : >{folder}/$$; while test $(ls {folder} | wc -l) -lt {count}; do sleep 0.01; done".encode()


def until(path: str) -> list[bytes]:
    """Returns the arguments of a command that ends when a file exists at this path."""
    return [*SHELL, f"while ! test -e {path}; do sleep 0.01; done".encode()]


@contextlib.contextmanager
def started(programs: Programs, folder: pathlib.Path, *words: str) -> Iterator[subprocess.Popen[bytes]]:
    """Starts the program, and waits for its greeting."""
    with subprocess.Popen([programs.job_pool, "--serve", *words], cwd=rooms(folder), stdin=subprocess.PIPE, stdout=subprocess.PIPE) as it:
        compare("the greeting", GREETING, read(it, len(GREETING)))
        yield it


def give(program: subprocess.Popen[bytes], *jobs: bytes) -> None:
    assert program.stdin is not None
    program.stdin.write(b"".join(framed(it) for it in jobs))
    program.stdin.flush()


def read(program: subprocess.Popen[bytes], count: int) -> bytes:
    assert program.stdout is not None
    return program.stdout.read(count)


def comes(program: subprocess.Popen[bytes], wanted: bytes) -> None:
    """Checks that the next result is this one."""
    compare("the next result", framed(wanted), read(program, len(framed(wanted))))


def ends(program: subprocess.Popen[bytes], *wanted: bytes) -> None:
    """Ends the input, and checks that these results are the last."""
    out, _ = program.communicate(timeout=play.MOST_SECONDS)
    compare("the last results", (0, sorted(wanted)), (program.returncode, sorted(wire.messages(out))))


def results(programs: Programs, folder: pathlib.Path) -> None:
    """Checks that all results equal remote_exec's. If one job runs at a time, they are in the jobs' order."""
    given = b"".join(framed(it) for it, _ in JOBS)
    wanted = [it for _, it in JOBS if it is not None]
    for words, _ in [(["--serve", "--jobs=1"], 1), *SIZES]:
        ended = run([programs.job_pool, *words], rooms(folder / words[-1]), given)
        greeting, *got = wire.messages(ended.out)
        in_order = words[-1] == "--jobs=1"
        compare(words, (0, b"", GREETING), (ended.status, ended.err, framed(greeting)))
        compare(words, wanted if in_order else sorted(wanted), list(got) if in_order else sorted(got))


def side_by_side(programs: Programs, folder: pathlib.Path) -> None:
    """Runs as many jobs as may run at once, each of which waits for all others. Then any free lane runs one more."""
    for words, count in SIZES:
        jobs = [job(it + 1, [*SHELL, meeting("../../../met", count)], env=[PATH]) for it in range(count)]
        ended = run([programs.job_pool, *words], rooms(folder / str(count)), b"".join(framed(it) for it in [*jobs, job(100, [*SHELL, b":"])]))
        wanted = sorted([*(result(it + 1) for it in range(count)), result(100)])
        compare(words, (0, wanted), (ended.status, sorted(wire.messages(ended.out)[1:])))


def as_they_end(programs: Programs, folder: pathlib.Path) -> None:
    """Checks that a result arrives while an earlier job still runs, and that a number may be used again."""
    with started(programs, folder) as it:
        give(it, job(1, until("../../../go"), env=[PATH]), job(2, [*SHELL, b"echo one"]))
        comes(it, result(2, said=b"one\n"))
        give(it, job(2, [*SHELL, b"echo two"]))
        comes(it, result(2, said=b"two\n"))
        (folder / "go").write_bytes(b"")
        comes(it, result(1))
        ends(it)


def woken(programs: Programs, folder: pathlib.Path) -> None:
    """Checks that a job wakes idle lanes. An idle lane that isn't woken sleeps for a second, so the median of nine jobs is faster."""
    took = []
    with started(programs, folder) as it:
        for number in range(1, 10):
            begun = time.monotonic()
            give(it, job(number, [*SHELL, b":"]))
            comes(it, result(number))
            took.append(time.monotonic() - begun)
        ends(it)
    compare(f"within half a second: {[round(it, 2) for it in took]}", True, sorted(took)[4] < 0.5)


def given_up(programs: Programs, folder: pathlib.Path) -> None:
    """Cancels jobs while the only lane runs a job. Waiting jobs are cancelled, and the running job isn't.

    The last job is larger than a pipe. So if it could be written, the cancelling jobs before it were read.
    """
    with started(programs, folder, "--jobs=1") as it:
        waits = b": >../../../begun; while ! test -e ../../../go; do sleep 0.01; done"
        give(it, job(1, [*SHELL, waits], env=[PATH]))
        while not (folder / "begun").exists():
            time.sleep(0.01)
        give(it, job(2, [*SHELL, b": >../../../ran"]), job(3, [*SHELL, b"echo ran"]), job(2, cancel=True),
             job(1, cancel=True), job(9, cancel=True), job(4, [*SHELL, b":"], [(b"big", b"x" * 1_000_000)]))
        (folder / "go").write_bytes(b"")
        for wanted in [result(1), result(2, cancelled=True), result(3, said=b"ran\n"), result(4)]:
            comes(it, wanted)
        ends(it)
    compare("the job that was given up", False, (folder / "ran").exists())


def crowd(programs: Programs, folder: pathlib.Path) -> None:
    """Sends a hundred jobs, and cancels each third. Each is answered once, and a job without a cancel isn't cancelled."""
    for words, _ in SIZES:
        jobs = [it for n in range(1, 101) for it in [job(n, [*SHELL, f"echo {n}".encode()]), *([job(n, cancel=True)] if n % 3 == 0 else [])]]
        ended = run([programs.job_pool, *words], rooms(folder / words[-1]), b"".join(framed(it) for it in jobs))
        got = sorted(wire.messages(ended.out)[1:])
        done = {n: result(n, said=f"{n}\n".encode()) for n in range(1, 101)}
        wanted = sorted(result(n, cancelled=True) if n % 3 == 0 and done[n] not in got else done[n] for n in range(1, 101))
        compare(words, (0, wanted), (ended.status, got))


def with_the_tool(programs: Programs, folder: pathlib.Path) -> None:
    """Runs eight actions of one executor, each of which waits for all others."""
    command = ["/bin/sh", "-c", meeting("../../../met", 8).decode() + "; echo >$0"]
    actions = [action(f"a{it}", strategy="remote", requirements={}, argv=[*command, f"o{it}"], outputs=[f"o{it}"], env={"PATH": "/usr/bin:/bin"})
               for it in range(8)]
    ended = exchange(programs, folder, actions, ["--remote=1", f"--executor={programs.job_pool}"])
    lines = [f"a{it} ok remote local=unused remote=won" for it in range(8)]
    compare("eight actions", (0, play.report(*lines, ok=8)), (ended.status, ended.out))


def eight_seconds(programs: Programs, folder: pathlib.Path) -> None:
    """Runs eight actions of one executor that take a second each. One after another they would take eight."""
    actions = [action(f"a{it}", strategy="remote", requirements={}, argv=["/bin/sh", "-c", "sleep 1; echo >$0", f"o{it}"], outputs=[f"o{it}"],
                      env={"PATH": "/usr/bin:/bin"}) for it in range(8)]
    begun = time.monotonic()
    ended = exchange(programs, folder, actions, ["--remote=1", f"--executor={programs.job_pool}"])
    seconds = time.monotonic() - begun
    compare("eight actions", (0, True), (ended.status, 1 <= seconds < MOST_AT_ONCE))


def streams(programs: Programs, folder: pathlib.Path) -> None:
    """Checks invalid arguments, a frame that isn't a job, an input that ends inside a job or can't be read, and a full output."""
    room, first = rooms(folder), framed(job(1, [*SHELL, b":"]))
    for words in WRONG_WORDS:
        ended = run([programs.job_pool, *words], room)
        compare(words, (2, b"", b"job_pool: words are not accepted\n"), (ended.status, ended.out, ended.err))
    endings: Iterable[tuple[bytes, int]] = [(b"", 0), (b"\x05\x08", 0), (wire.varint(2**26 + 1), 4), (b"\xff" * 10, 4),
                                            *((framed(bytes.fromhex(it)) + framed(job(2, [*SHELL, b":"])), 4) for it in BAD_JOBS)]
    for behind, status in endings:
        ended = run([programs.job_pool, "--serve"], room, first + behind)
        compare(behind, (status, GREETING + framed(result(1))), (ended.status, ended.out))
    source = os.open(room, os.O_RDONLY)
    full = os.open("/dev/full", os.O_WRONLY)
    try:
        ended = run([programs.job_pool, "--serve"], room, stdin=source)
        compare("an input that can't be read", (5, GREETING), (ended.status, ended.out))
        ended = run([programs.job_pool, "--serve"], room, framed(job(1, [*SHELL, b"touch ../done"], env=[PATH])), stdout=full)
        compare("an output that takes nothing", (6, False), (ended.status, (room / "done").exists()))
    finally:
        os.close(source)
        os.close(full)


def output_gone(programs: Programs, folder: pathlib.Path) -> None:
    """Checks that it ends if nobody reads past the greeting, even though its input is open."""
    given = framed(job(1, [*SHELL, b":"]))
    compare(given, 6, play.ended_unheard([programs.job_pool, "--serve"], rooms(folder), len(GREETING), given))


def numbers_again(programs: Programs, folder: pathlib.Path) -> None:
    """Checks that jobs whose numbers were answered before keep their folders, whichever lane had them then, and that none is left."""
    place = rooms(folder)
    with subprocess.Popen([programs.job_pool, "--serve", "--jobs=4"], cwd=place, stdin=subprocess.PIPE, stdout=subprocess.PIPE) as program:
        compare("the greeting", GREETING, read(program, len(GREETING)))
        for order in itertools.permutations(range(1, 5)):
            jobs = {it: job(it, [*SHELL, b"sleep 0.0%d; cat i >o" % it], [(b"i", b"%d" % it)], [b"o"], [PATH]) for it in order}
            give(program, *jobs.values())
            wanted = sorted(framed(result(it, files=[(b"o", b"%d" % it)])) for it in order)
            compare("the results", b"".join(wanted), b"".join(sorted(framed(it) for it in read_some(program, len(order)))))
        ends(program)
    compare("what is left", [".executor_lock"], sorted(os.listdir(place)))


def read_some(program: subprocess.Popen[bytes], count: int) -> list[bytes]:
    """Reads some results, each of fewer than 128 bytes."""
    return [read(program, read(program, 1)[0]) for _ in range(count)]


def cases() -> Iterator[Case]:
    for case in [results, side_by_side, as_they_end, woken, given_up, crowd, with_the_tool, eight_seconds, streams, output_gone, numbers_again]:
        yield Case(f"pool: {case.__name__.replace('_', ' ')}", case)
