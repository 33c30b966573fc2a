"""remote_exec with jobs that Python encodes: the results, its status, and the files outside a job's folder."""
from __future__ import annotations

import os
import pathlib
import socket
import subprocess
from collections.abc import Iterator

import play
import wire
from play import Case, Programs, compare, fill, found, run
from wire import GREETING, framed, job, result

SHELL = (b"/bin/sh", b"-c")
PATH = (b"PATH", b"/usr/bin:/bin")

# A name that is too long for a file, so that it can neither be read nor written.
LONG = b"n" * 300

# Jobs, each with its result, or None if it gets no result.
JOBS = [
    (job(1, [*SHELL, b"printf x > o"], outputs=[b"o"]), result(1, files=[(b"o", b"x")])),
    # The input is in the job's folder, so it is found there as an output. Another output is missing.
    (job(2, [*SHELL, b"printf ran"], [(b"a/i", b"in")], [b"a/i", b"gone"]), result(2, said=b"ran", files=[(b"a/i", b"in")])),
    # Output that isn't UTF-8 is dropped. An exit code isn't a refusal. The input is empty.
    (job(3, [*SHELL, b"printf '\\377'; exit 3"], [(b"i", b"")], [b"i"]), result(3, 3, files=[(b"i", b"")])),
    (job(4, [*SHELL, b"tr a-z A-Z <i >made/deep/o; echo $WHO"], [(b"i", b"abc")], [b"made/deep/o"], [(b"WHO", b"me"), PATH]),
     result(4, said=b"me\n", files=[(b"made/deep/o", b"ABC")])),
    # The environment is only the job's own, standard input is empty, and the job runs in its folder.
    (job(5, [b"/usr/bin/env"], env=[(b"A", b""), (b"B", b"2")]), result(5, said=b"A=\nB=2\n")),
    (job(6, [*SHELL, b"cat; basename $(pwd)"], env=[PATH]), result(6, said=b"job6\n")),
    (job(7, [*SHELL, b"kill -9 $$"]), result(7, refusal=b"ended by a signal")),
    (job(8, [b"/no/such/program"]), result(8, refusal=b"cannot start")),
    (job(9, []), result(9, refusal=b"cannot start")),
    # A program without a leading slash is looked up in the folder where the tool was started.
    (job(10, [b"tool"], outputs=[b"o"]), result(10, files=[(b"o", b"from the tool\n")])),
    # Paths that lead out of the job's folder, and files that can't be written or read.
    (job(11, [b"tool"], [(b"../i", b"x")]), result(11, refusal=b"bad path")),
    (job(12, [b"tool"], outputs=[b"/o"]), result(12, refusal=b"bad path")),
    (job(-1, [b"tool"], outputs=[b""]), result(-1, refusal=b"bad path")),
    (job(19, [b"tool"], [(b".worker_rooms/0/i", b"x")]), result(19, refusal=b"bad path")),
    (job(13, [b"tool"], [(b"i", b"x"), (LONG, b"")], [b"i"]), result(13, refusal=b"cannot write")),
    (job(14, [b"tool"], outputs=[LONG + b"/o"]), result(14, refusal=b"cannot write")),
    (job(15, [*SHELL, b":"], outputs=[b"o", LONG]), result(15, refusal=b"cannot read")),
    (job(16, [*SHELL, b"ln -s /etc/passwd o; mkdir p"], outputs=[b"o", b"p"], env=[PATH]), result(16)),
    # A number in a longer encoding, an unknown field, empty content, and parts in another order.
    (bytes.fromhex("22016f" "1a050a01661200" "82010178" "08918000") + b"".join(wire.span(2, it) for it in (*SHELL, b"cp f o"))
     + wire.span(5, wire.span(2, PATH[1]) + wire.span(1, PATH[0])), result(17, files=[(b"o", b"")])),
    # A cancel of a different number doesn't cancel a job.
    (job(99, cancel=True), None),
    (job(18, [*SHELL, b"exit 255"]), result(18, 255)),
]

BAD_JOBS = ["08", "2a030a01ff", "1201ff", "0b", "1a020801ff"]


def rooms(folder: pathlib.Path) -> pathlib.Path:
    """Creates a start folder with a program `tool`, and returns an executor's room below it."""
    fill(folder, {"tool": b"#!/bin/sh\necho from the tool >o\n"})
    (folder / "tool").chmod(0o755)
    room = folder / ".worker_rooms" / "0"
    room.mkdir(parents=True)
    return room


def one_after_another(programs: Programs, folder: pathlib.Path) -> None:
    """Sends all jobs in one piece, and byte by byte."""
    given = b"".join(framed(it) for it, _ in JOBS)
    wanted = [wire.messages(GREETING)[0], *(it for _, it in JOBS if it is not None)]
    for bytewise in (False, True):
        place = folder / str(bytewise)
        room = rooms(place)
        mine, its = socket.socketpair()
        with subprocess.Popen([os.fspath(programs.remote_exec), "--serve"], cwd=room, stdin=its.fileno(), stdout=subprocess.PIPE, stderr=subprocess.PIPE) as it:
            its.close()
            for at in range(len(given)) if bytewise else [0]:
                mine.sendall(given[at : at + 1] if bytewise else given)
            mine.shutdown(socket.SHUT_WR)
            out, err = it.communicate(timeout=play.MOST_SECONDS)
        mine.close()
        for one, got in zip(wanted, wire.messages(out)):
            compare(("in order", JOBS[wanted.index(one) - 1][0]), one, got)
        compare(f"{len(JOBS)} jobs", (0, len(wanted), b""), (it.returncode, len(wire.messages(out)), err))
        compare("nothing outside", (None, None), (found(room, "i"), found(place, "i")))


def bad_jobs(programs: Programs, folder: pathlib.Path) -> None:
    """Sends a frame that isn't a job. The job before it is run, and the job after it isn't."""
    first, behind = job(1, [*SHELL, b":"]), job(2, [*SHELL, b":"])
    for number, digits in enumerate(BAD_JOBS):
        given = framed(first) + framed(bytes.fromhex(digits)) + framed(behind)
        ended = run([programs.remote_exec, "--serve"], rooms(folder / str(number)), given)
        compare(digits, (4, GREETING + framed(result(1))), (ended.status, ended.out))
    for number, length in enumerate([wire.varint(2**26 + 1), b"\xff" * 10]):
        ended = run([programs.remote_exec, "--serve"], rooms(folder / f"length{number}"), framed(first) + length)
        compare(length, (4, GREETING + framed(result(1))), (ended.status, ended.out))


def given_up(programs: Programs, folder: pathlib.Path) -> None:
    """Cancels a job while another job runs. The run ends only after all jobs have been written.

    The jobs have more bytes than a pipe holds. So the last bytes can be written only if the executor continues to read
    during the run, and the cancelling job is then read too.
    """
    room = rooms(folder)
    filler = job(3, [*SHELL, b":"], [(b"big", b"x" * 1_000_000)])
    jobs = framed(job(1, [*SHELL, b"while ! test -e ../../../go; do sleep 0.01; done"], env=[PATH])) + framed(job(2, [*SHELL, b"echo ran"]))
    jobs += framed(job(2, cancel=True)) + framed(filler)
    with subprocess.Popen([programs.remote_exec, "--serve"], cwd=room, stdin=subprocess.PIPE, stdout=subprocess.PIPE) as executor:
        assert executor.stdin is not None
        executor.stdin.write(jobs)
        executor.stdin.flush()
        (folder / "go").write_bytes(b"")
        out, _ = executor.communicate(timeout=play.MOST_SECONDS)
    wanted = GREETING + framed(result(1)) + framed(result(2, cancelled=True)) + framed(result(3))
    compare("jobs 1 and 2, and a cancelling job 2", (0, wanted), (executor.returncode, out))


def streams(programs: Programs, folder: pathlib.Path) -> None:
    """Checks invalid arguments, an input that ends inside a job or can't be read, and an output that is full."""
    room = rooms(folder)
    wrong: list[list[str]] = [[], ["--server"], ["--serve", "--serve"], [""]]
    for words in wrong:
        ended = run([programs.remote_exec, *words], room)
        compare(words, (2, b"", b"remote_exec: words are not accepted\n"), (ended.status, ended.out, ended.err))
    compare("no job", (0, GREETING), (lambda it: (it.status, it.out))(run([programs.remote_exec, "--serve"], room)))
    cut = run([programs.remote_exec, "--serve"], room, framed(job(1, [*SHELL, b":"])) + b"\x05\x08")
    compare("an input that ends inside a job", (0, GREETING + framed(result(1))), (cut.status, cut.out))
    source = os.open(room, os.O_RDONLY)
    full = os.open("/dev/full", os.O_WRONLY)
    try:
        ended = run([programs.remote_exec, "--serve"], room, stdin=source)
        compare("an input that can't be read", (5, GREETING), (ended.status, ended.out))
        ended = run([programs.remote_exec, "--serve"], room, framed(job(1, [*SHELL, b"touch ../done"], env=[PATH])), stdout=full)
        compare("an output that takes nothing", (6, False), (ended.status, (room / "done").exists()))
    finally:
        os.close(source)
        os.close(full)


def too_large(programs: Programs, folder: pathlib.Path) -> None:
    """Checks that a job is refused if its result's message exceeds 64 MiB, and that the next job is run."""
    room = rooms(folder)
    whole = job(1, [*SHELL, b"truncate -s 67108864 o"], outputs=[b"o"], env=[PATH])
    said = job(2, [*SHELL, b"truncate -s 67108864 o; cat o; rm o"], outputs=[b"o"], env=[PATH])
    ended = run([programs.remote_exec, "--serve"], room, framed(whole) + framed(said) + framed(job(3, [*SHELL, b":"])))
    wanted = GREETING + framed(result(1, refusal=b"too large")) + framed(result(2, refusal=b"too large")) + framed(result(3))
    compare("64 MiB of an output, and of text", (0, wanted), (ended.status, ended.out))


def sessions(programs: Programs, folder: pathlib.Path) -> None:
    """Runs two sessions in one folder. A job finds no files of the earlier session; two at once are refused."""
    room = rooms(folder)
    first = framed(job(1, [*SHELL, b"printf old > o"], outputs=[b"o"]))
    compare("the first session", (0, GREETING + framed(result(1, files=[(b"o", b"old")]))), told(run([programs.remote_exec, "--serve"], room, first)))
    second = framed(job(1, [*SHELL, b":"], outputs=[b"o"]))
    compare("the second session", (0, GREETING + framed(result(1))), told(run([programs.remote_exec, "--serve"], room, second)))
    with subprocess.Popen([programs.remote_exec, "--serve"], cwd=room, stdin=subprocess.PIPE, stdout=subprocess.PIPE) as one:
        assert one.stdin is not None and one.stdout is not None
        # Once it has written the greeting, it holds the folder.
        greeting = one.stdout.read(len(GREETING))
        other = run([programs.remote_exec, "--serve"], room)
        one.stdin.close()
        rest = one.stdout.read()
    compare("the one that has the folder", (GREETING, b""), (greeting, rest))
    said = b"remote_exec: `.executor_lock` can't be had: another executor is at work in this folder\n"
    compare("the other one", (5, b"", said), (other.status, other.out, other.err))


def told(ended: play.Ended) -> tuple[int, bytes]:
    return ended.status, ended.out


def output_gone(programs: Programs, folder: pathlib.Path) -> None:
    """Checks that it ends if nobody reads past the greeting, even though its input is open."""
    given = framed(job(1, [*SHELL, b":"]))
    compare(given, 6, play.ended_unheard([programs.remote_exec, "--serve"], rooms(folder), len(GREETING), given))


def cases() -> Iterator[Case]:
    for case in [one_after_another, bad_jobs, given_up, streams, too_large, sessions, output_gone]:
        yield Case(f"executor: {case.__name__.replace('_', ' ')}", case)
