"""demo_tool as a command and as a worker: its output, its status, and the files at its paths afterwards."""
from __future__ import annotations

import base64
import dataclasses
import json
import os
import pathlib
import select
import socket
import subprocess
from collections.abc import Iterator, Mapping, Sequence
from typing import Any

import play
import wire
from play import Case, Programs, compare, fill, found, run
from wire import framed, line, request, response

FILES = {"a": b"one\n", "b": b"two\n"}
AB = b"one\ntwo\n"
WORKER = "--persistent_worker"
LINES = WORKER + " --json"

# A name that is too long for a file, so that it can neither be read nor written.
LONG = "n" * 300

# A number of small requests that fill a whole piece. Splitting them must take linear time.
MANY = 30_000


@dataclasses.dataclass(frozen=True)
class Row:
    """One run: the arguments, the pieces of the input, and the expected results."""

    words: str
    status: int = 0
    put: bytes = b""
    there: Mapping[str, bytes | None] = dataclasses.field(default_factory=dict)
    pieces: Sequence[bytes] = ()
    files: Mapping[str, bytes] = dataclasses.field(default_factory=lambda: FILES)


def framed_request(id: int, *words: str, **more: object) -> bytes:
    return framed(request(id, [word.encode() for word in words], **more))  # type: ignore[arg-type]


def framed_response(id: int, exit_code: int = 0, said: str = "") -> bytes:
    return framed(response(id, exit_code, said.encode()))


def once() -> Iterator[Row]:
    """Yields runs as a command, with arguments that are carried out once."""
    yield Row("")
    yield Row("--in=a --out=p --in=b --out=o other", there={"o": AB, "p": None})
    yield Row("--out=o", there={"o": b""})
    yield Row("--in=b --in=a --in=b --out=d/e/o", there={"d/e/o": b"two\none\ntwo\n"})
    yield Row("--in=a --out=a --in=a", there={"a": b"one\none\n"})
    # The last exit code counts. Invalid exit codes and all other arguments are ignored.
    yield Row("--exit=7 --exit=255", 255)
    yield Row("--exit=7 --exit=256 --exit=0001 --exit= --exit=+1 --exit=-1 --exit=1.0 --exit", 7)
    yield Row("--exit=9 --exit=009", 9)
    yield Row("--exit=9 --exit=0", 0)
    yield Row("-x --help --version --in --out --In=a in=a a ---in=a @ --json --persistent_workers=1 --exit=5", 5)
    # It stops at the first call that fails.
    yield Row("--in= --out=o", 1, b"missing: ", {"o": None})
    yield Row("--exit=7 --in=a --in=gone --in=b --out=o", 1, b"missing: gone", {"o": None})
    yield Row(f"--in=a --in={LONG} --in=gone --out=o", 1, f"cannot read: {LONG}".encode(), {"o": None})
    yield Row("--exit=7 --in=a --out=p --out=d", 1, b"cannot write: d", {"p": None}, files={**FILES, "d/x": b""})
    yield Row("--in=d --out=o", 1, b"missing: d", {"o": None}, files={"d/x": b""})
    yield Row("--in=a/b --out=o", 1, b"missing: a/b", {"o": None})
    yield Row(f"--in=a --out={LONG}", 1, f"cannot write: {LONG}".encode())


def flag_files() -> Iterator[Row]:
    """Yields runs with flag files. An argument @FILE is replaced by the file's lines, once."""
    files = {**FILES, "words": b"--in=a\r\n--out=o\n--in=b", "more": b"@words\n--exit=2\n", "empty": b"", "bytes": b"\xff\n",
             "worker": WORKER.encode()}
    yield Row("@words", there={"o": AB}, files=files)
    yield Row("--in=b @words --exit=3 @words", 3, there={"o": b"two\n" + AB + AB}, files=files)
    yield Row("@more --in=@words", 2, there={"o": None}, files={**files, "@words": b""})
    yield Row("@more --in=@words", 1, b"missing: @words", files=files)
    yield Row("@empty --exit=4", 4, files=files)
    yield Row("@worker --exit=4", 4, files=files)
    yield Row("--in=a @gone @words", 1, b"missing: gone", {"o": None}, files=files)
    yield Row("--in=a @bytes", 1, b"missing: bytes", files=files)
    yield Row(f"@words @{LONG}", 1, f"cannot read: {LONG}".encode(), {"o": None}, files=files)


def requests() -> Iterator[Row]:
    """Yields runs as a worker: in one piece, cut inside a frame, and byte by byte.

    Requests are carried out at once, so no request needs another's output.
    """
    first, second = framed_request(3, "--in=a", "--out=o"), framed_request(4, "--in=b", "--in=a", "--out=p", "--exit=9")
    said, there = framed_response(3) + framed_response(4, 9), {"o": b"one\n", "p": b"two\none\n"}
    yield Row(WORKER)
    yield Row(WORKER, 0, framed_response(3), {"o": b"one\n"}, [first])
    yield Row(WORKER, 0, said, there, [first + second])
    yield Row(WORKER, 0, said, there, [first[:5], first[5:] + second[:1], second[1:]])
    yield Row(WORKER, 0, said, there, [bytes([byte]) for byte in first + second])
    # The worker's other arguments are ignored. So are a request's inputs and its arguments @FILE.
    yield Row(f"--exit=5 @gone {WORKER} --in=gone --out=q", 0, framed_response(0, 2), {"o": b"", "q": None},
              [framed_request(0, "@gone", "--out=o", "--exit=2", WORKER, "--json", inputs=[(b"gone", b"abc")], verbosity=10)])
    numbers = [0, 2**31 - 1, -1, -1, -(2**31), 128, 16384]
    yield Row(WORKER, 0, b"".join(map(framed_response, numbers)), {}, [b"".join(map(framed_request, numbers))])
    # A request with its own folder. Inputs and outputs are there, and messages contain it.
    files = {**FILES, "__sandbox/7/a": b"seven\n"}
    yield Row(WORKER, 0, framed_response(7) + framed_response(8, 1, "missing: __sandbox/8/a"),
              {"__sandbox/7/d/o": b"seven\n", "d/o": None, "__sandbox/8/o": None},
              [framed_request(7, "--in=a", "--out=d/o", folder=b"__sandbox/7") + framed_request(8, "--in=a", "--out=o", folder=b"__sandbox/8")],
              files)
    yield Row(WORKER, 0, framed_response(9, 1, "cannot write: r/o") + framed_response(1), {},
              [framed_request(9, "--in=a", "--out=o", "--exit=3", folder=b"r") + framed_request(1)], {"r/a": b"x", "r/o/x": b""})
    yield Row(WORKER, 0, framed(b"\x18\x01") * MANY, {}, [framed(b"\x18\x01") * MANY])


def faulty_requests() -> Iterator[Row]:
    """Yields runs with requests that fail, an input that ends inside a request, and frames that aren't requests."""
    yield Row(WORKER, 0, framed_response(1, 1, "missing: gone") + framed_response(2, 1, f"cannot read: {LONG}") + framed_response(3),
              {"o": b"one\n"}, [framed_request(1, "--in=a", "--in=gone", "--out=o", "--exit=4") + framed_request(2, f"--in={LONG}")
                                + framed_request(3, "--in=a", "--out=o")])
    whole, next_one = framed_request(1, "--exit=2"), framed_request(2, "--in=a", "--out=o")
    for cut in [b"\x05", b"\x80", next_one[:-1]]:
        yield Row(WORKER, 0, framed_response(1, 2), {"o": None}, [whole + cut])
    # Invalid UTF-8, a bad tag, a number that is too long, a cut field, and bad lengths.
    bad = ["0a01ff", "0b", "18" + "ff" * 10, "0a0561", "00", "07", "08", "18", "120100", "12030a01ff", "3201ff", "180880"]
    for digits in bad:
        yield Row(WORKER, 4, framed_response(1, 2), {"o": None}, [whole + framed(bytes.fromhex(digits)) + next_one])
    for length in [wire.varint(2**26 + 1), b"\xff" * 10, b"\x80" * 10]:
        yield Row(WORKER, 4, framed_response(1, 2), {}, [whole, length])


def lines() -> Iterator[Row]:
    """Yields runs as a worker that reads requests in JSON lines."""
    first = line(arguments=["--in=a", "--out=o"], requestId=3)
    second = line(arguments=["--in=b", "--in=a", "--out=p", "--exit=9"], request_id=4)
    said, there = line(requestId=3) + line(exitCode=9, requestId=4), {"o": b"one\n", "p": b"two\none\n"}
    yield Row("--json " + WORKER)
    yield Row(LINES, 0, said, there, [first + b"\n \t\r\n" + second])
    yield Row(LINES, 0, said, there, [bytes([byte]) for byte in first + second])
    # One after another: the second reads the first one's output, and a cancel after a request comes too late.
    yield Row(LINES, 0, line(requestId=1) + line(requestId=2), {"c": b"one\n"},
              [line(arguments=["--in=a", "--out=o"], requestId=1) + line(arguments=["--in=o", "--out=c"], requestId=2)])
    yield Row(LINES, 0, line(requestId=3) + line(requestId=5), {"o": b"one\n", "p": None},
              [first + line(cancel=True, requestId=3) + line(cancel=True, requestId=4, arguments=["--in=b", "--out=p"]) + line(requestId=5)])
    # A cancel, a request's own folder, verbosity, inputs, a null, an unknown key, and a string with escapes.
    yield Row(LINES, 0, line() + line(exitCode=1, output='missing: s/q"\u00e9\x1f\U0001f600', requestId=-2), {"s/o": None, "o": None},
              [line(cancel=True, requestId=1, arguments=["--in=a"])
               + line(arguments=["--exit=0"], requestId=None, verbosity=10, inputs=[{"path": "a", "digest": "YWJj"}], later=[1])
               + json.dumps({"arguments": ['--in=q"\u00e9\x1f\U0001f600', "--out=o"], "requestId": "-2", "sandboxDir": "s"}).encode() + b"\n"])
    digest = base64.b64encode(bytes(range(256))).decode()
    good: list[dict[str, Any]] = [
        {"arguments": ["abc"], "inputs": [{"path": "f", "digest": "YWJj"}], "requestId": 7, "verbosity": 10},
        {"arguments": ["--a=\u00fc", "", "@@x"], "inputs": [{"path": "a/b", "digest": digest}, {"path": "", "digest": ""}, {"path": "c", "digest": "YWI="}],
         "requestId": 0, "cancel": False, "verbosity": 0, "sandbox_dir": "__sandbox/1"},
        {"inputs": [{"digest": None}], "cancel": None}, {"requestId": 2147483647, "request_id": "x"}, {"requestId": "-2147483648"}, {},
    ]
    wanted = b"".join(line(requestId=int(it.get("requestId", 0))) for it in good)
    yield Row(LINES, 0, wanted, {}, [b"".join(json.dumps(it).encode() + b"\n" for it in good)])
    # A line without a line feed isn't a request, and it isn't a fault.
    yield Row(LINES, 0, line(requestId=3), {"p": None}, [first + second[:-1]])
    wrong = ["[]", "{", '{"requestId":2147483648}', '{"arguments":"--in=a"}', '{"arguments":[null]}', '{"inputs":[null]}',
             '{"inputs":[{"digest":"YWI","path":1}]}', '{"inputs":[{"digest":"YWI"}]}', '{"inputs":[{"digest":"YWJ="}]}',
             '{"inputs":[{"digest":null},5]}', '{"cancel":1}', '{"verbosity":1.5}', '{"sandboxDir":[]}', '{"requestId":"01"}']
    for it in [*(text.encode() for text in wrong), b"\xff", first[:-1] + b"}", b"\0"]:
        yield Row(LINES, 4, line(exitCode=2), {"o": None}, [line(arguments=["--exit=2"]) + it + b"\n" + first])
    yield Row(LINES, 0, b"{}\n" * MANY, {}, [b"{}\n" * MANY])


def vectors() -> Iterator[Row]:
    """Yields runs with requests that protoc wrote or read. The responses have their numbers and exit codes."""
    place = pathlib.Path(__file__).resolve().parent / "protoc.json"
    for it in json.loads(place.read_text(encoding="utf-8"))["requests"]:
        parts, exit_code, said = it["parts"], 0, ""
        for word in (bytes.fromhex(word).decode() for word in parts.get("arguments", [])):
            exit_code = int(word[7:]) if word.startswith("--exit=") else exit_code
            if word.startswith("--in="):
                folder = bytes.fromhex(parts.get("sandbox_dir", "")).decode()
                said = f"missing: {folder}/{word[5:]}"
        put = b"" if parts.get("cancel") else framed_response(parts.get("request_id", 0), 1 if said else exit_code, said)
        yield Row(WORKER, 0, put + framed_response(1), {}, [framed(bytes.fromhex(it["given"])) + framed_request(1)])


def fed(programs: Programs, folder: pathlib.Path, row: Row) -> play.Ended:
    """Runs it and sends its input piece by piece."""
    if len(row.pieces) < 2:
        return run([programs.demo_tool, *row.words.split(" ")] if row.words else [programs.demo_tool], folder, b"".join(row.pieces))
    mine, its = socket.socketpair()
    with mine, its:
        program = [os.fspath(programs.demo_tool), *row.words.split(" ")]
        with subprocess.Popen(program, cwd=folder, stdin=its.fileno(), stdout=subprocess.PIPE, stderr=subprocess.PIPE) as demo:
            its.close()
            for piece in row.pieces:
                mine.sendall(piece)
            mine.shutdown(socket.SHUT_WR)
            out, err = demo.communicate(timeout=play.MOST_SECONDS)
            return play.Ended(demo.returncode, out, err)


def answers(words: str, put: bytes) -> bytes | list[bytes]:
    """Returns the output. If requests are carried out at once, returns the responses sorted, since their order may vary."""
    return sorted(wire.messages(put)) if WORKER in words.split() and "--json" not in words.split() else put


def played(row: Row) -> Case:
    def case(programs: Programs, folder: pathlib.Path) -> None:
        fill(folder, row.files)
        ended = fed(programs, folder, row)
        wanted, got = answers(row.words, row.put), answers(row.words, ended.out)
        compare(row, (row.status, wanted, b""), (ended.status, got, ended.err))
        compare(row, dict(row.there), {path: found(folder, path) for path in row.there})
    return Case(f"demo {row.words[:60]} {b''.join(row.pieces)[:40].hex()}", case)


def failing_input(programs: Programs, folder: pathlib.Path) -> None:
    """Checks an input that can't be read: at the start, between two requests, and inside a request."""
    first, second = framed_request(1, "--exit=2"), framed_request(2, "--out=o")
    for words, given, put in [(WORKER, b"", b""), (WORKER, first, framed_response(1, 2)), (WORKER, first + second[:3], framed_response(1, 2)),
                              (LINES, line(requestId=3), line(requestId=3))]:
        # If the other end of a socket closes while it has unread bytes, a read fails after the sent bytes.
        mine, its = socket.socketpair()
        its.sendall(b"unread")
        mine.sendall(given)
        mine.close()
        with its:
            ended = run([programs.demo_tool, *words.split()], folder, stdin=its.fileno())
        compare((words, given), (5, put, b"", None), (ended.status, ended.out, ended.err, found(folder, "o")))


def failing_output(programs: Programs, folder: pathlib.Path) -> None:
    """Checks an output that can't be written. The requests are carried out, but with lines the next one isn't."""
    fill(folder, FILES)
    rows = [("--in=gone", b""), (WORKER, framed_request(2, "--in=a", "--out=o") + framed_request(3, "--in=b", "--exit=3")),
            (LINES, line(arguments=["--in=a", "--out=q"]) + line(arguments=["--out=p"]))]
    for words, given in rows:
        full = os.open("/dev/full", os.O_WRONLY)
        try:
            ended = run([programs.demo_tool, *words.split()], folder, given, stdout=full)
        finally:
            os.close(full)
        compare((words, given), (6, b""), (ended.status, ended.err))
    compare("what was done", (b"one\n", b"one\n", None), tuple(found(folder, path) for path in ["o", "q", "p"]))


def output_gone(programs: Programs, folder: pathlib.Path) -> None:
    """Checks that it ends if nobody reads its output, even though its input is open."""
    for words, given in [(WORKER, framed_request(1)), (LINES, line(requestId=1))]:
        status = play.ended_unheard([programs.demo_tool, *words.split()], folder, 0, given)
        compare((words, given), 6, status)


def unended_line(programs: Programs, folder: pathlib.Path) -> None:
    """Sends whole JSON without a line feed. It prints one hint, and answers when the line feed arrives."""
    requests = [line(arguments=["--exit=2", '\\{"'], requestId=3), line(requestId=4)]
    with subprocess.Popen([programs.demo_tool, *LINES.split()], cwd=folder, stdin=subprocess.PIPE, stdout=subprocess.PIPE,
                          stderr=subprocess.PIPE) as demo:
        assert demo.stdin is not None and demo.stderr is not None
        demo.stdin.write(requests[0][:-1])
        demo.stdin.flush()
        if not select.select([demo.stderr], [], [], play.MOST_SECONDS)[0]:
            demo.kill()
            raise play.Wrong(f"wanted a line on standard error within {play.MOST_SECONDS} seconds")
        told = os.read(demo.stderr.fileno(), 4096)
        out, err = demo.communicate(b"\n" + requests[1], timeout=play.MOST_SECONDS)
    compare("what was told", (b"standard input: whole JSON", 1), (told[:26], told.count(b"\n")))
    compare(requests, (0, line(exitCode=2, requestId=3) + line(requestId=4), b""), (demo.returncode, out, err))


def cancelled(programs: Programs, folder: pathlib.Path) -> None:
    """Checks that a cancel has no response and no effect of its own. The cancelled request is done or reported as cancelled."""
    for number in range(20):
        room = folder / str(number)
        fill(room, FILES)
        given = framed_request(3, "--in=a", "--out=o") + framed_request(3, cancel=True)
        ended = run([programs.demo_tool, WORKER], room, given + framed_request(4, "--in=b", "--out=p", cancel=True) + framed_request(5))
        done = found(room, "o")
        compare("what stands there", (None, True), (found(room, "p"), done in (None, b"one\n")))
        wanted = sorted([response(3, cancelled=done is None), response(5)])
        compare(done, (0, wanted, b""), (ended.status, sorted(wire.messages(ended.out)), ended.err))


def asked_again(programs: Programs, folder: pathlib.Path) -> None:
    """Checks that a request sent after an earlier response finds the earlier request's output."""
    fill(folder, FILES)
    with subprocess.Popen([programs.demo_tool, WORKER], cwd=folder, stdin=subprocess.PIPE, stdout=subprocess.PIPE) as demo:
        assert demo.stdin is not None and demo.stdout is not None
        demo.stdin.write(framed_request(1, "--in=a", "--out=o"))
        demo.stdin.flush()
        compare("the first response", framed_response(1), demo.stdout.read(len(framed_response(1))))
        out, _ = demo.communicate(framed_request(2, "--in=o", "--out=c"), timeout=play.MOST_SECONDS)
    compare("the second", (0, framed_response(2), b"one\n"), (demo.returncode, out, found(folder, "c")))


def links(programs: Programs, folder: pathlib.Path) -> None:
    """Checks that a link at an input is followed, which Bazel's folders require, and that a link at an output is replaced."""
    fill(folder, FILES)
    (folder / "link").symlink_to("a")
    ended = run([programs.demo_tool, "--in=link", "--out=o"], folder)
    compare("an input that is a link", (0, b"", b"one\n"), (ended.status, ended.out, found(folder, "o")))
    ended = run([programs.demo_tool, "--in=b", "--out=link"], folder)
    left = ((folder / "link").is_symlink(), found(folder, "link"), found(folder, "a"))
    compare("an output that is a link", (0, (False, b"two\n", b"one\n")), (ended.status, left))


def odd_word(programs: Programs, folder: pathlib.Path) -> None:
    """Checks an argument that isn't UTF-8."""
    ended = run([programs.demo_tool, b"\xff"], folder)
    compare("ff", (2, b"", b"demo_tool: words are not accepted"), (ended.status, ended.out, ended.err.split(b"\n")[0]))


def cases() -> Iterator[Case]:
    for rows in [once, flag_files, requests, faulty_requests, lines, vectors]:
        yield from map(played, rows())
    for case in [failing_input, failing_output, output_gone, unended_line, cancelled, asked_again, links, odd_word]:
        yield Case(f"demo: {case.__name__.replace('_', ' ')}", case)
