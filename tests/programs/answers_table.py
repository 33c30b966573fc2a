"""How worker_tool reads responses of workers and results of executors: messages by protoc, lines by Python's json.

Each response belongs to one action without outputs, so the report shows its exit code and its text. A worker with one
request at a time must answer with number 0. If it has several, a response counts if its number is a request's number.
"""
from __future__ import annotations

import dataclasses
import json
import pathlib
from collections.abc import Iterator, Sequence
from typing import Any

import play
import wire
from play import Case, Programs, Step, Steps, action, compare, exchange, marked, report, supports

PROTOC = json.loads((pathlib.Path(__file__).resolve().parent / "protoc.json").read_text(encoding="utf-8"))


@dataclasses.dataclass(frozen=True)
class Answer:
    """The bytes of one response, and its fields. If the bytes aren't a response, `fault` is the cause."""

    given: bytes
    exit_code: int = 0
    said: bytes = b""
    number: int = 0
    cancelled: bool = False
    fault: str | None = None

    def ends_its_line(self) -> bool:
        return self.fault is not None or self.number != 0 or self.cancelled

    def lines(self, name: str) -> list[str]:
        """Returns the report's lines for an action whose singleplex worker gave this response."""
        if self.ends_its_line():
            return [f"{name} broken local=dropped:{self.fault or 'breach'}:1 remote=unused"]
        how = f"failed local {self.exit_code}" if self.exit_code else "ok local"
        return [f"{name} {how} local=won remote=unused", *(marked(self.said) if self.said else [])]


def of_protoc(vector: dict[str, Any]) -> Answer:
    parts = vector["parts"]
    return Answer(wire.framed(bytes.fromhex(vector["given"])), parts.get("exit_code", 0),
                  bytes.fromhex(parts.get("output", "")), parts.get("request_id", 0), parts.get("was_cancelled", False))


def of_value(value: dict[str, Any], **how: Any) -> Answer:
    """Returns a response that Python's json writes."""
    line = json.dumps(value, **how).encode() + b"\n"
    code = value.get("exitCode", value.get("exit_code", 0))
    number = value.get("requestId", value.get("request_id", 0))
    cancelled = value.get("wasCancelled", value.get("was_cancelled", False))
    return Answer(line, code, value.get("output", "").encode(), number, cancelled)


BAD_FRAMES = [wire.framed(bytes.fromhex(it)) for it in (
    "08", "120261", "0880808080808080808080", "00", "0b", "07", "1201ff", "1201ff07", "071201ff", "08ffffffffffffffffff02",
    "fd", "f8ffffffff1f01",
)] + [bytes.fromhex(it) for it in ("81808020", "80808080808080808080", "ffffffffffffffffff02")]

BAD_LINES = [
    b"{", b'{"a":1e400}', b"\"\xff\"", b"{}{}", b"[]", b"null", b'{"exitCode":"x"}', b'{"exitCode":-0}', b'{"exitCode":1.0}',
    b'{"exitCode":"+1"}', b'{"exitCode":"01"}', b'{"exitCode":""}', b'{"exitCode":2147483648}', b'{"exitCode":18446744073709551615}',
    b'{"exitCode":18446744073709551616}', b'{"exitCode":"-2147483649"}', b'{"exitCode":"99999999999999999999999"}',
    b'{"wasCancelled":1,"requestId":[]}', b'{"output":1}', b'{"exitCode":01}', b"{'exitCode':1}", b"\0",
]

GOOD_LINES = [
    of_value({"exitCode": 0, "output": "", "requestId": 0, "wasCancelled": False}, separators=(",", ":")),
    of_value({"exitCode": 2}),
    of_value({"exitCode": -2147483648, "output": 'a "b" \\ /\n\t\r\b\f\x01\x1f\x7f', "requestId": 2147483647, "wasCancelled": True}),
    of_value({"exitCode": -2147483648, "output": 'a "b" \\ /\n\t\r\b\f\x01\x1f\x7f'}),
    of_value({"output": "Gr\u00fc\u00dfe, \u4e16\u754c \U0001f600", "requestId": 12}),
    of_value({"output": "Gr\u00fc\u00dfe, \u4e16\u754c \U0001f600"}),
    of_value({"output": "Gr\u00fc\u00dfe, \u4e16\u754c \U0001f600"}, ensure_ascii=False),
    of_value({"exit_code": 1, "request_id": 7, "was_cancelled": True, "other": [1.5, None, {"a": 1e300}]}),
    of_value({"exit_code": 1, "other": [1.5, None, {"a": 1e300}]}),
    # A number may be a string of digits. null is the default, even if the other name has a value. Of two values the last counts.
    Answer(b'{"exitCode":"-0","requestId":"-12"}\n', number=-12),
    Answer(b'{"exitCode":"-7","requestId":"0"}\n', -7), Answer(b'{"exitCode":null,"exit_code":"x"}\n'),
    Answer(b'{"exit_code":"2","requestId":null}\n', 2), Answer(b'{"exitCode":1,"exitCode":2}\n', 2),
    Answer(b' \t\r\n\n{"exitCode":3}\r\n', 3),
]


def plays_of(answers: Sequence[Answer], hear: str, bytewise: bool) -> list[Steps]:
    """Returns the parts of the processes. Each process answers until a response ends its line."""
    plays: list[list[Step]] = [[]]
    for it in answers:
        pieces = [it.given[at : at + 1].hex() for at in range(len(it.given))] if bytewise else [it.given.hex()]
        plays[-1] += [[hear, 1], ["give", *pieces]]
        if it.ends_its_line():
            plays.append([])
    return [*plays]


def answered(name: str, answers: Sequence[Answer], lines: bool = False, bytewise: bool = False) -> Case:
    def played(programs: Programs, folder: pathlib.Path) -> None:
        needs = supports(**({"requires-worker-protocol": "json"} if lines else {}))
        actions = [action(f"a{n}", outputs=[], requirements=needs) for n in range(len(answers))]
        words = ["--retries=0", "--instances=1"]
        plays = plays_of(answers, "hear lines" if lines else "hear", bytewise)
        ended = exchange(programs, folder, actions, words, t=plays)
        got = ended.out.decode().split("\n")
        for n, it in enumerate(answers):
            start = next(at for at, line in enumerate(got) if line.startswith(f"a{n} "))
            wanted = it.lines(f"a{n}")
            compare(it, wanted, got[start : start + len(wanted)])
        play.no_fault(ended)
    return Case(name, played)


def numbered(name: str, needs: tuple[str, ...], give: list[bytes], wanted: list[str], lines: bool = False, count: int = 2,
             ok: int = 0, failed: int = 0) -> Case:
    """Returns a case with a multiplex worker that gives its responses after it has read all requests."""
    def played(programs: Programs, folder: pathlib.Path) -> None:
        requirements = supports(*needs, **({"requires-worker-protocol": "json"} if lines else {}))
        actions = [action(f"a{n}", outputs=[], requirements=requirements) for n in range(count)]
        hear = "hear lines" if lines else "hear"
        plays: list[Steps] = [[[hear, count], ["give", *(it.hex() for it in give)]]]
        ended = exchange(programs, folder, actions, ["--retries=0", "--instances=1"], t=plays)
        compare((name, give), report(*wanted, ok=ok, failed=failed), ended.out)
    return Case(name, played)


def several() -> Iterator[Case]:
    """Yields cases for the numbers that match responses to requests."""
    first, second = wire.response(1, 3), wire.response(2, 0, b"two")
    local = "local=won remote=unused"
    wanted = [f"a0 failed local 3 {local}", f"a1 ok local {local}", "  | two"]
    never = [wire.response(number, 5) for number in (0, 9, -1, 128, 2**31 - 1, -(2**31))]
    for needs in [("multiplex-workers",), ("multiplex-workers", "multiplex-sandboxing")]:
        for give in ([first, second], [second, first], [*never, second, first], [second, wire.response(2, 7), first]):
            yield numbered(f"numbers of answers: {[it.hex() for it in give]}, {needs}", needs, [wire.framed(it) for it in give],
                           wanted, ok=1, failed=1)
    give = [wire.line(requestId=9, exitCode=5), wire.line(requestId=2, output="two"), b'{"request_id":"1","exit_code":"3"}\n']
    yield numbered("numbers of answers in lines", ("multiplex-workers",), give, wanted, True, ok=1, failed=1)
    # A worker has at most eight requests at once. The ninth is sent after a response.
    # A hundred and thirty actions, so that numbers take two bytes.
    def many(programs: Programs, folder: pathlib.Path) -> None:
        actions = [action(f"a{n}", outputs=[], requirements=supports("multiplex-workers")) for n in range(130)]
        steps = [["hear", 8]]
        for number in range(1, 131):
            steps += [["give", wire.framed(wire.response(number, number)).hex()], *([["hear", 1]] if number + 8 <= 130 else [])]
        ended = exchange(programs, folder, actions, ["--instances=1"], t=[steps])
        wanted = report(*[f"a{n} failed local {n + 1} {local}" for n in range(130)], failed=130)
        compare("130 requests, at most eight at once", wanted, ended.out)
        heard = play.heard(folder, "t")
        compare("one process", 1, len(heard))
        numbers = [dict(wire.fields(it))[3] for it in wire.messages(heard[0].given)]
        compare("the numbers of the requests", list(range(1, 131)), numbers)
    yield Case("numbers of more than one byte", many)


# A result in two parts, as a stream. The first part announces the second.
PARTS = wire.framed(wire.result(1, more=True, files=[(b"o", b"part")])) + wire.framed(wire.result(1, files=[(b"p", b"")]))

RESULTS = [
    # Each result, its lines in the report, the totals, and the output.
    (wire.result(1, said=b"hello\n", files=[(b"o", b"x")]), ["a ok remote local=unused remote=won", "  | hello"], {"ok": 1}, b"x"),
    (wire.result(1, 7, b"no", [(b"o", b"x")]), ["a failed remote 7 local=unused remote=won", "  | no"], {"failed": 1}, None),
    (wire.result(1, -1), ["a failed remote -1 local=unused remote=won"], {"failed": 1}, None),
    (wire.result(1), ["a broken local=unused remote=dropped:missing(o):1"], {"broken": 1}, None),
    (wire.result(1, files=[(b"p", b"x")]), ["a broken local=unused remote=dropped:missing(o):1"], {"broken": 1}, None),
    (wire.result(1, files=[(b"o", b"x"), (b"p", b"y"), (b"o", b"")]), ["a ok remote local=unused remote=won"], {"ok": 1}, b""),
    (wire.result(1, refusal=b"cannot start"), ["a broken local=unused remote=dropped:refused:1"], {"broken": 1}, None),
    # A number in a longer encoding, an unknown field, and fields in another order, also in an embedded message.
    (bytes.fromhex("2206120178" "0a016f" "1080808080f0ffffffff01" "8201017a" "0881808000"), ["a ok remote local=unused remote=won"], {"ok": 1}, b"x"),
    # A part that is followed by another.
    (PARTS, ["a ok remote local=unused remote=won"], {"ok": 1}, b"part"),
    (bytes.fromhex("08"), ["a broken local=unused remote=dropped:frame:1"], {"broken": 1}, None),
    (bytes.fromhex("2a01ff"), ["a broken local=unused remote=dropped:frame:1"], {"broken": 1}, None),
    (wire.result(1, cancelled=True), ["a broken local=unused remote=dropped:breach:1"], {"broken": 1}, None),
]


def remote(at: int) -> Case:
    def played(programs: Programs, folder: pathlib.Path) -> None:
        given, lines, totals, output = RESULTS[at]
        frame = given if given is PARTS else wire.framed(given)
        one = action(strategy="remote", requirements={}, argv=["tool", "-v", "@f"], env={"B": "2", "A": "1"})
        steps: Steps = [["give", wire.GREETING.hex()], ["hear", 1], ["give", frame.hex()]]
        ended = exchange(programs, folder, [one], ["--retries=0"], x=[steps])
        compare(given, (report(*lines, **totals), output), (ended.out, play.found(folder, "o")))
        wanted = wire.framed(wire.job(1, [b"tool", b"-v", b"@f"], [(b"f", b"flag\n")], [b"o"], [(b"A", b"1"), (b"B", b"2")]))
        process = play.heard(folder, "x")[0]
        compare("the job", (["--serve"], wanted), (process.words, process.given))
    return Case(f"result {RESULTS[at][0].hex()[:60]}", played)


def spelling(programs: Programs, folder: pathlib.Path) -> None:
    """Checks that Python encodes responses as protoc does."""
    for it in PROTOC["responses"]:
        read = of_protoc(it)
        compare(it["parts"], it["written"], wire.response(read.number, read.exit_code, read.said, read.cancelled).hex())


def cases() -> Iterator[Case]:
    vectors = [of_protoc(it) for it in PROTOC["responses"]]
    yield Case("spelling", spelling)
    yield answered("responses by protoc", vectors)
    yield answered("responses by protoc, byte by byte", vectors, bytewise=True)
    yield answered("responses that are none", [Answer(it, fault="frame") for it in BAD_FRAMES])
    yield answered("answers in lines by json", GOOD_LINES, lines=True)
    yield answered("answers in lines by json, byte by byte", GOOD_LINES, lines=True, bytewise=True)
    yield answered("lines that are no answer", [Answer(it + b"\n", fault="frame") for it in BAD_LINES], lines=True)
    yield from several()
    for at in range(len(RESULTS)):
        yield remote(at)
