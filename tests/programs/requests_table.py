"""The requests and jobs that worker_tool writes, compared with Python's, and the contents of a worker's room."""
from __future__ import annotations

import base64
import hashlib
import json
import pathlib
from collections.abc import Iterator, Mapping, Sequence

import play
import wire
from play import Case, Programs, Step, Steps, action, compare, exchange, fault_line, heard, report, supports

LOCAL = "ok local local=won remote=unused"


def digest(content: bytes) -> bytes:
    return hashlib.sha256(content).hexdigest().encode()


FLAG = (b"f", digest(b"flag\n"))

# A worker's features, the strategy, and if its requests are numbered and have their own folders.
MODES: list[tuple[tuple[str, ...], str, bool, bool]] = [
    ((), "worker", False, False), (("multiplex-workers",), "worker", True, False),
    (("multiplex-sandboxing",), "worker", False, False), (("multiplex-workers", "multiplex-sandboxing"), "worker", True, True),
    (("multiplex-workers",), "dynamic", False, False), (("multiplex-sandboxing",), "dynamic", False, False),
    (("multiplex-workers", "multiplex-sandboxing"), "dynamic", True, True),
]


def modes(needs: Sequence[str], strategy: str, numbered: bool, boxed: bool, lines: bool) -> Case:
    """Returns a case for the bytes of one request, by the features of its worker, as a frame or as a line."""
    def played(programs: Programs, folder: pathlib.Path) -> None:
        requirements = supports(*needs, **({"requires-worker-protocol": "json"} if lines else {}))
        one = action(requirements=requirements, strategy=strategy)
        room, number = ("__sandbox/1" if boxed else ""), int(numbered)
        answer = wire.line(requestId=number) if lines else wire.framed(wire.response(number))
        steps: Steps = [["hear lines" if lines else "hear", 1], ["leave", f"{room}/o" if room else "o", "made"], ["give", answer.hex()]]
        # If the action races an executor, the executor waits for requests that never come.
        ended = exchange(programs, folder, [one], ["--retries=0", "--worker_verbose"], t=[steps], x=[[["hear", 9]]])
        wanted = report(f"a ok local local=won remote={'unused' if strategy == 'worker' else 'lost'}", ok=1)
        got = ended.out.replace(b"remote=idle", b"remote=lost")
        compare((needs, strategy), (wanted, b"made"), (got, play.found(folder, "o")))
        if lines:
            inputs = [{"path": "f", "digest": base64.b64encode(FLAG[1]).decode()}]
            parts = {"arguments": ["flag"], "inputs": inputs, "requestId": number, "verbosity": 10, "sandboxDir": room}
            given = wire.line(**parts)
        else:
            given = wire.framed(wire.request(number, [b"flag"], [FLAG], verbosity=10, folder=room.encode()))
        compare((needs, strategy), given, heard(folder, "t")[0].given)
    return Case(f"a request of {needs}, {strategy}{', in lines' if lines else ''}", played)


FILES = {
    "p": b"abc", "lines": b"a\r\n\n b \r\r\nc\rd\n", "tail": b"a\nb\r", "none": b"", "self": b"@self",
    "nest": b"x\n@p\n@@p\n@gone//p\n@none\ny\n", "bad": b"\xff", "\u00e4": b"@p", "d/q": b"-x\n@\n",
    "zero": b"a\0b\n", "json": '{"q": "\u00e4"}\n'.encode(), **{f"deep{n}": b"@deep%d" % (n + 1) for n in range(1, 17)}, "deep17": b"end",
}

# The argument words, and the words of the request, or the fault.
EXPANDED: list[tuple[list[str], list[str] | str]] = [
    (["@p", "--flagfile=q", "@@x"], ["abc", "--flagfile=q", "@@x"]), (["@@p"], ["@@p"]), (["@d//q"], ["@d//q"]),
    (["@d/q"], ["-x", "@"]), (["@lines"], ["a", "", " b \r", "c\rd"]), (["@tail"], ["a", "b\r"]), (["@none"], []),
    (["@nest"], ["x", "abc", "@@p", "@gone//p", "y"]), (["@p", "@p"], ["abc", "abc"]), (["-flagfile=q", "@p"], ["-flagfile=q", "abc"]),
    (["--flagfile=@p"], ["--flagfile=@p"]), (["@\u00e4"], ["abc"]), (["@zero"], ["a\0b"]), (["@json"], ['{"q": "\u00e4"}']),
    (["@deep2"], ["end"]), (["@@"], ["@@"]),
    (["@self"], "TooDeep self"), (["@gone"], "NoSuchFile gone"), (["@p", "@gone", "@bad"], "NoSuchFile gone"),
    (["@bad", "@gone"], "NotText bad"), (["@P"], "NoSuchFile P"), (["@p/"], "NoSuchFile p/"), (["@deep1"], "TooDeep deep17"),
]


def expanded(words: list[str], wanted: list[str] | str) -> Case:
    def played(programs: Programs, folder: pathlib.Path) -> None:
        one = action(argv=["t", *words], inputs=list(FILES), outputs=[])
        ended = exchange(programs, folder, [one], files=FILES, t=[[["hear", 1], ["give", "00"]]])
        if isinstance(wanted, str):
            line = f"worker_tool: flag file refused: {wanted} action 0"
            compare(words, (4, b"", line), (ended.status, ended.out, fault_line(ended.err)))
            return
        inputs = [(path.encode(), digest(content)) for path, content in FILES.items()]
        given = wire.framed(wire.request(0, [word.encode() for word in wanted], inputs))
        compare((words, wanted), (0, given), (ended.status, heard(folder, "t")[0].given))
    return Case(f"expanded: {words}", played)


def too_many_words(programs: Programs, folder: pathlib.Path) -> None:
    """One word more than may be, and the most that may be."""
    for count, status in [(262_144, 0), (262_145, 4)]:
        one = action(argv=["t", "@w"], inputs=["w"], outputs=[])
        place = folder / str(count)
        ended = exchange(programs, place, [one], files={"w": b"\n" * count}, t=[[["hear", 1], ["give", "00"]]])
        wanted = "" if status == 0 else "worker_tool: flag file refused: TooManyWords action 0"
        compare(f"{count} words", (status, wanted), (ended.status, fault_line(ended.err)))


def chain(programs: Programs, folder: pathlib.Path) -> None:
    """An action reads what an earlier one made, which its request names with its digest; the room has no more than inputs."""
    made = b"made"
    actions = [action("a", outputs=["d/o"]), action("b", inputs=["d/o", "g", "f", "g"], outputs=["q"])]
    steps: Steps = [["hear", 1], ["leave", "d/o", "made"], ["leave", "junk", "x"], ["give", "00"], ["hear", 1], ["leave", "q", "b"], ["give", "00"]]
    ended = exchange(programs, folder, actions, ["--instances=1"], {"g": b"\0\xff"}, t=[steps])
    compare("two actions", report(f"a {LOCAL}", f"b {LOCAL}", ok=2), ended.out)
    second = [(b"d/o", digest(made)), (b"g", digest(b"\0\xff")), FLAG, (b"g", digest(b"\0\xff"))]
    wanted = wire.framed(wire.request(0, [b"flag"], [FLAG])) + wire.framed(wire.request(0, [b"flag"], second))
    compare("two requests", wanted, heard(folder, "t")[0].given)
    room = folder / ".worker_rooms" / "0"
    there = {str(it.relative_to(room)): it.read_bytes() for it in room.rglob("*") if it.is_file()}
    compare("the room of the second", {"d/o": made, "g": b"\0\xff", "f": b"flag\n", "q": b"b"}, there)
    compare("outputs", (made, b"b"), (play.found(folder, "d/o"), play.found(folder, "q")))


def spelling(programs: Programs, folder: pathlib.Path) -> None:
    """Python's own spelling of requests is protoc's."""
    place = pathlib.Path(__file__).resolve().parent / "protoc.json"
    for it in json.loads(place.read_text(encoding="utf-8"))["requests"]:
        compare(it["parts"], it["written"], of_parts(it["parts"]).hex())


def of_parts(parts: Mapping[str, object]) -> bytes:
    """A request of the parts that protoc read."""
    def raw(value: object) -> bytes:
        return bytes.fromhex(str(value))

    words = [raw(word) for word in parts.get("arguments", [])]  # type: ignore[attr-defined]
    inputs = [(raw(it.get("path", "")), raw(it.get("digest", ""))) for it in parts.get("inputs", [])]  # type: ignore[attr-defined]
    return wire.request(parts.get("request_id", 0), words, inputs, parts.get("cancel", False),  # type: ignore[arg-type]
                        parts.get("verbosity", 0), raw(parts.get("sandbox_dir", "")))  # type: ignore[arg-type]


def cancelled(programs: Programs, folder: pathlib.Path) -> None:
    """Checks that a request gets a cancel if the executor won its action. The next one is sent after the response."""
    needs = supports("worker-cancellation")
    actions = [action("a", requirements=needs, strategy="dynamic"), action("b", outputs=["q"], requirements=needs, inputs=["f", "o"])]
    worker: Steps = [["hear", 1], ["raise", "asked"], ["hear", 1], ["give", wire.framed(wire.response(cancelled=True)).hex()],
              ["hear", 1], ["leave", "q", "b"], ["give", "00"]]
    won = wire.framed(wire.result(1, files=[(b"o", b"x")]))
    executor: Steps = [["give", wire.GREETING.hex()], ["hear", 1], ["await", "asked"], ["give", won.hex()]]
    ended = exchange(programs, folder, actions, ["--retries=0", "--instances=1"], t=[worker], x=[executor])
    compare("a race", report("a ok remote local=lost remote=won", f"b {LOCAL}", ok=2), ended.out)
    wanted = [wire.request(0, [b"flag"], [FLAG]), wire.request(0, cancel=True),
              wire.request(0, [b"flag"], [FLAG, (b"o", digest(b"x"))])]
    compare("a request, its cancel, and the next", wanted, wire.messages(heard(folder, "t")[0].given))


def cancelled_in_lines(programs: Programs, folder: pathlib.Path) -> None:
    """Checks the same with numbers and lines. The losing request's number is cancelled."""
    needs = supports("worker-cancellation", "multiplex-workers", "multiplex-sandboxing", **{"requires-worker-protocol": "json"})
    actions = [action("a", requirements=needs), action("b", outputs=["q"], requirements=needs, strategy="dynamic")]
    worker: Steps = [["hear lines", 2], ["raise", "asked"], ["hear lines", 1], ["leave", "__sandbox/1/o", "a"],
              ["give", wire.line(requestId=2, wasCancelled=True).hex(), wire.line(requestId=1).hex()]]
    won = wire.framed(wire.result(1, files=[(b"q", b"x")]))
    executor: Steps = [["give", wire.GREETING.hex()], ["hear", 1], ["await", "asked"], ["give", won.hex()]]
    ended = exchange(programs, folder, actions, ["--retries=0", "--instances=1"], t=[worker], x=[executor])
    compare("a race", report(f"a {LOCAL}", "b ok remote local=lost remote=won", ok=2), ended.out)
    compare("the cancel", wire.line(requestId=2, cancel=True), heard(folder, "t")[0].given.splitlines(keepends=True)[2])


def cancelled_job(programs: Programs, folder: pathlib.Path) -> None:
    """Checks that an executor gets a cancel for a job whose action the worker won, if the executor has greeted."""
    for version, asked in [(2, True), (0, False)]:
        place = folder / str(version)
        actions = [action("a", strategy="dynamic"), action("b", outputs=["q"], strategy="remote", inputs=["f", "o"])]
        worker: Steps = [["hear", 1], ["await", "sent"], ["leave", "o", "x"], ["give", "00"]]
        late: Steps = [["give", wire.framed(wire.result(1, cancelled=True)).hex()]] if asked else []
        greeting: Steps = [["give", wire.GREETING.hex()]] if asked else []
        done: Step = ["give", wire.framed(wire.result(2, files=[(b"q", b"y")])).hex()]
        executor: Steps = [*greeting, ["hear", 1], ["raise", "sent"], *([["hear", 1]] if asked else []), *late, ["hear", 1], done]
        ended = exchange(programs, place, actions, ["--retries=0"], t=[worker], x=[executor])
        wanted = report("a ok local local=won remote=lost", "b ok remote local=unused remote=won", ok=2)
        compare(("greeting", version), wanted, ended.out)
        first = wire.job(1, [b"t", b"@f"], [(b"f", b"flag\n")], [b"o"])
        second = wire.job(2, [b"t", b"@f"], [(b"f", b"flag\n"), (b"o", b"x")], [b"q"])
        cancel = [wire.job(1, cancel=True)] if asked else []
        compare(("jobs", version), [first, *cancel, second], wire.messages(heard(place, "x")[0].given))


def cases() -> Iterator[Case]:
    for needs, strategy, numbered, boxed in MODES:
        yield modes(needs, strategy, numbered, boxed, False)
        yield modes(needs, strategy, numbered, boxed, True)
    for words, wanted in EXPANDED:
        yield expanded(words, wanted)
    for case in [too_many_words, chain, spelling, cancelled, cancelled_in_lines, cancelled_job]:
        yield Case(case.__name__.replace("_", " "), case)
