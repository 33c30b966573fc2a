"""Whole runs: faults of workers, results of races, actions that share a worker, and the largest list."""
from __future__ import annotations

import json
import os
import pathlib
from collections.abc import Callable, Iterator, Mapping, Sequence

import play
import wire
from play import Case, Programs, Step, Steps, action, compare, exchange, heard, report, supports

LOCAL = "ok local local=won remote=unused"
OK = wire.framed(wire.response())
GREET: Step = ["give", wire.GREETING.hex()]
WON = ["give", wire.framed(wire.result(1, files=[(b"o", b"x")])).hex()]


def serve(output: str = "o", text: str = "made") -> list[list[object]]:
    """Returns the steps that answer one request of a singleplex worker."""
    return [["hear", 1], ["leave", output, text], ["give", OK.hex()]]


def played(name: str, actions: Sequence[Mapping[str, object]], wanted: bytes, words: Sequence[str] = ("--instances=1",),
           files: Mapping[str, bytes | None] | None = None, count: int | None = None, others: Sequence[str] = (),
           given: Mapping[str, bytes] | None = None, **players: Sequence[Steps]) -> Case:
    """Returns a case that checks a run's report, the files at these paths afterwards, and the number of processes of `t`.
    The files `given` are there before.

    If a branch's fate depends on which lane is first, `others` lists the other fates that it may have.
    """
    def case(programs: Programs, folder: pathlib.Path) -> None:
        ended = exchange(programs, folder, actions, words, given, **players)
        status = 0 if f"ok={len(actions)} ".encode() in wanted else 1
        compare((name, words), (status, wanted), (ended.status, with_fate(ended.out, wanted, others)))
        play.no_fault(ended)
        compare((name, "files"), dict(files or {}), {path: play.found(folder, path) for path in files or {}})
        if count is not None:
            compare((name, "processes"), count, len(heard(folder, "t")))
    return Case(name, case)


def with_fate(out: bytes, wanted: bytes, others: Sequence[str]) -> bytes:
    """Returns the report, with each other fate that is allowed replaced by the wanted one."""
    for other in others:
        branch = other.split("=")[0]
        fate = next(word for word in wanted.decode().split() if word.startswith(f"{branch}="))
        out = out.replace(other.encode(), fate.encode())
    return out


def workers() -> Iterator[Case]:
    """Yields runs with a worker that gets one request at a time."""
    two = [action("a"), action("b", outputs=["q"])]
    both = report(f"a {LOCAL}", f"b {LOCAL}", ok=2)
    yield played("one worker for two actions", two, both, count=1, files={"o": b"made", "q": b"made"}, t=[[*serve(), *serve("q")]])
    # No request belongs to the second response. It breaks the line, but the first response counts.
    twice: Steps = [["hear", 1], ["leave", "o", "made"], ["give", (OK + OK).hex()]]
    yield played("a worker answers twice", two[:1], report(f"a {LOCAL}", ok=1), count=1, files={"o": b"made"}, t=[twice])
    yield played("a worker dies before its answer, and after it", two, both, count=3,
                 t=[[["hear", 1], ["end"]], [*serve(), ["end"]], serve("q")])
    yield played("a worker dies at each attempt", [action()], report("a broken local=dropped:died:3 remote=unused", broken=1),
                 ["--retries=2"], count=3, files={"o": None}, t=[[["hear", 1], ["end"]]] * 3)
    yield played("a worker ends inside an answer", [action()], report("a broken local=dropped:died:1 remote=unused", broken=1),
                 ["--retries=0"], t=[[["hear", 1], ["give", "0508"], ["end"]]])
    yield played("a worker dies before it is asked", [action()], report(f"a {LOCAL}", ok=1), count=2, t=[[["end"]], serve()])
    yield played("an output isn't there, and then it is", [action()], report(f"a {LOCAL}", ok=1), files={"o": b"made"},
                 t=[[["hear", 1], ["give", OK.hex()], *serve()], serve()])
    yield played("outputs that are a folder, and one that isn't there", [action(outputs=["d/p", "q"])],
                 report("a broken local=dropped:missing(d/p):2 remote=unused", broken=1), files={"q": None},
                 t=[[["hear", 1], ["leave", "d/p/x", ""], ["leave", "q", ""], ["give", OK.hex()]] * 2] * 2)
    yield played("the second output isn't there", [action(outputs=["o", "q"])],
                 report("a broken local=dropped:missing(q):1 remote=unused", broken=1), ["--retries=0"], files={"o": None},
                 t=[serve()])
    failed = wire.framed(wire.response(0, 3, b"x\n\ny"))
    yield played("an action fails, and what reads its output is skipped",
                 [action("a"), action("b", outputs=["q"], inputs=["f", "o"]), action("c", outputs=["r"], inputs=["f", "q"])],
                 report("a failed local 3 local=won remote=unused", "  | x", "  | ", "  | y", "b skipped a local=idle remote=unused",
                        "c skipped b local=idle remote=unused", failed=1, skipped=2),
                 files={"o": None, "q": None}, t=[[["hear", 1], ["leave", "o", "made"], ["give", failed.hex()]]])


def several() -> Iterator[Case]:
    """Yields runs in which a worker with several requests dies, or writes a bad frame."""
    needs = supports("multiplex-workers")
    three = [action(name, outputs=[], requirements=needs) for name in "abc"]
    answers = [wire.framed(wire.response(number)).hex() for number in (1, 2, 3)]
    all_ok = report(*[f"{name} {LOCAL}" for name in "abc"], ok=3)
    yield played("each request that a worker died over is tried again", three, all_ok, count=2,
                 t=[[["hear", 3], ["give", answers[1]], ["end"]], [["hear", 2], ["give", *answers[:2]]]])
    yield played("each pending request is told", three,
                 report(f"a {LOCAL}", *[f"{name} broken local=dropped:frame:1 remote=unused" for name in "bc"], ok=1, broken=2),
                 ["--retries=0", "--instances=1"], t=[[["hear", 3], ["give", answers[0], "80" * 10]]])
    yield played("it is cancelled though nobody asked", three[:1], report("a broken local=dropped:breach:1 remote=unused", broken=1),
                 ["--retries=0"], t=[[["hear", 1], ["give", wire.framed(wire.response(1, cancelled=True)).hex()]]])


def rooms() -> Iterator[Case]:
    """Yields runs that show what is in a worker's room, for workers that take several requests."""
    needs = supports("multiplex-workers")
    answers = [wire.framed(wire.response(number)).hex() for number in (1, 2)]
    yield played("an output that an earlier attempt left", [action(outputs=["o", "q"], requirements=needs)],
                 report("a broken local=dropped:missing(o):2 remote=unused", broken=1), count=1, files={"o": None, "q": None},
                 t=[[["hear", 1], ["leave", "o", ""], ["give", answers[0]], ["hear", 1], ["leave", "q", ""], ["give", answers[1]]]])
    two = [action("a", inputs=["f", "i"], requirements=needs), action("b", inputs=["f", "j"], outputs=["q"], requirements=needs)]
    both = report(f"a {LOCAL}", f"b {LOCAL}", ok=2)
    # A request leaves the inputs of the one before it in the room that both share.
    once = ["--instances=1", "--retries=0"]
    yield played("inputs of two requests in one room", two, both, once, count=1, given={"i": b"of a", "j": b"of b"},
                 files={"o": b"of a", "q": b"of b"}, t=[[["hear", 2], ["copy", "i", "o"], ["copy", "j", "q"], ["give", *answers]]])
    boxed = supports("multiplex-workers", "multiplex-sandboxing")
    yield played("inputs of two requests with a folder each", [{**it, "requirements": boxed} for it in two], both, once, count=1,
                 given={"i": b"of a", "j": b"of b"}, files={"o": b"of a", "q": b"of b"},
                 t=[[["hear", 2], ["copy", "__sandbox/1/i", "__sandbox/1/o"], ["copy", "__sandbox/2/j", "__sandbox/2/q"], ["give", *answers]]])


def races() -> Iterator[Case]:
    """Yields runs in which a worker and the executor race for an action."""
    one = [action(strategy="dynamic")]
    dies: Steps = [["hear", 1], ["end"]]
    # The losing branch may have ended earlier by itself.
    yield played("the worker dies twice, and the executor wins", one, report("a ok remote local=dropped:died:2 remote=won", ok=1),
                 files={"o": b"x"}, others=["local=lost", "local=idle"],
                 t=[dies, [["hear", 1], ["raise", "twice"], ["end"]]], x=[[GREET, ["hear", 1], ["await", "twice"], WON]])
    yield played("the worker can't be started, and the executor wins", one, report("a ok remote local=dropped:launch:2 remote=won", ok=1),
                 files={"o": b"x"}, others=["local=lost", "local=idle"], x=[[GREET, ["hear", 1], WON]])
    yield played("the executor can't be started, and the worker wins", one, report("a ok local local=won remote=dropped:launch:2", ok=1),
                 ["--executor=gone"], files={"o": b"made"}, others=["remote=lost", "remote=idle"], t=[serve()])
    wrong: Step = ["give", wire.framed(wire.result(1, 3, b"no")).hex()]
    yield played("the executor's exit code counts where it is first", one,
                 report("a failed remote 3 local=dropped:launch:2 remote=won", "  | no", failed=1), others=["local=lost", "local=idle"],
                 x=[[GREET, ["hear", 1], wrong]])
    refused: Step = ["give", wire.framed(wire.result(1, refusal=b"cannot start")).hex()]
    again: Step = ["give", wire.framed(wire.result(2, refusal=b"cannot start")).hex()]
    yield played("the executor refuses twice, and the worker wins", one,
                 report("a ok local local=won remote=dropped:refused:2", ok=1), files={"o": b"made"}, others=["remote=lost"],
                 t=[[["hear", 1], ["await", "refused"], ["leave", "o", "made"], ["give", OK.hex()]]],
                 x=[[GREET, ["hear", 1], refused, ["hear", 1], again, ["raise", "refused"]]])
    # Both answer before the program reads either answer. Exactly one of them is committed.
    def both(programs: Programs, folder: pathlib.Path) -> None:
        worker: Steps = [["hear", 1], ["raise", "worker"], ["await", "executor"], ["leave", "o", "made"], ["give", OK.hex()]]
        executor: Steps = [GREET, ["hear", 1], ["raise", "executor"], ["await", "worker"], WON]
        ended = exchange(programs, folder, one, ["--retries=0"], t=[worker], x=[executor])
        got = (ended.out, play.found(folder, "o"))
        wanted = [(report("a ok local local=won remote=lost", ok=1), b"made"), (report("a ok remote local=lost remote=won", ok=1), b"x")]
        compare("both branches at once", got if got in wanted else wanted, got)
    yield Case("both branches at once", both)
    # Without cancellation the losing worker is killed, and the next action gets a new worker.
    two = [*one, action("b", outputs=["q"], inputs=["f", "o"])]
    yield played("the worker that lost is killed", two, report("a ok remote local=lost remote=won", f"b {LOCAL}", ok=2), count=2,
                 t=[[["hear", 1], ["raise", "asked"], ["hear", 1]], serve("q")], x=[[GREET, ["hear", 1], ["await", "asked"], WON]])


def keys() -> Iterator[Case]:
    """Yields cases for the rule that two actions share a worker exactly if their keys are equal."""
    same = [action("a", outputs=[]), action("b", outputs=[])]
    rows: list[tuple[str, dict[str, object], bool]] = [
        ("equal keys", {}, True), ("the environment", {"env": {"K": "1"}}, False), ("the mnemonic", {"mnemonic": "U"}, False),
        ("a start-up word", {"argv": ["t", "-v", "@f"]}, False), ("a request word", {"argv": ["t", "@f", "--flagfile=x"]}, True),
        ("the tools", {"tools": ["f"]}, False), ("the mnemonic in the key", {"mnemonic": "U", "requirements": supports(**{"worker-key-mnemonic": "T"})}, True),
        ("cancellation", {"requirements": supports("worker-cancellation")}, False),
        ("several requests at once", {"requirements": supports("multiplex-workers")}, False),
        ("folders alone", {"requirements": supports("multiplex-sandboxing")}, True),
        ("another requirement", {"requirements": supports(other="1")}, True), ("an input", {"inputs": ["f", "g"]}, True),
    ]
    for what, more, shared in rows:
        yield Case(f"keys: {what}", sharing([same[0], {**same[1], **more}], shared))


def sharing(two: Sequence[Mapping[str, object]], shared: bool) -> Callable[[Programs, pathlib.Path], None]:
    """Returns a function that plays a case.

    Each process answers the number 0 twice. If the second worker is multiplex, it is a separate program.
    """
    def case(programs: Programs, folder: pathlib.Path) -> None:
        has_several = "supports-multiplex-workers" in json.dumps(two[1])
        plays: dict[str, list[Steps]] = {"t": [[["hear", 1], ["give", OK.hex()]] * 2] * 2}
        if has_several:
            plays["u"] = [[["hear", 1], ["give", wire.framed(wire.response(1)).hex()]]]
        actions: list[Mapping[str, object]] = [two[0], {**two[1], "argv": ["u", "@f"]} if has_several else two[1]]
        ended = exchange(programs, folder, actions, ["--instances=1", "--retries=0"], {"g": b""}, **plays)
        compare(two, report(f"a {LOCAL}", f"b {LOCAL}", ok=2), ended.out)
        compare((two, "processes"), 1 if shared else 2, len(heard(folder, "t")) + len(heard(folder, "u")))
    return case


def places() -> Iterator[Case]:
    """Yields runs with a file or folder at an output's path, and one whose folder of rooms can't be made."""
    def spoiled(programs: Programs, folder: pathlib.Path) -> None:
        play.fill(folder, {"q/x": b""})
        ended = exchange(programs, folder, [action(outputs=["o", "q", "r"])],
                         t=[[["hear", 1], *(["leave", it, it] for it in "oqr"), ["give", OK.hex()]]])
        compare("a folder at the second output", (1, report("a broken local=spoiled:1 remote=unused", broken=1), b"o", None),
                (ended.status, ended.out, play.found(folder, "o"), play.found(folder, "r")))
    yield Case("a write that fails", spoiled)

    def replaced(programs: Programs, folder: pathlib.Path) -> None:
        play.fill(folder, {"o": b"old", "kept": b"kept"})
        os.symlink("kept", folder / "q")
        ended = exchange(programs, folder, [action(outputs=["o", "q", "d/e/p"])],
                         t=[[["hear", 1], *(["leave", it, "new"] for it in ("o", "q", "d/e/p")), ["give", OK.hex()]]])
        got = {path: play.found(folder, path) for path in ("o", "q", "d/e/p", "kept")}
        compare("a file, a link, and folders that aren't there", (0, {"o": b"new", "q": b"new", "d/e/p": b"new", "kept": b"kept"}),
                (ended.status, got))
        compare("nothing beside", [], [it.name for it in folder.rglob(".worker_tool*")])
    yield Case("outputs replace what is there", replaced)

    def at_once(programs: Programs, folder: pathlib.Path) -> None:
        """Writes eight outputs of four megabytes in one folder at the same time, each first to a temporary file there."""
        play.copy(programs.demo_tool, folder, "t")
        contents = {f"i{n}": bytes([65 + n]) * (4 << 20) for n in range(8)}
        flags = {f"f{n}": f"--in=i{n}\n--out=d/o{n}\n".encode() for n in range(8)}
        actions = [action(f"a{n}", argv=["t", f"@f{n}"], inputs=[f"f{n}", f"i{n}"], outputs=[f"d/o{n}"]) for n in range(8)]
        ended = exchange(programs, folder, actions, ["--instances=8"], {**contents, **flags})
        compare("eight at once", (0, report(*[f"a{n} {LOCAL}" for n in range(8)], ok=8)), (ended.status, ended.out))
        for n in range(8):
            compare(f"the output of a{n}", True, play.found(folder, f"d/o{n}") == contents[f"i{n}"])
    yield Case("outputs that are written in one folder at once", at_once)

    def no_room(programs: Programs, folder: pathlib.Path) -> None:
        play.fill(folder, {".worker_rooms": b"a file"})
        ended = exchange(programs, folder, [action()], ["--retries=1"], t=[serve()])
        compare("a file in place of the rooms", (5, b""), (ended.status, ended.out))
        compare("its fault", True, play.fault_line(ended.err).startswith(f"{programs.worker_tool.name}: not read: "))
    yield Case("a folder of rooms that can't be made", no_room)


def largest(programs: Programs, folder: pathlib.Path) -> None:
    """Runs 4,096 actions with ten attempts each. The last two hundred are chains of ten, linked by their files."""
    play.copy(programs.demo_tool, folder, "t")
    actions, flags = [action(f"a{n}", outputs=[]) for n in range(3896)], {}
    for n in range(3896, 4096):
        source = f"flag{n}" if n == 3896 or n % 10 == 0 else f"o{n - 1}"
        flags[f"flag{n}"] = f"--in={source}\n--out=o{n}\n".encode()
        actions.append(action(f"a{n}", outputs=[f"o{n}"], inputs=sorted({f"flag{n}", source}), argv=["t", f"@flag{n}"]))
    ended = exchange(programs, folder, actions, ["--retries=9", "--instances=8"], flags)
    compare("4,096 actions", (0, report(*[f"a{n} {LOCAL}" for n in range(4096)], ok=4096)), (ended.status, ended.out))
    for n in range(3896, 4096):
        compare(f"the output of a{n}", flags[f"flag{max(3896, n - n % 10)}"], play.found(folder, f"o{n}"))


def cases() -> Iterator[Case]:
    for part in [workers, several, rooms, races, keys, places]:
        yield from part()
    yield Case("the largest list", largest)
