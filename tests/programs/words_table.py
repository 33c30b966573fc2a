"""The words of worker_tool: which are accepted, what each option does, and how standard output may fail."""
from __future__ import annotations

import os
import pathlib
from collections.abc import Iterator

import play
import wire
from play import Case, Programs, Steps, action, compare, exchange, fault_line, hear_and_give, heard, report, run

ACCEPTED = {
    "l.json": "l.json", "l": "l", "--instances=1 l": "l", "l --instances=48": "l", "--remote=1 l --retries=0": "l",
    "--retries=9 --remote=16 l": "l", "--worker_verbose l": "l", "--instances=0004 l": "l",
    "--extra_flag=- l --extra_flag=-": "l", "--executor=--executor= l": "l",
    "--extra_flag=-b=c --executor=bin/exec dir/l.json --extra_flag=a": "dir/l.json",
}

REFUSED = [
    "", "a b", "l --generate=1", "--generate=1 --generate=1", "--worker_verbose", "--worker_verbose --worker_verbose l",
    "--worker_verbose=1 l", "--retries=1 --retries=1 l", "--retries=1 --retries=2 l", "--instances 4 l",
    "--instances=0 l", "--instances=49 l", "--instances= l", "--instances=00004 l", "--instances=+4 l",
    "--instances=4x l", "--instances=4: l", "--instances=/4 l", "--remote=0 l", "--remote=17 l", "--retries=10 l",
    "--retries=-1 l", "--generate=0", "--generate=1001", "--generate=9999", "--executor= l",
    "--executor=a --executor=a l", "--extra_flag= l", "--extra_flag l", "--help", "--version", "- l", "-v l",
]

EACH_ONCE = "every option but --strategy and --extra_flag stands once at most, and each mnemonic has one --strategy"

TOGETHER = "--remote and --sandboxed are at most 16 together where a strategy names sandboxed"

# Programs with words that are each accepted, but not together, and the rule that they break.
BROKEN = [
    ("worker_tool", "", "there is one list or one --generate, and none is named"),
    ("worker_tool", "--retries=2", "there is one list or one --generate, and none is named"),
    ("worker_tool", "a --retries=2 b", "there is one list or one --generate, and 2 are named"),
    ("worker_tool", "a --generate=1", "there is one list or one --generate, and 2 are named"),
    ("worker_tool", "--retries=1 --extra_flag=a --extra_flag=b --remote=2 --retries=2 l", "--retries stands once at most"),
    ("journal_run", "a b c", "there is one list or one --generate, and 3 are named"),
    ("shared_tool", "--max_workers=2 --retries=1", "there is one list, and none is named"),
    ("shared_tool", "--max_workers=2", "there is one list, and none is named"),
    ("shared_tool", "l", "there is one --max_workers=N"),
    ("shared_tool", "--max_workers=2 --max_workers=3 l", "there is one --max_workers=N"),
    ("spawn_tool", "--sandboxed=2", "there is one list, and none is named"),
    ("spawn_tool", "a b --sandboxed=2", "there is one list, and 2 are named"),
    ("spawn_tool", "--worker_verbose l --worker_verbose", "--worker_verbose stands once at most"),
    ("spawn_tool", "--remote=9 --sandboxed=8 l", "--remote and --sandboxed are at most 16 together"),
    ("spawn_tool", "--sandboxed=16 l", "--remote and --sandboxed are at most 16 together"),
    ("spawn_tool", "--strategy=A=worker --strategy=B=worker --sandboxed=16 l", "--remote and --sandboxed are at most 16 together"),
    ("spawn_tool", "--strategy=A=worker --strategy=A=remote l", EACH_ONCE),
    ("spawn_tool", "--local_delay=1 --local_delay=2 l", EACH_ONCE),
    ("spawn_tool", "--generate=4", 'this word isn\'t accepted: "--generate=4"'),
    ("run_tool", "--sandboxed=2 --max_workers=2", "there is one list or one --generate, and none is named"),
    ("run_tool", "a --generate=1 --local_delay=2", "there is one list or one --generate, and 2 are named"),
    ("run_tool", "--max_workers=2 --retries=1 --retries=2 l", "--retries stands once at most"),
    ("run_tool", "--max_workers=2 --max_workers=3 l", f"there is one list or one --generate, {EACH_ONCE}"),
    ("run_tool", "--strategy=A=worker,sandboxed --remote=9 --sandboxed=8 l", TOGETHER),
    ("run_tool", "--spawn_strategy=sandboxed --sandboxed=16 l", TOGETHER),
    ("run_tool", "--strategy=A=worker --strategy=A=remote l", f"there is one list or one --generate, {EACH_ONCE}"),
    ("run_tool", "l --journal=j", 'this word isn\'t accepted: "--journal=j"'),
]

# Longer than the name of a file may be, so that it can't be read, and isn't absent.
LONG = "n" * 300


def accepted(words: str, path: str) -> Case:
    """Words that name a list which isn't there: that it is looked for shows that they are accepted."""
    def played(programs: Programs, folder: pathlib.Path) -> None:
        ended = run([programs.worker_tool, *words.split()], folder)
        compare(words, (5, b"", f"{programs.worker_tool.name}: not there: {path}"), (ended.status, ended.out, fault_line(ended.err)))
    return Case(f"accepted: {words}", played)


def refused(words: list[str]) -> Case:
    """Words that aren't accepted. Behind the fault's line stands the usage, which has each option."""
    def played(programs: Programs, folder: pathlib.Path) -> None:
        ended = run([programs.worker_tool, *words], folder)
        line = f"{programs.worker_tool.name}: words are not accepted"
        compare(words, (2, b"", line), (ended.status, ended.out, fault_line(ended.err)))
        options = [b"--instances=", b"--remote=", b"--retries=", b"--executor=", b"--extra_flag=", b"--worker_verbose",
                   b"--generate="]
        compare(words, options, [it for it in options if it in ended.err])
    return Case(f"refused: {words}", played)


def broken(program: str, words: str, rule: str) -> Case:
    """Words that break a rule together. The line after the fault's names it."""
    def played(programs: Programs, folder: pathlib.Path) -> None:
        ended = run([getattr(programs, program), *words.split()], folder)
        compare(words, (2, b"", f"{program}: words are not accepted"), (ended.status, ended.out, fault_line(ended.err)))
        compare(words, f"  {rule}", ended.err.decode().splitlines()[1])
    return Case(f"refused together: {program} {words}", played)


def odd_word(program: str) -> Case:
    """A word that isn't UTF-8, in place of a list. The line after the fault's says so."""
    def played(programs: Programs, folder: pathlib.Path) -> None:
        ended = run([getattr(programs, program), b"\xff"], folder)
        compare("ff", (2, b"", f"{program}: words are not accepted"), (ended.status, ended.out, fault_line(ended.err)))
        compare("ff", "  a word isn't UTF-8", ended.err.decode().splitlines()[1])
    return Case(f"not UTF-8: {program}", played)


def generated(count: int) -> Case:
    def played(programs: Programs, folder: pathlib.Path) -> None:
        ended = run([programs.worker_tool, f"--generate={count}"], folder)
        compare(count, (0, report(ok=count), b""), (ended.status, ended.out, ended.err))
        compare("what is left", [], os.listdir(folder))
    return Case(f"--generate={count}", played)


def fault(name: str, words: list[str], status: int, line: str, files: dict[str, bytes] | None = None,
          full: bool = False) -> Case:
    """A fault's status, and the first line of standard error; with `full`, standard output takes nothing."""
    def played(programs: Programs, folder: pathlib.Path) -> None:
        play.fill(folder, files or {})
        out = os.open("/dev/full", os.O_WRONLY) if full else None
        try:
            ended = run([programs.worker_tool, *words], folder, stdout=out)
        finally:
            if out is not None:
                os.close(out)
        wanted = f"{programs.worker_tool.name}: {line}"
        compare(words, (status, b"", wanted), (ended.status, ended.out, fault_line(ended.err)))
    return Case(name, played)


def attempts(name: str, words: list[str], count: int, wanted: str) -> Case:
    """Neither program is there, so that each attempt ends at its launch."""
    def played(programs: Programs, folder: pathlib.Path) -> None:
        ended = exchange(programs, folder, [action(strategy="dynamic")], words)
        fate = f"dropped:launch:{count}"
        compare((words, wanted), (1, report(f"a broken local={fate} remote={fate}", broken=1)), (ended.status, ended.out))
    return Case(name, played)


def meeting(words: list[str], most: int, remote: bool) -> Case:
    """Six actions whose workers or executors wait for each other: as many as may be work at once, and no more."""
    def played(programs: Programs, folder: pathlib.Path) -> None:
        actions = [action(f"a{n}", outputs=[], **({"strategy": "remote"} if remote else {})) for n in range(6)]
        numbers = [f"n{n}" for n in range(most)]
        answers = [wire.framed(wire.result(n + 1)) for n in range(6)] if remote else [b"\0"] * 6
        first: Steps = [["hear", 1]] if not remote else [["give", wire.GREETING.hex()], ["hear", 1]]
        rest = [step for it in answers[1:] for step in hear_and_give(it)]
        plays: list[Steps] = [[*first, ["raise", it], ["await", *numbers], ["give", answers[0].hex()], *rest] for it in numbers]
        ended = exchange(programs, folder, actions, words, None, **{"x" if remote else "t": plays})
        line = "ok remote local=unused remote=won" if remote else "ok local local=won remote=unused"
        compare(words, (0, report(*[f"a{n} {line}" for n in range(6)], ok=6)), (ended.status, ended.out))
        compare(("processes", words), most, len(heard(folder, "x" if remote else "t")))
    return Case(f"{'executors' if remote else 'workers'} at once: {words}", played)


def startup(words: list[str], argv: list[str], wanted: list[str], verbosity: int) -> Case:
    """The start-up words and the environment of a worker, and the verbosity of its request."""
    def played(programs: Programs, folder: pathlib.Path) -> None:
        env = {"K": "a b", "EMPTY": ""}
        one = action(argv=["t", *argv], outputs=[], env=env)
        ended = exchange(programs, folder, [one], words, t=[[["hear", 1], ["give", "00"]]])
        compare(words, (0, b""), (ended.status, ended.err))
        process = heard(folder, "t")[0]
        compare((words, argv), (wanted, env), (process.words, {key: process.env.get(key) for key in env}))
        compare("no further variables", set(), set(process.env) - set(env) - {"LC_CTYPE"})
        compare(words, verbosity, dict(wire.fields(wire.messages(process.given)[0])).get(5, 0))
    return Case(f"start-up words: {argv} {words}", played)


def cases() -> Iterator[Case]:
    for words, path in ACCEPTED.items():
        yield accepted(words, path)
    for words in REFUSED:
        yield refused(words.split(" ") if words else [])
    for odd in [[""], ["l", ""], ["--executor=a", ""]]:
        yield refused(odd)
    for program, words, rule in BROKEN:
        yield broken(program, words, rule)
    for program in ["worker_tool", "journal_run", "shared_tool", "spawn_tool", "run_tool"]:
        yield odd_word(program)
    for count in [1, 7, 40, 1000]:
        yield generated(count)
    yield fault("a list that isn't there", ["gone"], 5, "not there: gone")
    yield fault("a folder in place of a list", ["d"], 5, "not there: d", {"d/x": b""})
    yield fault("a list that can't be read", [LONG], 5, f"not read: {LONG}")
    yield fault("a report that can't be written", ["l"], 6, "report not written", {"l": b'{"actions":[]}'}, True)
    yield attempts("one further attempt where no number is said", [], 2, "two attempts")
    yield attempts("no further attempt", ["--retries=0"], 1, "one attempt")
    yield attempts("nine further attempts", ["--retries=9"], 10, "ten attempts")
    yield meeting([], 4, False)
    yield meeting(["--instances=2"], 2, False)
    yield meeting(["--instances=6"], 6, False)
    yield meeting([], 1, True)
    worker = "--persistent_worker"
    yield startup(["--extra_flag=-x", "--extra_flag=@y"], ["@f"], [worker, "-x", "@y"], 0)
    yield startup(["--worker_verbose"], ["-v", "@f"], ["-v", worker], 10)
    yield startup([], ["-v", "", "@f", "@", "b c", worker], ["-v", "", "@", "b c", worker, worker], 0)
