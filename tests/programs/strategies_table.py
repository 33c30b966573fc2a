"""spawn_tool: its arguments, the strategy by which an action runs, the order of its faults, sandboxes and a delay.

The rules are implemented here a second time, from docs/FORMATS.md and docs/GUIDE.md.
"""
from __future__ import annotations

import dataclasses
import pathlib
import time
from collections.abc import Iterator, Mapping, Sequence

import play
import wire
from play import Case, Ended, Programs, Wrong, action, compare, exchange, fault_line, heard, report, run

ACCEPTED: list[str] = [
    "l", "--strategy=T=worker l", "l --strategy=T=dynamic,remote,sandboxed,worker", "--strategy=T=worker --strategy=U=worker l",
    "--strategy=T=worker --strategy=t=remote l", "--spawn_strategy=remote l", "--sandboxed=1 --remote=0015 l",
    "--sandboxed=15 l", "--sandboxed=12 --remote=4 l", "--sandbox_executor=--serve l", "--sandbox_executor=a=b l",
    "--local_delay=0 l", "--local_delay=9999 l", "--local_delay=0007 l", "--extra_flag=--strategy=T=fast l",
    "--instances=48 --retries=9 --worker_verbose --executor=e --extra_flag=a --extra_flag=a l",
]

REFUSED: list[str] = [
    "", "--strategy=T=worker", "l m", "l --generate=4", "--generate=4", "--strategy l", "--strategy= l", "--strategy=T l",
    "--strategy=T= l", "--strategy==worker l", "--strategy=T=fast l", "--strategy=T=Worker l", "--strategy=T=worker, l",
    "--strategy=T=,worker l", "--strategy=T=worker,worker l", "--strategy=T=worker,remote,worker l", "--strategy=T=worker;remote l",
    "--strategy=T=U=worker l", "--strategy=T=worker --strategy=T=worker l", "--strategy=T=worker --strategy=T=remote l",
    "--spawn_strategy l", "--spawn_strategy= l", "--spawn_strategy=T=worker l", "--spawn_strategy=local l",
    "--spawn_strategy=worker --spawn_strategy=worker l", "--spawn_strategy=worker,worker l", "--sandboxed=0 l", "--sandboxed=17 l",
    "--sandboxed= l", "--sandboxed=1 --sandboxed=1 l", "--sandboxed=00001 l", "--sandboxed=16 l", "--remote=16 l",
    "--sandboxed=9 --remote=8 l", "--sandbox_executor= l", "--sandbox_executor l", "--sandbox_executor=a --sandbox_executor=b l",
    "--local_delay=10000 l", "--local_delay=-1 l", "--local_delay= l", "--local_delay=1ms l", "--local_delay=1 --local_delay=1 l",
    "--max_workers=4 l", "--instances=49 l", "--retries=10 l", "--help l", "--version --help",
]

# Arguments that give a list of strategies for a mnemonic, and for all other mnemonics.
CHOICES: list[list[str]] = [
    [], ["--strategy=T=worker"], ["--strategy=T=worker,sandboxed"], ["--strategy=T=sandboxed,worker"], ["--strategy=T=remote"],
    ["--strategy=U=remote"], ["--spawn_strategy=dynamic"], ["--spawn_strategy=dynamic,remote"],
    ["--spawn_strategy=remote", "--strategy=T=worker,dynamic,sandboxed"], ["--spawn_strategy=sandboxed", "--strategy=U=worker"],
    ["--strategy=T=dynamic,worker", "--spawn_strategy=remote"],
]

# Actions: the strategy of each, if workers support it, and if an argument names a flag file.
ACTIONS = [
    ("worker", True, True), ("dynamic", True, True), ("remote", True, True), ("remote", True, False), ("remote", False, True),
    ("remote", False, False),
]

LOCAL = "ok local local=won remote=unused"
GREET: play.Step = ["give", wire.GREETING.hex()]
WORKER: play.Steps = [["hear", 1], ["leave", "o", "a worker's"], ["give", wire.framed(wire.response()).hex()]]


def made(text: bytes, number: int = 1) -> play.Step:
    """Returns a step: an executor's result with the output."""
    return ["give", wire.framed(wire.result(number, files=[(b"o", text)])).hex()]


def processes(folder: pathlib.Path, name: str) -> int:
    """Returns the number of a program's processes, including those killed before they recorded their start."""
    return len(list(folder.glob(f"{name}.[0-9]*")))


def as_spawn(programs: Programs) -> Programs:
    """Returns the programs with spawn_tool instead of worker_tool."""
    return dataclasses.replace(programs, worker_tool=programs.spawn_tool)


def accepted(words: str) -> Case:
    """Returns a case with a missing list. The program looks for the list only if it accepts the arguments."""
    def played(programs: Programs, folder: pathlib.Path) -> None:
        ended = run([programs.spawn_tool, *words.split()], folder)
        compare(words, (5, b"", f"{programs.spawn_tool.name}: not there: l"), (ended.status, ended.out, fault_line(ended.err)))
    return Case(f"accepted: {words}", played)


def refused(words: str) -> Case:
    def played(programs: Programs, folder: pathlib.Path) -> None:
        play.fill(folder, {"l": play.json_list()})
        ended = run([programs.spawn_tool, *words.split()], folder)
        line = f"{programs.spawn_tool.name}: words are not accepted"
        compare(words, (2, b"", line), (ended.status, ended.out, fault_line(ended.err)))
        compare(words, True, b"--strategy=MNEMONIC=NAME" in ended.err)
    return Case(f"refused: {words}", played)


def listed(words: Sequence[str], mnemonic: str) -> list[str] | None:
    """Returns the strategies that the arguments list for a mnemonic."""
    rules = [word.split("=", 2)[1:] for word in words if word.startswith("--strategy=")]
    common = [word.split("=", 1)[1] for word in words if word.startswith("--spawn_strategy=")]
    own = [names for rule, names in rules if rule == mnemonic]
    both = [*own, *common]
    return both[0].split(",") if both else None


def chosen(words: Sequence[str], own: str, workers: bool, flag: bool) -> str | None:
    """Returns an action's strategy: the first of its list that supports it, or its own if it has no list."""
    names = listed(words, "T")
    able = {"sandboxed", "remote"} | ({"worker", "dynamic"} if workers and flag else set())
    if names is None:
        return own
    return next((name for name in names if name in able), None)


def choice(words: Sequence[str], own: str, workers: bool, flag: bool) -> Case:
    """Returns a case with one action. It checks the started programs, the output and the report."""
    name = chosen(words, own, workers, flag)
    argv = ["t", "@f" if flag else "f"]
    one = action(argv=argv, strategy=own, requirements={"supports-workers": "1"} if workers else {})
    # An executor that races a worker reads its job and writes nothing more.
    executor = [GREET, ["hear", 1], *([] if name == "dynamic" else [made(b"an executor's")])]
    players: dict[str, Sequence[play.Steps]] = {"t": [WORKER], "x": [executor], "b": [[GREET, ["hear", 1], made(b"a sandbox's")]]}

    def played(programs: Programs, folder: pathlib.Path) -> None:
        ended = exchange(as_spawn(programs), folder, [one], ["--sandbox_executor=b", *words], None, **players)
        given = (words, own, workers, flag, name)
        if name is None:
            line = f"{programs.spawn_tool.name}: no strategy for action 0"
            compare(given, (8, b"", line), (ended.status, ended.out, fault_line(ended.err)))
            compare(given, [0, 0, 0], [processes(folder, it) for it in "txb"])
            return
        lines = {"worker": [LOCAL], "sandboxed": [LOCAL], "remote": ["ok remote local=unused remote=won"],
                 "dynamic": ["ok local local=won remote=lost", "ok local local=won remote=idle"]}[name]
        wanted = [report(f"a {line}", ok=1) for line in lines]
        compare(given, (0, b""), (ended.status, ended.err))
        compare(given, ended.out if ended.out in wanted else wanted, ended.out)
        text = {"worker": b"a worker's", "dynamic": b"a worker's", "sandboxed": b"a sandbox's", "remote": b"an executor's"}[name]
        compare(given, text, play.found(folder, "o"))
        started = [it for it in "txb" if processes(folder, it)]
        ways = {"worker": [["t"]], "sandboxed": [["b"]], "remote": [["x"]], "dynamic": [["t"], ["t", "x"]]}[name]
        compare(given, started if started in ways else ways, started)
        if name == "sandboxed":
            sandbox = heard(folder, "b")[0]
            job = [value for key, value in wire.fields(wire.messages(sandbox.given)[0]) if key == 2]
            compare(given, (["--serve"], [word.encode() for word in argv]), (sandbox.words, job))
    return Case(f"{own}, {'' if workers else 'no '}workers, {'' if flag else 'no '}flag file, by {words}: {name}", played)


def first_fault(name: str, actions: Sequence[Mapping[str, object]], words: Sequence[str], status: int, line: str) -> Case:
    """Returns a case with several faults, of which this one is reported."""
    def played(programs: Programs, folder: pathlib.Path) -> None:
        ended = exchange(as_spawn(programs), folder, actions, words)
        wanted = f"{programs.spawn_tool.name}: {line}"
        compare((name, words), (status, b"", wanted), (ended.status, ended.out, fault_line(ended.err)))
    return Case(name, played)


def faults() -> Iterator[Case]:
    unsupported = action("u", outputs=["u"], strategy="remote", requirements={})
    # The flag file is missing from the inputs. A worker runs `lacks` by its own strategy, and `lacks_later` only by choice.
    lacks = action("l", outputs=["l"], argv=["t", "@g"])
    lacks_later: dict[str, object] = {**lacks, "strategy": "remote"}
    by_worker = ["--strategy=T=worker"]
    keys = [action(f"k{n}", outputs=[f"k{n}"], env={"K": str(n)}, strategy="remote") for n in range(49)]
    gone = action("n", outputs=["n"], inputs=["f", "gone"])
    yield first_fault("an input that isn't there goes before no strategy", [unsupported, gone], by_worker, 5,
                      "not there: gone")
    yield first_fault("a list that is none goes before all", [{**unsupported, "outputs": ["u", "u"]}], by_worker, 4,
                      "list refused: TwiceMade action 0")
    yield first_fault("a flag file of an action that is a worker's by itself goes before no strategy", [unsupported, lacks],
                      by_worker, 4, "flag file refused: NoSuchFile g action 1")
    yield first_fault("and where another strategy is chosen for it", [lacks], ["--strategy=T=remote"], 4,
                      "flag file refused: NoSuchFile g action 0")
    yield first_fault("no strategy goes before a flag file that the choice alone asks for", [lacks_later, unsupported], by_worker, 8,
                      "no strategy for action 1")
    yield first_fault("such a flag file", [lacks_later], by_worker, 4, "flag file refused: NoSuchFile g action 0")
    yield first_fault("the first of two without a strategy", [action("a"), unsupported, {**unsupported, "name": "v", "outputs": ["v"]}],
                      by_worker, 8, "no strategy for action 1")
    yield first_fault("no strategy goes before too many keys", [*keys, unsupported], by_worker, 8,
                      "no strategy for action 49")
    yield first_fault("too many keys go before such a flag file", [lacks_later, *keys], by_worker, 4,
                      "list refused: TooMany")

    def many(count: int, words: list[str]) -> Case:
        def played(programs: Programs, folder: pathlib.Path) -> None:
            ended = exchange(as_spawn(programs), folder, keys[:count], ["--retries=0", "--executor=gone", *words])
            # The programs are missing, so each attempt ends at its launch.
            compare((count, words), (1, True), (ended.status, f"broken={count} ".encode() in ended.out))
        return Case(f"{count} keys by {words}", played)

    yield many(48, by_worker)
    yield many(49, ["--strategy=T=remote"])


def ended_as(name: str, words: Sequence[str], wanted: Sequence[str], started: Mapping[str, int], count: int = 1,
             **players: Sequence[play.Steps]) -> Case:
    """Returns a case with actions that may run anywhere. Each line must be in `wanted`; `started` counts processes."""
    actions = [action(f"a{n}", outputs=["o"] if count == 1 else []) for n in range(count)]

    def played(programs: Programs, folder: pathlib.Path) -> None:
        ended: Ended = exchange(as_spawn(programs), folder, actions, ["--sandbox_executor=b", *words], None, **players)
        *lines, total = ended.out.decode().splitlines()
        compare((name, words), count, len(lines))
        for line in lines:
            got = line.split(" ", 1)[1]
            compare((name, words, total), got if got in wanted else wanted, got)
        play.no_fault(ended)
        compare((name, words), dict(started), {it: processes(folder, it) for it in started})
    return Case(name, played)


def sandboxes() -> Iterator[Case]:
    by_sandbox = ["--strategy=T=sandboxed"]
    # A sandbox gets up to eight jobs at once. If all sandboxes have eight, another one is started, up to the limit. The
    # sandboxes wait for each other here, so all of them must be started.
    for most in (1, 2, 3):
        count = 8 * most
        answers = [wire.framed(wire.result(n + 1)) for n in range(count)]
        numbers = [f"n{n}" for n in range(most)]
        rest = [step for answer in answers[1:] for step in play.hear_and_give(answer)]
        plays: list[play.Steps] = [[GREET, ["hear", 1], ["raise", it], ["await", *numbers], ["give", answers[0].hex()], *rest] for it in numbers]
        yield ended_as(f"{most} sandboxes at once", [*by_sandbox, f"--sandboxed={most}"], [LOCAL], {"t": 0, "b": most}, count, b=plays)
    yield ended_as("a sandbox that can't be started", [*by_sandbox, "--retries=0"], ["broken local=dropped:launch:1 remote=unused"],
                   {"t": 0})
    wrong: play.Step = ["give", wire.framed(wire.result(1, 3)).hex()]
    yield ended_as("a sandbox's exit code", by_sandbox, ["failed local 3 local=won remote=unused"], {"t": 0, "b": 1},
                   b=[[GREET, ["hear", 1], wrong]])


def delays() -> Iterator[Case]:
    raced = ["--strategy=T=dynamic"]
    fast: play.Steps = [GREET, ["hear", 1], made(b"an executor's")]
    slow: play.Steps = [GREET, ["hear", 1]]
    yield ended_as("an executor that is faster than the delay: no worker is started", [*raced, "--local_delay=9999"],
                   ["ok remote local=idle remote=won"], {"t": 0, "x": 1}, t=[WORKER], x=[fast])
    yield ended_as("an executor that is slower than the delay", [*raced, "--local_delay=50"], ["ok local local=won remote=lost"],
                   {"t": 1}, t=[WORKER], x=[slow])
    yield ended_as("an executor that can't be started: its worker waits no longer",
                   [*raced, "--local_delay=9999", "--executor=gone", "--retries=2"], ["ok local local=won remote=dropped:launch:3"],
                   {"t": 1}, t=[WORKER])
    dies: play.Steps = [["end"]]
    yield ended_as("an executor that dies at each attempt", [*raced, "--local_delay=9999", "--retries=1"],
                   ["ok local local=won remote=dropped:died:2"], {"t": 1, "x": 2}, t=[WORKER],
                   x=[[GREET, ["hear", 1], *dies], [GREET, ["hear", 1], *dies]])
    yield ended_as("a delay where nothing is raced", ["--strategy=T=worker", "--local_delay=9999"], [LOCAL], {"t": 1}, t=[WORKER])
    yield ended_as("a delay, and sandboxes alone", ["--strategy=T=sandboxed", "--local_delay=9999"], [LOCAL], {"t": 0, "b": 1},
                   b=[[GREET, ["hear", 1], made(b"a sandbox's")]])


def slept(count: int) -> float:
    """Returns the seconds that `count` pauses of a millisecond take here."""
    begun = time.monotonic()
    for _ in range(count):
        time.sleep(0.001)
    return time.monotonic() - begun


def a_tick(programs: Programs, folder: pathlib.Path) -> None:
    """Checks that a tick is a millisecond.

    With a thousand ticks a worker starts after a second, or later if pauses take longer here.
    """
    ticks = 1000
    begun = time.monotonic()
    ended = exchange(as_spawn(programs), folder, [action()], ["--strategy=T=dynamic", f"--local_delay={ticks}"], t=[WORKER],
                     x=[[GREET, ["hear", 1]]])
    seconds = time.monotonic() - begun
    compare("its report", (0, report("a ok local local=won remote=lost", ok=1)), (ended.status, ended.out))
    most = 3 + 4 * slept(ticks)
    if not ticks / 1000 <= seconds <= most:
        raise Wrong(f"wanted {ticks / 1000:.1f} to {most:.1f} seconds\ngot    {seconds:.1f}")


def full_plan(programs: Programs, folder: pathlib.Path) -> None:
    """Checks that a delay is as short on the most berths, 64, as on fewer.

    Each of four actions waits for the one before it, and for its own delay. If the lane that counts ticks had to wait until it
    looks by itself, each action would take a second.
    """
    others = [action(f"k{n}", mnemonic=f"K{n}", argv=["gone", "@f"], outputs=[f"p{n}"]) for n in range(47)]
    chain = [action(f"c{n}", inputs=["f", f"o{n - 1}"][:1 + n], outputs=[f"o{n}"]) for n in range(4)]
    boxed = action("s", mnemonic="S", outputs=["s"])
    parts: list[play.Steps] = [[["hear", 1], ["leave", f"o{n}", "a worker's"], WORKER[-1]] for n in range(4)]
    works = [step for part in parts for step in part]
    words = ["--strategy=T=dynamic", "--strategy=S=sandboxed", "--sandbox_executor=b", "--remote=15", "--instances=1",
             "--retries=0", "--local_delay=10"]
    answer: play.Step = ["give", wire.framed(wire.result(1, files=[(b"s", b"a sandbox's")])).hex()]
    begun = time.monotonic()
    ended = exchange(as_spawn(programs), folder, [*others, *chain, boxed], words, t=[works], x=[[GREET, ["hear", 4]]] * 15,
                     b=[[GREET, ["hear", 1], answer]])
    seconds = time.monotonic() - begun
    lines = ended.out.decode().splitlines()
    compare("its actions", ["ok local"] * 4, [" ".join(it.split()[1:3]) for it in lines if it.startswith("c")])
    compare("its sum", "actions=52 ok=5 failed=0 broken=47 skipped=0", lines[-1])
    if seconds > 3 + 100 * slept(10):
        raise Wrong(f"wanted an end within 3 seconds\ngot    {seconds:.1f}")


def no_strategy(programs: Programs, folder: pathlib.Path) -> None:
    """Checks the exact message for an action that no strategy supports."""
    lacks = action("u", outputs=["u"], strategy="remote", requirements={})
    ended = exchange(as_spawn(programs), folder, [lacks], ["--strategy=T=worker"])
    wanted = f"""{programs.spawn_tool.name}: no strategy for action 0
  its list has worker or dynamic alone, which want supports-workers and a flag file among its words:
  give it these, or name sandboxed or remote too, as in --strategy=MNEMONIC=worker,sandboxed
"""
    compare("no strategy", (8, b"", wanted), (ended.status, ended.out, ended.err.decode()))


def cases() -> Iterator[Case]:
    for words in ACCEPTED:
        yield accepted(words)
    for words in REFUSED:
        yield refused(words)
    for options in CHOICES:
        for own, workers, flag in ACTIONS:
            yield choice(options, own, workers, flag)
    yield from faults()
    yield from sandboxes()
    yield from delays()
    yield Case("the length of a tick", a_tick)
    yield Case("a delay on the most berths", full_plan)
    yield Case("no strategy: what may be done", no_strategy)
