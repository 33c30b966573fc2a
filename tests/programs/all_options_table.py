"""run_tool: the rows of the tables of the other programs, each option with each other over one list, and what is refused first.

The report, and the content of each output, are computed here from the options, as docs/FORMATS.md and docs/GUIDE.md have it.
"""
from __future__ import annotations

import dataclasses
import functools
import itertools
import os
import pathlib
from collections.abc import Callable, Iterator, Mapping, Sequence

import play
import runs_table
import shared_table
import strategies_table
import terminal_table
import words_table
from play import Case, Programs, Wrong, action, compare, fault_line, fill, report, run

HERE = pathlib.Path(__file__).resolve().parent
OBLIGING = play.made_program(HERE / "obliging.py")

# ---- the other programs' rows

# Words of the other programs that are refused there, and that run_tool takes.
TAKEN_HERE = {
    "shared words: ['l']", "shared words: ['--max_workers=1', '--generate=4']", "refused: --generate=4",
    "refused: --sandboxed=16 l", "refused: --remote=16 l",
    "refused: --sandboxed=9 --remote=8 l", "refused: --max_workers=4 l", "refused: ['--help']", "refused: ['--version']",
}

# Rows that name a program each, run_tool among them, and one that takes long.
LEFT_OUT = ("refused together:", "not UTF-8:", "the largest list")


def by_run_tool(case: Case) -> Case:
    """Returns a case of another program, played by run_tool in its place."""
    def played(programs: Programs, folder: pathlib.Path) -> None:
        tool = programs.run_tool
        case.play(dataclasses.replace(programs, worker_tool=tool, shared_tool=tool, spawn_tool=tool), folder)
    return Case(f"run_tool: {case.name}", played)


def others() -> Iterator[Case]:
    for table in (words_table, runs_table, shared_table, strategies_table, terminal_table):
        for case in table.cases():
            if case.name not in TAKEN_HERE and not case.name.startswith(LEFT_OUT):
                yield by_run_tool(case)


# ---- the options of a run, and what a run with them comes to


@dataclasses.dataclass(frozen=True)
class Options:
    """What the arguments say, with the defaults for what they don't."""

    verbose: bool
    instances: int
    remote: int
    retries: int
    executor: str
    flags: tuple[str, ...]
    workers: int | None
    rules: tuple[tuple[str, str], ...]
    common: str | None
    sandboxed: int
    sandbox_executor: str
    delay: int


def options_of(words: Sequence[str]) -> Options:
    """Returns what accepted arguments say."""
    given = {word.partition("=")[0]: word.partition("=")[2] for word in words}
    rules = [word.split("=", 2)[1:] for word in words if word.startswith("--strategy=")]

    def number(name: str, default: int) -> int:
        return int(given[name]) if name in given else default

    return Options(
        verbose="--worker_verbose" in words, instances=number("--instances", 4), remote=number("--remote", 1), retries=number("--retries", 1),
        executor=given.get("--executor", "remote_exec"),
        flags=tuple(word.partition("=")[2] for word in words if word.startswith("--extra_flag=")),
        workers=number("--max_workers", 0) or None, rules=tuple((mnemonic, names) for mnemonic, names in rules),
        common=given.get("--spawn_strategy"), sandboxed=number("--sandboxed", 1),
        sandbox_executor=given.get("--sandbox_executor", "remote_exec"), delay=number("--local_delay", 0))


@dataclasses.dataclass(frozen=True)
class Made:
    """An action of the list: its name, its mnemonic, its own strategy, and what makes it special."""

    name: str
    mnemonic: str
    own: str
    has_worker: bool = True
    dies: bool = False
    reads: str | None = None

    def startup(self) -> str:
        """Returns the argument that starts its worker, by which the workers of each key can be counted."""
        return f"--key={self.mnemonic}"

    def listed(self) -> dict[str, object]:
        """Returns the action as it is in the list."""
        inputs = [f"f{self.name}", *([f"o{self.reads}"] if self.reads else [])]
        return action(self.name, mnemonic=self.mnemonic, argv=["t", self.startup(), f"@f{self.name}"], inputs=inputs,
                      outputs=[f"o{self.name}"], strategy=self.own, requirements=play.supports() if self.has_worker else {})

    def flag_file(self) -> bytes:
        """Returns the arguments of its requests."""
        return f"--out=o{self.name}\n{'--die' if self.dies else ''}\n".encode()


# Two actions of one key, one of another, a race, one for the executor that reads an output, one that no worker takes, one over
# which each worker dies, and one that reads its output.
LIST = (
    Made("w", "W", "worker"), Made("v", "W", "worker"), Made("k", "K", "worker"), Made("d", "D", "dynamic"),
    Made("r", "R", "remote", reads="w"), Made("n", "N", "remote", has_worker=False), Made("x", "X", "worker", dies=True),
    Made("s", "S", "worker", reads="x"),
)


def chosen(said: Options, it: Made) -> str:
    """Returns the strategy by which an action runs: the first of its list that supports it, and without a list its own."""
    names = next((names for mnemonic, names in said.rules if mnemonic == it.mnemonic), said.common)
    if names is None:
        return it.own
    return next(name for name in names.split(",") if it.has_worker or name in ("sandboxed", "remote"))


@dataclasses.dataclass(frozen=True)
class Wanted:
    """What a run comes to: the lines that the report may have for each action, and the content of each output."""

    lines: list[list[str]]
    contents: dict[str, bytes | None]

    def ok(self) -> int:
        return sum(lines[0].split()[1] == "ok" for lines in self.lines)

    def count(self, outcome: str) -> int:
        return sum(lines[0].split()[1] == outcome for lines in self.lines)


def line_of(said: Options, it: Made, name: str, successful: set[str]) -> list[str]:
    """Returns the lines that the report may have for an action, without its name."""
    local, remote = ("unused" if name == "remote" else "idle"), ("idle" if name in ("remote", "dynamic") else "unused")
    if it.reads and it.reads not in successful:
        return [f"skipped {it.reads} local={local} remote={remote}"]
    if name == "worker" and it.dies:
        return [f"broken local=dropped:died:{said.retries + 1} remote=unused"]
    if name == "dynamic" and said.delay:
        # The executor answers at once, and before the delay is over no worker is asked.
        return ["ok remote local=idle remote=won"]
    if name == "dynamic":
        return ["ok local local=won remote=lost", "ok local local=won remote=idle"]
    return ["ok remote local=unused remote=won" if name == "remote" else "ok local local=won remote=unused"]


def maker(said: Options, it: Made, name: str, line: str) -> bytes:
    """Returns what the process that makes an action's output puts into it."""
    if name == "sandboxed":
        return f"{said.sandbox_executor} --serve".encode()
    if line.startswith("ok remote"):
        return f"{said.executor} --serve".encode()
    return " ".join(["t", it.startup(), "--persistent_worker", *said.flags, "10" if said.verbose else "0"]).encode()


def wanted_of(said: Options) -> Wanted:
    successful: set[str] = set()
    wanted = Wanted([], {})
    for it in LIST:
        name = chosen(said, it)
        lines = line_of(said, it, name, successful)
        is_ok = lines[0].startswith("ok")
        wanted.lines.append([f"{it.name} {line}" for line in lines])
        wanted.contents[f"o{it.name}"] = maker(said, it, name, lines[0]) if is_ok else None
        successful |= {it.name} if is_ok else set()
    return wanted


def most_alive(folder: pathlib.Path, kind: str) -> int:
    """Returns the largest number of processes of a kind that were alive at once, as they counted at their starts."""
    return max((int(it.read_text(encoding="utf-8") or 0) for it in (folder / "alive").glob(f"{kind}.*")), default=0)


def kinds(folder: pathlib.Path) -> set[str]:
    return {it.name.rpartition(".")[0] for it in (folder / "alive").iterdir()}


def limits_of(said: Options) -> dict[str, int]:
    """Returns the most processes of each program that may be alive at once; of workers, if keys share them."""
    names = {chosen(said, it) for it in LIST}
    limits = {said.executor: said.remote if names & {"remote", "dynamic"} else 0}
    if "sandboxed" in names:
        limits[said.sandbox_executor] = limits.get(said.sandbox_executor, 0) + said.sandboxed
    return {**limits, **({"worker": said.workers} if said.workers else {})}


def play_list(programs: Programs, folder: pathlib.Path, words: Sequence[str]) -> None:
    """Runs the list, and compares the report, the outputs and the numbers of processes with what the options want."""
    said = options_of(words)
    raced = [f"o{it.name}" for it in LIST if chosen(said, it) == "dynamic" and not said.delay]
    fill(folder, {"l": play.json_list(*(it.listed() for it in LIST)), "unanswered": " ".join(raced).encode(),
                  **{f"f{it.name}": it.flag_file() for it in LIST}})
    for name in ("t", "x", "b", "remote_exec"):
        (folder / name).symlink_to(pathlib.Path(OBLIGING.name) / "obliging")
    ended = run([programs.run_tool, *words, "l"], folder)
    wanted = wanted_of(said)
    got = ended.out.decode().splitlines()
    known = [got[place] if place < len(got) and got[place] in may else may[0] for place, may in enumerate(wanted.lines)]
    told = report(*known, ok=wanted.ok(), broken=wanted.count("broken"), skipped=wanted.count("skipped"))
    compare(words, (0 if wanted.ok() == len(LIST) else 1, told), (ended.status, ended.out))
    play.no_fault(ended)
    compare(words, wanted.contents, {path: play.found(folder, path) for path in wanted.contents})
    for kind, most in limits_of(said).items():
        if most_alive(folder, kind) > most:
            raise Wrong(f"given  {words}\nwanted at most {most} of {kind} at once\ngot    {most_alive(folder, kind)}")
    for kind in kinds(folder):
        if kind.startswith("key") and most_alive(folder, kind) > said.instances:
            raise Wrong(f"given  {words}\nwanted at most {said.instances} workers of {kind} at once\ngot    {most_alive(folder, kind)}")


# One or two arguments of each option, all of which may stand together.
EACH = (
    "--worker_verbose", "--instances=1", "--remote=2", "--retries=0", "--executor=x", "--extra_flag=-y", "--max_workers=1",
    "--strategy=W=sandboxed", "--strategy=R=dynamic", "--spawn_strategy=worker,remote", "--sandboxed=3", "--sandbox_executor=b",
    "--local_delay=9999",
)


def pairs() -> Iterator[Case]:
    """Yields runs of the list with no option, with each, with each two, with all, and with all but one."""
    sets = [*(it for size in (0, 1, 2) for it in itertools.combinations(EACH, size)), EACH,
            *itertools.combinations(EACH, len(EACH) - 1)]
    for words in sets:
        yield Case(f"options: {' '.join(words)}", functools.partial(play_list, words=words))
    again = ["--extra_flag=-y", "--extra_flag=-a", "--strategy=W=remote,worker", "--strategy=K=dynamic,worker", "--strategy=X=sandboxed",
             "--max_workers=2", "--local_delay=9999"]
    yield Case(f"options: {' '.join(again)}", functools.partial(play_list, words=again))


# ---- generated lists


def generated(count: int, words: Sequence[str]) -> Case:
    """Returns a run of a generated list. It is in memory, so that it leaves nothing, and its workers do everything."""
    def played(programs: Programs, folder: pathlib.Path) -> None:
        ended = run([programs.run_tool, *words, f"--generate={count}"], folder)
        compare((count, words), (0, report(ok=count), b""), (ended.status, ended.out, ended.err))
        compare((count, words), [], os.listdir(folder))
    return Case(f"--generate={count} {' '.join(words)}", played)


def in_memory() -> Iterator[Case]:
    choices = ["--strategy=Gen=sandboxed", "--strategy=Gen=dynamic", "--strategy=Gen=remote", "--strategy=Gen=worker", "--max_workers=24"]
    for it in (*EACH, *choices):
        yield generated(23, [it])
    for pair in itertools.combinations(("--max_workers=1", "--local_delay=3", "--strategy=Gen=dynamic,worker", "--sandboxed=2"), 2):
        yield generated(40, pair)
    yield generated(200, ["--max_workers=2", "--local_delay=1", "--strategy=Gen=dynamic", "--retries=9", "--remote=3"])
    yield generated(200, ["--max_workers=3", "--local_delay=1", "--strategy=Gen=sandboxed,dynamic", "--sandboxed=5"])
    yield generated(1000, ["--max_workers=2", "--local_delay=0", "--spawn_strategy=dynamic"])


# ---- arguments

# The limits of each number.
LIMITS = {"--instances": (1, 48), "--remote": (1, 16), "--retries": (0, 9), "--generate": (1, 1000), "--max_workers": (1, 24),
          "--sandboxed": (1, 16), "--local_delay": (0, 9999)}

NOT_NUMBERS = ("", "4x", "+4", "-1", "00004", " 4", "0x4")

NAMES = ("worker", "sandboxed", "remote", "dynamic")


def takes_number(name: str, text: str) -> bool:
    least, most = LIMITS[name]
    return text.isascii() and text.isdigit() and len(text) <= 4 and least <= int(text) <= most


def takes_list(text: str) -> bool:
    names = text.split(",")
    return all(it in NAMES for it in names) and len(set(names)) == len(names)


def takes_word(word: str) -> bool:
    """Returns true if an argument is accepted, alone or with a list."""
    name, equals, text = word.partition("=")
    if not word.startswith("-"):
        return word != ""
    if name == "--worker_verbose":
        return not equals
    if name in LIMITS:
        return bool(equals) and takes_number(name, text)
    if name in ("--executor", "--extra_flag", "--sandbox_executor"):
        return text != ""
    if name == "--spawn_strategy":
        return takes_list(text)
    mnemonic, equals, names = text.partition("=")
    return name == "--strategy" and mnemonic != "" and bool(equals) and takes_list(names)


def takes(words: Sequence[str]) -> bool:
    """Returns true if the arguments are accepted together."""
    names = [word.partition("=")[0] if word.startswith("-") else "LIST" for word in words]
    once = [word.rpartition("=")[0] if name == "--strategy" else name for word, name in zip(words, names) if name != "--extra_flag"]
    source = [it for it in names if it in ("LIST", "--generate")]
    if not all(map(takes_word, words)) or len(set(once)) < len(once) or len(source) != 1:
        return False
    said = options_of(words)
    names_sandboxed = any("sandboxed" in names for names in (*(names for _, names in said.rules), said.common or ""))
    return said.remote + (said.sandboxed if names_sandboxed else 0) <= 16


def words_case(words: Sequence[str]) -> Case:
    """Returns a case that shows whether arguments are accepted. Then the list, which isn't there, is looked for."""
    accepted = takes(words)

    def played(programs: Programs, folder: pathlib.Path) -> None:
        ended = run([programs.run_tool, *words], folder)
        if not accepted:
            compare(words, (2, b"", "run_tool: words are not accepted"), (ended.status, ended.out, fault_line(ended.err)))
            compare(words, True, b"  usage: run_tool" in ended.err)
        elif "l" in words:
            compare(words, (5, b"", "run_tool: not there: l"), (ended.status, ended.out, fault_line(ended.err)))
        else:
            compare(words, (0, b""), (ended.status, ended.err))
    return Case(f"words: {' '.join(words) or 'none'}: {'accepted' if accepted else 'refused'}", played)


def bounds() -> Iterator[Sequence[str]]:
    """Yields arguments with each number at its limits and beyond them, and with what is no such number."""
    for name, (least, most) in LIMITS.items():
        source = [] if name == "--generate" else ["l"]
        for text in dict.fromkeys((str(least - 1), str(least), str(most), str(most + 1), f"{most:04}", *NOT_NUMBERS)):
            yield [f"{name}={text}", *source]
        yield [name, *source]
        yield [f"{name}={most}", f"{name}={most}", *source]


# No strategy, and some of which one, none and another name sandboxed.
CHOICES: tuple[tuple[str, ...], ...] = (
    (), ("--strategy=T=worker,sandboxed",), ("--strategy=T=remote",), ("--strategy=T=remote", "--spawn_strategy=sandboxed"))


def sums() -> Iterator[Sequence[str]]:
    """Yields arguments with executors and sandboxes that are too many together where a strategy names sandboxed, and others."""
    for remote, sandboxed in ((None, None), (15, 1), (15, 2), (16, 1), (16, 2), (16, 16), (8, 8), (9, 8), (1, 15), (None, 15), (None, 16)):
        both = [*([f"--remote={remote}"] if remote else []), *([f"--sandboxed={sandboxed}"] if sandboxed else [])]
        for choice in CHOICES:
            yield [*both, *choice, "l"]


# Arguments that are too few or too many, or of which two together are refused.
TOGETHER: tuple[tuple[str, ...], ...] = (
    (), ("l", "m"), ("l", "--generate=3"), ("l", ""), ("-",), ("--help", "l"), ("--version", "l"), ("--max_workers", "3", "l"),
    ("--strategy=A=worker", "--strategy=A=worker", "l"), ("--strategy=A=worker", "--strategy=B=worker", "l"),
    ("--strategy=A=worker,worker", "l"), ("--strategy=A=", "l"), ("--strategy==worker", "l"), ("--strategy=A=B=worker", "l"),
    ("--spawn_strategy=worker,", "l"), ("--spawn_strategy=worker", "--spawn_strategy=worker", "l"), tuple(EACH), (*EACH, "l"),
    (*EACH, "--generate=5"))


def words_cases() -> Iterator[Case]:
    for given in (*bounds(), *sums()):
        yield words_case(given)
    for words in TOGETHER:
        yield words_case(words)
    for words in (("l", "--journal=j"), ("--generate=2", "--journal=j"), ("l", "--journal="), ("l", "--journal")):
        yield Case(f"words: {' '.join(words)}: refused, and named", functools.partial(unknown, words=words))


def unknown(programs: Programs, folder: pathlib.Path, words: Sequence[str]) -> None:
    """Checks that an argument that no program takes is refused before anything is made, and named."""
    fill(folder, {"l": play.json_list()})
    ended = run([programs.run_tool, *words], folder)
    compare(words, (2, b"", "run_tool: words are not accepted"), (ended.status, ended.out, fault_line(ended.err)))
    odd = next(it for it in words if it.startswith("--journal"))
    compare(words, f'  this word isn\'t accepted: "{odd}"', ended.err.decode().splitlines()[1])
    compare(words, ["l"], os.listdir(folder))


# ---- what is refused first


def first(name: str, words: Sequence[str], status: int, line: str, files: Mapping[str, bytes], full: bool = False) -> Case:
    """Returns a case with several faults, of which this one is reported. With `full`, standard output takes nothing."""
    def played(programs: Programs, folder: pathlib.Path) -> None:
        fill(folder, files)
        out = os.open("/dev/full", os.O_WRONLY) if full else None
        try:
            ended = run([programs.run_tool, *words], folder, stdout=out)
        finally:
            if out is not None:
                os.close(out)
        compare((name, words), (status, b"", f"run_tool: {line}"), (ended.status, ended.out, fault_line(ended.err)))
    return Case(f"first: {name}", played)


# Berths of each key's own, and shared ones.
SEATINGS: tuple[tuple[str, ...], ...] = ((), ("--max_workers=2",))


def order() -> Iterator[Case]:
    """Yields lists with a fault of each step, from which one fault after another is taken, with and without shared berths."""
    keys = [action(f"k{n}", outputs=[f"k{n}"], argv=["gone", f"--key={n}", "@f"], strategy="remote") for n in range(49)]
    gone = action("g", outputs=["g"], inputs=["f", "gone"])
    tool = action("h", outputs=["h"], inputs=["f", "gone"], tools=["no_tool"])
    lacks = action("l", outputs=["l"], argv=["t", "@nowhere"])
    unsupported = action("u", outputs=["u"], strategy="remote", requirements={})
    later = action("m", outputs=["m"], argv=["t", "@nowhere"], strategy="remote")
    by_worker = ["--strategy=T=worker", "--local_delay=5", "--retries=0"]

    def of(*actions: Mapping[str, object]) -> dict[str, bytes]:
        return {"f": b"flag\n", "l": play.json_list(*actions)}

    for more in SEATINGS:
        words, how = [*by_worker, *more, "l"], " ".join(more) or "own berths"
        everything = [lacks, gone, unsupported, *keys, later]
        yield first(f"words, {how}", [*words, "--journal=j"], 2, "words are not accepted", of(*everything))
        yield first(f"the list isn't there, {how}", words, 5, "not there: l", {"f": b""})
        yield first(f"the list is none, {how}", words, 4, "list refused: NotJson", {"l": b"{"})
        yield first(f"an action of the list, {how}", words, 4, "list refused: TwiceMade action 53", of(*everything, {**gone, "name": "z"}))
        yield first(f"a tool goes before an input, {how}", words, 5, "not there: no_tool", of(tool, *everything))
        yield first(f"an input goes before an earlier action's flag file, {how}", words, 5, "not there: gone", of(*everything))
        yield first(f"a flag file of a worker's own, {how}", words, 4, "flag file refused: NoSuchFile nowhere action 0",
                    of(lacks, *everything[2:]))
        yield first(f"no strategy, {how}", words, 8, "no strategy for action 0", of(*everything[2:]))
        shared = "flag file refused: NoSuchFile nowhere action 49"
        yield first(f"too many chosen keys, or a flag file, {how}", words, 4, shared if more else "list refused: TooMany",
                    of(*everything[3:]))
        yield first(f"a flag file that the choice asks for, {how}", words, 4, "flag file refused: NoSuchFile nowhere action 1",
                    of(*keys[:1], later))
        yield first(f"the report, {how}", words, 6, "report not written", of(), True)
    yield Case("49 chosen keys on shared berths", functools.partial(many_keys, keys=keys, words=[*by_worker, "--max_workers=2"]))


def many_keys(programs: Programs, folder: pathlib.Path, keys: Sequence[Mapping[str, object]], words: Sequence[str]) -> None:
    """Checks that more than 48 chosen keys run on shared berths. The programs are missing, so each attempt ends at its launch."""
    fill(folder, {"f": b"flag\n", "l": play.json_list(*keys)})
    ended = run([programs.run_tool, *words, "l"], folder)
    lines = [f"k{n} broken local=dropped:launch:1 remote=unused" for n in range(len(keys))]
    compare(words, (1, report(*lines, broken=len(keys))), (ended.status, ended.out))


# ---- --help and --version


def alone(word: str, holds: Callable[[bytes], bool]) -> Case:
    """Returns a case with an argument that is accepted alone. Nothing is read or made."""
    def played(programs: Programs, folder: pathlib.Path) -> None:
        ended = run([programs.run_tool, word], folder)
        compare(word, (0, b"", True), (ended.status, ended.err, holds(ended.out)))
        compare(word, [], os.listdir(folder))
    return Case(f"alone: {word}", played)


def cases() -> Iterator[Case]:
    yield from others()
    yield from pairs()
    yield from in_memory()
    yield from words_cases()
    yield from order()
    options = [word.partition("=")[0].encode() for word in (*EACH, *LIMITS)]
    yield alone("--help", lambda out: all(it in out for it in options) and b"--journal" not in out)
    yield alone("--version", lambda out: out.startswith(b"run_tool "))
