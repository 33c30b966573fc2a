"""The rows of dev/measure: each group's preparation in its folder, and the commands that run there in turn."""
from __future__ import annotations

import dataclasses
import json
import os
import pathlib
import shutil
import subprocess
from collections.abc import Callable
from typing import Any

TOP = pathlib.Path(__file__).resolve().parent.parent
BIN = TOP / "bin"
SEVERAL = {"supports-multiplex-workers": "1"}
BOXED = {**SEVERAL, "supports-multiplex-sandboxing": "1"}
MIB = 1 << 20


@dataclasses.dataclass(frozen=True)
class Row:
    """A command and its number of units of work. Its figures are for one unit."""

    name: str
    command: tuple[str, ...]
    count: int
    unit: str = "action"
    outputs: int = 0  # the number of files that out/ must contain afterwards
    status: int = 0
    reads: str = ""  # the file on standard input
    needs: tuple[str, ...] = ()  # programs that must be installed in addition to the command's program


def program(name: str) -> str:
    return str(BIN / name)


def write(path: str, content: str | bytes) -> None:
    os.makedirs(os.path.dirname(path) or ".", exist_ok=True)
    with open(path, "wb") as file:
        file.write(content.encode() if isinstance(content, str) else content)


def flag_path(number: int, source: str) -> str:
    """Returns the path of the flag file of the action of this number that copies this file. Lists of one folder share it."""
    return f"flags/{source.replace('/', '.')}.{number}"


def copy_action(number: int, inputs: list[str], **more: Any) -> dict[str, Any]:
    """Returns an action that copies the first of its inputs to its output, with demo_tool as a worker."""
    flags = flag_path(number, inputs[0])
    write(flags, f"--out=out/{number}\n--in={inputs[0]}\n")
    words = ["--json"] if "json" in more.get("requirements", {}).values() else []
    return {
        "name": f"a{number}", "mnemonic": "Bench", "argv": [program("demo_tool"), *words, f"@{flags}"],
        "inputs": [flags, *inputs], "outputs": [f"out/{number}"], **more,
        "requirements": {"supports-workers": "1", **more.get("requirements", {})},
    }


def write_list(name: str, actions: list[dict[str, Any]]) -> None:
    write(f"{name}.json", json.dumps({"actions": actions}))


def copies(count: int, **more: Any) -> list[dict[str, Any]]:
    """Returns actions that each copy one file of ten bytes."""
    write("in/0", "x" * 10)
    return [copy_action(it, ["in/0"], **more) for it in range(count)]


def tool(name: str, words: str, count: int, outputs: int, by: str = "worker_tool") -> Row:
    """Returns a row of a program that runs a list."""
    return Row(name, (program(by), *words.split()), count, outputs=outputs)


def small_files() -> list[Row]:
    """Returns rows of 1,000 copies of ten bytes: by worker_tool in its modes, by its floor, and by tools with a process for each."""
    count = 1000
    write_list("plain", copies(count))
    write_list("several", copies(count, requirements=SEVERAL))
    write_list("lines", copies(count, requirements={"requires-worker-protocol": "json"}))
    write_list("race", copies(count, strategy="dynamic"))
    race = f"--instances=1 --remote=1 --executor={program('remote_exec')} race.json"
    rows = [tool(f"`worker_tool`, {name}", words, count, count) for name, words in (
        ("one worker", "--instances=1 plain.json"), ("four workers", "--instances=4 plain.json"),
        ("one worker, eight requests at once", "--instances=1 several.json"), ("one worker, JSON", "--instances=1 lines.json"),
        ("one worker raced by an executor", race))]
    return rows + floors(count) + processes(count)


def floors(count: int) -> list[Row]:
    """Returns rows of the same files and frames without scheduling, with the fewest system calls."""
    floor = os.path.abspath("floor")
    if shutil.which("rustc"):
        subprocess.run(["rustc", "-O", "--edition", "2021", "-o", floor, str(TOP / "dev/bench-floor.rs")], check=True)
    for it in range(count):
        write(f"flags/{it}", f"--out=out/{it}\n--in=in/0\n")  # the floor's own names for flag files
    shape = [floor, "fewest", program("demo_tool"), str(count), "1"]
    return [Row(f"floor of fewest calls, {name}", (*shape, *words), count, outputs=count, needs=("rustc",))
            for name, words in (("one worker", ("1", "one")), ("four workers", ("4", "one")),
                                ("one worker, eight requests at once", ("1", "several")))]


def processes(count: int) -> list[Row]:
    """Returns rows with a process for each copy: /bin/cp, and with make also demo_tool as an ordinary command."""
    made = " ".join(f"out/{it}" for it in range(count))
    write("cp.mk", f"all: {made}\nout/%: in/0\n\t/bin/cp in/0 $@\n")
    write("demo.mk", f"all: {made}\nout/%: in/0\n\t{program('demo_tool')} --in=in/0 --out=$@\n")
    write("build.ninja", "rule cp\n  command = /bin/cp $in $out\n" + "".join(f"build out/{it}: cp in/0\n" for it in range(count)))
    last = count - 1
    shell = {
        "`sh`, a loop": (f"i=0; while [ $i -le {last} ]; do /bin/cp in/0 out/$i; i=$((i + 1)); done", "sh"),
        "`xargs -P4`": (f"seq 0 {last} | xargs -P4 -I@ /bin/cp in/0 out/@", "xargs"),
        "GNU parallel `-j4`": (f"seq 0 {last} | parallel -j4 -I@ /bin/cp in/0 out/@", "parallel"),
    }
    rows = [Row(f"{name}, `/bin/cp`", ("/bin/sh", "-c", text), count, outputs=count, needs=(needed,)) for name, (text, needed) in shell.items()]
    rows += [Row(f"`make -j4`, {what}", ("make", "-s", "-j4", "-f", file, "all"), count, outputs=count)
             for what, file in (("`/bin/cp`", "cp.mk"), ("`demo_tool` as a command", "demo.mk"))]
    return [*rows, Row("`ninja -j4`, `/bin/cp`", ("ninja", "-j4"), count, outputs=count)]


def sizes() -> list[Row]:
    """Returns rows of lists of 64 to 4,096 such copies by one worker."""
    rows = []
    for count in (64, 256, 1024, 4096):
        write_list(f"of{count}", copies(count))
        rows.append(tool(f"one worker, {count:,} actions", f"--instances=1 of{count}.json", count, count))
    return rows


def large_inputs() -> list[Row]:
    """Returns rows of actions with many, large, made or scattered inputs."""
    write("in/0", "x" * 10)
    names = [f"many/{it}" for it in range(200)]
    for it in names:
        write(it, b"x" * 65536)
    write_list("many", [copy_action(it, ["in/0", *names]) for it in range(40)])
    large = [f"large/{it}" for it in range(10)]
    for it in large:
        write(it, b"x" * 10 * MIB)
    write_list("large", [copy_action(it, ["in/0", *large]) for it in range(5)])
    rows = [tool("200 inputs of 64 KiB each", "--instances=1 many.json", 40, 40),
            tool("10 inputs of 10 MiB each", "--instances=1 large.json", 5, 5)]
    return rows + made_inputs() + scattered_inputs()


def kept_inputs() -> list[Row]:
    """Returns rows of actions that share their large inputs. On a disk these are written twice for each process, in memory for each action."""
    write("in/0", "x" * 10)
    rows = []
    for size, count, actions in ((MIB, 30, 40), (10 * MIB, 10, 20), (65536, 200, 40)):
        names = [f"kept{size}/{it}" for it in range(count)]
        for number, name in enumerate(names):
            write(name, bytes([number]) * size)
        write_list(f"kept{size}", [copy_action(it, ["in/0", *names]) for it in range(actions)])
        rows.append(tool(f"{count} inputs of {size // 1024:,} KiB, shared by {actions} actions", f"--instances=1 kept{size}.json", actions, actions))
    return rows


def made_inputs() -> list[Row]:
    """Returns rows of 40 readers of 4 MiB, as a source and as an output of an earlier action."""
    write("big", b"x" * 4 * MIB)
    write_list("source", [copy_action(it, ["in/0", "big"]) for it in range(40)])
    maker = copy_action(40, ["big"])
    write_list("made", [maker, *(copy_action(it, ["in/0", "out/40"]) for it in range(40))])
    return [tool("a source of 4 MiB, 40 readers", "--instances=1 source.json", 40, 40),
            tool("an output of 4 MiB, 40 readers", "--instances=1 made.json", 40, 41)]


def scattered_inputs() -> list[Row]:
    """Returns rows of 2,000 small inputs in few and in many folders."""
    rows = []
    for folders in (1, 100, 900):
        names = [f"f{folders}/{it % folders}/{it}" for it in range(2000)]
        for name in names:
            write(name, "x")
        write_list(f"folders{folders}", [copy_action(it, ["in/0", *names]) for it in range(4)])
        rows.append(tool(f"2,000 inputs in {folders} folders", f"--instances=1 folders{folders}.json", 4, 4))
    return rows


def memory() -> list[Row]:
    """Returns rows about a run's memory: sources, outputs, keys, large lists."""
    rows = []
    for count in (10, 20):
        write("sixteen", b"x" * 16 * MIB)
        write_list(f"outputs{count}", [copy_action(it, ["sixteen"]) for it in range(count)])
        rows.append(tool(f"{count} outputs of 16 MiB", f"--instances=1 outputs{count}.json", count, count))
    write("in/0", "x" * 10)
    for it in range(20):
        write(f"large/{it}", b"x" * 25_000_000)
    write_list("sources", [copy_action(it, ["in/0", f"large/{it}"]) for it in range(20)])
    rows.append(tool("20 sources of 25 MB", "--instances=1 sources.json", 20, 20))
    for count in (1024, 4096):
        write_list(f"keys{count}", [copy_action(it, ["in/0"], mnemonic=f"Key{it}") for it in range(count)])
        rows.append(tool(f"`shared_tool`, {count:,} keys by four workers", f"--max_workers=4 keys{count}.json", count, count, "shared_tool"))
    return rows


def lists() -> list[Row]:
    """Returns rows of lists with 30 inputs per action. Each list is read up to the first source, which is missing."""
    rows = []
    for count in (512, 1024, 2048, 4096):
        made = subprocess.run([TOP / "dev/make-action-list", str(count)], capture_output=True, check=True).stdout
        write(f"of{count}.json", made)
        rows.append(Row(f"a list of {count:,} actions is read ({len(made) / 1e6:.1f} MB)",
                        (program("worker_tool"), f"of{count}.json"), count, status=5))
    return rows


def journals() -> list[Row]:
    """Returns rows of the same list without and with a journal, and of a check of that journal."""
    write_list("plain", copies(1000))
    rows = [tool(f"`{by}`, four workers, {what} journal", "--instances=4 plain.json", 1000, 1000, by)
            for by, what in (("worker_tool", "no"), ("journal_run", "with its"))]
    if not os.path.exists(program("journal_run")):
        return rows
    write_list("dies", [{**copy_action(it, ["in/0"]), "argv": ["/bin/true", f"@{flag_path(it, 'in/0')}"]} for it in range(1000)])
    with open("dies.txt", "wb") as file:
        subprocess.run([program("journal_run"), "--retries=3", "dies.json"], stdout=file, stderr=subprocess.DEVNULL, check=False)
    slim = subprocess.run([TOP / "tools/journal-slim", "--contents", "dies.txt"], capture_output=True, check=True).stdout
    write("dies.jsonl", slim)
    entries = slim.count(b"\n") - 1
    return [*rows, Row(f"`journal_check`, {entries:,} entries", (program("journal_check"),), entries, unit="entry", reads="dies.jsonl")]


def in_memory() -> list[Row]:
    """Returns rows of a generated list without files or processes: the scheduler, its lanes and their desk."""
    return [tool(f"`--generate=1000`, workers of a key at most: {it}", f"--generate=1000 --instances={it}", 1000, 0) for it in (1, 4, 48)]


def jobs() -> list[Row]:
    """Returns rows of eight jobs of one second by one executor. The time by the clock shows their order."""
    write_list("jobs", [{
        "name": f"j{it}", "mnemonic": "Sleep", "argv": ["/bin/sh", "-c", "sleep 1; echo >$0", f"out/{it}"],
        "inputs": [], "outputs": [f"out/{it}"], "requirements": {}, "strategy": "remote"} for it in range(8)])
    return [tool(f"eight jobs of a second, `{by}`", f"--remote=1 --executor={program(by)} jobs.json", 8, 8) for by in ("job_pool", "remote_exec")]


def waiting() -> list[Row]:
    """Returns rows of 32 workers that never answer and end after five seconds: the cost of 64 waiting lanes."""
    actions = [{**copy_action(it, ["in/0"]), "argv": ["/bin/sh", "-c", "exec /bin/sleep 5", f"@{flag_path(it, 'in/0')}"], "env": {"NUMBER": str(it)}}
               for it in range(32)]
    write("in/0", "x")
    write_list("waits", actions)
    return [Row("32 workers that wait for five seconds", (program("worker_tool"), "--retries=0", "waits.json"), 1, unit="run", status=1)]


def several_rooms() -> list[Row]:
    """Returns rows of requests that each have a folder, for one worker that takes eight at once."""
    write_list("boxed", copies(1000, requirements=BOXED))
    return [tool("one worker, eight requests at once, a folder each", "--instances=1 boxed.json", 1000, 1000)]


def front() -> list[Row]:
    """Returns rows of 4,000 actions by worker_tool, by the front without and with watchers, and by the front if all are up to date."""
    lenthuvi, count = str(TOP / "tools" / "lenthuvi"), 4000
    write_list("plain", copies(count))
    os.mkdir("idle")
    os.chdir("idle")
    write_list("list", copies(count))
    subprocess.run([lenthuvi, "build", "-q", "--plain"], stdout=subprocess.DEVNULL, stderr=subprocess.DEVNULL, check=False)
    os.chdir("..")
    return [
        tool("the list by `worker_tool` itself", "--instances=4 plain.json", count, count),
        Row("`lenthuvi run --plain`, four workers", (lenthuvi, "run", "-q", "-j4", "--plain", "plain.json"), count, outputs=count),
        Row("`lenthuvi run`, four workers, watched", (lenthuvi, "run", "-q", "-j4", "plain.json"), count, outputs=count),
        Row("`lenthuvi build`, 4,000 actions, nothing to do", ("/bin/sh", "-c", f"cd idle && exec {lenthuvi} build -q"), 1, unit="run"),
    ]


# Each group, in the order of the page. A group's rows run in turn in one folder.
GROUPS: dict[str, Callable[[], list[Row]]] = {
    "copies": small_files, "sizes": sizes, "boxed": several_rooms, "inputs": large_inputs, "kept": kept_inputs, "memory": memory, "lists": lists,
    "journals": journals, "generated": in_memory, "jobs": jobs, "waiting": waiting, "front": front,
}

# Scripts that measure something else. Each runs only if it is named, since it proves or builds first, or takes many minutes.
SCRIPTS: dict[str, tuple[str, tuple[str, ...]]] = {
    "desk": ("dev/bench-desk 4", ("rt",)),
    "core": ("dev/bench-core times", ("rt",)),
    "java": ("examples/warm_javac/run", ("javac", "make", "ninja")),
    "python": ("examples/warm_python/measure bin/worker_tool 60", ("python3",)),
    "bazel-build": ("examples/bazel/run && examples/bazel/measure 3", ("bazel",)),
    "abseil": ("examples/bazel_abseil/run", ("bazel",)),
    "ssh": ("examples/ssh/run --times", ("sshd",)),
    "slurm": ("examples/slurm/run --times", ("srun",)),
    "dask": ("examples/dask/run --times", ("dask-scheduler",)),
}
