"""The same copies by Bazel with the same worker: a workspace, the server that builds it, and their cost."""
from __future__ import annotations

import dataclasses
import os
import pathlib
import resource
import shlex
import shutil
import subprocess
import sys
import time
from collections.abc import Iterator
from typing import NamedTuple

TOP = pathlib.Path(__file__).resolve().parent.parent
MOCKS = pathlib.Path("/usr/src/bazel-bootstrap/mock_repos")
SECONDS = 900  # within which each command has to end
TICKS = os.sysconf("SC_CLK_TCK")

RULE = '''"""An action that a persistent worker does."""

def _copy(ctx):
    out = ctx.actions.declare_file(ctx.label.name + ".out")
    words = ctx.actions.args()
    words.use_param_file("@%s", use_always = True)
    words.set_param_file_format("multiline")
    words.add(out.path, format = "--out=%s")
    words.add(ctx.file.src.path, format = "--in=%s")
    ctx.actions.run(
        mnemonic = "Bench",
        executable = ctx.executable.worker,
        arguments = [words],
        inputs = [ctx.file.src],
        outputs = [out],
        env = {"ROUND": ctx.attr.round},
        execution_requirements = {"supports-workers": "1", "supports-multiplex-workers": ctx.attr.several},
    )
    return [DefaultInfo(files = depset([out]))]

def _text(ctx):
    out = ctx.actions.declare_file(ctx.label.name + ".txt")
    ctx.actions.write(out, ctx.attr.text)
    return [DefaultInfo(files = depset([out]))]

# What is copied is made by Bazel itself: a source is a link in its tree, which costs a look more.
text = rule(implementation = _text, attrs = {"text": attr.string()})

copy = rule(
    implementation = _copy,
    attrs = {
        "src": attr.label(allow_single_file = True),
        "worker": attr.label(executable = True, cfg = "exec", allow_single_file = True),
        "several": attr.string(),
        "round": attr.string(),
    },
)
'''

BUILD = '''load(":copy.bzl", "copy", "text")

text(name = "in", text = "xxxxxxxxxx")

[copy(name = "{set}%d" % it, src = "in", worker = "bin/demo_tool", several = "{several}", round = "") for it in range({actions})]

filegroup(name = "{set}", srcs = [":{set}%d" % it for it in range({actions})])

filegroup(name = "{set}_first", srcs = [":{set}0"])
'''


@dataclasses.dataclass(frozen=True)
class Row:
    """A way to run the actions: the number of workers, and true if a worker gets several requests at once."""

    name: str
    workers: int
    several: bool


ROWS = (
    Row("one worker", 1, False),
    Row("four workers", 4, False),
    Row("one worker, eight requests at once", 1, True),
)


def run(command: list[str], folder: pathlib.Path) -> float:
    """Runs a command, and returns the seconds that it took. If it fails, this process ends."""
    begun = time.monotonic()
    done = subprocess.run(command, cwd=folder, stdout=subprocess.PIPE, stderr=subprocess.STDOUT, text=True, timeout=SECONDS)
    if done.returncode != 0:
        sys.exit(f"measure: {shlex.join(command)}: status {done.returncode}\n{done.stdout[-3000:]}")
    return time.monotonic() - begun


class Taken(NamedTuple):
    """Seconds by the clock and of processor, and the MB of the largest process."""

    seconds: float
    processor: float
    memory: float


def fields_of(process: int) -> list[str]:
    """Returns the fields of a process's stat after its name, from its state on, or none if it has ended."""
    try:
        with open(f"/proc/{process}/stat", encoding="utf-8", errors="replace") as file:
            return file.read().rsplit(")", 1)[1].split()
    except OSError:
        return []


def tree_of(root: int) -> list[int]:
    """Returns a process and all processes below it."""
    parents = {int(it): int(fields[1]) for it in os.listdir("/proc") if it.isdigit() and (fields := fields_of(int(it)))}
    found = [root]
    for it in found:
        found += [child for child, parent in parents.items() if parent == it]
    return found


def spent(root: int) -> float:
    """Returns the processor seconds of a process and all below it, including their children that were waited for."""
    return sum(sum(map(int, fields[11:15])) / TICKS for it in tree_of(root) if (fields := fields_of(it)))


def spent_by_clients() -> float:
    """Returns the processor seconds of the commands that this process has waited for."""
    usage = resource.getrusage(resource.RUSAGE_CHILDREN)
    return usage.ru_utime + usage.ru_stime


def most_memory(root: int) -> float:
    """Returns the most MB that a process, or one below it, has had in memory."""
    most = 0.0
    for it in tree_of(root):
        try:
            with open(f"/proc/{it}/status", encoding="utf-8", errors="replace") as file:
                most = max([most, *(int(line.split()[1]) / 1024 for line in file if line.startswith("VmHWM"))])
        except OSError:
            continue
    return most


class Bazel:
    """A workspace with a set of actions for each row, and the server that builds it."""

    def __init__(self, folder: pathlib.Path, actions: int) -> None:
        self.folder = folder / "workspace"
        self.root = folder / "root"
        self.actions = actions
        (self.folder / "bin").mkdir(parents=True)
        (self.folder / "WORKSPACE").touch()
        (self.folder / "copy.bzl").write_text(RULE)
        shutil.copy(TOP / "bin/demo_tool", self.folder / "bin/demo_tool")

    def call(self, *words: str) -> float:
        """Runs a command of Bazel, and returns the seconds that it took."""
        overrides = [f"--override_repository={it}={MOCKS / it}" for it in ("rules_cc", "rules_java", "rules_proto")]
        start = ["bazel", f"--output_user_root={self.root}", "--nohome_rc", "--max_idle_secs=300"]
        return run([*start, words[0], *(overrides if words[0] == "build" else []), *words[1:]], self.folder)

    def server(self) -> int:
        """Returns the process of the server."""
        words = ["bazel", f"--output_user_root={self.root}", "--nohome_rc", "info", "server_pid"]
        return int(subprocess.run(words, cwd=self.folder, capture_output=True, text=True, timeout=SECONDS, check=True).stdout)

    def measure(self, row: Row, round_: int) -> Taken:
        """Returns the cost of the row's actions, with new outputs, for the client, the server and its workers."""
        name = f"set{round_}_{ROWS.index(row)}_"
        text = BUILD.format(set=name, several="1" if row.several else "", actions=self.actions)
        (self.folder / "BUILD").write_text(text)
        # If a worker takes several requests at once, an instance is a proxy for one request, so eight mean eight at once.
        instances = 8 if row.several else row.workers
        words = ["--strategy=Bench=worker", f"--worker_max_instances=Bench={instances}", "--noshow_progress"]
        words += ["--experimental_worker_multiplex" if row.several else "--noexperimental_worker_multiplex"]
        self.call("build", *words, f"//:{name}_first")
        self.call("build", *words, "--nobuild", f"//:{name}")
        server = self.server()
        before = spent(server) + spent_by_clients()
        seconds = self.call("build", *words, f"//:{name}")
        return Taken(seconds, spent(server) + spent_by_clients() - before, most_memory(server))

    def close(self) -> None:
        """Ends the server and its workers."""
        self.call("shutdown")


def measure_bazel(bazel: Bazel, rounds: int) -> Iterator[tuple[str, list[Taken]]]:
    """Yields each row with its cost in each round. The first round doesn't count: Bazel's server compiles itself in it."""
    found = [[bazel.measure(row, round_) for row in ROWS] for round_ in range(rounds + 1)][1:]
    for at, row in enumerate(ROWS):
        yield row.name, [it[at] for it in found]
