"""The folder of one run that dev/edge-hazards plays: its workers, its sources, and the end of the run."""
from __future__ import annotations

import contextlib
import json
import os
import pathlib
import signal
import subprocess
import time
from collections.abc import Callable, Iterable, Iterator
from typing import Any

# A function that a run's process calls before it begins, for example to limit itself.
Limit = Callable[[], None] | None
Action = dict[str, Any]

HERE = pathlib.Path(__file__).resolve().parent
TOOLS = HERE.parent / "tools"
LIMIT = 300
NOBODY = 65534

# Answers requests in JSON, each after BODY. `name` is the name of the request's only file in the folder `f`.
WORKER = """#!/bin/sh
while read -r request; do
    for path in f/*; do name=${path#f/}; done
    BODY
    echo '{}'
done
"""
MAKE = 'echo done >"o/$name"'


class Wrong(Exception):
    """A fault that a case found."""


class Skipped(Exception):
    """The reason why a case can't be played here."""


def want(holds: bool, what: str) -> None:
    if not holds:
        raise Wrong(what)


def wait_until(holds: Callable[[], bool], what: str, seconds: float = 20) -> None:
    """Waits until this holds. It is checked every few milliseconds."""
    end = time.monotonic() + seconds
    while not holds():
        want(time.monotonic() < end, f"{what} didn't come within {seconds} seconds")
        time.sleep(0.005)


def all_ok(count: int) -> str:
    return f"actions={count} ok={count} failed=0 broken=0 skipped=0"


class End:
    """The end of a run: its status, its report and its standard error."""

    def __init__(self, status: int, report: str, errors: str) -> None:
        self.status, self.report, self.errors = status, report, errors

    def want(self, status: int, line: str) -> None:
        said = f"status {self.status}\n{self.report}{self.errors}"
        want(self.status == status, f"the status isn't {status}: {said}")
        want(line in (self.report + self.errors).splitlines(), f"there is no line {line!r}: {said}")


class Folder:
    """The folder of one run: its workers, its sources, and its runs."""

    def __init__(self, path: str, programs: pathlib.Path, tool: str) -> None:
        self.path, self.programs, self.tool = pathlib.Path(path), programs, tool

    def write(self, name: str, text: str, mode: int = 0o755) -> None:
        path = self.path / name
        path.parent.mkdir(parents=True, exist_ok=True)
        path.write_text(text)
        path.chmod(mode)

    def read(self, name: str) -> str | None:
        """Returns the text of a file, or `None` if there is none."""
        try:
            return (self.path / name).read_text()
        except FileNotFoundError:
            return None

    def has(self, name: str) -> bool:
        return (self.path / name).exists()

    def worker(self, name: str, body: str, head: str = WORKER) -> None:
        self.write(name, head.replace("BODY", body))

    def program(self, name: str) -> str:
        """Returns the path of a program next to the tool. If the program is missing, the case is skipped."""
        path = self.programs / name
        if not path.exists():
            raise Skipped(f"there is no {path}")
        return str(path)

    def action(self, name: str, worker: str = "worker", strategy: str = "worker", words: str = "") -> Action:
        """Returns an action with the source `f/NAME`, which is its flag file, and the output `o/NAME`."""
        self.write(f"f/{name}", words, 0o644)
        needs = {"supports-workers": "1", "requires-worker-protocol": "json"}
        return {"name": name, "mnemonic": "Make", "argv": [worker, f"@f/{name}"], "inputs": [f"f/{name}"],
                "outputs": [f"o/{name}"], "strategy": strategy, "requirements": needs}

    def start(self, actions: list[Action], *options: str, name: str = "list.json", limit: Limit = None) -> subprocess.Popen[bytes]:
        """Starts a run of these actions. Its output goes into files, which a process that it leaves may hold open."""
        self.write(name, json.dumps({"actions": actions}), 0o644)
        with open(self.path / f"{name}.out", "w") as out, open(self.path / f"{name}.err", "w") as errors:
            return subprocess.Popen([self.tool, *options, name], cwd=self.path, stdin=subprocess.DEVNULL, stdout=out,
                                    stderr=errors, start_new_session=True, preexec_fn=limit)

    def end(self, run: subprocess.Popen[bytes], name: str = "list.json", is_left: bool = False) -> End:
        """Returns the end of a run. Kills the run if it takes too long, and the processes that it left unless `is_left`."""
        try:
            status = run.wait(timeout=LIMIT)
        except subprocess.TimeoutExpired:
            is_left = False
            raise Wrong(f"the run didn't end within {LIMIT} seconds") from None
        finally:
            if not is_left:
                end_session(run.pid)
            run.wait()
        return End(status, *((self.path / f"{name}.{what}").read_text() for what in ("out", "err")))

    def run(self, actions: list[Action], *options: str, limit: Limit = None) -> End:
        return self.end(self.start(actions, *options, limit=limit))

    def made(self, names: Iterable[str]) -> int:
        """Returns the number of these outputs that exist and are whole."""
        return sum(self.read(f"o/{name}") == "done\n" for name in names)


def end_session(leader: int) -> None:
    """Kills all processes of a run's group."""
    with contextlib.suppress(ProcessLookupError, PermissionError):
        os.killpg(leader, signal.SIGKILL)


def processes_in(folder: pathlib.Path) -> list[int]:
    """Returns the processes that work in a folder or below it, even if the folder was removed."""
    found = []
    for process in process_numbers():
        with contextlib.suppress(OSError):
            if os.readlink(f"/proc/{process}/cwd").startswith(str(folder)):
                found.append(process)
    return found


def is_at_work(process: int) -> bool:
    """Returns true if a process exists and hasn't ended. A process that has ended may not have been waited for yet."""
    try:
        with open(f"/proc/{process}/stat", encoding="utf-8", errors="replace") as file:
            return file.read().rsplit(")", 1)[1].split()[0] != "Z"
    except OSError:
        return False


def process_numbers() -> Iterator[int]:
    for name in os.listdir("/proc"):
        if name.isdigit():
            yield int(name)


@contextlib.contextmanager
def none_left_in(folder: pathlib.Path) -> Iterator[None]:
    """Kills, after a case, all processes that still work in its folder."""
    try:
        yield
    finally:
        for process in processes_in(folder):
            with contextlib.suppress(ProcessLookupError, PermissionError):
                os.kill(process, signal.SIGKILL)


def as_nobody(folder: Folder) -> Limit:
    """Returns a limit that makes root another user, who owns the folder, since root may change any folder."""
    if os.getuid() != 0:
        return None
    for path in [folder.path, *folder.path.rglob("*")]:
        os.chown(path, NOBODY, NOBODY, follow_symlinks=False)

    def become() -> None:
        os.setgid(NOBODY)
        os.setuid(NOBODY)
    return become
