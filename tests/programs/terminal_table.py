"""The display of worker_tool and run_tool on a terminal: a line with the run's progress and a row for each action that fails. The line is gone when
the report is written."""
from __future__ import annotations

import os
import pathlib
import pty
import re
import selectors
import subprocess
import time
from collections.abc import Callable, Iterator

import wire
from play import MOST_SECONDS, Case, Programs, Steps, Wrong, action, compare, fill, found, json_list, put_player, report, shown

LOCAL = "ok local local=won remote=unused"
OK = wire.framed(wire.response())
BAD = wire.framed(wire.response(0, 7, b"no"))

# The control sequences for moves and colours, which are removed here.
ESCAPES = re.compile(r"\x1b\[[?0-9;]*[A-Za-z]|\r")


class Terminal:
    """A run of worker_tool with its standard error on a terminal."""

    def __init__(self, program: pathlib.Path, words: list[str], folder: pathlib.Path, kind: str) -> None:
        self.end, inner = pty.openpty()
        self.folder, self.said = folder, b""
        self.run = subprocess.Popen([program, *words], cwd=folder, stdin=subprocess.DEVNULL, stdout=subprocess.PIPE, stderr=inner,
                                    env={**os.environ, "TERM": kind}, start_new_session=True)
        os.close(inner)
        self.until = time.monotonic() + MOST_SECONDS

    def read(self) -> bool:
        """Reads output for up to 0.1 seconds. Returns false at the end."""
        with selectors.DefaultSelector() as ready:
            ready.register(self.end, selectors.EVENT_READ)
            if not ready.select(0.1):
                return True
        try:
            piece = os.read(self.end, 1 << 16)
        except OSError:  # A terminal ends like this if its other end is closed.
            return False
        self.said += piece
        return bool(piece)

    def wait_for(self, what: str) -> None:
        """Waits until this text is on the terminal."""
        while what not in self.text():
            if time.monotonic() > self.until or not self.read():
                raise Wrong(f"wanted {what!r} on the terminal\ngot    {shown(self.said)}")

    def text(self) -> str:
        return ESCAPES.sub("", self.said.decode(errors="replace"))

    def finish(self) -> tuple[int, bytes]:
        """Reads all output, and returns the status and the report."""
        while self.read():
            if time.monotonic() > self.until:
                self.run.kill()
                raise Wrong(f"wanted an end\ngot    {shown(self.said)}")
        out, _ = self.run.communicate(timeout=MOST_SECONDS)
        os.close(self.end)
        return self.run.returncode, out


def shows(programs: Programs, folder: pathlib.Path) -> None:
    """Plays four actions, so that each number of the line is another one. The second fails, and the third runs until the line that
    shows it was read."""
    actions = [action("zeroth", outputs=["p"]), action("first", outputs=[]), action("second", outputs=["q"]),
               action("third", outputs=["r"], inputs=["f", "q"])]
    fill(folder, {"f": b"flag\n", "list": json_list(*actions)})
    answered: Steps = [["give", OK.hex()], ["hear", 1]]
    put_player(folder, "t", [[["hear", 1], ["leave", "p", "made"], *answered, ["give", BAD.hex()], ["hear", 1], ["raise", "asked"],
                              ["await", "seen"], ["leave", "q", "made"], *answered, ["leave", "r", "made"], ["give", OK.hex()]]])
    terminal = Terminal(programs.worker_tool, ["--instances=1", "list"], folder, "xterm")
    terminal.wait_for("first failed")
    terminal.wait_for("[2/4] 1 running, 1 failed, ")
    terminal.wait_for(" s: second")
    (folder / "raised.seen").touch()
    status, out = terminal.finish()
    lines = [f"zeroth {LOCAL}", "first failed local 7 local=won remote=unused", "  | no", f"second {LOCAL}", f"third {LOCAL}"]
    compare("the report", (1, report(*lines, ok=3, failed=1)), (status, out))
    compare("the outputs", (b"made", b"made"), (found(folder, "q"), found(folder, "r")))
    compare("the last of it is erased", True, terminal.said.rstrip().endswith(b"\r\x1b[J"))


def says_nothing(kind: str, words: list[str]) -> Callable[[Programs, pathlib.Path], None]:
    def case(programs: Programs, folder: pathlib.Path) -> None:
        fill(folder, {"f": b"flag\n", "list": json_list(action())})
        put_player(folder, "t", [[["hear", 1], ["leave", "o", "made"], ["give", OK.hex()]]])
        terminal = Terminal(programs.worker_tool, words, folder, kind)
        status, out = terminal.finish()
        compare(("a terminal that only prints", words), (0, b""), (status, terminal.said))
        compare(("its report", words), True, out.endswith(b" failed=0 broken=0 skipped=0\n"))
    return case


def refuses(programs: Programs, folder: pathlib.Path) -> None:
    """The words are handed on as they are."""
    terminal = Terminal(programs.worker_tool, ["--instances=0", "list"], folder, "xterm")
    status, out = terminal.finish()
    compare("words that are refused", (2, b""), (status, out))
    compare("what is said of them", True, 'this word isn\'t accepted: "--instances=0"' in terminal.text())


def cases() -> Iterator[Case]:
    yield Case("terminal: how far a run is", shows)
    yield Case("terminal: one that only prints", says_nothing("dumb", ["list"]))
    yield Case("terminal: words that are refused", refuses)
