"""The output for people on standard error: the line of progress, failures, and the totals."""
from __future__ import annotations

import os
import shlex
import sys
import time
from typing import Any, TextIO

EVERY = 30.0
MOST_LINES = 40
COLORS = {"red": "31", "green": "32", "yellow": "33", "dim": "2", "bold": "1"}


class Voice:
    """Standard error, with a line of progress at the bottom of a terminal."""

    def __init__(self, color: str = "auto", is_quiet: bool = False) -> None:
        self.out: TextIO = sys.stderr
        self.is_terminal = self.out.isatty() and os.environ.get("TERM") != "dumb"
        self.has_color = color == "always" or (color == "auto" and self.is_terminal and "NO_COLOR" not in os.environ)
        self.is_quiet = is_quiet
        self.begun = self.told = time.monotonic()
        self.shown = ""

    def paint(self, text: str, color: str) -> str:
        """Returns a text in a color, if colors are wanted."""
        return f"\033[{COLORS[color]}m{text}\033[0m" if self.has_color else text

    def line(self, text: str = "") -> None:
        """Prints a line above the line of progress. If nobody reads standard error any more, the run goes on."""
        try:
            self.erase()
            print(text, file=self.out, flush=True)
        except OSError:
            os.dup2(os.open(os.devnull, os.O_WRONLY), self.out.fileno())
            self.is_terminal = False

    def erase(self) -> None:
        """Removes the line of progress."""
        if self.shown:
            self.out.write("\r\033[K")
            self.out.flush()
            self.shown = ""

    def progress(self, text: str) -> None:
        """Shows the progress of the run: at once on a terminal, otherwise every half minute."""
        if self.is_quiet:
            return
        if self.is_terminal:
            width = max(20, os.get_terminal_size(self.out.fileno()).columns - 1)
            if text[:width] != self.shown:
                self.erase()
                self.shown = text[:width]
                self.out.write(self.shown)
                self.out.flush()
        elif time.monotonic() - self.told >= EVERY:
            self.told = time.monotonic()
            self.line(text)

    def seconds(self) -> float:
        """Returns the seconds since this object was made."""
        return time.monotonic() - self.begun


def counted(number: int) -> str:
    """Returns a number with commas."""
    return f"{number:,}"


def short(text: str) -> list[str]:
    """Returns the lines of a text, without those in the middle if there are many."""
    lines = text.splitlines()
    if len(lines) <= MOST_LINES:
        return lines
    half = MOST_LINES // 2
    return [*lines[:half], f".. {len(lines) - 2 * half} more lines ..", *lines[-half:]]


def quoted(words: list[str]) -> str:
    """Returns words quoted for a shell."""
    return shlex.join(words)


def of_list(path: str) -> str:
    """Returns the path of a list or folder for the end of a printed command, or nothing if it isn't needed."""
    return "" if path == "list.json" else f" {shlex.quote(path)}"


def plural(number: int, one: str, many: str = "") -> str:
    """Returns a number with its noun."""
    return f"{counted(number)} {one if number == 1 else many or one + 's'}"


def joined(parts: list[Any]) -> str:
    """Returns the parts that aren't empty, separated by commas."""
    return ", ".join(str(it) for it in parts if it)
