"""A watcher's traffic outside its pipes: it appends lines to the run's events, and asks the front for turns.

Each worker starts a watcher, so these modules load little: they don't import `typing`, `enum` or `re`, nor what imports these.
"""
from __future__ import annotations

import os
import time

from .lean import spelt

TYPE_CHECKING = False
if TYPE_CHECKING:
    from typing import Any


def spelt_value(value: Any) -> str:
    """Returns a value of an event in JSON: a string, a number, a truth value, or a list of such."""
    if isinstance(value, str):
        return spelt(value)
    if isinstance(value, bool):
        return "true" if value else "false"
    return repr(value) if isinstance(value, (int, float)) else "[" + ", ".join(map(spelt_value, value)) + "]"


class Notes:
    """The run's events. Each is a line that one write appends, so a run that is killed leaves all its answers."""

    def __init__(self, path: str) -> None:
        self.fd = os.open(path, os.O_WRONLY | os.O_APPEND | os.O_CREAT | os.O_CLOEXEC, 0o666)
        self.pid = os.getpid()
        self.is_torn = False

    def add(self, what: str, **more: Any) -> None:
        """Appends an event."""
        rest = "".join(f', "{key}": {spelt_value(it)}' for key, it in more.items())
        self.write(f'{{"t": {time.time():.4f}, "e": "{what}", "w": {self.pid}{rest}}}')

    def add_of(self, what: str, name: str, number: int, more: str = "") -> None:
        """Appends an event of a request. Each request has two, so this is the short way."""
        self.write(f'{{"t": {time.time():.4f}, "e": "{what}", "w": {self.pid}, "n": {spelt(name)}, "id": {number}{more}}}')

    def write(self, line: str) -> None:
        """Appends a line. On a full disk the line is lost, and the next one begins on a new line."""
        data = (b"\n" if self.is_torn else b"") + line.encode("utf-8", "replace") + b"\n"
        try:
            self.is_torn = os.write(self.fd, data) != len(data)
        except OSError:
            self.is_torn = True


class Turns:
    """This watcher's line to the front, which lets at most -j requests be at work at once.

    The front takes back the turns of a watcher that has ended, however it ended. If the front is gone, nothing is bounded.
    """

    def __init__(self, address: str) -> None:
        import socket  # few watchers need it

        self.free = self.asked = 0
        self.has_front = True
        self.line = socket.socket(socket.AF_UNIX, socket.SOCK_STREAM)
        try:
            self.line.connect("\0" + address)
            self.line.setblocking(False)
        except OSError:
            self.has_front = False

    def take(self, wanted: int) -> bool:
        """Takes a turn if one was granted. Otherwise asks for more turns until `wanted` are asked for."""
        if not self.has_front:
            return True
        if self.free:
            self.free -= 1
            return True
        if wanted > self.asked:
            self.send(b"w" * (wanted - self.asked))
            self.asked = wanted
        return not self.has_front

    def give(self, number: int) -> None:
        """Gives back turns."""
        if self.has_front and number:
            self.send(b"d" * number)

    def send(self, data: bytes) -> None:
        """Sends bytes to the front."""
        try:
            self.line.sendall(data)
        except OSError:
            self.has_front = False

    def hear(self, wanted: int) -> None:
        """Receives the turns that were granted, and gives back all but `wanted`."""
        try:
            data = self.line.recv(4096)
        except BlockingIOError:
            return
        except OSError:
            data = b""
        if not data:
            self.has_front = False
            return
        self.free += len(data)
        self.asked -= len(data)
        more = max(0, self.free - wanted)
        self.free -= more
        self.give(more)
