"""The bound of -j: watchers ask for a turn before they send a request on, and give it back with the answer.

A turn belongs to a connection. If a watcher ends, the kernel closes its connection. No turn is lost, however it ends.
"""
from __future__ import annotations

import collections
import os
import selectors
import socket

from .keeper import is_own


class Turns:
    """Grants at most `most` turns at a time, first come, first served."""

    def __init__(self, most: int) -> None:
        self.most = most
        self.address = f"lenthuvi-{os.getpid()}-{os.urandom(16).hex()}"
        self.server = socket.socket(socket.AF_UNIX, socket.SOCK_STREAM)
        self.server.bind("\0" + self.address)
        self.server.listen(64)
        self.server.setblocking(False)
        self.ready = selectors.EpollSelector()
        self.ready.register(self.server, selectors.EVENT_READ)
        self.granted: dict[socket.socket, int] = {}
        self.queue: collections.deque[socket.socket] = collections.deque()

    def fileno(self) -> int:
        """Returns the file that is ready when there is something to do."""
        return self.ready.fileno()

    def serve(self) -> None:
        """Handles all that is ready, and grants the turns that are free."""
        for key, _ in self.ready.select(0):
            if key.fileobj is self.server:
                self.greet()
            else:
                assert isinstance(key.fileobj, socket.socket)
                self.hear(key.fileobj)
        at_work = sum(self.granted.values())
        while self.queue and at_work < self.most:
            line = self.queue.popleft()
            try:
                line.send(b"g")
                self.granted[line] += 1
                at_work += 1
            except (OSError, KeyError):
                self.end(line)

    def greet(self) -> None:
        """Takes a new connection, if it comes from a process of this user."""
        try:
            line = self.server.accept()[0]
        except OSError:
            return
        if not is_own(line):
            line.close()
            return
        line.setblocking(False)
        self.granted[line] = 0
        self.ready.register(line, selectors.EVENT_READ)

    def hear(self, line: socket.socket) -> None:
        """Takes what a watcher asks for or gives back, or its end."""
        try:
            data = line.recv(4096)
        except BlockingIOError:
            return
        except OSError:
            data = b""
        if not data:
            self.end(line)
            return
        self.granted[line] = max(0, self.granted[line] - data.count(b"d"))
        self.queue.extend([line] * data.count(b"w"))

    def end(self, line: socket.socket) -> None:
        """Takes back all turns of a connection that has ended."""
        if line in self.granted:
            del self.granted[line]
            self.ready.unregister(line)
            line.close()
        self.queue = collections.deque(it for it in self.queue if it is not line)

    def close(self) -> None:
        """Ends all connections."""
        for line in list(self.granted):
            self.end(line)
        self.ready.close()
        self.server.close()
