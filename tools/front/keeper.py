"""Workers that outlive a run. Each is held by a keeper, a small process that listens on a socket.

A client receives the worker's own pipes, so no byte is copied on the way. It sends `b` before it sends a request, and `i` when no
answer is owed. If a client goes without a last `i`, a request was cut off, and the keeper ends the worker.
"""
from __future__ import annotations

import array
import contextlib
import fcntl
import hashlib
import json
import os
import selectors
import signal
import socket
import stat
import struct
import time
from typing import Any, Callable, Iterator, NamedTuple

from . import child as children
from .child import Child
from .digests import stamp_of
from .home import empty

STATE = ".lenthuvi"
MOST_SLOTS = 64
MOST_TOLD = 1 << 16
MOST_ADDRESS = 107  # bytes of a socket's path
BUSY, IDLE = b"b", b"i"
PAGE = os.sysconf("SC_PAGE_SIZE")


def folder() -> str:
    """Returns the folder of the sockets, which only this user may use."""
    base = os.environ.get("LENTHUVI_KEPT") or f"/tmp/lenthuvi-{os.getuid()}"
    os.makedirs(base, mode=0o700, exist_ok=True)
    held = os.lstat(base)
    if not stat.S_ISDIR(held.st_mode) or held.st_uid != os.getuid() or held.st_mode & 0o077:
        raise PermissionError(f"kept workers need the folder {base}, which must be yours alone: no link, owner {os.getuid()}, mode 700")
    if len(os.fsencode(base)) + 41 > MOST_ADDRESS:
        raise PermissionError(f"{base} has too long a path for sockets; set LENTHUVI_KEPT to a shorter one")
    return base


class Wanted(NamedTuple):
    """A worker that is wanted: everything that makes two workers equal, and the start folder, below which it stays."""

    words: list[str]
    environment: dict[str, str]
    form: str
    tools: str  # the digest of its tools and of its program
    start: str

    def home(self, slot: int) -> str:
        """Returns the folder in which the slot's worker stays, two levels below the start folder as a room is."""
        stamps = [stamp_of(path) for path in named_files(self.words)]
        parts = [self.words, sorted(self.environment.items()), self.form, self.tools, stamps]
        return os.path.join(self.start, STATE, f"kept-{hashlib.sha256(json.dumps(parts).encode()).hexdigest()[:16]}.{slot}")


def named_files(words: list[str]) -> list[str]:
    """Returns the files that words name by absolute paths: the program, a script, the jars of a class path."""
    paths = (path for word in words for path in word.replace("=", ":").split(":"))
    return [path for path in paths if path.startswith("/") and os.path.isfile(path)]


@contextlib.contextmanager
def locked(base: str) -> Iterator[None]:
    """Holds the lock of the folder of the sockets. Only its holder starts a keeper or removes what one has left."""
    lock = os.open(os.path.join(base, ".lock"), os.O_RDWR | os.O_CREAT | os.O_CLOEXEC, 0o600)
    try:
        fcntl.flock(lock, fcntl.LOCK_EX)
        yield
    finally:
        os.close(lock)


def address(base: str, home: str) -> str:
    """Returns the path of the socket of the worker that stays in a folder. Another folder at the same path has another one."""
    held = os.stat(home)
    return os.path.join(base, hashlib.sha256(f"{home}\0{held.st_dev}\0{held.st_ino}".encode()).hexdigest()[:40])


def find(base: str, wanted: Wanted, idle: float, most: int, words_in: Callable[[str], list[str]]) -> tuple[Child, str] | None:
    """Returns a free kept worker, or a new one, and its folder. Returns None if no worker can be kept.

    `words_in` returns the arguments that start a worker in a folder.
    """
    with locked(base):
        for slot in range(MOST_SLOTS):
            home = wanted.home(slot)
            os.makedirs(home, mode=0o700, exist_ok=True)
            path = address(base, home)
            found = attach(path)
            if found is not None:
                found.answered = 1
                return found, home
            if not ask(path, b"?"):  # Otherwise it is at work for another process.
                if len(os.listdir(base)) > most:
                    make_room(base, most - 1, float("inf"))
                begun = start(path, words_in(home), wanted.environment, idle, home)
                return (begun, home) if begun is not None else None
    return None


def is_own(line: socket.socket) -> bool:
    """Returns True if the other end of a socket is a process of this user."""
    held = line.getsockopt(socket.SOL_SOCKET, socket.SO_PEERCRED, struct.calcsize("3i"))
    return int(struct.unpack("3i", held)[1]) == os.getuid()


def attach(path: str) -> Child | None:
    """Returns the worker that is kept at a socket, or None if there is none that is free."""
    line = socket.socket(socket.AF_UNIX, socket.SOCK_STREAM)
    fds: list[int] = []
    try:
        line.connect(path)
        if is_own(line):
            line.sendall(b"a")
            line.settimeout(2)
            data, fds, _, _ = socket.recv_fds(line, 64, 4)
            line.settimeout(None)
            if len(fds) == 4:
                found = Child(int(data), fds[0], fds[1], fds[2], os.pidfd_open(int(data)), fds[3], line)
                if not (found.unread() or found.unheard()):
                    return found
                found.kill()  # Stray bytes would be taken for an answer.
                found.close()
                return None
    except (OSError, ValueError):
        pass
    for fd in fds:
        os.close(fd)
    line.close()
    return None


def start(path: str, words: list[str], environment: dict[str, str], idle: float, home: str) -> Child | None:
    """Starts a worker with a keeper in a folder, and attaches to it. Returns None if that isn't possible here."""
    server = socket.socket(socket.AF_UNIX, socket.SOCK_STREAM)
    try:
        if os.path.lexists(path):
            os.unlink(path)
        server.bind(path)
        server.listen(4)
    except OSError:
        server.close()
        return None
    if os.fork() == 0:
        try:
            detach(server.fileno())
            os.chdir(home)
            empty(".")
            if os.fork() == 0:
                Keeper(server, path, words, environment, idle).serve()
        finally:
            os._exit(0)
    os.wait()
    server.close()
    return attach(path)


def detach(keeps: int) -> None:
    """Leaves the session of the process that started this, and closes all that it had open but one file."""
    os.setsid()
    signal.signal(signal.SIGTERM, signal.SIG_DFL)
    null = os.open(os.devnull, os.O_RDWR)
    for fd in (0, 1, 2):
        os.dup2(null, fd)
    os.closerange(3, keeps)
    os.closerange(keeps + 1, os.sysconf("SC_OPEN_MAX"))


class Keeper:
    """Holds one worker for one client after the other."""

    def __init__(self, server: socket.socket, path: str, words: list[str], environment: dict[str, str], idle: float) -> None:
        self.server, self.path, self.words, self.idle = server, path, words, idle
        self.mark = mark_of(path)
        self.worker = children.start(words, environment)
        self.client: socket.socket | None = None
        self.is_owed = False
        self.clients = 0
        self.until = time.monotonic() + idle
        self.since = time.time()
        self.ready = selectors.DefaultSelector()
        self.drains = self.is_silent = False

    def serve(self) -> None:
        """Serves until the worker ends, a request is cut off, or no client has come for long."""
        self.ready.register(self.server, selectors.EVENT_READ)
        self.ready.register(self.worker.watch, selectors.EVENT_READ)
        self.drain(True)
        try:
            while self.step():
                pass
        finally:
            self.leave()

    def leave(self) -> None:
        """Ends the worker, and removes its socket and its folder, unless another keeper has taken them over by now."""
        self.server.close()  # A client that comes now is refused at once, and starts another keeper.
        self.worker.kill()
        try:
            with locked(os.path.dirname(self.path)):
                if mark_of(self.path) == self.mark:
                    os.unlink(self.path)
                    home = os.getcwd()
                    empty(home)
                    os.rmdir(home)
        except OSError:
            pass

    def drain(self, drains: bool) -> None:
        """Begins or ends to read the worker's standard error here, which a client reads while there is one."""
        if drains == self.drains or self.is_silent:
            return
        self.drains = drains
        if drains:
            self.ready.register(self.worker.errors, selectors.EVENT_READ)
        else:
            self.ready.unregister(self.worker.errors)

    def step(self) -> bool:
        """Waits for the next event and handles it. Returns True if the worker is still of use."""
        found = self.ready.select(None if self.client else max(0.0, self.until - time.monotonic()))
        if not self.client and time.monotonic() >= self.until and not any(key.fileobj is self.server for key, _ in found):
            return False
        for key, _ in found:
            if key.fileobj is self.server:
                self.greet(self.server.accept()[0])
            elif key.fileobj is self.client:
                if not self.hear():
                    return False
            elif key.fd == self.worker.errors:
                if not os.read(key.fd, MOST_TOLD):
                    self.drain(False)
                    self.is_silent = True
            elif key.fd == self.worker.watch:
                self.tell_end()
                return False
        return True

    def greet(self, line: socket.socket) -> None:
        """Hands the worker to a client, describes it, or ends it."""
        line.settimeout(1)
        try:
            wish = line.recv(1) if is_own(line) else b""
            if wish == b"a" and self.client is None:
                pipes = [self.worker.feed, self.worker.tap, self.worker.errors, self.worker.spare]
                socket.send_fds(line, [str(self.worker.pid).encode()], pipes)
                self.client, self.is_owed, self.clients = line, False, self.clients + 1
                line.settimeout(None)
                self.ready.register(line, selectors.EVENT_READ)
                self.drain(False)
                return
            if wish == b"?":
                line.sendall(json.dumps(self.description()).encode())
            elif wish == b"x":
                self.worker.kill()
        except (OSError, KeyError):
            pass
        line.close()

    def description(self) -> dict[str, Any]:
        """Returns what `lenthuvi workers` shows, and what decides which worker is ended first."""
        return {"pid": self.worker.pid, "words": self.words, "room": os.getcwd(), "since": self.since, "clients": self.clients,
                "busy": self.client is not None, "until": self.until, "memory": memory_of(self.worker.pid)}

    def hear(self) -> bool:
        """Takes what the client sends, or its end. Returns True if the worker is still of use."""
        client = self.client
        assert client is not None
        try:
            data = client.recv(4096)
        except OSError:
            data = b""
        if data:
            self.is_owed = data[-1:] == BUSY
            return True
        self.ready.unregister(client)
        client.close()
        self.client, self.until = None, time.monotonic() + self.idle
        if self.is_owed:
            return False
        self.drain(True)
        return True

    def tell_end(self) -> None:
        """Sends the client the status with which the worker ended."""
        status = children.status_of(self.worker.pid)
        if self.client is not None:
            try:
                self.client.sendall(array.array("i", [status]).tobytes())
            except OSError:
                pass


def mark_of(path: str) -> tuple[int, int]:
    """Returns what tells a socket from a later one at the same path. An inode alone may be used again."""
    held = os.stat(path)
    return held.st_ino, held.st_ctime_ns


def memory_of(pid: int) -> int:
    """Returns the bytes that a process and those below it have in memory."""
    total, waiting = 0, [pid]
    while waiting:
        one = waiting.pop()
        try:
            with open(f"/proc/{one}/statm", encoding="ascii") as file:
                total += int(file.read().split()[1]) * PAGE
            with open(f"/proc/{one}/task/{one}/children", encoding="ascii") as file:
                waiting += [int(it) for it in file.read().split()]
        except (OSError, ValueError, IndexError):
            pass
    return total


def end_of(line: socket.socket) -> int:
    """Returns the status of a kept worker that has ended, as its keeper sends it."""
    line.settimeout(1)
    try:
        data = line.recv(4)
    except OSError:
        data = b""
    return int.from_bytes(data, "little", signed=True) if len(data) == 4 else -signal.SIGKILL


def ask(path: str, wish: bytes) -> dict[str, Any]:
    """Returns what the keeper at a socket answers; nothing if there is none."""
    line = socket.socket(socket.AF_UNIX, socket.SOCK_STREAM)
    try:
        with line:
            line.settimeout(2)
            line.connect(path)
            line.sendall(wish)
            held = b"".join(iter(lambda: line.recv(65536), b""))
            found = json.loads(held) if held else {}
            return found if isinstance(found, dict) else {}
    except (OSError, ValueError):
        return {}


def make_room(base: str, most: int, memory: float) -> list[int]:
    """Ends the workers that have been idle for longest, until at most `most` are left with `memory` bytes together.

    Returns the processes that it ended. A worker that is at work is never ended.
    """
    found = [(told, path) for name in os.listdir(base) if (told := ask(path := os.path.join(base, name), b"?"))]
    count, total = len(found), sum(told["memory"] for told, _ in found)
    ended = []
    for told, path in sorted(found, key=lambda it: float(it[0]["until"])):
        if count <= most and total <= memory:
            break
        if not told["busy"]:
            ask(path, b"x")
            ended.append(told["pid"])
            count, total = count - 1, total - told["memory"]
    return ended


def all_kept(ends: bool) -> list[dict[str, Any]]:
    """Returns the descriptions of all kept workers, and ends them if asked to."""
    base = folder()
    found = []
    for name in sorted(os.listdir(base)):
        path = os.path.join(base, name)
        told = ask(path, b"?")
        if not told:
            continue
        found.append(told)
        if ends:
            ask(path, b"x")
    return found
