"""A worker's process: its session, its pipes, and its end."""
from __future__ import annotations

import ctypes
import fcntl
import os
import termios

from .lean import signal

TYPE_CHECKING = False
if TYPE_CHECKING:
    import socket

PR_SET_PDEATHSIG = 1
CANT_START = 127


class Child:
    """A process that was started here, or a kept one: `keeper` is then the socket to the process that holds it.

    `spare` is the read end of its standard input. It serves to count the bytes that the process hasn't read.
    """

    def __init__(self, pid: int, feed: int, tap: int, errors: int, watch: int, spare: int = -1,
                 keeper: socket.socket | None = None) -> None:
        self.pid, self.feed, self.tap, self.errors, self.watch, self.spare = pid, feed, tap, errors, watch, spare
        self.keeper = keeper
        self.answered = 0

    def kill(self) -> None:
        """Kills the process and all others of its group."""
        kill_group(self.pid)

    def unread(self) -> int:
        """Returns how many bytes of its input it hasn't read."""
        return waiting(self.spare)

    def unheard(self) -> int:
        """Returns how many bytes of its output nobody has read."""
        return waiting(self.tap)

    def close(self) -> None:
        """Closes all that is held of it."""
        for fd in (self.feed, self.tap, self.errors, self.watch, self.spare):
            if fd >= 0:
                os.close(fd)
        self.feed = self.tap = self.errors = self.watch = self.spare = -1
        if self.keeper is not None:
            self.keeper.close()


def waiting(pipe: int) -> int:
    """Returns how many bytes are in a pipe."""
    if pipe < 0:
        return 0
    held = bytearray(4)
    fcntl.ioctl(pipe, termios.FIONREAD, held)
    return int.from_bytes(held, "little")


def kill_group(pid: int, number: int = signal.SIGKILL) -> None:
    """Sends a signal, KILL by default, to a process group, if it still exists."""
    try:
        os.killpg(pid, number)
    except (ProcessLookupError, PermissionError):
        pass


def start(words: list[str], environment: dict[str, str]) -> Child:
    """Starts a process in a new session. The kernel kills it when this process ends."""
    given, feed = os.pipe()
    tap, said = os.pipe()
    errors, told = os.pipe()
    prctl = ctypes.CDLL(None).prctl
    parent = os.getpid()
    pid = os.fork()
    if pid == 0:
        try:
            os.setsid()
            prctl(PR_SET_PDEATHSIG, signal.SIGKILL)
            if os.getppid() != parent:
                os._exit(CANT_START)
            become(words, environment, (given, said, told))
        finally:
            os._exit(CANT_START)
    os.close(said)
    os.close(told)
    os.set_blocking(feed, False)
    return Child(pid, feed, tap, errors, os.pidfd_open(pid), given)


def become(words: list[str], environment: dict[str, str], pipes: tuple[int, int, int]) -> None:
    """Becomes the program that the words name."""
    for place, pipe in enumerate(pipes):
        os.dup2(pipe, place)
    for number in (signal.SIGINT, signal.SIGPIPE, signal.SIGTERM):
        signal.signal(number, signal.SIG_DFL)
    try:
        os.execve(words[0], words, environment)
    except OSError as error:
        os.write(2, f"{words[0]} can't be started: {error.strerror}\n".encode())


def status_of(pid: int) -> int:
    """Waits for a child. Returns its exit code, or the signal's number below zero."""
    return os.waitstatus_to_exitcode(os.waitpid(pid, 0)[1])
