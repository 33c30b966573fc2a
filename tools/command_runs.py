"""Runs a command for a worker in a separate process group, which ends with the command or the worker, even if they are killed."""
from __future__ import annotations

import ctypes
import os
import signal
import subprocess
import tempfile
from collections.abc import Mapping

LIBC = ctypes.CDLL(None)
PR_SET_PDEATHSIG = 1


def keep_watch() -> int:
    """Starts a process that waits for this one to end for any reason. It then kills the group that it received last."""
    heard, told = os.pipe()
    if os.fork():
        os.close(heard)
        return told
    os.setsid()
    os.close(told)
    null = os.open(os.devnull, os.O_RDWR)
    for fd in range(3):
        os.dup2(null, fd)
    group = 0
    while part := os.read(heard, 4):
        group = int.from_bytes(part, "little")
    if group:
        end_group(group)
    os._exit(0)


def die_with(parent: int, told: int) -> None:
    """Runs in the child before its command. Gives it its own group, and lets it end with the parent in every case."""
    os.setpgid(0, 0)
    if told >= 0:
        os.write(told, os.getpid().to_bytes(4, "little"))
    LIBC.prctl(PR_SET_PDEATHSIG, signal.SIGKILL, 0, 0, 0)
    if os.getppid() != parent:
        os.kill(os.getpid(), signal.SIGKILL)


def end_group(group: int) -> None:
    """Kills the rest of a command's group. Processes with their own session, such as daemons, aren't in it."""
    try:
        os.killpg(group, signal.SIGKILL)
    except (ProcessLookupError, PermissionError):
        pass


def written(command: list[str], folder: str | None, told: int, env: Mapping[str, str] | None = None) -> tuple[int, bytes]:
    """Runs a command to its own end. It doesn't wait for the end of the output, which a helper may hold open for hours.

    The output goes to a file, so nothing has to be read during the run.
    """
    parent = os.getpid()
    with tempfile.TemporaryFile() as output:
        child = subprocess.Popen(command, cwd=folder, env=env, stdin=subprocess.DEVNULL, stdout=output, stderr=subprocess.STDOUT,
                                 preexec_fn=lambda: die_with(parent, told))
        try:
            # It is waited for later, so that its number stays its group's.
            os.waitid(os.P_PID, child.pid, os.WEXITED | os.WNOWAIT)
        finally:
            end_group(child.pid)
            code = child.wait()
            if told >= 0:
                os.write(told, bytes(4))
        output.seek(0)
        return code, output.read()


def shell_code(code: int) -> int:
    """Returns the exit code that a shell gives a command. If a signal ended it, this is 128 plus the signal's number."""
    return code if code >= 0 else 128 - code
