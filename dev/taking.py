"""Runs a command and returns what it took: time by the clock, processor time, memory.

A process that Python starts counts Python's own memory as its most, since the system counts what a process holds before it becomes
another program. So a small starter in C starts the command, if there is a C compiler; otherwise no less memory than Python's is seen.
"""
from __future__ import annotations

import os
import pathlib
import shutil
import subprocess
import tempfile
import time
from collections.abc import Sequence
from typing import NamedTuple

STARTER = r"""
#define _GNU_SOURCE
#include <signal.h>
#include <stdio.h>
#include <sys/resource.h>
#include <sys/time.h>
#include <sys/wait.h>
#include <time.h>
#include <unistd.h>
static double seconds(struct timespec it) { return it.tv_sec + it.tv_nsec / 1e9; }
int main(int count, char **words) {
    struct timespec begun, ended, own = {0, 0};
    clock_gettime(CLOCK_MONOTONIC, &begun);
    pid_t child = vfork();
    if (child == 0) { close(3); execvp(words[1], words + 1); _exit(127); }
    siginfo_t seen;
    waitid(P_PID, child, &seen, WEXITED | WNOWAIT);
    clock_gettime(CLOCK_MONOTONIC, &ended);
    clockid_t clock;
    if (clock_getcpuclockid(child, &clock) == 0) clock_gettime(clock, &own);
    int status;
    struct rusage taken;
    wait4(child, &status, 0, &taken);
    dprintf(3, "%d %.9f %.6f %.9f %ld\n", status, seconds(ended) - seconds(begun), taken.ru_utime.tv_sec + taken.ru_stime.tv_sec
        + (taken.ru_utime.tv_usec + taken.ru_stime.tv_usec) / 1e6, seconds(own), taken.ru_maxrss);
    return 0;
}
"""


class Taken(NamedTuple):
    """The status of a run, its seconds by the clock, of processor in all and of its own process, and its largest MB."""

    status: int
    seconds: float
    processor: float
    own: float
    memory: float


def make_starter(folder: str) -> str:
    """Builds the starter in the folder, and returns its path, or nothing if there is no C compiler."""
    compiler = shutil.which("cc") or shutil.which("clang") or shutil.which("gcc")
    if compiler is None:
        return ""
    source, made = pathlib.Path(folder, "starter.c"), os.path.join(folder, "starter")
    source.write_text(STARTER, encoding="utf-8")
    return made if subprocess.run([compiler, "-O1", "-o", made, str(source)], check=False).returncode == 0 else ""


def take(command: Sequence[str], starter: str, reads: str = os.devnull) -> Taken:
    """Runs a command, whose output and errors go nowhere."""
    with open(reads, "rb") as source:
        return take_started(command, starter, source.fileno()) if starter else take_plainly(command, source.fileno())


def take_started(command: Sequence[str], starter: str, source: int) -> Taken:
    """The same by the starter, which writes what it saw to descriptor 3."""
    with tempfile.TemporaryFile() as told:
        words = ["/bin/sh", "-c", f'exec "$@" 3>&{told.fileno()}', "sh", starter, *command]
        subprocess.run(words, stdin=source, stdout=subprocess.DEVNULL, stderr=subprocess.DEVNULL, pass_fds=(told.fileno(),), check=False)
        told.seek(0)
        status, seconds, processor, own, memory = told.read().split()
    return Taken(os.waitstatus_to_exitcode(int(status)), float(seconds), float(processor), float(own), int(memory) / 1024)


def take_plainly(command: Sequence[str], source: int) -> Taken:
    """The same without a starter."""
    begun = time.monotonic()
    child = subprocess.Popen(command, stdin=source, stdout=subprocess.DEVNULL, stderr=subprocess.DEVNULL)
    os.waitid(os.P_PID, child.pid, os.WEXITED | os.WNOWAIT)
    seconds = time.monotonic() - begun
    # The clock of a process's own time, by the number that the system gives it.
    own = time.clock_gettime((~child.pid << 3) | 2)
    _, ended, usage = os.wait4(child.pid, 0)
    child.returncode = os.waitstatus_to_exitcode(ended)
    return Taken(child.returncode, seconds, usage.ru_utime + usage.ru_stime, own, usage.ru_maxrss / 1024)
