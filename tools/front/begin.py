"""Commands around a build: a first worker and list, a check of this folder, and the workers that are kept."""
from __future__ import annotations

import json
import os
import resource
import subprocess
import shutil
import sys
import time
from typing import Iterator

from . import isolation, keeper, programs
from .listing import STATE
from .options import Unwanted, Words
from .voice import plural, quoted

WORKER = '''#!/usr/bin/python3
"""A worker: it reads requests from standard input, a JSON object a line, and answers each on standard output."""
import json
import sys

for line in sys.stdin:
    request = json.loads(line)
    source, target = request["arguments"]
    print("shouting", source, file=sys.stderr)
    with open(source) as file, open(target, "w") as out:
        out.write(file.read().upper())
    print(json.dumps({"exitCode": 0, "output": f"{target} is loud now"}), flush=True)
'''
FILES = {"text": "hello, lenthuvi\n", "words": "text\nshout\n", "loud": WORKER}
LIST = {"actions": [{"name": "shouting", "mnemonic": "Shout", "argv": ["loud", "@words"], "inputs": ["words", "text"],
                     "outputs": ["shout"], "requirements": {"supports-workers": "1", "requires-worker-protocol": "json"}}]}
PROGRAMS = ("worker_tool", "shared_tool", "spawn_tool", "run_tool", "journal_run", "journal_check", "remote_exec", "job_pool")


def init(words: Words) -> int:
    """Writes a first worker and list into a folder, or the list of a warm tool. It replaces no existing file."""
    from .kinds import KINDS, init_kind

    if words.rest and words.rest[0] in KINDS:
        return init_kind(words.rest[0], words.rest[1] if len(words.rest) > 1 else ".")
    if len(words.rest) > 1:
        raise Unwanted(f"init {words.rest[0]}: there is no list for that; there are {', '.join(KINDS)}")
    folder = words.rest[0] if words.rest else "."
    os.makedirs(folder, exist_ok=True)
    texts = {**FILES, "list.json": json.dumps(LIST, indent=2) + "\n"}
    there = [name for name in texts if os.path.lexists(os.path.join(folder, name))]
    if there:
        raise Unwanted(f"{os.path.join(folder, there[0])} exists already; nothing was written")
    for name, text in texts.items():
        with open(os.path.join(folder, name), "x", encoding="utf-8") as file:
            file.write(text)
    os.chmod(os.path.join(folder, "loud"), 0o755)
    where = "" if folder == "." else f"cd {quoted([folder])}; "
    print(f"written: a worker (loud), its words, a text, and list.json\nnext: {where}lenthuvi build")
    return 0


def doctor(words: Words) -> int:
    """Prints what would prevent a build here."""
    bad = 0
    for is_well, text in (*found_programs(), *folders(), *limits()):
        bad += not is_well
        print(f"{'ok ' if is_well else 'BAD'}  {text}")
    print("nothing stands in the way" if not bad else f"{plural(bad, 'thing')} to mend")
    return 1 if bad else 0


def found_programs() -> Iterator[tuple[bool, str]]:
    """Yields which programs exist, and whether each is proved. Each is started once with an argument that it must refuse."""
    folder = programs.bin_folder()
    for name in PROGRAMS:
        path = os.path.join(folder, name)
        if not os.access(path, os.X_OK):
            yield name != "worker_tool", f"{path} isn't there" + ("" if name == "worker_tool" else "; what needs it can't be had")
            continue
        try:
            status = subprocess.run([path, "--lenthuvi-doctor"], stdin=subprocess.DEVNULL, capture_output=True, timeout=10, check=False).returncode
            yield status == 2, f"{path}: {programs.identity(name)}" + ("" if status == 2 else f"; it ended with status {status} at a word that isn't one")
        except (OSError, subprocess.TimeoutExpired) as error:
            yield False, f"{path} can't be started: {error}"


def folders() -> Iterator[tuple[bool, str]]:
    """Yields whether the folders of a run can be written, and who owns them."""
    here = os.getcwd()
    yield os.access(here, os.W_OK | os.X_OK), f"this folder can be written: {here}"
    for name in (".worker_rooms", STATE):
        if not os.path.lexists(name):
            continue
        owner = os.stat(name).st_uid if os.path.exists(name) else os.lstat(name).st_uid
        is_well = os.path.isdir(name) and os.access(name, os.W_OK | os.X_OK) and owner == os.geteuid()
        yield is_well, f"{name} is a folder of yours that can be written (its owner is user {owner}, you are {os.geteuid()})"
    held = os.statvfs(here)
    free = held.f_bavail * held.f_frsize
    yield free > 1 << 28, f"{free / 1e9:.1f} GB are free"
    yield not held.f_flag & os.ST_NOEXEC, "programs may be run from here (no noexec)"
    try:
        yield True, f"kept workers have their sockets in {keeper.folder()}"
    except OSError as error:
        yield False, f"workers can't be kept: {error}"
    try:
        isolation.sandbox()
        yield True, "--isolate works here"
    except (Unwanted, OSError, subprocess.TimeoutExpired) as error:
        yield True, f"--isolate can't be had: {error}"


def limits() -> Iterator[tuple[bool, str]]:
    """Yields the limits and features of the system."""
    files = resource.getrlimit(resource.RLIMIT_NOFILE)[0]
    yield files >= 256 or files < 0, f"{files} files may be open; 256 are enough for 48 workers"
    processes = resource.getrlimit(resource.RLIMIT_NPROC)[0]
    yield processes < 0 or processes > 512, f"{'no limit on' if processes < 0 else processes} processes"
    yield sys.version_info >= (3, 11), f"Python {sys.version.split()[0]}; 3.11 is needed"
    yield hasattr(os, "pidfd_open"), "the system has pidfd_open (Linux 5.3)"
    yield True, f"{'timeout ends jobs that are over their limit' if shutil.which('timeout') else 'no program timeout: --limit has no effect on jobs'}"
    yield True, f"{plural(programs.processors(), 'processor')}"


def workers(words: Words) -> int:
    """Lists the workers that are kept, or ends them."""
    found = keeper.all_kept(words.has("--end"))
    for it in found:
        state = "at work" if it["busy"] else "idle"
        age = f"{time.time() - it['since']:6.0f} s, {plural(it['clients'], 'run')}, {it['memory'] / 1e6:.0f} MB"
        print(f"{it['pid']:8}  {state:8} {age}  {it['room']}  {quoted(it['words'])[:100]}")
    print(f"{plural(len(found), 'worker')} {'ended' if words.has('--end') else 'kept'}")
    return 0
