"""The cases of dev/edge-hazards in which a worker changes large inputs, whose files the tool keeps for its later requests."""
from __future__ import annotations

import hashlib
import os
import subprocess
import tempfile

from edge_folder import Action, Folder, Skipped, all_ok, want

LARGE = b"x" * 300_000

# Answers requests in JSON. Reports what it found in `big/data`, and then does to that file what its action's name says.
WORKER = """#!/usr/bin/env python3
import ctypes, hashlib, json, mmap, os, sys

held = []
LIBC = ctypes.CDLL(None, use_errno=True)

def mapped(path, access=mmap.ACCESS_WRITE):
    with open(path, "r+b") as file:
        return mmap.mmap(file.fileno(), 0, access=access)

def write(path, at, dated=False):
    before = os.stat(path)
    with open(path, "r+b") as file:
        file.seek(at)
        file.write(b"changed")
    if dated:
        os.utime(path, ns=(before.st_atime_ns, before.st_mtime_ns))

def harm(way, path, folder):
    if way == "write":
        write(path, 5)
    elif way == "dated":
        write(path, 5, dated=True)
    elif way == "map":
        with mapped(path) as memory:
            memory[5] = 1
    elif way == "mapread":
        with mapped(path) as memory:
            assert memory[5:6] in (b"x", b"c")
            memory[5] = 1
    elif way == "mapprivate":
        with mapped(path, mmap.ACCESS_COPY) as memory:
            memory[5] = 1
    elif way == "hole":
        with open(path, "r+b") as file:
            LIBC.fallocate(file.fileno(), 3, ctypes.c_long(4096), ctypes.c_long(4096))
    elif way == "mode":
        os.chmod(path, 0o400)
    elif way == "link":
        os.link(path, f"{folder}/../linked-{os.getpid()}")
    elif way == "gone":
        os.remove(path)
    elif way == "away":
        os.rename(path, f"{folder}/../away-{os.getpid()}")
    elif way == "over":
        with open(f"{path}.new", "wb") as file:
            file.write(b"y" * 300_000)
        os.rename(f"{path}.new", path)
    elif way == "hold":
        held.append(open(path, "r+b"))
    elif way == "holdmap":
        held.append(mapped(path))

def late():
    # What is still held is changed once the next request has come, whose file may be the same.
    while held:
        it = held.pop()
        it.seek(7)
        it.write(b"late")
        it.close() if isinstance(it, mmap.mmap) else (it.flush(), it.close())

for line in sys.stdin:
    request = json.loads(line)
    folder = request.get("sandboxDir") or "."
    path = f"{folder}/big/data"
    name = os.listdir(f"{folder}/f")[0]
    with open(path, "rb") as file:
        found = file.read()
    with open(f"{folder}/o/{name}", "w") as file:
        file.write(f"{hashlib.sha256(found).hexdigest()} {os.stat(path).st_mtime_ns} {os.stat(path).st_nlink}")
    harm(name.split("-")[1], path, folder)
    print(json.dumps({"requestId": request.get("requestId", 0)}), flush=True)
    if name.split("-")[1] == "after":
        late()
"""
WAYS = ["write", "dated", "map", "mapread", "mapprivate", "hole", "mode", "link", "gone", "away", "over"]
# A file that is held open is changed during a later request. Only one request at a time may have it then.
HELD = ["hold", "after", "holdmap", "after"]
# A file system that sets a file's times as soon as somebody writes to it, also through a mapping.
SHOWING = ("ext2/ext3", "xfs", "f2fs")


def play(folder: Folder, harms: list[str], needs: dict[str, str]) -> set[str]:
    """Plays each harm after two harmless requests. Each request must find the bytes of its input.

    Returns the times of the last write that the requests found, of which each new file has another one.
    """
    folder.write("worker", WORKER)
    (folder.path / "big").mkdir()
    (folder.path / "big/data").write_bytes(LARGE)
    ways = [way for harm in harms for way in ("none", "none", harm)] + ["none", "none"]
    actions: list[Action] = []
    for number, way in enumerate(ways):
        action = folder.action(f"{number:03}-{way}")
        action["inputs"].append("big/data")
        action["requirements"] = {**action["requirements"], **needs}
        actions.append(action)
    folder.run(actions, "--instances=1").want(0, all_ok(len(ways)))
    found = [(folder.read(f"o/{action['name']}") or "").split() for action in actions]
    wanted = hashlib.sha256(LARGE).hexdigest()
    for way, action, (digest, _, links) in zip(["", *ways], actions, found, strict=False):
        want(digest == wanted, f"{action['name']} found other bytes, after {way}")
        want(links == "1", f"{action['name']} found {links} links")
    left = [it for it in os.listdir(folder.path / ".worker_rooms") if it.startswith("kept.")]
    want(not left, f"{left} are left")
    return {time for _, time, _ in found}


def play_alone(folder: Folder) -> None:
    """Plays one request after another, and checks that files are used again exactly if the file system shows each change."""
    harms = WAYS + HELD
    times = play(folder, harms, {})
    is_reused = len(times) < len(harms) * 3
    kind = subprocess.run(["stat", "-f", "-c", "%T", folder.path], capture_output=True, text=True, check=True).stdout.strip()
    if kind in SHOWING:
        want(is_reused, f"no file was used again on {kind}")
    elif kind == "tmpfs":
        want(not is_reused, "a file in memory was used again")


def kept_inputs(folder: Folder) -> None:
    """Plays a worker that changes its large input in each way, one request after another."""
    play_alone(folder)


def kept_in_folders(folder: Folder) -> None:
    """Plays the same worker with a folder for each request."""
    play(folder, WAYS, {"supports-multiplex-workers": "1", "supports-multiplex-sandboxing": "1"})


def kept_in_memory(folder: Folder) -> None:
    """Plays the same worker on a file system in memory, where nothing shows what is written through a mapping."""
    if not os.access("/dev/shm", os.W_OK):
        raise Skipped("there is no /dev/shm")
    with tempfile.TemporaryDirectory(prefix="edge-", dir="/dev/shm") as path:
        play_alone(Folder(path, folder.programs, folder.tool))


CASES = [kept_inputs, kept_in_folders, kept_in_memory]
