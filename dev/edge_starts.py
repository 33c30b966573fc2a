"""Cases of a run's environment at its start, of its limits, and of rooms that change while they are read."""
from __future__ import annotations

import json
import os
import pathlib
import resource
import subprocess

from edge_folder import MAKE, TOOLS, Folder, Limit, all_ok, as_nobody, want

# Swaps the folder `o` of its room for a link to a folder of the user's, and back, as fast as it can, while it answers.
SWAPPER = f"""#!/usr/bin/env python3
import ctypes, os, sys, threading
sys.path.insert(0, {str(TOOLS)!r})
from worker_wire import Response, requests, response_bytes
exchange = ctypes.CDLL(None).renameat2
def swap():
    os.symlink(os.environ["USERS"], "link")
    while True:
        try:
            os.makedirs("o", exist_ok=True)
        except OSError:
            pass
        exchange(-100, b"o", -100, b"link", 2)
threading.Thread(target=swap, daemon=True).start()
for request in requests(sys.stdin.buffer, as_json=True):
    for name in os.listdir("f"):
        try:
            with open("o/" + name, "w") as file:
                file.write("done\\n")
        except OSError:
            pass
    sys.stdout.buffer.write(response_bytes(Response(0, 0, ""), as_json=True))
    sys.stdout.buffer.flush()
"""


def run_with(folder: Folder, redirection: str, *options: str) -> tuple[int, str]:
    """Runs one action with descriptors that the shell closed or redirected. Returns the status and the output."""
    folder.worker("worker", MAKE)
    folder.write("list.json", json.dumps({"actions": [folder.action("a")]}), 0o644)
    command = " ".join([folder.tool, *options, "list.json", redirection])
    done = subprocess.run(["/bin/sh", "-c", command], cwd=folder.path, stdin=subprocess.DEVNULL, capture_output=True, text=True,
                          timeout=300, check=False)
    return done.returncode, done.stdout + done.stderr


def closed_output(folder: Folder) -> None:
    """Closes standard output. The report can't be written, and no file of the run itself gets it."""
    for closed in (">&-", "<&- >&- 2>&-"):
        status, said = run_with(folder, closed)
        want(status == 6, f"with {closed} the status is {status} and not 6: {said}")
        want(folder.read(".worker_rooms/lock") == "", f"with {closed} the lock's file has {folder.read('.worker_rooms/lock')!r}")
    for closed in ("<&-", "2>&-"):
        status, said = run_with(folder, closed)
        want(status == 0 and all_ok(1) in said, f"with {closed} the status is {status}: {said}")


def unwaiting_output(folder: Folder) -> None:
    """Uses a non-blocking standard output that is read slowly. The report must be whole."""
    names = [f"{'n' * 200}{number}" for number in range(600)]
    folder.worker("worker", MAKE)
    folder.write("list.json", json.dumps({"actions": [folder.action(name) for name in names]}), 0o644)
    reading, writing = os.pipe()
    os.set_blocking(writing, False)
    with subprocess.Popen([folder.tool, "list.json"], cwd=folder.path, stdin=subprocess.DEVNULL, stdout=writing,
                          stderr=subprocess.DEVNULL) as run:
        os.close(writing)
        with open(reading, "rb") as file:
            report = file.read().decode()
    want(run.returncode == 0, f"the status is {run.returncode}")
    want(report.endswith(all_ok(600) + "\n"), f"the report has {len(report)} bytes and ends with {report[-60:]!r}")


def file_limit(folder: Folder) -> None:
    """Limits the size of files. The action whose file is larger fails, and the run doesn't."""
    folder.worker("worker", MAKE)
    end = folder.run([folder.action("a", words="x" * 9_000), folder.action("b")], "--retries=0", limit=small_files)
    end.want(1, "a broken local=dropped:room:1 remote=unused")
    end.want(1, "b ok local local=won remote=unused")


def small_files() -> None:
    resource.setrlimit(resource.RLIMIT_FSIZE, (4096, 4096))


def lock_is_a_fifo(folder: Folder) -> None:
    """Checks that the run doesn't wait if the lock's file isn't a regular file, and names it."""
    folder.worker("worker", MAKE)
    (folder.path / ".worker_rooms").mkdir()
    os.mkfifo(folder.path / ".worker_rooms/lock")
    folder.run([folder.action("a")]).want(5, "  `.worker_rooms/lock` is no regular file")


def lock_without_rights(folder: Folder) -> None:
    """Checks that a lock's file without permissions is opened all the same. A worker can't keep the next run out."""
    folder.worker("worker", f"{MAKE}; chmod 000 ../lock")
    limit = as_nobody(folder)
    for _ in range(2):
        folder.run([folder.action("a")], limit=limit).want(0, all_ok(1))


def links_in_a_room(folder: Folder) -> None:
    """Plays a worker that swaps a folder for a link to a folder of the user's. No file there is removed or read."""
    users = folder.path / "users"
    users.mkdir()
    names = [f"a{number}" for number in range(150)]
    for name in names:
        (users / name).write_text("the user's\n")
    folder.write("worker", SWAPPER)
    actions = [folder.action(name) for name in names]
    for action in actions:
        action["env"] = {"USERS": str(users), "PATH": os.environ["PATH"]}
    folder.run(actions, "--instances=1", "--retries=0")
    left = [name for name in names if (users / name).exists()]
    want(len(left) == len(names), f"{len(names) - len(left)} of the user's files are gone")
    foreign = [name for name in names if folder.read(f"o/{name}") == "the user's\n"]
    want(not foreign, f"{len(foreign)} outputs are files from outside of the room")


# Answers several requests at once, in JSON, and removes the folder of the inputs after each.
REMOVER = """#!/usr/bin/env python3
import json, os, shutil, sys
for line in sys.stdin:
    request = json.loads(line)
    name = request["arguments"][0]
    text = open("f/" + name).read()
    with open("o/" + name, "w") as file:
        file.write(text)
    shutil.rmtree("f")
    print(json.dumps({"requestId": request["requestId"]}), flush=True)
"""


def replaced_folders(folder: Folder) -> None:
    """Plays a multiplex worker, whose room isn't emptied, that removes a folder. The next request has the folder again."""
    folder.write("worker", REMOVER)
    actions = []
    for number in range(10):
        name = f"a{number}"
        action = folder.action(name, words=name)
        action["requirements"]["supports-multiplex-workers"] = "1"
        action["env"] = {"PATH": os.environ["PATH"]}
        # One after another, so that no request lacks files that another one has removed.
        action["inputs"] += [f"o/a{number - 1}"] * (number > 0)
        actions.append(action)
    folder.run(actions, "--instances=1", "--retries=0").want(0, all_ok(10))
    want(folder.read("o/a9") == "a9", f"the last output is {folder.read('o/a9')!r}")


def growing_output(folder: Folder) -> None:
    """Plays an output that grows while it is read. Its own action fails, and the other one is ok."""
    grow = 'head -c 40000000 /dev/zero >"o/$name"; (while :; do head -c 4000000 /dev/zero; done >>"o/$name") & sleep 0.1'
    folder.worker("growing", grow)
    folder.worker("worker", MAKE)
    end = folder.run([folder.action("a", "growing"), folder.action("b")], "--retries=0", limit=some_bytes)
    end.want(1, "b ok local local=won remote=unused")
    want("a broken local=dropped:room:1 remote=unused" in end.report, f"the report is {end.report}")


def some_bytes() -> None:
    """Limits the size of files, so that a failing case doesn't fill the disk."""
    resource.setrlimit(resource.RLIMIT_FSIZE, (2_000_000_000, 2_000_000_000))


def own_names(folder: Folder) -> None:
    """Checks that files that the run writes for itself can't be outputs of a list."""
    folder.worker("worker", MAKE)
    for path in (".worker_rooms/lock", ".worker_rooms/1/x", "o/.worker_tool.0.part"):
        action = folder.action("a")
        action["outputs"] = [path]
        folder.run([action]).want(4, "worker_tool: list refused: BadPath action 0")


def wedged_room(folder: Folder) -> None:
    """Plays a worker that leaves read-only folders with names that aren't UTF-8. Each later action must get a room."""
    left = "mkdir -p \"$(printf 'm\\351')/n\"; printf x >\"$(printf 'm\\351')/n/z\"; chmod 555 \"$(printf 'm\\351')/n\""
    folder.worker("worker", f"{MAKE}; {left}; chmod 555 \"$(printf 'm\\351')\"")
    actions = [folder.action(f"a{number}") for number in range(3)]
    limit: Limit = as_nobody(folder)
    for _ in range(2):
        folder.run(actions, "--instances=1", limit=limit).want(0, all_ok(3))


def rooms_that_stay(folder: Folder) -> None:
    """Checks that after a run each worker's last room is there, and no other one."""
    folder.worker("worker", MAKE)
    for number in range(3):
        folder.run([folder.action("a")], "--instances=1").want(0, all_ok(1))
        rooms = sorted(path.name for path in pathlib.Path(folder.path, ".worker_rooms").iterdir() if path.name != "lock")
        want(rooms == [f"0.{number}" if number else "0"], f"behind run {number} the rooms are {rooms}")


CASES = [closed_output, unwaiting_output, file_limit, lock_is_a_fifo, lock_without_rights, links_in_a_room, replaced_folders, growing_output,
         own_names, wedged_room, rooms_that_stay]
