"""The common part of `lenthuvi`'s cases: a folder for each, workers, lists, and the front as a user runs it."""
from __future__ import annotations

import glob
import json
import os
import pathlib
import shutil
import signal
import subprocess
import sys
import tempfile
import time
import unittest
from typing import Any, Callable

TOP = pathlib.Path(__file__).resolve().parent.parent.parent
FRONT = str(TOP / "tools" / "lenthuvi")
BIN = os.environ.setdefault("LENTHUVI_BIN", str(TOP / "bin"))
sys.path.insert(0, str(TOP / "tools"))
SECONDS = 240  # the limit of each call, which holds on a busy machine too
# If the tests are started in the background, the shell makes them ignore SIGINT, and their children would inherit this.
signal.signal(signal.SIGINT, signal.default_int_handler)

WORKER = '''#!/usr/bin/python3
import json, os, sys, time
say = lambda **it: (sys.stdout.write(json.dumps(it) + "\\n"), sys.stdout.flush())
answered = 0
for line in sys.stdin:
    held = json.loads(line)
    words = dict(it.split("=", 1) for it in held.get("arguments", []))
    code, text = 0, ""
    BODY
    if "out" in words:
        os.makedirs(os.path.dirname(words["out"]) or ".", exist_ok=True)
        with open(words["out"], "w") as file:
            file.write("".join(open(it["path"]).read() for it in held["inputs"] if not it["path"].startswith("flags/")) + words.get("add", ""))
    say(exitCode=code, output=text, requestId=held.get("requestId", 0))
    answered += 1
'''


class Folder(unittest.TestCase):
    """A case with its own folder."""

    def setUp(self) -> None:
        self.before = os.getcwd()
        self.folder = tempfile.mkdtemp(prefix="front.", dir=os.environ.get("TMPDIR", "/tmp"))
        os.chdir(self.folder)
        os.environ["LENTHUVI_KEPT"] = os.path.join(self.folder, "kept")
        for name in ("LENTHUVI_OPTIONS", "GITHUB_ACTIONS", "NO_COLOR"):
            os.environ.pop(name, None)

    def tearDown(self) -> None:
        subprocess.run([FRONT, "workers", "--end"], stdout=subprocess.DEVNULL, stderr=subprocess.DEVNULL)
        os.chdir(self.before)
        shutil.rmtree(self.folder, ignore_errors=True)

    def worker(self, body: str = "pass", name: str = "worker") -> None:
        """Writes a worker in Python, which does `body` for each request."""
        pathlib.Path(name).write_text(WORKER.replace("BODY", body.replace("\n", "\n    ")))
        os.chmod(name, 0o755)

    def actions(self, number: int, width: int = 0, **more: Any) -> list[dict[str, Any]]:
        """Returns actions that each copy a source. With `width`, each also copies the output of an action one level before."""
        found: list[dict[str, Any]] = []
        for place in range(number):
            self.put(f"src/{place}", f"source {place}\n")
            self.put(f"flags/{place}", f"out=out/{place}\nname=a{place}\n")
            inputs = [f"flags/{place}", f"src/{place}"] + ([f"out/{place - width}"] if width and place >= width else [])
            found.append({"name": f"a{place}", "mnemonic": "Copy", "argv": ["worker", f"@flags/{place}"], "inputs": inputs,
                          "outputs": [f"out/{place}"], "requirements": {"supports-workers": "1", "requires-worker-protocol": "json"}, **more})
        return found

    def put(self, path: str, text: str) -> None:
        """Writes a file."""
        pathlib.Path(path).parent.mkdir(parents=True, exist_ok=True)
        pathlib.Path(path).write_text(text)

    def write_list(self, actions: list[dict[str, Any]], path: str = "list.json") -> None:
        """Writes a list."""
        pathlib.Path(path).write_text(json.dumps({"actions": actions}))

    def front(self, *words: str, status: int | None = 0, **more: Any) -> str:
        """Runs lenthuvi. Returns what it printed on both sides."""
        done = subprocess.run([FRONT, *words], stdout=subprocess.PIPE, stderr=subprocess.STDOUT, text=True, timeout=SECONDS, check=False, **more)
        if status is not None:
            self.assertEqual(done.returncode, status, done.stdout)
        return str(done.stdout)

    def begin(self, *words: str) -> subprocess.Popen[str]:
        """Starts lenthuvi."""
        return subprocess.Popen([FRONT, *words], stdout=subprocess.PIPE, stderr=subprocess.STDOUT, text=True)

    def until(self, is_so: Callable[[], Any], seconds: float = 120) -> None:
        """Waits until something is so."""
        end = time.monotonic() + seconds
        while not is_so():
            self.assertLess(time.monotonic(), end, "it took too long")
            time.sleep(0.02)

    def children(self, pid: int) -> list[str]:
        """Returns the processes that a process has started and that haven't been waited for."""
        try:
            return pathlib.Path(f"/proc/{pid}/task/{pid}/children").read_text().split()
        except OSError:
            return []

    def sleepers(self, mark: str) -> list[int]:
        """Returns the processes that have a mark among their arguments."""
        found = []
        for path in glob.glob("/proc/[0-9]*/cmdline"):
            try:
                if mark.encode() in pathlib.Path(path).read_bytes():
                    found.append(int(path.split("/")[2]))
            except OSError:
                pass
        return [it for it in found if it != os.getpid()]

    def copies(self, number: int, width: int = 0, **more: Any) -> list[dict[str, Any]]:
        """Returns the same actions for demo_tool, and puts demo_tool into the folder."""
        pathlib.Path("worker").unlink(missing_ok=True)  # It may be at work.
        shutil.copy(os.path.join(BIN, "demo_tool"), "worker")
        found = self.actions(number, width, **more)
        for place, it in enumerate(found):
            below = f"--in=out/{place - width}\n" if width and place >= width else ""
            self.put(f"flags/{place}", f"--in=src/{place}\n{below}--out=out/{place}\n")
            it["argv"] = ["worker", *(["--json"] if "requires-worker-protocol" in it["requirements"] else []), f"@flags/{place}"]
        return found

    def made(self) -> int:
        """Returns the number of outputs."""
        return len(glob.glob("out/*"))
