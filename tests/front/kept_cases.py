"""Cases of workers that outlive a run."""
from __future__ import annotations

import fcntl
import os
import pathlib
import shutil
import socket
import subprocess
import sys

from case import Folder


class Kept(Folder):
    """Workers that are kept after a run."""

    def pids(self) -> list[int]:
        """Returns the workers that are kept."""
        return [int(it.split()[0]) for it in self.front("workers").splitlines()[:-1]]

    def test_json_and_changes(self) -> None:
        self.worker('text = str(os.getpid()); time.sleep(0.05)')
        self.write_list(self.actions(4))
        self.assertIn("4 actions made", self.front("-j1", "--keep=900"))
        first = self.pids()
        self.assertEqual(len(first), 1)
        self.put("src/0", "other\n")
        self.assertIn("1 action made", self.front("-j1", "--keep=900"))
        self.assertEqual(pathlib.Path("out/0").read_text(), "other\n")
        self.assertEqual(self.pids(), first)
        self.worker('text = "other"')
        self.assertIn("4 actions made", self.front("-j1", "--keep=900"))
        self.assertNotEqual(self.pids()[0:1] + self.pids()[-1:], first * 2)
        self.assertIn("2 workers ended", self.front("workers", "--end"))
        self.until(lambda: self.pids() == [])

    def test_tools_are_in_the_key(self) -> None:
        self.worker("text = open('../../table').read()")
        self.put("table", "1")
        actions = self.actions(1, tools=["table"])
        self.write_list(actions)
        self.front("--keep=900")
        self.put("table", "2")
        self.front("--keep=900")
        self.assertEqual(len(self.pids()), 2)

    def test_protobuf_and_multiplex(self) -> None:
        modes: list[dict[str, str]] = [{}, {"supports-multiplex-workers": "1"}, {"supports-multiplex-workers": "1", "supports-multiplex-sandboxing": "1"}]
        for needs in modes:
            with self.subTest(needs):
                actions = self.copies(40, 8)
                for it in actions:
                    it["requirements"] = {"supports-workers": "1", **needs}
                    it["argv"].remove("--json")
                self.write_list(actions)
                self.front("workers", "--end")
                self.assertIn("40 actions made", self.front("run", "-j2", "--keep=900"))
                first = self.pids()
                for text in ("x\n", "y\n"):
                    self.put("src/0", text)
                    self.assertIn("5 actions made, 35 up to date", self.front("-j2", "--keep=900"))
                    self.assertTrue(pathlib.Path("out/32").read_text().endswith(text))
                self.assertTrue(set(first) <= set(self.pids()))

    def test_no_more_are_kept_than_may_run(self) -> None:
        self.worker()
        actions = self.actions(20)
        for place, it in enumerate(actions):
            it["argv"] = ["worker", f"--key={place}", f"@flags/{place}"]
        self.write_list(actions)
        self.assertIn("20 actions made", self.front("-j3", "--keep=900"))
        self.assertLessEqual(len(self.pids()), 4)

    def test_cut_off_request_ends_the_worker(self) -> None:
        self.worker(f'if words["name"] == "a1":\n    open("{self.folder}/begun", "w").close()\n    time.sleep(6000)')
        self.write_list(self.actions(2))
        run = self.begin("-j1", "--keep=900")
        self.until(lambda: os.path.exists("begun"))
        self.assertEqual(len(self.pids()), 1)
        run.kill()
        run.communicate()
        self.until(lambda: self.pids() == [] and not self.sleepers(self.folder + "/worker"))

    def test_idle(self) -> None:
        self.worker()
        self.write_list(self.actions(1))
        self.front("--keep=20")
        self.assertTrue(self.sleepers(self.folder + "/worker"))
        self.until(lambda: not self.sleepers(self.folder + "/worker"))
        self.assertEqual(self.pids(), [])
        self.assertEqual([it for it in os.listdir(".lenthuvi") if it.startswith("kept-")], [])

    def test_failures_and_stray_words(self) -> None:
        self.worker('if open(held["inputs"][1]["path"]).read() == "die": sys.exit(3)\nif open(held["inputs"][1]["path"]).read() == "bad": code = 5')
        self.write_list(self.actions(1))
        self.front("--keep=900")
        self.put("src/0", "bad")
        self.assertIn("exit 5", self.front("--keep=900", status=1))
        self.put("src/0", "die")
        self.assertIn("ended with status 3", self.front("--keep=900", "--retries=1", status=1))
        self.put("src/0", "good")
        self.assertIn("1 action made", self.front("--keep=900"))

    def test_another_folder_has_its_own(self) -> None:
        """Checks that two folders with the same list, worker and contents share no worker, since each has its own room."""
        self.worker("text = os.getcwd()")
        self.write_list(self.actions(1))
        self.front("--keep=900")
        first = self.pids()
        os.makedirs("other")
        for name in ("src", "flags"):
            os.rename(name, f"other/{name}")
        os.link("worker", "other/worker")
        os.rename("list.json", "other/list.json")
        os.chdir("other")
        self.front("--keep=900")
        self.assertEqual(len(self.pids()), 2)
        self.assertIn(first[0], self.pids())

    def test_another_folder_at_the_same_path(self) -> None:
        """Checks that a worker isn't found in a new folder at the path of one that was moved away."""
        self.put("project/src/0", "")
        os.chdir("project")
        self.worker()
        self.write_list(self.actions(1))
        self.front("--keep=900")
        first = self.pids()
        os.chdir(self.folder)
        os.rename("project", "moved")
        shutil.copytree("moved", "project", ignore=shutil.ignore_patterns(".lenthuvi", ".worker_rooms", "out"))
        os.chdir("project")
        self.assertIn("1 action made", self.front("--keep=900"))
        self.assertEqual((len(self.pids()), first[0] in self.pids()), (2, True))

    def test_another_environment(self) -> None:
        """Checks that a worker whose environment differs isn't used."""
        self.worker("text = os.environ['MODE']\nwords['add'] = os.environ['MODE']")
        for mode in ("one", "two"):
            self.write_list(self.actions(1, env={"MODE": mode}))
            self.front("--keep=900")
            self.assertEqual(pathlib.Path("out/0").read_text(), f"source 0\n{mode}")
        self.assertEqual(len(self.pids()), 2)

    def test_another_version_of_a_file_that_its_words_name(self) -> None:
        """Checks that a worker isn't used if a library that its start words name by a whole path has changed, as when a package is updated."""
        self.worker("words['add'] = library")
        source = pathlib.Path("worker")
        source.write_text(source.read_text().replace("answered = 0\n", "answered = 0\nlibrary = open(sys.argv[1].split(':')[1]).read()\n", 1))
        actions = self.actions(1)
        actions[0]["argv"] = ["worker", f"--path={self.folder}/none:{self.folder}/library", "@flags/0"]
        self.write_list(actions)
        for text in ("old", "new"):
            self.put("library", text)
            self.assertIn("1 action made", self.front("run", "--keep=900"))
            self.assertEqual(pathlib.Path("out/0").read_text(), f"source 0\n{text}")

    def test_an_end_that_meets_a_new_keeper(self) -> None:
        """Checks that a keeper whose time is over leaves the folder alone if another one has taken it over."""
        self.worker()
        self.write_list(self.actions(1))
        self.front("--keep=2")
        workers = self.pids()
        home = next(pathlib.Path(".lenthuvi").glob("kept-*"))
        path = next(it for it in pathlib.Path("kept").iterdir() if it.is_socket())
        with open("kept/.lock", "ab") as lock:
            fcntl.flock(lock, fcntl.LOCK_EX)
            self.until(lambda: not any(it in self.sleepers(self.folder) for it in workers))
            path.unlink()
            with socket.socket(socket.AF_UNIX) as line:
                line.bind(str(path))
                (home / "of another").touch()
                fcntl.flock(lock, fcntl.LOCK_UN)
                self.until(lambda: not self.sleepers(self.folder + "/.lenthuvi"))
                self.assertTrue((home / "of another").exists() and path.exists())

    def test_another_user_has_none_of_it(self) -> None:
        """Checks that only the user may use the folder of the sockets. A folder that others may use, or a link, is refused."""
        self.worker()
        self.write_list(self.actions(1))
        self.front("--keep=900")
        self.assertEqual(os.stat("kept").st_mode & 0o777, 0o700)
        os.chmod("kept", 0o777)
        self.assertIn("which must be yours alone", self.front("run", "--keep=900", status=5))
        os.chmod("kept", 0o700)
        os.rename("kept", "moved")
        os.symlink("moved", "kept")
        self.assertIn("which must be yours alone: no link", self.front("run", "--keep=900", status=5))
        os.remove("kept")
        os.rename("moved", "kept")
        if os.geteuid() == 0:
            os.chown("kept", 1234, 1234)
            self.assertIn("which must be yours alone", self.front("run", "--keep=900", status=5))
            os.chown("kept", 0, 0)
            self.put("ask.py", "import os, socket, sys\nos.setuid(1234)\nline = socket.socket(socket.AF_UNIX)\n"
                     "line.connect(sys.argv[1])\ntry:\n    line.sendall(b'a')\n    print(line.recv(10))\nexcept ConnectionError:\n    print(b'')\n")
            os.chmod("kept", 0o755)  # Even with the folder open, a keeper answers no other user.
            os.chmod(self.folder, 0o755)
            path = next(it for it in pathlib.Path("kept").resolve().iterdir() if it.is_socket())
            os.chmod(path, 0o777)
            asked = subprocess.run([sys.executable, "ask.py", str(path)], capture_output=True, text=True, check=False)
            self.assertNotIn("pid", asked.stdout)
            self.assertIn("b''", asked.stdout, asked.stderr)
            os.chmod("kept", 0o700)

    def test_a_tool_that_changes_in_the_run(self) -> None:
        """Checks that a worker isn't kept if it may have loaded a version other than the one it would be found by."""
        self.put("table", "1")
        self.worker(f'''
open("{self.folder}/table", "w").write("2")
text = open("{self.folder}/table").read()''')
        self.write_list(self.actions(1, tools=["table"]))
        self.front("--keep=900", "--retries=0")
        self.until(lambda: self.pids() == [] and not self.sleepers(self.folder + "/worker"))

    def test_the_same_version_again(self) -> None:
        """Checks that a tool that was changed and changed back finds the worker with its contents."""
        self.worker()
        self.put("table", "1")
        self.write_list(self.actions(1, tools=["table"]))
        self.front("run", "--keep=900")
        first = self.pids()
        self.put("table", "2")
        self.front("run", "--keep=900")
        self.put("table", "1")
        self.front("run", "--keep=900")
        self.assertEqual(len(self.pids()), 2)
        self.assertIn(first[0], self.pids())

    def test_memory(self) -> None:
        """Checks that kept workers are ended, the longest idle first, if together they have too much memory."""
        self.worker("keeps = bytearray(60_000_000)")
        actions = self.actions(3)
        for place, it in enumerate(actions):
            it["argv"] = ["worker", f"--key={place}", f"@flags/{place}"]
        self.write_list(actions)
        self.assertIn("ended, since all together had more than 170 MB", self.front("--keep=900", "--keep-memory=170"))
        self.until(lambda: len(self.pids()) == 2)
        self.assertIn("ended", self.front("run", "--keep=900", "--keep-memory=1"))
        self.until(lambda: self.pids() == [])

    def test_stray_bytes_end_it(self) -> None:
        """Checks that output between two runs ends a worker, since it would be taken for an answer."""
        self.worker(f"""
def stray():
    while not os.path.exists("{self.folder}/go"): time.sleep(0.02)
    say(requestId=0)
    open("{self.folder}/written", "w").close()
threading.Thread(target=stray, daemon=True).start()""")
        pathlib.Path("worker").write_text(pathlib.Path("worker").read_text().replace("import json,", "import threading, json,"))
        self.write_list(self.actions(1))
        self.front("--keep=900")
        first = self.pids()
        self.put("go", "")
        self.until(lambda: os.path.exists("written"))
        os.remove("go")
        self.put("src/0", "other\n")
        self.assertIn("1 action made", self.front("--keep=900"))
        self.assertNotIn(first[0], self.pids())
