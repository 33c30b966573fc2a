"""Cases of a run's bounds: -j over all keys, --alone, --isolate, limits, Ctrl-Z, full disks."""
from __future__ import annotations

import json
import marshal
import os
import pathlib
import resource
import shutil
import signal
import subprocess
import sys
import time
from typing import Any

from case import BIN, SECONDS, TOP, Folder

COUNTS = '''#!/usr/bin/python3
import fcntl, json, os, sys, threading, time
def change(by):
    with open("{folder}/level", "r+") as file:
        fcntl.flock(file, fcntl.LOCK_EX)
        now, most = map(int, file.read().split())
        file.seek(0)
        file.truncate()
        file.write(f"{{now + by}} {{max(most, now + by)}}")
lock = threading.Lock()
def handle(held):
    words = dict(it.split("=", 1) for it in held["arguments"])
    change(1)
    time.sleep(0.1)
    os.makedirs("out", exist_ok=True)
    open(words["out"], "w").write(words["name"])
    change(-1)
    with lock:
        print(json.dumps({{"requestId": held.get("requestId", 0)}}), flush=True)
for line in sys.stdin:
    threading.Thread(target=handle, args=[json.loads(line)]).start()
'''
# A worker that takes several requests at once, and dies when it handles the request of a3.
DEADLY = '''#!/usr/bin/python3
import json, os, sys, threading, time
lock = threading.Lock()
def handle(held):
    words = dict(it.split("=", 1) for it in held["arguments"])
    os.makedirs("out", exist_ok=True)
    open(words["out"], "w").write("half")
    time.sleep(0.3)
    if words["name"] == "a3":
        os._exit(5)
    open(words["out"], "w").write(words["name"])
    with lock:
        os.write(1, json.dumps({"requestId": held.get("requestId", 0)}).encode() + b"\\n")
for line in sys.stdin:
    threading.Thread(target=handle, args=[json.loads(line)]).start()
'''
SEVERAL = {"supports-workers": "1", "requires-worker-protocol": "json", "supports-multiplex-workers": "1"}


class Bounds(Folder):
    """Bounds of a run."""

    def script(self, text: str) -> None:
        """Writes a worker."""
        self.put("worker", text)
        os.chmod("worker", 0o755)

    def most_at_once(self) -> int:
        """Returns how many requests were at work at the same time."""
        return int(pathlib.Path("level").read_text().split()[1])

    def test_jobs_over_all_keys(self) -> None:
        """Checks that six worker keys with several requests at once never have more than -j requests at work."""
        self.script(COUNTS.format(folder=self.folder))
        actions = self.actions(36, requirements=SEVERAL)
        for place, it in enumerate(actions):
            it["argv"] = ["worker", f"--key={place % 6}", f"@flags/{place}"]
        self.write_list(actions)
        for words, most in ((["-j3"], 3), (["-j", "8"], 8), (["-j1", "--keep=20"], 1)):
            pathlib.Path("level").write_text("0 0")
            self.assertIn("36 actions made", self.front("run", *words))
            # How many are at work at once depends on the machine. It is never more than -j, and at least two if -j allows two.
            self.assertTrue(min(most, 2) <= self.most_at_once() <= most, (words, self.most_at_once()))

    def test_jobs_over_workers_and_executors(self) -> None:
        """Checks that -j also counts the jobs of job_pool, which takes eight at once."""
        self.put("job", '#!/bin/sh\necho $$ >"$1"\nsleep 0.2\n')
        os.chmod("job", 0o755)
        self.script(COUNTS.format(folder=self.folder))
        pathlib.Path("level").write_text("0 0")
        actions = self.actions(6, requirements=SEVERAL)
        for place in range(10):
            actions.append({"name": f"job{place}", "mnemonic": "Job", "argv": ["job", f"out/job{place}"], "inputs": [], "outputs": [f"out/job{place}"],
                            "strategy": "remote"})
        self.write_list(actions)
        begun = time.monotonic()
        self.assertIn("16 actions made", self.front("-j2", "--executor=job_pool"))
        self.assertGreater(time.monotonic() - begun, (10 * 0.2 + 6 * 0.1) / 2)
        self.assertLessEqual(self.most_at_once(), 2)

    def test_a_turn_comes_back_from_a_worker_that_dies(self) -> None:
        """Checks that a run with -j1 goes on although each worker dies during a request."""
        self.worker(f'''
if not os.path.exists("{self.folder}/died-" + words["name"]):
    open("{self.folder}/died-" + words["name"], "w").close()
    os.kill(os.getpid(), 9)''')
        actions = self.actions(6)
        for place, it in enumerate(actions):
            it["argv"] = ["worker", f"--key={place % 2}", f"@flags/{place}"]
        self.write_list(actions)
        self.assertIn("6 actions made", self.front("-j1"))

    def test_alone(self) -> None:
        """Checks that an action that kills its worker costs the seven others of that worker no attempt."""
        self.script(DEADLY)
        self.write_list(self.actions(16, requirements=SEVERAL))
        said = self.front("--alone", "--retries=0", "-j8", status=1)
        self.assertIn("its worker ended with status 5 before it answered", said)
        self.assertRegex(said, "15 actions made, 1 (failed|broken)")
        self.assertEqual([it for it in range(16) if it != 3 and pathlib.Path(f"out/{it}").read_text() != f"a{it}"], [])
        self.assertFalse(os.path.exists("out/3"))

    def test_alone_by_the_watcher(self) -> None:
        """Checks that the watcher answers eight requests of which one kills the worker, and that only this one fails."""
        self.script(DEADLY)
        config = {"events": "events", "logs": ".", "rooms": "", "stop": "stop", "stops": False, "limit": 0.0, "keep": 0.0, "tools": "",
                  "local": False, "in_turn": False, "start": ".", "form": "json", "kind": "Die", "names": {}, "alone": True, "outputs": {}}
        pathlib.Path("config").write_bytes(marshal.dumps(config))
        watcher = subprocess.Popen([sys.executable, "-I", "-S", str(TOP / "tools" / "front" / "watcher.py"), "config",
                                    os.path.abspath("worker"), "--persistent_worker"], stdin=subprocess.PIPE, stdout=subprocess.PIPE, text=True)
        assert watcher.stdin is not None and watcher.stdout is not None
        for place in range(8):
            watcher.stdin.write(json.dumps({"arguments": [f"name=a{place}", f"out=out/{place}"], "requestId": place + 1}) + "\n")
        watcher.stdin.flush()
        answers = {it.get("requestId"): it for it in (json.loads(watcher.stdout.readline()) for _ in range(8))}
        watcher.stdin.close()
        watcher.wait(30)
        watcher.stdout.close()
        self.assertEqual(sorted(answers), list(range(1, 9)))
        self.assertEqual([number for number, it in answers.items() if it.get("exitCode")], [4])
        self.assertIn("its worker ended with status 5 before it answered, also when it had this request alone", answers[4]["output"])
        self.assertEqual([it for it in range(8) if it != 3 and pathlib.Path(f"out/{it}").read_text() != f"a{it}"], [])

    def test_isolated(self) -> None:
        """Checks that an isolated worker can't write outside of its room, sees no other file of the start folder, and has no network."""
        if shutil.which("bwrap") is None:
            self.worker()
            self.write_list(self.actions(1))
            self.assertIn("--isolate needs bwrap", self.front("run", "--isolate", status=2))
            self.skipTest("bwrap isn't there")
        self.put("secret", "s")
        self.put("table", "t")
        self.worker(f'''
text = " ".join(str(it) for it in (os.path.exists("../../secret"), os.path.exists("../../table"), len(os.listdir("/sys/class/net"))))
for path in ("{self.folder}/own", "/etc/own", "/var/tmp/own"):
    try:
        open(path, "w").close()
        text += " " + path
    except OSError:
        pass
code = 7''')
        self.write_list(self.actions(1, tools=["table"]))
        said = self.front("--isolate", status=None)
        if "bwrap can't make a sandbox here" in said:
            self.skipTest("bwrap can't make a sandbox here")
        self.assertRegex(said, r"\| False True \d+\n")
        self.assertFalse(os.path.exists("own") or os.path.exists("/etc/own") or os.path.exists("/var/tmp/own"))
        self.worker()
        self.assertIn("1 action made", self.front("--isolate"))
        self.assertEqual(pathlib.Path("out/0").read_text(), "source 0\n")
        job = {"name": "job", "mnemonic": "Job", "argv": ["/bin/sh", "-c", f"cat in >out; ls {self.folder} | wc -l >>out; ! touch {self.folder}/own"],
               "inputs": ["in"], "outputs": ["out"], "strategy": "remote", "env": {"PATH": "/usr/bin:/bin"}}
        self.put("in", "in\n")
        shutil.rmtree("out")
        self.write_list([job])
        self.assertIn("1 action made", self.front("--isolate", "--limit=20"))
        self.assertFalse(os.path.exists("own"))

    def test_stopped_and_continued(self) -> None:
        """Checks that Ctrl-Z also stops the program and its workers, and that the time doesn't count for --limit."""
        self.worker(f'''
for _ in range(10):
    time.sleep(0.1)
    open("{self.folder}/beat", "a").write(".")''')
        self.write_list(self.actions(1))
        run = self.begin("--limit=20")

        def beats() -> int:
            return os.path.getsize("beat") if os.path.exists("beat") else 0

        self.until(lambda: beats() >= 2)
        run.send_signal(signal.SIGTSTP)
        self.until(lambda: "T" in pathlib.Path(f"/proc/{run.pid}/stat").read_text().rsplit(")", 1)[1].split()[0])
        before = beats()
        time.sleep(21)
        self.assertEqual(beats(), before)
        run.send_signal(signal.SIGCONT)
        said = run.communicate(timeout=SECONDS)[0]
        self.assertEqual(run.returncode, 0, said)
        self.assertIn("1 action made", said)

    def test_second_interrupt_ends_at_once(self) -> None:
        self.worker("import signal; signal.signal(signal.SIGTERM, signal.SIG_IGN); time.sleep(600)")
        self.write_list(self.actions(1))
        run = self.begin()
        self.until(lambda: self.sleepers(self.folder + "/worker"))
        begun = time.monotonic()
        run.send_signal(signal.SIGINT)
        time.sleep(0.2)
        run.send_signal(signal.SIGINT)
        run.communicate(timeout=SECONDS)
        # It ends by itself, or by the second signal if that arrives while it ends.
        self.assertIn(run.returncode, (130, -signal.SIGINT))
        self.assertLess(time.monotonic() - begun, SECONDS)
        self.until(lambda: not self.sleepers(self.folder + "/worker"))

    def test_full_disk(self) -> None:
        """Checks that a run reports what it can't write, and that the next call is right. No file may grow beyond a few bytes."""
        self.worker()
        self.write_list(self.actions(30))

        def small() -> None:
            signal.signal(signal.SIGXFSZ, signal.SIG_IGN)
            resource.setrlimit(resource.RLIMIT_FSIZE, (size, resource.getrlimit(resource.RLIMIT_FSIZE)[1]))

        for size in (0, 200, 3000, 9000):
            with self.subTest(size):
                done = subprocess.run([*self.command(), "run"], capture_output=True, text=True, preexec_fn=small, check=False)
                self.assertNotIn("Traceback", done.stderr)
                self.assertNotEqual(done.returncode, 0)
                self.assertTrue(done.stderr.strip())
        self.assertEqual(self.front("-q"), "")
        self.assertEqual([it for it in range(30) if pathlib.Path(f"out/{it}").read_text() != f"source {it}\n"], [])

    def command(self) -> list[str]:
        """Returns the front's command."""
        from case import FRONT

        return [FRONT]

    def test_outputs_that_cant_be_written(self) -> None:
        """Checks that a build whose output files can't be written is done and remembered, and that the status shows it."""
        self.worker()
        for words in (["--json=/dev/full"], ["--report=nix/report"], ["--page=nix/page"], ["--trace=nix/trace"], ["--journal=nix/journal"]):
            self.write_list(self.actions(2))
            shutil.rmtree(".lenthuvi", ignore_errors=True)
            with self.subTest(words):
                said = self.front(*words, status=6)
                self.assertIn("can't be written", said)
                self.assertIn("2 up to date", self.front())

    def test_nobody_reads(self) -> None:
        """Checks that the run goes on if standard error is closed in the middle."""
        self.worker("time.sleep(0.05)")
        self.write_list(self.actions(30))
        run = subprocess.Popen([*self.command(), "-v", "-j2"], stderr=subprocess.PIPE, text=True)
        assert run.stderr is not None
        run.stderr.readline()
        run.stderr.close()
        self.assertEqual(run.wait(60), 0)
        self.assertIn("30 up to date", self.front())


class Hangs(Folder):
    """Cases of workers and executors that never answer. --limit ends them, and the front prints the cause."""

    def hang(self, worker: str, cause: str, words: tuple[str, ...] = (), **more: Any) -> None:
        """Runs an action whose worker hangs."""
        self.put("worker", worker)
        os.chmod("worker", 0o755)
        self.write_list(self.actions(1, **more))
        begun = time.monotonic()
        said = self.front("run", "--limit=0.7", "--retries=0", *words, status=9)
        self.assertRegex(said, cause)
        self.assertLess(time.monotonic() - begun, SECONDS)
        self.until(lambda: not self.sleepers(self.folder + "/worker"))

    def test_banner_in_protobuf(self) -> None:
        self.hang("#!/bin/sh\necho starting up\nexec 3>&1\nexec cat >/dev/null\n", "'starting up.n'; messages for people belong on standard error",
                  requirements={"supports-workers": "1"})

    def test_nothing_is_flushed(self) -> None:
        self.hang("#!/bin/sh\nexec 3>&1\nexec cat >/dev/null\n", "it wrote nothing: does it flush its output")

    def test_no_line_feed(self) -> None:
        self.hang("#!/bin/sh\nread line\nprintf '{}'\nexec 3>&1\nexec cat >/dev/null\n", "it wrote '{}'; an answer in JSON is one line")

    def test_json_where_protobuf_is_asked_for(self) -> None:
        self.hang("#!/bin/sh\nhead -c 1 >/dev/null\necho '{\"exitCode\": 0}'\nexec 3>&1\nexec cat >/dev/null\n", 'that is JSON, for which a list asks by',
                  requirements={"supports-workers": "1"})

    def test_protobuf_where_json_is_asked_for(self) -> None:
        self.hang("#!/bin/sh\nread line\nprintf '\\000'\nexec 3>&1\nexec cat >/dev/null\n", "the list asks for JSON; is that protobuf")

    def test_wrong_number(self) -> None:
        self.hang("#!/bin/sh\nread line\necho '{\"requestId\": 77}'\nexec 3>&1\nexec cat >/dev/null\n", "it answered request 77, which wasn't open",
                  requirements=SEVERAL)

    def test_reads_to_the_end_first(self) -> None:
        self.hang("#!/usr/bin/python3\nimport sys\nsys.stdin.read()\n", "it wrote nothing")

    def test_deadlock(self) -> None:
        self.hang("#!/usr/bin/python3\nimport threading\nlock = threading.Lock()\nlock.acquire()\nlock.acquire()\n", "it wrote nothing")

    def test_job_that_sleeps(self) -> None:
        for executor in ("remote_exec", "job_pool"):
            self.put("job", "#!/bin/sh\nsleep 600\n")
            os.chmod("job", 0o755)
            self.write_list([{"name": "job", "mnemonic": "Job", "argv": ["job"], "inputs": [], "outputs": ["out/job"], "strategy": "remote"}])
            begun = time.monotonic()
            said = self.front("run", "--limit=0.7", "--retries=0", f"--executor={executor}", status=9)
            self.assertIn("ended job: no answer for 0.7 s (--limit)", said)
            self.assertLess(time.monotonic() - begun, SECONDS)

    def test_child_that_holds_the_output(self) -> None:
        self.put("worker", f"#!/bin/sh\n/bin/sleep 3{os.getpid()} &\nexit 1\n")
        os.chmod("worker", 0o755)
        self.write_list(self.actions(1))
        begun = time.monotonic()
        self.assertIn("its worker ended with status 1 before it answered", self.front("--retries=0", status=1))
        self.assertLess(time.monotonic() - begun, SECONDS)
        self.until(lambda: not self.sleepers(f"3{os.getpid()}"))

    def test_a_jobs_time_begins_when_its_turn_does(self) -> None:
        """Checks that no job exceeds a limit of two seconds if one remote_exec gets eight jobs of half a second."""
        self.put("job", '#!/bin/sh\nsleep 0.5\n: >"$1"\n')
        os.chmod("job", 0o755)
        self.write_list([{"name": f"job{it}", "mnemonic": "Job", "argv": ["job", f"out/{it}"], "inputs": [], "outputs": [f"out/{it}"],
                          "strategy": "remote"} for it in range(8)])
        self.put("far", f'#!/bin/sh\nexec {BIN}/remote_exec "$@"\n')
        os.chmod("far", 0o755)
        for executor in ("remote_exec", "./far"):
            self.assertIn("8 actions made", self.front("run", "--limit=2", f"--executor={executor}"))
        self.assertEqual(marshal.loads(pathlib.Path(".lenthuvi/lists/list/keys/executor").read_bytes())["local"], False)
