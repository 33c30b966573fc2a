"""Cases of runs that are stopped, and of workers or executors that hang, die, or leave processes or files."""
from __future__ import annotations

import glob
import os
import pathlib
import random
import shutil
import signal
import subprocess
import time

from case import BIN, SECONDS, Folder

# Replaces worker_tool: acts like a run that made its first action, and then ran out of memory.
HALTS = """#!/bin/sh
mkdir -p out
cp src/0 out/0
echo 'a0 ok local local=won remote=unused'
echo 'a1 open local=idle remote=unused'
echo 'actions=2 ok=1 failed=0 broken=0 skipped=0'
echo 'worker_tool: no memory' >&2
exit 3
"""


class Ends(Folder):
    """Cases of runs that are stopped, and of workers that hang or die."""

    def slow(self, number: int, seconds: float = 0.2, width: int = 0) -> None:
        self.worker(f"time.sleep({seconds})")
        self.write_list(self.actions(number, width))

    def test_interrupted(self) -> None:
        # From the eighth output on the workers wait, so that the run doesn't end before the signal comes.
        waits = f'import os\nwhile len(os.listdir("{self.folder}/out")) >= 8 and not os.path.exists("{self.folder}/go"): time.sleep(0.02)'
        pathlib.Path("out").mkdir(exist_ok=True)
        self.worker(waits)
        self.write_list(self.actions(40))
        run = self.begin("-j", "2")
        self.until(lambda: self.made() >= 8)
        run.send_signal(signal.SIGINT)
        self.until(lambda: not self.children(run.pid))
        self.put("go", "")
        said = run.communicate()[0]
        self.assertEqual(run.returncode, 130, said)
        kept = self.made()
        self.assertIn(f"interrupted: {kept} actions made, {40 - kept} not reached", said)
        said = self.front("-j", "4")
        self.assertIn(f"{40 - kept} actions made, {kept} up to date", said)
        self.assertEqual([it for it in range(40) if pathlib.Path(f"out/{it}").read_text() != f"source {it}\n"], [])

    def test_killed(self) -> None:
        for moment in (3, 9, 17):
            with self.subTest(moment):
                for path in ("out", ".lenthuvi"):
                    shutil.rmtree(path, ignore_errors=True)
                self.slow(24, 0.1, 6)
                run = self.begin("-j", "2")
                self.until(lambda: self.made() >= moment)
                run.kill()
                run.communicate()
                self.until(lambda: not self.sleepers(self.folder + "/worker"))
                kept = self.made()
                said = self.front("-j", "4")
                self.assertIn(f"{kept} actions of a run that was ended early are kept", said)
                self.assertIn(f"{24 - kept} actions made, {kept} up to date", said)

    def test_ten_interruptions(self) -> None:
        self.worker(f'open("{self.folder}/log", "a").write(words["name"] + "\\n"); time.sleep(0.02)')
        self.write_list(self.actions(300, 60))
        chance = random.Random(4)
        for _ in range(10):
            run = self.begin("-j", "4")
            moment = self.made() + chance.randrange(1, 24)
            self.until(lambda: self.made() >= moment or run.poll() is not None)
            run.send_signal(chance.choice([signal.SIGINT, signal.SIGTERM, signal.SIGKILL]))
            run.communicate()
            self.until(lambda: not self.sleepers(self.folder + "/worker"))
            self.assertIn(f"{self.made()} up to date", self.front("-n"))
        self.front("-j", "4")
        want = [f"source {place}\n" for place in range(300)]
        for place in range(60, 300):
            want[place] += want[place - 60]
        self.assertEqual([it for it in range(300) if pathlib.Path(f"out/{it}").read_text() != want[it]], [])
        self.assertLess(len(pathlib.Path("log").read_text().split()) - 300, 10 * 8)
        self.assertIn("300 up to date", self.front())

    def test_journal(self) -> None:
        self.worker()
        self.write_list(self.actions(6, 3))
        said = self.front("--journal=journal", "--report=report")
        self.assertIn("journal: legal actions=6 entries=", said)
        self.assertEqual(pathlib.Path("report").read_text().splitlines()[-1], "actions=6 ok=6 failed=0 broken=0 skipped=0")

    def test_watch(self) -> None:
        self.worker()
        self.write_list(self.actions(2))
        run = self.begin("watch")
        assert run.stdout is not None
        self.assertTrue(any("2 actions made" in line for line in iter(run.stdout.readline, "")))
        self.put("src/0", "again\n")
        self.assertTrue(any("1 action made" in line for line in iter(run.stdout.readline, "")))
        self.assertEqual(pathlib.Path("out/0").read_text(), "again\n")
        run.send_signal(signal.SIGINT)
        run.communicate()

    def test_watch_sees_a_change_in_the_course_of_a_build(self) -> None:
        self.worker(f'open("{self.folder}/begun", "a").close()\nwhile not os.path.exists("{self.folder}/go"): time.sleep(0.02)')
        self.write_list(self.actions(1))
        run = self.begin("watch")
        self.until(lambda: os.path.exists("begun"))
        self.put("src/0", "again\n")
        self.put("go", "")
        self.until(lambda: os.path.exists("out/0") and pathlib.Path("out/0").read_text() == "again\n")
        run.send_signal(signal.SIGINT)
        run.communicate()

    def test_stop(self) -> None:
        self.worker('time.sleep(0.1)\nif words["name"] == "a3": code = 1')
        self.write_list(self.actions(40))
        said = self.front("-j", "2", "--stop", status=1)
        self.assertIn("1 failed", said)
        self.assertIn("not reached", said)
        self.assertLess(self.made(), 12)
        kept = self.made()
        self.worker()
        self.write_list(self.actions(40))
        self.assertGreaterEqual(kept, 2)

    def test_limit_by_mnemonic(self) -> None:
        self.worker('if words["name"] == "a1": time.sleep(600)')
        actions = self.actions(3)
        actions[1]["mnemonic"] = "Slow"
        self.write_list(actions)
        begun = time.monotonic()
        said = self.front("--limit=Slow=0.5", "--retries=1", status=9)
        self.assertIn("ended a1: no answer for 0.5 s (--limit)", said)
        self.assertIn("2 actions made, 1 broken", said)
        self.assertLess(time.monotonic() - begun, SECONDS)

    def test_child_that_holds_the_pipe(self) -> None:
        mark = f"9{os.getpid()}"
        self.worker(f'import subprocess; subprocess.Popen(["/bin/sleep", "{mark}"]); sys.exit(1)')
        self.write_list(self.actions(1))
        begun = time.monotonic()
        said = self.front("--retries=1", status=1)
        self.assertLess(time.monotonic() - begun, SECONDS)
        self.assertIn("FAILED a0", said)
        self.until(lambda: not self.sleepers(mark))

    def test_group_is_killed(self) -> None:
        mark = f"8{os.getpid()}"
        self.worker(f'import subprocess; subprocess.Popen(["/bin/sleep", "{mark}"])')
        self.write_list(self.actions(2))
        self.front()
        self.until(lambda: not self.sleepers(mark))

    def test_ends_by_itself_between_requests(self) -> None:
        self.worker("pass")
        text = pathlib.Path("worker").read_text().replace("    answered += 1", "    answered += 1\n    if answered == 3: sys.exit(0)")
        pathlib.Path("worker").write_text(text)
        self.write_list(self.actions(60))
        said = self.front("--retries=0", "-j", "2")
        self.assertIn("60 actions made", said)

    def test_errors_have_names(self) -> None:
        self.worker('print("warning: odd", file=sys.stderr, flush=True); time.sleep(0.05)')
        self.write_list(self.actions(2))
        said = self.front()
        self.assertIn("a0: warning: odd", said)
        self.assertIn("a1: warning: odd", said)

    def test_rooms_are_kept(self) -> None:
        self.worker('code, text = 1, "error"; open("left", "w").write(words["name"])')
        self.write_list(self.actions(1))
        self.front("--keep-rooms", status=1)
        self.assertEqual(pathlib.Path(".lenthuvi/rooms/a0.1/left").read_text(), "a0")
        said = self.front("explain", "a0")
        self.assertIn("once more, by hand: cd ", said)
        command = said.split("once more, by hand: ")[1].splitlines()[0]
        self.assertIn('"output": "error"', subprocess.run(["/bin/sh", "-c", command], capture_output=True, text=True).stdout)

    def test_banner(self) -> None:
        self.worker()
        text = pathlib.Path("worker").read_text().replace("answered = 0", 'answered = 0; print("hello, I start", flush=True)', 1)
        pathlib.Path("worker").write_text(text)
        self.write_list(self.actions(1))
        self.assertIn("where only answers belong, it wrote 'hello, I start", self.front("--limit=1", "--retries=0", status=None))

    def test_job_of_an_executor(self) -> None:
        self.put("job", '#!/bin/sh\necho "error: in the job" >&2\nread n <"$1"\n[ "$n" = bad ] && exit 2\n[ "$n" = slow ] && sleep 600\ncat "$1" >"$2"\n')
        os.chmod("job", 0o755)
        actions = []
        for name in ("good", "bad", "slow"):
            self.put(name, name + "\n")
            actions.append({"name": name, "mnemonic": "Job", "argv": ["job", name, f"out/{name}"], "inputs": [name, "job"],
                            "outputs": [f"out/{name}"], "strategy": "remote"})
        self.write_list(actions)
        begun = time.monotonic()
        said = self.front("--limit=1.5", "--executor=job_pool", "--retries=0", status=9)
        self.assertLess(time.monotonic() - begun, SECONDS)
        self.assertIn("FAILED bad  exit 2 (Job)\n  | error: in the job", said)
        self.assertIn("1 action made", said)
        self.assertIn("slow", said)

    def test_race(self) -> None:
        self.write_list(self.copies(40, strategy="dynamic"))
        self.assertIn("40 actions made", self.front())
        self.assertIn("40 actions made", self.front("run", "--plain"))

    def test_other_executor_gets_the_lists_own_words(self) -> None:
        self.put("far", f"""#!/bin/sh
tee {self.folder}/jobs.$$ | {BIN}/remote_exec "$@"
""")
        os.chmod("far", 0o755)
        self.write_list(self.copies(6))
        self.assertIn("6 actions made", self.front("--executor=./far", "--strategy=Copy=remote"))
        jobs = b"".join(pathlib.Path(it).read_bytes() for it in glob.glob("jobs.*"))
        self.assertTrue(b"@flags/" in jobs and b"watch.py" not in jobs)

    def test_other_executor_that_hangs(self) -> None:
        self.put("far", "#!/bin/sh\ncat >/dev/null\nsleep 600\n")
        os.chmod("far", 0o755)
        self.put("in", "x")
        self.write_list([{"name": "job", "mnemonic": "Job", "argv": ["/bin/cp", "in", "out/job"], "inputs": ["in"], "outputs": ["out/job"],
                    "strategy": "remote"}])
        begun = time.monotonic()
        said = self.front("--executor=./far", "--limit=1", "--retries=1", status=9)
        self.assertLess(time.monotonic() - begun, SECONDS)
        self.assertIn("it owed an answer for longer than --limit", said)

    def test_daemon_of_a_worker_doesnt_hold_the_caller(self) -> None:
        mark = f"7{os.getpid()}"
        self.worker(f'import subprocess; subprocess.Popen(["/usr/bin/setsid", "/bin/sleep", "{mark}"])')
        self.write_list(self.actions(1))
        begun = time.monotonic()
        self.assertIn("1 action made", self.front())
        self.assertLess(time.monotonic() - begun, SECONDS)
        for pid in self.sleepers(mark):
            os.kill(pid, signal.SIGKILL)

    def test_same_inputs_other_words(self) -> None:
        self.worker('code = int(words.get("code", 0))')
        actions = self.actions(2)
        for place, it in enumerate(actions):
            it["inputs"] = ["flags/0", "flags/1", "src/0"]
        self.put("flags/0", "out=out/0\ncode=0\nname=a0\n")
        self.put("flags/1", "out=out/1\ncode=7\nname=a1\n")
        self.write_list(actions)
        said = self.front(status=1)
        self.assertIn("failed a1: exit 7", said)
        self.assertNotIn("failed a0", said)

    def test_odd_folder_and_names(self) -> None:
        os.makedirs("a 'b\" ü")
        os.chdir("a 'b\" ü")
        self.worker('if words["name"] == "a1": code = 1')
        actions = self.actions(2)
        actions[1]["name"] = "//ü:x'\"$(id)"
        self.write_list(actions)
        said = self.front("--keep-rooms", status=1)
        self.assertIn("FAILED //ü:x'\"$(id)", said)
        self.assertIn("1 action made", said)
        self.assertIn("once more, by hand", self.front("explain", "//ü:x'\"$(id)"))

    def test_program_missing_or_refused(self) -> None:
        self.worker()
        self.write_list(self.actions(1))
        said = self.front(status=5, env={**os.environ, "LENTHUVI_BIN": "/nowhere"})
        self.assertIn("/nowhere/worker_tool isn't there", said)
        os.remove("src/0")
        said = self.front(status=5)
        self.assertIn("src/0", said)

    def test_program_halts(self) -> None:
        """Checks that an action that was reported as ok is remembered if the run ran out of memory after that."""
        self.worker()
        self.write_list(self.actions(2))
        os.mkdir("bin")
        self.put("bin/worker_tool", HALTS)
        os.chmod("bin/worker_tool", 0o755)
        said = self.front("--plain", status=3, env={**os.environ, "LENTHUVI_BIN": os.path.abspath("bin")})
        self.assertIn("worker_tool ended with status 3; what is ok is remembered", said)
        self.assertIn("worker_tool: no memory", said)
        self.assertIn("1 action made, 1 up to date", self.front())

    def test_strategies(self) -> None:
        self.write_list(self.copies(8))
        for names in ("sandboxed", "remote", "dynamic", "worker"):
            said = self.front("run", "-v", f"--strategy=Copy={names}")
            self.assertIn("spawn_tool: 8 actions, since it has strategies", said)
            self.assertIn("8 actions made", said)
        said = self.front("run", "-v", "--remote=16", "--strategy=Copy=dynamic")
        self.assertIn("run_tool: 8 actions, since it has strategies and a delay, and 16 executors", said)
        self.assertIn("8 actions made", said)
