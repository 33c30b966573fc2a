"""Cases of examples/ssh/executor with hosts that are gone. A script replaces ssh, and starts the commands on this machine."""
from __future__ import annotations

import os
import pathlib
import shutil
import subprocess

from case import BIN, SECONDS, TOP, Folder

# A host that the file `down` names doesn't answer. A command that stays leads a process group, which represents its connection.
SSH = '''#!/usr/bin/python3
import os, sys
host, command = sys.argv[-2:]
if host in open("{folder}/down").read().split():
    sys.exit(255)
if command != ":":
    os.setpgid(0, 0)
    with open("{folder}/connections", "a") as file:
        file.write(f"{host} {os.getpid()}\\n")
os.execv("/bin/sh", ["sh", "-c", command])
'''


class Hosts(Folder):
    """Cases of jobs on two hosts."""

    def setUp(self) -> None:
        super().setUp()
        self.put("ssh", SSH.replace("{folder}", self.folder))
        os.chmod("ssh", 0o755)
        self.put("down", "")
        shutil.copy(TOP / "examples/ssh/executor", "executor")
        self.put("settings", f'HOSTS="one two"\nREMOTE_EXEC={BIN}/remote_exec\nSSH={self.folder}/ssh\nSSH_WORDS=\n')

    def jobs(self, *words: str) -> str:
        """Runs twenty jobs with tools/try-executor. Returns what it printed."""
        done = subprocess.run([TOP / "tools/try-executor", f"{BIN}/worker_tool", "executor", *words], stdout=subprocess.PIPE,
                              stderr=subprocess.STDOUT, text=True, timeout=SECONDS, check=False)
        self.assertEqual(done.returncode, 0, done.stdout)
        self.assertIn("20 of 20 outputs are right", done.stdout)
        return str(done.stdout)

    def connected(self) -> list[str]:
        """Returns the hosts of all connections so far."""
        return [line.split()[0] for line in pathlib.Path("connections").read_text().splitlines()]

    def test_all_are_up(self) -> None:
        self.jobs()
        self.assertLessEqual(set(self.connected()), {"one", "two"})

    def test_one_is_gone_from_the_start(self) -> None:
        """Checks that each line of the executor takes the other host at once, and that no job costs an attempt."""
        self.assertIn(" 20 jobs were begun", self.jobs("--gone", f"echo two >{self.folder}/down"))
        self.assertEqual(set(self.connected()), {"one"})

    def test_one_goes_for_good(self) -> None:
        """Plays a host that goes as soon as it is used, regardless of the state of its jobs."""
        self.put("go", f"until grep -q two connections; do sleep 0.05; done\necho two >down\nfor it in $(sed -n 's/^two //p' connections); do\n"
                       "    kill -KILL -$it\ndone\necho >gone\n")
        self.put("connections", "")
        self.jobs("--gone", f"cd {self.folder} && /bin/sh go >/dev/null 2>&1 &")
        self.until(lambda: os.path.exists("gone"))

    def test_none_is_up(self) -> None:
        self.put("down", "one two")
        os.mkdir("0")
        done = subprocess.run([f"{self.folder}/executor", "--serve"], cwd="0", stderr=subprocess.PIPE, text=True, timeout=SECONDS, check=False)
        self.assertEqual((done.returncode, done.stderr), (1, "no host answers: one two\n"))
