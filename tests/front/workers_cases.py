"""Cases: tools/workers, and the lists that `lenthuvi init TOOL` writes. What needs Node or a tool is left out if that isn't there."""
from __future__ import annotations

import json
import os
import pathlib
import shutil
import subprocess
import sys
import zipfile
from typing import Any

from case import SECONDS, TOP, Folder

WORKERS = TOP / "tools" / "workers"
PYTHON = """
import os, sys
sys.path.insert(0, {workers!r})
from json_worker import serve
def work(request):
    word = request.words[0]
    if word == 'print': print('loose'); os.system('echo loose too')
    if word == 'throw': raise ValueError('thrown')
    if word == 'exit': sys.exit(3)
    if word == 'late': request.cancelled.wait()
    return 0, word + ' ' + request.folder
serve(work, threads=4)
"""
NODE = """
const { serve } = require({workers} + '/json_worker.js');
const wait = ms => new Promise(done => setTimeout(done, ms));
serve(async request => {
  const word = request.words[0];
  if (word === 'print') { console.log('loose'); process.stdout.write('loose too\\n');
    require('child_process').spawnSync('/bin/sh', ['-c', 'echo from a child'], { stdio: 'inherit' }); }
  if (word === 'throw') throw new Error('thrown');
  if (word === 'reject') { Promise.reject(new Error('thrown')); await wait(1e8); }
  if (word === 'stray') { setTimeout(() => { throw new Error('thrown'); }, 5); await wait(1e8); }
  if (word === 'exit') process.exit(3);
  if (word === 'late') while (!request.cancelled) await wait(20);
  request.text += word + ' ' + request.folder;
  return 0;
});
"""


class Workers(Folder):
    """Cases of what tools do to a worker, and must not do to its answers."""

    def talk(self, command: list[str], words: list[str]) -> dict[str, dict[str, Any]]:
        """Asks for all words at once, cancels the one `late`, and returns the answers by word."""
        lines = [json.dumps({"arguments": [word], "requestId": number, "sandboxDir": f"box{number}"}) for number, word in enumerate(words, 1)]
        lines += [json.dumps({"cancel": True, "requestId": words.index("late") + 1})]
        done = subprocess.run(command, input="\n".join(lines) + "\n", stdout=subprocess.PIPE, stderr=subprocess.DEVNULL, text=True, timeout=SECONDS, check=True)
        answers = {it["requestId"]: it for it in map(json.loads, done.stdout.splitlines())}
        self.assertEqual(len(done.stdout.splitlines()), len(words), done.stdout)
        return {word: answers[number] for number, word in enumerate(words, 1)}

    def look(self, found: dict[str, dict[str, Any]], throwing: list[str]) -> None:
        """Compares the answers of a worker that did all of it."""
        self.assertEqual(found["plain"]["output"], f"plain box{found['plain']['requestId']}")
        self.assertEqual(found["late"], {"requestId": found["late"]["requestId"], "wasCancelled": True})
        for word in throwing:
            self.assertEqual(found[word]["exitCode"], 1)
            self.assertIn("thrown", found[word]["output"])
        self.assertIn(found["exit"]["exitCode"], (1, 3))
        self.assertEqual(found["print"]["exitCode"], 0)

    def test_helper_in_python(self) -> None:
        self.put("a.py", PYTHON.replace("{workers!r}", repr(str(WORKERS))))
        self.look(self.talk([sys.executable, "a.py"], ["print", "throw", "exit", "late", "plain"]), ["throw"])

    def test_helper_in_node(self) -> None:
        node = shutil.which("node")
        if node is None:
            self.skipTest("there is no node")
        self.put("a.js", NODE.replace("{workers}", json.dumps(str(WORKERS))))
        words = ["print", "throw", "exit", "late", "plain", "reject", "stray"]
        self.look(self.talk(["/bin/sh", "-c", 'exec "$@" 3>&1 1>&2', "sh", node, "a.js", "--answers=3"], words), ["throw", "reject", "stray"])

    def self_test(self, words: list[str], **more: str) -> None:
        """Runs a worker's own test."""
        done = subprocess.run([*words, "--self-test"], env={**os.environ, **more}, stdout=subprocess.PIPE, stderr=subprocess.STDOUT, text=True, timeout=SECONDS, check=False)
        self.assertEqual((done.returncode, done.stdout.splitlines()[-1:]), (0, ["as expected"]), done.stdout)

    def test_python_worker(self) -> None:
        self.self_test([str(WORKERS / "python_worker")])

    def test_tsc_worker(self) -> None:
        if shutil.which("node") is None or not os.path.exists(os.environ.get("TSC", "/usr/share/nodejs/typescript/lib/typescript.js")):
            self.skipTest("there is no tsc")
        self.self_test(["node", str(WORKERS / "tsc_worker.js")])

    def test_eslint_worker(self) -> None:
        if shutil.which("node") is None or not os.path.exists(os.environ.get("ESLINT", "/usr/share/nodejs/eslint")):
            self.skipTest("there is no eslint")
        self.self_test(["node", str(WORKERS / "eslint_worker.js")])

    def test_kotlinc_worker(self) -> None:
        """A Kotlin program is compiled by the list that init writes, in two runs, and a mistake in it is reported."""
        if shutil.which("java") is None or not os.path.isdir(os.environ.get("KOTLIN_HOME", "/usr/share/kotlin/kotlinc")):
            self.skipTest("there is no kotlinc")
        self.put("a/A.kt", "package a\nfun x(text: String): Int = text.length\n")
        self.put("B.kt", 'fun y(): Int = a.x("b")\n')
        self.assertIn("1 action for 2 sources", self.front("init", "kotlinc"))
        self.assertIn("1 action made", self.front("--keep=60"))
        with zipfile.ZipFile("out/program.jar") as jar:
            self.assertEqual(sorted(jar.namelist()), ["BKt.class", "META-INF/main.kotlin_module", "a/AKt.class"])
        self.put("B.kt", 'fun y(): Int = ""\n')
        self.assertIn("type mismatch", self.front("--keep=60", status=1))

    def test_a_python_function_in_a_list(self) -> None:
        """A function that ends by os._exit is called by one process for all actions."""
        self.put("lib/shout.py", "import os\ndef main(words):\n    open(words[1], 'w').write(open(words[0]).read().upper() + str(os.getpid()))\n    os._exit(0)\n")
        actions = self.actions(4)
        for place, it in enumerate(actions):
            self.put(f"flags/{place}", f"src/{place}\nout/{place}\n")
            it["argv"] = ["/usr/bin/python3", str(WORKERS / "python_worker"), f"--path={self.folder}/lib", "--call=shout:main", f"@flags/{place}"]
        self.write_list(actions)
        self.assertIn("4 actions made", self.front("-j1"))
        texts = [pathlib.Path(f"out/{it}").read_text() for it in range(4)]
        self.assertEqual([it.split("\n")[0] for it in texts], [f"SOURCE {it}" for it in range(4)])
        self.assertEqual(len({it.split("\n")[1] for it in texts}), 1)

    def test_init(self) -> None:
        """A list is written for what is there, and nothing is replaced."""
        nothing = {**os.environ, "TSC": "/nix"}
        self.assertIn("init tsc: ", self.front("init", "tsc", status=2, env=nothing))
        self.assertIn("apt-get install node-typescript", self.front("init", "tsc", status=2, env=nothing))
        self.assertIn("there is no list for that; there are tsc, eslint, kotlinc", self.front("init", "nix", "here", status=2))
        if shutil.which("node") is None:
            self.skipTest("there is no node")
        there = {**os.environ, "TSC": "/bin/sh"}
        self.assertIn("there is no .ts below", self.front("init", "tsc", status=2, env=there))
        for path in ("a.ts", "b/c.ts", "node_modules/d.ts", "e.d.ts"):
            self.put(path, "")
        self.assertIn("1 action for 3 sources", self.front("init", "tsc", env=there))
        action = json.loads(pathlib.Path("list.json").read_text())["actions"][0]
        self.assertEqual((action["inputs"], action["outputs"]), (["flags/0", "a.ts", "b/c.ts", "e.d.ts"], ["out/a.js", "out/b/c.js"]))
        self.assertIn("1 action, no problems found", self.front("check"))
        self.assertIn("list.json exists already; nothing was written", self.front("init", "tsc", status=2, env=there))
