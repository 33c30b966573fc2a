"""Cases of tools/from-compile-commands and tools/as-worker. A script replaces the compiler; one case uses cc, if there is one."""
from __future__ import annotations

import json
import os
import pathlib
import shutil
import subprocess
from typing import Any

from case import TOP, Folder

CONVERTER, AS_WORKER = str(TOP / "tools" / "from-compile-commands"), str(TOP / "tools" / "as-worker")
# Prints with -MM the headers that a source includes, and otherwise copies it with its own arguments. It also looks in -I folders.
COMPILER = '''#!/usr/bin/python3
import os, re, sys
words = sys.argv[1:]
source = next(it for it in words if it.endswith(".c"))
text = open(source).read()
headers = []
for name in re.findall('#include "(.*)"', text):
    places = [os.path.join(os.path.dirname(source), name)] + [os.path.join(it[2:], name) for it in words if it.startswith("-I")]
    found = [it for it in places if os.path.exists(it)]
    if not found:
        sys.exit(f"{source}:1:1: fatal error: {name}: No such file or directory")
    headers.append(found[0])
if "-MM" in words:
    print("x.o:", " \\\\\\n  ".join([source, *headers]))
else:
    out = words[words.index("-o") + 1] if "-o" in words else os.path.basename(source)[:-1] + "o"
    open(out, "w").write(f"{sorted(it for it in words if 'prefix-map' not in it)} {text}")
'''


class Commands(Folder):
    """Cases of lists that are made from compile_commands.json."""

    def setUp(self) -> None:
        super().setUp()
        self.put("cc", COMPILER)
        os.chmod("cc", 0o755)
        self.put("src/a.c", '#include "a.h"\n')
        self.put("src/a.h", "")
        os.mkdir("build")

    def convert(self, commands: list[dict[str, Any]], status: int = 0) -> str:
        """Converts commands into list.json. Returns what was printed on standard error."""
        whole = [{"directory": f"{self.folder}/build", "file": "../src/a.c", **it} for it in commands]
        with open("list.json", "w", encoding="utf-8") as file:
            done = subprocess.run([CONVERTER], input=json.dumps(whole), stdout=file, stderr=subprocess.PIPE, text=True, check=False)
        self.assertEqual(done.returncode, status, done.stderr)
        return done.stderr

    def test_words_as_they_are(self) -> None:
        """Checks that a command runs in its own folder with its arguments unchanged."""
        compiler = f"{self.folder}/cc"
        self.assertEqual(self.convert([{"command": f"{compiler} -c ../src/a.c -o a.o"}, {"command": f"{compiler} -c {self.folder}/src/a.c"}]),
                         "from-compile-commands: left out: an earlier command makes build/a.o too\n")
        self.assertIn("1 action made", self.front())
        self.assertIn("['-c', '-o', '../src/a.c', 'a.o']", pathlib.Path("build/a.o").read_text())

    def test_without_o(self) -> None:
        self.convert([{"command": f"{self.folder}/cc -c ../src/a.c -I../inc"}])
        actions = json.loads(pathlib.Path("list.json").read_text())["actions"]
        self.assertEqual((actions[0]["name"], actions[0]["outputs"], actions[0]["inputs"]), ("build/a.o", ["build/a.o"], ["flags/0", "src/a.c", "src/a.h"]))
        self.assertEqual(actions[0]["env"], {"PATH": f"/usr/bin:/bin:{self.folder}"})
        self.front()
        self.assertTrue(os.path.exists("build/a.o"))

    def test_one_that_cant_be_taken_leaves_itself_out(self) -> None:
        good: dict[str, Any] = {"command": f"{self.folder}/cc -c ../src/a.c -o a.o"}
        faults: list[tuple[dict[str, Any], str]] = [
            ({"command": "nix-cc -c ../src/a.c -o b.o"}, "nix-cc isn't found"), ({"command": f"{self.folder}/cc ../src/a.c"}, "neither -o nor -c"),
            ({"command": f"{self.folder}/cc -c ../src/a.c -o /nix/a.o"}, "isn't made below this folder"),
            ({"command": f"{self.folder}/cc -c ../src/a.c @nix"}, "the file of further words nix can't be read"),
            ({"command": f"{self.folder}/cc -c b.c", "directory": "/nix"}, "isn't below this folder"),
            ({"arguments": [f"{self.folder}/cc", "-c", "a\nb.c"]}, "a flag file can't hold")]
        for bad, why in faults:
            with self.subTest(why):
                said = self.convert([bad, good])
                self.assertIn("left out: ../src/a.c: ", said)
                self.assertIn(why, said)
                self.assertEqual(len(json.loads(pathlib.Path("list.json").read_text())["actions"]), 1)
                self.convert([bad], 1)
        self.put("src/a.c", '#include "nix.h"\n')
        self.assertIn("fatal error: nix.h: No such file or directory", self.convert([good], 1))

    def test_further_words(self) -> None:
        self.put("build/words", "-c ../src/a.c\n-o 'a b.o'\n")
        self.assertEqual(self.convert([{"command": f"{self.folder}/cc @words"}]), "")
        self.front()
        self.assertTrue(os.path.exists("build/a b.o"))

    def test_a_new_include_is_named(self) -> None:
        """Checks that a failure names the missing input if an #include is newer than the list."""
        os.mkdir("inc")
        self.convert([{"command": f"{self.folder}/cc -c ../src/a.c -I../inc -o a.o"}])
        self.put("inc/new.h", "")
        self.put("src/a.c", '#include "new.h"\n')
        self.assertIn("  | inc/new.h is in the project and isn't among the inputs of this action", self.front(status=1))
        self.put("src/a.c", '#include "nix.h"\n')
        self.assertNotIn("isn't among the inputs", self.front(status=1))

    def test_flags_is_a_file(self) -> None:
        self.put("flags", "")
        self.assertIn("flags isn't a folder, and the flag files go into a folder of that name", self.convert([], 1))

    def test_as_worker(self) -> None:
        """Checks that each request has its folder and command, that messages name the project, and that too few words are reported."""
        requests = [{"arguments": ["sub", "/bin/sh", "-c", "pwd; echo {room}"], "requestId": 1}, {"arguments": ["sub"]},
                    {"arguments": [".", "/bin/sh", "-c", "kill -9 $$"]}, {"arguments": [".", "/nix"]}]
        done = subprocess.run([AS_WORKER, "--root=/the/project", "--commands", "--persistent_worker"], input="".join(json.dumps(it) + "\n" for it in requests),
                              stdout=subprocess.PIPE, text=True, check=True)
        answers = [json.loads(line) for line in done.stdout.splitlines()]
        self.assertEqual(answers[0], {"output": "/the/project/sub\n/the/project\n", "requestId": 1})
        self.assertEqual([it.get("exitCode", 0) for it in answers], [0, 127, 137, 127])
        self.assertIn("a folder, a command and its words", answers[1]["output"])

    def test_as_by_hand(self) -> None:
        """Checks that objects with debug information equal those of the commands themselves, each time."""
        compiler = shutil.which("cc")
        if compiler is None:
            self.skipTest("there is no cc")
        self.put("src/a.c", '#include "a.h"\nconst char *a(void) { return __FILE__; }\n')
        commands = [f"{compiler} -g -c ../src/a.c", f"{compiler} -g -c {self.folder}/src/a.c -I{self.folder}/src -o whole.o"]
        for command in commands:
            subprocess.run(command, shell=True, cwd="build", check=True)
        wanted = {it: pathlib.Path("build", it).read_bytes() for it in ("a.o", "whole.o")}
        self.convert([{"command": it} for it in commands])
        for _ in range(2):
            for name in wanted:
                os.remove(f"build/{name}")
            self.front("run")
            self.assertEqual([it for it, data in wanted.items() if pathlib.Path("build", it).read_bytes() != data], [])
