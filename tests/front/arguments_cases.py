"""Cases of a user's mistakes on the command line, in the settings and in a list. Each is reported with its cause."""
from __future__ import annotations

import json
import os
import pathlib
import re
import subprocess
from typing import Any

from case import Folder, TOP


class Arguments(Folder):
    """Cases of command lines, settings and lists that are refused."""

    def test_options(self) -> None:
        self.worker()
        self.write_list(self.actions(1))
        self.assertIn("did you mean --limit?", self.front("--limt=3", status=2))
        self.assertIn("did you mean Copy?", self.front("--limit=Coppy=3", status=2))
        for word in ("-5", "nan", "0", "x"):
            self.assertIn("a number from", self.front(f"--limit={word}", status=2))
        self.assertIn("no action has the mnemonic Nix; there are Copy", self.front("--limit=Nix=3", status=2))
        self.assertIn("no action has the mnemonic Nix; there are Copy", self.front("--strategy=Nix=worker", status=2))
        self.assertIn("usage: lenthuvi COMMAND", self.front("--help"))
        for words in (("watch", "--help"), ("--help", "watch"), ("watch", "--limit=5", "-h")):
            self.assertTrue(self.front(*words).startswith("  watch [LIST]"), words)

    def test_own_state_is_no_output(self) -> None:
        self.worker()
        for out, why in (("list.json", "is the list itself"), ("worker", "is the program of an action"),
                         (".worker_rooms/lock", "belongs to the run"), (".lenthuvi/x", "belongs to the run"),
                         ("out/1/x", "is below out/1")):
            actions = self.actions(2)
            actions[0]["outputs"] = [out]
            self.write_list(actions)
            self.assertIn(why, self.front(status=4))
            self.assertIn(why, self.front("check", status=4))

    def test_check_says_all(self) -> None:
        self.worker()
        actions = self.actions(2)
        actions[0]["inputs"].append("out/1")
        actions[1]["inputs"].append("out/0")
        pathlib.Path("list.json").write_text(json.dumps({"actions": actions, "env": {}})[:-1] + ', "env": {}}')
        said = self.front("check", status=4)
        self.assertIn("a0 needs a1 needs a0", said)
        self.assertIn("appears twice", said)
        self.assertIn("unknown key 'env' at the top", said)


    def test_values(self) -> None:
        """Checks that each is refused before anything is run, even if there is nothing to do."""
        self.worker()
        self.write_list(self.actions(1))
        self.front()
        self.front()
        for words, why in ((["-j", "x"], "-j=x: a whole number from 1 to 1,000 is needed"), (["-j0"], "from 1 to 1,000"),
                           (["--retries=2.7"], "a whole number from 0 to 9"), (["--color=blue"], "auto, always or never is needed"),
                           (["--local-delay=soon"], "a whole number"), (["--keep=-1"], "a number from 0"), (["-j"], "its value is missing, as in -j N"),
                           (["--stop=yes"], "--stop takes no value"), (["--json="], "its value is empty"), (["--dot"], "an option of graph, not of build"),
                           (["--strategy=Copy=local"], "'local' is not one of worker, sandboxed, remote, dynamic"),
                           (["--strategy=Copi=worker"], "did you mean Copy?"), (["--limit=Copi=1"], "did you mean Copy?"),
                           (["list.json", "more.json"], "more.json: lenthuvi build takes [LIST]"), (["doctor", "x"], "doctor takes no argument"),
                           (["--journal=j", "--strategy=Copy=worker"], "can't be had together: journal_run has no strategies"),
                           (["--plain", "--limit=3"], "--plain and --limit can't be had together"), (["help", "biuld"], "did you mean build?"),
                           (["--executor=./nix"], "nix isn't there"), (["-v", "run"], "a command comes first, as in lenthuvi run -v"),
                           (["buidl"], "did you mean build?"), (["nix"], "it is no command either: lenthuvi help"),
                           (["explain"], "lenthuvi explain NAME [LIST]"), (["graph", "--rdeps=src/9"], "did you mean src/0")):
            status = 4 if words[-1] in ("buidl", "nix", "run", "--rdeps=src/9") else 2
            command = words[:1] == ["--executor=./nix"]
            with self.subTest(words):
                self.assertIn(why, self.front(*(["run"] if command else []), *words, status=status))

    def test_settings_of_another_user(self) -> None:
        """Checks that a settings file of another user isn't read, since it may name programs."""
        if os.geteuid() != 0:
            self.skipTest("only root can make files of another user")
        self.worker()
        self.write_list(self.actions(1))
        self.put(".lenthuvirc", "build --nonsense\n")
        os.chown(".lenthuvirc", 1234, 1234)
        self.assertIn(".lenthuvirc isn't read: it belongs to user 1234, and you are 0", self.front())

    def test_the_last_of_opposites_counts(self) -> None:
        self.worker()
        self.write_list(self.actions(1))
        self.put(".lenthuvirc", "build -v --keep=0\n")
        self.assertEqual(self.front("-q", "--plain"), "")

    def test_lists(self) -> None:
        """Checks that both a build and `check` report the faults of a list."""
        self.worker()
        good = self.actions(2)
        changes: list[tuple[dict[str, Any], str]] = [({"outputs": ["out/1"]}, "out/1 is made twice"), ({"name": "a1"}, "an earlier action has it"),
                            ({"inputs": ["flags/0", "out/1"]}, "out/1 is made by a later action; put that one first"),
                            ({"outputs": ["a/.worker_tool.1"]}, "names that begin with .worker_tool. belong to the run"),
                            ({"inputs": ["flags/0", "nix"]}, "nix isn't there, seen from"), ({"argv": ["worker"]}, "no argument names a flag file"),
                            ({"input": []}, "unknown key 'input'; did you mean \"inputs\"?"), ({"argv": [1]}, "an array of strings is needed"),
                            ({"requirements": {"supports-workers": "yes"}}, 'only "1" means yes'), ({"name": "a b"}, "a space or a control character"),
                            ({"tools": ["src"]}, "src is a folder, and a file is needed"), ({"strategy": "local"}, "'local' is not one of worker")]
        for change, why in changes:
            self.write_list([{**good[0], **change}, good[1]])
            with self.subTest(change):
                self.assertIn(why, self.front("check", status=4))
        for text, why in (("", "not JSON"), ("{]", "list.json:1:2: not JSON"), ("[]", "the whole text must be an object"),
                          ('{"acts": []}', "unknown key 'acts'; did you mean \"actions\"?"), ("[" * 100000, "nested too deeply"), ("\udcff", "not UTF-8")):
            pathlib.Path("list.json").write_bytes(text.encode("utf-8", "surrogateescape"))
            with self.subTest(text[:9]):
                self.assertIn(why, self.front("check", status=4))
                self.assertIn(why, self.front(status=4))

    def test_a_cycle_of_three(self) -> None:
        self.worker()
        actions = self.actions(4)
        for place, below in ((0, 2), (1, 0), (2, 1)):
            actions[place]["inputs"].append(f"out/{below}")
        self.write_list(actions)
        said = self.front(status=4)
        self.assertIn("a cycle: a0 needs a2 needs a1 needs a0", said)
        self.assertNotIn("later action", said)

    def test_state_that_cant_be_used(self) -> None:
        self.worker()
        self.write_list(self.actions(1))
        pathlib.Path(".lenthuvi").write_text("")
        self.assertIn(".lenthuvi", self.front(status=5))
        os.remove(".lenthuvi")
        if os.geteuid() == 0:
            os.mkdir(".lenthuvi")
            os.chown(".lenthuvi", 1234, 1234)
            self.assertIn(".lenthuvi belongs to user 1234, and you are 0; remove it", self.front(status=5))

    def test_the_guides_help_is_what_runs(self) -> None:
        guide = (TOP / "docs" / "GUIDE.md").read_text()
        shown = re.search(r"(?m)^    Lenthuvi builds a list.*?(?=\n\n[^ \n])", guide, re.S)
        assert shown is not None
        self.assertEqual(re.sub(r"(?m)^    ", "", shown[0]).strip(), self.front("help").strip())

    def test_help_man_and_completion_have_every_option(self) -> None:
        script, man = self.front("help", "--bash"), self.front("help", "--man").replace("\\-", "-")
        for option in re.findall(r"(?m)^  (--?[a-z-]+)", self.front("help")):
            self.assertIn(option, script)
            self.assertIn(option, man)
        self.assertEqual(subprocess.run(["bash", "-n"], input=script, text=True, check=False).returncode, 0)
