"""Cases of which actions run, of the reasons, and of what is remembered."""
from __future__ import annotations

import json
import os
import pathlib
import time

from case import Folder

from front.digests import Files, stamp_of
from front.listing import load
from front.options import Words
from front.settled import settle


class Rounds(Folder):
    """Cases of rounds and of the memory of successes."""

    def test_build_then_nothing(self) -> None:
        self.worker()
        self.write_list(self.actions(12, 4))
        self.assertIn("12 actions made", self.front())
        self.assertIn("12 up to date", self.front())
        self.assertEqual(pathlib.Path("out/4").read_text(), "source 4\nsource 0\n")

    def test_changed_source(self) -> None:
        self.worker()
        self.write_list(self.actions(12, 4))
        self.front()
        self.put("src/0", "other\n")
        self.assertIn("a0: src/0 changed", self.front("-n"))
        self.assertIn("3 actions made, 9 up to date", self.front())
        self.assertEqual(pathlib.Path("out/8").read_text(), "source 8\nsource 4\nother\n")

    def test_touched_source_is_up_to_date(self) -> None:
        self.worker()
        self.write_list(self.actions(4))
        self.front()
        os.utime("src/0", (1, 1))
        self.assertIn("4 up to date", self.front())

    def test_early_cut_off(self) -> None:
        self.worker('if words["name"] == "a0": held["inputs"] = []; words["add"] = "constant"')
        self.write_list(self.actions(12, 4))
        self.front()
        self.put("src/0", "other\n")
        self.assertIn("1 action made, 11 up to date", self.front())

    def test_same_time_and_size(self) -> None:
        self.worker()
        self.write_list(self.actions(4))
        self.front()
        time.sleep(0.1)
        self.front()
        held = os.stat("src/0")
        self.put("src/0", "Source 0\n")
        os.utime("src/0", ns=(held.st_atime_ns, held.st_mtime_ns))
        self.assertIn("1 action made", self.front())

    def test_output_removed_or_changed(self) -> None:
        self.worker()
        self.write_list(self.actions(4))
        self.front()
        os.remove("out/0")
        self.put("out/1", "mine\n")
        said = self.front("-v")
        self.assertIn("its output out/0 is gone", said)
        self.assertIn("its output out/1 was changed", said)
        self.assertIn("2 actions made", said)

    def test_tool_changed(self) -> None:
        self.worker()
        self.write_list(self.actions(4))
        self.front()
        self.worker("pass  # other")
        self.assertIn("worker changed", self.front("-n"))

    def test_failures_last_and_go_on(self) -> None:
        self.worker('if words["name"] in ("a1", "a2"): code, text = 3, "error: no " + words["name"]; words.pop("out")')
        self.write_list(self.actions(12, 4))
        said = self.front(status=1)
        self.assertIn("FAILED a1  exit 3 (Copy)\n  | error: no a1", said)
        self.assertIn("6 actions made, 2 failed, 4 skipped", said)
        self.assertIn("lenthuvi explain a1", said.splitlines()[-1])
        self.worker()
        self.assertIn("12 actions made", self.front())

    def test_run_makes_all(self) -> None:
        self.worker()
        self.write_list(self.actions(8, 4))
        self.front()
        self.assertIn("8 actions made", self.front("run"))

    def test_only(self) -> None:
        self.worker()
        self.write_list(self.actions(12, 4))
        self.assertIn("3 actions made", self.front("--only=a9"))
        self.assertTrue(os.path.exists("out/1") and not os.path.exists("out/0"))
        self.assertIn("no action and no output has such a name", self.front("--only=nix*", status=4))

    def test_standard_input(self) -> None:
        self.worker()
        text = json.dumps({"actions": self.actions(4)})
        self.assertIn("4 actions made", self.front("-", input=text))
        self.assertIn("4 up to date", self.front("build", "-", input=text))

    def test_more_than_a_program_takes(self) -> None:
        self.write_list(self.copies(4200, 2100))
        self.assertIn("4,200 actions made", self.front())
        self.assertIn("4,200 up to date", self.front())

    def test_json_events(self) -> None:
        self.worker()
        self.write_list(self.actions(3))
        self.front("--json=events")
        events = [json.loads(line) for line in pathlib.Path("events").read_text().splitlines()]
        self.assertEqual([it["e"] for it in events].count("action"), 3)
        self.assertEqual(events[-1]["e"], "done")
        self.assertEqual(events[-1]["ok"], 3)

    def test_settings_and_environment(self) -> None:
        self.worker()
        self.write_list(self.actions(3))
        self.put(".lenthuvirc", "build -v  # a word\n")
        self.assertIn("made a0", self.front())
        self.put(".lenthuvirc", "build --nonsense\n")
        said = self.front(status=2)
        self.assertIn("--nonsense (from ", said)
        self.put(".lenthuvirc", "")
        self.assertIn("made a0", self.front("run", env={**os.environ, "LENTHUVI_OPTIONS": "-v"}))

    def test_many_keys_choose_shared_tool(self) -> None:
        self.worker()
        actions = self.actions(60)
        for place, it in enumerate(actions):
            it["argv"] = ["worker", f"--key={place}", f"@flags/{place}"]
        self.write_list(actions)
        said = self.front("-v", "-j", "2")
        self.assertIn("shared_tool: 60 actions, since there are 60 worker keys", said)
        self.assertRegex(said, "a TRIAL, nothing is proved|; proved; sources|unknown, whether it is proved")
        self.assertIn("60 actions made", said)

    def test_many_keys_with_strategies_choose_run_tool(self) -> None:
        self.worker()
        actions = self.actions(60)
        for place, it in enumerate(actions):
            it["argv"] = ["worker", f"--key={place}", f"@flags/{place}"]
        self.write_list(actions)
        said = self.front("-v", "-j", "2", "--strategy=*=worker", "--local-delay=20")
        self.assertIn("run_tool: 60 actions, since it has strategies and a delay, and there are 60 worker keys", said)
        self.assertIn("60 actions made", said)

    def test_two_at_once(self) -> None:
        self.worker("time.sleep(1)")
        self.write_list(self.actions(2))
        first = self.begin()
        self.until(lambda: os.path.exists(".lenthuvi/lists/list/open"))
        self.assertIn("a run is at work in this folder (process", self.front(status=5))
        self.assertEqual(first.wait(), 0)
        first.communicate()

    def test_page_of_the_last_run_that_ran(self) -> None:
        """Checks that a build with nothing to do doesn't replace the events of the build before."""
        self.worker()
        self.write_list(self.actions(3))
        self.front()
        self.front("-v")
        self.assertIn("answered: exit 0", self.front("explain", "a1"))

    def test_recovered_under_another_choice(self) -> None:
        """Checks that the successes of a killed run are remembered even if the next call builds something else."""
        self.worker("time.sleep(0.2)")
        self.write_list(self.actions(12))
        run = self.begin("-j2")
        self.until(lambda: self.made() >= 6)
        run.kill()
        run.communicate()
        self.until(lambda: not self.sleepers(self.folder + "/worker"))
        kept = self.made()
        self.front("--only=a11", "--extra-flag=--other")
        self.assertIn(f"{12 - kept} actions would run", self.front("-n", "--only=a*"))

    def test_memory_that_was_cut_off(self) -> None:
        """Checks that a line that a full disk cut off doesn't count as a success, and doesn't spoil a later line."""
        self.worker()
        self.write_list(self.actions(4))
        self.front()
        path = pathlib.Path(".lenthuvi/lists/list/memory")
        whole = path.read_text()
        for keeps in (len(whole) - 1, len(whole) - 30, 5):
            path.write_text(whole[:keeps])
            self.front("-v")
            self.assertIn("4 up to date", self.front("-v"))

    def test_what_is_remembered_is_spoiled(self) -> None:
        self.worker()
        self.write_list(self.actions(2))
        self.front()
        for text in ("?", "a0\t1\t2\t3\t{\n", "[]\n" * 3):
            for name in ("lists/list/memory", "lists/list/settled", "lists/list/open", "stamps"):
                pathlib.Path(".lenthuvi", name).write_text(text)
            self.assertIn("2 actions made", self.front())
            self.assertIn("2 up to date", self.front())

    def test_a_source_that_changes_while_all_is_looked_at(self) -> None:
        """Checks that the stamps aren't kept if the list has changed since the call began, and that those of other files are old ones."""
        self.worker()
        self.write_list(self.actions(2))
        self.front()
        time.sleep(0.1)
        settled = pathlib.Path(".lenthuvi/lists/list/settled")
        for seconds, is_kept in ((0.0, True), (60.0, False)):
            listing, files = load("list.json"), Files(".lenthuvi/stamps")
            files.digests(path for it in listing.actions for path in (*it.reads(), *it.outputs))
            settle(listing, Words("build"), listing.actions, files, seconds)
            self.assertEqual(settled.exists(), is_kept)
        files.digests(["src/0"])
        self.put("src/0", "other\n")
        settle(listing, Words("build"), listing.actions, files, 0.0)
        self.assertIn("1 action made", self.front())

    def test_each_change_after_nothing_to_do(self) -> None:
        """Checks that the stamps that were noted hide no change."""
        self.worker()
        self.write_list(self.actions(2))
        self.front()
        for path, text in (("", ""), ("out/1", "spoiled\n"), ("src/1", "more\n"), ("flags/0", "out=out/0\nadd=x\n"), ("worker", "")):
            time.sleep(0.1)
            self.front()
            self.assertTrue(os.path.exists(".lenthuvi/lists/list/settled"))
            if text:
                self.put(path, text)
            elif path:
                self.worker("text = 'other'", path)
            self.assertIn("2 actions made" if path == "worker" else "1 action made" if path else "nothing to do, 2 up to date", self.front())

    def test_stamp_of_a_young_file(self) -> None:
        """Checks that a file that was read right after it was written has a sure stamp later, and never that of another content."""
        files = Files(".lenthuvi/stamps")
        for path in ("same", "changed"):
            self.put(path, "text\n")
            files.digest(path)
        self.put("changed", "other\n")
        time.sleep(0.1)
        self.assertEqual(files.sure_stamp("same"), stamp_of("same"))
        self.assertNotEqual(files.sure_stamp("changed"), stamp_of("changed"))

    def test_list_names_that_are_the_states_own(self) -> None:
        self.worker()
        for name in ("lock.json", "stamps.json", "rooms.json", "a b.json", "a_b.json", ".json", "lists"):
            self.write_list(self.actions(1), name)
            self.assertIn("1 action made", self.front(name))
            self.assertIn("1 up to date", self.front(name))
