"""Cases of imported ninja builds. A compiler in Python replaces a real one. One case uses cc, if there is one."""
from __future__ import annotations

import os
import pathlib
import shutil
import signal
import subprocess

from case import Folder

# Reads a source with all its includes, and writes their texts. It looks for <..> in the -I folders and then in $SYSTEM/include.
COMPILER = '''#!/usr/bin/python3
import os, re, sys
words = sys.argv[1:]
folders = [it[2:] for it in words if it.startswith("-I")] + ["{folder}/system/include"]
value = lambda name: words[words.index(name) + 1]
read, text = [], []
def take(path):
    if path in read:
        return
    read.append(path)
    for line in open(path):
        found = re.match(r'[#@]include (["<])(.*)[">]', line)
        if found is None:
            text.append(line)
            continue
        near = [os.path.join(os.path.dirname(path), found[2])] if found[1] == '"' else []
        places = [it for it in near + [os.path.join(at, found[2]) for at in folders] if os.path.exists(it)]
        if not places:
            sys.exit(path + ": there is no " + found[2])
        take(places[0])
take(value("-c"))
if "warn" in "".join(text):
    print("warning: of " + value("-c"))
open(value("-o"), "w").write("".join(text))
open(value("-MF"), "w").write(value("-o") + ": " + " ".join(read) + "\\n")
'''
RULES = '''rule cc
  command = {folder}/compiler $FLAGS -MD -MF $out.d -o $out -c $in
  depfile = $out.d
  deps = gcc
rule link
  command = cat $in > $out
rule CUSTOM_COMMAND
  command = $COMMAND
'''


class Ninja(Folder):
    """A project with its sources in src and its build in build."""

    def setUp(self) -> None:
        super().setUp()
        self.put("compiler", COMPILER.replace("{folder}", self.folder))
        os.chmod("compiler", 0o755)
        self.root = f"{self.folder}/project"
        os.mkdir("project")
        os.chdir("project")
        for path, text in (("src/a.c", '#include "a.h"\na\n'), ("src/a.h", "head\n"), ("src/b.c", "#include <inc.h>\nb\n"), ("inc/inc.h", "inc\n")):
            self.put(path, text)

    def ninja(self, text: str, *words: str) -> str:
        """Writes the build file, and imports it."""
        self.put("build/build.ninja", RULES.replace("{folder}", self.folder) + text)
        return self.front("import", "ninja", "build", f"--root={self.root}", *words)

    def plain(self, *words: str) -> None:
        """Imports two sources and a file that is linked from them."""
        self.ninja("build a.o: cc ../src/a.c\nbuild b.o: cc ../src/b.c\n  FLAGS = -I../inc\nbuild all.txt: link a.o b.o\n", *words)

    def text(self, path: str = "build/all.txt") -> str:
        """Returns the text of an output."""
        return pathlib.Path(path).read_text()


class Fresh(Ninja):
    """Cases of what is made again after a change."""

    def test_first_second_and_edits(self) -> None:
        self.plain()
        self.assertIn("3 actions made", self.front("build", "build"))
        self.assertEqual(self.text(), "head\na\ninc\nb\n")
        self.assertIn("nothing to do, 3 up to date", self.front("build", "build"))
        edits = (("src/a.c", '#include "a.h"\nA\n', 2), ("inc/inc.h", "INC\n", 2), ("inc/other.h", "other\n", 0),
                 ("inc/inc.h", "#include <other.h>\nINC\n", 2), ("inc/other.h", "more\n", 2), ("src/a.h", '#include "new.h"\nhead\n', 0))
        for path, text, number in edits:
            self.put(path, text)
            if path == "src/a.h":
                self.put("src/new.h", "new\n")
                number = 2
            with self.subTest(path):
                said = self.front("build", "build")
                self.assertIn(f"{number} actions made" if number else "nothing to do", said)
        self.assertEqual(self.text(), "new\nhead\nA\nmore\nINC\nb\n")
        os.remove("src/new.h")
        self.put("src/a.h", "head\n")
        self.assertIn("2 actions made", self.front("build", "build"))
        self.assertEqual(self.text(), "head\nA\nmore\nINC\nb\n")

    def test_touched_is_up_to_date(self) -> None:
        self.plain()
        self.front("build", "build")
        os.utime("src/a.h", (1, 1))
        self.assertIn("nothing to do, 3 up to date", self.front("build", "build"))

    def test_command_changed(self) -> None:
        self.plain()
        self.front("build", "build")
        self.put("build/build.ninja", pathlib.Path("build/build.ninja").read_text().replace("cat $in >", "cat $in $in >"))
        self.assertIn("1 action made, 2 up to date", self.front("build", "build"))

    def test_generated_header_that_includes_another(self) -> None:
        """Checks that a generated header's includes are found once it exists, and that its readers wait for it."""
        self.put("src/behind.h", "behind\n")
        self.put("src/c.c", "#include <made.h>\nc\n")
        self.put("src/made.in", "#include <behind.h>\nmade\n")
        self.ninja("build made.h: CUSTOM_COMMAND ../src/made.in\n  COMMAND = cp ../src/made.in made.h\n"
                   "build c.o: cc ../src/c.c || made.h\n  FLAGS = -I. -I../src\n")
        self.assertIn("2 actions made", self.front("build", "build"))
        self.assertEqual(self.text("build/c.o"), "behind\nmade\nc\n")
        self.put("src/made.in", "#include <behind.h>\n#include <further.h>\n")
        self.put("src/further.h", "further\n")
        self.assertIn("2 actions made", self.front("build", "build"))
        self.assertEqual(self.text("build/c.o"), "behind\nfurther\nc\n")
        self.put("src/behind.h", "BEHIND\n")
        self.assertIn("1 action made, 1 up to date", self.front("build", "build"))

    def test_what_only_has_to_be_before(self) -> None:
        """Checks that an order-only input is made first and can be read, and that its change makes nothing else again, as in ninja."""
        self.put("src/one", "1\n")
        self.ninja("build one: link ../src/one\nbuild two: CUSTOM_COMMAND ../src/a.c || one\n  COMMAND = cat ../src/a.c one > two\n")
        self.assertIn("2 actions made", self.front("build", "build"))
        self.put("src/one", "2\n")
        self.assertIn("1 action made, 1 up to date", self.front("build", "build"))

    def test_build_file_is_made_again(self) -> None:
        """Checks that the step of build.ninja runs first if one of its inputs is newer."""
        self.put("src/next", "")
        parts = ("build build.ninja: CUSTOM_COMMAND ../src/next\n  generator = 1\n  COMMAND = cp ../src/next build.ninja\n"
                 "build a.o: cc ../src/a.c\nbuild b.o: cc ../src/b.c\n  FLAGS = -I../inc\nbuild all.txt: link a.o")
        self.ninja(f"{parts}\n")
        self.front("build", "build")
        self.assertEqual(self.text(), "head\na\n")
        os.utime("build/build.ninja", (1, 1))
        self.put("src/next", pathlib.Path("build/build.ninja").read_text().rstrip() + " b.o\n")
        self.front("build", "build")
        self.assertEqual(self.text(), "head\na\ninc\nb\n")
        os.utime("build/build.ninja", (1, 1))
        os.remove("src/next")
        self.assertIn("build.ninja isn't up to date, and what makes it again ended with status 1", self.front("build", "build", status=4))

    def test_interrupted(self) -> None:
        """Checks that outputs that were made before Ctrl-C aren't made again."""
        self.ninja("".join(f"build s{it}: CUSTOM_COMMAND ../src/a.c\n  COMMAND = sleep 0.3; echo {it} > s{it}\n" for it in range(12)))
        run = self.begin("build", "build", "-j1")
        self.until(lambda: len(list(pathlib.Path("build").glob("s*"))) >= 3)
        run.send_signal(signal.SIGINT)
        self.assertEqual(run.wait(240), 130)
        run.communicate()
        made = len(list(pathlib.Path("build").glob("s*")))
        self.assertIn(f"{made} up to date", self.front("build", "build"))


class Guarded(Ninja):
    """Cases that an import must not get wrong silently."""

    def test_missing_input_isnt_taken_from_the_system(self) -> None:
        """Checks that a step fails if the scan misses a header of the project and the system has one of that name."""
        self.put("../system/include/inc.h", "the system's\n")
        self.put("src/b.c", "@include <inc.h>\nb\n")
        self.plain()
        said = self.front("build", "build", status=1)
        self.assertIn("an input is missing: <inc.h> of the system was read, and the project has inc/inc.h", said)
        self.assertFalse(os.path.exists("build/b.o"))
        self.put("src/b.c", "#include <inc.h>\nb\n")
        self.front("build", "build")
        self.assertEqual(self.text("build/b.o"), "inc\nb\n")

    def test_missing_input_beside_a_source(self) -> None:
        self.put("../system/include/a.h", "the system's\n")
        self.put("src/a.c", '@include "a.h"\n#if 0\n#include "a.h"\n#endif\n')
        self.plain()
        self.assertIn("3 actions made", self.front("build", "build"))

    def test_header_of_the_system_alone(self) -> None:
        self.put("../system/include/sys.h", "the system's\n")
        self.put("src/b.c", "#include <inc.h>\n#include <sys.h>\n")
        self.plain()
        self.front("build", "build")
        self.assertEqual(self.text("build/b.o"), "inc\nthe system's\n")

    def test_warnings_are_shown(self) -> None:
        self.put("src/a.h", "warn\n")
        self.plain()
        self.assertIn("build/a.o:\nwarning: of ../src/a.c", self.front("build", "build"))

    def test_room_isnt_in_what_is_made(self) -> None:
        """Checks that outputs are right if the room is mounted at the project's path, and if the words are changed instead."""
        self.put("src/tool", "#!/bin/sh\npwd\n")
        os.chmod("src/tool", 0o755)
        ways: list[list[str]] = [[], ["--mount=never"]]
        for words in ways:
            self.ninja(f"build here: CUSTOM_COMMAND ../src/tool ../src/a.c\n  COMMAND = {self.root}/src/tool > /dev/null && cat {self.root}/src/a.c > here\n",
                       *words)
            self.assertIn("1 action made", self.front("run", "build"))
            self.assertEqual(self.text("build/here"), '#include "a.h"\na\n')

    def test_mounted(self) -> None:
        said = self.ninja("build here: CUSTOM_COMMAND ../src/a.c\n  COMMAND = pwd > here; ls ../src >> here\n")
        if "sees its room" not in said:
            self.skipTest("this system has no namespaces for users")
        self.front("build", "build")
        self.assertEqual(self.text("build/here"), f"{self.root}/build\na.c\n")


class InPlace(Ninja):
    """Cases of steps that no list can contain."""

    def test_many_outputs_and_inputs(self) -> None:
        for number in range(4200):
            self.put(f"many/{number}", "x\n")
        outputs = " ".join(f"p{it}" for it in range(300))
        text = (f"build {outputs}: CUSTOM_COMMAND ../src/a.c\n  COMMAND = for n in $$(seq 0 299); do echo $$n > p$$n; done\n"
                f"build sum: link {' '.join(f'../many/{it}' for it in range(4200))}\nbuild two: link p7 sum\n")
        said = self.ninja(text)
        self.assertIn("build/p0 runs in place, as ninja runs it: it makes 300 files", said)
        self.assertIn("build/sum runs in place, as ninja runs it: it reads 4200 files", said)
        self.assertIn("3 actions made", self.front("build", "build"))
        self.assertEqual(self.text("build/two"), "7\n" + "x\n" * 4200)
        self.assertIn("nothing to do, 3 up to date", self.front("build", "build"))
        self.put("many/4", "y\n")
        self.assertIn("2 actions made, 1 up to date", self.front("build", "build"))
        self.assertIn("3 steps, 2 of them in place, no problems found", self.front("check", "build"))

    def test_a_target_that_makes_no_file(self) -> None:
        """Checks that the target runs each time, and that the steps that wait for it aren't made again."""
        self.ninja("build CMakeFiles/note: CUSTOM_COMMAND\n  COMMAND = echo >> notes\nbuild note: phony CMakeFiles/note\n"
                   "build a.o: cc ../src/a.c || note\nbuild all.txt: link a.o || note\n")
        for number, made in ((1, 3), (2, 1), (3, 1)):
            self.assertIn(f"{made} action{'s' if made > 1 else ''} made", self.front("build", "build"))
            self.assertEqual(self.text("build/notes"), "\n" * number)

    def test_failure_and_limit(self) -> None:
        self.ninja("build CMakeFiles/bad: CUSTOM_COMMAND\n  COMMAND = echo it is bad; exit 3\nbuild a.o: cc ../src/a.c || CMakeFiles/bad\n"
                   "build b.o: cc ../src/b.c\n  FLAGS = -I../inc\n")
        said = self.front("build", "build", status=1)
        self.assertIn("FAILED build/CMakeFiles/bad  exit 3 (Command)\n  | it is bad", said)
        self.assertIn("1 action made, 1 failed, 1 skipped", said)
        self.ninja("build CMakeFiles/slow: CUSTOM_COMMAND\n  COMMAND = sleep 1000\n")
        self.assertIn("ended by --limit", self.front("build", "build", "--limit=0.5", status=9))

    def test_interrupted_in_place(self) -> None:
        self.ninja("build CMakeFiles/slow: CUSTOM_COMMAND\n  COMMAND = echo > begun; sleep 1234\n")
        run = self.begin("build", "build")
        self.until(lambda: os.path.exists("build/begun"))
        run.send_signal(signal.SIGINT)
        self.assertEqual(run.wait(240), 130)
        run.communicate()
        self.until(lambda: not [it for it in self.sleepers("sleep\x001234") if os.path.realpath(f"/proc/{it}/cwd").startswith(self.root)])

    def test_asked_for(self) -> None:
        """Checks that a step that reads an undeclared file fails in a room. It succeeds with --also, and in place."""
        text = "build it: CUSTOM_COMMAND ../src/a.c\n  COMMAND = cat ../src/b.c > it\n"
        self.ninja(text)
        self.front("build", "build", status=1)
        for word in ("--also=src/b.c", "--in-place=build/i*"):
            self.ninja(text, word)
            self.front("build", "build")
            self.assertEqual(self.text("build/it"), "#include <inc.h>\nb\n")
            os.remove("build/it")

    def test_links_of_a_library(self) -> None:
        """Checks that a link, which can't be an output, is a copy during the run and a link after it."""
        self.put("src/tool", '#!/bin/sh\nln -sf "$3" "$4"\nln -sf "$4" "$5"\n')
        os.chmod("src/tool", 0o755)
        self.ninja("rule lib\n  command = ../src/tool -E cmake_symlink_library $in $out\n"
                   "build l.so.1: link ../src/a.c\nbuild l.so.0 l.so: lib l.so.1 | ../src/tool\nbuild use: link l.so\n")
        self.assertIn("3 actions made", self.front("build", "build"))
        self.assertEqual([os.readlink(f"build/{it}") for it in ("l.so.0", "l.so")], ["l.so.1", "l.so.0"])
        self.assertIn("nothing to do, 3 up to date", self.front("build", "build"))
        self.put("src/a.c", "other\n")
        self.assertIn("3 actions made", self.front("build", "build"))
        self.assertEqual((self.text("build/use"), self.text("build/l.so")), ("other\n", "other\n"))
        self.assertTrue(os.path.islink("build/l.so"))


class Words(Ninja):
    """Cases of the build file's language, and of a user's mistakes."""

    def test_language(self) -> None:
        self.put("build/more.ninja", "rule say\n  command = echo $what > $out\n  what = rule\n")
        self.put("build/sub.ninja", "top = inner\nbuild sub: say\n  what = $top\n")
        self.put("src/a b.c", "blank\n")
        self.ninja("top = outer\ninclude more.ninja\nsubninja sub.ninja\nbuild one: say\nbuild two: say\n  what = ${top}-$\n      long $$HOME\n"
                   "build three | three.more: CUSTOM_COMMAND ../src/a$ b.c\n  COMMAND = cp '../src/a b.c' three && cp three three.more\n"
                   "rule resp\n  command = xargs cat < $out.rsp > $out\n  rspfile = $out.rsp\n  rspfile_content = $in_newline\n"
                   "build four: resp ../src/a.h ../src/b.c\npool p\n  depth = 2\nbuild all: phony one two three four sub\n")
        self.front("build", "build")
        self.assertEqual([self.text(f"build/{it}") for it in ("one", "two", "three", "three.more", "four", "sub")],
                         ["rule\n", "outer-long\n", "blank\n", "blank\n", "head\n#include <inc.h>\nb\n", "inner\n"])

    def test_looks(self) -> None:
        """Checks that commands that take a list also take the folder, from several folders."""
        self.plain()
        self.front("build", "build", "--json=events")
        self.assertTrue(os.path.exists("events"))
        self.assertIn("is up to date", self.front("explain", "build/a.o", "build"))
        self.assertIn("build/all.txt <- build/a.o, build/b.o", self.front("graph", "build"))
        self.front("page", "build", "--out=page.html")
        os.chdir("build")
        self.assertIn("nothing to do, 3 up to date", self.front())
        self.assertIn("3 steps, 0 of them in place, no problems found", self.front("check"))
        os.chdir("..")
        self.assertIn("removed", self.front("clean", "build"))
        self.assertIn("3 actions made", self.front("build", f"{self.root}/build"))
        self.put("src/a.c", "@include <nix.h>\n")
        said = self.front("build", "build", status=1)
        self.assertEqual(said.splitlines()[-1], "lenthuvi explain build/a.o build        lenthuvi page build")

    def test_kept_workers(self) -> None:
        self.plain()
        for text in ("x\n", "y\n"):
            self.put("src/a.c", text)
            self.front("build", "build", "--keep=60")
            self.assertEqual(self.text(), text + "inc\nb\n")

    def test_mistakes(self) -> None:
        for words, why, status in ((["import"], "lenthuvi import ninja FOLDER", 2), (["import", "nija", "src"], "did you mean ninja?", 2),
                                   (["import", "ninja", "src"], "src/build.ninja isn't there; cmake -G Ninja", 4), (["build", "src"], "and no build.ninja is in it", 4),
                                   (["import", "ninja", "nix"], "nix/build.ninja isn't there", 4)):
            with self.subTest(words):
                self.assertIn(why, self.front(*words, status=status))
        self.put("build/build.ninja", "build x: nix y\n")
        self.assertIn("lenthuvi import ninja build", self.front("build", "build", status=4))
        self.assertIn("there is no rule nix", self.front("import", "ninja", "build", status=4))
        for words, why in ((["--root=/nix"], "isn't below it"), (["--env=NIX_OF_MINE"], "there is no such variable"), (["--mount=x"], "auto, always or never"),
                           (["--root=/"], "only / above both")):
            self.assertIn(why, self.front("import", "ninja", "build", *words, status=2))
        self.put("build/build.ninja", "rule m\n  command = true\n  dyndep = d\nbuild x: m || d\n")
        self.assertIn("(dyndep, ", self.front("import", "ninja", "build", status=4))
        self.put("build/build.ninja", "rule m\n  command = $command\nbuild x: m\n")
        self.assertIn("name each other", self.front("import", "ninja", "build", status=4))
        self.assertIn("nothing makes y", self.front("import", "ninja", "build", "--target=y", status=4))

    def test_settings_that_are_spoiled(self) -> None:
        self.plain()
        for text in ("", "{}", "[1]", '{"kind": "make", "version": 1}'):
            self.put("build/.imported/settings.json", text)
            self.assertIn("lenthuvi import ninja writes it again", self.front("build", "build", status=4))
        self.plain()
        for text in ("", "{}", '{"includes": 3, "depfiles": []}'):
            self.put("build/.imported/found.json", text)
            self.put("src/a.c", text + "\n")
            self.front("build", "build")


class Compiled(Ninja):
    """A case with a real compiler, if there is one."""

    def test_as_by_hand(self) -> None:
        """Checks that objects with debug information, a library and a program equal those that the commands make by hand."""
        compiler = shutil.which("cc")
        if compiler is None:
            self.skipTest("there is no cc")
        self.put("src/a.c", '#include <stdio.h>\n#include "a.h"\nint a(void) { return printf("%s", __FILE__); }\n')
        self.put("src/a.h", "int a(void);\n")
        self.put("src/main.c", '#include "a.h"\nint main(void) { return a() < 0; }\n')
        rules = (f"rule c\n  command = {compiler} -g -MD -MF $out.d -o $out -c $in\n  depfile = $out.d\n  deps = gcc\n"
                 f"rule ar\n  command = rm -f $out && ar rcsD $out $in\nrule exe\n  command = {compiler} -g $in -o $out\n")
        text = f"{rules}build a.o: c {self.root}/src/a.c\nbuild main.o: c ../src/main.c\nbuild l.a: ar a.o\nbuild main: exe main.o l.a\n"
        os.makedirs("build")
        for command in (f"{compiler} -g -o a.o -c {self.root}/src/a.c", f"{compiler} -g -o main.o -c ../src/main.c", "ar rcsD l.a a.o",
                        f"{compiler} -g main.o l.a -o main"):
            subprocess.run(command, shell=True, cwd="build", env={"PATH": "/usr/bin:/bin"}, check=True)
        wanted = {it: pathlib.Path("build", it).read_bytes() for it in ("a.o", "main.o", "l.a", "main")}
        ways: list[list[str]] = [[], ["--mount=never"]]
        for words in ways:
            for name in wanted:
                os.remove(f"build/{name}")
            self.ninja(text, *words)
            self.assertIn("4 actions made", self.front("run", "build"))
            self.assertEqual([it for it, data in wanted.items() if pathlib.Path("build", it).read_bytes() != data], [], words)
        self.assertEqual(subprocess.run("build/main", stdout=subprocess.PIPE, text=True, check=True).stdout, f"{self.root}/src/a.c")
