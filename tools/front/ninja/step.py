"""A step of a ninja build as an action."""
from __future__ import annotations

import fnmatch
import hashlib
import json
import os
import re
import shlex
import subprocess
import sys
from typing import TYPE_CHECKING, Any, Iterator

from ..faults import MOST, path_trouble
from ..listing import Action, Json
from .build_file import Edge
from .includes import Folders

if TYPE_CHECKING:
    from .project import Project

COMMAND_WORKER = os.path.join(os.path.dirname(os.path.realpath(__file__)), "command_worker.py")
# A word as a shell splits it, with its quotes, or the blanks between two words.
RAW_WORD = re.compile(r"""(?:[^\s'"\\]|\\.|'[^']*'|"(?:\\.|[^"\\])*")+|\s+""", re.S)
FOR_SHELL = re.compile(r"[|&;<>()$`*?#~!\n\[\]{}]|^[A-Za-z_]\w*=")
BETWEEN_WORDS = re.compile(r"[\s'\"]+")
IN_WORD = r"/[^\s'\",:;=]+"
FOLDER_WORDS = ("-iquote", "-I", "-isystem", "-idirafter")
FORCED = ("-include", "-imacros")
UTILITY = re.compile(r"(?:^|.*/)CMakeFiles/[^/]+")
NO_FILE = "it makes no file, so it runs each time"
REQUIREMENTS = {"supports-workers": "1", "requires-worker-protocol": "json", "worker-key-mnemonic": "Ninja"}


class Step:
    """An edge of the build file: its inputs, its outputs, and its command."""

    def __init__(self, edge: Edge, number: int, project: Project) -> None:
        self.edge, self.number, self.project = edge, number, project  # makers have lower numbers
        self.text, self.response_file = edge.value("command"), edge.value("rspfile")
        self.response = edge.value("rspfile_content") if self.response_file else ""
        # The command with the words of its response file.
        self.whole = self.text.replace(f"@{self.response_file}", self.response) if self.response_file else self.text
        self.depfile = project.below(edge.value("depfile")) if edge.value("depfile") else None
        self.compiles = self.depfile is not None and " -c " in self.text
        self.links = " -E cmake_symlink_" in self.text
        self.is_custom = edge.rule.startswith("CUSTOM_COMMAND")
        self.products = [*dict.fromkeys(it for it in map(project.below, edge.made) if it and it != self.depfile)]
        self.name = edge.outputs[0] if not self.products else self.products[0]
        self.is_utility = self.is_custom and all(UTILITY.fullmatch(it) for it in edge.outputs)
        self.never_made = {project.below(it) for it in edge.outputs} if self.is_utility else set()
        self.said: dict[str, list[str]] = {}
        mark = hashlib.sha256(self.name.encode("utf-8", "surrogateescape")).hexdigest()[:20]
        self.flags, self.own_depfile = f"{project.own}/flags/{mark}", f"{project.own}/deps/{mark}.d"

    @property
    def mnemonic(self) -> str:
        """Returns the kind of the step."""
        return "Compile" if self.compiles else "Command" if self.is_custom else "Link"

    def reason_for_place(self, inputs: list[str]) -> str:
        """Returns the reason why the step must run in the project's own folder, as in ninja, or nothing if it can run in a room."""
        if self.is_utility:
            return NO_FILE
        if self.depfile is not None and not self.compiles:
            return "what it reads is known only when it has run"
        if any(fnmatch.fnmatchcase(it, glob) for it in self.products for glob in self.project.settings.in_place):
            return "--in-place asks for it"
        if len(self.products) > MOST["outputs"] - 1:
            return f"it makes {len(self.products)} files, and an action makes {MOST['outputs']} at most"
        if len(inputs) > MOST["inputs"] - 1:
            return f"it reads {len(inputs)} files, and an action reads {MOST['inputs']} at most"
        trouble = next((f"{it!r} {why}" for it in (*self.products, *inputs) if (why := trouble_of(it))), None)
        return trouble or ("" if self.products else "what it makes isn't below the root")

    # The files that it reads.

    def declared(self) -> list[str]:
        """Returns the files that the build file or the command's words name as read, including those that only must be made before."""
        if self.compiles and self.known() is not None:
            return self.deciding()
        if "all" not in self.said:
            self.said["all"] = self.find(self.edge.read)
        return self.said["all"]

    def deciding(self) -> list[str]:
        """Returns the declared files that decide whether it is up to date. As in ninja, order-only inputs don't."""
        if "deciding" not in self.said:
            edge, leaves = self.edge, self.project.build.leaves
            only_before = set(leaves(edge.order_only)) - set(leaves(edge.inputs + edge.implicit))
            left_out = set(map(self.project.below, only_before))
            self.said["deciding"] = [it for it in self.find(edge.inputs + edge.implicit) if it not in left_out]
        return self.said["deciding"]

    def find(self, paths: list[str]) -> list[str]:
        """Returns the files for paths. Unless the step compiles, adds those that the words or --also name."""
        project = self.project
        found = dict.fromkeys(project.below(it) for it in project.build.leaves(paths))
        if not self.compiles:
            found.update(dict.fromkeys(self.named()))
            found.update(dict.fromkeys(project.settings.also))
        return [it for it in found if it and it not in self.products and self.reads(it)]

    def reads(self, path: str) -> bool:
        """Returns True if the step may read a path: a file, but for a compiler no library that only must be made before."""
        maker = self.project.makers.get(path)
        if maker is None:
            return self.project.stamp(path) is not None
        if maker.number >= self.number or path in maker.never_made:
            return False
        return not self.compiles or maker.is_custom or path in map(self.project.below, self.edge.inputs + self.edge.implicit)

    def named(self) -> Iterator[str]:
        """Yields the files below the root that the words name, and the other names of libraries among the inputs."""
        project = self.project
        for word in map(project.below, BETWEEN_WORDS.split(self.whole)):
            if word and word in project.makers:
                yield word
        for found in re.findall(re.escape(project.root) + IN_WORD, self.whole):
            yield project.below(found) or ""
        for path in map(project.below, self.edge.inputs + self.edge.implicit):
            yield from project.aliases.get(path or "", ())  # a linker looks for a library's library by its short name

    def known(self) -> list[str] | None:
        """Returns the paths in the depfile of the last run, or None if there is no depfile."""
        return self.project.depfiles.paths(self.own_depfile) if self.depfile is not None else None

    def inputs(self) -> list[str]:
        """Returns all files that it may read: those declared, those that it read, and those that its sources can include now."""
        found = dict.fromkeys(self.declared())
        if self.compiles:
            more = [*(self.known() or ()), *sorted(self.included())]
            found.update((it, None) for it in more if it not in self.products and self.is_there(it))
        return list(found)

    def is_there(self, path: str) -> bool:
        """Returns True if a file exists, or if a step before this one makes it."""
        maker = self.project.makers.get(path)
        return maker.number < self.number if maker is not None else self.project.stamp(path) is not None

    def after(self) -> list[str]:
        """Returns the paths of steps that make no file and must run before this one."""
        found = (self.project.below(it) for it in self.project.build.leaves(self.edge.read))
        makers = self.project.makers
        return [it for it in found if it and it in makers and makers[it].is_utility and makers[it].number < self.number]

    def included(self) -> set[str]:
        """Returns the files that the sources can include."""
        project = self.project
        sources = [it for it in map(project.below, self.edge.inputs) if it] + self.forced()
        found, is_unsure = project.scanner.closure(sources, self.folders())
        if is_unsure and all(project.stamp(it) for it in sources):
            found |= self.asked()
        return found

    def folders(self) -> Folders:
        """Returns the folders below the root that the compiler searches for includes, in its order."""
        found: dict[str, list[str]] = {it: [] for it in FOLDER_WORDS}
        words = iter(self.project.split(self.whole))
        for word in words:
            front = next((it for it in FOLDER_WORDS if word.startswith(it)), None)
            if front is not None:
                path = self.project.below(word[len(front):] or next(words, ""), takes_root=True)
                found[front] += [path] if path is not None else []
        quotes, *others = (tuple(dict.fromkeys(it)) for it in found.values())
        return Folders(quotes, tuple(dict.fromkeys(it for other in others for it in other)))

    def forced(self) -> list[str]:
        """Returns the files that -include and -imacros name."""
        words = self.project.split(self.whole)
        paths = (self.project.below(words[at + 1]) for at, word in enumerate(words[:-1]) if word in FORCED)
        return [it for it in paths if it and self.project.scanner.there(it)]

    def asked(self) -> set[str]:
        """Runs the compiler with -M, and returns the files that it would read. This includes names that a macro makes."""
        words = list(self.project.split(self.whole))
        for word in ("-o", "-MF", "-MT", "-MQ"):
            if word in words[:-1]:
                del words[words.index(word) : words.index(word) + 2]
        words = [*(it for it in words if it not in ("-c", "-MD", "-MMD")), "-M"]
        try:
            done = subprocess.run(words, cwd=self.project.folder, env=self.project.settings.env, stdin=subprocess.DEVNULL, stdout=subprocess.PIPE,
                                  stderr=subprocess.DEVNULL, text=True, errors="surrogateescape", check=False)
        except OSError:
            return set()  # The step itself will report that the compiler can't be started.
        return set(self.project.depfiles.named(done.stdout))

    # The step as an action.

    def order(self) -> Json:
        """Returns the order for the command worker."""
        project, mounts = self.project, self.project.settings.mounts
        order: Json = {"in": project.inner, "root": project.root, "mount": mounts, "makes": self.products}
        if self.compiles:
            folders = self.folders()
            order |= {"depfile": [self.depfile, self.own_depfile], "folders": [*folders.quotes, *folders.all]}
        if self.response_file:
            order["files"] = {project.below(self.response_file) or self.response_file: self.mapped(self.response)}
        text = self.mapped(self.text)
        if self.compiles and not mounts:
            front, _, rest = text.rpartition(" -c ")
            text = f"{front} {shlex.quote('-ffile-prefix-map={room}=' + project.root)} -c {rest}"
        if FOR_SHELL.search(text.replace("{room}", "")):
            return {**order, "shell": text}
        return {**order, "words": shlex.split(text)}

    def mapped(self, text: str) -> str:
        """Returns a command with the root replaced by the room, except in text that may be written to a file."""
        if self.project.settings.mounts or self.project.root not in text:
            return text
        return "".join(map(self.mapped_word, RAW_WORD.findall(text)))

    def mapped_word(self, word: str) -> str:
        """Returns a word with the root replaced by the room, unless the word is a -D option."""
        if word.lstrip("'\"").startswith("-D"):
            return word
        moved = self.project.rooted.sub("{room}", word)
        # A path for the loader goes into the program. While it is linked, its libraries are in the room.
        return f"{word} {moved.replace('-rpath,', '-rpath-link,')}" if "-rpath," in word and moved != word else moved

    def action(self) -> Imported:
        """Returns the action, and writes its flag file."""
        inputs = self.inputs()
        place = self.reason_for_place(inputs)
        if not place:
            self.project.write_flags(self.flags, json.dumps(self.order()))
        outputs = self.products if place or not self.compiles else [*self.products, self.own_depfile]
        held = {"name": printable(self.name), "mnemonic": self.mnemonic, "argv": [sys.executable, "-I", "-S", COMMAND_WORKER, f"@{self.flags}"],
                "env": self.project.settings.env, "inputs": inputs if place else [self.flags, *inputs], "outputs": outputs, "requirements": REQUIREMENTS}
        return Imported(held, self, place)


class Imported(Action):
    """The action of a step. Its depfile lists the files that it really read. They decide whether it is up to date."""

    __slots__ = ("step", "in_place", "after")

    def __init__(self, held: Json, step: Step, in_place: str) -> None:
        super().__init__(held)
        self.step, self.in_place, self.after = step, in_place, step.after()

    def look_again(self) -> None:
        """Finds its inputs again after sources were made."""
        self.step.said.clear()
        found = self.step.action()
        self.object, self.inputs, self.outputs, self.in_place = found.object, found.inputs, found.outputs, found.in_place

    def reads(self) -> list[str]:
        """Returns the files that it read when it ran last. If they aren't known, returns the files that it may read."""
        known = self.step.known()
        if known is None and self.step.compiles:
            return self.may_read()
        flags = [] if self.in_place else [self.step.flags]
        return [*dict.fromkeys([*flags, *self.step.deciding(), *(known or ()), self.argv[0]])]

    def may_read(self) -> list[str]:
        """Returns all files that it may read."""
        return super().reads()

    def needs_made(self) -> list[str]:
        """Returns the paths whose makers must run before it."""
        return [*self.inputs, *self.after]

    def waits_for(self, maker: Action) -> bool:
        """Returns True if it can't be in the same call of a program as `maker`, which makes an input of it.

        If a step includes a generated file, its inputs are found again once that file exists. No program runs a step in place.
        """
        if self.in_place or maker.in_place:
            return True
        return isinstance(maker, Imported) and self.step.compiles and maker.step.is_custom

    def always(self) -> str:
        """Returns the reason why it is never up to date, or nothing."""
        return NO_FILE if self.step.is_utility else ""

    def shape(self, flags: list[str]) -> str:
        """Returns a digest of its command. It doesn't cover the files that it may read, since they are found again each time."""
        held: list[Any] = [self.step.text, self.step.response, self.step.project.settings.env, self.step.products, bool(self.in_place), flags]
        return hashlib.sha256(json.dumps(held, sort_keys=True).encode()).hexdigest()[:32]


def trouble_of(path: str) -> str | None:
    """Returns the reason why a path can't be in a list, or None."""
    try:
        path.encode()
    except UnicodeEncodeError:
        return "isn't UTF-8"
    return path_trouble(path)


def printable(name: str) -> str:
    """Returns an action's name, without blanks and with at most 256 bytes."""
    name = re.sub(r"[\x00-\x20\x7f\ud800-\udfff]", "_", name)
    if len(name.encode()) <= 256:
        return name
    return name.encode()[-230:].decode(errors="ignore") + "." + hashlib.sha256(name.encode()).hexdigest()[:12]
