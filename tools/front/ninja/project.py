"""A configured ninja project: its steps as actions, and the work around them."""
from __future__ import annotations

import json
import os
import re
import shlex
import subprocess
import time
from typing import Any, Callable

from ..child import kill_group
from ..digests import YOUNG, Stamp, stamp_of, write_whole
from ..faults import Unreadable
from ..listing import Action, Listing, Origin, WrongList, is_sound, state_folder
from ..list_faults import list_faults
from .build_file import BuildFile, Edge
from .depfiles import Depfiles
from .includes import Scanner
from .settings import Settings
from .step import Imported, Step

STEP = 0.05  # seconds between two looks at a step that runs in place


class Project(Origin):
    """A build folder. The process must be in the root."""

    def __init__(self, settings: Settings, configures: bool = True) -> None:
        self.settings, self.root, self.folder = settings, settings.root, settings.folder
        self.inner, self.own = settings.inner, settings.own
        self.rooted = re.compile(re.escape(self.root) + r"(?=[/'\"\s:;,]|$)")
        self.short: dict[tuple[str, bool], str | None] = {}
        self.stamps: dict[str, Stamp | None] = {}
        self.cut: dict[str, list[str]] = {}
        self.kept = self.read_kept()
        self.depfiles = Depfiles(self.kept["depfiles"], self.below, is_old)
        self.build = BuildFile(self.folder)
        self.was_configured = configures and self.configure()
        if self.was_configured:
            self.build = BuildFile(self.folder)
        self.load()

    def load(self) -> None:
        """Makes the steps. Raises Unreadable if variables of a rule refer to each other."""
        try:
            self.make_steps()
        except RecursionError:
            raise Unreadable(f"{self.folder}/build.ninja: variables of a rule name each other") from None

    def make_steps(self) -> None:
        """Makes a step of each wanted edge."""
        chosen = [it for it in self.build.wanted(self.settings.targets) if it.rule != "phony" and not it.value("generator") and it.value("command")]
        for edge in chosen:
            if edge.value("dyndep"):
                raise Unreadable(f"{edge.outputs[0]}: another step finds out what it reads (dyndep, as for modules of C++ and Fortran), "
                                 "which import doesn't understand")
        self.steps = [Step(it, number, self) for number, it in enumerate(chosen)]
        self.makers = {path: step for step in self.steps for path in step.products}
        self.scanner = Scanner(self.kept["includes"], self.stamp, set(self.makers), is_old)
        self.aliases = {self.below(step.edge.inputs[0]) or "": step.products for step in self.steps if step.links and step.edge.inputs}

    def listing(self, path: str) -> Listing:
        """Returns the list, and writes it if it has changed."""
        self.actions = [it.action() for it in self.steps]
        self.keep()
        text = json.dumps({"actions": [it.object for it in self.actions]}, indent=1) + "\n"
        if not is_text(path, text):
            write_whole(path, text)
        found = Listing(path, state_folder(path), list(self.actions), self)
        if not is_sound(found.actions, path):
            raise WrongList(list_faults(text, [it.object for it in self.actions], path) or [f"{self.folder}/build.ninja can't be used"])
        return found

    # Paths, stamps and words.

    def below(self, path: str, takes_root: bool = False) -> str | None:
        """Converts a path relative to the build folder into one relative to the root. Returns None if it isn't below the root."""
        key = path, takes_root
        if key not in self.short:
            found = os.path.normpath(os.path.join(self.folder, path))
            is_inside = found.startswith(self.root + "/")
            self.short[key] = found[len(self.root) + 1 :] if is_inside else "." if takes_root and found == self.root else None
        return self.short[key]

    def stamp(self, path: str) -> Stamp | None:
        """Returns the stamp of a regular file, or None if there is none."""
        if path not in self.stamps:
            self.stamps[path] = stamp_of(path)
        return self.stamps[path]

    def split(self, text: str) -> list[str]:
        """Returns the words of a command."""
        if text not in self.cut:
            try:
                self.cut[text] = shlex.split(text)
            except ValueError:
                self.cut[text] = text.split()
        return self.cut[text]

    def write_flags(self, path: str, text: str) -> None:
        """Writes a flag file, unless it has this text already."""
        if not is_text(path, text):
            os.makedirs(os.path.dirname(path), exist_ok=True)
            write_whole(path, text)
            self.stamps.pop(path, None)

    def read_kept(self) -> dict[str, Any]:
        """Returns what earlier calls found in sources and depfiles."""
        try:
            with open(f"{self.own}/found.json", encoding="utf-8") as file:
                held = json.load(file)
            return {"includes": dict(held["includes"]), "depfiles": dict(held["depfiles"])}
        except (OSError, ValueError, TypeError, KeyError):
            return {"includes": {}, "depfiles": {}}

    def keep(self) -> None:
        """Writes what was found in sources and depfiles."""
        if self.scanner.is_new or self.depfiles.is_new:
            write_whole(f"{self.own}/found.json", json.dumps(self.kept, separators=(",", ":")))
            self.scanner.is_new = self.depfiles.is_new = False

    # Configuring.

    def generator(self) -> Edge | None:
        """Returns the edge that makes the build file itself."""
        found = self.build.makers.get("build.ninja")
        return found if found is not None and found.value("command") else None

    def configure(self) -> bool:
        """Runs the step of the build file if one of its inputs is newer. Returns True if it ran."""
        edge = self.generator()
        own = os.stat(f"{self.folder}/build.ninja").st_mtime_ns
        if edge is None or all(self.time_of(it) <= own for it in self.build.leaves(edge.inputs + edge.implicit)):
            return False
        command = edge.value("command")
        done = subprocess.run(command, shell=True, cwd=self.folder, stdin=subprocess.DEVNULL, stdout=subprocess.PIPE, stderr=subprocess.STDOUT,
                              text=True, errors="replace", check=False)
        if done.returncode:
            raise Unreadable(f"build.ninja isn't up to date, and what makes it again ended with status {done.returncode}: {command}\n{done.stdout.rstrip()}")
        return True

    def time_of(self, path: str) -> int:
        """Returns the time of an input of the build file. If the file is gone, returns the current time."""
        try:
            return os.stat(os.path.join(self.folder, path)).st_mtime_ns
        except OSError:
            return time.time_ns()

    # The methods that a build calls as the origin of its list.

    def shown(self) -> str:
        """Returns the name of the list for people."""
        return self.inner

    def extra_paths(self) -> list[str]:
        """Returns the files on which the list itself depends."""
        edge = self.generator()
        more = self.build.leaves(edge.inputs + edge.implicit) if edge is not None else []
        return [f"{self.own}/settings.json", *(os.path.normpath(os.path.join(self.inner, it)) for it in self.build.files),
                *(os.path.normpath(os.path.join(self.inner, it)) for it in more)]

    def look_again(self, done: list[Action], left: list[Action]) -> None:
        """After some actions, finds again which files the remaining ones may read, if sources may have been made."""
        if any(isinstance(it, Imported) and (it.in_place or it.step.is_custom) for it in done):
            self.stamps.clear()
            self.scanner.forget_places()
            for it in left:
                if isinstance(it, Imported):
                    it.look_again()

    def finish(self) -> None:
        """Replaces copies by the links that ninja makes there, since a link can't be an output of an action."""
        for step in self.steps:
            if step.links and any(os.path.isfile(it) and not os.path.islink(it) for it in step.products):
                subprocess.run(step.text, shell=True, cwd=self.folder, env=self.settings.env, stdin=subprocess.DEVNULL, stdout=subprocess.DEVNULL, check=False)
        self.keep()

    def run_in_place(self, action: Action, is_over: Callable[[], bool]) -> tuple[int, str]:
        """Runs a step in the project's own folder, as ninja does. Returns its exit code and what it printed."""
        assert isinstance(action, Imported)
        step = action.step
        for path in step.products:
            os.makedirs(os.path.dirname(path) or ".", exist_ok=True)
        if step.response_file:
            with open(os.path.join(self.folder, step.response_file), "w", encoding="utf-8", errors="surrogateescape") as file:
                file.write(step.response)
        os.makedirs(f"{self.own}/deps", exist_ok=True)
        with open(f"{self.own}/said", "w+b") as said:
            child = subprocess.Popen(["/bin/sh", "-c", step.text], cwd=self.folder, env=self.settings.env, stdin=subprocess.DEVNULL, stdout=said,
                                     stderr=subprocess.STDOUT, process_group=0)
            code = wait_for(child, is_over)
            said.seek(0)
            text = said.read().decode("utf-8", "replace")
        if code == 0 and step.depfile is not None and os.path.isfile(step.depfile):
            with open(step.depfile, "rb") as file, open(step.own_depfile, "wb") as out:
                out.write(file.read())
        return code, text


def wait_for(child: subprocess.Popen[bytes], is_over: Callable[[], bool]) -> int:
    """Waits until a command ends or `is_over` is true, and kills its group. Returns the exit code that a shell would give."""
    try:
        # WNOWAIT leaves the child unreaped, so that its number still names its group.
        while os.waitid(os.P_PID, child.pid, os.WEXITED | os.WNOWAIT | os.WNOHANG) is None and not is_over():
            time.sleep(STEP)
    finally:
        kill_group(child.pid)
        code = child.wait()
    return code if code >= 0 else 128 - code


def is_old(stamp: Stamp) -> bool:
    """Returns True if any later change of the file changes its stamp."""
    return max(stamp[1], stamp[2]) + YOUNG < time.time_ns()


def is_text(path: str, text: str) -> bool:
    """Returns True if a file has this text."""
    try:
        with open(path, encoding="utf-8", newline="") as file:
            return file.read() == text
    except (OSError, ValueError):
        return False

