"""The settings that `lenthuvi import` records for a build folder, and a test whether a room can be mounted at the project's path."""
from __future__ import annotations

import dataclasses
import json
import os
import re
import subprocess
import tempfile

from ..digests import write_whole
from ..faults import Unreadable
from ..listing import IMPORTED

CMAKE_HOME = re.compile(r"^CMAKE_HOME_DIRECTORY:\w+=(.*)$", re.M)
UNSHARE = ("unshare", "--user", "--map-root-user", "--mount", "/bin/sh", "-c")
KIND, VERSION = "ninja", 1


@dataclasses.dataclass
class Settings:
    """The settings of an import. The sources and the build folder are below `root`. `root` and `folder` are absolute paths."""

    folder: str
    root: str
    targets: list[str] = dataclasses.field(default_factory=list)
    env: dict[str, str] = dataclasses.field(default_factory=lambda: {"PATH": "/usr/bin:/bin"})
    also: list[str] = dataclasses.field(default_factory=list)
    in_place: list[str] = dataclasses.field(default_factory=list)
    mounts: bool = False

    @property
    def inner(self) -> str:
        """Returns the build folder's path below the root."""
        return os.path.relpath(self.folder, self.root)

    @property
    def own(self) -> str:
        """Returns the path, from the root, of the folder with the import's files."""
        return os.path.normpath(os.path.join(self.inner, IMPORTED))

    def write(self) -> None:
        """Writes them into the build folder."""
        os.makedirs(os.path.join(self.folder, IMPORTED), exist_ok=True)
        held = {**dataclasses.asdict(self), "kind": KIND, "version": VERSION, "root": os.path.relpath(self.root, self.folder)}
        del held["folder"]
        write_whole(os.path.join(self.folder, IMPORTED, "settings.json"), json.dumps(held, indent=1) + "\n")


def read_settings(folder: str) -> Settings | None:
    """Returns the settings of a build folder, or None if it wasn't imported."""
    folder = os.path.realpath(folder)
    path = os.path.join(folder, IMPORTED, "settings.json")
    try:
        with open(path, encoding="utf-8") as file:
            held = json.load(file)
        if (held.pop("kind"), held.pop("version")) != (KIND, VERSION):
            raise ValueError("another version of lenthuvi wrote it")
        held["root"] = os.path.realpath(os.path.join(folder, held["root"]))
        return Settings(folder=folder, **held)
    except FileNotFoundError:
        return None
    except (OSError, ValueError, TypeError, KeyError) as error:
        raise Unreadable(f"{path} can't be used: {error}; lenthuvi import ninja writes it again") from error


def root_of(folder: str) -> str:
    """Returns the folder that has both the sources and the build folder below it."""
    try:
        with open(os.path.join(folder, "CMakeCache.txt"), encoding="utf-8", errors="replace") as file:
            found = CMAKE_HOME.search(file.read())
    except OSError:
        found = None
    return os.path.commonpath([folder, os.path.realpath(found[1])]) if found else os.path.dirname(folder)


def can_mount() -> bool:
    """Returns True if a folder can be mounted at another one's path, in a namespace of a command's own."""
    with tempfile.TemporaryDirectory() as one, tempfile.TemporaryDirectory() as other:
        try:
            done = subprocess.run([*UNSHARE, 'mount --bind "$0" "$1"', one, other], stdin=subprocess.DEVNULL, capture_output=True, timeout=20, check=False)
        except (OSError, subprocess.TimeoutExpired):
            return False
        return done.returncode == 0
