"""The way from a folder that was imported to its list. Little is loaded here, since every call passes through."""
from __future__ import annotations

import os
from typing import TYPE_CHECKING

from ..faults import Unreadable
from ..listing import IMPORTED, Listing
from ..options import Words
from ..voice import quoted

if TYPE_CHECKING:
    from .settings import Settings

FILES = ("--json", "--report", "--journal", "--trace", "--page", "--out")  # options whose values are paths


def enter(words: Words, place: int) -> None:
    """If the words name a folder that was imported, or there is one here, goes to its root, and puts its list in the folder's place."""
    if len(words.rest) < place:
        return
    given = words.rest[place] if len(words.rest) > place else "" if os.path.exists("list.json") else "."
    folder = given.removesuffix(f"{IMPORTED}/list.json") or "." if given.endswith(f"{IMPORTED}/list.json") else given
    settings = settings_in(folder) if folder and os.path.isdir(folder) else None
    if settings is None:
        if given and given != "." and os.path.isdir(given):
            how = f"lenthuvi import ninja {quoted([given])}" if os.path.exists(os.path.join(given, "build.ninja")) else "and no build.ninja is in it"
            raise Unreadable(f"{given} is a folder that wasn't imported: {how}")
        return
    words.shown = words.shown or given
    for name in FILES:
        if words.has(name) and words.last(name) != "-":
            words.values[name] = [os.path.abspath(it) for it in words.values[name]]
    if "/" in words.last("--executor"):
        words.values["--executor"] = [os.path.abspath(it) for it in words.values["--executor"]]
    os.chdir(settings.root)
    words.rest[place:] = [os.path.join(settings.own, "list.json")]


def settings_in(folder: str) -> Settings | None:
    """Returns what was noted of a folder, or None if it wasn't imported."""
    if not os.path.exists(os.path.join(folder, IMPORTED, "settings.json")):
        return None
    from .settings import read_settings

    return read_settings(folder)


def load_imported(path: str) -> Listing:
    """Returns the list of a folder that was imported, as its build file and its sources are now."""
    from .project import Project

    settings = settings_in(os.path.dirname(os.path.dirname(path)) or ".")
    if settings is None or settings.root != os.path.realpath("."):
        raise Unreadable(f"{path}: lenthuvi import ninja has to be called again, since the folder isn't where it was")
    return Project(settings).listing(path)
