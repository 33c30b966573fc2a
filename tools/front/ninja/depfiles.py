"""Reads depfiles, in which a compiler lists the files that it has read."""
from __future__ import annotations

import re
from typing import Any, Callable

from ..digests import Stamp, stamp_of

CONTINUED = re.compile(r"\\\r?\n")
PATH = re.compile(r"(?:\\.|[^\s\\])+")


def words_of(text: str) -> list[str]:
    """Returns the paths to the right of a depfile's first colon."""
    right = CONTINUED.sub(" ", text).partition(": ")[2]
    return [it.replace("\\ ", " ").replace("\\#", "#").replace("$$", "$") for it in PATH.findall(right)]


class Depfiles:
    """The paths that depfiles name, remembered by the depfile's stamp."""

    def __init__(self, kept: dict[str, list[Any]], below: Callable[[str], str | None], is_old: Callable[[Stamp], bool]) -> None:
        self.kept = kept  # path -> [stamp, [path..]]
        self.below, self.is_old = below, is_old
        self.is_new = False

    def paths(self, path: str) -> list[str] | None:
        """Returns the files below the root that a depfile names, or None if there is no depfile."""
        stamp = stamp_of(path)
        if stamp is None:
            return None
        old = self.kept.get(path)
        if old and tuple(old[0]) == stamp:
            return list(old[1])
        with open(path, encoding="utf-8", errors="surrogateescape") as file:
            found = self.named(file.read())
        if self.is_old(stamp):
            self.kept[path] = [list(stamp), found]
            self.is_new = True
        return found

    def named(self, text: str) -> list[str]:
        """Returns the files below the root that a depfile's text names."""
        return sorted({it for it in map(self.below, words_of(text)) if it})
