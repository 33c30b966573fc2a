"""Finds which files below a folder a C or C++ source can include: by reading it, with no preprocessor.

It ignores conditions, so it may find more files than the compiler reads, and never fewer, except for a name that a macro makes. If
there is such a name, the compiler must be asked.
"""
from __future__ import annotations

import os
import re
from typing import Any, Callable, NamedTuple

from ..digests import Stamp

INCLUDE = re.compile(
    rb'^[ \t]*(?:#|%:)[ \t]*(?:include(_next)?|import|embed)\b[ \t]*(?:"([^"\n]+)"|<([^>\n]+)>|([^\s"<]+))'
    rb'|__has_include[ \t]*\([ \t]*(?:"([^"\n]+)"|<([^>\n]+)>)'
    rb'|^[ \t]*\.(?:incbin|include)[ \t]+"([^"\n]+)"', re.M)
SPLICED = re.compile(rb"\\\r?\n")


class Folders(NamedTuple):
    """The folders that are searched for includes: those for only names in quotes, and those for all names."""

    quotes: tuple[str, ...]
    all: tuple[str, ...]


class Scanner:
    """The includes of each file, remembered with the file's stamp."""

    def __init__(self, kept: dict[str, list[Any]], stamp: Callable[[str], Stamp | None], made: set[str], is_old: Callable[[Stamp], bool]) -> None:
        self.kept = kept  # path -> [stamp, [[kind, name]..]]
        self.stamp, self.made, self.is_old = stamp, made, is_old
        self.places: dict[tuple[str, tuple[str, ...]], list[str]] = {}
        self.is_new = False

    def names(self, path: str) -> list[list[str]]:
        """Returns the includes of a file: the kind and the name of each."""
        stamp = self.stamp(path)
        if stamp is None:
            return []
        old = self.kept.get(path)
        if old and tuple(old[0]) == stamp:
            return list(old[1])
        with open(path, "rb") as file:
            names = [list(it) for it in sorted(includes_in(file.read()))]
        if self.is_old(stamp):
            self.kept[path] = [list(stamp), names]
            self.is_new = True
        return names

    def there(self, path: str) -> bool:
        """Returns True if the file exists, or if a step makes it."""
        return path in self.made or self.stamp(path) is not None

    def places_of(self, name: str, folders: tuple[str, ...]) -> list[str]:
        """Returns the paths of a name in these folders, in their order."""
        key = name, folders
        if key not in self.places:
            paths = (os.path.normpath(os.path.join(folder, name)) for folder in folders)
            self.places[key] = [path for path in paths if self.there(path)]
        return self.places[key]

    def forget_places(self) -> None:
        """Looks for each name again from now on."""
        self.places.clear()

    def closure(self, sources: list[str], folders: Folders) -> tuple[set[str], bool]:
        """Returns the sources and all files that they can include, and True if a macro names an include."""
        found, rest, is_unsure = set(sources), list(sources), False
        while rest:
            path = rest.pop()
            for kind, name in self.names(path):
                is_unsure |= kind == "macro"
                new = [it for it in self.included(path, kind, name, folders) if it not in found]
                found.update(new)
                rest += new
        return found, is_unsure

    def included(self, path: str, kind: str, name: str, folders: Folders) -> list[str]:
        """Returns the files that an include of a file can mean."""
        if kind == "macro":
            return []
        if kind == "next":
            return self.places_of(name, folders.quotes + folders.all)
        near = self.places_of(name, (os.path.dirname(path),)) if kind == "near" else []
        return (near or self.places_of(name, folders.quotes + folders.all if kind == "near" else folders.all))[:1]


def includes_in(data: bytes) -> set[tuple[str, str]]:
    """Returns the includes in a text."""
    return {kind_of(it) for it in INCLUDE.finditer(SPLICED.sub(b"", data) if b"\\" in data else data)}


def kind_of(it: re.Match[bytes]) -> tuple[str, str]:
    """Returns the kind of an include, and the name in it."""
    further, near, far, macro, asked_near, asked_far, assembled = it.groups()
    name = (near or far or macro or asked_near or asked_far or assembled).decode("utf-8", "surrogateescape")
    if macro:
        return "macro", name
    return "next" if further else "near" if near or asked_near or assembled else "far", name
