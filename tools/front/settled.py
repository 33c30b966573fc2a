"""The shortest way to find that there is nothing to do: every file that a list names has the stamp that it had when all was up to date."""
from __future__ import annotations

import json
import os
import time

from .digests import YOUNG, Files, stamp_of, write_whole
from .listing import Action, Listing, state_folder
from .options import Words

DECIDING = ("--only", "--extra-flag")


def place_of(path: str) -> str:
    """Returns the file of the stamps."""
    return os.path.join(state_folder(path), "settled")


def mark_of(words: Words) -> list[list[str]]:
    """Returns the options that decide whether an action is up to date."""
    return [words.all(name) for name in DECIDING]


def settled(path: str, words: Words) -> tuple[int, set[str]]:
    """Returns how many actions are up to date for sure, and the list's mnemonics; 0 if that has to be looked at."""
    if path == "-" or os.path.exists(os.path.join(state_folder(path), "open")):
        return 0, set()
    try:
        with open(place_of(path), encoding="utf-8", errors="surrogateescape") as file:
            number, mark, mnemonics, paths, stamps = json.loads(file.read())
        if mark != mark_of(words):
            return 0, set()
        for name, stamp in zip(paths, stamps, strict=True):
            held = os.stat(name)
            if stamp != [held.st_size, held.st_mtime_ns, held.st_ctime_ns, held.st_ino]:
                return 0, set()
        return int(number), set(mnemonics)
    except (OSError, ValueError, TypeError):
        return 0, set()


def settle(listing: Listing, words: Words, actions: list[Action], files: Files, seconds: float) -> None:
    """Notes the stamps that all files of these actions had when they were found to be up to date.

    `seconds` is the time since this call began. If the list itself, or a file that it comes from, has changed since then, that change
    may not have been seen, so nothing is noted.
    """
    begun = time.time_ns() - YOUNG - int(seconds * 1e9)
    own = [listing.path, *(listing.origin.extra_paths() if listing.origin is not None else [])]
    stamps = {path: stamp for path in own if (stamp := stamp_of(path)) is not None and max(stamp[1], stamp[2]) < begun}
    paths = list(dict.fromkeys([*own, *(path for it in actions for path in (*it.reads(), *it.outputs))]))
    found = [stamps.get(path) or files.sure_stamp(path) for path in paths]
    if listing.path == "-" or not stamps.keys() >= set(own) or None in found:
        unsettle(listing.path)
        return
    write_whole(place_of(listing.path), json.dumps([len(actions), mark_of(words), sorted(listing.mnemonics()), paths, found]))


def unsettle(path: str) -> None:
    """Forgets that all was up to date."""
    try:
        os.remove(place_of(path))
    except FileNotFoundError:
        pass
