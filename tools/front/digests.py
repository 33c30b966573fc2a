"""Digests of files: of their contents, which are read again only if size, times or inode differ from before."""
from __future__ import annotations

import hashlib
import os
import stat
import time
from typing import Iterable

Stamp = tuple[int, int, int, int]
PIECE = 1 << 16
YOUNG = 50_000_000  # ns: a file that changed so shortly before it was read may change again within one tick of its times


def stamp_of(path: str) -> Stamp | None:
    """Returns size, mtime, ctime and inode, or None if there is no regular file."""
    try:
        held = os.stat(path)
    except (OSError, ValueError):
        return None
    return of_stat(held) if stat.S_ISREG(held.st_mode) else None


def of_stat(held: os.stat_result) -> Stamp:
    """Returns size, mtime, ctime and inode of what the system tells about a file."""
    return held.st_size, held.st_mtime_ns, held.st_ctime_ns, held.st_ino


def digest_of(path: str, stamp: Stamp) -> tuple[str, bool]:
    """Returns the digest of a file, and whether the file still had this stamp after it was read.

    It makes the system's calls itself: for a small file, a file object costs more than reading.
    """
    fd = os.open(path, os.O_RDONLY | os.O_CLOEXEC)
    try:
        digest = hashlib.sha256(os.read(fd, PIECE))
        while piece := os.read(fd, PIECE):
            digest.update(piece)
        return digest.hexdigest()[:40], stamp == of_stat(os.fstat(fd))
    finally:
        os.close(fd)


def write_whole(path: str, content: str | bytes) -> None:
    """Replaces a file by a new one, whole or not at all."""
    part = f"{path}.part"
    try:
        with open(part, "wb") as file:
            file.write(content if isinstance(content, bytes) else content.encode("utf-8", "surrogateescape"))
        os.replace(part, path)
    except OSError:
        try:
            os.remove(part)
        except OSError:
            pass
        raise


class Files:
    """The digests of files. They are remembered from one call to the next."""

    def __init__(self, path: str) -> None:
        self.path = path
        self.known: dict[str, tuple[Stamp, str]] = {}
        self.seen: dict[str, str | None] = {}
        self.is_new = False
        try:
            with open(path, encoding="utf-8", errors="surrogateescape") as file:
                for line in file:
                    name, size, mtime, ctime, inode, digest = line.rstrip("\n").split("\t")
                    self.known[name] = (int(size), int(mtime), int(ctime), int(inode)), digest
        except (OSError, ValueError):
            pass  # Then the files are read again.

    def digest(self, path: str) -> str | None:
        """Returns the digest of a file, or None if no regular file can be read there."""
        if path in self.seen:
            return self.seen[path]
        stamp = stamp_of(path)
        known = self.known.get(path)
        found: str | None = None
        if stamp is not None and known is not None and known[0] == stamp:
            found = known[1]
        elif stamp is not None:
            found = self.read(path, stamp)
        self.seen[path] = found
        return found

    def read(self, path: str, stamp: Stamp) -> str | None:
        """Reads a file. Its digest is remembered if the file can't have changed meanwhile."""
        begun = time.time_ns()
        try:
            digest, is_same = digest_of(path, stamp)
        except OSError:
            return None
        self.is_new = True
        if is_same and max(stamp[1], stamp[2]) + YOUNG < begun:
            self.known[path] = stamp, digest
        else:
            self.known.pop(path, None)
        return digest

    def sure_stamp(self, path: str) -> Stamp | None:
        """Returns the stamp at which a file had the digest that was found for it, or None if it may change without another stamp."""
        found = self.seen.get(path)
        if found is not None and path not in self.known:
            # It was young when it was read, and may be old enough by now.
            stamp = stamp_of(path)
            found = found if stamp is not None and self.read(path, stamp) == found else None
        known = self.known.get(path)
        return known[0] if known is not None and known[1] == found else None

    def digests(self, paths: Iterable[str]) -> dict[str, str | None]:
        """Returns the digests of several files."""
        return {path: self.digest(path) for path in paths}

    def look_again(self) -> None:
        """Forgets all stamps, so that each file's stamp is read again."""
        self.seen.clear()

    def save(self) -> None:
        """Writes the digests, completely or not at all."""
        if self.is_new:
            lines = (f"{path}\t{stamp[0]}\t{stamp[1]}\t{stamp[2]}\t{stamp[3]}\t{digest}\n"
                     for path, (stamp, digest) in self.known.items() if "\t" not in path and "\n" not in path)
            write_whole(self.path, "".join(lines))
            self.is_new = False


def sum_of(digests: Iterable[tuple[str, str | None]]) -> str:
    """Returns one digest of many."""
    text = "\n".join(f"{path}\t{digest}" for path, digest in digests)
    return hashlib.sha256(text.encode("utf-8", "surrogateescape")).hexdigest()[:32]
