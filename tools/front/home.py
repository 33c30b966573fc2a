"""The folder of a kept worker. worker_tool gives each process its own room. So for a kept worker the watcher links the
inputs of a request from that room into the folder, and moves the outputs back before it passes the answer on.
"""
from __future__ import annotations

import errno
import os

TYPE_CHECKING = False
if TYPE_CHECKING:
    from typing import Iterator


class Home:
    """A kept worker's folder, and the room of the process that worker_tool has started."""

    def __init__(self, path: str, room: str, is_shared: bool) -> None:
        self.path, self.room = path, room
        self.is_shared = is_shared  # True if several requests are in one folder at once
        self.folders: set[str] = set()

    def begin(self) -> None:
        """Empties the folder for a new client."""
        empty(self.path)

    def bring(self, folder: str, inputs: tuple[str, ...], outputs: list[str]) -> None:
        """Brings the inputs of a request, and makes the folders of its outputs. Only what belongs to it is in its folder then."""
        base, source = os.path.join(self.path, folder), os.path.join(self.room, folder)
        if folder or not self.is_shared:
            if os.path.isdir(base):
                empty(base)
            self.folders.clear()
        for path in inputs:
            self.make_folder(base, path)
            place(os.path.join(source, path), os.path.join(base, path))
        for path in outputs:
            self.make_folder(base, path)

    def make_folder(self, base: str, path: str) -> None:
        """Makes the folder of a path."""
        folder = os.path.dirname(os.path.join(base, path))
        if folder not in self.folders:
            os.makedirs(folder, exist_ok=True)
            self.folders.add(folder)

    def take_back(self, folder: str, inputs: tuple[str, ...], outputs: list[str] | None) -> None:
        """Moves the outputs into the room. If they aren't known, all that isn't an input is one."""
        base, room = os.path.join(self.path, folder), os.path.join(self.room, folder)
        found = outputs if outputs is not None else [it for it in files_below(base) if it not in inputs]
        for path in found:
            try:
                os.makedirs(os.path.dirname(os.path.join(room, path)), exist_ok=True)
                os.rename(os.path.join(base, path), os.path.join(room, path))
            except FileNotFoundError:
                pass  # It made none, which worker_tool tells.
            except OSError as error:
                if error.errno != errno.EXDEV:
                    raise
                copy(os.path.join(base, path), os.path.join(room, path))


def place(source: str, to: str) -> None:
    """Puts a file at another path too: by a link, or by a copy if the two are on different file systems."""
    try:
        os.link(source, to, follow_symlinks=False)
    except FileExistsError:
        os.unlink(to)
        place(source, to)
    except OSError as error:
        if error.errno not in (errno.EXDEV, errno.EPERM, errno.EMLINK):
            raise
        copy(source, to)


def copy(source: str, to: str) -> None:
    """Copies a file with its rights."""
    import shutil

    shutil.copy2(source, to, follow_symlinks=False)


def files_below(folder: str, front: str = "") -> Iterator[str]:
    """Yields the paths of the files below a folder, relative to it. Links aren't followed."""
    for it in os.scandir(folder):
        if it.is_dir(follow_symlinks=False):
            yield from files_below(it.path, f"{front}{it.name}/")
        else:
            yield front + it.name


def empty(folder: str) -> None:
    """Removes all that is in a folder, also below folders that can't be written. Links aren't followed."""
    for it in list(os.scandir(folder)):
        if it.is_dir(follow_symlinks=False):
            try:
                empty(it.path)
            except PermissionError:
                os.chmod(it.path, 0o700)
                empty(it.path)
            os.rmdir(it.path)
        else:
            try:
                os.unlink(it.path)
            except PermissionError:
                os.chmod(folder, 0o700)
                os.unlink(it.path)
