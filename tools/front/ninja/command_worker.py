"""Runs the command of each request in the request's room, as if the room were the project's own folder.

usage: command_worker.py --persistent_worker      (an action's argv is this program and a flag file)
       command_worker.py @FLAGFILE                runs one command, as an executor has it

A request is one word, a JSON object:
  in        the folder below the room in which the command runs
  root      the project's folder: what is printed, and what a depfile has, names this path and not the room's
  mount     whether the room is mounted at that path, in a namespace of the command's own
  makes     the outputs: their folders are made before, and a link is replaced by a copy of what it leads to
  depfile   the depfile that the command makes, and where it is put
  folders   the folders of a compiler's includes: a header that one of them has in the project and not here is an input that is missing
  files     response files, with their texts
  shell     a text for /bin/sh, or
  words     the program and its words
{room} in these texts is the room's path.
"""
from __future__ import annotations

import json
import os
import shutil
import sys
from typing import Any

HERE = os.path.dirname(os.path.realpath(__file__))
sys.path.insert(0, os.path.dirname(os.path.dirname(HERE)))

from command_runs import keep_watch, shell_code, written  # noqa: E402
from worker_wire import Request, Response, requests, response_bytes  # noqa: E402

MOUNTED = ("unshare", "--user", "--map-root-user", "--mount", "/bin/sh", "-c",
           'mount --bind "$0" "$1" && cd "$2" && shift 2 && exec "$@"')


class Order:
    """The order of a request."""

    def __init__(self, text: str, room: str) -> None:
        held: dict[str, Any] = json.loads(text)
        self.room = room
        self.root: str = held["root"]
        self.inner: str = held["in"]
        self.mounts: bool = held["mount"]
        self.makes: list[str] = held["makes"]
        self.depfile: list[str] = held.get("depfile", [])
        self.folders: list[str] = held.get("folders", [])
        self.files: dict[str, str] = {path: self.meant(it) for path, it in held.get("files", {}).items()}
        words = ["/bin/sh", "-c", held["shell"]] if "shell" in held else held["words"]
        self.words = [self.meant(it) for it in words]

    def meant(self, text: str) -> str:
        """Returns a text with {room} replaced by the room's path."""
        return text.replace("{room}", self.room)

    def at(self, path: str) -> str:
        """Returns the path in the room of a path of the project."""
        return os.path.join(self.room, path)

    def command(self) -> list[str]:
        """Returns the arguments of the process that is started."""
        if not self.mounts:
            return self.words
        return [*MOUNTED, self.room, self.root, os.path.normpath(os.path.join(self.root, self.inner)), *self.words]

    def prepare(self) -> None:
        """Makes the folders of the command's outputs, and its response files."""
        for folder in {self.inner, *(os.path.dirname(it) for it in (*self.makes, *self.files, *self.depfile))}:
            os.makedirs(self.at(folder), exist_ok=True)
        for path, text in self.files.items():
            with open(self.at(path), "w", encoding="utf-8", errors="surrogateescape") as file:
                file.write(text)

    def tidy(self) -> None:
        """Replaces links that the command left as outputs by regular files, and writes its depfile to its place."""
        for path in map(self.at, self.makes):
            if os.path.islink(path) and os.path.isfile(path):
                shutil.copy(path, path + ".copy")
                os.replace(path + ".copy", path)
        if self.depfile and os.path.isfile(self.at(self.depfile[0])):
            with open(self.at(self.depfile[0]), "rb") as file:
                text = file.read()
            with open(self.at(self.depfile[1]), "wb") as file:
                file.write(text.replace(os.fsencode(self.room), os.fsencode(self.root)))

    def missing(self) -> list[str]:
        """Returns a line for each header of the system that was read instead of one of the project that isn't in the room."""
        if not self.depfile or not os.path.isfile(self.at(self.depfile[1])):
            return []
        from front.ninja.depfiles import words_of

        with open(self.at(self.depfile[1]), encoding="utf-8", errors="surrogateescape") as file:
            read = [os.path.normpath(os.path.join(self.root, self.inner, it)) for it in words_of(file.read())]
        own = [os.path.relpath(it, self.root) for it in read if it.startswith(self.root + "/")]
        foreign = {it.rpartition("/include/")[2] for it in read if "/include/" in it and not it.startswith(self.root + "/")}
        return [line for name in sorted(foreign) for line in self.shadows(name, own)][:5]

    def shadows(self, name: str, own: list[str]) -> list[str]:
        """Returns a line if the compiler would have found a header of the project first, but the room lacks it."""
        near = {os.path.dirname(it) for it in own if quotes(self.at(it), name)}
        for folder in (*sorted(near), *self.folders):
            path = os.path.normpath(os.path.join(folder, name))
            if os.path.isfile(os.path.join(self.root, path)) and not os.path.exists(self.at(path)):
                return [f"an input is missing: <{name}> of the system was read, and the project has {path}\n"]
        return []


def quotes(path: str, name: str) -> bool:
    """Returns True if a source includes a name in quotes. A compiler first looks for it in that source's folder."""
    from front.ninja.includes import includes_in

    try:
        with open(path, "rb") as file:
            return ("near", name) in includes_in(file.read())
    except OSError:
        return False


def work(request: Request, told: int) -> Response:
    """Carries out a request."""
    order = Order(request.arguments[0], os.path.realpath(request.folder or "."))
    order.prepare()
    try:
        code, output = written(order.command(), order.at(order.inner), told)
    except OSError as error:
        return Response(request.id, 127, f"{order.words[0]}: {error.strerror}\n")
    text = output.decode(errors="replace").replace(order.room, order.root)
    if code == 0:
        order.tidy()
        lines = order.missing()
        code, text = (1, text + "".join(lines)) if lines else (0, text)
    return Response(request.id, shell_code(code), text)


def main(words: list[str]) -> int:
    """Serves, or runs one command. Returns the status."""
    if "--persistent_worker" in words:
        told = keep_watch()
        for request in requests(sys.stdin.buffer, as_json=True):
            if not request.cancel:
                sys.stdout.buffer.write(response_bytes(work(request, told), as_json=True))
                sys.stdout.buffer.flush()
        return 0
    if len(words) != 1 or not words[0].startswith("@"):
        print((__doc__ or "").strip(), file=sys.stderr)
        return 2
    with open(words[0][1:], encoding="utf-8") as file:
        response = work(Request(arguments=(file.read().rstrip("\n"),)), -1)
    sys.stdout.write(response.output)
    return response.exit_code


if __name__ == "__main__":
    sys.exit(main(sys.argv[1:]))
