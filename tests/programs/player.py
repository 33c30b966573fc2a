"""A process that plays the part of a worker or of an executor in a case.

The program is in the start folder, and is started in a room two folders below. The nth process of a program takes the
nth part of PROGRAM.plays. It records its arguments, its environment and each byte that it reads in the folder
PROGRAM.n. A part is a list of steps:

    ["hear", N]             reads N more frames, each preceded by its length
    ["hear lines", N]       reads N more lines
    ["give", DIGITS, ..]    writes bytes, piece by piece
    ["leave", PATH, TEXT]   puts a file into the room
    ["copy", PATH, TO]      copies a file in the room; if it isn't there, ends
    ["raise", NAME]         lets the processes continue that wait for this name
    ["await", NAME, ..]     waits until all these names are raised, for at most 200 seconds each
    ["end"]                 ends at once

After the last step it continues to read until its input ends or it is killed.
"""
import json
import os
import sys
import time

TOP = "../.."
NAME = os.path.basename(sys.argv[0])
MOST_SECONDS = 200


def claim() -> int:
    """Returns the number of this process among the processes of its program."""
    number = 0
    while True:
        try:
            os.mkdir(f"{TOP}/{NAME}.{number}")
            return number
        except FileExistsError:
            number += 1


class Ear:
    """Standard input. Each byte that is read is also recorded."""

    def __init__(self, place: str) -> None:
        self.note = open(f"{place}/heard", "wb", buffering=0)

    def read(self, count: int) -> bytes:
        out = b""
        while len(out) < count:
            piece = os.read(0, count - len(out))
            if not piece:
                sys.exit(0)
            self.note.write(piece)
            out += piece
        return out

    def frame(self) -> None:
        length = shift = 0
        while True:
            byte = self.read(1)[0]
            length |= byte % 128 << shift
            shift += 7
            if byte < 128:
                break
        self.read(length)

    def line(self) -> None:
        while self.read(1) != b"\n":
            pass


def leave(path: str, text: str) -> None:
    os.makedirs(os.path.dirname(path) or ".", exist_ok=True)
    with open(path, "w", encoding="utf-8") as file:
        file.write(text)


def copy(path: str, to: str) -> None:
    try:
        with open(path, encoding="utf-8") as file:
            text = file.read()
    except FileNotFoundError:
        sys.exit(f"{NAME}: {path} isn't there")
    leave(to, text)


def wait(name: str) -> None:
    end = time.monotonic() + MOST_SECONDS
    while not os.path.exists(f"{TOP}/raised.{name}"):
        if time.monotonic() > end:
            sys.exit(f"{NAME}: {name} wasn't raised")
        time.sleep(0.002)


def play(step: list[str | int], ear: Ear) -> None:
    kind, *parts = step
    if kind == "hear":
        for _ in range(int(parts[0])):
            ear.frame()
    elif kind == "hear lines":
        for _ in range(int(parts[0])):
            ear.line()
    elif kind == "give":
        for piece in parts:
            os.write(1, bytes.fromhex(str(piece)))
    elif kind == "leave":
        leave(*map(str, parts))
    elif kind == "copy":
        copy(*map(str, parts))
    elif kind == "raise":
        open(f"{TOP}/raised.{parts[0]}", "wb").close()
    elif kind == "await":
        for name in parts:
            wait(str(name))
    elif kind == "end":
        sys.exit(0)
    else:
        sys.exit(f"{NAME}: no step {kind}")


def main() -> None:
    number = claim()
    place = f"{TOP}/{NAME}.{number}"
    with open(f"{place}/start", "w", encoding="utf-8") as file:
        json.dump([sys.argv[1:], {**os.environ}], file)
    with open(f"{TOP}/{NAME}.plays", encoding="utf-8") as file:
        plays = json.load(file)
    ear = Ear(place)
    for step in plays[number] if number < len(plays) else []:
        play(step, ear)
    while True:
        ear.read(1)


main()
