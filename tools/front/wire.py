"""The messages between worker_tool and workers or executors, as far as a watcher must understand them.

Each worker starts a watcher, so this loads `json` only for workers that speak it, and copies no contents. `../worker_wire.py`
has the whole messages.
"""
from __future__ import annotations

TYPE_CHECKING = False
if TYPE_CHECKING:
    from typing import Any, Iterator

MAX_NUMBER_BYTES = 10
MAX_MESSAGE = 67_108_864
PATH_TAG = 10  # field 1, as bytes


class NoMessage(ValueError):
    """Bytes that aren't a message."""


class Asked:
    """A request or a job: its number, its words, its paths, and true if it cancels."""

    def __init__(self, number: int = 0, words: tuple[str, ...] = (), inputs: tuple[str, ...] = (), outputs: tuple[str, ...] = (),
                 cancel: bool = False, folder: str = "") -> None:
        self.id, self.words, self.inputs, self.outputs = number, words, inputs, outputs
        self.cancel, self.folder = cancel, folder


class Told:
    """A response or a result of a job."""

    def __init__(self, number: int = 0, code: int = 0, text: str = "", refusal: str = "", cancelled: bool = False) -> None:
        self.id, self.exit, self.text, self.refusal, self.cancelled = number, code, text, refusal, cancelled


def number_at(data: bytes | bytearray, at: int) -> tuple[int, int]:
    """Returns the number that begins at a place, and the place of its end, or -1 as its end if it is cut off."""
    if at < len(data) and data[at] < 0x80:
        return data[at], at + 1  # Most numbers have one byte.
    number = shift = 0
    for place in range(at, min(at + MAX_NUMBER_BYTES, len(data))):
        byte = data[place]
        number |= (byte & 0x7F) << shift
        if byte < 0x80:
            return number, place + 1
        shift += 7
    if len(data) - at >= MAX_NUMBER_BYTES:
        raise NoMessage("a number has more than ten bytes")
    return 0, -1


def number_bytes(number: int) -> bytes:
    """Returns a number below 2^64 in the fewest bytes."""
    out = bytearray()
    while number >= 0x80:
        out.append(number & 0x7F | 0x80)
        number >>= 7
    out.append(number)
    return bytes(out)


def fields(data: bytes) -> Iterator[tuple[int, int, int, int]]:
    """Yields each field: its number, its value (0 for bytes), and the begin and end of its bytes."""
    at, end = 0, len(data)
    while at < end:
        tag, at = number_at(data, at)
        kind = tag & 7
        if at < 0 or kind not in (0, 1, 2, 5):
            raise NoMessage("a tag that can't be read")
        if kind == 0:
            value, after = number_at(data, at)
            begin = after
        elif kind == 2:
            size, begin = number_at(data, at)
            value, after = 0, begin + size if begin >= 0 else -1
        else:
            value, begin, after = 0, at, at + (8 if kind == 1 else 4)
        if after < 0 or after > end:
            raise NoMessage("the bytes end inside a field")
        yield tag >> 3, value, begin, after
        at = after


def signed(number: int) -> int:
    """Returns the int32 in the low bits of a number."""
    return ((number & 0xFFFFFFFF) ^ 0x80000000) - 0x80000000


def text_at(data: bytes, begin: int, end: int) -> str:
    """Returns the text of some bytes, with replacements for what isn't UTF-8."""
    return data[begin:end].decode("utf-8", "replace")


def path_of(data: bytes, begin: int, end: int) -> str:
    """Returns the path of an input, its first field. Most paths come first and are short, so they are found by two bytes."""
    if end - begin > 1 and data[begin] == PATH_TAG and data[begin + 1] < 0x80:
        last = begin + 2 + data[begin + 1]
        if last <= end:
            return text_at(data, begin + 2, last)
    for number, _, first, last in fields(data[begin:end]):
        if number == 1:
            return text_at(data, begin + first, begin + last)
    return ""


def asked_of(message: bytes, form: str) -> Asked:
    """Reads a message to a worker (`json`, `proto`) or to an executor (`job`)."""
    if form == "json":
        return asked_in_json(message)
    if form == "job":
        return asked_of_job(message)
    words, inputs, number, cancel, folder = [], [], 0, False, ""
    for field, value, begin, end in fields(message):
        if field == 1:
            words.append(text_at(message, begin, end))
        elif field == 2:
            inputs.append(path_of(message, begin, end))
        elif field == 3:
            number = signed(value)
        elif field == 4:
            cancel = value != 0
        elif field == 6:
            folder = text_at(message, begin, end)
    return Asked(number, tuple(words), tuple(inputs), (), cancel, folder)


def value_of(line: bytes) -> Any:
    """Returns the value that a line in JSON spells."""
    import json

    return json.loads(line)


def asked_in_json(line: bytes) -> Asked:
    """Reads a request in JSON."""
    held = value_of(line)
    inputs = tuple(it.get("path", "") for it in held.get("inputs") or ())
    return Asked(int(held.get("requestId") or 0), tuple(held.get("arguments") or ()), inputs, (), bool(held.get("cancel")),
                 held.get("sandboxDir") or "")


def asked_of_job(message: bytes) -> Asked:
    """Reads a job, without its contents."""
    number, words, outputs = 0, [], []
    for field, value, begin, end in fields(message):
        if field == 1:
            number = signed(value)
        elif field == 2:
            words.append(text_at(message, begin, end))
        elif field == 4:
            outputs.append(text_at(message, begin, end))
    return Asked(number, tuple(words), (), tuple(outputs))


def told_of(message: bytes, form: str) -> Told:
    """Reads a message from a worker or an executor."""
    if form == "json":
        held = value_of(message)
        if not isinstance(held, dict):
            raise NoMessage("the line isn't an object")
        number = held.get("requestId", held.get("request_id")) or 0
        code = int(held.get("exitCode", held.get("exit_code")) or 0)
        cancelled = bool(held.get("wasCancelled", held.get("was_cancelled")))
        return Told(int(number), code, str(held.get("output") or ""), cancelled=cancelled)
    places = {"job": (1, 2, 3, 5, 6), "proto": (3, 1, 2, 0, 4)}[form]
    number, code, text, refusal, cancelled = 0, 0, "", "", False
    for field, value, begin, end in fields(message):
        if field == places[0]:
            number = signed(value)
        elif field == places[1]:
            code = signed(value)
        elif field == places[2]:
            text = text_at(message, begin, end)
        elif field == places[3]:
            refusal = text_at(message, begin, end)
        elif field == places[4]:
            cancelled = value != 0
    return Told(number, code, text, refusal, cancelled)


def field_bytes(number: int, value: int | bytes) -> bytes:
    """Returns a field with a whole number or with bytes; nothing for a default."""
    if isinstance(value, int):
        return number_bytes(8 * number) + number_bytes(value % 2**64) if value else b""
    return number_bytes(8 * number + 2) + number_bytes(len(value)) + value if value else b""


def framed(message: bytes) -> bytes:
    """Returns a message preceded by its length."""
    return number_bytes(len(message)) + message


def telling(told: Told, form: str) -> bytes:
    """Returns the frame of a response or a result."""
    if form == "json":
        import json

        held = {"exitCode": told.exit, "output": told.text, "requestId": told.id, "wasCancelled": told.cancelled}
        return json.dumps({key: value for key, value in held.items() if value}).encode() + b"\n"
    text = told.text.encode()
    parts: list[tuple[int, int | bytes]]
    if form == "job":
        parts = [(1, told.id), (2, told.exit), (3, text), (6, int(told.cancelled))]
    else:
        parts = [(1, told.exit), (2, text), (3, told.id), (4, int(told.cancelled))]
    return framed(b"".join(field_bytes(number, value) for number, value in parts))


def with_words(message: bytes, words: list[str]) -> bytes:
    """Returns a job with its words replaced."""
    rest, front = message, b""
    for field, value, _, end in fields(message):
        if field == 1:
            front = field_bytes(1, value)
        elif field != 2:
            break
        rest = message[end:]
    spelt = b"".join(number_bytes(18) + number_bytes(len(it.encode())) + it.encode() for it in words)
    return front + spelt + rest


class Cutter:
    """Cuts a stream into frames, regardless of the pieces in which it arrives."""

    def __init__(self, form: str) -> None:
        self.in_lines = form == "json"
        self.held = bytearray()
        self.searched = 0

    def feed(self, piece: bytes) -> list[tuple[bytes, bytes]]:
        """Takes a piece. Returns each frame that it completes, once as it arrived and once without its length."""
        self.held += piece
        found: list[tuple[bytes, bytes]] = []
        while True:
            begin, end = self.first()
            if end < 0:
                return found
            raw = bytes(self.held[:end])
            del self.held[:end]
            self.searched = 0
            found.append((raw, raw[begin:]))

    def first(self) -> tuple[int, int]:
        """Returns the begin and end of the first message, or -1 as its end if it isn't complete."""
        if self.in_lines:
            end = self.held.find(b"\n", self.searched) + 1
            self.searched = len(self.held)
            return 0, end or -1
        length, begin = number_at(self.held, 0)
        if begin < 0 or len(self.held) < begin + length:
            return 0, -1
        return begin, begin + length
