"""The messages between worker_tool and a worker, in both forms: protobuf preceded by its length, and JSON in lines.

It is for the workers and tools in Python of this repository. docs/FORMATS.md describes the messages byte by byte.
"""
from __future__ import annotations

import dataclasses
import io
import json
from typing import Any, BinaryIO, Iterator

MAX_NUMBER_BYTES = 10
WHOLE, EIGHT, SPAN, FOUR = 0, 1, 2, 5


class NoMessage(ValueError):
    """Bytes that aren't a message."""


@dataclasses.dataclass(frozen=True)
class Request:
    """A request to a worker: arguments, the paths that it may read, and their folder, if it isn't the room."""

    id: int = 0
    arguments: tuple[str, ...] = ()
    inputs: tuple[str, ...] = ()
    cancel: bool = False
    folder: str = ""


@dataclasses.dataclass(frozen=True)
class Response:
    """A worker's response."""

    id: int = 0
    exit_code: int = 0
    output: str = ""


def read_number(stream: BinaryIO) -> int | None:
    """Returns the number at the start of a stream, in groups of seven bits, or None if the stream ends first."""
    number = 0
    for place in range(MAX_NUMBER_BYTES):
        byte = stream.read(1)
        if not byte:
            return None
        number |= (byte[0] & 0x7F) << 7 * place
        if byte[0] < 0x80:
            return number
    raise NoMessage("a number has more than ten bytes")


def number_bytes(number: int) -> bytes:
    """Returns a number below 2^64 in the fewest bytes."""
    out = bytearray()
    while number >= 0x80:
        out.append(number & 0x7F | 0x80)
        number >>= 7
    return bytes(out) + bytes([number])


def fields(message: bytes) -> Iterator[tuple[int, int | bytes]]:
    """Yields each field of a message: its number, and its value or its bytes."""
    stream = io.BytesIO(message)
    while stream.tell() < len(message):
        tag = whole(read_number(stream))
        kind = tag & 7
        if kind == WHOLE:
            yield tag >> 3, whole(read_number(stream))
        elif kind == SPAN:
            yield tag >> 3, exactly(stream, whole(read_number(stream)))
        elif kind in (EIGHT, FOUR):
            exactly(stream, 8 if kind == EIGHT else 4)
        else:
            raise NoMessage(f"a field has the wire type {kind}")


def whole(number: int | None) -> int:
    """Returns the number. Raises NoMessage if it is None."""
    if number is None:
        raise NoMessage("the bytes end inside a number")
    return number


def exactly(stream: BinaryIO, length: int) -> bytes:
    """Returns the next bytes of a stream. Raises NoMessage if there are fewer."""
    span = stream.read(length)
    if len(span) < length:
        raise NoMessage("the bytes end inside a field")
    return span


def signed(number: int) -> int:
    """Returns the low 32 bits of a number as an int32."""
    return ((number & 0xFFFFFFFF) ^ 0x80000000) - 0x80000000


def framed(message: bytes) -> bytes:
    """Returns a message, preceded by its length."""
    return number_bytes(len(message)) + message


def text_of(value: int | bytes) -> str:
    if isinstance(value, int):
        raise NoMessage("a number stands where a text is wanted")
    return value.decode()


def request_of(message: bytes, as_json: bool) -> Request:
    """Returns the request in a message without its length."""
    if as_json:
        held = object_of(message)
        inputs = tuple(it["path"] for it in held.get("inputs") or [])
        return Request(number_at(held, "requestId", "request_id"), tuple(held.get("arguments") or []), inputs,
                       bool(held.get("cancel")), held.get("sandboxDir") or held.get("sandbox_dir") or "")
    found = list(fields(message))
    last = dict(found)
    inputs = tuple(text_of(dict(fields(value)).get(1, b"")) for field, value in found
                   if field == 2 and isinstance(value, bytes))
    return Request(signed(int(last.get(3, 0))), tuple(text_of(value) for field, value in found if field == 1), inputs,
                   bool(last.get(4, 0)), text_of(last.get(6, b"")))


def response_of(message: bytes, as_json: bool) -> Response:
    """Returns the response in a message without its length. Raises `NoMessage` if it isn't one."""
    try:
        if as_json:
            held = object_of(message)
            return Response(number_at(held, "requestId", "request_id"), number_at(held, "exitCode", "exit_code"),
                            str(held.get("output") or ""))
        last = dict(fields(message))
        return Response(signed(int(last.get(3, 0))), signed(int(last.get(1, 0))), text_of(last.get(2, b"")))
    except UnicodeDecodeError as error:
        raise NoMessage("a text isn't UTF-8") from error
    except TypeError as error:
        raise NoMessage(str(error)) from error


def object_of(line: bytes) -> dict[str, Any]:
    """Returns the JSON object of a line."""
    try:
        held = json.loads(line)
    except ValueError as error:
        raise NoMessage("the line isn't JSON") from error
    if not isinstance(held, dict):
        raise NoMessage("the line isn't an object")
    return held


def number_at(held: dict[str, Any], *keys: str) -> int:
    """Returns the number at the first key that is there, or 0 if there is none."""
    for key in keys:
        if held.get(key) is not None:
            return int(held[key])
    return 0


def response_bytes(response: Response, as_json: bool) -> bytes:
    """Returns the bytes of a response as they are sent."""
    if as_json:
        held = {"exitCode": response.exit_code, "output": response.output, "requestId": response.id}
        return json.dumps({key: value for key, value in held.items() if value}).encode() + b"\n"
    return framed(number(1, response.exit_code) + span(2, response.output.encode()) + number(3, response.id))


def number(field: int, value: int) -> bytes:
    """Returns a field with a number, or no bytes for 0."""
    return number_bytes(8 * field) + number_bytes(value % 2**64) if value else b""


def span(field: int, value: bytes) -> bytes:
    """Returns a field with bytes, or no bytes if there are none."""
    return number_bytes(8 * field + 2) + number_bytes(len(value)) + value if value else b""


def requests(stream: BinaryIO, as_json: bool) -> Iterator[Request]:
    """Yields the requests of a stream, up to its end."""
    if as_json:
        for line in stream:
            if line.strip():
                yield request_of(line, True)
        return
    while (length := read_number(stream)) is not None:
        yield request_of(exactly(stream, length), False)


class Cutter:
    """Cuts a stream into messages, regardless of its pieces."""

    def __init__(self, as_json: bool) -> None:
        self.as_json = as_json
        self.held = bytearray()
        self.searched = 0

    def feed(self, piece: bytes) -> Iterator[bytes]:
        """Yields each message that this piece completes, without its length. Keeps an incomplete message."""
        self.held += piece
        while (found := self.first()) is not None:
            begin, end = found
            message = bytes(self.held[begin:end])
            del self.held[:end]
            self.searched = 0
            yield message

    def first(self) -> tuple[int, int] | None:
        """Returns the start and the end of the first message, if it is complete."""
        if self.as_json:
            end = self.held.find(b"\n", self.searched) + 1
            self.searched = len(self.held)
            return (0, end) if end else None
        stream = io.BytesIO(self.held[:MAX_NUMBER_BYTES])
        length = read_number(stream)
        if length is None or len(self.held) < stream.tell() + length:
            return None
        return stream.tell(), stream.tell() + length
