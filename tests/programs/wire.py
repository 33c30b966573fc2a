"""The messages of the worker protocol and of the executor, spelled by the public pages and not by this project's code.

The bytes are those of Protocol Buffers' encoding page; the lines are written by Python's own json.
"""
from __future__ import annotations

import json
from collections.abc import Iterable, Iterator, Sequence

File = tuple[bytes, bytes]


def varint(number: int) -> bytes:
    """A number in groups of seven bits, the lowest first; a negative one as its 64-bit form."""
    number %= 2**64
    out = bytearray()
    while number > 127:
        out.append(number % 128 + 128)
        number //= 128
    return bytes(out) + bytes([number])


def read_varint(given: bytes, at: int) -> tuple[int, int]:
    """The number that stands at this place, and the place behind it."""
    number = shift = 0
    while True:
        byte = given[at]
        number |= byte % 128 << shift
        shift, at = shift + 7, at + 1
        if byte < 128:
            return number, at


def number(field: int, value: int) -> bytes:
    return varint(8 * field) + varint(value) if value else b""


def span(field: int, value: bytes) -> bytes:
    return varint(8 * field + 2) + varint(len(value)) + value


def text(field: int, value: bytes) -> bytes:
    return span(field, value) if value else b""


def framed(message: bytes) -> bytes:
    return varint(len(message)) + message


def request(id: int = 0, words: Iterable[bytes] = (), inputs: Iterable[File] = (), cancel: bool = False,
            verbosity: int = 0, folder: bytes = b"") -> bytes:
    """A WorkRequest without its length; an input is its path and its digest."""
    out = b"".join(span(1, word) for word in words)
    out += b"".join(span(2, text(1, path) + text(2, digest)) for path, digest in inputs)
    return out + number(3, id) + number(4, cancel) + number(5, verbosity) + text(6, folder)


def response(id: int = 0, exit_code: int = 0, said: bytes = b"", cancelled: bool = False) -> bytes:
    """A WorkResponse without its length."""
    return number(1, exit_code) + text(2, said) + number(3, id) + number(4, cancelled)


def job(id: int, words: Iterable[bytes] = (), inputs: Iterable[File] = (), outputs: Iterable[bytes] = (),
        env: Iterable[File] = (), cancel: bool = False) -> bytes:
    """A Job without its length."""
    out = number(1, id) + b"".join(span(2, word) for word in words)
    out += b"".join(span(3, text(1, path) + text(2, content)) for path, content in inputs)
    out += b"".join(span(4, path) for path in outputs)
    return out + b"".join(span(5, text(1, name) + text(2, value)) for name, value in env) + number(6, cancel)


def result(id: int, exit_code: int = 0, said: bytes = b"", files: Iterable[File] = (), refusal: bytes = b"",
           cancelled: bool = False, more: bool = False, version: int = 0) -> bytes:
    """A JobResult without its length."""
    out = number(1, id) + number(2, exit_code) + text(3, said)
    out += b"".join(span(4, text(1, path) + text(2, content)) for path, content in files) + text(5, refusal)
    return out + number(6, cancelled) + number(7, more) + number(8, version)


GREETING = framed(result(0, version=2))


def line(**parts: object) -> bytes:
    """A message as a line of JSON in its written form: keys in order, no spaces, nothing that is at its default."""
    kept = {key: part for key, part in parts.items() if part}
    return json.dumps(kept, separators=(",", ":"), sort_keys=True, ensure_ascii=False).encode() + b"\n"


def fields(message: bytes) -> Iterator[tuple[int, int | bytes]]:
    """Each number or span of a message that has no other fields, with its field's number."""
    at = 0
    while at < len(message):
        tag, at = read_varint(message, at)
        value, at = read_varint(message, at)
        if tag % 8 == 2:
            yield tag // 8, message[at : at + value]
            at += value
        else:
            yield tag // 8, value


def messages(stream: bytes) -> Sequence[bytes]:
    """The messages of a stream of whole frames."""
    out, at = [], 0
    while at < len(stream):
        length, at = read_varint(stream, at)
        out.append(stream[at : at + length])
        at += length
    return out
