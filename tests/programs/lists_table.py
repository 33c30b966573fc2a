"""Lists, and their faults in the order of docs/FORMATS.md, which `list_rules` finds by Python's json."""
from __future__ import annotations

import json
import pathlib
from collections.abc import Iterator

import list_rules
from play import Case, Programs, Wrong, compare, fault_line, fill, run, shown

FIRST = '{"name":"a","mnemonic":"T","argv":["t","@f"],"inputs":["f"],"outputs":["o"],"requirements":{"supports-workers":"1"}'

# A path that is longer than this is none for the system, so that it is refused and not absent.
MOST_READ = 255

# What is put behind the keys of an action. Of a key that stands twice the last counts.
PARTS = [
    "", ',"x":null', ',"env":{"K":"1"},"tools":["u"]', ',"strategy":"dynamic"',
    ',"strategy":"remote","requirements":{},"argv":["t"]', ',"name":7', ',"name":null', ',"name":""', ',"name":"a b"',
    ',"name":"a\\u007f"', ',"name":"\\u00e4"', ',"mnemonic":""', ',"mnemonic":null', ',"argv":[]', ',"argv":["","@f"]',
    ',"argv":["t",1]', ',"argv":"t"', ',"env":{"K":1}', ',"env":[]', ',"tools":["/u"]', ',"inputs":["f","a//b"]',
    ',"inputs":[null]', ',"outputs":["../o"]', ',"requirements":{"supports-workers":true}',
    ',"requirements":{"supports-workers":"1","requires-worker-protocol":"xml"}',
    ',"requirements":{"supports-workers":"1","worker-key-mnemonic":""}', ',"requirements":{"supports-workers":"yes"}',
    ',"requirements":{"supports-workers":"1","requires-worker-protocol":"json","worker-key-mnemonic":"U"}',
    ',"strategy":"local"', ',"strategy":1', ',"strategy":"dynamic","requirements":{}', ',"argv":["t"]',
    ',"argv":["@t"]', ',"argv":["t","@"]', ',"argv":["t","-flagfile="]', ',"argv":["t","--flagfile=x"]',
    ',"argv":["t","-flagfile=x"]', ',"argv":["t","---flagfile=x"]', ',"argv":["t","flagfile=x"]', ',"argv":["t","x@p"]',
    ',"argv":["t","--Flagfile=x"]', ',"argv":["--flagfile=x","y"]', ',"argv":["t","--flagfile=@"]', ',"argv":["t","@a//b"]',
    ',"outputs":["o","p","o"]', ',"inputs":["o"]', ',"name":"","outputs":7', ',"outputs":7,"inputs":["o"]',
]

# Of a second action.
SECONDS = [
    ',"name":"b","outputs":["q"]', ',"name":"b","outputs":["q"],"name":"a"', ',"name":"b","outputs":["o"]',
    ',"name":"b","outputs":["q"],"inputs":["q"]', ',"name":"b","outputs":["q"],"inputs":["f","o"]',
]

TEXTS = [
    "", '{"actions":[]}x', '{"x":1e400,"actions":[]}', "[]", "{}", '{"actions":null}', '{"actions":[1]}',
    '{"actions":[{}]}', '{"actions":[{"name":"a"}]}', '{"actions":[],"actions":{}}', '{"actions":[],}', '{"actions":[]} \n\t',
    "{\"x\":" + "[" * 126 + "]" * 126 + "}", "{\"x\":" + "[" * 127 + "]" * 127 + "}",
]

PATHS = [
    "a", "a/b.c", "...", ".a/b..", "a/__sandbox", "__sandbox2", "__sandbo", " ", "\u00e4/\U00010348", "a\\b", "", "a\0b", "/\0",
    "/", "/a", "//a", "a/", "a//b", "../a/", "./a", "a/.", "../.", "..", "a/../b", "__sandbox/..", "__sandbox",
    "__sandbox/1/o", "a" * 4096, "/" * 4097, ".worker_rooms", ".worker_rooms/lock", "a/.worker_rooms/b", ".worker_rooms2",
    ".worker_tool.part", "a/.worker_tool.0.part", "a/.worker_tool./b", ".worker_tool", "x.worker_tool.y",
]


def numbers(count: int) -> list[str]:
    return [str(number) for number in range(count)]


def texts(count: int) -> dict[str, str]:
    return {number: "" for number in numbers(count)}


def many_keys(count: int) -> str:
    return ",".join(FIRST + f',"name":"{n}","outputs":["o{n}"],"mnemonic":"{n}"}}' for n in range(count))


def limits() -> Iterator[tuple[str, bytes]]:
    """The most that may be, and one more."""
    for key, most in [("argv", 1024), ("tools", 256), ("inputs", 4096), ("outputs", 256)]:
        first = {"argv": ["t", "@f"], "inputs": ["f"]}.get(key, [])
        for count in (most, most + 1):
            value = json.dumps([*first, *numbers(count - len(first))])
            yield f"{count} {key}", f'{{"actions":[{FIRST},"{key}":{value}}}]}}'.encode()
    for key, most in [("env", 256), ("requirements", 64)]:
        for count in (most, most + 1):
            given = texts(count - 1) | {"supports-workers": "1"}
            yield f"{count} {key}", f'{{"actions":[{FIRST},"{key}":{json.dumps(given)}}}]}}'.encode()
    for count in (256, 257):
        yield f"a name of {count} bytes", f'{{"actions":[{FIRST},"name":"{"n" * count}"}}]}}'.encode()
    for count in (48, 49):
        yield f"{count} worker keys", f'{{"actions":[{many_keys(count)}]}}'.encode()
    yield "4097 actions", json.dumps({"actions": numbers(4097)}).encode()
    yield "4096 texts in place of actions", json.dumps({"actions": numbers(4096)}).encode()
    yield "one byte above the most", b" " * (list_rules.MOST_BYTES + 1)
    yield "the most bytes", b" " * list_rules.MOST_BYTES


def listed(name: str, given: bytes) -> Case:
    """A list that is no list has the fault of the rules; one that is one is seen by the first file that it looks for."""
    def played(programs: Programs, folder: pathlib.Path) -> None:
        fill(folder, {"list": given})
        ended = run([programs.worker_tool, "list"], folder)
        line = fault_line(ended.err)
        try:
            source = list_rules.first_source(list_rules.read(given))
        except list_rules.Refused as refused:
            compare(given, (4, b"", refused.line), (ended.status, ended.out, line))
            if refused.hint not in ended.err.decode():
                raise Wrong(f"given  {shown(given)}\nwanted {refused.hint!r} behind that line\ngot    {shown(ended.err)}") from None
            return
        if source is None:
            compare(given, 0, ended.status)
        else:
            state = "not read" if len(source) > MOST_READ else "not there"
            compare(given, (5, f"worker_tool: {state}: {source}"), (ended.status, line))
    return Case(f"list: {name}", played)


def cases() -> Iterator[Case]:
    for part in PARTS:
        yield listed(part or "one action", f'{{"actions":[{FIRST}{part}}}]}}'.encode())
    for part in SECONDS:
        yield listed(f"a second action, {part}", f'{{"actions":[{FIRST}}},{FIRST}{part}}}]}}'.encode())
    for text in TEXTS:
        yield listed(text[:40], text.encode())
    yield listed("no text", b'{"actions":[],"x":"\xff"}')
    whole = f'{{"actions":[{FIRST}}}]}}'
    for end in range(1, len(whole)):
        yield listed(f"cut after {end} bytes", whole[:end].encode())
    for path in PATHS:
        yield listed(f"the path {path[:40]!r}", json.dumps({"actions": [{**json.loads(FIRST + "}"), "inputs": [], "tools": [path]}]}).encode())
    for name, given in limits():
        yield listed(name, given)
