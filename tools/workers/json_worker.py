"""Helps a Python tool be a worker in JSON: cancels, exceptions, and an output that nothing else writes to."""
from __future__ import annotations

import concurrent.futures
import dataclasses
import json
import os
import sys
import threading
import traceback
from typing import Any, Callable


@dataclasses.dataclass
class Request:
    """A request: its words, the digest of each input, and the folder that these are in."""

    words: list[str]
    digests: dict[str, str] = dataclasses.field(default_factory=dict)
    folder: str = "."
    number: int = 0
    cancelled: threading.Event = dataclasses.field(default_factory=threading.Event)


Work = Callable[[Request], tuple[int, str]]  # returns the exit code and the text


def answer(work: Work, request: Request) -> dict[str, Any]:
    """Returns the answer to a request; an exception is exit code 1 and its trace."""
    try:
        code, text = work(request)
    except BaseException:
        code, text = 1, traceback.format_exc()
    if request.cancelled.is_set():
        return {"requestId": request.number, "wasCancelled": True}
    return {"exitCode": code, "output": text.encode(errors="replace").decode(), "requestId": request.number}


def serve(work: Work, threads: int = 1) -> None:
    """Answers requests until the input ends. What is printed on descriptor 1 goes to standard error."""
    out, lock, unanswered = os.fdopen(os.dup(1), "wb"), threading.Lock(), dict[int, Request]()
    os.dup2(2, 1)

    def do(request: Request) -> None:
        held = json.dumps(answer(work, request)).encode() + b"\n"
        with lock:
            unanswered.pop(request.number, None)
            out.write(held)
            out.flush()

    with concurrent.futures.ThreadPoolExecutor(threads) as pool:
        for held in map(json.loads, sys.stdin.buffer):
            number = held.get("requestId", 0)
            if held.get("cancel"):
                if request := unanswered.get(number):
                    request.cancelled.set()
                continue
            digests = {it["path"]: it.get("digest", "") for it in held.get("inputs", [])}
            request = unanswered[number] = Request(held.get("arguments", []), digests, held.get("sandboxDir") or ".", number)
            if threads == 1:
                do(request)  # some tools can't be called from a thread that isn't the main one
            else:
                pool.submit(do, request)
