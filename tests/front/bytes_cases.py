"""Cases: the bytes that a watcher passes on."""
from __future__ import annotations

import marshal
import os
import pathlib
import random
import subprocess
import sys
import threading
from typing import IO

from case import TOP, Folder

from front import wire


class Bytes(Folder):
    """Cases of the bytes that a watcher passes on."""

    def test_any_pieces(self) -> None:
        self.put("echo", """#!/usr/bin/python3
import os, random, sys
chance = random.Random(7)
while piece := os.read(0, chance.choice([1, 7, 5000, 100000])):
    while piece:
        piece = piece[os.write(1, piece[:chance.choice([1, 5, 4096, 100000])]):]
""")
        os.chmod("echo", 0o755)
        chance = random.Random(5)
        for form in ("json", "proto"):
            frames = []
            for number in range(120):
                text = "x" * chance.choice([0, 1, 100, 127, 128, 5000, 70000])
                proto = wire.framed(wire.field_bytes(1, text.encode()) + wire.field_bytes(3, number + 1))
                frames.append(wire.telling(wire.Told(number + 1, 0, text), form) if form == "json" or number % 3 else proto)
            whole = b"".join(frames)
            config = {"events": f"events.{form}", "logs": ".", "rooms": "", "stop": "stop", "stops": False, "limit": 0.0, "keep": 0.0,
                      "tools": "", "local": False, "in_turn": False, "start": ".", "form": form, "kind": "Echo", "names": {}, "alone": False}
            pathlib.Path("config").write_bytes(marshal.dumps(config))
            program = subprocess.Popen([sys.executable, "-I", "-S", str(TOP / "tools" / "front" / "watcher.py"), "config",
                                        os.path.abspath("echo"), "--persistent_worker"], stdin=subprocess.PIPE, stdout=subprocess.PIPE)
            assert program.stdin is not None and program.stdout is not None
            given = threading.Thread(target=self.feed, args=(program.stdin, whole, chance))
            given.start()
            taken = program.stdout.read()
            given.join()
            self.assertEqual(program.wait(), 0)
            program.stdout.close()
            self.assertTrue(taken == whole, (len(taken), len(whole)))

    def feed(self, pipe: IO[bytes], data: bytes, chance: random.Random) -> None:
        """Writes bytes in pieces of any size."""
        while data:
            size = chance.choice([1, 3, 50, 4096, 65536, 200000])
            pipe.write(data[:size])
            pipe.flush()
            data = data[size:]
        pipe.close()
