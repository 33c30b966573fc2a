#!/usr/bin/env python3
"""Runs the program beside it, which has the options of shared_tool, in worker_tool's place: with room for all workers, and with
worker_tool's name before a fault's line."""
import os
import subprocess
import sys

MOST_WORKERS = 24


def main() -> int:
    """Runs the program beside this one with the words, and gives back its status and what it wrote."""
    folder, own = os.path.split(sys.argv[0])
    name = next(it for it in os.listdir(folder) if it != own)
    ended = subprocess.run([f"{folder}/{name}", f"--max_workers={MOST_WORKERS}", *sys.argv[1:]], stderr=subprocess.PIPE, check=False)
    sys.stderr.buffer.write(ended.stderr.replace(f"{name}: ".encode(), b"worker_tool: ", 1))
    return ended.returncode


if __name__ == "__main__":
    sys.exit(main())
