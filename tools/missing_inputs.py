"""Finds out whether a compiler missed a file that the project has, and that wasn't among the inputs of its action."""
from __future__ import annotations

import os
import re
from collections.abc import Iterator

# gcc says "x.h: No such file or directory", clang "'x.h' file not found".
MISSED = re.compile(r"(?:^|\n)(?:([^\s:]+):\d+:\d+: )?(?:[\w-]+: )?fatal error: '?([^:'\n]+?)'?(?:: No such file or directory| file not found)")
FOLDER_WORDS = ("-I", "-iquote", "-isystem", "-idirafter")


def missed(text: str, words: list[str], folder: str, room: str, root: str) -> list[str]:
    """Returns a line for each file that `text` says isn't there and that is below `root`.

    The command with these words ran in `folder`, which is `room` or below it; the room stands for the project's folder `root`.
    """
    found = []
    for included_by, name in MISSED.findall(text):
        for place in ("", os.path.dirname(included_by), *folders_of(words)):
            whole = os.path.normpath(os.path.join(folder, place.replace(root, room, 1), name))
            path = os.path.relpath(whole, room)
            if not path.startswith("..") and os.path.isfile(os.path.join(root, path)) and not os.path.exists(whole):
                found.append(f"{path} is in the project and isn't among the inputs of this action: is its list older than this #include? Make the list again.\n")
                break
    return list(dict.fromkeys(found))


def folders_of(words: list[str]) -> Iterator[str]:
    """Yields the folders in which a compiler with these words looks for includes."""
    rest = iter(words)
    for word in rest:
        front = next((it for it in FOLDER_WORDS if word.startswith(it)), None)
        if front is not None:
            yield word[len(front) :] or next(rest, "")
