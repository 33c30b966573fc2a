"""The answer of the scripts in this folder to --help."""
from __future__ import annotations

import sys


def answer_help(text: str | None) -> None:
    """Prints the text, a script's own, and ends with status 0, if --help is all that the script was given."""
    if sys.argv[1:] in (["--help"], ["-h"]):
        print((text or "").strip())
        sys.exit(0)
