"""The file that is started as a watcher. It is short: Python compiles a started file each time, and keeps what it imports."""
import os
import sys

sys.path.insert(0, os.path.dirname(os.path.dirname(os.path.realpath(__file__))))
from front.watch import main  # noqa: E402

sys.exit(main(sys.argv[1:]))
