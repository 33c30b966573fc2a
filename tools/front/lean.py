"""Parts of the standard library, taken from where they load little.

Each worker starts a watcher, which should be there in a few milliseconds. `signal` loads enum, `json` loads re, and `hashlib` loads
OpenSSL, which takes longer than all the rest. CPython has modules below them, which load nothing. A Python without these gets the
public modules.
"""
from __future__ import annotations

TYPE_CHECKING = False
if TYPE_CHECKING:
    import signal as signal
    from hashlib import blake2b as blake2b

    def spelt(text: str) -> str: ...
else:
    try:
        import _signal as signal
        from _blake2 import blake2b
        from _json import encode_basestring_ascii as spelt
    except ImportError:
        import signal
        from hashlib import blake2b
        from json.encoder import encode_basestring_ascii as spelt
