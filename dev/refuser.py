"""A library that stands before the C library's malloc and realloc, counts their calls, and refuses one of them.

It says on standard error that it has refused the call. Processes that a run starts have an environment of their own, so they run
without it.
"""
from __future__ import annotations

import os
import pathlib
import subprocess

SOURCE = r"""
#include <errno.h>
#include <stdatomic.h>
#include <stdlib.h>
#include <unistd.h>

extern void *__libc_malloc(size_t);
extern void *__libc_realloc(void *, size_t);

static atomic_long calls;
static long refused_call;

__attribute__((constructor)) static void begin(void) {
    const char *word = getenv("REFUSED_CALL");
    refused_call = word ? atol(word) : 0;
    atomic_store(&calls, 0);
}

static int is_refused(void) {
    if (refused_call == 0 || atomic_fetch_add(&calls, 1) + 1 != refused_call) return 0;
    if (write(2, "refused\n", 8) != 8) _exit(9);
    errno = ENOMEM;
    return 1;
}

void *malloc(size_t size) { return is_refused() ? NULL : __libc_malloc(size); }
void *realloc(void *old, size_t size) { return is_refused() ? NULL : __libc_realloc(old, size); }
"""

# The line that the library writes on standard error.
SAID = b"refused\n"


def made_library(folder: str) -> str:
    """Compiles the library in a folder, by `cc`, and returns its path."""
    source, library = f"{folder}/refuser.c", f"{folder}/refuser.so"
    pathlib.Path(source).write_text(SOURCE, encoding="utf-8")
    subprocess.run(["cc", "-O2", "-shared", "-fPIC", "-o", library, source], check=True)
    return library


def environment(library: str, call: int) -> dict[str, str]:
    """Returns the environment in which a program's call with this number is refused. The first call is 1."""
    return {**os.environ, "LD_PRELOAD": library, "REFUSED_CALL": str(call)}
