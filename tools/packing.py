"""Lays out the files of a release, and installs them below a prefix.

A release has the layout of the repository where tools look for things: programs in bin/, scripts in tools/, VERSION above both. It
also has PROOF and SHA256SUMS, and share/ with man pages and completions. An installation keeps that layout in
PREFIX/libexec/lenthuvi, with links from PREFIX/bin.
"""
from __future__ import annotations

import glob
import os
import shutil
import subprocess
import sys
import tempfile
from collections.abc import Iterator

from manual import COMMANDS, PROGRAMS, completion, completion_paths, man_page, usage_of
from program_state import PROVED, State, record, state_of, sum_of_file

TOP = os.path.dirname(os.path.dirname(os.path.realpath(__file__)))

# The names in tools/ that are only for a checkout.
FOR_A_CHECKOUT = {"release", "__pycache__", ".mypy_cache", "claims.txt"}
PAGES = ("README.md", "CHANGELOG.md")
EXAMPLE = tuple(f"examples/first/{it}" for it in ("hello", "list.json", "worker"))
MAN, COMPLETIONS = "share/man/man1", "share/bash-completion/completions"
HEAD = """Lenthuvi {version}

{told}
`sources` is the SHA-256 of all files that a program's own crates are proved from, as ./build sums them; `kit` is what
`rt version` prints; `sha256` is the sum of the program itself. docs/CLAIMS.md says what is proved, and what is trusted.

"""
ALL_PROVED = "Each program here was built from sources that the prover had accepted; `proved` is what it said at the end."
NOT_PROVED = "This is a trial: of the programs below that have a line `trial`, NOTHING IS PROVED."


class Refused(Exception):
    """The reason why nothing is laid out or installed."""


def version(top: str = TOP) -> str:
    """Returns the version of a checkout, a release or an installation. Raises Refused if it has none."""
    try:
        with open(f"{top}/VERSION", encoding="utf-8") as file:
            return file.read().strip()
    except OSError as why:
        raise Refused(f"{top}/VERSION can't be read: {why.strerror}") from why


def put(path: str, text: str) -> None:
    """Writes a file, and makes its folders."""
    os.makedirs(os.path.dirname(path), exist_ok=True)
    with open(path, "w", encoding="utf-8") as file:
        file.write(text)


def copy(source: str, to: str) -> None:
    """Copies a file with its execute permission, and makes the folders."""
    os.makedirs(os.path.dirname(to), exist_ok=True)
    shutil.copyfile(source, to)
    os.chmod(to, 0o755 if os.access(source, os.X_OK) else 0o644)


def files_below(folder: str) -> Iterator[str]:
    """Yields the paths of the files and links below a folder, relative to it, in order."""
    for at, folders, names in os.walk(folder):
        folders.sort()
        for name in sorted(names):
            yield os.path.relpath(os.path.join(at, name), folder)


def states_of(programs: str, takes_trials: bool) -> dict[str, State]:
    """Returns the states of the programs in a folder. Raises Refused if one isn't there, or isn't proved."""
    states = {it: state_of(f"{programs}/{it}") for it in PROGRAMS}
    for name, state in states.items():
        if not os.access(f"{programs}/{name}", os.X_OK):
            raise Refused(f"{programs}/{name} isn't there: ./build {name} proves it and builds it")
        if state.kind != PROVED and not takes_trials:
            raise Refused(f"{programs}/{name} is {state}; ./build {name} proves it, and --trial takes it as it is")
    return states


def proof(states: dict[str, State], to: str) -> str:
    """Returns the text of PROOF for the programs in TO/bin."""
    told = ALL_PROVED if all(it.kind == PROVED for it in states.values()) else NOT_PROVED
    records = [record(name, sum_of_file(f"{to}/bin/{name}"), state) for name, state in states.items()]
    return HEAD.format(version=version(), told=told) + "\n".join(records)


def front_answer(to: str, word: str) -> str:
    """Returns what `lenthuvi help WORD` prints for man or the shell; empty if it has no such page."""
    done = subprocess.run([f"{to}/bin/lenthuvi", "help", word], stdin=subprocess.DEVNULL, capture_output=True, text=True,
                          check=False)
    return done.stdout if done.returncode == 0 else ""


def lay_out_share(to: str) -> None:
    """Writes the man pages and the completions of what is in TO/bin."""
    usages = {it: usage_of(f"{to}/bin/{it}") for it in COMMANDS}
    for name, usage in usages.items():
        page = front_answer(to, "--man") if name == "lenthuvi" else ""
        put(f"{to}/{MAN}/{name}.1", page or man_page(name, usage, version()))
    own = front_answer(to, "--bash")
    paths = completion_paths(f"{to}/{COMPLETIONS}")
    put(paths["worker_tool"], completion(usages))
    for name, path in paths.items():
        if name == "lenthuvi" and own:
            put(path, own)
        elif name != "worker_tool":
            os.symlink("worker_tool", path)


def sums(to: str) -> str:
    """Returns SHA256SUMS of a folder, as `sha256sum --check` reads it."""
    return "".join(f"{sum_of_file(f'{to}/{it}')}  {it}\n" for it in files_below(to) if it != "SHA256SUMS")


def lay_out(to: str, states: dict[str, State]) -> None:
    """Lays out a release in an empty folder, from this checkout."""
    for it in (*PAGES, *EXAMPLE, "VERSION", *(it for it in os.listdir(TOP) if it.startswith("LICEN"))):
        copy(f"{TOP}/{it}", f"{to}/{it}")
    for folder in ("tools", "docs"):
        for it in files_below(f"{TOP}/{folder}"):
            if not FOR_A_CHECKOUT & set(it.split(os.sep)):
                copy(f"{TOP}/{folder}/{it}", f"{to}/{folder}/{it}")
    for it in states:
        copy(f"{TOP}/bin/{it}", f"{to}/bin/{it}")
    os.symlink("../tools/lenthuvi", f"{to}/bin/lenthuvi")
    put(f"{to}/PROOF", proof(states, to))
    lay_out_share(to)
    # Python wrote caches when lenthuvi printed its pages. They aren't packed.
    for cache in glob.glob(f"{to}/tools/**/__pycache__", recursive=True):
        shutil.rmtree(cache)
    put(f"{to}/SHA256SUMS", sums(to))


def placed(of: str) -> dict[str, str]:
    """Returns the path below the prefix for each file of a release. Files of bin and tools stay together."""
    where = {}
    for it in files_below(of):
        head = it.split(os.sep)[0]
        if "__pycache__" in it.split(os.sep):
            continue
        if head in ("bin", "tools") or it in ("VERSION", "PROOF"):
            where[it] = f"libexec/lenthuvi/{it}"
        elif head == "share":
            where[it] = it
        elif it != "SHA256SUMS":
            where[it] = f"share/doc/lenthuvi/{it}"
    return where


def check_sums(of: str) -> None:
    """Raises Refused if a file of a release isn't the one that was packed."""
    with open(f"{of}/SHA256SUMS", encoding="utf-8") as file:
        for line in file:
            is_sum, path = line.rstrip("\n").split("  ", 1)
            if not os.path.isfile(f"{of}/{path}") or sum_of_file(f"{of}/{path}") != is_sum:
                raise Refused(f"{of}/{path} isn't the file that was packed (SHA256SUMS)")


def replace(source: str, to: str) -> None:
    """Replaces a file or link with a copy of another in one step."""
    os.makedirs(os.path.dirname(to), exist_ok=True)
    part = f"{to}.{os.getpid()}.part"
    if os.path.islink(source):
        os.symlink(os.readlink(source), part)
    else:
        copy(source, part)
    os.replace(part, to)


def install(of: str, prefix: str, root: str = "") -> None:
    """Installs a release below a prefix, or below ROOT and the prefix if a package is made there. Removes files of an
    older release that this one lacks."""
    check_sums(of)
    base = root + prefix
    where = placed(of)
    for source, to in where.items():
        replace(f"{of}/{source}", f"{base}/{to}")
    for own in ("libexec/lenthuvi", "share/doc/lenthuvi"):
        for it in list(files_below(f"{base}/{own}")):
            if f"{own}/{it}" not in where.values():
                os.remove(f"{base}/{own}/{it}")
    compile_front(f"{base}/libexec/lenthuvi/tools/front", root)
    os.makedirs(f"{base}/bin", exist_ok=True)
    for name in COMMANDS:
        part = f"{base}/bin/{name}.{os.getpid()}.part"
        os.symlink(f"../libexec/lenthuvi/bin/{name}", part)
        os.replace(part, f"{base}/bin/{name}")


def compile_front(folder: str, root: str) -> None:
    """Compiles the modules of lenthuvi by this Python. Otherwise each watcher would, since users can't write there."""
    strip = ["-s", root, "-p", "/"] if root else []
    subprocess.run([sys.executable, "-m", "compileall", "-q", *strip, "--invalidation-mode", "checked-hash", folder],
                   stdin=subprocess.DEVNULL, stdout=subprocess.DEVNULL, check=False)


def remove(prefix: str, root: str = "") -> None:
    """Removes what `install` put below a prefix, and nothing else."""
    base = root + prefix
    for name in COMMANDS:
        link = f"{base}/bin/{name}"
        if os.path.islink(link) and os.readlink(link) == f"../libexec/lenthuvi/bin/{name}":
            os.remove(link)
    for path in (*(f"{base}/{MAN}/{it}.1" for it in COMMANDS), *completion_paths(f"{base}/{COMPLETIONS}").values()):
        if os.path.lexists(path):
            os.remove(path)
    for own in ("libexec/lenthuvi", "share/doc/lenthuvi"):
        shutil.rmtree(f"{base}/{own}", ignore_errors=True)


def release_here() -> bool:
    """Returns true if this is an unpacked release, and not a checkout."""
    return os.path.isfile(f"{TOP}/SHA256SUMS") and os.path.isfile(f"{TOP}/PROOF")


def install_here(prefix: str, root: str, takes_trials: bool) -> None:
    """Installs this unpacked release, or what this checkout has built."""
    if release_here():
        states_of(f"{TOP}/bin", takes_trials)
        install(TOP, prefix, root)
        return
    states = states_of(f"{TOP}/bin", takes_trials)
    with tempfile.TemporaryDirectory(prefix="lenthuvi-") as folder:
        lay_out(folder, states)
        install(folder, prefix, root)
