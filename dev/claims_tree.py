"""Reads from the tree what docs/CLAIMS.md says of it: calls with their clauses, definitions, wrong bodies and stored runs.

A clause is the text of an `ensures`, or of a ghost member of a trait or of an `impl`. A definition is a name that a file of a
crate's specs/ defines; it is known by the file and the name.
"""
from __future__ import annotations

import functools
import pathlib
import re
from collections.abc import Iterable, Iterator
from dataclasses import dataclass, field

TOP = pathlib.Path(__file__).resolve().parent.parent
CRATES = {path.name for path in (TOP / "crates").iterdir() if path.is_dir()}
WORD = re.compile(r"[A-Za-z_][A-Za-z0-9_]*")
# A word, also behind the name of a module.
NAME = re.compile(r"(?<![\w.])(?:[a-z]\w*\.(?=[A-Za-z]))?[A-Za-z_]\w*")
ALIAS = re.compile(r"^\s*(?:ghost )?use Rattle\.([\w.]+) as (\w+)", re.MULTILINE)
IMPORT = re.compile(r"^\s*(?:ghost )?use Rattle\.([\w.]+)\.\{([^}]*)\}", re.MULTILINE)
FUNCTION = re.compile(r"\bfn\s+([A-Za-z_]\w*)")
HEADER = re.compile(r"^(?:pub(?:\([a-z]+\))?\s+)?((?:impl|trait)\b[^{]*)")
ENSURES = re.compile(r"\bensures\b\s*([A-Za-z_]\w*)?\s*\{")
GHOST = re.compile(r"^\s+ghost\s+([A-Za-z_]\w*)\s*(?::[^=]*)?=?\s*\{")
DEFINED = re.compile(r"\s*(?:pub )?(?:abbrev|unfoldable|record|data)\b(?: pub)?(?: record| data)? +([A-Za-z_]\w*)"
                     r"|(?:pub )?([A-Za-z_]\w*) *:")


@dataclass(frozen=True)
class Definition:
    """A name that a file defines. The file is a path below crates/."""

    file: str
    name: str


@dataclass
class Clause:
    """A clause with its label, which may be empty, and the file whose imports its names go by."""

    label: str
    text: str
    file: pathlib.Path


@dataclass
class Call:
    """A function with its clauses; or a trait or an `impl` with its ghost members, whose owner is then its header."""

    crate: str
    owner: str
    name: str
    clauses: list[Clause] = field(default_factory=list)


def enclosed(text: str, start: int) -> str:
    """Returns the text from the brace at `start` to the one that closes it, without both."""
    depth = 0
    for at in range(start, len(text)):
        depth += {"{": 1, "}": -1}.get(text[at], 0)
        if depth == 0:
            return text[start + 1:at]
    return text[start + 1:]


@functools.cache
def content(path: pathlib.Path) -> str:
    """Returns the text of a file."""
    return path.read_text(encoding="utf-8")


def sources(crate: str) -> list[pathlib.Path]:
    """Returns the files of a crate's code."""
    return sorted((TOP / "crates" / crate / "src").rglob("*.rt"))


def calls_in(crate: str, path: pathlib.Path) -> Iterator[Call]:
    """Yields the functions, traits and `impl`s of a source file."""
    text = content(path)
    at = 0
    outer: Call | None = None
    last: Call | None = None
    for line in text.splitlines(keepends=True):
        if not line.lstrip().startswith("//"):
            if header := HEADER.match(text[at:]):
                outer = Call(crate, " ".join(header[1].split()), "")
                yield outer
            elif line.startswith("}"):
                outer = None
            if (ghost := GHOST.match(line)) and outer:
                outer.clauses.append(Clause(ghost[1], enclosed(text, at + ghost.end() - 1), path))
            if function := FUNCTION.search(line):
                last = Call(crate, outer.owner if outer else "", function[1])
                yield last
            for found in ENSURES.finditer(line):
                if last:
                    last.clauses.append(Clause(found[1] or "", enclosed(text, at + found.end() - 1), path))
        at += len(line)


@functools.cache
def calls(crate: str) -> tuple[Call, ...]:
    """Returns all functions, traits and `impl`s of a crate."""
    return tuple(call for path in sources(crate) for call in calls_in(crate, path))


@functools.cache
def calls_named(crate: str, name: str) -> tuple[Call, ...]:
    """Returns the calls with a name: `serve`, `Desk::call`, `impl Machine for Bench`; for a type or a trait all that it has."""
    if name.startswith("impl "):
        words = set(WORD.findall(name))
        return tuple(call for call in calls(crate) if words <= set(WORD.findall(call.owner)))
    owner, _, last = name.rpartition("::")
    named = [call for call in calls(crate) if call.name == last]
    # Without an owner a function is preferred to methods. An owner may also be a module, which no header names.
    found = [call for call in named if owner in WORD.findall(call.owner)] if owner else [call for call in named if not call.owner]
    return tuple(found or named or [call for call in calls(crate) if last in WORD.findall(call.owner)])


# ---- definitions

def spec_file(module: str) -> str | None:
    """Returns the file of definitions that a module's name means, below crates/; none for other modules."""
    crate, *parts = module.split(".")
    return "/".join([crate, *parts]) + ".antt" if crate in CRATES and parts[:1] == ["specs"] and "declared" not in parts else None


@functools.cache
def imports(path: pathlib.Path) -> dict[str, Definition]:
    """Returns the definitions that a file imports from specs/ of a crate here, by the names that they have in it."""
    found: dict[str, Definition] = {}
    for use in IMPORT.finditer(content(path)):
        if file := spec_file(use[1]):
            for name in use[2].split(","):
                first, _, local = name.strip().partition(" as ")
                if WORD.fullmatch(first):
                    found[local.strip() or first] = Definition(file, first)
    for use in ALIAS.finditer(content(path)):
        if file := spec_file(use[1]):
            found |= {f"{use[2]}.{name}": Definition(file, name) for name in defined(TOP / "crates" / file)}
    return found


@functools.cache
def defined(path: pathlib.Path) -> dict[str, str]:
    """Returns the definitions of a file with their texts. Those of a `module` block are indented."""
    found: dict[str, str] = {}
    name = ""
    for line in content(path).splitlines():
        if start := DEFINED.match(line):
            name = start[1] or start[2]
        elif line.startswith(("use ", "module ")):
            name = ""
        if name and not line.lstrip().startswith("--"):
            found[name] = found.get(name, "") + line + "\n"
    return found


def path_of(it: Definition) -> pathlib.Path:
    """Returns the file of a definition."""
    return TOP / "crates" / it.file


@functools.cache
def exists(it: Definition) -> bool:
    """Returns true if the definition's file defines it."""
    return path_of(it).exists() and it.name in defined(path_of(it))


@functools.cache
def names_of(path: pathlib.Path) -> dict[str, Definition]:
    """Returns the definitions that a text of a file may name: those that it imports, and its own."""
    own = defined(path) if path.suffix == ".antt" else {}
    return imports(path) | {name: Definition(str(path.relative_to(TOP / "crates")), name) for name in own}


def named_in(text: str, path: pathlib.Path) -> list[Definition]:
    """Returns the definitions that a text of a file names, in order, each once. Constructors of a `data` are none."""
    known = names_of(path)
    return [it for it in dict.fromkeys(known[word] for word in NAME.findall(text) if word in known) if exists(it)]


@functools.cache
def made_of(it: Definition) -> tuple[Definition, ...]:
    """Returns the definitions that a definition names."""
    return tuple(named_in(defined(path_of(it)).get(it.name, ""), path_of(it))) if path_of(it).exists() else ()


def below(start: Iterable[Definition]) -> Iterator[Definition]:
    """Yields the definitions, and all that they are made of, the nearest first."""
    seen = dict.fromkeys(start)
    queue = list(seen)
    while queue:
        it = queue.pop(0)
        yield it
        for found in made_of(it):
            if found not in seen:
                seen[found] = None
                queue.append(found)


def field_of(it: Definition, name: str) -> str | None:
    """Returns the type of a record's field, if it says more than the name of a type."""
    text = defined(path_of(it)).get(it.name, "") if path_of(it).exists() else ""
    found = re.search(rf"^(  +)(?:pub )?{re.escape(name)}\s*:\s*(.*(?:\n\1 +.*)*)", text, re.MULTILINE)
    return found[2] if found and " " in found[2] else None


# ---- wrong bodies, stored runs

def wrong_bodies(crate: str) -> dict[str, bool]:
    """Returns the names of a crate's wrong bodies; true if one is tried on demand, and not by the gate."""
    folder = TOP / "crates" / crate / "must-fail"
    paths = folder.glob("*.edit*") if folder.exists() else []
    return {path.name.split(".")[0]: path.name.endswith(".edit.md") for path in sorted(paths)}


@functools.cache
def stored_runs() -> list[str]:
    """Returns the programs with stored runs."""
    return sorted(crate for crate in CRATES if (TOP / "crates" / crate / "stdout").exists())


@functools.cache
def imported(program: str) -> dict[str, set[str]]:
    """Returns the names that a program's source imports, by crate."""
    found: dict[str, set[str]] = {}
    for path in sources(program):
        for crate, names in re.findall(r"^use (\w+)::([^;]*);", content(path), re.MULTILINE):
            found.setdefault(crate, set()).update(WORD.findall(names))
    return found


def players(call: Call) -> list[str]:
    """Returns the programs with stored runs that make this call of another crate by its name."""
    owner = {word for word in WORD.findall(call.owner) if word not in ("impl", "for")}
    found = []
    for program in stored_runs():
        names = imported(program).get(call.crate, set())
        if call.name in names or (owner & names and any(re.search(rf"(?:\.|::){call.name}\(", content(path)) for path in sources(program))):
            found.append(program)
    return found
