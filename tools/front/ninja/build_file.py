"""Reads ninja's build files: rules, edges and variables, as ninja's manual describes them."""
from __future__ import annotations

import dataclasses
import os
import re
from typing import Callable, Iterator

from ..faults import Unreadable

CONTINUED = re.compile(r"(?<!\$)((?:\$\$)*)\$\n[ ]*")
VARIABLE = re.compile(r"\$(?:\{([\w.-]+)\}|([\w-]+)|(.))", re.S | re.ASCII)
TOKEN = re.compile(r"\|\||\|@|\||:|(?:\$[ :$]|\$\{[\w.-]+\}|\$[\w-]+|[^\s:|$])+")
SAFE = re.compile(r"[\w+\-./]+", re.ASCII)
Bindings = list[tuple[str, str]]


class Scope:
    """Variables and rules, and the scope above, which supplies those that this scope lacks."""

    def __init__(self, above: Scope | None = None) -> None:
        self.above = above
        self.values: dict[str, str] = {}
        self.rules: dict[str, dict[str, str]] = {}

    def chain(self) -> Iterator[Scope]:
        """Yields this scope and those above it."""
        scope: Scope | None = self
        while scope is not None:
            yield scope
            scope = scope.above

    def value(self, name: str) -> str:
        """Returns a variable, which is empty if no scope has it."""
        return next((it.values[name] for it in self.chain() if name in it.values), "")

    def rule(self, name: str) -> dict[str, str]:
        """Returns the bindings of a rule."""
        found = next((it.rules[name] for it in self.chain() if name in it.rules), None)
        if found is None and name != "phony":
            raise Unreadable(f"there is no rule {name}")
        return found or {}


def filled(text: str, value: Callable[[str], str]) -> str:
    """Returns a text with its variables replaced."""
    if "$" not in text:
        return text
    return VARIABLE.sub(lambda it: str(it[3]) if it[3] is not None else value(it[1] or it[2]), text)


def quoted(path: str) -> str:
    """Returns a path as ninja gives it to the shell."""
    return path if SAFE.fullmatch(path) else "'" + path.replace("'", "'\\''") + "'"


@dataclasses.dataclass(eq=False)
class Edge:
    """A step of the build: its inputs, its outputs, and its rule."""

    rule: str
    outputs: list[str]
    implicit_outputs: list[str]
    inputs: list[str]
    implicit: list[str]
    order_only: list[str]
    scope: Scope
    above: Scope

    def value(self, name: str) -> str:
        """Returns a variable as the edge sees it: its own, its rule's, or the file's."""
        if name == "in":
            return " ".join(map(quoted, self.inputs))
        if name == "in_newline":
            return "\n".join(map(quoted, self.inputs))
        if name == "out":
            return " ".join(map(quoted, self.outputs))
        if name in self.scope.values:
            return self.scope.values[name]
        rule = self.scope.rule(self.rule)
        return filled(rule[name], self.value) if name in rule else self.scope.value(name)

    @property
    def made(self) -> list[str]:
        """Returns all its outputs."""
        return self.outputs + self.implicit_outputs

    @property
    def read(self) -> list[str]:
        """Returns all paths that must exist before it runs."""
        return self.inputs + self.implicit + self.order_only


class BuildFile:
    """All edges of a build folder's build.ninja."""

    def __init__(self, folder: str, name: str = "build.ninja") -> None:
        self.folder = folder
        self.edges: list[Edge] = []
        self.defaults: list[str] = []
        self.files: list[str] = []
        self.read(name, Scope())
        self.makers = {path: edge for edge in self.edges for path in edge.made}

    def read(self, name: str, scope: Scope) -> None:
        """Reads a file into a scope."""
        self.files.append(name)
        path = os.path.join(self.folder, name)
        try:
            with open(path, encoding="utf-8", errors="surrogateescape") as file:
                lines = CONTINUED.sub(r"\1", file.read()).split("\n")
        except OSError as error:
            raise Unreadable(f"{path}: {error.strerror}") from error
        for line, block in statements(lines):
            try:
                self.take(line, block, scope)
            except RecursionError:
                raise Unreadable(f"{path}: too many files or variables name each other: {line[:80]}") from None
            except Unreadable as error:
                raise Unreadable(f"{path}: {error}" if name not in str(error) else str(error)) from None

    def take(self, line: str, block: Bindings, scope: Scope) -> None:
        """Takes a statement with the bindings below it."""
        word, _, rest = line.partition(" ")
        if word == "build":
            self.edges.append(edge_of(rest, block, scope))
        elif word == "rule":
            scope.rules[rest.strip()] = dict(block)
        elif word == "default":
            self.defaults += [path_of(it, scope) for it in TOKEN.findall(rest)]
        elif word in ("include", "subninja"):
            self.read(path_of(rest.strip(), scope), scope if word == "include" else Scope(scope))
        elif word != "pool":
            name, value = binding(line)
            scope.values[name] = filled(value, scope.value)

    def wanted(self, targets: list[str]) -> list[Edge]:
        """Returns the edges that the targets need, makers first. Without targets it takes the defaults, or all final outputs."""
        read = {path for edge in self.edges for path in edge.read}
        roots = targets or self.defaults or [path for edge in self.edges for path in edge.made if path not in read]
        found: dict[Edge, None] = {}
        entered: set[Edge] = set()
        for path in roots:
            if path not in self.makers:
                raise Unreadable(f"nothing makes {path}")
            self.descend(self.makers[path], entered, found)
        return list(found)

    def descend(self, top: Edge, entered: set[Edge], found: dict[Edge, None]) -> None:
        """Adds to `found` all edges that an edge needs, and then this edge."""
        if top in entered:
            return
        entered.add(top)
        stack = [(top, iter(top.read))]
        while stack:
            edge, rest = stack[-1]
            below = next((it for it in map(self.makers.get, rest) if it is not None and it not in entered), None)
            if below is None:
                found[edge] = None
                stack.pop()
            else:
                entered.add(below)
                stack.append((below, iter(below.read)))

    def leaves(self, paths: list[str]) -> list[str]:
        """Returns the files for paths. The output of a phony edge is replaced by the files that the edge reads."""
        found: dict[str, None] = {}
        seen: set[str] = set()
        rest = list(reversed(paths))
        while rest:
            path = rest.pop()
            edge = self.makers.get(path)
            if path in seen:
                continue
            seen.add(path)
            if edge is not None and edge.rule == "phony":
                rest += reversed(edge.read)
            else:
                found[path] = None
        return list(found)


def statements(lines: list[str]) -> Iterator[tuple[str, Bindings]]:
    """Yields each statement with the bindings that are indented below it."""
    line, block = "", Bindings()
    for text in lines:
        if not text.strip() or text.lstrip().startswith("#"):
            continue
        if text[0] == " ":
            block.append(binding(text))
            continue
        if line:
            yield line, block
        line, block = text, []
    if line:
        yield line, block


def binding(line: str) -> tuple[str, str]:
    """Returns the name and the value of a line NAME = VALUE."""
    name, equals, value = line.partition("=")
    if not equals:
        raise Unreadable(f"a name and a value are needed: {line.strip()[:80]}")
    return name.strip(), value.lstrip(" ")


def path_of(text: str, scope: Scope) -> str:
    """Returns a path in ninja's canonical form, with its variables replaced."""
    path = filled(text, scope.value)
    return os.path.normpath(path) if "./" in path or "//" in path or path.endswith(("/", "/.", "/..")) else path


def edge_of(text: str, block: Bindings, above: Scope) -> Edge:
    """Returns the edge of a build line and its bindings."""
    scope = Scope(above) if block else above
    for name, value in block:
        scope.values[name] = filled(value, above.value)
    parts: dict[str, list[str]] = {"out": [], "out|": [], "in": [], "|": [], "||": [], "|@": []}
    part, rule = "out", ""
    for token in TOKEN.findall(text):
        if token == ":" and part.startswith("out"):
            part = "rule"
        elif token in ("|", "||", "|@"):
            part = "out|" if part == "out" else token
        elif part == "rule":
            rule, part = token, "in"
        else:
            parts[part].append(path_of(token, scope))
    if not rule or not parts["out"]:
        raise Unreadable(f"this build line has no outputs or no rule: {text[:80]}")
    return Edge(rule, parts["out"], parts["out|"], parts["in"], parts["|"], parts["||"], scope, above)
