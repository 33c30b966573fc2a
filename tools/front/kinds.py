"""Lists for tools that stay warm: what `lenthuvi init` writes for the sources of a folder."""
from __future__ import annotations

import glob
import json
import os
import shutil
from typing import Any, Callable, Iterator, NamedTuple

from .faults import MOST
from .listing import STATE
from .options import Unwanted
from .voice import plural, quoted

WORKERS = os.path.join(os.path.dirname(os.path.dirname(os.path.realpath(__file__))), "workers")
# Node can't move descriptors, so a shell puts the answers elsewhere than what is printed.
NODE = ["/bin/sh", "-c", 'exec "$@" 3>&1 1>&2', "sh"]
NEEDS = {"supports-workers": "1"}
LINES = {**NEEDS, "requires-worker-protocol": "json"}
LEFT_OUT = (STATE, ".worker_rooms", "node_modules", "flags", "out", ".git")


Actions = Callable[[list[str], list[str]], Iterator[tuple[str, list[str], list[str], list[str]]]]


class Kind(NamedTuple):
    """A tool: the endings of its sources, the files that configure it, what Debian calls it, and how its actions are made."""

    endings: tuple[str, ...]
    settings: tuple[str, ...]
    packages: str
    start: Callable[[], list[str]]
    env: dict[str, str]
    actions: Actions
    needs: dict[str, str] = LINES


def kotlin_home() -> str:
    """Returns the folder of Kotlin's compiler, which an environment variable may replace."""
    return os.environ.get("KOTLIN_HOME", "/usr/share/kotlin/kotlinc")


def kotlinc_start() -> list[str]:
    """Returns the words that start the worker of Kotlin's compiler."""
    java = shutil.which("java")
    names = ("kotlin-compiler", "kotlin-stdlib", "kotlin-script-runtime", "kotlin-reflect", "trove4j", "annotations-13.0")
    jars = [os.path.join(kotlin_home(), "lib", f"{it}.jar") for it in names]
    missing = "java" if java is None else next((it for it in jars if not os.path.exists(it)), "")
    if java is None or missing:
        raise Unwanted(f"{missing} isn't there")
    return [java, "-XX:+UseSerialGC", "-XX:TieredStopAtLevel=1", "-Xss8m", "-Dkotlin.environment.keepalive=true", "-cp", ":".join(jars),
            os.path.join(WORKERS, "KotlinWorker.java")]


def node_start(worker: str, name: str, place: str) -> list[str]:
    """Returns the words that start a worker in Node, whose tool is at a place that an environment variable may replace."""
    node = shutil.which("node")
    if node is None or not os.path.exists(os.environ.get(name, place)):
        raise Unwanted(f"{'node' if node is None else os.environ.get(name, place)} isn't there")
    return [*NODE, node, os.path.join(WORKERS, worker), "--answers=3"]


def tsc_actions(sources: list[str], settings: list[str]) -> Iterator[tuple[str, list[str], list[str], list[str]]]:
    """Yields one action: the whole program, with a file for each source that isn't only declarations."""
    made = ["out/" + os.path.splitext(it)[0] + ".js" for it in sources if not it.endswith(".d.ts")]
    words = ["--target", "es2019", "--module", "commonjs", "--rootDir", ".", "--outDir", "out", *sources]
    yield "tsc", words, [*sources, *settings], made


def kotlinc_actions(sources: list[str], settings: list[str]) -> Iterator[tuple[str, list[str], list[str], list[str]]]:
    """Yields one action: the whole program as one jar."""
    words = ["--jar=out/program.jar", "-kotlin-home", kotlin_home(), *sources]
    yield "kotlinc", words, [*sources, *settings], ["out/program.jar"]


def eslint_actions(sources: list[str], settings: list[str]) -> Iterator[tuple[str, list[str], list[str], list[str]]]:
    """Yields an action for each source, whose output is the report."""
    for it in sources:
        report = f"out/{it}.txt"
        yield it, ["--soft", "-f", "unix", "-o", report, it], [it, *settings], [report]


KINDS = {
    "tsc": Kind((".ts",), ("package.json",), "node-typescript", lambda: node_start("tsc_worker.js", "TSC", "/usr/share/nodejs/typescript/lib/typescript.js"),
                {"PATH": "/usr/bin:/bin"}, tsc_actions),
    "eslint": Kind((".js",), (".eslintrc.json", ".eslintrc.js", ".eslintrc", "package.json"), "eslint",
                   lambda: node_start("eslint_worker.js", "ESLINT", "/usr/share/nodejs/eslint"),
                   {"PATH": "/usr/bin:/bin", "NODE_PATH": "/usr/share/nodejs", "HOME": "/nonexistent"}, eslint_actions),
    "kotlinc": Kind((".kt",), (), "kotlin", kotlinc_start, {"PATH": "/usr/bin:/bin"}, kotlinc_actions, NEEDS),
}


def sources_below(endings: tuple[str, ...]) -> list[str]:
    """Returns the sources below this folder, except in folders that aren't the project's own."""
    found = []
    for ending in endings:
        for path in glob.glob(f"**/*{ending}", recursive=True):
            if not set(LEFT_OUT) & set(path.split("/")) and os.path.isfile(path):
                found.append(path)
    return sorted(found)


def init_kind(name: str, folder: str) -> int:
    """Writes a list for the sources of a folder. It replaces no existing file."""
    kind = KINDS[name]
    try:
        start = kind.start()
    except Unwanted as why:
        raise Unwanted(f"init {name}: {why}: apt-get install {kind.packages}") from why
    os.chdir(folder)
    for path in ("list.json", "flags"):
        if os.path.lexists(path):
            raise Unwanted(f"{os.path.join(folder, path)} exists already; nothing was written")
    sources = sources_below(kind.endings)
    settings = [it for it in kind.settings if os.path.isfile(it)]
    if not sources:
        raise Unwanted(f"there is no {' or '.join(kind.endings)} below {folder}; nothing was written")
    env = {**kind.env, **{it: os.environ[it] for it in ("TSC", "ESLINT", "NODE_PATH") if it in os.environ}}
    objects = [action_of(name, kind, start, env, *it) for it in kind.actions(sources, settings)]
    for it in objects:
        for key in ("inputs", "outputs"):
            if len(it[key]) >= MOST[key]:  # an input more will be its words
                raise Unwanted(f"{len(it[key]):,} {key} are more than the {MOST[key]:,} of an action; call it in a folder with fewer sources")
    os.makedirs("flags")
    for number, (_, words, _, _) in enumerate(kind.actions(sources, settings)):
        with open(f"flags/{number}", "x", encoding="utf-8") as file:
            file.write("\n".join(words))
    for number, it in enumerate(objects):
        it["argv"].append(f"@flags/{number}")
        it["inputs"].insert(0, f"flags/{number}")
    with open("list.json", "x", encoding="utf-8") as file:
        file.write(json.dumps({"actions": objects}, indent=1) + "\n")
    where = "" if folder == "." else f"cd {quoted([folder])}; "
    print(f"written: list.json with {plural(len(objects), 'action')} for {plural(len(sources), 'source')}, and their words in flags\n"
          f"next: {where}lenthuvi build --keep=300")
    return 0


def action_of(name: str, kind: Kind, start: list[str], env: dict[str, str], source: str, _: list[str], inputs: list[str],
              outputs: list[str]) -> dict[str, Any]:
    """Returns an action, still without its flag file."""
    return {"name": source.replace(" ", "_"), "mnemonic": name.capitalize(), "argv": [*start], "env": env, "inputs": [*inputs], "outputs": outputs,
            "requirements": kind.needs}
