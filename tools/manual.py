"""Makes the man pages and the completion of the programs from the usage that the programs print."""
from __future__ import annotations

import dataclasses
import itertools
import os
import re
import subprocess


@dataclasses.dataclass(frozen=True)
class Command:
    """The text of a man page in addition to the command's usage."""

    does: str  # printed after the name, in one line
    more: str  # a paragraph
    runs_list: bool = False  # its statuses are those of a run


COMMANDS = {
    "lenthuvi": Command(
        "checks and runs lists of build actions",
        "lenthuvi is the command for everyday use. It runs the other programs, which are in the same folder, and explains what "
        "came of a run."),
    "worker_tool": Command(
        "runs a list of build actions on persistent workers",
        "worker_tool runs the actions of LIST, a file in JSON, below the current folder. It starts the workers that the list names, "
        "sends each action to one of them, races an executor against a worker if the action asks for that, and writes the outputs "
        "of one of the two. It prints a line for each action, and the totals.", True),
    "shared_tool": Command(
        "runs a list of many worker keys by few workers",
        "shared_tool runs LIST as worker_tool does, with at most --max_workers local workers of each protocol. A worker that has "
        "nothing more to do is ended for a key that has none.", True),
    "spawn_tool": Command(
        "runs a list by strategies",
        "spawn_tool runs LIST as worker_tool does. Each action takes the first strategy that its words name for the action's mnemonic "
        "and that the action supports.", True),
    "run_tool": Command(
        "runs a list with every option of the others",
        "run_tool runs LIST as worker_tool does, with every option of worker_tool, shared_tool and spawn_tool. Every option may stand "
        "with every other: with --max_workers keys share workers, --strategy and --spawn_strategy choose how an action runs, and with "
        "--local_delay the worker of a dynamic action waits.", True),
    "journal_run": Command(
        "runs a list, and prints the journal of the run",
        "journal_run runs LIST as worker_tool does, and prints the journal of the run after the report.", True),
    "journal_check": Command(
        "checks that the journal of a run is legal",
        "journal_check reads the text of a journal from standard input, with or without the report before it, and prints "
        "`legal actions=A entries=N`, or the first fault. It takes no arguments."),
    "remote_exec": Command(
        "an executor that runs one job after another",
        "remote_exec reads jobs from standard input and writes the result of each to standard output. worker_tool starts it. "
        "It takes no arguments."),
    "job_pool": Command(
        "an executor that runs up to 64 jobs at once",
        "job_pool reads jobs from standard input and writes the result of each to standard output as soon as it has ended. "
        "worker_tool starts it if --executor names it. It takes no arguments."),
    "demo_tool": Command(
        "a worker that copies files, for trying lists",
        "demo_tool copies files below the current folder, as its arguments or the requests on its standard input say."),
    "line_worker": Command(
        "a worker that counts lines, an example",
        "line_worker is a worker for up to four requests at once. The arguments of a request are the path of its output and "
        "the files whose lines are counted."),
}
PROGRAMS = tuple(it for it in COMMANDS if it != "lenthuvi")

STATUSES = """0 every action succeeded
1 an action did not succeed; the report has a line for each
2 the arguments are invalid
3 memory ran out
4 the list is invalid, or a flag file can't be expanded
5 the list, a tool or an input can't be read, or another run is at work in this folder
6 the report wasn't written whole
"""
NO_STRATEGY = "8 no strategy supports an action; nothing was started\n"


def usage_of(program: str) -> str:
    """Returns the usage that the program at this path prints, or nothing if it prints none.

    It begins with the word `usage`, or the program's help begins with its name. What follows then up to the first option is left out.
    """
    try:
        done = subprocess.run([program, "--help"], stdin=subprocess.DEVNULL, capture_output=True, text=True, timeout=60,
                              errors="replace", check=False)
    except (OSError, subprocess.TimeoutExpired):
        return ""
    said = done.stdout + done.stderr
    if "usage:" not in said and done.stdout.startswith(os.path.basename(program)):
        first, *rest = done.stdout.splitlines()
        said = "\n".join([f"usage: {first}", *itertools.dropwhile(lambda it: not it.startswith("  "), rest)])
    at = said.find("usage:")
    return re.sub(r"(?m)^\s*more: .*\n", "", said[at:]).rstrip() + "\n" if at >= 0 else ""


def _escaped(text: str) -> str:
    """Returns the text with escapes, so that troff prints it unchanged."""
    text = text.replace("\\", "\\e").replace("-", "\\-").replace("`", "\\(ga").replace("'", "\\(aq")
    return re.sub(r"(?m)^\.", r"\\&.", text)


def man_page(name: str, usage: str, version: str) -> str:
    """Returns the man page of a command, which prints this usage."""
    command = COMMANDS[name]
    first, _, rest = usage.removeprefix("usage:").strip("\n").partition("\n")
    parts = [f'.TH {name.upper()} 1 "" "Lenthuvi {version}" "User Commands"',
             f".SH NAME\n{name} \\- {_escaped(command.does)}",
             f".SH SYNOPSIS\n{_escaped(first.strip() or name)}",
             f".SH DESCRIPTION\n{_escaped(command.more)}"]
    if rest:
        parts.append(f".SH OPTIONS\n.nf\n{_escaped(rest)}\n.fi")
    if command.runs_list:
        statuses = STATUSES + (NO_STRATEGY if name in ("spawn_tool", "run_tool") else "")
        rows = [line.split(" ", 1) for line in statuses.splitlines()]
        parts.append(".SH EXIT STATUS\n" + "\n".join(f".TP\n{number}\n{_escaped(means)}" for number, means in rows))
    others = ", ".join(f".BR {it} (1)" for it in COMMANDS if it != name).replace(", ", " ,\n")
    parts.append(f".SH SEE ALSO\n{others}\n.PP\nThe guide and the formats are pages in share/doc/lenthuvi.")
    return "\n".join(parts) + "\n"


def words_of(usage: str) -> list[str]:
    """Returns the words of a usage that a shell can complete: options, and the commands of a usage line."""
    options = re.findall(r"(?<![\w-])--[a-z][a-z_-]*=?", usage)
    commands = re.findall(r"(?m)^(?:usage:)?\s+lenthuvi ([a-z]+)\b", usage)
    return [it for it in dict.fromkeys([*commands, *options]) if f"{it}=" not in options]


def completion(usages: dict[str, str]) -> str:
    """Returns the completion for bash of these commands, each with the usage that it prints."""
    cases = "\n".join(f"        {name}) words='{' '.join(words_of(usage))}' ;;" for name, usage in usages.items())
    return f"""# Completion for bash: options and commands by name, and files.
_lenthuvi() {{
    local words=
    case ${{COMP_WORDS[0]##*/}} in
{cases}
    esac
    compopt +o nospace
    mapfile -t COMPREPLY < <(compgen -W "$words" -- "$2")
    [[ ${{COMPREPLY[0]-}} != *= ]] || compopt -o nospace
}}
complete -o default -F _lenthuvi {' '.join(usages)}
"""


def completion_paths(folder: str) -> dict[str, str]:
    """Returns the path of each command's completion, which a shell looks for in the folder of completions."""
    return {it: os.path.join(folder, it) for it in COMMANDS}
