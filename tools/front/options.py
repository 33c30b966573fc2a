"""The command line: one table, from which the parser, the help, the manual page and the completion are made."""
from __future__ import annotations

import os
import shlex
import sys
from typing import Iterator, NamedTuple


class Unwanted(Exception):
    """An invalid command line. The text says which argument, and what is accepted."""


class Option(NamedTuple):
    """An option. `value` is what its value is called, or "" if it takes none."""

    name: str
    value: str
    commands: str
    group: str
    text: str
    many: bool = False
    least: float | None = None  # the bounds, if the value is a number
    most: float = 1e9
    whole: bool = False  # True if the number must be whole
    choices: tuple[str, ...] = ()


class Command(NamedTuple):
    """A command: its name, what may follow it, how many arguments those are at most, and its help."""

    name: str
    arguments: str
    most: int
    text: str


RUNS = "build run watch"
RUN, WATCHED, SAID, IMPORT = "what is run", "what is watched", "what is said", "what is imported"
COMMANDS = (
    Command("build", "[LIST]", 1, "make what isn't up to date (the default)"),
    Command("run", "[LIST]", 1, "make everything"),
    Command("watch", "[LIST]", 1, "build, and again after each change"),
    Command("check", "[LIST]", 1, "print everything wrong with a list, run nothing"),
    Command("explain", "NAME [LIST]", 2, "why an action would run, why it failed, how to repeat it"),
    Command("page", "[LIST]", 1, "the last run by the clock, for a browser"),
    Command("graph", "[LIST]", 1, "what needs what: all of it, or --deps=NAME, --rdeps=PATH"),
    Command("import", "ninja FOLDER", 2, "take over a build of ninja's, as CMake and meson write it; then build FOLDER"),
    Command("init", "[TOOL] [FOLDER]", 2, "write a first worker and list, or a list for a tool"),
    Command("doctor", "", 0, "programs, limits and rights in this folder"),
    Command("workers", "", 0, "workers that are kept; --end ends them"),
    Command("clean", "[LIST]", 1, "remove rooms, logs and what is remembered"),
    Command("help", "[COMMAND]", 1, "this page; --man and --bash print it for man and for the shell"),
)
OPTIONS = (
    Option("-j", "N", RUNS, RUN, "at most N actions at work here at once, over all workers (default: processors)",
           least=1, most=1000, whole=True),
    Option("-n", "", RUNS, RUN, "print what would run and why, and run nothing"),
    Option("-k", "", RUNS, RUN, "go on after a failure (default)"),
    Option("--stop", "", RUNS, RUN, "start nothing more after a failure, and report what was done"),
    Option("--only", "GLOB", RUNS, RUN, "only these actions and what they need; repeatable", many=True),
    Option("--strategy", "M=LIST", RUNS, RUN, "worker, sandboxed, remote, dynamic for mnemonic M, or * for all; repeatable", many=True),
    Option("--local-delay", "MS", RUNS, RUN, "the worker of a dynamic action waits this long", least=0, most=9999, whole=True),
    Option("--executor", "PROGRAM", RUNS, RUN, "runs remote actions; a path, or looked up in PATH"),
    Option("--remote", "N", RUNS, RUN, "at most N executors (default 1)", least=1, most=16, whole=True),
    Option("--retries", "N", RUNS, RUN, "extra attempts after a worker died (default 2)", least=0, most=9, whole=True),
    Option("--alone", "", RUNS, RUN, "if a worker dies over several requests, repeat each alone"),
    Option("--extra-flag", "ARG", RUNS, RUN, "extra startup argument for every worker; repeatable", many=True),
    Option("--limit", "S", RUNS, WATCHED, "end what owes an answer for S seconds; M=S for mnemonic M; repeatable", many=True),
    Option("--keep", "S", RUNS, WATCHED, "keep workers for S seconds after the run (default 0)", least=0, most=86400),
    Option("--keep-memory", "MB", RUNS, WATCHED, "kept workers have so much memory together (default: a quarter)",
           least=1, most=1e7, whole=True),
    Option("--keep-rooms", "", RUNS, WATCHED, "keep the room of each attempt that failed"),
    Option("--isolate", "", RUNS, WATCHED, "by bwrap: no network, and nothing but its room is writable"),
    Option("--plain", "", RUNS, WATCHED, "no watchers: the program's own promises, word for word"),
    Option("--root", "FOLDER", "import", IMPORT, "has the sources and the build folder below it (default: found)"),
    Option("--env", "NAME", "import", IMPORT, "a variable that commands get as it is now; repeatable", many=True),
    Option("--also", "PATH", "import", IMPORT, "a file below the root that commands read and don't declare; repeatable", many=True),
    Option("--in-place", "GLOB", "import", IMPORT, "what makes these runs in the project's folder, as by ninja; repeatable", many=True),
    Option("--mount", "WHEN", "import", IMPORT, "commands see their room at the project's path: auto, always or never", choices=("auto", "always", "never")),
    Option("--target", "NAME", "import", IMPORT, "only this and what it needs (default: as ninja has it); repeatable", many=True),
    Option("-q", "", RUNS, SAID, "only failures and totals"),
    Option("-v", "", RUNS, SAID, "each action as it ends, why it ran, and which program runs"),
    Option("--color", "WHEN", RUNS, SAID, "auto, always or never (NO_COLOR)", choices=("auto", "always", "never")),
    Option("--annotate", "WHEN", RUNS, SAID, "failures for GitHub's pages: auto, always or never", choices=("auto", "always", "never")),
    Option("--json", "FILE", RUNS, SAID, "events, one object a line; - is standard output"),
    Option("--report", "FILE", RUNS, SAID, "the program's report, unchanged"),
    Option("--journal", "FILE", RUNS, SAID, "the journal of the run, and whether it is legal"),
    Option("--trace", "FILE", RUNS, SAID, "the times, for Perfetto or chrome://tracing"),
    Option("--page", "FILE", RUNS, SAID, "a page of the run by the clock"),
    Option("--out", "FILE", "page graph", SAID, "where the page or the graph goes"),
    Option("--dot", "", "graph", SAID, "the graph for dot"),
    Option("--deps", "NAME", "graph", SAID, "what an action needs"),
    Option("--rdeps", "PATH", "graph", SAID, "what needs a file"),
    Option("--end", "", "workers", SAID, "end them"),
    Option("--man", "", "help", SAID, "the page for man"),
    Option("--bash", "", "help", SAID, "the completion for bash"),
)
# Options that can't be had together, with the reason.
EXCLUDED = (
    ("--journal", "--strategy", "journal_run has no strategies, and spawn_tool and run_tool print no journal"),
    ("--journal", "--local-delay", "journal_run has no delay, and spawn_tool and run_tool print no journal"),
    ("--json", "-n", "nothing runs, so there are no events"),
    *(("--plain", name, "it needs the watchers that --plain leaves out")
      for name in ("--stop", "--alone", "--limit", "--keep", "--keep-rooms", "--isolate", "--trace", "--page")),
)
# The last one of two opposites counts, so the command line may overrule a settings file.
OPPOSITES = {"-k": "--stop", "--stop": "-k", "-q": "-v", "-v": "-q"}
STATUSES = """\
status  0 all made   1 some not   2 invalid arguments   3 no memory   4 wrong list   5 a file is missing, or a run is at work here
        6 an output file can't be written   8 no strategy   9 some were ended by --limit   130 interrupted: what was made is remembered"""
SETTINGS = ".lenthuvirc"


class Words:
    """The parsed command line."""

    def __init__(self, command: str) -> None:
        self.command = command
        self.values: dict[str, list[str]] = {}
        self.rest: list[str] = []
        self.shown = ""  # the folder that was imported, as the user named it

    def has(self, name: str) -> bool:
        """Returns True if an option is given."""
        return name in self.values

    def last(self, name: str, default: str = "") -> str:
        """Returns the last value of an option."""
        return self.values.get(name, [default])[-1]

    def number(self, name: str, default: float) -> float:
        """Returns the number that an option gives. The parser has checked it."""
        text = self.last(name)
        return float(text) if text else default

    def whole(self, name: str, default: int) -> int:
        """Returns the whole number that an option gives. The parser has checked it."""
        return int(self.number(name, default))

    def all(self, name: str) -> list[str]:
        """Returns all values of an option."""
        return self.values.get(name, [])


def checked_number(shown: str, text: str, least: float, most: float, whole: bool = False) -> float:
    """Returns the number in a text. Raises Unwanted if it isn't within its bounds."""
    try:
        value = float(text)
    except ValueError:
        value = float("nan")
    if not least <= value <= most or (whole and value != int(value)):
        kind = "a whole number" if whole else "a number"
        raise Unwanted(f"{shown}={text}: {kind} from {least:,g} to {most:,.0f} is needed")
    return value


def parse(given: list[str]) -> Words:
    """Parses the arguments of the settings file, of the environment and of the command line, in this order."""
    names = {it.name for it in COMMANDS}
    before = given[: given.index("--")] if "--" in given else given
    if "--help" in before or "-h" in before:
        given = ["help", *[it for it in before if it in names][:1]]
    has_command = bool(given) and given[0] in names
    found = Words(given[0] if has_command else "build")
    for where, more in (*settings(found.command), ("LENTHUVI_OPTIONS", given_by_environment(found.command)),
                        ("", given[1:] if has_command else given)):
        take(found, more, where)
    check(found)
    return found


def given_by_environment(command: str) -> list[str]:
    """Returns the arguments of LENTHUVI_OPTIONS, which are for the commands that run something."""
    return split(os.environ.get("LENTHUVI_OPTIONS", ""), "LENTHUVI_OPTIONS") if command in RUNS.split() else []


def split(text: str, where: str) -> list[str]:
    """Splits a line as a shell does."""
    try:
        return shlex.split(text, comments=True)
    except ValueError as error:
        raise Unwanted(f"{where}: {text.strip()}: {error}") from error


def take(found: Words, given: list[str], where: str) -> None:
    """Takes arguments from left to right. An argument after `--` is never an option."""
    known = {it.name: it for it in OPTIONS if found.command in it.commands.split()}
    waiting = list(given)
    while waiting:
        word = waiting.pop(0)
        if word == "--":
            found.rest += waiting
            return
        if word in ("-", "") or not word.startswith("-"):
            found.rest.append(word)
            continue
        name, has_value, value = word.partition("=")
        if word[:2] == "-j" and len(word) > 2:
            name, has_value, value = "-j", "=", word[2:].removeprefix("=")
        option = known.get(name)
        if option is None:
            raise Unwanted(unknown(word, name, found.command, where))
        if not option.value and has_value:
            raise Unwanted(f"{word}: {name} takes no value{from_place(where)}")
        if option.value and not has_value:
            if not waiting:
                raise Unwanted(f"{word}: its value is missing, as in {spelled(option)}{from_place(where)}")
            value = waiting.pop(0)
        check_value(option, value, where)
        found.values.pop(OPPOSITES.get(name, ""), None)
        found.values.setdefault(name, []).append(value)


def from_place(where: str) -> str:
    """Returns a text about an argument's origin, or nothing for the command line."""
    return f" (from {where})" if where else ""


def check_value(option: Option, value: str, where: str) -> None:
    """Checks the value of an option, as far as that is possible without the list."""
    if option.least is not None:
        try:
            checked_number(option.name, value, option.least, option.most, option.whole)
        except Unwanted as error:
            raise Unwanted(f"{error}{from_place(where)}") from error
    if option.choices and value not in option.choices:
        raise Unwanted(f"{option.name}={value}: {', '.join(option.choices[:-1])} or {option.choices[-1]} is needed{from_place(where)}")
    if option.value and not value:
        raise Unwanted(f"{option.name}: its value is empty{from_place(where)}")


def check(found: Words) -> None:
    """Checks for options that exclude each other, and checks the number of arguments."""
    for one, other, why in EXCLUDED:
        if found.has(one) and found.last(other, "0") not in ("0", "0.0"):
            raise Unwanted(f"{one} and {other} can't be had together: {why}")
    command = next(it for it in COMMANDS if it.name == found.command)
    if len(found.rest) > command.most:
        more = found.rest[command.most]
        what = "takes no argument" if not command.arguments else f"takes {command.arguments}"
        raise Unwanted(f"{more}: lenthuvi {command.name} {what}")


def unknown(word: str, name: str, command: str, where: str) -> str:
    """Returns what is printed for an option that isn't known."""
    elsewhere = next((it for it in OPTIONS if it.name == name), None)
    if elsewhere is not None:
        return f"{word}: an option of {elsewhere.commands.replace(' ', ', ')}, not of {command}{from_place(where)}"
    hint = did_you_mean(name, [it.name for it in OPTIONS])
    return f"invalid argument: {word}{from_place(where)}" + (hint or "; lenthuvi help lists all")


def did_you_mean(name: str, known: list[str]) -> str:
    """Returns a hint at the known name that is most like another one, or nothing."""
    import difflib

    near = difflib.get_close_matches(name, known, 1)
    return f"; did you mean {near[0]}?" if near else ""


def settings(command: str) -> Iterator[tuple[str, list[str]]]:
    """Yields the arguments that the nearest settings file, here or above, has for a command."""
    folder = os.getcwd()
    while True:
        path = os.path.join(folder, SETTINGS)
        if os.path.isfile(path):
            if is_trusted(path):
                yield from lines_for(path, command)
            return
        if folder == "/":
            return
        folder = os.path.dirname(folder)


def is_trusted(path: str) -> bool:
    """Returns True if a settings file belongs to the user or to root: it may name programs that are started."""
    owner = os.stat(path).st_uid
    if owner in (0, os.geteuid()):
        return True
    print(f"lenthuvi: {path} isn't read: it belongs to user {owner}, and you are {os.geteuid()}", file=sys.stderr)
    return False


def lines_for(path: str, command: str) -> Iterator[tuple[str, list[str]]]:
    """Yields the arguments for a command; run and watch also take those of build."""
    takes = {command} | ({"build"} if command in RUNS.split() else set())
    with open(path, encoding="utf-8") as file:
        for number, line in enumerate(file, 1):
            words = split(line, f"{path}:{number}")
            if not words:
                continue
            if words[0] not in {it.name for it in COMMANDS}:
                raise Unwanted(f"{path}:{number}: a line begins with a command, for example build --limit=60")
            if words[0] in takes:
                yield f"{path}:{number}", words[1:]


def spelled(option: Option) -> str:
    """Returns an option as it is written."""
    if not option.value:
        return option.name
    return f"{option.name} {option.value}" if option.name == "-j" else f"{option.name}={option.value}"


def help_page(command: str = "") -> str:
    """Returns the help, of everything or of one command."""
    names = [it.name for it in COMMANDS]
    if command and command not in names:
        raise Unwanted(f"{command}: there is no such command{did_you_mean(command, names)}; there are {', '.join(names)}")
    lines = []
    if not command:
        lines += ["Lenthuvi builds a list of actions on workers that stay alive.", "",
                  "usage: lenthuvi COMMAND [OPTIONS] [LIST]       LIST is list.json, a path, an imported folder, or - (standard input)", ""]
    for it in COMMANDS:
        if command in ("", it.name):
            lines.append(f"  {it.name + ' ' + it.arguments:22} {it.text}")
    group = ""
    for option in OPTIONS:
        if command and command not in option.commands.split():
            continue
        if option.group != group:
            group = option.group
            lines += ["", group]
        lines.append(f"  {spelled(option):22} {option.text}")
    lines += ["", f"The nearest file {SETTINGS}, here or above, has options, a command a line: build --limit=60. LENTHUVI_OPTIONS is read",
              "before the command line. LENTHUVI_BIN names the folder of the programs.", "", STATUSES]
    return "\n".join(lines)


def man_page() -> str:
    """Returns the page for man."""
    lines = ['.TH LENTHUVI 1 "" "Lenthuvi"', ".SH NAME", "lenthuvi \\- builds a list of actions on workers that stay alive",
             ".SH SYNOPSIS", ".B lenthuvi", "COMMAND [OPTIONS] [LIST]", ".SH COMMANDS"]
    for it in COMMANDS:
        lines += [".TP", f".B {it.name} {it.arguments}".rstrip(), it.text]
    lines.append(".SH OPTIONS")
    for option in OPTIONS:
        lines += [".TP", f".B {spelled(option)}".replace("-", "\\-"), f"{option.text} ({option.commands.replace(' ', ', ')})"]
    lines += [".SH EXIT STATUS", ".nf", STATUSES, ".fi"]
    return "\n".join(lines)


def bash_completion() -> str:
    """Returns the completion for bash."""
    cases = []
    for it in COMMANDS:
        words = [option.name + ("=" if option.value and option.name != "-j" else "")
                 for option in OPTIONS if it.name in option.commands.split()]
        cases.append(f"    {it.name}) words='{' '.join(words)}' ;;")
    names = " ".join(it.name for it in COMMANDS)
    return "\n".join(["_lenthuvi_front() {", '  local word=${COMP_WORDS[COMP_CWORD]} words', "  if [ $COMP_CWORD = 1 ]; then",
                      f"    COMPREPLY=($(compgen -W '{names}' -- \"$word\") $(compgen -f -- \"$word\")); return", "  fi",
                      '  case ${COMP_WORDS[1]} in', *cases, "  esac",
                      '  COMPREPLY=($(compgen -W "$words" -- "$word") $(compgen -f -- "$word"))',
                      "}", "complete -o nospace -F _lenthuvi_front lenthuvi"])
