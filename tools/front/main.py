"""The commands, and the handling of their errors."""
from __future__ import annotations

import errno
import fcntl
import glob
import json
import os
import shutil
import stat
import sys
import time

from . import options, programs
from .annotations import annotations_of, are_wanted
from .build import Build, Busy
from .causes import causes_of
from .events import Sink
from .faults import Unreadable, actions_of, program_trouble, read_list
from .follow import Interrupt
from .list_faults import list_faults
from .listing import STATE, WrongList, is_imported, load, state_folder
from .options import Unwanted, Words
from .programs import Missing
from .report import Reported
from .settled import settle, settled, unsettle
from .voice import Voice, counted, joined, of_list, plural, quoted, short

MOST_SHOWN = 20
CANT_START = (126, 127)  # a shell's status for a program that it can't start
WRONG_WORDS, WRONG_LIST, MISSING, UNWRITTEN, INTERRUPTED = 2, 4, 5, 6, 130
OUTPUTS = ("--json", "--report", "--journal", "--trace", "--page")


def list_path(words: Words, place: int = 0) -> str:
    """Returns the list that the words name."""
    return words.rest[place] if len(words.rest) > place else "list.json"


def lock() -> int:
    """Locks the folder for this run. Returns the file that holds the lock."""
    os.makedirs(STATE, exist_ok=True)
    owner = os.stat(STATE).st_uid
    if owner != os.geteuid():
        raise Busy(f"{STATE} belongs to user {owner}, and you are {os.geteuid()}; remove it, or build in a folder of your own")
    fd = os.open(os.path.join(STATE, "lock"), os.O_RDWR | os.O_CREAT | os.O_CLOEXEC, 0o666)
    try:
        fcntl.flock(fd, fcntl.LOCK_EX | fcntl.LOCK_NB)
    except BlockingIOError:
        holder = os.read(fd, 20).decode("ascii", "replace").strip() or "?"
        raise Busy(f"a run is at work in this folder (process {holder})") from None
    os.ftruncate(fd, 0)
    os.pwrite(fd, f"{os.getpid()}\n".encode(), 0)
    return fd


def look_at_rooms() -> None:
    """Raises Busy if the rooms can't be written, for example because another user made them. The program would not name this cause."""
    lock_path = os.path.join(".worker_rooms", "lock")
    for path in (".", ".worker_rooms", lock_path):
        if not os.path.exists(path) or os.access(path, os.W_OK):
            continue
        owner = os.stat(path).st_uid
        # If the user's own lock can't be written, the program makes it writable.
        if path != lock_path or owner != os.geteuid():
            raise Busy(f"{path} can't be written here (its owner is user {owner}, you are {os.geteuid()})")


def build(words: Words) -> int:
    """Builds a list, or prints what would be built."""
    path = list_path(words)
    voice = Voice(words.last("--color", "auto"), words.has("-q"))
    number, mnemonics = settled(path, words) if words.command != "run" and not any(words.has(it) for it in OUTPUTS) else (0, set())
    if number:
        check_names(words, mnemonics)
        if not voice.is_quiet:
            voice.line(f"nothing to do, {number:,} up to date; {voice.seconds():.1f} s")
        return 0
    listing = load(path)
    check_names(words, listing.mnemonics())
    look_at_rooms()
    held = lock()
    try:
        os.makedirs(listing.state, exist_ok=True)
        made = Build(listing, words, voice)
        if made.recovered:
            is_one = "is" if made.recovered == 1 else "are"
            voice.line(f"lenthuvi: {plural(made.recovered, 'action')} of a run that was ended early {is_one} kept")
        return dry(made) if words.has("-n") else run(made, words, voice)
    finally:
        os.close(held)


def check_names(words: Words, mnemonics: set[str]) -> None:
    """Refuses mnemonics that no action has."""
    programs.limits_of(words, mnemonics)
    programs.strategies_of(words, mnemonics)


def dry(made: Build) -> int:
    """Prints what would run, and why."""
    found = made.sort_out(False)
    for name, why in found.now.items():
        print(f"{name}: {why}")
    waiting = f"; {plural(len(found.waiting), 'action')} wait for what they make" if found.waiting else ""
    print(f"{plural(len(found.now), 'action')} would run{waiting}; {len(made.actions) - len(found.now) - len(found.waiting)} up to date")
    made.files.save()
    return 0


def run(made: Build, words: Words, voice: Voice) -> int:
    """Runs a build and prints its result."""
    interrupt = Interrupt()
    sink = Sink(words.last("--json"), made.events_path)
    try:
        for name in ("--report", "--journal"):
            if words.has(name) and os.path.lexists(words.last(name)):
                os.remove(words.last(name))
        sink.put({"t": time.time(), "e": "run", "list": made.listing.path, "actions": len(made.actions)})
        unsettle(made.listing.path)
        status = made.run(interrupt, sink)
        voice.erase()
        counts = summary(made, voice, status)
        sink.keep([{"t": time.time(), "e": "done", "status": status, "seconds": round(voice.seconds(), 3), **counts}])
        if status == 0 and counts["ok"] + counts["up_to_date"] == len(made.actions) and made.knows_all():
            settle(made.listing, words, made.actions, made.files, voice.seconds())
        status = write_views(made, words, sink.trouble, voice) or status
    finally:
        voice.erase()
        interrupt.restore()
        sink.close()
    # A signal that arrives after everything is made doesn't end the build, but it ends the watching.
    return INTERRUPTED if interrupt.number and words.command == "watch" else status


def write_views(made: Build, words: Words, trouble: str, voice: Voice) -> int:
    """Writes the page and the trace that are asked for. Returns the status if one can't be written."""
    try:
        if words.has("--page"):
            from .page import write_page

            write_page(made.listing, words.last("--page"))
        if words.has("--trace"):
            from .trace import write_trace

            write_trace(made.listing, words.last("--trace"))
    except OSError as error:
        trouble = f"{error.filename}: {error.strerror}"
    except Unreadable as error:
        voice.line(f"lenthuvi: {error}")
    if trouble:
        voice.line(f"lenthuvi: can't be written: {trouble}")
    return UNWRITTEN if trouble else 0


def summary(made: Build, voice: Voice, status: int) -> dict[str, int]:
    """Prints the failures and then the totals. Returns the totals."""
    bad = [it for it in made.results.values() if it.outcome in ("failed", "broken")]
    for it in bad[:MOST_SHOWN]:
        tell_failure(made, voice, it)
    if len(bad) > MOST_SHOWN:
        voice.line(f".. and {plural(len(bad) - MOST_SHOWN, 'more failure')}")
    if are_wanted(made.words):
        for it in bad:
            print("\n".join(annotations_of(it.name, lines_of(made, it))), flush=True)
    counts = counts_of(made, bad, status)
    parts = [f"{plural(counts['ok'], 'action')} made"] if counts["ok"] or bad or status else ["nothing to do"]
    for key, text in (("failed", "failed"), ("broken", "broken"), ("skipped", "skipped"), ("not_reached", "not reached"),
                      ("up_to_date", "up to date")):
        parts += [f"{counts[key]:,} {text}"] if counts[key] else []
    text = f"{joined(parts)}; {voice.seconds():.1f} s" + (f", {plural(len(made.pids), 'worker')}" if made.pids else "")
    if status == 130:
        text = "interrupted: " + text
    if bad or status or not voice.is_quiet:
        voice.line(voice.paint(text, "red" if bad or status else "green"))
    if bad:
        where = of_list(made.words.shown or made.listing.path)
        look = "" if made.words.has("--plain") else f"        lenthuvi page{where}"
        voice.line(f"lenthuvi explain {quoted([bad[0].name])}{where}{look}")
    return counts


def counts_of(made: Build, bad: list[Reported], status: int) -> dict[str, int]:
    """Counts the results of the actions, each once."""
    counts = {"ok": sum(it.outcome == "ok" for it in made.results.values()) + made.early,
              "failed": sum(it.outcome == "failed" for it in bad), "broken": sum(it.outcome == "broken" for it in bad)}
    left = [it for it in made.actions if it.name not in made.results]
    behind = made.sort_out(True) if bad or status else None
    counts["skipped"] = len(behind.blocked) if behind else 0
    counts["not_reached"] = len(behind.now) if behind and status else 0
    counts["up_to_date"] = len(left) - made.early - counts["skipped"] - counts["not_reached"]
    return counts


def lines_of(made: Build, it: Reported) -> list[str]:
    """Returns the lines that are printed below a failure: the answer's text, or the causes if there was no answer."""
    program = made.by_name[it.name].argv[0]
    trouble = program_trouble(program) if it.branch() == "remote" and it.exit() in CANT_START else None
    return [*(short(it.text) or causes_of(made, it)), *([trouble] if trouble else [])]


def tell_failure(made: Build, voice: Voice, it: Reported) -> None:
    """Prints one failure."""
    detail = f"exit {it.exit()}" if it.outcome == "failed" else joined(
        [f"{name}={fate}" for name, fate in (("local", it.local), ("remote", it.remote)) if fate not in ("unused", "idle")])
    late = ", ended by --limit" if it.name in made.slow else ""
    mnemonic = made.by_name[it.name].mnemonic
    voice.line(voice.paint(f"FAILED {it.name}", "red") + f"  {detail}{late} ({mnemonic})")
    for line in lines_of(made, it):
        voice.line(f"  | {line}")


def check(words: Words) -> int:
    """Prints everything that can be seen wrong with a list."""
    path = list_path(words)
    if is_imported(path):
        return check_imported(path)
    try:
        if path == "-":
            data = sys.stdin.buffer.read()
            objects = actions_of(data, "standard input")
        else:
            objects = read_list(path)
            with open(path, "rb") as file:
                data = file.read()
    except Unreadable as error:
        print(error)
        return WRONG_LIST
    faults = list_faults(data.decode(), objects, path)
    print("\n".join(faults) or f"{plural(len(objects), 'action')}, no problems found")
    return WRONG_LIST if faults else 0


def check_imported(path: str) -> int:
    """Prints what can be seen wrong with a folder that was imported. What runs in place isn't bound by a list's limits."""
    listing = load(path)
    objects = [it.object for it in listing.actions]
    texts = list_faults(json.dumps({"actions": objects}), objects, path)
    places = tuple(f"actions[{number}] " for number, it in enumerate(listing.actions) if it.in_place)
    faults = [it for it in texts if not it.startswith(places)]
    print("\n".join(faults) or f"{plural(len(objects), 'step')}, {counted(len(places))} of them in place, no problems found")
    return WRONG_LIST if faults else 0


def watch(words: Words) -> int:
    """Builds, and again after each change of a file that no action makes."""
    from .digests import stamp_of

    while True:
        # This comes before the build, so that a change during the build isn't lost.
        before = {path: stamp_of(path) for path in watched_paths(list_path(words))}
        try:
            status = build(words)
        except (WrongList, Unreadable, Missing) as error:
            print(f"{error}\nlenthuvi: waiting for a change", file=sys.stderr)
            status = WRONG_LIST
        if status == 130:
            return status
        try:
            while all(stamp_of(path) == stamp for path, stamp in before.items()):
                time.sleep(0.3)
        except KeyboardInterrupt:
            return status


def watched_paths(path: str) -> set[str]:
    """Returns the list and the files that its actions read and none makes."""
    if path == "-":
        raise Unwanted("-: a list from standard input can't be watched; give it as a file")
    try:
        listing = load(path)
    except (WrongList, Unreadable):
        return {path}
    made = listing.makers()
    more = listing.origin.extra_paths() if listing.origin is not None else []
    return {it for action in listing.actions for it in action.reads() if it not in made} | {path, *more}


def clean(words: Words) -> int:
    """Removes rooms, logs and the memory of successes."""
    held = lock()
    try:
        folders = [state_folder(list_path(words))] if words.rest else [os.path.join(STATE, "lists"), os.path.join(STATE, "rooms"),
                                                                          *glob.glob(os.path.join(STATE, "kept-*"))]
        for folder in (*folders, ".worker_rooms"):
            if os.path.islink(folder):
                print(f"{folder} is a link, so it is left")
            elif os.path.isdir(folder):
                remove_tree(folder)
                print(f"removed {folder}")
    finally:
        os.close(held)
    return 0


def remove_tree(folder: str) -> None:
    """Removes a folder, also if a worker has left folders in it that can't be written."""
    for place, folders, _ in os.walk(folder):
        for name in folders:
            path = os.path.join(place, name)
            if not os.path.islink(path) and not os.access(path, os.R_OK | os.W_OK | os.X_OK):
                os.chmod(path, stat.S_IRWXU)
    shutil.rmtree(folder)


def help_(words: Words) -> int:
    """Prints the help, for people, man or the shell."""
    if words.has("--man"):
        print(options.man_page())
    elif words.has("--bash"):
        print(options.bash_completion())
    else:
        print(options.help_page(words.rest[0] if words.rest else ""))
    return 0


def version() -> int:
    """Prints the version, which programs are there, and whether each is proved."""
    from program_state import release_version

    print(f"lenthuvi {release_version()}, with the programs in {programs.bin_folder()}")
    for name in ("worker_tool", "shared_tool", "spawn_tool", "run_tool", "journal_run"):
        print(f"  {name}: {programs.identity(name)}")
    return 0


def do(words: Words) -> int:
    """Runs the command that the arguments name."""
    if words.command in ("build", "run", "watch", "check", "explain", "page", "graph", "clean"):
        from .ninja.folders import enter

        enter(words, 1 if words.command == "explain" else 0)
    if words.command in ("build", "run"):
        return build(words)
    own = {"check": check, "watch": watch, "clean": clean, "help": help_}
    if words.command in own:
        return own[words.command](words)
    from . import begin, explain, page

    more = {"explain": explain.explain, "page": page.page, "graph": explain.graph, "init": begin.init, "doctor": begin.doctor,
            "workers": begin.workers}
    if words.command == "import":
        from .ninja.importing import import_

        return import_(words)
    return more[words.command](words)


def main(given: list[str]) -> int:
    """Runs the command of a command line. Returns the status."""
    try:
        if given == ["--version"]:
            return version()
        return do(options.parse(given))
    except Unwanted as error:
        return told(f"{error}", WRONG_WORDS)
    except WrongList as error:
        return told("\n".join([*error.faults, "lenthuvi: nothing was run"]), WRONG_LIST, "")
    except Unreadable as error:
        return told(f"{error}{command_hint(given)}", WRONG_LIST)
    except (Busy, Missing) as error:
        return told(f"{error}; nothing was run", MISSING)
    except BrokenPipeError:
        os.dup2(os.open(os.devnull, os.O_WRONLY), 1)
        return 1
    except OSError as error:
        return told(system_trouble(error), UNWRITTEN if error.errno in (errno.ENOSPC, errno.EDQUOT, errno.EFBIG) else MISSING)
    except KeyboardInterrupt:
        return told("interrupted", 130)


def told(text: str, status: int, front: str = "lenthuvi: ") -> int:
    """Prints an error. Returns its status."""
    try:
        print(front + text, file=sys.stderr)
    except OSError:
        pass
    return status


def command_hint(given: list[str]) -> str:
    """Returns a hint at a command that was meant, if what was taken for the list's path may be one."""
    names = [it.name for it in options.COMMANDS]
    late = next((it for it in given[1:] if it in names and not os.path.exists(it)), None)
    if late is not None and given[0].startswith("-"):
        return f"; a command comes first, as in lenthuvi {late} {given[0]}"
    first = given[0] if given and not given[0].startswith("-") else ""
    if not first or first in names or os.path.exists(first) or "/" in first:
        return ""
    return options.did_you_mean(first, names) or "; it is no command either: lenthuvi help"


def system_trouble(error: OSError) -> str:
    """Returns what the system refused, and for which file."""
    where = f"{error.filename}: " if error.filename else ""
    cure = {errno.ENOSPC: "make room (df .)", errno.EDQUOT: "your quota is used up"}.get(error.errno or 0, "lenthuvi doctor looks for the cause")
    return f"{where}{error.strerror or error}; {cure}"
