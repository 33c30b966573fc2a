"""Stands between worker_tool and a worker or an executor: passes all bytes on, and notes what goes by.

usage: python3 -I -S watcher.py CONFIG PROGRAM WORD.. --persistent_worker | --serve

The front writes a CONFIG for each worker key, and one for the executor.
"""
from __future__ import annotations

import marshal
import os
import select
import sys
import time

from . import child as children
from . import wire
from .child import Child
from .home import Home
from .lean import blake2b, signal
from .notes import Notes, Turns, spelt_value

TYPE_CHECKING = False
if TYPE_CHECKING:
    from typing import Any

PIECE = 1 << 16
PATIENCE = 10.0  # seconds after which a pending answer is reported as late
LAST_READING = 0.2  # seconds for what a process that has ended still has in its pipes
LAST_SECONDS = 5.0  # seconds for a worker's own end once its input has ended
JUMP = 1.0  # seconds by which a wait may be late; more means that this process was stopped
SHOWN = 60
MOST_TEXT = 4000
OWN_WORDS = 5  # python3 -I -S watcher.py CONFIG
STARTED = os.path.join(os.path.dirname(os.path.realpath(__file__)), "watcher.py")
NOT_STARTED = "lenthuvi: not started, since an action before it failed (--stop)\n"
KILLED_BY_TIMER = 137


def sum_of(texts: tuple[str, ...] | list[str]) -> str:
    """Returns a short digest of some strings. It identifies an action."""
    return blake2b("\0".join(texts).encode("utf-8", "replace"), digest_size=12).hexdigest()


def file_name(name: str) -> str:
    """Returns a file name for an action. Names that aren't plain have a digest, so that no two share a file."""
    plain = "".join(it if it.isalnum() or it in "-.+_" else "_" for it in name)[-80:]
    return plain if plain == name and not plain.startswith(".") else f"{plain.lstrip('.')}-{sum_of([name])[:8]}"


def how_ended(status: int) -> str:
    """Returns how a worker ended, in words."""
    return f"ended with status {status} before it answered" if status >= 0 else f"was ended by signal {-status}"


class Open:
    """A request that waits for its answer, or that waits to be sent."""

    def __init__(self, asked: wire.Asked, name: str, limit: float, raw: bytes) -> None:
        self.number, self.inputs, self.folder = asked.id, asked.inputs, asked.folder
        self.name, self.limit, self.raw = name, limit, raw
        self.since = 0.0
        self.was_told = False


class Watcher:
    """One worker or executor, with its input and its output."""

    def __init__(self, config: dict[str, Any], words: list[str], environment: dict[str, str]) -> None:
        self.config, self.environment = config, environment
        self.form: str = config["form"]
        self.words = words
        self.home: Home | None = None  # the folder in which a kept worker stays
        self.notes = Notes(config["events"])
        self.asked, self.answered = wire.Cutter(self.form), wire.Cutter(self.form)
        self.open: dict[int, Open] = {}
        self.waiting: list[Open] = []
        self.suspects: set[int] = set()  # requests over which a worker died, each of which is repeated alone
        self.to_child = bytearray()
        self.said = bytearray()
        self.poll = select.poll()
        self.child: Child | None = None
        self.turns = Turns(config["turns"]) if config.get("turns") else None
        self.input_ended = self.has_told_text = self.is_over = False
        self.is_full = False  # the worker's input takes no more
        self.deadline = self.last_answer = 0.0
        self.parent = os.getppid()

    # The worker.

    def begin(self) -> None:
        """Starts the worker, or takes one that was kept."""
        self.home = None
        child = self.kept() if self.config["keep"] and self.tools_are_as_before() else None
        was_kept = child is not None and child.answered > 0
        if child is None:
            self.home = None
            child = children.start(self.words_in(os.getcwd()), self.environment)
        self.child = child
        child.answered = 0
        self.answered = wire.Cutter(self.form)
        self.has_told_text = False
        for fd in (child.tap, child.errors, child.watch):
            self.poll.register(fd, select.POLLIN)
        room = self.room()
        self.notes.add("start", pid=child.pid, kind=self.config["kind"], room=room, words=self.words_in(room), kept=was_kept,
                       held=child.keeper is not None)

    def kept(self) -> Child | None:
        """Returns a worker that outlives this process, or None if that isn't possible."""
        from . import keeper

        try:
            wanted = keeper.Wanted(self.words, self.environment, self.form, self.config["tools"], self.config["start"])
            found = keeper.find(self.config["kept"], wanted, self.config["keep"], self.config["most_kept"], self.words_in)
            if found is None:
                return None
            child, home = found
            self.home = Home(home, os.getcwd(), not self.config["in_turn"])
            self.home.begin()
            return child
        except OSError:
            return None

    def words_in(self, room: str) -> list[str]:
        """Returns the arguments that start the worker in a room, isolated if the config requires it."""
        return isolated(self.config["isolate"], self.words, room) if self.config.get("isolate") else self.words

    def room(self) -> str:
        """Returns the folder in which the worker is."""
        return self.home.path if self.home is not None else os.getcwd()

    def tools_are_as_before(self) -> bool:
        """Returns True if no tool has changed since the front looked at those by which a kept worker is found."""
        try:
            for path, *stamp in self.config["stamps"]:
                held = os.stat(path)
                if stamp != [held.st_size, held.st_mtime_ns, held.st_ctime_ns, held.st_ino]:
                    return False
        except OSError:
            return False
        return True

    def tell_keeper(self, is_busy: bool) -> None:
        """Tells the keeper if an answer is pending. A worker that may have loaded a changed tool stays busy, so it isn't kept."""
        if self.child is not None and self.child.keeper is not None:
            if not is_busy and not self.tools_are_as_before():
                return
            try:
                self.child.keeper.sendall(b"b" if is_busy else b"i")
            except OSError:
                pass

    # Requests.

    def take(self, piece: bytes) -> None:
        """Takes bytes from worker_tool: each whole request waits for its turn, and a cancel is passed on."""
        for raw, message in self.asked.feed(piece):
            try:
                asked = wire.asked_of(message, self.form)
            except (ValueError, TypeError, AttributeError, KeyError):
                self.send(raw)  # The worker must decide about a message that can't be read here.
                continue
            if asked.cancel:
                self.cancel(asked.id, raw)
                continue
            name, limit = self.name_of(asked)
            if self.form == "job":
                raw = self.job(message, asked, limit)
            self.waiting.append(Open(asked, name, limit, raw))
            self.pump()

    def cancel(self, number: int, raw: bytes) -> None:
        """Passes a cancel on, or answers it if its request still waits."""
        self.notes.add("cancel", id=number)
        held = next((it for it in self.waiting if it.number == number), None)
        if held is None:
            self.send(raw)
            return
        self.waiting.remove(held)
        self.suspects.discard(number)
        write_all(1, wire.telling(wire.Told(number, cancelled=True), self.form))

    def name_of(self, asked: wire.Asked) -> tuple[str, float]:
        """Returns the name of the action that asks, and its limit."""
        found = self.config["names"].get(sum_of(asked.outputs if self.form == "job" else asked.inputs), ())
        for name, limit, words in found:
            if len(found) == 1 or words is None or words == list(asked.words):
                return name, limit
        return "?", self.config["limit"]

    def job(self, message: bytes, asked: wire.Asked, limit: float) -> bytes:
        """Returns the job for the executor: with the list's own words, and with its standard error in the answer if it runs here."""
        words = list(asked.words)
        if len(words) > OWN_WORDS and words[3] == STARTED:
            words = words[OWN_WORDS:]
        if self.config["local"]:
            program = os.path.join(self.config["start"], words[0])
            words = ["/bin/sh", "-c", self.job_script(limit), "sh", program, *words[1:]]
        return wire.framed(wire.with_words(message, words)) if words != list(asked.words) else wire.framed(message)

    def job_script(self, limit: float) -> str:
        """Returns the shell's command for a job that runs here, with a timer and a sandbox if the config requires them."""
        timer = f"{self.config['timer']} -s KILL {limit:g} " if limit else ""
        bound = self.config.get("isolate")
        box = ""
        if bound:
            box = " ".join([*(quoted(it) for it in bound["words"]), '--bind "$PWD" "$PWD" --remount-ro', quoted(bound["start"]), '--chdir "$PWD" -- '])
        return f'exec {timer}{box}"$@" 2>&1'

    def most_open(self) -> int:
        """Returns the number of requests that may be open at once."""
        in_turn = self.form == "job" and self.config["in_turn"] and self.turns is not None
        return 1 if self.suspects or in_turn else 1 << 30

    def pump(self) -> None:
        """Sends the requests whose turn it is, unless the worker's process is over."""
        while self.waiting and not self.is_over and len(self.open) < self.most_open():
            if self.config["stops"] and os.path.exists(self.config["stop"]):
                held = self.waiting.pop(0)
                self.notes.add("held", n=held.name)
                write_all(1, wire.telling(wire.Told(held.number, 1, NOT_STARTED), self.form))
                continue
            if self.turns is not None and not self.turns.take(min(len(self.waiting), self.most_open() - len(self.open))):
                return
            now = self.waiting.pop(0)
            now.since = time.monotonic()
            self.open[now.number] = now
            if self.child is None:
                self.begin()
            self.notes.add_of("sent", now.name, now.number)
            if self.home is not None and not self.bring(now):
                self.give_turns(1)
                continue
            self.send(now.raw)

    def bring(self, now: Open) -> bool:
        """Brings a request's inputs to the folder of a kept worker. If that fails, the request has failed."""
        try:
            assert self.home is not None
            self.home.bring(now.folder, now.inputs, self.config["outputs"].get(now.name, []))
            return True
        except OSError as error:
            self.fail(now, f"its inputs can't be brought to a kept worker: {error}; without --keep it needs no copy\n")
            return False

    def fail(self, it: Open, text: str) -> None:
        """Answers a request instead of the worker: it has failed."""
        self.open.pop(it.number, None)
        self.stop_all()
        self.notes.add_of("answer", it.name, it.number, f', "exit": 1, "text": {spelt_value(text)}')
        write_all(1, wire.telling(wire.Told(it.number, 1, text), self.form))

    def give_turns(self, number: int) -> None:
        """Gives back the turns of requests that are open no more."""
        if self.turns is not None:
            self.turns.give(number)

    def send(self, raw: bytes) -> None:
        """Gives bytes to the worker, which is started if there is none."""
        if self.child is None:
            self.begin()
        self.tell_keeper(True)
        self.to_child += raw
        self.push()

    def push(self) -> None:
        """Writes what the worker takes. If it takes no more, the rest waits until its input is ready."""
        assert self.child is not None
        try:
            while self.to_child:
                del self.to_child[: os.write(self.child.feed, self.to_child[:PIECE])]
        except BlockingIOError:
            self.poll.register(self.child.feed, select.POLLOUT)
            self.is_full = True
            return
        except BrokenPipeError:
            self.to_child.clear()
        if self.is_full:
            self.forget(self.child.feed)
            self.is_full = False
        if self.input_ended:
            self.end_input()

    def forget(self, fd: int) -> None:
        """Stops waiting for a file."""
        try:
            self.poll.unregister(fd)
        except (KeyError, ValueError):
            pass

    def end_input(self) -> None:
        """Ends the worker's input, and gives it some seconds for its own end, or none if worker_tool itself is gone."""
        self.input_ended = True
        if self.child is None or self.child.keeper is not None:
            os._exit(0)
        if not self.to_child and self.child.feed >= 0:
            os.close(self.child.feed)
            self.child.feed = -1
        is_alone = os.getppid() != self.parent
        self.deadline = time.monotonic() + (0.0 if is_alone else LAST_SECONDS)

    # Answers.

    def hear(self, piece: bytes) -> None:
        """Takes bytes from the worker: each whole answer is noted, and everything is passed on."""
        try:
            frames = self.answered.feed(piece)
        except wire.NoMessage:
            frames = []
            self.tell_text(bytes(self.answered.held))
        for raw, message in frames:
            try:
                self.answer(wire.told_of(message, self.form))
            except (ValueError, TypeError, AttributeError):
                self.tell_text(raw)
        if not self.open and not self.answered.held:
            self.tell_keeper(False)
        if self.answered.held and looks_wrong(self.answered, self.form):
            self.tell_text(bytes(self.answered.held))
        write_all(1, piece)
        self.pump()

    def answer(self, told: wire.Told) -> None:
        """Notes an answer. If it is a failure, its room is kept before the worker gets another request."""
        done = self.open.pop(told.id, None)
        if done is None:
            self.notes.add("stray", id=told.id, n=self.owing())
            return
        assert self.child is not None
        self.child.answered += 1
        if self.home is not None and told.exit == 0 and not told.cancelled:
            self.take_back(done)
        self.suspects.discard(told.id)
        begun = max(done.since, self.last_answer) if self.config["in_turn"] else done.since
        self.last_answer = time.monotonic()
        if (told.refusal or told.exit == KILLED_BY_TIMER) and self.config["local"] and done.limit and time.monotonic() - begun >= done.limit:
            self.notes.add("limit", n=done.name, s=done.limit, held="''")
        bad = (told.exit != 0 or bool(told.refusal)) and not told.cancelled
        more = {"text": told.text[:MOST_TEXT] if bad else "", "refusal": told.refusal, "cancelled": told.cancelled}
        rest = "".join(f', "{key}": {spelt_value(it)}' for key, it in more.items() if it)
        self.notes.add_of("answer", done.name, told.id, f', "exit": {told.exit}{rest}')
        self.give_turns(1)
        if bad:
            self.stop_all()
            self.keep_room(done)

    def take_back(self, done: Open) -> None:
        """Moves a kept worker's outputs into the room of this process."""
        try:
            assert self.home is not None
            self.home.take_back(done.folder, done.inputs, self.config["outputs"].get(done.name))
        except OSError as error:
            write_all(2, f"{done.name}: its outputs can't be taken from a kept worker: {error}\n".encode())

    def stop_all(self) -> None:
        """Makes the file that tells all watchers to start nothing more."""
        if self.config["stops"]:
            try:
                os.close(os.open(self.config["stop"], os.O_WRONLY | os.O_CREAT, 0o666))
            except OSError:
                pass

    def keep_room(self, done: Open) -> None:
        """Keeps the request of an attempt that failed, and a copy of its room if the config requires it."""
        if self.form == "job":
            return
        base = os.path.join(self.config["logs"], file_name(done.name))
        try:
            with open(base + ".request", "wb") as file:
                file.write(done.raw)
        except OSError:
            pass
        if self.config["rooms"]:
            import shutil

            place = free_name(os.path.join(self.config["rooms"], os.path.basename(base)))
            trouble = ""
            try:
                shutil.copytree(os.path.join(self.room(), done.folder), place, symlinks=True)
            except (OSError, shutil.Error) as error:
                trouble = str(error)[:200]
            self.notes.add("room", n=done.name, at=place, trouble=trouble)

    def tell_text(self, text: bytes) -> None:
        """Notes bytes on standard output that are no answer, once for each process."""
        if not self.has_told_text and text:
            self.has_told_text = True
            self.notes.add("text", text=repr(for_people(text[:SHOWN]))[1:], n=self.owing())

    def owing(self) -> str:
        """Returns the action that has waited longest for its answer, or an empty string."""
        return next(iter(self.open.values())).name if self.open else ""

    # Standard error, time, and the end.

    def errors(self, piece: bytes) -> None:
        """Passes lines of standard error on, each preceded by the action or the worker that it belongs to."""
        self.said += piece
        end = self.said.rfind(b"\n") + 1
        if end == 0 and len(self.said) < PIECE:
            return
        lines, self.said = self.said[: end or None], self.said[end:] if end else bytearray()
        one = len(self.open) == 1 or (self.open and self.config["in_turn"])
        name = self.owing() if one else f"{self.config['kind']}, worker {self.child.pid if self.child else 0}"
        write_all(2, b"".join(f"{name}: ".encode() + it.rstrip(b"\n") + b"\n" for it in lines.splitlines()))

    def judged(self) -> list[Open]:
        """Returns the open requests whose time counts: all, or the first if they are done one after the other."""
        if self.form == "job" and self.config["local"]:
            return []
        return list(self.open.values())[: 1 if self.config["in_turn"] else None]

    def begun(self, it: Open) -> float:
        """Returns the time at which a request began. An executor may do its jobs in turn, so there it is after the last answer."""
        return max(it.since, self.last_answer) if self.form == "job" else it.since

    def next_check(self) -> float:
        """Returns the time at which something must be checked, or 0 for never."""
        ends = [self.deadline] if self.deadline else []
        for it in self.judged():
            begun = self.begun(it)
            ends += [begun + it.limit] if it.limit else []
            ends += [] if it.was_told else [begun + PATIENCE]
        return min(ends, default=0.0)

    def guard(self) -> None:
        """Kills the worker if an answer is overdue, and reports an answer that is late."""
        now = time.monotonic()
        if self.deadline and now >= self.deadline and self.child is not None:
            self.child.kill()
        for it in self.judged():
            passed = now - self.begun(it)
            if it.limit and passed >= it.limit and self.child is not None:
                held = bytes(self.answered.held)
                self.tell_text(held)
                self.notes.add("limit", n=it.name, s=it.limit, held=repr(held[:SHOWN])[1:])
                it.limit = 0.0
                self.child.kill()
                return
            if passed >= PATIENCE and not it.was_told:
                it.was_told = True
                self.notes.add("late", n=it.name, s=PATIENCE, held=repr(bytes(self.answered.held[:SHOWN]))[1:])

    def ended(self) -> None:
        """Handles the end of the worker's process: reads its last bytes and kills its group. Ends as it did, or starts a new one."""
        child = self.child
        assert child is not None
        status = children.status_of(child.pid) if child.keeper is None else end_of_kept(child)
        self.is_over = True
        self.read_rest(child)
        child.kill()
        unread = child.unread() + len(self.to_child)
        cost_nothing = child.answered > 0 and unread == sum(len(it.raw) for it in self.open.values())
        may_go_on = not self.input_ended and self.form != "job"
        if may_go_on and cost_nothing:
            self.renew(child, status)
        elif may_go_on and self.config.get("alone") and (len(self.open) > 1 or self.suspects):
            self.part(child, status)
        else:
            self.notes.add("end", status=status, owed=[it.name for it in self.open.values()])
            for it in self.open.values():
                self.keep_room(it)
            if self.open:
                self.stop_all()
            end_as(status)

    def renew(self, child: Child, status: int) -> None:
        """Continues with a new process after one that ended by itself without reading any open request."""
        self.notes.add("end", status=status, owed=[])
        self.leave(child)
        self.give_turns(len(self.open))
        self.waiting[:0] = self.open.values()
        self.open.clear()
        self.pump()

    def part(self, child: Child, status: int) -> None:
        """Repeats separately each request over which a worker died. If the worker dies again, only that request has failed."""
        owed = list(self.open.values())
        self.notes.add("end", status=status, owed=[it.name for it in owed])
        self.leave(child)
        self.give_turns(len(owed))
        self.open.clear()
        for it in owed:
            self.remove_outputs(it)
            if it.number in self.suspects:
                self.suspects.discard(it.number)
                self.keep_room(it)
                self.fail(it, f"its worker {how_ended(status)}, also when it had this request alone\n")
            else:
                self.suspects.add(it.number)
                self.waiting.insert(len(self.suspects) - 1, it)
        self.pump()

    def remove_outputs(self, it: Open) -> None:
        """Removes what a worker that died may have written half, so that it isn't taken for what the next one makes."""
        room = os.path.realpath(os.path.join(self.room(), it.folder))
        for path in self.config["outputs"].get(it.name, ()):
            found = os.path.join(room, path)
            if os.path.realpath(os.path.dirname(found)) + "/" == os.path.dirname(found) + "/":
                try:
                    os.unlink(found)
                except OSError:
                    pass

    def leave(self, child: Child) -> None:
        """Lets go of a process that has ended."""
        for fd in (child.tap, child.errors, child.watch, child.feed):
            self.forget(fd)
        child.close()
        self.child, self.is_over, self.is_full = None, False, False
        self.to_child.clear()

    def read_rest(self, child: Child) -> None:
        """Reads the rest in the pipes of a process that has ended, even if another process holds them open."""
        until = time.monotonic() + LAST_READING
        for fd, take in ((child.tap, self.hear), (child.errors, self.errors)):
            while children.waiting(fd) and time.monotonic() < until:
                take(os.read(fd, PIECE))
        if self.said:
            self.errors(b"\n")
        self.tell_text(bytes(self.answered.held))

    def closed(self, fd: int) -> None:
        """Handles the end of one of the worker's pipes, after which the worker may live on."""
        self.forget(fd)
        assert self.child is not None
        if fd == self.child.tap and not select.select([self.child.watch], [], [], LAST_READING)[0]:
            self.tell_text(bytes(self.answered.held))
            self.notes.add("closed", n=self.owing())
            os.close(1)

    def follow(self) -> None:
        """Passes everything on until an end."""
        self.poll.register(0, select.POLLIN)
        if self.turns is not None and self.turns.has_front:
            self.poll.register(self.turns.line, select.POLLIN)
        while True:
            end, before = self.next_check(), time.monotonic()
            wait = max(0.0, end - before) if end else None
            found = self.poll.poll(None if wait is None else 1000 * wait + 1)
            now = time.monotonic()
            if wait is not None and now - before - wait > JUMP:
                self.shift(now - before - wait)
            for fd, _ in sorted(found, key=self.turn) if len(found) > 1 else found:
                self.react(fd)
            if end and now >= end:
                self.guard()

    def shift(self, late: float) -> None:
        """Doesn't count the time for which this process and its worker were stopped, as by Ctrl-Z."""
        self.last_answer += late if self.last_answer else 0.0
        self.deadline += late if self.deadline else 0.0
        for it in self.open.values():
            it.since += late

    def turn(self, ready: tuple[int, int]) -> int:
        """Returns which file comes first: a worker's standard error belongs to the request that it answers next, and its end is last."""
        child = self.child
        return 1 if child is None else {child.errors: 0, child.watch: 2}.get(ready[0], 1)

    def react(self, fd: int) -> None:
        """Handles a file that is ready."""
        child = self.child
        if fd == 0:
            piece = os.read(0, PIECE)
            if piece:
                self.take(piece)
            else:
                self.poll.unregister(0)
                self.end_input()
        elif self.turns is not None and fd == self.turns.line.fileno():
            self.turns.hear(min(len(self.waiting), self.most_open() - len(self.open)))
            if not self.turns.has_front:
                self.forget(fd)
            self.pump()
        elif child is None:
            self.forget(fd)
        elif fd == child.watch:
            self.ended()
        elif fd == child.feed:
            self.push()
        elif fd in (child.tap, child.errors):
            self.read(fd, child)

    def read(self, fd: int, child: Child) -> None:
        """Reads from the worker."""
        piece = os.read(fd, PIECE)
        if not piece:
            self.closed(fd)
        elif fd == child.tap:
            self.hear(piece)
        else:
            self.errors(piece)


def isolated(bound: dict[str, Any], words: list[str], room: str) -> list[str]:
    """Returns the words that start a program in a sandbox of bwrap, in which its room is all that it can write."""
    return [*bound["words"], "--bind", room, room, "--remount-ro", bound["start"], "--chdir", room, "--", *words]


def quoted(word: str) -> str:
    """Returns a word as a shell takes it. `shlex` would load `re`."""
    return "'" + word.replace("'", "'\\''") + "'"


def free_name(path: str) -> str:
    """Returns the path with the first number at which nothing exists."""
    number = 1
    while os.path.lexists(f"{path}.{number}"):
        number += 1
    return f"{path}.{number}"


def looks_wrong(cutter: wire.Cutter, form: str) -> bool:
    """Returns True if what was read and is no whole answer is unlikely to become one."""
    front = bytes(cutter.held[:4])
    if form == "json":
        return front[:1] not in (b"", b"{", b" ", b"\t", b"\r")
    return len(front) == 4 and front.isascii() and front.decode().replace("\n", "").isprintable()


def for_people(text: bytes) -> bytes:
    """Returns the lines for people at the start of some bytes, or all bytes if there are no such lines."""
    end = 0
    for line in text.splitlines(keepends=True):
        if not (line.endswith(b"\n") and line.isascii() and line[:-1].decode().isprintable()):
            break
        end += len(line)
    return text[:end] or text


def write_all(sink: int, piece: bytes) -> None:
    """Writes all bytes. If the other side is gone, they are dropped."""
    try:
        while piece:
            piece = piece[os.write(sink, piece) :]
    except OSError:
        pass


def end_of_kept(child: Child) -> int:
    """Returns how a kept worker ended."""
    from . import keeper

    return keeper.end_of(child.keeper) if child.keeper is not None else 0


def end_as(status: int) -> None:
    """Ends this process as the worker ended."""
    if status < 0:
        if -status not in (signal.SIGKILL, signal.SIGSTOP):
            signal.signal(-status, signal.SIG_DFL)
        os.kill(os.getpid(), -status)
    os._exit(status if status >= 0 else 128 - status)


def own_environment() -> dict[str, str]:
    """Returns the environment that this process was given, without what Python has added."""
    with open("/proc/self/environ", "rb") as file:
        pairs = (it.partition(b"=") for it in file.read().split(b"\0") if it)
        return {os.fsdecode(name): os.fsdecode(value) for name, _, value in pairs}


def main(words: list[str]) -> int:
    """Watches the worker that the words name. Without --persistent_worker or --serve they are run once, unwatched."""
    if len(words) < 2:
        print(__doc__, file=sys.stderr)
        return 2
    config, *command = words
    if "--persistent_worker" not in command and "--serve" not in command:
        os.execve(command[0], command, own_environment())
    signal.signal(signal.SIGINT, signal.SIG_IGN)
    try:
        with open(config, "rb") as file:
            held = marshal.loads(file.read())
        watcher = Watcher(held, command, own_environment())
    except (OSError, ValueError, EOFError, TypeError) as error:
        print(f"lenthuvi: a watcher can't begin: {error}", file=sys.stderr)
        return 1
    if not (held["stops"] and os.path.exists(held["stop"])):
        watcher.begin()
    watcher.follow()
    return 0
