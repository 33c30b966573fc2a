"""The rules of the scheduling core, implemented again from docs/CORE.md: the reply to each call of a lane.

This uses no code of the programs. A plan and an entry are the values of the lines of docs/FORMATS.md. A `History` keeps the
state that docs/CORE.md defines by the entries so far.
"""
from __future__ import annotations

import dataclasses
from typing import Any

Plan = list[Any]
Entry = list[Any]
Call = list[Any]
Reply = list[Any]

# The replies of entries that join no journal.
NOT_KEPT = ("Idle", "File", "NoFile", "NoMemory", "Astray")

WHY = {"breach": "Breach", "feed": "Feed"}


@dataclasses.dataclass(frozen=True)
class Attempt:
    """An attempt at a branch."""

    action: int
    branch: str
    number: int


@dataclasses.dataclass
class Request:
    """An attempt that was sent."""

    line: int
    number: int
    attempt: Attempt
    cancelled: bool = False


@dataclasses.dataclass
class Line:
    """A process that was ordered."""

    lane: int
    attempt: Attempt
    started: bool = False
    failed: bool = False
    killed: bool = False
    ended: bool = False
    taken: bool = False
    spoken: bool = False
    greeted: bool = False
    broke: str | None = None
    sends: list[Request] = dataclasses.field(default_factory=list)

    @property
    def runs(self) -> bool:
        return self.started and not self.killed

    @property
    def live(self) -> bool:
        return self.runs and self.broke is None


def attempt_in(parts: list[Any]) -> Attempt:
    """An attempt of an action, a branch and a number."""
    return Attempt(parts[0], parts[1][0], parts[2])


class History:
    """A plan, and the state after the entries so far."""

    def __init__(self, plan: Plan) -> None:
        self.actions, self.groups, self.limit = plan
        self.seats = [group for group, (_, _, berths) in enumerate(self.groups) for _ in range(berths)]
        self.lines: list[Line] = []
        self.newest: dict[int, Entry] = {}
        self.latest: dict[tuple[int, str], int] = {}
        self.on_line: dict[Attempt, int] = {}
        self.matches: list[tuple[int, Attempt, int, list[Any]]] = []
        self.wrote: dict[Attempt, str] = {}
        self.grants: dict[int, tuple[Attempt, list[Any]]] = {}
        self.commits: dict[int, str] = {}
        self.sent: set[Attempt] = set()
        self.answered: set[Attempt] = set()
        self.gathered: set[Attempt] = set()
        self.faulty: set[Attempt] = set()
        self.ended: set[Attempt] = set()
        self.stopped: set[int] = set()
        self.halted: set[int] = set()

    # ---- what an entry changes

    def add(self, entry: Entry) -> None:
        """Adds an entry that follows the rules."""
        lane, call, reply = entry
        before = self.newest.get(lane)
        self.note_call(lane, call, reply, before)
        self.note_reply(lane, call, reply)
        if call[0] not in ("Look", "Halt"):
            self.newest[lane] = entry
        for attempt in self.on_line:
            if attempt not in self.ended and attempt.action not in self.grants and self.is_over_for(attempt):
                self.ended.add(attempt)

    def note_call(self, lane: int, call: Call, reply: Reply, before: Entry | None) -> None:
        kind = call[0]
        if kind == "Launched":
            self.note_launched(self.lines[call[1]], call[2][0])
        elif kind == "Wrote" and before is not None:
            self.note_wrote(self.lines[call[1]], call[3][0], self.request_in(before[2]))
        elif kind == "Claim":
            self.note_claim(attempt_in(call[1:4]), call[4], reply[0])
        elif kind == "Committed":
            self.commits.setdefault(call[1], call[3][0])
        elif kind == "Killed":
            self.lines[call[1]].killed = True
        elif kind == "Answer":
            self.note_answer(lane, call, reply)
        elif kind == "Ended":
            self.note_ended(self.lines[call[1]], call[2][0])
        elif kind == "Halt":
            self.halted.add(lane)

    def note_launched(self, line: Line, how: str) -> None:
        line.started, line.failed = how == "Done", how != "Done"
        if line.failed:
            self.faulty.add(line.attempt)

    def note_wrote(self, line: Line, how: str, request: Request | None) -> None:
        if how == "FeedFault":
            line.broke = line.broke or "feed"
        if request is None:
            return
        self.wrote.setdefault(request.attempt, how)
        if how in ("RoomFault", "TooLarge"):
            self.faulty.add(request.attempt)
            if request.attempt in self.answered:
                line.broke = line.broke or "breach"

    def note_claim(self, attempt: Attempt, found: list[Any], told: str) -> None:
        if told == "Granted":
            self.grants.setdefault(attempt.action, (attempt, found))
        elif told in ("AgainLater", "Dropped"):
            self.faulty.add(attempt)

    def note_answer(self, lane: int, call: Call, reply: Reply) -> None:
        line = self.lines[call[1]]
        line.spoken = True
        if reply[0] == "Greeted":
            line.greeted = True
        elif reply[0] == "Breach":
            line.broke = line.broke or "breach"
        elif reply[0] in ("Matched", "Late"):
            attempt = attempt_in(reply[1:4])
            self.answered.add(attempt)
            if reply[0] == "Matched":
                self.matches.append((lane, attempt, call[1], call[2]))

    def note_ended(self, line: Line, how: str) -> None:
        line.ended = True
        line.broke = line.broke or how

    def note_reply(self, lane: int, call: Call, reply: Reply) -> None:
        told = reply[0]
        if told == "Launch":
            attempt = attempt_in(reply[2:5])
            self.lines.append(Line(lane, attempt))
            self.begin(attempt, reply[1])
        elif told == "Send":
            attempt = attempt_in(reply[3:6])
            self.lines[reply[1]].sends.append(Request(reply[1], reply[2], attempt))
            self.sent.add(attempt)
            self.begin(attempt, reply[1])
        elif told == "Cancel":
            for request in self.lines[reply[1]].sends:
                request.cancelled = request.cancelled or request.number == reply[2]
        elif told == "Gather":
            self.gathered.add(attempt_in(reply[3:6]))
        elif told == "Line":
            self.lines[reply[1]].taken = True
        elif told == "Stop":
            self.stopped.add(lane)

    def begin(self, attempt: Attempt, line: int) -> None:
        self.latest[attempt.action, attempt.branch] = attempt.number
        self.on_line[attempt] = line

    def request_in(self, reply: Reply) -> Request | None:
        """Returns the request that a Send ordered, if the reply is one."""
        return next((it for it in self.lines[reply[1]].sends if it.number == reply[2] and it.attempt == attempt_in(reply[3:6])),
                    None) if reply[0] == "Send" else None

    # ---- attempts

    def is_over_for(self, attempt: Attempt) -> bool:
        """A moment has come at which the attempt ends."""
        line = self.lines[self.on_line[attempt]]
        lost = line.ended and (attempt not in self.answered or self.wrote.get(attempt) == "FeedFault")
        return attempt in self.faulty or lost

    def is_dropped(self, action: int, branch: str) -> bool:
        return Attempt(action, branch, self.limit) in self.ended

    def group_of(self, action: int, branch: str) -> int | None:
        group: int | None = self.actions[action][3 if branch == "Local" else 4]
        return group

    # ---- actions

    def standings(self) -> list[str]:
        """Returns for each action if it is open, succeeded, or is settled otherwise."""
        found: list[str] = []
        for action, (_, _, makers, _, _) in enumerate(self.actions):
            found.append(self.standing(action, any(found[maker] == "other" for maker, _ in makers)))
        return found

    def standing(self, action: int, is_starved: bool) -> str:
        if action in self.grants:
            if self.grants[action][1][0] == "Exit":
                return "other"
            if action in self.commits:
                return "good" if self.commits[action] == "Done" else "other"
            return "other" if is_starved else "open"
        used = [branch for branch in ("Local", "Remote") if self.group_of(action, branch) is not None]
        return "other" if is_starved or all(self.is_dropped(action, branch) for branch in used) else "open"

    def is_over(self) -> bool:
        return bool(self.halted) or "open" not in self.standings()

    def is_wanted(self, action: int, branch: str) -> bool:
        return (action not in self.grants and not self.is_dropped(action, branch)
                and self.standings()[action] == "open")

    def is_queued(self, action: int, branch: str) -> bool:
        number = self.latest.get((action, branch))
        is_ready = all(self.standings()[maker] == "good" for maker, _ in self.actions[action][2])
        is_under_way = number is not None and Attempt(action, branch, number) not in self.ended
        return is_ready and not is_under_way and self.is_wanted(action, branch)

    def earliest(self, group: int) -> Attempt | None:
        """Returns the next attempt of the group's queued branch with the lowest action."""
        for action in range(len(self.actions)):
            for branch in ("Local", "Remote"):
                if self.group_of(action, branch) == group and self.is_queued(action, branch):
                    return Attempt(action, branch, self.latest.get((action, branch), 0) + 1)
        return None

    # ---- lines

    def kind_of(self, berth: int) -> str:
        return str(self.groups[self.seats[berth]][0][0])

    def last_line(self, berth: int) -> int | None:
        return next((at for at in range(len(self.lines) - 1, -1, -1) if self.lines[at].lane // 2 == berth), None)

    def is_pending(self, request: Request) -> bool:
        return (request.attempt not in self.answered and not self.lines[request.line].ended
                and self.wrote.get(request.attempt) not in ("RoomFault", "TooLarge"))

    def pending(self, line: Line) -> list[Request]:
        return [request for request in line.sends if self.is_pending(request)]

    def bound(self, line: Line) -> Attempt | None:
        it = line.attempt
        is_bound = self.is_wanted(it.action, it.branch) and it not in self.sent and it not in self.ended
        return it if is_bound else None

    def free_places(self, line: Line) -> int:
        capacity = 1 if self.kind_of(line.lane // 2) == "Single" else 8
        return capacity - len(self.pending(line)) - (self.bound(line) is not None)

    def unwanted(self, line: Line) -> list[Request]:
        return [it for it in self.pending(line) if not self.is_wanted(it.attempt.action, it.attempt.branch)]

    # ---- replies

    def reply(self, lane: int, call: Call) -> Reply:
        """Returns the reply to any call."""
        return self.rule(lane, call) if self.is_in_script(lane, call) else ["Astray"]

    def rule(self, lane: int, call: Call) -> Reply:
        kind, berth = call[0], lane // 2
        if kind == "Ask":
            return self.ask(berth)
        if kind == "Take":
            return self.take(self.last_line(berth))
        if kind == "Answer":
            return self.answer(self.kind_of(berth), self.lines[call[1]], call[2])
        if kind == "Claim":
            return self.claim(attempt_in(call[1:4]), call[4][0])
        return ["NoFile"] if kind == "Look" else ["Noted"]

    def ask(self, berth: int) -> Reply:
        at = self.last_line(berth)
        line = None if at is None else self.lines[at]
        if self.is_over():
            return ["Kill", at, ["Quit"]] if line is not None and line.runs else ["Stop"]
        orders = (self.kill(berth, at, line), self.gather(berth), self.cancel(berth, at, line), self.send(berth, at, line),
                  self.launch(berth, line))
        return next((order for order in orders if order is not None), ["Idle"])

    def kill(self, berth: int, at: int | None, line: Line | None) -> Reply | None:
        if line is None or not line.runs:
            return None
        if line.broke is not None:
            return ["Kill", at, [WHY.get(line.broke, "Ended")]]
        is_alone = self.kind_of(berth) == "Single" and not self.groups[self.seats[berth]][1]
        return ["Kill", at, ["Unwanted"]] if is_alone and self.unwanted(line) else None

    def gather(self, berth: int) -> Reply | None:
        for lane, attempt, line, answer in self.matches:
            waits = attempt not in self.gathered and attempt.action not in self.grants
            if lane // 2 == berth and waits and self.wrote.get(attempt) == "Done":
                return ["Gather", line, answer[0], attempt.action, [attempt.branch], attempt.number, answer[1], answer[4] != ""]
        return None

    def cancel(self, berth: int, at: int | None, line: Line | None) -> Reply | None:
        if line is None or not line.live:
            return None
        may = self.groups[self.seats[berth]][1] or (self.kind_of(berth) == "Remote" and line.greeted)
        asked = [request for request in self.unwanted(line) if not request.cancelled] if may else []
        return ["Cancel", at, asked[0].number] if asked else None

    def send(self, berth: int, at: int | None, line: Line | None) -> Reply | None:
        if line is None or not line.live:
            return None
        due = self.bound(line)
        if due is None and self.free_places(line) > 0:
            due = self.earliest(self.seats[berth])
        number = 0 if self.kind_of(berth) == "Single" else len(line.sends) + 1
        return None if due is None else ["Send", at, number, due.action, [due.branch], due.number]

    def launch(self, berth: int, line: Line | None) -> Reply | None:
        is_vacant = line is None or line.failed or (line.ended and line.killed)
        group = self.seats[berth]
        own = [it for it in self.lines if self.seats[it.lane // 2] == group]
        due = self.earliest(group)
        if not is_vacant or due is None or any(it.live and self.free_places(it) > 0 for it in own):
            return None
        return ["Launch", len(self.lines), due.action, [due.branch], due.number]

    def take(self, at: int | None) -> Reply:
        if at is not None and self.lines[at].started and not self.lines[at].taken:
            return ["Line", at]
        return ["Stop"] if self.is_over() else ["Idle"]

    def answer(self, kind: str, line: Line, answer: list[Any]) -> Reply:
        number, version = answer[0], answer[6]
        if line.broke is not None:
            return ["Breach", ["Broken"]]
        if kind == "Remote" and number == 0 and version >= 2 and not line.spoken:
            return ["Greeted"]
        if kind == "Single":
            waiting = self.pending(line)
            if number != 0:
                return ["Breach", ["WrongNumber"]]
            return self.consumed(answer, waiting[-1]) if waiting else ["Breach", ["Unasked"]]
        meant = [request for request in line.sends if request.number == number]
        if not meant:
            return ["Stray", ["Never"]]
        return self.consumed(answer, meant[-1]) if self.is_pending(meant[-1]) else ["Stray", ["Closed"]]

    def consumed(self, answer: list[Any], request: Request) -> Reply:
        if answer[2] and not request.cancelled:
            return ["Breach", ["NotCancelled"]]
        it = request.attempt
        return ["Late" if it.action in self.grants else "Matched", it.action, [it.branch], it.number]

    def claim(self, attempt: Attempt, found: str) -> Reply:
        granted = self.grants.get(attempt.action)
        if granted is not None and granted[0].branch != attempt.branch:
            return ["Lost"]
        if found in ("Files", "Exit"):
            return ["Granted"]
        return ["AgainLater"] if attempt.number < self.limit else ["Dropped"]

    # ---- scripts

    def is_in_script(self, lane: int, call: Call) -> bool:
        if lane >= 2 * len(self.seats) or lane in self.stopped:
            return False
        newest = self.newest.get(lane)
        if lane in self.halted:
            return self.is_owed_commit(call, newest)
        if call[0] == "Halt":
            return True
        return self.is_of_proxy(lane, call, newest) if lane % 2 == 0 else self.is_of_tap(call, newest)

    def is_of_tap(self, call: Call, newest: Entry | None) -> bool:
        heard = self.heard(newest)
        if call[0] == "Take":
            return heard is None and (newest is None or newest[2][0] != "Stop")
        return call[0] in ("Answer", "Ended") and heard == call[1]

    @staticmethod
    def heard(newest: Entry | None) -> int | None:
        """Returns the line that a tap lane reads."""
        if newest is None:
            return None
        if newest[2][0] == "Line":
            return int(newest[2][1])
        return int(newest[1][1]) if newest[1][0] == "Answer" else None

    def is_of_proxy(self, lane: int, call: Call, newest: Entry | None) -> bool:
        told: Reply = newest[2] if newest is not None else ["Noted"]
        is_owing = told[0] in ("Launch", "Send", "Cancel", "Gather", "Kill", "Stop") or self.owed_commit(newest) is not None
        if call[0] == "Ask":
            return not is_owing
        if call[0] == "Launched":
            return told[0] == "Launch" and bool(call[1] == told[1])
        if call[0] == "Wrote":
            is_said = told[0] == "Send" or (told[0] == "Cancel" and call[3][0] in ("Done", "FeedFault"))
            return is_said and call[1:3] == told[1:3]
        if call[0] == "Killed":
            return told[0] == "Kill" and bool(call[1] == told[1])
        if call[0] == "Claim":
            return told[0] == "Gather" and call[1:4] == told[3:6] and self.may_find(lane // 2, told, call[4])
        return self.is_owed_commit(call, newest)

    def may_find(self, berth: int, gather: Reply, found: list[Any]) -> bool:
        outputs = len(self.actions[gather[3]][1])
        if gather[6] != 0:
            return found == ["Exit", gather[6]]
        if gather[7]:
            return found == ["Refused"]
        if found[0] == "Files":
            return len(found[1]) == outputs
        if found[0] == "Missing":
            return bool(found[1] < outputs)
        return found[0] == "RoomFault" and self.kind_of(berth) != "Remote"

    @staticmethod
    def owed_commit(newest: Entry | None) -> list[Any] | None:
        """Returns the action and the branch that a lane must commit, if any."""
        if newest is None or newest[1][0] != "Claim" or newest[2][0] != "Granted" or newest[1][4][0] != "Files":
            return None
        return list(newest[1][1:3])

    def is_owed_commit(self, call: Call, newest: Entry | None) -> bool:
        return call[0] == "Committed" and self.owed_commit(newest) == call[1:3]


def first_wrong(plan: Plan, entries: list[Entry]) -> int | None:
    """Returns the number of the first entry, from 0, that breaks the rules, or None."""
    history = History(plan)
    for at, entry in enumerate(entries):
        lane, call, reply = entry
        if reply[0] in NOT_KEPT or history.reply(lane, call) != reply:
            return at
        history.add(entry)
    return None
