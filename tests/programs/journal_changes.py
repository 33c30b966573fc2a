"""Changes of one thing in the journal of a run, each of which no run may have: the checker refuses it at that entry."""
from __future__ import annotations

import copy
import random
from typing import Any

from journal_rules import Entry, Plan

def is_beyond(plan: Plan, entry: Entry) -> bool:
    """It names a lane, a line, an action or an output that the plan hasn't."""
    lane, call, reply = entry
    lines, actions = 2 * len(plan[0]) * plan[2], len(plan[0])
    named_lines = [it[1] for it, words in ((call, LINE_OF_CALL), (reply, LINE_OF_REPLY)) if it[0] in words]
    named_actions = [it[ACTION_OF[it[0]]] for it in (call, reply) if it[0] in ACTION_OF]
    is_missing = call[0] == "Claim" and call[4][0] == "Missing"
    outputs = len(plan[0][call[1]][1]) if is_missing and call[1] < actions else 0
    return (lane >= 2 * sum(group[2] for group in plan[1]) or any(line >= lines for line in named_lines)
            or any(action >= actions for action in named_actions) or (is_missing and call[4][1] >= outputs))


LINE_OF_CALL = ("Launched", "Wrote", "Killed", "Answer", "Ended")
LINE_OF_REPLY = ("Launch", "Send", "Cancel", "Gather", "Kill", "Line")
ACTION_OF = {"Claim": 1, "Committed": 1, "Launch": 2, "Send": 3, "Gather": 3, "Matched": 1, "Late": 1}


REPLIES: list[list[Any]] = [["Noted"], ["Granted"], ["Lost"], ["AgainLater"], ["Dropped"], ["Stop"], ["Idle"], ["Astray"],
                            ["Line", 0], ["Matched", 0, ["Local"], 1], ["Late", 0, ["Remote"], 1], ["Greeted"],
                            ["Stray", ["Never"]], ["Stray", ["Closed"]], ["Breach", ["Unasked"]], ["Kill", 0, ["Quit"]],
                            ["Kill", 0, ["Evicted"]], ["Launch", 0, 0, ["Local"], 1], ["NoFile"], ["File", "eA=="]]

# Where a call has the number of a line, of a request or of an attempt, which the script of its lane or its reply hangs on.
NUMBERS_OF_CALL = {"Launched": [1], "Wrote": [1, 2], "Killed": [1], "Answer": [1], "Ended": [1], "Claim": [1, 3], "Committed": [1]}


def other_number(entry: Entry, dice: random.Random, actions: int) -> bool:
    """Changes a number of the call or of the reply; says whether there is one."""
    call, reply = entry[1], entry[2]
    places = [(call, at) for at in NUMBERS_OF_CALL.get(call[0], [])]
    places += [(reply, at) for at in range(1, len(reply)) if isinstance(reply[at], int) and not isinstance(reply[at], bool)]
    if not places:
        return False
    value, at = dice.choice(places)
    value[at] += dice.choice([1, actions, 1000])
    return True


def change(plan: Plan, entries: list[Entry], dice: random.Random) -> tuple[int, list[Entry]]:
    """The journal with another reply, or another number in a call or a reply, and at which entry it stands."""
    at = dice.randrange(len(entries))
    entry = copy.deepcopy(entries[at])
    if dice.random() < 0.5 or not other_number(entry, dice, len(plan[0])):
        entry[2] = dice.choice([it for it in REPLIES if it != entry[2]])
    return at, [*entries[:at], entry, *entries[at + 1 :]]


def refusal(plan: Plan, at: int, entries: list[Entry]) -> tuple[int, bytes]:
    """The status and the line of the checker for a journal that is wrong from this entry on."""
    return (4, f"out of plan entry={at}\n".encode()) if is_beyond(plan, entries[at]) else (1, f"illegal entry={at}\n".encode())
