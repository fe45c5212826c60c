#!/usr/bin/env python3
"""Draws scenarios of one script, and takes from `accounts --json` what its account and its
sessions need. From just that budget, or that opening donation, `PROGRAM run` has to answer each line as before, except for the
limits that STAT reports; of a session while its client has enough. It ends with how many budgets of a byte or a capability less
are answered otherwise: all but those that a growth with two sizes was tested at, which no reply shows."""
import json, random, tempfile

from command import PROGRAM, SEED, number, run
from least import PAGE, Nethrywel, amount, calls_of, donating, machine

ENOUGH = (1000 * PAGE, 1000)


def needs_of(nethrywel, made, calls):
    """What the script needs, and whether it is gone; each open session, by its selector; and those that were closed, in order."""
    nethrywel.write(made, [f"s0 {call}" for call in calls])
    own, opened, closed = None, {}, []
    for row in json.loads(nethrywel.printed("accounts", "--json", "--machine", nethrywel.list, nethrywel.scenario)):
        if row.get("name") != "s0" or row["kind"] == "reserve":
            continue
        need = (row["ram_need"], row["caps_need"])
        if row["kind"] == "account":
            own = (need, "state" in row)
        elif "state" in row:
            closed.append((str(row["session"]), need))
        else:
            opened[str(row["session"])] = need
    return own, opened, closed


def replies_of(nethrywel, made, calls):
    """What the script is answered, without the limits that a session reports."""
    return [reply for call, reply in zip(calls, nethrywel.replies(made, [calls])[0]) if "STAT" not in call]


def sessions_in(calls, replies):
    """The lines that opened the sessions which are open at the end, by their selectors, and those of the closed ones, in order."""
    opened, closed = {}, []
    for place, (call, reply) in enumerate(zip(calls, replies)):
        if call.startswith("open ") and reply.startswith("cap "):
            opened[reply[4:]] = place
        elif call.startswith("close ") and reply == "ok" and call[6:] in opened:
            closed.append((call[6:], opened.pop(call[6:])))
        elif call == "exit":
            closed += sorted(opened.items(), key=lambda it: int(it[0]))
            opened = {}
    return opened, closed


def less(budget):
    """The budgets of a byte or of a capability less."""
    ram, caps = budget
    return [it for it in ((ram - 1, caps), (ram, caps - 1)) if min(it) >= 0]


class Looked:
    """How many needs were looked at, and of how many budgets below them how many are answered otherwise."""

    def __init__(self):
        self.needs = self.below = self.otherwise = 0

    def at(self, need, answers, same):
        """Whether a need is answered as before."""
        self.needs += 1
        for budget in less(need):
            self.below += 1
            self.otherwise += answers(budget) != same
        return answers(need) == same


def check_script(nethrywel, draw, calls, looked):
    reserve = draw.choice((None, None, (amount(draw, 3), 1)))
    given = (draw.choice((64, 20, 10, 6, 3)) * PAGE + draw.choice((0, 0, 17)), draw.choice((32, 12, 6, 3)))
    (need, is_gone), _, _ = needs_of(nethrywel, machine([given], reserve), calls)
    same = replies_of(nethrywel, machine([given], reserve), calls)
    if need[0] > given[0] or need[1] > given[1]:
        return f"{need} is more than {given}"
    if is_gone != ("exit" in calls):
        return f"gone: {is_gone}"
    if not looked.at(need, lambda budget: replies_of(nethrywel, machine([budget], reserve), calls), same):
        return f"{need} isn't answered as {given}, reserve {reserve}"
    return None


def check_sessions(nethrywel, calls, looked):
    made = machine([ENOUGH], None)
    _, opened, closed = needs_of(nethrywel, made, calls)
    are_open, were_closed = sessions_in(calls, nethrywel.replies(made, [calls])[0])
    if sorted(opened) != sorted(are_open) or [it for it, _ in closed] != [it for it, _ in were_closed]:
        return f"sessions: {opened}, {closed}"
    same = replies_of(nethrywel, made, calls)
    needs = [(are_open[selector], need) for selector, need in opened.items()]
    needs += [(place, need) for (_, place), (_, need) in zip(were_closed, closed)]
    for opening, need in needs:

        def answers(donation):
            lines = [donating(call, *donation) if place == opening else call for place, call in enumerate(calls)]
            return replies_of(nethrywel, made, lines)

        if not looked.at(need, answers, same):
            return f"session of line {opening + 1}: {need} isn't answered alike"
    return None


def compare(given):
    count, seed, looked = given.SCENARIOS, given.SEED, Looked()
    with tempfile.TemporaryDirectory() as folder:
        nethrywel = Nethrywel(given.PROGRAM, folder)
        for at in range(count):
            draw = random.Random(f"{seed} {at}")
            calls = calls_of(draw)
            if "exit" in calls:
                del calls[calls.index("exit") + 1 :]
            differs = calls and (check_script(nethrywel, draw, calls, looked) or check_sessions(nethrywel, calls, looked))
            if differs:
                print("\n".join([f"scenario {at} of seed {seed}:", *calls, differs]))
                return 1
    print(f"{count} scenarios, {looked.needs} needs: no difference; of {looked.below} budgets below, {looked.otherwise} are answered otherwise")
    return 0


if __name__ == "__main__":
    run("needs.py PROGRAM [SCENARIOS] [SEED]", __doc__, compare, PROGRAM, number("SCENARIOS", 1000, "how many are drawn"), SEED)
