"""Timelines of accounts from the rows of `trace`, and thinning, so that a page of many lines stays small."""
import re
from dataclasses import dataclass, field

# At most so many timelines are shown, with so many points together; of a strip so many ticks.
TIMELINES, POINTS, TICKS = 120, 8000, 300
CLOSED = (None, None, None, None)
SCALES = {"": 1, "K": 1 << 10, "M": 1 << 20, "G": 1 << 30}


@dataclass
class Timeline:
    """An account: `part` is empty for a component's own, `reserve`, or a session's selector. A point has a line, RAM in use and
    its limit, capabilities and theirs, all after that line; they are None if the account is closed."""

    component: str
    part: str
    points: list = field(default_factory=list)
    refused: list = field(default_factory=list)

    @property
    def name(self):
        return f"{self.component}/{self.part}" if self.part else self.component

    @property
    def is_open(self):
        return self.points[-1][1:] != CLOSED

    def add(self, line, account):
        """Adds a point. Points in which nothing changes are left out, except the last."""
        if len(self.points) > 1 and self.points[-1][1:] == self.points[-2][1:] == account:
            self.points.pop()
        self.points.append((line, *account))


def amount_in(arguments, name):
    """Returns what the arguments of a session give for a name, of which the first counts: `ram_quota=4K, label="x"`."""
    found = re.search(rf"(?:^|,) *{name}=(\d+)([KMG]?)", re.sub(r'"[^"]*"', "", arguments))
    return int(found[1]) * SCALES[found[2]] if found else 0


def donation_in(call):
    """Returns RAM and capabilities that an `open` donates."""
    return tuple(amount_in(call.split(" ", 2)[-1], it) for it in ("ram_quota", "cap_quota"))


class Timelines:
    """The timelines of all accounts, as far as calls were added. A session begins with its donation, of which it uses a page
    and two capabilities for itself; a reserve begins when a call prints it."""

    def __init__(self, calls):
        self.found, self.limits = {}, {}
        for it in calls:
            self.add(it)

    def of(self, component, part):
        return self.found.setdefault((component, part), Timeline(component, part))

    def close(self, component, part, line):
        kept = self.found.get((component, part))
        if kept and kept.is_open:
            kept.add(line, CLOSED)

    def add(self, it):
        name, line, limits = it.component, it.line, (it.ram_limit, it.caps_limit)
        verb, _, rest = it.call.partition(" ")
        if it.ram_used is not None:
            self.of(name, "").add(line, it.account)
            if it.is_refused:
                self.of(name, "").refused.append(line)
        if verb == "open" and it.reply.startswith("cap "):
            ram, caps = donation_in(it.call)
            self.of(name, it.reply[4:]).add(line, (4096, ram, 2, caps))
        self.add_reserve(it, verb, limits)
        self.limits[name] = limits
        if it.session_ram_used is not None:
            self.of(name, str(it.session)).add(line, it.session_account)
        elif verb == "close":
            self.close(name, rest, line)
        elif verb == "exit" and it.reply == "ok":
            for component, part in list(self.found):
                if component == name and part:
                    self.close(name, part, line)

    def add_reserve(self, it, verb, limits):
        """Adds a reserve that is printed. What is requested and yielded moves between it and its component's account."""
        printed = re.fullmatch(r"ram (\d+) caps (\d+)", it.reply) if verb == "reserve" else None
        kept = self.found.get((it.component, "reserve"))
        if printed:
            self.of(it.component, "reserve").add(it.line, (0, int(printed[1]), 0, int(printed[2])))
        elif kept and kept.is_open and it.reply == "ok" and verb in ("request", "yield"):
            ram, caps = (before - now for before, now in zip(self.limits[it.component], limits))
            kept.add(it.line, (0, kept.points[-1][2] + ram, 0, kept.points[-1][4] + caps))

    def all(self):
        """Returns all timelines: after each component's own its reserve and its sessions."""
        order = {it: i for i, it in enumerate(dict.fromkeys(it[0] for it in self.found))}
        number = {it: int(it) if it.isdigit() else 0 for _, it in self.found}
        return sorted(self.found.values(), key=lambda it: (order[it.component], it.part != "", number[it.part]))


def some(items, most):
    """Returns at most so many items of a list, evenly."""
    return items[:: -(-len(items) // most)] if len(items) > most else items


def thinned(points, most):
    """Returns of each stretch of a long step curve the first point, the last, the least and the greatest; and whether it was
    long."""
    if len(points) <= most:
        return points, False
    step, kept = -(-len(points) // max(most // 6, 1)), []
    for i in range(0, len(points), step):
        part = points[i : i + step]
        keys = [lambda it, n=n: -1 if it[n] is None else it[n] for n in (1, 3)]
        chosen = [part[0], part[-1], *(pick(part, key=key) for pick in (min, max) for key in keys)]
        kept += sorted({it[0]: it for it in chosen}.values(), key=lambda it: it[0])
    return kept, True


def thin(timelines):
    """Returns the timelines that are shown, each with few points; how many are left out, and whether some are thinned.
    Components' own are all shown."""
    room = max(TIMELINES - sum(not it.part for it in timelines), 0)
    parts = {id(it) for it in [it for it in timelines if it.part][:room]}
    shown, long = [it for it in timelines if not it.part or id(it) in parts], False
    for it in shown:
        it.points, cut = thinned(it.points, max(POINTS // len(shown), 24))
        long |= cut
    return shown, len(timelines) - len(shown), long
