#!/usr/bin/env python3
"""Draws start lists with declared servers, and scenarios of sessions of these. A second reading of docs/reference
(`declared_model.py`) replies to each line, and ENGINE LIST has to reply the same. It ends with how often each reply came."""
import json
import os
import random
import re
import subprocess
import tempfile
from collections import Counter

import command
from declared_model import MOST, PAGE, Machine, Memory, Session

ENGINE = command.argument("ENGINE", type=os.path.abspath, help="a built scenario_run")
SERVICES, LABELS, NAMES = ("Gui", "Nic", "Block", "Timer"), ("", "a", "b"), [f"n{it}" for it in range(12)]
BLOCKS, UNITS = (112, 113, 160, 1000, 4000, 4080, 4081, 16000, 65535), (0, 0, 1, 4, 100, 4064, 4065, 65535)
NUMBERS = (0, 0, 1, 1, 2, 7, 40, 1000, 4064, 4065, MOST, 1 << 62, (1 << 64) // 100)
# Texts that are no request, those of the file service too.
WRONG = """|MAKE|MAKE k0|MAKE k0 a b|MAKE  k0 a|MAKE k0 |make k0 a|RESIZE n0|RESIZE n0 -1|RESIZE n0 1 |RESIZE n0 0x1
RESIZE n0 18446744073709551616|DROP|DROP n0 n1|COUNT k0 k1|COUNT |NAME|NAME x|STAT 1|BUFFER|BUFFER x|UNBUFFER 1
PUT n0 0 0 1|GET n0 0 0 1|CREATE n0|WRITE n0 0 61|READ n0 0 1|SIZE n0|CLEAR n0""".replace("\n", "|").split("|")
CROWD_KIND = {"kind": "page", "block": 4000, "bytes": 1}
CROWD = [{"name": "crowd", "binary": "server", "quantum": "0", "caps": 0, "provides": ["Gui"], "kinds": [CROWD_KIND]},
         {"name": "many", "binary": "script", "quantum": "800K", "caps": 200, "route": [{"any-service": True, "child": "crowd"}]}]


def server(draw, name):
    many = draw.choice((0, 1, 2, 2, 3, 16))
    kinds = [{"kind": f"k{it}", "block": draw.choice(BLOCKS), "bytes": draw.choice(UNITS)} for it in range(many)]
    return {"name": name, "binary": "server", "quantum": "0", "caps": 0, "provides": [draw.choice(SERVICES)], "kinds": kinds}


def machine(draw):
    """Returns a list of up to ten declared servers, and scripts with small and large budgets."""
    start = [server(draw, f"server{at}") for at in range(draw.randrange(1, 11))]
    rules = [{"service": it["provides"][0], "child": it["name"]} for it in draw.sample(start, len(start))]
    # (of each service one server has all labels that the others don't have)
    last = {it["service"]: it for it in rules}
    rules = [{**it, "label": draw.choice(LABELS)} for it in rules if draw.randrange(3) == 0] + [*last.values()]
    for at in range(draw.randrange(1, 5)):
        ram = draw.choice((3, 10, 40, 200, 900)) * PAGE + draw.choice((0, 0, 17))
        start.append({"name": f"s{at}", "binary": "script", "quantum": str(ram), "caps": draw.choice((6, 20, 300))})
    return {"machine": {"pages": 4096, "caps": 4096}, "default-route": rules, "start": start}


# What is drawn of each request: how often, and its text of a draw, a session, a kind and the name of an object.
REQUESTS = [
    (12, lambda draw, session, kind, name: f"MAKE {kind} {draw.choice(NAMES)}"),
    (8, lambda draw, session, kind, name: f"RESIZE {name} {draw.choice(NUMBERS)}"),
    (4, lambda draw, session, kind, name: f"RESIZE {name} {draw.randrange(5000)}"),
    (5, lambda draw, session, kind, name: f"DROP {name}"),
    (3, lambda draw, session, kind, name: draw.choice(("COUNT", f"COUNT {kind}"))),
    (3, lambda draw, session, kind, name: f"NAME {draw.randrange(len(session.things) + 2)}"),
    (4, lambda draw, session, kind, name: "STAT"),
    (3, lambda draw, session, kind, name: f"BUFFER {draw.choice((0, 1, 4096, 5000, MOST))}"),
    (2, lambda draw, session, kind, name: "UNBUFFER"),
    (2, lambda draw, session, kind, name: draw.choice(WRONG)),
    (1, lambda draw, session, kind, name: f"MAKE {kind} {draw.choice(('a/b', 'n' * 33, '+', 'n' * 32))}"),
]


def request(draw, session):
    name, kind = draw.choice(NAMES), draw.choice([*session.kinds, *session.kinds, "k0", "other"])
    if session.things and draw.randrange(3):
        name = draw.choice(list(session.things))
    (made,) = draw.choices([it for _, it in REQUESTS], [often for often, _ in REQUESTS])
    return made(draw, session, kind, name)


def donation(draw):
    ram = draw.choice((0, 1, 1, 2, 5, 20, 20, 60, 200)) * PAGE + draw.choice((0, 0, 0, 5, PAGE - 1))
    return f"ram_quota={ram}, cap_quota={draw.choice((0, 1, 2, 3, 9, 40))}"


def call(draw, script):
    """Returns a call of a script, drawn by what its selectors name."""
    sessions = [it for it, what in script.things.items() if isinstance(what, Session)]
    memory = [it for it, what in script.things.items() if isinstance(what, Memory)]
    kind, selector, label = draw.random(), draw.randrange(1, len(script.things) + 3), draw.choice(LABELS)
    if sessions and kind < 0.75:
        at = draw.choice(sessions)
        return f"call {at} {request(draw, script.things[at])}"
    if kind < 0.85:
        return f"open {draw.choice(SERVICES)} {donation(draw)}" + (f', label="{label}"' if label else "")
    if sessions and kind < 0.9:
        return f"upgrade {draw.choice(sessions)} {donation(draw)}"
    if memory and kind < 0.95:
        at, address = draw.choice(memory), draw.choice([*script.regions, 0x10000000]) + draw.choice((0, 0, 10, 4090))
        poke = f"poke 0x{address:x} {draw.randbytes(4).hex()}"
        return draw.choice((f"attach {at}", f"free {at}", f"peek 0x{address:x} 8", poke, f"detach 0x{address:x}"))
    if kind < 0.955:
        return draw.choice(("close {}", "free {}", "capfree {}", "attach {}", "call {} STAT")).format(selector)
    return draw.choice(("quota", "quota", f"close {selector}", f"alloc {draw.choice((1, 4096, 40000))}", "capalloc"))


def crowd():
    """Yields lines by which the heap of a session gets as many chunks as it can have, and two more, each for one block."""
    yield f"many open Gui ram_quota={PAGE}, cap_quota=2"
    for number in range(66):
        yield f"many upgrade 1 ram_quota={PAGE}, cap_quota=1"
        yield f"many call 1 MAKE page c{number}"


def scenario(draw, made, size):
    """Yields lines with their replies."""
    is_crowd = draw.randrange(20) == 0
    made["start"] += CROWD if is_crowd else []
    read = Machine(made)
    yield from ((it, read.reply(it)) for it in (crowd() if is_crowd else ()))
    for _ in range(size):
        name = draw.choice([*read.scripts] * 60 + ["server0", "other"])
        drawn = call(draw, read.scripts[name]) if name in read.scripts else "quota"
        line = f"{name} {drawn if draw.randrange(20 * size) else 'exit'}"
        yield line, read.reply(line)


def kind_of(reply):
    """Returns a reply without its component and its values."""
    text = reply.partition(": ")[2]
    return text if re.match("ERR |[A-Z][a-z]", text) else text.split(" ")[0]


def difference(engine, path, made, lines, replies):
    """Returns what the engine replies otherwise, with the lines up to it, or nothing."""
    with open(path, "w", encoding="utf-8") as file:
        json.dump(made, file)
    ran = subprocess.run([engine, path], input="".join(f"{it}\n" for it in lines), capture_output=True, text=True)
    printed = (*ran.stdout.split("\n")[:-1], f"status {ran.returncode}: {ran.stderr}")
    expected = (*replies, "status 0: ")
    wrong = next((at for at, both in enumerate(zip(printed, expected)) if both[0] != both[1]), None)
    if wrong is None:
        return None
    return "\n".join([json.dumps(made), *lines[: wrong + 1], f"expected `{expected[wrong]}`, found `{printed[wrong]}`"])


def compare(given):
    counts, at = Counter(), 0
    with tempfile.TemporaryDirectory() as folder:
        while counts.total() < given.LINES:
            draw = random.Random(f"{given.SEED} {at}")
            made = machine(draw)
            lines, replies = zip(*scenario(draw, made, draw.choice((100, 1000, 1000))))
            differs = difference(given.ENGINE, os.path.join(folder, "list.json"), made, lines, replies)
            if differs:
                print(f"scenario {at} of seed {given.SEED}:\n{differs}")
                return 1
            counts.update(map(kind_of, replies))
            at += 1
    print(f"{at} scenarios, {counts.total()} lines: no difference")
    print(", ".join(f"{it} {count}" for it, count in counts.most_common()))
    return 0


if __name__ == "__main__":
    lines = command.number("LINES", 100_000, "how many at least are drawn")
    command.run("declared.py ENGINE [LINES] [SEED]", __doc__, compare, ENGINE, lines, command.SEED)
