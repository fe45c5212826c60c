#!/usr/bin/env python3
"""Writes a start list of 27 scripts, each of which meets 128 rules that ask how a label begins and ends, as much as a
list may hold. KIND is `apart` (texts of which none begins or ends another), `chain` (each front begins longer ones, and each end ends
longer ones), `bytes` (the same, with all bytes after fronts, so that few of them are between two texts), `full` (no byte does) or
`blocked` (the same, with long fronts and ends, which all rules share)."""
import json, random, sys

from command import argument, run

GIVEN = [chr(b) for b in range(32, 127) if chr(b) not in '"\\']
LISTS = 4
RULES = 32


def apart(draw, at):
    return ["".join(draw.choice("abcdefghij") for _ in range(30)) for _ in range(2)]


def chain(draw, at):
    return ["a" * (at % RULES), "b" * (RULES - 1 - at % RULES)]


def every_byte(draw, at):
    return ["a" * (at % 31) + GIVEN[at % len(GIVEN)], "b" * (31 - at % RULES)]


def full(draw, at):
    """Fronts of one byte, all 93 of them, with no end, and then long fronts and ends."""
    long = 40 * (at >= len(GIVEN))
    return [GIVEN[at % len(GIVEN)] + "".join(draw.choice(GIVEN) for _ in range(long)), "".join(draw.choice(GIVEN) for _ in range(long))]


def blocked(draw, at):
    """One front and one end between which no byte is free, since 93 rules ask for it with each byte, and long ends of these."""
    front, end = "abcdefghijklmnopqrst", "uvwxyzabcdefghijklmn"
    if at == 0:
        return [front, end]
    if at <= len(GIVEN):
        byte = GIVEN[at - 1]
        return [front + byte, front + byte + end]
    return ["".join(draw.choice(GIVEN) for _ in range(40)), "".join(draw.choice(GIVEN) for _ in range(20))]


KINDS = {"apart": apart, "chain": chain, "bytes": every_byte, "full": full, "blocked": blocked}


def write(given):
    draw, texts = random.Random(1), KINDS[given.KIND]
    scripts = [f"s{number:02}" for number in range(27)]
    names = ["", "s00 -> ", "c -> s00 -> ", "b -> c -> s00 -> "]
    rules = []
    for outer in range(LISTS):
        rules.append([])
        for place in range(RULES):
            front, end = texts(draw, outer * RULES + place)
            target = {"child": "log"} if outer + 1 == LISTS else {"parent": True}
            rules[-1].append({"service": "LOG", "label_prefix": names[outer] + front, "label_suffix": end, **target})
    start = [{"name": name, "binary": "script", "quantum": "4K", "caps": 1} for name in scripts]
    for inside, name in enumerate("cba"):
        init = {"name": name, "binary": "init", "quantum": f"{4 * (30 + inside)}K", "caps": 30 + inside, "route": rules[inside + 1]}
        start = [{**init, "config": {"default-route": rules[inside] if inside == 0 else [], "start": start}}]
    servers = [{"name": "log", "quantum": "4K", "caps": 1, "provides": ["LOG"]}, {"name": "files", "quantum": "4K", "caps": 1, "provides": ["File_system"]}]
    json.dump({"machine": {"pages": 128, "caps": 128}, "default-route": [], "start": servers + start}, sys.stdout)


if __name__ == "__main__":
    run("reach_worst.py KIND", __doc__, write, argument("KIND", choices=KINDS, help="how texts begin and end"))
