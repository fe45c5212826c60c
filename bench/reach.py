#!/usr/bin/env python3
"""Draws start lists whose rules ask for pieces of what their lists see, and of each list a changed
one. A second reading of the rules routes all labels of at most four bytes of a small alphabet, and some labels drawn at random. The
sets of labels and the witnesses of `PROGRAM reach --json` and `PROGRAM diff --json` are compared with these routes."""
import copy, itertools, json, os, random, subprocess, tempfile

import command

GIVEN = [chr(b) for b in range(32, 127) if chr(b) not in '"\\']
SMALL = ["".join(x) for size in range(5) for x in itertools.product("ab> ", repeat=size)]
SERVICES = ("LOG", "File_system")


def text(draw, names):
    """A piece of what a list sees, or something that it can't."""
    seen = " -> ".join(names + ["".join(draw.choice("ab>- ") for _ in range(draw.randrange(5)))])
    start = draw.randrange(len(seen) + 1)
    piece = seen[start : start + draw.randrange(8)]
    kind = draw.randrange(20)
    if kind == 0:
        return "a" * draw.choice((63, 64, 65, 80))
    if kind == 1:
        return piece + draw.choice("\n\"\\")
    return piece


def rule(draw, names, children):
    made = {}
    service = draw.randrange(4)
    if service == 0:
        made["any-service"] = True
    else:
        made["service"] = "File_system" if service == 1 else "LOG"
    for member in ("label", "label_prefix", "label_suffix"):
        if draw.randrange(3) == 0:
            made[member] = text(draw, names)
    kind = draw.randrange(8)
    if kind == 0:
        made["any-child"] = True
    elif kind < 4:
        made["parent"] = True
    else:
        made["child"] = draw.choice(children)
    return made


def rules(draw, names, children):
    return [rule(draw, draw.choice(names), children) for _ in range(draw.randrange(6))]


def start(draw, depth):
    """The entries of a list, with what its outer lists see of the names below."""
    entries = []
    for name, binary in (("log", "log"), ("log2", "log"), ("files", "files")):
        if draw.randrange(3) or depth == 0:
            service = "File_system" if binary == "files" else "LOG"
            entries.append({"name": name, "binary": binary, "quantum": "4K", "caps": 1, "provides": [service]})
    names = ["carol", "dave"][: 1 + draw.randrange(2)]
    below = []
    seen = [[]]
    for name in names:
        entry = {"name": name, "binary": "script", "quantum": "4K", "caps": 1}
        if draw.randrange(3) == 0:
            entry["route"] = rules(draw, [[]], ["log", "log2", "files"])
        entries.append(entry)
        below.append([name])
    if depth < 2 and draw.randrange(4):
        inner, inside, default = start(draw, depth + 1)
        entry = {"name": "sub", "binary": "init", "quantum": f"{1024 >> 2 * depth}K", "caps": 64 >> 2 * depth, "config": {"default-route": default, "start": inner}}
        if draw.randrange(2):
            entry["route"] = rules(draw, inside, ["log", "log2", "files"])
        entries.append(entry)
        below += [["sub"] + path for path in inside]
        seen += inside
    return entries, below, rules(draw, seen, ["log", "log2", "files"])


def holds(asked, service, label):
    return (
        asked.get("service", service) == service
        and asked.get("label", label) == label
        and label.startswith(asked.get("label_prefix", ""))
        and label.endswith(asked.get("label_suffix", ""))
    )


def leads(lists, service, label):
    """Where a label leads, by the lists from the client's own outward: their entries, the rules that decide, the name that asks."""
    for entries, decide, name, place in lists:
        found = next((r for r in decide if holds(r, service, label)), None)
        if found is None:
            return None
        if not found.get("parent"):
            offers = [e for e in entries if service in e.get("provides", [])]
            if "child" in found:
                offers = [e for e in offers if e["name"] == found["child"]]
            elif len(offers) != 1:
                return None
            return place + offers[0]["name"] if offers else None
        label = name + " -> " + label if label else name
    return None


def clients(entries, default, place, outer):
    for entry in entries:
        own = (entries, entry.get("route", default), entry["name"], place)
        if entry["binary"] == "script":
            yield place + entry["name"], [own] + outer
        elif entry["binary"] == "init":
            config = entry["config"]
            yield from clients(config["start"], config["default-route"], place + entry["name"] + "/", [own] + outer)


def labels(draw, drawn):
    for _ in range(200):
        pieces = []
        for _ in range(draw.randrange(4)):
            kind = draw.randrange(3)
            if kind == 0 or not drawn:
                pieces.append("".join(draw.choice("ab>- ") for _ in range(draw.randrange(4))))
            elif kind == 1:
                piece = draw.choice(drawn)
                pieces.append(piece[draw.randrange(len(piece) + 1) :])
            else:
                pieces.append(draw.choice(GIVEN))
        label = "".join(c for c in "".join(pieces) if c in GIVEN)
        yield label[:64]


def texts(value):
    if isinstance(value, dict):
        for key, inner in value.items():
            if key.startswith("label"):
                yield inner
            else:
                yield from texts(inner)
    elif isinstance(value, list):
        for inner in value:
            yield from texts(inner)


def changed(draw, whole):
    """A copy of a list with one rule more, one less, or another text or target in one."""
    made = copy.deepcopy(whole)
    lists = list(rule_lists(made))
    for _ in range(1 + draw.randrange(2)):
        rules_of = draw.choice(lists)
        kind = draw.randrange(4)
        if kind == 0 or not rules_of:
            rules_of.insert(draw.randrange(len(rules_of) + 1), rule(draw, draw.choice(([], ["carol"], ["sub", "carol"])), ["log", "log2", "files"]))
        elif kind == 1:
            rules_of.pop(draw.randrange(len(rules_of)))
        else:
            one = draw.choice(rules_of)
            asked = [member for member in one if member.startswith("label")]
            if asked:
                text_of = one.pop(draw.choice(asked))
                one[draw.choice(("label", "label_prefix", "label_suffix"))] = text_of
            else:
                one[draw.choice(("label", "label_prefix", "label_suffix"))] = text(draw, [])
    return made


def rule_lists(whole):
    """All lists of rules of a start list or of an init's config."""
    yield whole["default-route"]
    for entry in whole["start"]:
        if "route" in entry:
            yield entry["route"]
        if "config" in entry:
            yield from rule_lists(entry["config"])


def servers(whole, place=""):
    for entry in whole["start"]:
        for service in entry.get("provides", []):
            yield service, place + entry["name"]
        if "config" in entry:
            yield from servers(entry["config"], place + entry["name"] + "/")


def has_pattern(pattern, x):
    if pattern["exactly"] is not None:
        return x == pattern["exactly"]
    return x.startswith(pattern["beginning"] or "") and x.endswith(pattern["ending"] or "")


def has(shapes, x):
    return any(has_pattern(shape, x) and not any(has_pattern(one, x) for one in shape["except"]) for shape in shapes)


def faults(what, shapes, witness, drawn, holds):
    """What is wrong with a set and its witness: each drawn label is in the set exactly if it holds, and the witness is a shortest."""
    for x in drawn:
        if has(shapes, x) != holds(x):
            yield f"{what}: {x!r} is {'' if holds(x) else 'not '}of the set, but {shapes}"
    if (witness is None) != (not shapes):
        yield f"{what}: the witness is {witness!r}, and the set {shapes}"
    if witness is not None:
        if len(witness) > 64 or any(c not in GIVEN for c in witness) or not holds(witness) or not has(shapes, witness):
            yield f"{what}: {witness!r} is no label of the set"
        shorter = [x for x in drawn if len(x) < len(witness) and holds(x)]
        if shorter:
            yield f"{what}: {shorter[0]!r} is shorter than {witness!r}"


class Reading:
    """A start list by the second reading: where labels are routed."""

    def __init__(self, whole, drawn):
        self.lists = dict(clients(whole["start"], whole["default-route"], "", []))
        self.servers = list(servers(whole))
        self.drawn = drawn
        self.found = {(client, service): {} for client in self.lists for service in SERVICES}

    def route(self, client, service, x):
        known = self.found.get((client, service))
        if known is None:
            return None
        if x not in known:
            known[x] = leads(self.lists[client], service, x)
        return known[x]


def run(program, *arguments):
    printed = subprocess.run([program, *arguments], capture_output=True, text=True)
    if printed.returncode not in (0, 4):
        raise SystemExit(f"{arguments}: {printed.stderr}")
    return printed.returncode, json.loads(printed.stdout)


def faults_of_reach(program, path, one):
    for cell in run(program, "reach", "--json", path)[1]:
        client, service, server = cell["from"], cell["service"], cell["to"]
        what = f"{client} {service} {server}"
        yield from faults(what, cell["labels"], cell["witness"], one.drawn, lambda x: one.route(client, service, x) == server)
        wide = [{"exactly": None, "beginning": None, "ending": None, "except": []}]
        if (cell["reach"] == "always") != (cell["labels"] == wide) or (cell["reach"] == "none") != (cell["labels"] == []):
            yield f"{what}: {cell['reach']}, and the set {cell['labels']}"
        if cell["label"] != (cell["witness"] if cell["reach"] == "some" else None):
            yield f"{what}: label {cell['label']!r}, and the witness {cell['witness']!r}"


def faults_of_diff(program, before, after, old, new):
    status, printed = run(program, "diff", "--json", before, after)
    if status != (4 if printed else 0):
        yield f"status {status}, and {printed}"
    cells = {(it["name"], it["service"], it["to"]): it for it in printed if it["kind"] == "reach"}
    nothing = {"gained": [], "gained_witness": None, "lost": [], "lost_witness": None}
    for client in {**old.lists, **new.lists}:
        for service, server in dict.fromkeys(old.servers + new.servers):
            it = cells.pop((client, service, server), nothing)
            what = f"{client} {service} {server}"
            was = lambda x: old.route(client, service, x) == server
            now = lambda x: new.route(client, service, x) == server
            yield from faults(what + " gained", it["gained"], it["gained_witness"], old.drawn, lambda x: now(x) and not was(x))
            yield from faults(what + " lost", it["lost"], it["lost_witness"], old.drawn, lambda x: was(x) and not now(x))
    for cell in cells:
        yield f"{cell}: no script and server of either list"


def compare(program, draw, before, after):
    """The faults of one pair of lists, and how many sets were compared that are neither empty nor all labels."""
    entries, _, default = start(draw, 0)
    whole = {"machine": {"pages": 1024, "caps": 1024}, "default-route": default, "start": entries}
    other = changed(draw, whole)
    for path, made in ((before, whole), (after, other)):
        with open(path, "w") as out:
            json.dump(made, out)
    drawn = list(dict.fromkeys(SMALL + list(labels(draw, list(texts([whole, other]))))))
    old, new = Reading(whole, drawn), Reading(other, drawn)
    wrong = list(faults_of_reach(program, before, old)) + list(faults_of_diff(program, before, after, old, new))
    return wrong, sum(1 for cell in run(program, "reach", "--json", before)[1] if cell["reach"] == "some")


def compare_lists(given):
    program, lists, draw = given.PROGRAM, given.LISTS, random.Random(given.SEED)
    some = differing = 0
    with tempfile.TemporaryDirectory() as folder:
        before, after = (os.path.join(folder, name) for name in ("before.json", "after.json"))
        for count in range(lists):
            wrong, found = compare(program, draw, before, after)
            some += found
            differing += run(program, "diff", "--json", before, after)[0] == 4
            if wrong:
                print(f"list {count}: {wrong[0]}")
                for path in (before, after):
                    with open(path) as text_of:
                        print(text_of.read())
                return 1
    print(f"{lists} lists, {some} cells with some labels, {differing} lists whose changed one differs: no difference")
    return 0


if __name__ == "__main__":
    lists = command.number("LISTS", 100, "how many are drawn")
    command.run("reach.py PROGRAM [LISTS] [SEED]", __doc__, compare_lists, command.PROGRAM, lists, command.SEED)
