#!/usr/bin/env python3
"""Draws start lists and policies. A second reading of docs/reference/policy.md says of each line which pairs of a script and a server
it is about, which of these the tree keeps apart, and which a label of a sample breaks. Warnings, notes, breaches and statuses of
`PROGRAM check --policy`, also with --strict and --json, are compared with it."""
import json, os, random, re, subprocess, tempfile

import command
from reach import SMALL, Reading, clients, servers, start

WORDS = ("label", "prefix", "suffix")


def paths(draw, drawn, most):
    """Some of these paths, or a pattern for those of a list or of a tree."""
    front = draw.choice(drawn).rpartition("/")[0]
    pattern = f"{front}/" * bool(front) + draw.choice(("*", "**"))
    return [pattern] if draw.randrange(3) == 0 else draw.sample(drawn, min(len(drawn), 1 + draw.randrange(most)))


def selected(asked, drawn):
    """The paths that a path of a policy denotes, in their order."""
    front, _, last = asked.rpartition("/")
    front += "/" * bool(front)
    if last == "**":
        return [it for it in drawn if it.startswith(front)]
    if last == "*":
        return [it for it in drawn if it.startswith(front) and "/" not in it[len(front):]]
    return [it for it in drawn if it == asked]


def within(path, outer):
    return path == outer or path.startswith(outer + "/")


class Line:
    """A drawn line: its text, the pairs that it is about, and what holds of them; or why it has none."""

    def __init__(self, draw, tree):
        self.kind = draw.choice(("deny", "allow", "only", "only", "isolate", "isolate", "budget"))
        self.word = self.text_of = None
        self.pairs, self.limit = [], None
        if self.kind == "budget":
            self.limit = draw.choice((4096, 1 << 20, 1 << 24, 1 << 25)), draw.choice((1, 64, 4095, 4096, 5000))
            self.named = paths(draw, list(tree.entries), 2)
            self.text = f"{', '.join(self.named)} at most {self.limit[0]}, {self.limit[1]}"
        elif self.kind == "isolate":
            self.named = paths(draw, list(tree.entries), 3)
            self.text = f"isolate {', '.join(self.named)}"
            parties = [it for one in self.named for it in selected(one, tree.entries)]
            self.apart = len(parties) > 1 and all(sum(within(it, one) for one in parties) == 1 for it in parties)
            party = {it: next((one for one in parties if within(it, one)), None) for it in tree.entries}
            self.pairs = [(a, b) for a in tree.scripts for b in tree.servers if party[a] and party[b] and party[a] != party[b]]
        else:
            asked, to = paths(draw, tree.scripts, 3), paths(draw, tree.servers, 2)
            scripts = [it for one in asked for it in selected(one, tree.scripts)]
            self.named = [it for it in (scripts, [it for one in to for it in selected(one, tree.servers)])]
            if self.kind == "only":
                scripts = [it for it in tree.scripts if it not in scripts]
            self.pairs = [(a, b) for a in tree.scripts if a in scripts for b in tree.servers if b in self.named[1]]
            self.text = f"{self.kind} {', '.join(asked)} -> {', '.join(to)}"
            if draw.randrange(3) == 0:
                self.word, self.text_of = draw.choice(WORDS), "".join(draw.choice("ab>") for _ in range(draw.randrange(3)))
                self.text += f' with {self.word} "{self.text_of}"'

    def is_fault(self):
        return self.kind == "isolate" and not self.apart or self.kind in ("deny", "allow", "only") and not all(self.named)

    def is_void(self):
        return self.limit[0] >= 1 << 24 and self.limit[1] >= 4096 if self.limit else not self.pairs

    def is_about(self, label):
        return {None: True, "label": label == self.text_of, "prefix": label.startswith(self.text_of or ""),
                "suffix": label.endswith(self.text_of or "")}[self.word]


class Tree:
    """The components of a start list, by the second reading of its routes."""

    def __init__(self, whole):
        self.reading = Reading(whole, SMALL)
        self.entries = {}
        self.add(whole["start"], "")
        self.service = {path: service for service, path in servers(whole)}
        self.servers = [it for it in self.entries if it in self.service]
        self.scripts = [path for path, _ in clients(whole["start"], whole["default-route"], "", [])]

    def add(self, entries, place):
        for it in entries:
            self.entries[place + it["name"]] = it
            self.add(it.get("config", {"start": []})["start"], f"{place}{it['name']}/")

    def by_tree(self, pair):
        outer = pair[1].rpartition("/")[0]
        return bool(outer) and not within(pair[0], outer)

    def reaches(self, pair, line):
        return any(line.is_about(it) and self.reading.route(pair[0], self.service[pair[1]], it) == pair[1] for it in SMALL)


def faults_of(tree, lines, status, strict, printed):
    """What is wrong with what is printed of a policy's lines, as an iterator of texts."""
    if any(it.is_fault() for it in lines):
        if (status, strict) != (2, 2) or {it["kind"] for it in printed} != {"fault"}:
            yield f"a fault has the statuses {status} and {strict}"
        return
    found = {}
    for it in printed:
        found.setdefault(it["line"], {}).setdefault(it["kind"], []).append(it["text"])
    broken = any("breach" in it for it in found.values())
    if status != (3 if broken else 0) or strict != (2 if any(it.is_void() for it in lines) else status):
        yield f"the statuses are {status} and {strict}"
    for number, line in enumerate(lines, 1):
        kinds = found.get(number, {})
        if ("warning" in kinds) != line.is_void():
            yield f"line {number}: is void: {line.is_void()}, but {kinds}"
        apart = 0 if line.kind == "allow" else sum(map(tree.by_tree, line.pairs))
        note = [f"kept by the tree for {apart} of {len(line.pairs)} pairs of a script and a server"] if apart else None
        if kinds.get("note") != note:
            yield f"line {number}: expected {note}, found {kinds.get('note')}"
        told = {tuple(re.fullmatch(r"(\S+) (?:reaches|doesn't reach) (\S+) by .*", it).groups())
                for it in kinds.get("breach", []) if line.limit is None}
        for pair in line.pairs:
            reached, by_tree = tree.reaches(pair, line), tree.by_tree(pair)
            if reached and by_tree or line.kind == "allow" and reached and pair in told and line.word != "label":
                yield f"line {number}: {pair} is reached: {reached}, kept by the tree: {by_tree}, told: {pair in told}"
            if line.kind != "allow" and (reached and pair not in told or by_tree and pair in told):
                yield f"line {number}: {pair} is reached: {reached}, kept by the tree: {by_tree}, told: {pair in told}"
            if line.kind == "allow" and not reached and by_tree and pair not in told:
                yield f"line {number}: no route joins {pair}, and nothing is told"
        if not told <= {*line.pairs}:
            yield f"line {number}: {told} aren't all of {line.pairs}"


def check(program, folder, *words):
    ran = subprocess.run([program, "check", "--policy", "policy", *words, "list.json"], capture_output=True, text=True, cwd=folder)
    return ran.returncode, ran.stdout


def compare_policies(given):
    program, lists, draw = given.PROGRAM, given.LISTS, random.Random(given.SEED)
    seen = {it: 0 for it in ("fault", "warning", "note", "breach")}
    with tempfile.TemporaryDirectory() as folder:
        for count in range(lists):
            entries, _, default = start(draw, 0)
            whole = {"machine": {"pages": 1024, "caps": 1024}, "default-route": default, "start": entries}
            tree = Tree(whole)
            if not tree.servers:
                continue
            lines = [Line(draw, tree) for _ in range(1 + draw.randrange(5))]
            for name, text in (("list.json", json.dumps(whole)), ("policy", "".join(f"{it.text}\n" for it in lines))):
                with open(os.path.join(folder, name), "w") as out:
                    out.write(text)
            status, out = check(program, folder, "--json")
            printed = [it for it in json.loads(out) if it["file"] == "policy"]
            strict = check(program, folder, "--strict", "--json")
            # (a finding of the list refuses it before the policy is read)
            strict = strict[0] if any(it["file"] == "policy" for it in json.loads(strict[1])) or strict[0] == status else None
            wrong = list(faults_of(tree, lines, status, strict if strict is not None else expected(lines, status), printed))
            for it in {it["kind"] for it in printed}:
                seen[it] += 1
            if wrong:
                print(f"list {count}: {wrong[0]}")
                print(json.dumps(whole), *(it.text for it in lines), out, sep="\n")
                return 1
    print(f"{lists} lists: no difference ({', '.join(f'{it}: {seen[it]}' for it in seen)})")
    return 0


def expected(lines, status):
    return 2 if status == 2 or any(it.is_void() for it in lines) else status


if __name__ == "__main__":
    lists = command.number("LISTS", 100, "how many are drawn")
    command.run("policies.py PROGRAM [LISTS] [SEED]", __doc__, compare_policies, command.PROGRAM, lists, command.SEED)
