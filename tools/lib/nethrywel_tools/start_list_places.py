"""Where the parts of a start list are in its text: values, rules, and what a diagnostic or a route decision names."""
import json
import re
from itertools import count, takewhile

RULE = re.compile(r"(default-route|route)\[([0-9]+)\](?: for ([^,:]+))?")
STEP = re.compile(r'([a-z-]+)(?: and [a-z-]+)?(?:\[([0-9]+)\])?(?: "[^"]*")?$')
TOKEN = re.compile(r'"(?:[^"\\]|\\.)*"|[{}\[\],]|[^\s{}\[\],:"]+')


def places(text):
    """Returns where each value of a JSON text is, from its path to its first and last character; nothing if it is no JSON."""
    try:
        json.loads(text)
    except (ValueError, RecursionError):
        return {}
    # The path of the token: an item's number, or a member's name, which is None before it is read.
    found, path, begins = {}, [], []
    for token in TOKEN.finditer(text):
        if token[0] in "{[":
            begins.append(token.start())
            path.append(None if token[0] == "{" else 0)
        elif token[0] in "}]":
            path.pop()
            found[tuple(path)] = begins.pop(), token.end()
        elif token[0] == ",":
            path[-1] = path[-1] + 1 if isinstance(path[-1], int) else None
        elif path and path[-1] is None:
            path[-1] = json.loads(token[0])
        else:
            found[tuple(path)] = token.span()
    return found


def range_of(diagnostic, text, found):
    """Returns where a diagnostic is: at its line and column, or at its part, start[1] "sub": config: start[0]: quantum, and of
    that the member that its message names in backquotes."""
    if diagnostic.line:
        before = sum(len(it) + 1 for it in text.split("\n")[: diagnostic.line - 1])
        at = min(before + max(diagnostic.column - 1, 0), max(len(text) - 1, 0))
        return at, at + 1
    path, best = (), None
    for step in (diagnostic.part or "").removeprefix("start list").split(": "):
        at = STEP.match(step)
        path += () if not at else (at[1],) if at[2] is None else (at[1], int(at[2]))
        best = found.get(path) if path else None
    named = re.search("`([^`]+)`", diagnostic.text)
    return found.get((*path, named[1]), best) if named else best


def rules_in(text, found):
    """Returns where each rule is, by the path of its client or init, the member that has it, and its number."""
    names, rules = {(): ""}, {}
    for path in sorted(found, key=len):
        *at, last = path or [None]
        home, step = tuple(at[:-3]), at[-3:-1]
        is_entry = home in names and step == ["config"] * bool(home) + ["start"]
        if last == "name" and is_entry and text[found[path][0]] == '"':
            names[tuple(at)] = name = names[home] + "/" * bool(home) + json.loads(text[slice(*found[path])])
            for member, owner in (("route", at), ("default-route", at[:-2])):
                for number in takewhile(lambda it: (*owner, member, it) in found, count()):
                    rules[name, member, number] = found[(*owner, member, number)]
    return rules


def rules_named(text, client, rules):
    """Returns where the rules are that a text names, those without a name as rules for the client."""
    text = re.sub(r'"(?:[^"\\]|\\.)*"', '""', text)
    named = [rules.get((it[3] or client, it[1], int(it[2]))) for it in RULE.finditer(text)]
    return [it for it in dict.fromkeys(named) if it]
