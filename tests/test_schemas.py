"""The JSON schemas of docs/reference: start lists that the program accepts, and what it prints with --json."""
import itertools
import json
import re

import pytest
from commands import CASES, COMMANDS, EXAMPLES, TOP, needs, run

pytestmark = needs("jsonschema")
PAGES = TOP / "docs/reference"
# Faults of lists that no schema can express: names given twice or without a value, amounts past 64 bits, and texts that are no JSON.
BEYOND = re.compile(": (Duplicate_name|Bad_json|Bad_config size|Quota_exceeded|unknown name)")
SCALES = {"": 0, "K": 10, "M": 20, "G": 30}
# A case of a million lines, arguments of cases that write a file, and a kind with a member whose absence nothing else in it shows.
LEFT, WRITING, FREE = "as-many-lines-as-may-be", {"--write", "--junit"}, ("account", "state")


def validator(name, part=None):
    """Returns what validates by a schema of docs/reference, or by one of its definitions."""
    from jsonschema import Draft202012Validator

    schema = json.loads((PAGES / f"{name}.schema.json").read_text())
    Draft202012Validator.check_schema(schema)
    return Draft202012Validator({"$ref": f"#/$defs/{part}", "$defs": schema["$defs"]} if part else schema)


def values(value):
    """Yields a value and all values in it, each with its name if it is a member."""
    found = [("", value)]
    for name, it in found:
        found += it.items() if isinstance(it, dict) else [("", one) for one in it] if isinstance(it, list) else []
        yield name, it


def is_past_64_bits(name, value):
    found = re.fullmatch(r"([0-9]+)([KMG]?)", value) if name in ("quantum", "reserve") and isinstance(value, str) else None
    return bool(found) and int(found[1]) << SCALES[found[2]] >> 64 > 0


def is_too_large(value):
    """Returns whether a list has too many entries over all lists, or inits nested too deep."""
    lists, count, depth = [value] if isinstance(value, dict) else [], 0, -1
    while lists:
        found = [it for part in lists for it in part.get("start", []) if isinstance(it, dict)]
        count, depth = count + len(found), depth + 1
        inits = [it.get("config") for it in found if it.get("binary", it.get("name")) == "init"]
        lists = [it for it in inits if isinstance(it, dict)]
    return count > 32 or depth > 3


def start_lists():
    folders = (EXAMPLES, CASES, TOP / "bench")
    return [it for folder in folders for it in sorted(folder.rglob("*.json")) if it.is_file()]


def test_start_lists(nethrywel):
    """If the schema refuses a list, the program refuses it for its form. If the program refuses a list for its form, the schema
    refuses it too, except for what no schema can express."""
    schema = validator("start-list")
    for path in start_lists():
        ran = nethrywel("check", path)
        is_refused = ran.status != 0 and ": Quota_exceeded" not in ran.err
        try:
            value = json.loads(path.read_bytes(), parse_constant=lambda name: 1 / 0)
        except (ValueError, ZeroDivisionError, RecursionError):
            assert is_refused, path
            continue
        wrong = next(schema.iter_errors(value), None)
        assert not wrong or is_refused, (path, wrong)
        beyond = any(isinstance(it, float) or is_past_64_bits(name, it) for name, it in values(value))
        assert not is_refused or wrong or beyond or BEYOND.search(ran.err) or is_too_large(value), (path, ran.err)


def cases_of(nethrywel, command):
    """Yields how each case of a command ends with --json, of `test` with its coverage."""
    for path in sorted((CASES / "nethrywel").glob("*/*.args")):
        words, case = path.read_text(errors="surrogateescape").removesuffix("\n").split("\n"), path.with_suffix("")
        if words[0] == command and case.exists() and case.name != LEFT and not WRITING & {*words}:
            more = {"--json", *["--coverage"] * (command == "test")} - {*words}
            with case.open("rb") as stdin:
                yield case, run(nethrywel.path, command, *more, *words[1:], stdin=stdin, cwd=case.parent)


def changed(value):
    """Yields a value with one member renamed, dropped or of another type, at any depth, each with the member's name."""
    if isinstance(value, list):
        yield from ((name, [it, *value[1:]]) for name, it in changed(value[0])) if value else ()
    elif isinstance(value, dict):
        for name, old in value.items():
            rest = {it: one for it, one in value.items() if it != name}
            # (a member that is null may be a number or a text)
            others = [it for it in (1.5, True, {}, [], *["x"] * (old is not None)) if type(it) is not type(old)]
            made = [{**rest, f"{name}_": old}, *[rest] * ((value.get("kind"), name) != FREE), *({**value, name: it} for it in others)]
            yield from ((name, it) for it in made)
            yield from ((inner, {**value, name: it}) for inner, it in changed(old))


def names_in(schema, defs, found):
    """Adds the names of all members in a part of a schema."""
    for name, it in values(schema):
        if name == "properties" and isinstance(it, dict):
            found.update(it)
        elif name == "$ref":
            names_in(defs[it.rpartition("/")[2]], defs, found)
    return found


@pytest.mark.parametrize("command", COMMANDS)
def test_output(nethrywel, command):
    """What each case prints with --json is in the schema, and not with one member renamed, dropped or of another type. Each object and
    each member of the schema is in a case."""
    defs, shapes, shown = validator("output").schema["$defs"], {}, set()
    parts = {it: validator("output", it) for it in {"diagnostic", command} & defs.keys()}
    for case, ran in cases_of(nethrywel, command):
        if "--help" in ran.err + ran.out:
            continue
        printed = [("diagnostic", it) for it in re.sub(r"\x1b\[\d*m", "", ran.err).splitlines()]
        printed += [(command, it) for it in (ran.out.splitlines() if command == "trace" else [ran.out]) if it and command in parts]
        for part, text in printed:
            value = json.loads(text)
            assert parts[part].is_valid(value), (case, next(parts[part].iter_errors(value)))
            for it in value if isinstance(value, list) else [value]:
                shown.update(name for _, one in values(it) if isinstance(one, dict) and part == command for name in one)
                # (the first and the last of each shape)
                shapes.setdefault((part, isinstance(value, list), it.get("kind"), it.get("change"), *it), [it])[1:] = [it]
    if command in defs:
        assert names_in(defs[command], defs, set()) == shown
        for at, of in enumerate(defs[command].get("items", {}).get("oneOf", ())):
            one = parts[command].evolve(schema={"$defs": defs, **of})
            assert any(one.is_valid(it) for (part, *_), kept in shapes.items() if part == command for it in kept), (command, at)
    for (part, is_list, *_), kept in shapes.items():
        for name, one in itertools.chain(*map(changed, kept)):
            assert not parts[part].is_valid([one] if is_list else one), (name, one)
