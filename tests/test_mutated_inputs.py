"""Command lines, lists, scenarios, policies and configurations that are mutated at random: each command ends in time, with a
status that docs/reference/output.md has, and its output is well formed.

The same inputs are made in each run; tests/run --random makes others, and more of them."""
import csv
import importlib.machinery
import importlib.util
import io
import itertools
import json
import random
import re
import secrets
from types import SimpleNamespace
from xml.etree import ElementTree as XML

import genode_reading
import pytest
import start_list_reading
from commands import CASES, COMMANDS, EXAMPLES, TOP, forms_of, needs
from hypothesis import settings
from nethrywel_tools.command_line import Fault
from nethrywel_tools.page_data import PageData

pytestmark = pytest.mark.slow
# How often a command is run; ten times as often with --random.
ROUNDS = 240
OUTPUT = (TOP / "docs/reference/output.md").read_text()
# The statuses of both programs, without the one of a reader that closes the pipe.
STATUSES = [{int(it) for it in re.findall(r"^\| (\d+) \|", part, re.M)} - {141} for part in OUTPUT.split("## The engine")]
LISTED = ("accounts", "tree", "reach", "least", "check", "diff")
FAULTS = "cannot read|cannot write|more than 1000000 lines|Read_fault"
FILES = {"json": b"{}", "policy": b"", "scenario": b"", "engine": b"", "xml": b"<config/>"}
NASTY = [it.encode() for it in """$ ${ } $$ => =>* ! # * ** -> , : ; " \\ \\n [ ] { } < > / & ' @set @repeat @end as 0 -1 1 64 65
4096 65535 65536 4294967296 18446744073709551615 18446744073709551616 1e9 0x1000 4K 16M 1G 99999999999999999999 null true false
init script server LOG File_system label label_prefix ram_quota= cap_quota= granted refused ERR OK any-child parent child route
config start é""".split()]
NASTY += [b"", b"\0", b"\xff", b"\r\n", b"\n\n", b"\t", b"a" * 33, b"\x1b[2J", b"\xe2\x80\xa8", b"[" * 200, b"=> ok\n"]
WORDS = ["", "a b", *"""- -- = --help --json --set --set= --set=a=1 1 -1 é \\ " none.json . it.policy""".split()]
NAMES = "alice bob reader crawler acme/web log files * none **".split()
LISTS, SCENARIOS = ("it.json", "other.json"), ("it.scenario", "other.scenario", "-")
# The values of options and arguments, by their names in the help; of others a name.
VALUES = {
    "--machine": LISTS, "--junit": ("out.xml",), "--scenario-after": SCENARIOS, "--policy": ("it.policy",),
    "--color": ("auto", "always", "never"), "--threshold": ("0", "50", "100", "101"), "--filter": ("it", "none"),
    "--set": ("a=1", "n=64K", "a", "1=1", "a="), "FILE": LISTS, "BEFORE": LISTS, "AFTER": LISTS, "CONFIG": LISTS,
    "SCENARIO": SCENARIOS, "SERVICE": ("LOG", "File_system", "Gui"), "ARGS": ('label="a"', "ram_quota=4K", "label"),
    "PATH": (".", "it.scenario", "it.policy"),
}


def seed_files():
    """Returns the texts of each kind that the repository has, except large ones."""
    found = {kind: [rest] for kind, rest in FILES.items()}
    folders = {"policy": "policy", "engine": "engine", "nethrywel": "scenario"}
    paths = (it for folder in (CASES, EXAMPLES) for it in folder.rglob("*") if it.is_file())
    for path in sorted(it for it in paths if it.stat().st_size < 8000):
        kind = path.suffix[1:] or next((kind for name, kind in folders.items() if name in path.parts), "")
        kind = "engine" if kind == "scenario" and path.parent == EXAMPLES else kind
        if kind in found:
            found[kind].append(path.read_bytes())
    for seed in range(20):
        root = XML.Element("config")
        genode_reading.drawn_config(random.Random(seed), root, 0)
        XML.indent(root)
        found["xml"].append(XML.tostring(root))
    return found


SEEDS = seed_files()


def mutated(draw, kind):
    """Returns a text of a kind with a few changes: of its lines, of its tokens, and of its bytes."""
    text, other = (draw.choice(SEEDS[kind]) for _ in range(2))
    for _ in range(draw.choice((0, 1, 1, 2, 3, 6))):
        how = draw.choice((rb"[^\n]*\n", rb"\w+|\s+|.", b"."))
        parts, others = (re.findall(how, it, re.S) or [b""] for it in (text, other))
        at, to = sorted(draw.randrange(len(parts) + 1) for _ in range(2))
        new = draw.choice(([], parts[at:to] * 2, parts[at:to][::-1], [draw.choice(NASTY)], [draw.choice(others)], parts[:at]))
        to = draw.choice((at, min(at + 1, to), min(at + 1, len(parts)), to))
        text = b"".join([*parts[:at], *new, *parts[to:]])[:20_000]
    # (rounds of many lines take long, and test nothing more)
    return re.sub(rb"(@repeat\s+\d)\d+", rb"\1", text)


def words_of(draw, arguments, options):
    """Returns the arguments of a command line: those of the help, with some of the options, and sometimes changed."""
    chosen = [it for it in options if draw.random() < 0.2]
    words = [it for name, value in chosen for it in [name, *[draw.choice(VALUES.get(name, NAMES))] * bool(value)]]
    words += [draw.choice(VALUES.get(it.strip("[]"), NAMES)) for it in arguments if it[0] != "[" or draw.random() < 0.5]
    for _ in range(draw.choice((0, 0, 0, 1, 2))):
        at = draw.randrange(len(words) + 1)
        new = draw.choice(([], [draw.choice(WORDS)], [draw.choice(options)[0]], words[at : at + 1] * 2))
        words[at : at + draw.choice((0, 1))] = new
    return words


def well_formed(command, words, ran):
    """Checks the form of an output and of diagnostics."""
    if {"-h", "--help"} & {*words} or "try '--help'" in ran.err:
        return
    is_json = "--json" in words
    if command == "trace" and is_json:
        assert all(isinstance(json.loads(it), dict) for it in ran.out.splitlines())
    elif command == "trace":
        assert len({len(row) for row in csv.reader(io.StringIO(ran.out), strict=True)}) <= 1
    elif is_json and command in LISTED:
        assert ran.out == "" or all(isinstance(it, dict) for it in json.loads(ran.out))
    elif command == "test" and not is_json and ran.status in (0, 3):
        assert re.match(r"TAP version 13\n1\.\.\d+\n(\x1b\[\d+m)?(ok|not ok|#)", ran.out)
    if is_json:
        assert all(isinstance(json.loads(it), dict) for it in ran.err.splitlines())
    if "--color" not in words:
        assert not re.search("[\0-\x08\x0b-\x1f\x7f-\x9f\u2028\ud800-\udfff]", ran.err)


def rounds(name):
    """Yields what draws each input: the same in each run, or others with --random."""
    seed = 0 if settings().derandomize else secrets.randbits(32)
    yield from (random.Random(f"{name} {seed} {number}") for number in range(ROUNDS * settings().max_examples // 20))


@pytest.mark.parametrize("command", [*COMMANDS, "engine"])
def test_command(request, tmp_path, command):
    program = request.getfixturevalue("engine" if command == "engine" else "nethrywel")
    arguments, options = forms_of(program, *[command] * (command != "engine"))
    for draw in rounds(command):
        texts = {f"{stem}.{kind}": mutated(draw, kind) for stem in ("it", "other") for kind in ("json", "policy", "scenario")}
        for name, text in texts.items():
            (tmp_path / name).write_bytes(text)
        words = words_of(draw, arguments, options)
        stdin = mutated(draw, "engine" if command == "engine" else "scenario").decode(errors="surrogateescape")
        ran = program(*[command] * (command != "engine"), *words, stdin=stdin, cwd=tmp_path, timeout=120)
        shown = (words, tmp_path, stdin, ran)
        assert ran.status in STATUSES[command == "engine"] and (ran.status != 4 or command == "diff"), shown
        assert (ran.status == 0 or ran.out + ran.err) and (ran.status != 1 or re.search(FAULTS, ran.err)), shown
        try:
            well_formed(command, words, ran)
        except (AssertionError, ValueError, csv.Error) as fault:
            raise AssertionError(shown) from fault


def test_page(nethrywel, tmp_path):
    """Report and desk show something of any list, policy and scenario."""
    booted = 0
    for draw in itertools.islice(rounds("page"), 0, None, 8):
        texts = {"list.json": draw.choice((mutated(draw, "json"), draw.choice(SEEDS["json"]))), "before.json": mutated(draw, "json")}
        texts |= {it: mutated(draw, it) for it in ("policy", "scenario")}
        for name, text in texts.items():
            (tmp_path / name).write_bytes(text)
        machine, policy, scenario = (texts[it].decode(errors="replace") for it in ("list.json", "policy", "scenario"))
        given = draw.choice(((None, None), (machine, None), (machine, policy)))
        data = PageData(lambda words: tuple(nethrywel(*words, cwd=tmp_path, timeout=120)), *given, scenario)
        found = [data.first(), data.diff("before.json")]
        found += [data.least(), data.alone(), data.routes(found[0]["reach"])] if found[0]["boots"] else []
        assert json.dumps(found) and (data.missing == {} or re.search(FAULTS, str(data.missing))), (texts, data.missing)
        booted += found[0]["boots"]
    assert booted > ROUNDS // 80


@needs("defusedxml")
def test_configuration(tmp_path, capsys):
    """tools/from-genode refuses a configuration, or writes a list without a fault."""
    path = TOP / "tools/from-genode"
    loader = importlib.machinery.SourceFileLoader("from_genode", str(path))
    port = importlib.util.module_from_spec(importlib.util.spec_from_loader("from_genode", loader))
    loader.exec_module(port)
    made, (config, costs, to) = 0, (tmp_path / it for it in ("config.xml", "costs.json", "list.json"))
    for draw in rounds("from-genode"):
        config.write_bytes(mutated(draw, "xml"))
        costs.write_bytes(draw.choice((mutated(draw, "json"), (EXAMPLES / "genode/costs.json").read_bytes())))
        words = {"costs": draw.choice((None, str(costs))), "only": draw.choice((None, "log", "alice,bob", "gui"))}
        words |= {"scale": draw.choice((1, 2, 1000)), "strict": draw.random() < 0.5}
        try:
            assert port.port(SimpleNamespace(CONFIG=str(config), o=str(to), **words)) in (0, 3)
        except (Fault, SystemExit) as fault:
            assert (fault.status if isinstance(fault, Fault) else fault.code) == 2
        else:
            made += 1
        printed = capsys.readouterr().err
        assert not re.search("[\0-\x08\x0b-\x1f\x7f-\x9f]", printed)
        if to.exists() and "more than the" not in printed:
            start_list_reading.check_list(to.read_text())
        to.unlink(missing_ok=True)
    assert made > ROUNDS // 20
