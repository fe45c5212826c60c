"""What pipelines call: the document of `nethrywel test`, and a trace as JSON, which has the rows of CSV."""
import csv
import io
import json
import os
import re
import shutil
from decimal import Decimal
from xml.etree import ElementTree

import pytest
from commands import CASES, CRAWLER, limited, on_terminal, run

FILES = CASES / "nethrywel/test/files"
SCENARIO = [*CRAWLER, "friendly/crawler.scenario"]


def test_junit(nethrywel, tmp_path):
    """The document of all results is well formed, with the lines of those that fail; a name may have characters of XML."""
    shutil.copytree(FILES / "all", tmp_path / "all")
    name = "all/more/a<b>&'#\".scenario"
    (tmp_path / "all/more/wrong.scenario").rename(tmp_path / name)
    ran = nethrywel("test", "all", "--junit", "junit.xml", cwd=tmp_path)
    assert ran.status == 3 and "\nnot ok 3 - all/more/a<b>&'\\#\".scenario\n" in ran.out
    suite = ElementTree.parse(tmp_path / "junit.xml").find(".//testsuite")
    tests, failures = suite.findall("testcase"), suite.findall("testcase/failure")
    assert (len(tests), len(failures), suite.get("tests"), suite.get("failures")) == (4, 2, "4", "2")
    times = [it.get("time") for it in [suite, *tests]]
    assert all(re.fullmatch(r"\d+\.\d{3}", it) for it in times)
    assert Decimal(times[0]) == sum(Decimal(it) for it in times[1:])
    faults = [it[2:] for it in ran.out.splitlines() if it.startswith(f"# {name}:")]
    assert len(faults) == 4 and " note: " in faults[3] and tests[2].get("name") == name
    assert (failures[0].get("message"), failures[0].text.strip().splitlines()) == (faults[0], faults)


def test_unwritten_junit(nethrywel, tmp_path):
    """A document that can't be written leaves the old one as it was, and no other file."""
    (tmp_path / "junit.xml").write_text("old")
    # A file that would be too large is an error of the write, as on a full disk, since its signal stays ignored.
    limit = {"restore_signals": False, **limited(fsize=64)}
    ran = nethrywel("test", "good", "--junit", tmp_path / "junit.xml", cwd=FILES / "all", **limit)
    assert ran.status == 1 and f"cannot write {tmp_path}/junit.xml: " in ran.err
    assert [(it.name, it.read_text()) for it in tmp_path.iterdir()] == [("junit.xml", "old")]


@pytest.mark.parametrize("name", ["good/listed.scenario", "good/listed.json", "more/wrong.scenario"])
def test_junit_in_place_of_an_input(nethrywel, tmp_path, name):
    """A document doesn't replace what a test reads, by a link neither, and then nothing is run."""
    shutil.copytree(FILES / "all", tmp_path / "all")
    (tmp_path / "link").symlink_to(tmp_path / "all" / name)
    for path in (f"all/{name}", "link"):
        ran = nethrywel("test", "all", "--filter", "plain", "--junit", path, cwd=tmp_path)
        assert ran == (2, "", f"error: --junit: expected a file that no test reads, found `{path}`\n")
    assert (tmp_path / "link").read_text() == (FILES / "all" / name).read_text()


@pytest.mark.parametrize("name", ["a.scenario", "a.policy", "a.json"])
def test_pipe_as_a_test(nethrywel, tmp_path, name):
    """A pipe that nobody writes doesn't stop a run of tests: it is refused before."""
    (tmp_path / "a.scenario").write_text("alice quota\n")
    (tmp_path / name).unlink(missing_ok=True)
    os.mkfifo(tmp_path / name)
    for path, named in (".", f"./{name}"), ("a.scenario", name):
        assert nethrywel("test", path, cwd=tmp_path, timeout=20) == (2, "", f"{named}: error: expected a regular file\n")


def test_progress_of_tests(nethrywel):
    """`nethrywel test` counts the tests on a terminal, whose line is empty at the end, if its lines are printed elsewhere."""
    ran, seen = nethrywel("test", "all", cwd=FILES), on_terminal(nethrywel.path, "test", "all", cwd=FILES)
    assert (ran.err, seen.status, seen.out) == ("", ran.status, ran.out)
    assert re.fullmatch(r"(\r\d of 4)+\r\x1b\[K", seen.err)


def test_progress_of_runs(nethrywel):
    """A run of over two seconds reports its lines on a terminal, whose line is empty at the end, and nothing elsewhere."""
    slow = f'{{ echo alice quota; sleep 2.2; echo alice quota; }} | "{nethrywel.path}" accounts -'
    ran, seen = run("sh", "-c", slow), on_terminal("sh", "-c", slow)
    assert (ran.status, ran.err, seen.status, seen.out) == (0, "", 0, ran.out)
    assert seen.err == "2 lines\r\x1b[K"


def rows_of(text):
    """Returns the rows of comma-separated values after the row of names."""
    return list(csv.reader(io.StringIO(text)))[1:]


def cells_of(documents, *names):
    return [["" if it.get(name) is None else str(it[name]) for name in names] for it in documents]


def documents(nethrywel, *words, **options):
    """Returns what a command prints with --json: an array, of a trace a document on each line."""
    ran = nethrywel(*words[:1], "--json", *words[1:], **options)
    assert (ran.status, ran.err) == (0, ""), ran
    return [json.loads(it) for it in ran.out.splitlines()] if words[0] == "trace" else json.loads(ran.out)


TRACE = ("line component call reply ram_used ram_limit caps_used caps_limit session session_ram_used session_ram_limit"
         " session_caps_used session_caps_limit text").split()


@pytest.mark.parametrize("words", [SCENARIO, ["friendly/notes.scenario"]], ids=str)
def test_trace_as_json(nethrywel, words):
    """A trace has the same rows as JSON and as comma-separated values."""
    assert cells_of(documents(nethrywel, "trace", *words), *TRACE) == rows_of(nethrywel("trace", *words).out)


def ram_of(text):
    """Returns the bytes of a cell of RAM: a number of K, a number of bytes, or `-`."""
    return None if text == "-" else int(text[:-1]) * 1024 if text.endswith("K") else int(text)


def figures_of(it):
    """Returns what a document of `accounts --json` has for the columns of the table."""
    if it["kind"] in ("reserve", "total"):
        return [None, None, None, it["ram"], None, None, None, it["caps"]]
    return [it.get(f"{kind}_{part}") for kind in ("ram", "caps") for part in ("used", "peak", "need", "limit")]


def title_of(it):
    """Returns the first cell of a document's row."""
    if it["kind"] == "session":
        closed = "closed " if it.get("state") == "closed" else ""
        return f"  {closed}session {it['session']} {it['server']} {it['label']}"
    return {"reserve": "  reserve", "total": "total"}.get(it["kind"]) or it["name"] + (" gone" if it.get("state") == "gone" else "")


@pytest.mark.parametrize("words", [SCENARIO, ["friendly/notes.scenario"], [CASES / "nethrywel/accounts/sessions-of-an-exit"]], ids=str)
def test_accounts_table(nethrywel, words):
    """The table of accounts has the figures of its documents, with each session and reserve below its component; its lines are
    equally long."""
    found = documents(nethrywel, "accounts", *words)
    lines = nethrywel("accounts", *words).ok().splitlines()
    rows = [re.fullmatch(r"(.*?)" + r" +(\S+)" * 8, it).groups() for it in lines[1:]]
    assert {len(it) for it in lines} == {len(lines[0])} and all(not it.endswith(" ") for it in lines)
    owners = [it for it in found if it["kind"] in ("account", "total")]
    parts = [one for kind in ("reserve", "session") for one in found if one["kind"] == kind]
    wanted = [one for it in owners for one in (it, *(part for part in parts if part["name"] == it.get("name")))]
    shown = [(name, *map(ram_of, row[:4]), *(None if it == "-" else int(it) for it in row[4:])) for name, *row in rows]
    assert shown == [(title_of(it), *figures_of(it)) for it in wanted]


def test_names_of_files(nethrywel, tmp_path):
    """The name of a file ends no line of a report, and no argument has an effect on a terminal."""
    path = tmp_path / "a\n1..0 \x1b[31m#.scenario"
    path.write_text("alice open LOG ram_quota=4K, cap_quota=2\n")
    out = nethrywel("test", "--coverage", path.name, cwd=tmp_path).ok()
    assert "ok 1 - a\\x0a1..0 \\x1b[31m\\#.scenario\n" in out
    assert "# coverage: a\\x0a1..0 \\x1b[31m\\#.scenario: default-route[0], alice LOG\n" in out
    assert json.loads(nethrywel("test", "--coverage", "--json", path.name, cwd=tmp_path).out)[-1]["scenario"] == path.name
    ran = nethrywel("te\x1b[31mst")
    assert ran.status == 2 and "'te\\u001b[31mst'" in ran.err and "\x1b" not in ran.err
