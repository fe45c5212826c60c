"""What report and desk show of a program's output: replies with their log lines, each script alone, and budgets."""
import json

import pytest
from commands import EXAMPLES, TOP
from nethrywel_tools.outputs import Document, calls_in
from nethrywel_tools.page_data import PageData, policy_lines
from nethrywel_tools.timelines import CLOSED, Timelines


@pytest.fixture
def shown(nethrywel, tmp_path):
    """Returns what makes the data of a page of a start list, or None, and a scenario, and what is printed of it at once."""

    def made(machine, scenario):
        for name, text in (("list.json", machine or ""), ("scenario", scenario)):
            (tmp_path / name).write_text(text)
        data = PageData(lambda words: tuple(nethrywel(*words, cwd=tmp_path)), machine, None, scenario)
        return data, data.first()

    return made


def printed(data):
    return [(it["name"], it["printed"], it["differ"]) for it in data.alone()["scripts"]]


def test_log_lines(shown):
    """The reply of a line has the log lines that it finished; of a line in rounds the last reply is shown."""
    rounds = '@repeat 2\nalice call 1 WRITE "one\\ntwo\\n"\n@end\n'
    data, first = shown(None, f"alice open LOG ram_quota=8K, cap_quota=2 => cap 1\n{rounds}bob quota\n")
    lines = first["lines"]
    assert lines[2][2:] == ["alice", "OK 8", ["[alice] one", "[alice] two"]]
    assert lines[3] == [4, "@end"] and lines[4][2:] == ["bob", "ram 0/65536 caps 0/16", []]
    same = "the same alone as in the whole run"
    assert printed(data) == [("alice", f"2 lines of alice: {same}", []), ("bob", f"1 line of bob: {same}", [])]


def test_alone_differs(shown):
    """A reply that differs in the run of a script's own lines is found, with its line."""
    data, _ = shown(None, "alice alloc 4K\nbob quota\nalice quota\n")
    real = data.run
    data.run = lambda words: (0, "alice: cap 1\nalice: ram 0/65536 caps 0/16\n", "") if "--only=alice" in words else real(words)
    alice, bob = printed(data)
    assert alice[1:] == ("2 lines of alice: 1 differ", [(3, "alice: ram 0/65536 caps 0/16")]) and bob[2] == []


def test_budgets(shown):
    """An account is short if its budget is in no interval, or if there is none."""
    lines = (EXAMPLES / "reserves.scenario").read_text().splitlines(keepends=True)
    data, _ = shown((EXAMPLES / "reserves.json").read_text(), "!" + "!".join(lines))
    found = {(it["name"], it["session"]): it for it in data.least()["accounts"]}
    assert found["alice", None]["short"] and found["bob", "1"]["line"] == 7
    assert found["alice", None]["printed"] == ["ram from 36K, caps from 2", "given 32K and 8: insufficient; the least is 36K and 2"]
    assert found["bob", "1"]["printed"] == ["ram from 8K, caps from 3", "given 16K and 4: 8K and 1 could be saved"]
    found = {it["name"]: it for it in shown(None, "alice alloc 800M\nbob alloc 4K\n")[0].least()["accounts"]}
    alice, bob = found["alice"], found["bob"]
    assert alice["short"] and alice["printed"] == [
        "no budget suffices: even the largest machine refuses a call, which is right for an attacker"]
    assert not bob["short"] and bob["given"] == (65536, 16)


@pytest.mark.parametrize("machine, servers, scripts", [
    (None, {"log", "files"}, {"alice", "bob"}), ("friendly/crawler.json", {"log", "store"}, {"reader", "crawler"})])
def test_budgets_of_servers(shown, machine, servers, scripts):
    """A server has no budget, whether it has an interval or not, so none falls short."""
    data, _ = shown((EXAMPLES / machine).read_text() if machine else None, f"{min(scripts)} alloc 4K\n")
    real = data.run

    def without(words):
        status, out, err = real(words)
        is_least = words[:2] == ("least", "--json")
        return status, json.dumps([it for it in json.loads(out) if it.get("component") not in servers]) if is_least else out, err

    for data.run in (real, without):
        found = {it["name"]: it for it in data.least()["accounts"]}
        assert found.keys() - servers == scripts and not any(it["short"] for it in found.values())
    assert not found.keys() & servers


def test_unknown_budgets(shown):
    """If nothing is run, nothing is stated of budgets."""
    data, first = shown(None, "@repeat 2\nalice quota\n")
    assert first["wrong"] == 1 and data.least() == {"accounts": [], "left": 0, "text": [], "missing": []}


def test_figures():
    """A session has figures from its opening to its close, a reserve from the line that prints it to the exit."""
    calls = list(calls_in((TOP / "tests/figures.trace").read_text().splitlines()))
    found = {it.name: it.points for it in Timelines(calls).all()}
    assert list(found) == ["a", "a/reserve", "a/1"]
    assert found["a"] == [(it.line, *it.account) for it in calls]
    assert found["a/1"] == [(1, 4096, 8192, 2, 3), (6, *CLOSED), (7, 4096, 4096, 2, 0), (8, *CLOSED)]
    assert found["a/reserve"] == [(2, 0, 4096, 0, 2), (3, 0, 0, 0, 1), (4, 0, 8192, 0, 1), (8, *CLOSED)]
    assert Timelines(calls).all()[0].refused == [5]


def test_remarks_on_a_policy():
    """A line that speaks of nothing isn't kept, one that the tree keeps is, and neither is a fault."""
    found = [Document(kind=kind, file="policy", line=line, column=1, text=kind) for line, kind in enumerate(("warning", "note", "breach"), 1)]
    shown = policy_lines("isolate a\nisolate a, b\nonly a -> b\ndeny a -> c\n", 3, found, {})
    assert [(it["kept"], it["void"], it["printed"], it["remark"]) for it in shown["lines"]] == [
        (None, True, None, "warning"), (True, False, None, "note"), (None, False, "breach", None), (True, False, None, None)]
    assert shown["read"] and shown["fault"] is None
