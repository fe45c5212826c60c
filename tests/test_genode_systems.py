"""The systems of examples/genode: they become start lists by one command, and docs/howto/genode.md has answers of two. The
program keeps their policies and gives the replies of their scenarios."""
import json
import re

import pytest
import start_list_reading
from commands import EXAMPLES, needs, tool

SYSTEMS, PORT, COSTS = ("desktop", "gateway", "pump"), tool("tools/from-genode"), EXAMPLES / "genode/costs.json"
# From, to, and whether no label, some or all are routed.
ANSWERS = {
    "desktop": [("browser/page", "vault", "none"), ("browser/agent", "vault", "some"), ("editor", "vault", "some")],
    "gateway": [("acme", "globex_store", "none"), ("acme", "gateway", "always"), ("gateway.client", "acme_store", "some")],
    "pump": [("control", "valve", "always"), ("display", "valve", "none"), ("display", "report_rom.ROM", "some")],
}
LABELS = ("", "a", "passwords", "letters", "saved", "acme", "globex", "dose", "lettersa", "agent -> passwords")
pytestmark = needs("defusedxml")


def ported(folder, name):
    """Ports a system next to copies of its policy and scenario, and returns its list."""
    for it in (f"{name}.policy", f"{name}.scenario"):
        (folder / it).write_bytes((EXAMPLES / "genode" / it).read_bytes())
    PORT("--strict", "--costs", COSTS, "-o", folder / f"{name}.json", EXAMPLES / f"genode/{name}.xml").ok()
    return folder / f"{name}.json"


@pytest.mark.parametrize("name", SYSTEMS)
def test_list(tmp_path, name):
    """The list has no fault and boots, and each declared server has kinds."""
    found = start_list_reading.components(start_list_reading.check_list(ported(tmp_path, name).read_text()))
    servers = [it[-1][1] for it in found.values() if it[-1][1]["binary"] == "server"]
    assert servers and all(it["kinds"] for it in servers)


@pytest.mark.parametrize("name", SYSTEMS)
def test_answers_by_reading(tmp_path, name):
    """The second reading of start lists has the answers, label by label."""
    found = start_list_reading.components(start_list_reading.check_list(ported(tmp_path, name).read_text()))
    for path, server, reach in ANSWERS[name]:
        (service,) = found[server][-1][1]["provides"]
        labels = [it for it in LABELS if start_list_reading.route(found[path], service, it) == server]
        assert ("none" if not labels else "always" if len(labels) == len(LABELS) else "some") == reach, (path, server, labels)


@pytest.mark.parametrize("name", SYSTEMS)
def test_program(nethrywel, tmp_path, name):
    """The program keeps the system's policy, and its replies are those of the scenario. Each command reads the list."""
    made, scenario = ported(tmp_path, name), tmp_path / f"{name}.scenario"
    nethrywel("test", "--strict", tmp_path).ok()
    nethrywel("check", "--policy", tmp_path / f"{name}.policy", made).ok()
    nethrywel("tree", made).ok()
    nethrywel("least", "--machine", made, scenario).ok()
    nethrywel("alone", "--all", "--summary", "--machine", made, scenario).ok()
    assert nethrywel("diff", made, made, scenario) == (0, "", "")


@pytest.mark.parametrize("name", SYSTEMS)
def test_answers(nethrywel, tmp_path, name):
    cells = json.loads(nethrywel("reach", "--json", ported(tmp_path, name)).ok())
    found = {(it["from"], it["to"]): it["reach"] for it in cells}
    assert [(*it[:2], found[it[:2]]) for it in ANSWERS[name]] == ANSWERS[name]


def test_minimum(nethrywel, tmp_path):
    """What the gateway must donate: for each session its line, and of each interval RAM from, RAM below, and capabilities."""
    made = ported(tmp_path, "gateway")
    rows = json.loads(nethrywel("least", "--json", "--machine", made, tmp_path / "gateway.scenario").ok())
    rows = [it for it in rows if it.get("component") == "gateway.client" and it.get("session")]
    found = [(it["line"], it["ram_from"], it["ram_below"], it["caps_from"]) for it in rows]
    assert found == [(2, 233472, None, 5), (9, 12288, 20480, 4), (9, 24576, None, 4), (12, 8192, None, 3)]


def test_grown_kind(nethrywel, tmp_path):
    """A kind whose objects grow is a change, and `diff` reports the line that falls short."""
    made, grown = ported(tmp_path, "desktop"), tmp_path / "grown.json"
    grown.write_text(re.sub(r'("kind": "surface", "block": 112, "bytes": )4', r"\g<1>8", made.read_text()))
    ran = nethrywel("diff", made, grown, tmp_path / "desktop.scenario")
    assert ran.status == 4 and "OUT_OF_RAM" in ran.out
