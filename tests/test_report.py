"""tools/report: one page that needs no network, lets no text of a file through, and is written whole or not at all."""
import hashlib
import json
import os
import re
import shutil

import pytest
from commands import CRAWLER, EXAMPLES, PAGES, TOP, crawler_files, environment, limited, needs, script, tool

REPORT, FILES = tool("tools/report"), TOP / "tests/pages"
SCRIPT = "<script>window.met=1</script>"
pytestmark = needs(*PAGES)
# The arguments of a report; {} is a folder with the files of tests/pages, where strange.* have texts that would be a
# page's own if they weren't escaped, and with two scenarios that are made: long, and the tenants' in the friendly form.
REPORTS = {
    "crawler": [*CRAWLER, "friendly/crawler.scenario"],
    "tenants": ["--machine", "tenants.json", "--policy", "tenants.policy", "{}/tenants.scenario"],
    "notes": ["friendly/notes.scenario"],
    "none": ["--machine", "poor.json", "{}/none.scenario"],
    "long": ["--machine", "tenants.json", "{}/long.scenario"],
    "strange": ["--machine", "{}/strange.json", "--policy", "{}/strange.policy", "{}/strange.scenario"],
}


def write_report(name, folder):
    """Writes the page of a name in REPORTS into a folder."""
    shutil.copytree(FILES, folder, dirs_exist_ok=True)
    lines = (EXAMPLES / "tenants.scenario").read_text().splitlines(keepends=True)
    (folder / "tenants.scenario").write_text("".join(f"!{it}" for it in lines))
    form, expected = (FILES / "long.lines").read_text(), {0: " => ok"}
    each = (form.format(i=i, size=4096 * (i % 30) + 1, new=i % 5000 + 1, expected=expected.get(i % 100, ""), cap=i % 3 + 1)
            for i in range(12_500))
    (folder / "long.scenario").write_text("".join(each))
    REPORT(*(it.replace("{}", str(folder)) for it in REPORTS[name]), "--seconds", "600", "-o", folder / f"{name}.html").ok()


@pytest.mark.slow
@pytest.mark.parametrize("name", REPORTS)
def test_page(report, name):
    """A page has less than 1.5 MB, asks nobody for anything, and has the checksums of the files that it reports."""
    text = report(name).read_text()
    assert report(name).stat().st_size < 1_500_000
    assert not re.search(r'(src|href) *= *"?(https?:|//)', text)
    for file in (it for it in REPORTS[name] if (EXAMPLES / it).is_file()):
        assert hashlib.sha256((EXAMPLES / file).read_bytes()).hexdigest() in text
    if name == "strange":
        assert "<script>window.met" not in text and "<img src=x" not in text
        assert text.count(r"u003cscript\u003ewindow.met=1") >= 5
    if name == "long":
        assert re.search(r'"left":\{"lines":9[0-9]{4},', text), "it doesn't report how many lines it leaves out"


def test_name_like_an_option(nethrywel, tmp_path):
    """A script whose name begins with a dash is given after `--`, by users and by the report."""
    machine, scenario = tmp_path / "dashed.json", tmp_path / "dashed.scenario"
    machine.write_text((EXAMPLES / "friendly/crawler.json").read_text().replace('"name": "reader"', '"name": "-reader"'))
    scenario.write_text(re.sub(r"^reader ", "-reader ", (EXAMPLES / "friendly/crawler.scenario").read_text(), flags=re.M))
    assert nethrywel("route", "--", machine, "-reader", "LOG").out.splitlines()[-1] == "leads to log"
    ran = nethrywel("alone", "--machine", machine, "--", "-reader", scenario)
    assert ran.out.splitlines()[-1] == "10 lines of -reader: the same alone as in the whole run"
    REPORT("--machine", machine, scenario, "--seconds", "600", "-o", tmp_path / "page.html").ok()
    assert "for -reader, where the label is" in (tmp_path / "page.html").read_text()


# A command that comes to no end, and the part of the page that needs it.
UNENDED = {"check": "reach", "tree": "reach", "reach": "reach", "route": "reach", "trace": "timelines", "run --machine": "scenario",
           "run --only": "alone", "accounts": "budgets", "least": "budgets"}
MACHINE = (FILES / "one-script.json").read_text()


def report_without(nethrywel, folder, command, how="kill -9 $$", seconds="600"):
    """Writes a report with a program of which one command comes to no end, and returns how it ended and the page."""
    script(folder / "nethrywel", f'case "$*" in {command.replace(" ", "?")}*) {how} ;; esac\nexec "{nethrywel.path}" "$@"')
    (folder / "it.json").write_text(MACHINE)
    (folder / "it.scenario").write_text("alice quota\n")
    words = ["--seconds", seconds, "--machine", "it.json", "it.scenario", "-o", folder / "page.html"]
    return REPORT(*words, cwd=folder, env=environment(PROGRAMS=folder)), folder / "page.html"


@pytest.mark.parametrize("command", UNENDED)
def test_unended_command(nethrywel, tmp_path, command):
    """Nothing is left out in silence: the part of the page and standard error name the command, and the status is 1."""
    ran, page = report_without(nethrywel, tmp_path, command)
    missing = json.loads(re.search(r'id="data">(.*?)</script>', page.read_text())[1])["missing"]
    lines = [f"report: left out: {it}" for it in missing[UNENDED[command]]]
    assert lines and all(re.fullmatch(rf"report: left out: nethrywel {command}.*: ended by signal 9", it) for it in lines)
    assert (ran.status, ran.out) == (1, "") and ran.err.splitlines() == lines


def test_late_command(nethrywel, tmp_path):
    """A command that takes longer than the limit is ended, and reported in the same way."""
    ran, _ = report_without(nethrywel, tmp_path, "accounts", how="exec sleep 600", seconds="10")
    assert ran.status == 1
    assert "report: left out: nethrywel accounts --json --machine list.json scenario: it ran longer than 10 seconds\n" in ran.err


def test_list_next_to_the_scenario(tmp_path):
    """Without --machine a report describes the machine of the list next to the scenario, and says so."""
    machine, scenario = crawler_files(tmp_path)
    ran = REPORT(scenario, "-o", tmp_path / "page.html")
    assert ran == (0, "", f"{machine}: note: the start list next to the scenario is used\n")
    assert "crawler.scenario on crawler.json" in (tmp_path / "page.html").read_text()


def test_unwritten_page(tmp_path):
    """A page that can't be written leaves the old one as it was."""
    (tmp_path / "page.html").write_text("old")
    ran = REPORT("friendly/notes.scenario", "-o", tmp_path / "page.html", **limited(fsize=8 << 10))
    assert ran.status != 0
    assert (tmp_path / "page.html").read_text() == "old" and os.listdir(tmp_path) == ["page.html"]


def test_deep_list(tmp_path):
    """A start list that nests too deeply is reported at its place."""
    (tmp_path / "deep.json").write_text("[" * 5000)
    ran = REPORT("--machine", tmp_path / "deep.json", "friendly/notes.scenario", "-o", tmp_path / "page.html")
    assert "Traceback" not in ran.err and "invalid JSON" in (tmp_path / "page.html").read_text()
