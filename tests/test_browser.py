"""The pages of report and desk in Chromium, as a user reads, clicks and types."""
import time
from pathlib import Path

import pytest
from commands import CHROMIUM, crawler_files, needs
from conftest import running_desk
from test_report import REPORTS, SCRIPT, UNENDED, report_without

pytestmark = [needs(*CHROMIUM), pytest.mark.slow]
RIGHT = "\ue014"


def check_looks(page):
    """Checks that the contents lead to parts, that both colour schemes are readable, and the layout from 340 pixels to 2,560."""
    assert page.texts("nav a") and page.call("broken") == 0
    grounds = []
    for scheme in ("light", "dark"):
        page.emulate(1300, 900, scheme)
        assert page.call("hard")[:10] == page.call("unset") == [], scheme
        grounds.append(page.call("ground"))
    assert grounds[0] != grounds[1]
    for width in (340, 900, 1300, 2560):
        page.emulate(width, 1000)
        wide, apart, parts = page.call("wide")
        assert wide <= width and apart and parts >= 300, (width, wide, apart, parts)
    page.emulate_nothing()


def check_rule(page):
    """Checks that a click on a cell of the matrix marks a rule and reports the route."""
    page.find(".cell").click()
    page.wait(lambda: page.call("marked")[0] >= 1)
    assert any(it in page.call("marked")[1] for it in ("leads to", "denied by"))


def opened(page, path):
    """Opens a page three times, and returns the shortest time in seconds until it was drawn."""
    times = []
    for _ in range(3):
        began = time.monotonic()
        page.get(path.as_uri())
        page.run("return document.getElementById('page').getBoundingClientRect().height")
        times.append(time.monotonic() - began)
    return min(times)


# What the page of a name in REPORTS has in addition. A long page takes two seconds on a free machine, several times as long next
# to other tests.
SHOWN = {
    "strange": lambda page, _: SCRIPT in page.text(),
    "long": lambda page, took: "lines are shown, and" in page.text() and took < 20,
    "none": lambda page, _: any("no budget suffices: even the largest" in it for it in page.texts("#verdict .bad")),
    "tenants": lambda page, _: any("acme/batch: given 48K and 10: " in it for it in page.texts("#verdict .bad"))
    and page.texts("#policy-kept") == ["✓ the policy is kept"],
    "crawler": lambda page, _: page.call("isSplit"),
}


@pytest.mark.parametrize("name", REPORTS)
def test_report(browser, report, name):
    """A report opens without a message on the console and without requests, and its views answer clicks and keys."""
    page = browser
    page.console()
    took = opened(page, report(name))
    assert page.run("return performance.getEntriesByType('resource').length") == 0
    assert page.run("return window.met === undefined")
    assert name not in SHOWN or SHOWN[name](page, took)
    if page.texts(".cell"):
        check_rule(page)
    assert any("suffices: ram from" in it for it in page.texts(".account .suffices"))
    check_looks(page)
    page.emulate(1300, 900)
    page.run("scrollTo(0, 0)")
    assert page.call("isFirst"), "the verdict and the matrix aren't on the first screen"
    page.emulate_nothing()
    page.run("document.getElementById('charts').focus()")
    page.press(RIGHT)
    assert ":" in page.find("#now").text
    assert any(" of " in it for it in page.texts(".chart .value"))
    page.run("document.querySelector('#alone details').open = true")
    page.wait(lambda: len(page.texts("#alone table tr")) > 1)
    assert page.console() == []


@pytest.mark.parametrize("command", UNENDED)
def test_unended_command(browser, nethrywel, tmp_path, command):
    """What is left out since a command came to no end is stated in the verdict and at its part, and nothing else of the part is."""
    _, page = report_without(nethrywel, tmp_path, command)
    opened(browser, page)
    printed = f"left out: nethrywel {command}"
    for place in ("#verdict .bad", f"#{UNENDED[command]} .bad"):
        assert any(printed in it for it in browser.texts(place)), browser.text()
    assert not any(it in browser.text() for it in ("There are no accounts", "No account was called", "Nobody was called", "doesn't boot"))
    assert browser.console() == []


@pytest.fixture(scope="module")
def desk_url(tmp_path_factory):
    folder = tmp_path_factory.mktemp("browsed")
    with running_desk(folder, "--seconds", "600", *crawler_files(folder)) as url:
        yield url


@pytest.fixture
def page(browser, desk_url):
    """The desk's page. Its console is empty after the test."""
    browser.open(desk_url)
    browser.console()
    yield browser
    assert browser.console() == []


def test_desk(page):
    assert "10 lines of reader: the same alone as in the whole run" in page.text()
    assert any("suffices: ram from" in it for it in page.texts(".account .suffices"))
    check_rule(page)
    check_looks(page)


def test_desk_edits(page):
    """Replies are shown under their lines, and changes since the pinned version are listed."""
    page.find("#pin").click()
    page.wait(lambda: "nothing" in "".join(page.texts("#since")))
    for i in range(5):
        printed = page.edit(f"desk.scenario.replaceRange('reader quota\\n', {{line: {29 + i}, ch: 0}})")[2]
        assert printed.startswith("answered in ")
    assert "→ ram 0/98304 caps 0/16" in page.texts(".printed.reply")
    assert any(it.startswith("+ 30: reader quota") for it in page.texts("#since li"))
    page.edit("desk.list.setValue(desk.list.getValue().replace('\"caps\": 16}', '\"caps\": 15}'))")
    assert any(it.startswith("~ reader: script, 98304 bytes, 15 caps (was") for it in page.texts("#since li"))


def test_desk_faults(page):
    """A fault is shown under its line and at its position, in the scenario, the policy and the start list."""
    page.edit("desk.scenario.replaceRange('reader alok 4K\\n', {line: 3, ch: 0})")
    assert "unknown call `alok`" in page.texts("#of-scenario .printed.wrong")[0]
    assert "alok" in page.texts("#of-scenario .faulty")
    page.edit("desk.policy.setValue('deny crawler -> store')")
    assert any("crawler reaches store" in it for it in page.texts("#of-policy .printed.wrong"))
    page.edit("desk.list.setValue(desk.list.getValue().replace('\"96K\"', '\"900K\"'))")
    assert "Quota_exceeded" in "".join(page.texts("#of-list .printed.wrong")) and '"900K"' in "".join(page.texts("#of-list .faulty"))
    check_looks(page)
    page.edit("desk.list.setValue('{\"machine\": <script>')")
    assert "Bad_json" in "".join(page.texts("#of-list .printed.wrong"))
    assert not any(page.call("under")), "replies are shown though nothing was answered"


def test_desk_lines_after_edits(page):
    """What is shown under lines after edits is what is shown for the whole text."""
    page.edit("desk.scenario.replaceRange('', {line: 5, ch: 0}, {line: 12, ch: 0})")
    kept = page.call("under")
    page.edit("desk.scenario.setValue(desk.scenario.getValue())")
    assert any(kept) and page.call("under") == kept


def test_desk_saves(page):
    """A change on disk is saved over by choice alone, and an unsaved page isn't left silently."""
    file = Path(page.run("return JSON.parse(document.getElementById('data').textContent).files.scenario"))

    def edit(text):
        page.edit(f"desk.scenario.replaceRange('# {text}\\n', {{line: 0, ch: 0}})")

    assert page.call("leaves")
    edit("mine")
    assert not page.call("leaves")
    page.find("#save").click()
    page.wait(lambda: page.texts("#save") == ["save"])
    assert page.call("leaves")
    file.write_text(file.read_text() + "# theirs\n")
    edit("again")
    for choice, first in (("reload", ["# mine"]), ("over", ["# other", "# mine"])):
        page.find("#save").click()
        page.wait(lambda: page.texts("#choice button"))
        assert "# theirs" in file.read_text()
        page.find(f"#{choice}").click()
        page.wait(lambda: page.texts("#save") == ["save"] and not page.texts("#choice button"))
        found = file.read_text()
        page.rest()
        assert page.run("return desk.scenario.getValue()") == found
        assert found.splitlines()[: len(first)] == first
        edit("other")
        file.write_text(file.read_text() + "# theirs\n")
    # What the console says of a refused save is no fault of the page.
    page.console()
