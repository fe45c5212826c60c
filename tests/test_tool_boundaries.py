"""What tools read and write: outputs that are inputs, bounds, names that aren't UTF-8, devices, signals, and files of a sweep that
are broken."""
import json
import os
import signal
import subprocess
import time

import pytest
from commands import EXAMPLES, PAGES, crawler_files, environment, limited, needs, script, swept_scenario, tool
from test_sweep import small

PORT, REPORT, SWEEP = (tool(f"tools/{it}") for it in ("from-genode", "report", "sweep"))
CONFIG = "<config><start name='a' caps='1' ram='4K'/></config>"
# A name that isn't UTF-8, as Python has it, and as it is shown.
RAW, SHOWN = os.fsdecode(b"a\xff"), "a\ufffd"
MOST = "expected at most {} bytes, found more\n"


@pytest.fixture
def files(tmp_path):
    """Writes a file of each kind that the tools read, and returns its folder."""
    crawler_files(tmp_path)
    (tmp_path / "crawler.policy").write_text("deny crawler -> log\n")
    (tmp_path / "config.xml").write_text(CONFIG)
    (tmp_path / "costs.json").write_text("{}")
    (tmp_path / "link").symlink_to("crawler.scenario")
    os.link(tmp_path / "config.xml", tmp_path / "same.xml")
    (tmp_path / "points.csv").write_text("run quota\n")
    return tmp_path


@pytest.mark.parametrize("name, output, words", [
    ("from-genode", "config.xml", "-o config.xml config.xml"),
    ("from-genode", "config.xml", "-o same.xml config.xml"),
    ("from-genode", "costs.json", "-o ./costs.json --costs costs.json config.xml"),
    *((pytest.param("report", file, f"--machine crawler.json --policy crawler.policy -o {output} crawler.scenario",
                    marks=needs(*PAGES)))
      for file, output in (("crawler.scenario", "crawler.scenario"), ("crawler.scenario", "link"), ("crawler.json", "crawler.json"),
                           ("crawler.policy", "crawler.policy"))),
    pytest.param("report", "crawler.json", "-o crawler.json crawler.scenario", marks=needs(*PAGES)),
    ("sweep", "points.csv", "--machine crawler.json --scenario points.csv --out . run"),
])
def test_output_that_is_an_input(files, name, output, words):
    """A file that is read isn't overwritten, whatever its name."""
    before = (files / output).read_bytes()
    ran = tool(f"tools/{name}")(*words.split(), cwd=files)
    assert ran.status == 2 and "expected another file than the input" in ran.err, ran
    assert (files / output).read_bytes() == before


@pytest.mark.parametrize("name, words, most", [
    ("from-genode", "-o list.json /dev/zero", 1 << 20), ("from-genode", "-o list.json --costs /dev/zero config.xml", 1 << 20),
    ("report", "-o page.html --machine /dev/zero crawler.scenario", 1 << 20), ("report", "-o page.html /dev/zero", 64 << 20),
    ("report", "-o page.html --machine crawler.json --policy /dev/zero crawler.scenario", 1 << 20),
    ("sweep", "--machine /dev/zero --scenario crawler.scenario run", 1 << 20),
    ("sweep", "--machine crawler.json --scenario /dev/zero run", 64 << 20),
    ("desk", "/dev/zero crawler.scenario", 1 << 20), ("desk", "crawler.json /dev/zero", 64 << 20),
])
def test_endless_input(files, name, words, most):
    """No tool reads more of a file than its bound and one byte."""
    ran = tool(f"tools/{name}")(*words.split(), cwd=files, **limited(**{"as": 1 << 30}))
    assert (ran.status, ran.out) == (2, "") and ran.err == f"{name}: /dev/zero: {MOST.format(most)}", ran


def test_raw_name_of_a_configuration(files):
    (files / "config.xml").rename(files / f"{RAW}.xml")
    PORT(f"{RAW}.xml", "-o", f"{RAW}.json", cwd=files).ok()
    assert json.loads((files / f"{RAW}.json").read_text())["_about"] == f"{SHOWN}.xml by nethrywel-from-genode"
    assert "a\\udcff.xml: error: " in PORT(f"{RAW}.xml", "--only", "b", "-o", "list.json", cwd=files).err


@needs(*PAGES)
def test_raw_name_of_a_report(files):
    for it in ("json", "scenario"):
        (files / f"crawler.{it}").rename(files / f"{RAW}.{it}")
    ran = REPORT(f"{RAW}.scenario", "-o", "page.html", cwd=files)
    assert ran == (0, "", "a\\udcff.json: note: the start list next to the scenario is used\n")
    assert f"{SHOWN}.scenario on {SHOWN}.json" in (files / "page.html").read_text()


@needs("parallel")
def test_raw_names_of_a_sweep(tmp_path):
    """A folder and a value that aren't UTF-8 are kept byte for byte, in the folder and in the table."""
    out, scenario = tmp_path / RAW, swept_scenario(tmp_path, f"{RAW}.scenario")
    words = ["--machine", EXAMPLES / "friendly/crawler.json", "--scenario", scenario, "--set", f"D=64K,{RAW}", "--out", out, "run"]
    assert SWEEP(*words).ok() == f"2 points: 1 hold, 1 don't ({tmp_path}/a\\udcff/points.csv)\n"
    assert b"\na\xff," in (out / "points.csv").read_bytes()


PLAN = {"command": ["run", "--json"], "parameters": {"D": "1,2"}, "batch": 1, "list": "", "scenario": "", "program": ""}


@pytest.mark.parametrize("text", ["", "{", "null", "[]", "[" * 100_000, '"\\ud800"', *(json.dumps({**PLAN, **it}) for it in (
    {"command": []}, {"command": "run"}, {"command": [1]}, {"parameters": {"D": 1}}, {"parameters": []}, {"batch": 0},
    {"batch": "1"}, {"list": None}, {"scenario": "\ud800"}, {"more": 1}))], ids=lambda it: it[:40])
def test_broken_plan(tmp_path, text):
    (tmp_path / "plan.json").write_text(text)
    ran = SWEEP("--batch", "1", "--program", "/bin/true", tmp_path)
    assert ran == (2, "", f"sweep: {tmp_path}/plan.json: expected the plan of a sweep; give another --out\n")


@pytest.mark.slow
def test_endless_plan(tmp_path):
    (tmp_path / "plan.json").symlink_to("/dev/zero")
    ran = SWEEP("--batch", "1", "--program", "/bin/true", tmp_path, **limited(**{"as": 2 << 30}))
    assert ran == (2, "", f"sweep: {tmp_path}/plan.json: {MOST.format(520 << 20)}")


@pytest.mark.parametrize("words, why", [
    (["--batch", "1", "--program", "/bin/true"], "expected one folder, and a program"),
    (["--batch", "1", "."], "expected one folder, and a program"),
    (["--batch", "3", "--program", "/bin/true", "."], "--batch 3: expected one of 2 batches"),
    (["--batch", "-1", "--program", "/bin/true", "."], "--batch -1: expected one of 2 batches"),
    (["--machine", "plan.json", "--set", "D=0..100000000000000000000", "run"], "no range FIRST..LAST:STEP"),
    (["--machine", "plan.json", "--set", f"D=0..{'9' * 5000}", "check"], "no range FIRST..LAST:STEP"),
], ids=lambda it: " ".join(it)[:40] if isinstance(it, list) else "")
def test_wrong_batch(tmp_path, words, why):
    (tmp_path / "plan.json").write_text(json.dumps(PLAN))
    ran = SWEEP(*words, cwd=tmp_path)
    assert ran.status == 2 and why in ran.err and ran.err.count("\n") == 1, ran


@needs("parallel")
def test_broken_rows(tmp_path):
    """Rows that are none of a sweep run again, and the table is the same."""
    out, words = tmp_path / "out", small(tmp_path, tmp_path / "out")
    SWEEP(*words).ok()
    table = (out / "points.csv").read_text()
    for number, text in enumerate(("[" * 100_000, "[1]", '[[0, "", "", []]]', '[[0, "", ""]]'), 1):
        (out / f"rows/{number}").write_text(text)
    SWEEP(*words).ok()
    assert (out / "points.csv").read_text() == table


def test_output_on_a_pipe(files):
    """-o /dev/stdout is the tool's own output, a pipe or a file to which it is appended."""
    PORT("-o", "list.json", "config.xml", cwd=files).ok()
    text = (files / "list.json").read_text()
    assert PORT("-o", "/dev/stdout", "config.xml", cwd=files).ok() == text
    with (files / "list.json").open("a") as appended:
        assert PORT("-o", "/dev/stdout", "config.xml", cwd=files, stdout=appended).status == 0
    assert (files / "list.json").read_text() == text * 2


@pytest.mark.parametrize("words, why", [
    (["-o", "/dev/full"], "/dev/full: No space left on device"), (["-o", "/dev/stdout"], "/dev/stdout: No space left on device"),
    (["-o", "list.json"], "{}/list.json: File too large")], ids=["device", "output", "file"])
def test_full_device(files, words, why):
    """A failed write names its file."""
    with open("/dev/full", "w") as full:
        ran = PORT(*words, "config.xml", cwd=files, stdout=full, **limited(fsize=16) if words[1] == "list.json" else {})
    assert (ran.status, ran.err) == (1, f"from-genode: {why.format(files)}\n")


@needs("parallel")
def test_full_output_of_a_sweep(tmp_path):
    with open("/dev/full", "w") as full:
        ran = SWEEP(*small(tmp_path, tmp_path / "out", "--plan"), stdout=full)
    assert (ran.status, ran.err) == (1, "sweep: standard output: No space left on device\n")


@needs(*PAGES)
@pytest.mark.parametrize("name", ["SIGTERM", "SIGHUP", "SIGINT"])
def test_ended_report(tmp_path, name):
    """A report that a signal ends leaves no folder and no program that runs, and the old page."""
    temporary, page, started = tmp_path / "temporary", tmp_path / "page.html", tmp_path / "started"
    temporary.mkdir()
    page.write_text("old")
    script(tmp_path / "nethrywel", f'echo $$ >"{started}.new"; mv "{started}.new" "{started}"; exec sleep 600')
    words = [REPORT.path, "friendly/notes.scenario", "-o", page]
    # (a test in the background of a shell has SIGINT ignored)
    usual = {"preexec_fn": lambda: signal.signal(getattr(signal, name), signal.SIG_DFL)}
    with subprocess.Popen(words, cwd=EXAMPLES, env=environment(PROGRAMS=tmp_path, TMPDIR=temporary), **usual) as ran:
        while ran.poll() is None and not started.exists():
            time.sleep(0.02)
        # (until the report waits for it)
        time.sleep(1)
        ran.send_signal(getattr(signal, name))
        assert ran.wait(timeout=60) == 130
    assert os.listdir(temporary) == [] and page.read_text() == "old"
    assert not os.path.exists(f"/proc/{started.read_text().strip()}")
