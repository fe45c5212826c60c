"""tools/sweep: its table, its map, and sweeps that are killed, planned, run on other hosts, or refused."""
import csv
import re
import shutil
import subprocess
import time
from pathlib import Path
from xml.etree import ElementTree

import pytest
from commands import EXAMPLES, environment, limited, needs, run, swept_scenario, tool

SWEEP = tool("tools/sweep")
CRAWLER = EXAMPLES / "friendly/crawler.json"
pytestmark = needs("parallel")


def large(folder, *words):
    """Returns the arguments of a sweep of 200 points over the crawler's budget and its buffer, into FOLDER/out."""
    machine = folder / "swept.json"
    machine.write_text(CRAWLER.read_text().replace('"128K"', '"${Q}"').replace('"caps": 24', '"caps": ${C}'))
    axes = [it for axis in ("Q=4K..40K:4K", "C=3..12", "D=1M,64K") for it in ("--set", axis)]
    return ["--machine", machine, "--scenario", swept_scenario(folder), *axes, "--out", folder / "out", *words, "accounts"]


def small(folder, to, *words):
    """Returns the arguments of a sweep of four points, one in a batch."""
    scenario = swept_scenario(folder, "a b.scenario")
    return ["--machine", CRAWLER, "--scenario", scenario, "--set", "D=61K..64K:1K", "--points", "1", "--out", to, *words, "run"]


def table_of(folder, words):
    SWEEP(*words).ok()
    return (folder / "points.csv").read_text()


@pytest.fixture
def table(once):
    """Returns the table of the large sweep."""
    return (once("sweep", lambda folder: table_of(folder / "out", large(folder))) / "out/points.csv").read_text()


@pytest.mark.slow
def test_table(table):
    """A point that fails is a row with its line."""
    rows = list(csv.reader(table.splitlines()))
    assert len(rows) == 201
    assert ["40K", "12", "1M", "0", "", ""] in [it[:6] for it in rows]
    (failed,) = [it for it in rows if it[:3] == ["4K", "3", "1M"]]
    assert failed[3] == "3" and failed[4].isdigit() and failed[5].startswith("expected `")


def test_map(tmp_path):
    """A cell is green if all points with its values have status 0, and else red and crossed; adjacent ones are one rectangle."""
    scenario, out = tmp_path / "it.scenario", tmp_path / "out"
    scenario.write_text("reader quota => ram 0/$Q caps 0/16\nreader alloc $A => granted\n# $N\n")
    axes = [it for axis in ("Q=98304,98305", "A=64K..128K:32K", "N=a<b,c") for it in ("--set", axis)]
    words = ["--machine", CRAWLER, "--scenario", scenario, *axes, "--out", out, "run"]
    assert SWEEP(*words[:-1], "--map", "A", "Q", "run").ok() == f"12 points: 4 hold, 8 don't ({out}/points.csv)\n"
    drawn = (out / "map.svg").read_text()
    cells = {name: [(int(y), int(width) // 28) for y, width in re.findall(r"M\d+ (\d+)h(\d+)v28", path)]
             for path, name in re.findall(r'<path d="([^"]*)" fill="url\(#(\w+)\)"', drawn)}
    assert cells == {"good": [(28, 2)], "bad": [(0, 3), (28, 1)]}
    assert SWEEP(*words[:-1], "--map", "N", "A", "run").status == 0 and ">a&lt;b</text>" in (out / "map.svg").read_text()
    ElementTree.parse(out / "map.svg")


@pytest.mark.slow
def test_killed(tmp_path, table):
    """A sweep that is killed continues with the points that it lacks, and its table is the same."""
    words, out = large(tmp_path, "--points", "10", "--jobs", "1"), tmp_path / "out"
    streams = {"stdout": subprocess.DEVNULL, "stderr": subprocess.DEVNULL}
    with subprocess.Popen([SWEEP.path, *words], start_new_session=True, **streams) as ran:
        while ran.poll() is None and not (out / "rows/3").exists():
            time.sleep(0.02)
        # (all processes of its session)
        run("pkill", "-KILL", "-s", str(ran.pid)).ok()
    assert not (out / "points.csv").exists()
    before = (out / "rows/1").stat()
    assert table_of(out, words) == table
    after = (out / "rows/1").stat()
    assert (before.st_ino, before.st_mtime_ns) == (after.st_ino, after.st_mtime_ns)


@pytest.mark.slow
def test_batches(nethrywel, tmp_path, table):
    """A sweep is planned, its batches run as the tasks of an array, and then its table is written."""
    words, out = large(tmp_path, "--points", "50"), tmp_path / "out"
    assert SWEEP(*words[:-1], "--plan", words[-1]).out == f"4 batches ({out})\n"
    for number in ("3", "1", "4"):
        SWEEP("--batch", number, "--program", nethrywel.path, out).ok()
    assert table_of(out, words) == table


@pytest.mark.slow
@needs("rsync", "/usr/sbin/sshd")
def test_hosts(tmp_path, table, sshd):
    """Two servers run the points, and one that doesn't answer loses nothing. No file remains on a server."""
    servers = [sshd(it) for it in ("host1", "host2", "host3")]
    servers[2].process.terminate()
    servers[2].process.wait()
    (tmp_path / "hosts").write_text("".join(it.line for it in servers))
    assert table_of(tmp_path / "out", large(tmp_path, "--points", "20", "--hosts", tmp_path / "hosts")) == table
    for it in servers[:2]:
        assert "Accepted" in it.log.read_text()
        assert [file for file in it.home.rglob("*") if file.is_file()] == []


def test_names_that_a_shell_reads(nethrywel, tmp_path):
    """The name of a folder is no part of a shell's text, and no placeholder of GNU parallel."""
    folder, out = tmp_path / "c d; touch ran;", tmp_path / "e f; touch ran; {1} {}"
    folder.mkdir()
    shutil.copy(nethrywel.path, folder)
    assert SWEEP(*small(tmp_path, out), env=environment(PROGRAMS=folder), cwd=tmp_path).status == 0
    assert not (tmp_path / "ran").exists() and not (out / "ran").exists()
    assert (out / "points.csv").read_text().count("\n") == 5


def test_this_host(tmp_path):
    """`:` in a file of hosts is this one. Each folder has its own name on other hosts."""
    (tmp_path / "here").write_text(":\n")
    hosts = {"one": [], "two": ["--hosts", tmp_path / "here"], "three": ["--hosts", tmp_path / "here"]}
    assert len({table_of(tmp_path / out, small(tmp_path, tmp_path / out, *words)) for out, words in hosts.items()}) == 1
    names = [(tmp_path / it / "remote").read_text() for it in ("two", "three")]
    assert names[0] != names[1] and all(len(it) == 16 for it in names)
    ran = SWEEP(*small(tmp_path, tmp_path / "four", "--hosts", tmp_path / "none"))
    assert (ran.status, ran.err) == (2, f"sweep: {tmp_path}/none: No such file or directory\n")


def test_rows_that_are_cut_off(nethrywel, tmp_path):
    """A batch with rows missing runs again. The same sweep with another build of the program is refused."""
    out, words, other = tmp_path / "out", small(tmp_path, tmp_path / "out"), tmp_path / "other/nethrywel"
    whole = table_of(out, words)
    (out / "rows/2").write_text("")
    assert table_of(out, words) == whole
    other.parent.mkdir()
    other.write_bytes(Path(nethrywel.path).read_bytes() + b"\n")
    other.chmod(0o755)
    ran = SWEEP(*words, env=environment(PROGRAMS=other.parent))
    assert ran.status == 2 and "another build of nethrywel" in ran.err


@pytest.mark.parametrize("text, words, row", [
    ("@repeat $D\n", ["accounts"], "3,1,`@repeat` without `@end`"), ("@repeat $D\n", ["least"], "3,1,`@repeat` without `@end`"),
    ("reader quota # $D\n", ["accounts", "--help"], "0,,"), ("reader quota # $D\n", ["check", "--help"], "0,,")], ids=str)
def test_nothing_is_run(tmp_path, text, words, row):
    """A point whose scenario isn't run, or that prints something else, is a row without needs."""
    (tmp_path / "it.scenario").write_text(text)
    given = ["--machine", CRAWLER, "--scenario", tmp_path / "it.scenario", "--set", "D=1", "--out", tmp_path / "out"]
    assert table_of(tmp_path / "out", [*given, *words]).startswith(f"D,status,line,complaint\n1,{row}")


def test_trillion_points(tmp_path):
    """The plan of many points takes no memory for each."""
    out, axis = tmp_path / "out", "D=1..1000000000000"
    words = ["--machine", CRAWLER, "--scenario", swept_scenario(tmp_path), "--set", axis, "--out", out]
    assert SWEEP(*words, "--plan", "run", **limited(**{"as": 2_048_000_000})).out == f"10000000000 batches ({tmp_path}/out)\n"
