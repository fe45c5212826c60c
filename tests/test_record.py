"""What `nethrywel record` writes of a scenario is what `run` answers."""
import itertools
import os
import re
import subprocess
import threading

import pytest
from commands import PYTHON, TOP, machine_of, needs, run
from hypothesis import example, given
from hypothesis import strategies as st
from test_cases import scenarios

SHAPES = "quota churn limit bytes short regions full caps sliced heap turns holes sessions log middle reserves".split()
FILE_SHAPES = "files contents buffers lent".split()


def check_record(nethrywel, folder, text, *words):
    """Records a scenario, and compares the result with the scenario, with its replies, and with further records of it."""
    scenario, recorded, wrong = (folder / it for it in ("drawn.scenario", "recorded.scenario", "wrong.scenario"))
    scenario.write_text(text)
    out = nethrywel("record", *words, scenario).ok()
    kept = [it for it in out.splitlines() if not it.startswith("=> ")]
    assert len(kept) == len(text.splitlines())
    assert all(line.startswith(before) for line, before in zip(kept, text.splitlines(), strict=True))
    recorded.write_text(out)
    nethrywel("run", *words, recorded).ok()
    assert nethrywel("record", *words, recorded).out == nethrywel("record", "--all", *words, recorded).out == out
    # Each expectation that binds no name is made wrong, and recorded again.
    lines = [it if re.search(r" => .*\$", it) else re.sub(r" => .*", " => never", it, count=1) for it in out.split("\n")]
    wrong.write_text("\n".join(f"{it}!" if it.startswith("=> ") else it for it in lines))
    assert nethrywel("record", "--all", *words, wrong).out == out


@pytest.mark.slow
@pytest.mark.parametrize("shape", SHAPES + FILE_SHAPES)
def test_shape(nethrywel, tmp_path_factory, shape):
    machine = ["--machine", TOP / "bench/files.json"] if shape in FILE_SHAPES else []

    @given(seed=st.integers(0, 32_767))
    @example(seed=0)
    def check(seed):
        text = run(PYTHON, TOP / "bench/generate.py", shape, "300", str(seed)).out
        check_record(nethrywel, tmp_path_factory.mktemp(shape), text, *machine)

    check()


@st.composite
def drawn(draw):
    """Draws a scenario for the built-in machine, with names, sums, @set and rounds, in which no line has a fault.

    alice takes only what she gives back, so what her replies bind is there. bob takes until he is refused. A reply is expected
    only if it binds a name."""
    numbers = itertools.count(1)

    def pick(*of):
        return draw(st.sampled_from(of))

    def page(_):
        number, at = next(numbers), draw(st.integers(0, 3999))
        page, where = f"page{number}", f"where{number}"
        return [f"alice alloc 4K => cap ${page}", f"alice attach ${{{page}}} => at ${where}",
                f'  alice poke ${where}+{at} "{at} $$"', f"alice peek ${where}+0x{at:x}+1 {pick(0, 1, 2, 3)}",
                f"alice peek ${where}+4096 1", f"alice detach ${where}", f"alice free ${page}"]

    def log(counters):
        text = pick("text", '$$5, \\"$$x\\" # *', "$size", *(f"${it}" for it in counters))
        return [f'alice call $log WRITE "{text}{pick("", chr(92) + "n")}"']

    def taken(counters):
        size = pick("$size", "4K", "64K", *(f"${it}+1" for it in counters))
        return [f"bob alloc {size}", pick("bob quota", "bob free 1", "bob capalloc", "# bob")]

    def set_size(_):
        return [f"@set size {draw(st.integers(1, 19))}K"]

    def rounds(counters, deep):
        counter = f"i{next(numbers)}" if draw(st.booleans()) else ""
        head = f"@repeat {pick(0, 1, 2, 3)}" + (f" as {counter}" if counter else "")
        return [head, *lines([*counters, counter] if counter else counters, deep - 1, 3), "@end"]

    def lines(counters, deep, most):
        found = []
        for _ in range(draw(st.integers(1, most))):
            make = pick(taken, log, set_size, page, *[rounds] * (deep > 0))
            found += rounds(counters, deep) if make is rounds else make(counters)
        return found

    opened = 'alice open LOG ram_quota=4K, cap_quota=2, label="$size" => cap $log'
    return "\n".join(["@set size 4K", opened, *lines([], 4, 12), ""])


@pytest.mark.slow
@given(text=drawn())
def test_names(nethrywel, tmp_path_factory, text):
    check_record(nethrywel, tmp_path_factory.mktemp("names"), text)


@pytest.mark.parametrize("name", scenarios("friendly/*.scenario"))
def test_example(nethrywel, tmp_path, name):
    """An example in the friendly form, which expects replies already, holds after `record --all`."""
    (tmp_path / "recorded.scenario").write_text(nethrywel("record", "--all", *machine_of(name), f"{name}.scenario").ok())
    nethrywel("run", *machine_of(name), tmp_path / "recorded.scenario").ok()


@pytest.fixture
def scenario(tmp_path):
    (tmp_path / "a.scenario").write_text("alice alloc 4K\nalice quota")
    (tmp_path / "a.scenario").chmod(0o640)
    return tmp_path / "a.scenario"


RECORDED = "alice alloc 4K => cap 1\nalice quota => ram 4096/65536 caps 1/16"


def test_write(nethrywel, scenario):
    """With --write a file is replaced, by a link too, and keeps its mode. A new file that another run left is no obstacle, and
    remains."""
    link, other = scenario.with_name("link"), scenario.with_name("a.scenario.new0")
    link.symlink_to(scenario.name)
    other.write_text("mine")
    assert nethrywel("record", "--write", link) == (0, "", "")
    assert (scenario.read_text(), other.read_text()) == (RECORDED, "mine")
    assert link.is_symlink() and scenario.stat().st_mode & 0o777 == 0o640
    assert sorted(os.listdir(scenario.parent)) == ["a.scenario", "a.scenario.new0", "link"]


@needs("strace")
def test_write_step_by_step(nethrywel, scenario):
    """The new file is its owner's alone until it is written. It is on the disk before it takes the name, and then its folder
    is."""
    traced = "trace=openat,fchmod,fsync,rename,renameat,renameat2"
    calls = run("strace", "-y", "-e", traced, nethrywel.path, "record", "--write", scenario).err
    new = re.escape(f"{scenario}.new0")
    steps = [rf'openat\(.*"{new}", .*O_CREAT\|O_EXCL.*, 0600\)', rf"fchmod\(\d+<{new}>, .*0?640\)", rf"fsync\(\d+<{new}>\)",
             rf'rename.*"{new}", .*"{re.escape(str(scenario))}".*\)', rf"fsync\(\d+<{re.escape(str(scenario.parent))}>\)"]
    assert re.search(r" = [^\n]*\n(.*\n)*".join(steps), calls), calls
    assert scenario.read_text() == RECORDED


def test_write_to_a_pipe(nethrywel, tmp_path):
    """What is no regular file remains as it is."""
    pipe = tmp_path / "pipe"
    os.mkfifo(pipe)
    writer = threading.Thread(target=lambda: pipe.write_text("alice quota\n"))
    writer.start()
    ran = nethrywel("record", "--write", pipe)
    writer.join()
    assert (ran.status, ran.err) == (1, f"error: cannot write {pipe}: not a regular file\n") and pipe.is_fifo()
    assert nethrywel("record", "--write", "/dev/null") == (1, "", "error: cannot write /dev/null: not a regular file\n")


def test_write_after_a_change(nethrywel, scenario):
    """A scenario that is changed while it is recorded stays as it was changed."""
    scenario.write_text("alice quota\n" + "alice alloc $size\n" * 2000)
    with subprocess.Popen([nethrywel.path, "record", "--write", scenario], stderr=subprocess.PIPE, text=True) as ran:
        # The errors fill the pipe, so the command waits after the first of them.
        ran.stderr.readline()
        scenario.write_text("bob quota")
        said = ran.stderr.read()
    assert said.endswith(f"error: cannot write {scenario}: it was changed meanwhile\n"), said[-200:]
    assert (ran.returncode, scenario.read_text()) == (1, "bob quota")
