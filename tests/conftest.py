"""Fixtures of all tests: the built programs, a desk and sshd on loopback, a browser; and the order in which the tests run."""
import contextlib
import fcntl
import os
import re
import signal
import socket
import subprocess
import time
from pathlib import Path
from types import SimpleNamespace

import pytest
from commands import EXAMPLES, TOP, Program, environment, limited, run
from hypothesis import HealthCheck, settings

# The same examples in each run, so that CI is deterministic; tests/run --random draws others, and more of them.
COMMON = {"deadline": None, "database": None, "suppress_health_check": list(HealthCheck), "print_blob": False}
settings.register_profile("fixed", derandomize=True, max_examples=20, **COMMON)
settings.register_profile("random", max_examples=200, **COMMON)
settings.load_profile("fixed")


def pytest_collection_modifyitems(items):
    """Sorts the tests that take long to the front, so that no processor waits for the last of them."""
    items.sort(key=lambda it: it.get_closest_marker("slow") is None)


@pytest.hookimpl(optionalhook=True)
def pytest_xdist_make_scheduler(config, log):
    from xdist.scheduler import LoadScheduling

    class InOrder(LoadScheduling):
        """Gives each process few tests at a time, so that the order holds."""

        def _send_tests(self, node, num):
            super()._send_tests(node, min(num, 2))

    return InOrder(config, log)


def built(name):
    folder = os.environ.get("PROGRAMS") or TOP / "crates" / name / "out"
    path = os.path.join(folder, name)
    if not os.access(path, os.X_OK):
        pytest.fail(f"{path} isn't built; tests/run builds it", pytrace=False)
    return Program(os.path.abspath(path))


@pytest.fixture(scope="session")
def engine():
    return built("scenario_run")


@pytest.fixture(scope="session")
def nethrywel():
    return built("nethrywel")


@pytest.fixture(scope="session")
def once(tmp_path_factory):
    """Returns what makes a folder once for all processes of a run: `once(name, make)` calls make(folder), and returns the
    folder."""
    root = tmp_path_factory.getbasetemp()
    root = root.parent if "PYTEST_XDIST_WORKER" in os.environ else root

    def made(name, make):
        folder, done = root / name, root / f"{name}.done"
        with open(root / f"{name}.lock", "w") as lock:
            fcntl.flock(lock, fcntl.LOCK_EX)
            if not done.exists():
                folder.mkdir(exist_ok=True)
                make(folder)
                done.touch()
        return folder

    return made


@pytest.fixture
def report(once):
    """Returns what writes the page of a name in test_report.REPORTS, once for all tests, and returns its path."""
    from test_report import write_report

    return lambda name: once(f"report-{name}", lambda folder: write_report(name, folder)) / f"{name}.html"


@pytest.fixture
def sshd(tmp_path):
    """Returns what starts an sshd on loopback by a name: its process, its log, its home, and its line in a file of hosts.
    All know one key, and are ended after the test."""
    folder, place, ends = tmp_path / "ssh", Path("/run/sshd"), contextlib.ExitStack()
    folder.mkdir()
    if not place.exists():
        place.mkdir()
        ends.callback(place.rmdir)
    key = folder / "key"
    run("ssh-keygen", "-q", "-t", "ed25519", "-N", "", "-f", key).ok()

    def started(name):
        home, log, config = folder / name, folder / f"{name}.log", folder / f"{name}.conf"
        home.mkdir()
        with socket.create_server(("127.0.0.1", 0)) as free:
            port = free.getsockname()[1]
        config.write_text((TOP / "tests/sshd.conf").read_text().format(port=port, key=key, home=home))
        process = ends.enter_context(subprocess.Popen(["/usr/sbin/sshd", "-D", "-f", config, "-E", log]))
        ends.callback(process.terminate)
        while process.poll() is None and not (log.exists() and "Server listening" in log.read_text()):
            time.sleep(0.02)
        options = "-o IdentitiesOnly=yes -o StrictHostKeyChecking=no -o UserKnownHostsFile=/dev/null -o LogLevel=ERROR"
        line = f"2/ssh -p {port} -i {key} {options} 127.0.0.1\n"
        return SimpleNamespace(process=process, log=log, home=home, line=line)

    with ends:
        yield started


@contextlib.contextmanager
def running_desk(folder, *words, end=signal.SIGINT):
    """Starts a desk with 256 descriptors and yields its address. A signal ends it with status 0, and it leaves no
    file and prints no traceback."""
    temporary, errors = folder / "desk", folder / "desk.err"
    temporary.mkdir()
    options = {"cwd": EXAMPLES, "env": environment(TMPDIR=temporary), "stdout": subprocess.PIPE, "text": True}
    with errors.open("w") as stderr:
        ran = subprocess.Popen([TOP / "tools/desk", *words], stderr=stderr, **options, **limited(nofile=256))
    try:
        url = ran.stdout.readline().strip()
        assert url, errors.read_text()
        yield url
        ran.send_signal(end)
        assert ran.wait(timeout=60) == 0
    finally:
        ran.kill()
        ran.wait()
    assert os.listdir(temporary) == [] and not re.search("Traceback|exception", errors.read_text())


@pytest.fixture
def desk(tmp_path):
    """Returns what starts a desk and returns its address. It ends after the test."""
    with contextlib.ExitStack() as started:
        yield lambda *words: started.enter_context(running_desk(tmp_path, *words))


@pytest.fixture(scope="module")
def browser():
    """Returns a page of Chromium."""
    from chromium import Page

    with contextlib.closing(Page()) as page:
        yield page
