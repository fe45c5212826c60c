"""Runs commands for the tests, and names the files that the tests read."""
import contextlib
import importlib.util
import os
import pty
import re
import resource
import shutil
import subprocess
from pathlib import Path
from typing import NamedTuple

import pytest

TOP = Path(__file__).resolve().parent.parent
CASES, ENGINE_CASES, EXAMPLES = TOP / "cases", TOP / "cases/engine", TOP / "examples"
COMMANDS = "run record check tree reach route trace accounts alone least test diff".split()
PYTHON = "/usr/bin/python3"
CRAWLER = ("--machine", "friendly/crawler.json")
SENSORS = ("--machine", "friendly/sensors.json")
# What the pages of report and desk need.
PAGES = ("jinja2", "tqdm", "waitress", "/usr/share/nodejs/d3/dist/d3.min.js", "/usr/share/javascript/codemirror/codemirror.js")
CHROMIUM = (*PAGES, "selenium", "/usr/bin/chromedriver", "/usr/bin/chromium")


def missing(*names) -> list[str]:
    """Returns the names of commands, Python packages and files that aren't here."""
    return [it for it in names if not (os.path.exists(it) or shutil.which(it) or "/" not in it and importlib.util.find_spec(it))]


def needs(*names):
    """Returns the mark of a test that is skipped if one of these commands, Python packages and files is missing."""
    return pytest.mark.skipif(bool(missing(*names)), reason=f"{', '.join(missing(*names))} isn't here")


class Ran(NamedTuple):
    """The end of a command: its status and both streams."""

    status: int
    out: str
    err: str

    def ok(self) -> str:
        """Returns the output of a command that ended with status 0."""
        assert self.status == 0, self.out + self.err
        return self.out


def run(*words, stdin="", cwd=EXAMPLES, timeout=600, **options) -> Ran:
    """Runs a command in a folder, with a text or an open file as standard input."""
    given = {"input": stdin.encode(errors="surrogateescape")} if isinstance(stdin, str) else {"stdin": stdin}
    streams = {"stdout": subprocess.PIPE, "stderr": subprocess.PIPE, **options}
    ran = subprocess.run(words, cwd=cwd, timeout=timeout, **given, **streams)
    return Ran(ran.returncode, *((it or b"").decode(errors="surrogateescape") for it in (ran.stdout, ran.stderr)))


def on_terminal(*words, **settings):
    """Runs a command whose standard error is a terminal, and returns its status, its output and what the terminal shows."""
    seen, terminal = pty.openpty()
    with subprocess.Popen(words, stdin=subprocess.DEVNULL, stdout=subprocess.PIPE, stderr=terminal, **settings) as ran:
        os.close(terminal)
        said = b""
        # (a terminal that nobody has open any more is an error for its reader)
        with contextlib.suppress(OSError):
            while part := os.read(seen, 1 << 12):
                said += part
        return Ran(ran.wait(), ran.stdout.read().decode(), said.decode())


class Program:
    """A program at a path, which a call runs."""

    def __init__(self, path):
        self.path = str(path)

    def __call__(self, *words, **options) -> Ran:
        return run(self.path, *words, **options)


def tool(name) -> Program:
    """Returns a tool of the repository, as tools/report."""
    return Program(TOP / name)


def environment(**settings):
    """Returns the environment with settings changed; those that are None are left out."""
    return {name: str(value) for name, value in {**os.environ, **settings}.items() if value is not None}


def limited(**limits):
    """Returns the option of `run` by which a command has these limits, as fsize=64."""
    numbers = {getattr(resource, f"RLIMIT_{name.upper()}"): limit for name, limit in limits.items()}
    return {"preexec_fn": lambda: [resource.setrlimit(number, (limit, limit)) for number, limit in numbers.items()]}


def script(path, text):
    """Writes a command of the shell, and returns its path."""
    path.parent.mkdir(parents=True, exist_ok=True)
    path.write_text(f"#!/bin/sh\n{text}\n")
    path.chmod(0o755)
    return path


def crawler_files(folder):
    """Copies the crawler's start list and scenario into a folder, and returns their paths."""
    return [Path(shutil.copy(EXAMPLES / "friendly" / it, folder)) for it in ("crawler.json", "crawler.scenario")]


def swept_scenario(folder, name="swept.scenario"):
    """Writes the crawler's scenario with a parameter D, the size of its buffer, and returns its path."""
    (folder / name).write_text((EXAMPLES / "friendly/crawler.scenario").read_text().replace("BUFFER 8K", "BUFFER $D"))
    return folder / name


def machine_of(scenario) -> list[str]:
    """Returns the option that names a scenario's start list, if it has one."""
    path = Path(scenario).with_suffix(".json")
    return ["--machine", str(path)] if (EXAMPLES / path).exists() else []


def forms_of(program, *command):
    """Returns the arguments of a command, those that may be left out in brackets, and its options, each with the kind of its
    value or an empty text, as its help has them."""
    text = program(*["help"] * bool(command), *command, *["--help"] * (not command)).ok()
    usage = text.split("Usage: ")[1].split("\n")[0]
    options = re.findall(r"^ +(?:-\w, )?(--[\w-]+)(?: <([^>]*)>)?", text, re.M)
    arguments = [it.strip("<>") for it in re.findall(r"<[A-Z]+>|\[[A-Z]+\]", usage) if it != "[OPTIONS]"]
    return arguments, [it for it in options if it[0] not in ("--help", "--version")]
