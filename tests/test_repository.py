"""The documents, the command lines of all tools, and checkers of the sources: shellcheck and pyflakes."""
import re
import shutil

import pytest
from commands import COMMANDS, EXAMPLES, PAGES, PYTHON, TOP, environment, needs, on_terminal, run, script, tool
from test_sweep import small

# Tools that take no argument, or only names that are known.
CLOSED = [*(f"dev/{it}" for it in "attack check-documents crate-graph setup steps theorems tour".split()), "tools/sweep"]
TOOLS = [*CLOSED, *(f"dev/{it}" for it in ("package", "pictures")),
         *(f"tools/{it}" for it in ("desk", "from-genode", "install", "report")),
         "tests/run", "examples/statuses", "examples/compare", "bench/measure",
         *(f"bench/{it}" for it in "declared.py generate.py least.py needs.py policies.py profile reach.py reach_worst.py".split())]
NOTES = "friendly/notes.scenario"


def documents():
    return {it: it.read_bytes() for it in (TOP / "README.md", *sorted((TOP / "docs").rglob("*.md")))}


@pytest.mark.parametrize("name", TOOLS)
def test_help(name):
    """A help has what the tool does, then its usage, its arguments and its options. One that can't be written is reported."""
    parts = rf"(?!Usage)[A-Z].*(\n.*)*?\n\nUsage: {name}( .*)?\n(\nArguments:\n( .*\n)+)?(\nOptions:\n( .*\n)+)?"
    assert re.fullmatch(parts, tool(name)("--help").ok())
    with open("/dev/full", "w") as full:
        ran = tool(name)("--help", stdout=full)
    assert ran.status == 1 and re.fullmatch(r"[\w.-]+: .*standard output.*\n", ran.err), ran


@pytest.mark.parametrize("name, word", [*((name, "--frob") for name in TOOLS), *((name, "frob") for name in CLOSED)])
def test_unknown_argument(name, word):
    """An unknown argument has status 2. Nothing is printed except why, and no page is written."""
    before, ran = documents(), tool(name)(word)
    assert (ran.status, ran.out) == (2, "") and ran.err
    assert documents() == before


@needs("git")
def test_nethrywel_tool(nethrywel):
    """tools/nethrywel runs the built program, with its status. Its version has that of the sources next to it."""
    shown, commit = nethrywel("--version").out.strip(), run("git", "rev-parse", "--short=12", "HEAD", cwd=TOP)
    known = rf"\+g{commit.out.strip()}(\.changed)?" if (TOP / ".git").exists() and commit.status == 0 else ""
    assert re.fullmatch(rf"{shown} \(sources {shown.split()[1]}{known}\)\n", tool("tools/nethrywel")("--version").out)
    assert tool("tools/nethrywel")("check", "/missing").status == 2


@needs(*PAGES)
@pytest.mark.parametrize("name, package", [("report", "jinja2"), ("report", "tqdm"), ("desk", "jinja2"), ("desk", "waitress")])
def test_missing_package(tmp_path, name, package):
    """Without a package a tool says what to do, and writes nothing."""
    (tmp_path / f"{package}.py").write_text("raise ModuleNotFoundError(name=__name__)\n")
    words = {"desk": [NOTES], "report": ["-o", tmp_path / "page.html", NOTES]}
    ran = tool(f"tools/{name}")(*words[name], env=environment(PYTHONPATH=tmp_path))
    assert ran == (1, "", f"{name}: python3-{package} isn't here; run dev/setup\n")
    assert not (tmp_path / "page.html").exists()


@needs(*PAGES, "parallel")
@pytest.mark.parametrize("name, shown", [("report", r"report: 00:0\d, nethrywel trace --json scenario"), ("sweep", "100%")],
                         ids=["report", "sweep"])
def test_progress(nethrywel, tmp_path, name, shown):
    """A tool shows its progress on a terminal, whose line is empty at the end, and nothing elsewhere."""
    script(tmp_path / "nethrywel", f'sleep 0.7\nexec "{nethrywel.path}" "$@"')
    words = {"report": [NOTES, "--seconds", "600", "-o", tmp_path / "page.html"]}
    settings = {"cwd": EXAMPLES, "env": environment(PROGRAMS=tmp_path)}
    ran, seen = (of(TOP / "tools" / name, *words.get(name, small(tmp_path, tmp_path / of.__name__)), **settings)
                 for of in (run, on_terminal))
    assert (ran.status, ran.err, seen.status) == (0, "", 0) and (ran.out == "") == (name == "report")
    assert any(re.search(shown, it) for it in seen.err.split("\r"))
    assert name == "sweep" or seen.out == ran.out and seen.err.split("\r")[-2].strip() == seen.err.split("\r")[-1] == ""


def test_commands(nethrywel):
    """The tests that try each command know all of them."""
    listed = nethrywel("--help").out.split("\nCommands:\n")[1].split("\n\n")[0]
    assert re.findall(r"^  (\w+)", listed, re.M) == [*COMMANDS, "help"]


def test_version(nethrywel):
    version = re.search(r"^## (\d[\d.]*)", (TOP / "CHANGELOG.md").read_text(), re.M)[1]
    assert nethrywel("--version") == (0, f"nethrywel {version}\n", "")


@needs("jinja2", "networkx")
@pytest.mark.parametrize("words", ["check-documents {}", "crate-graph --check", "theorems"])
def test_documents(nethrywel, words):
    """Links, words, quotes and scenarios of documents, the picture of the crates, and the places of the theorems."""
    name, *words = words.format(nethrywel.path).split()
    tool(f"dev/{name}")(*words).ok()


@needs("networkx")
def test_steps():
    """The files that a new call joins are in the order of work."""
    found = [it.split(" ")[0] for it in tool("dev/steps")("Call::Detach").ok().splitlines()]
    crates = "own_model/specs/OwnStep.antt own_model/proofs/StepTableLemmas.antt core_calls/src/call.rt pd_core/src/script.rt"
    places = [found.index(f"crates/{it}") for it in [*crates.split(), "line_grammar/src/line.rt"]]
    assert places == sorted(places) and len(found) == len(set(found))


@needs("networkx")
def test_theorems():
    """A name has its place, its clauses, its definitions, its callers and its promises; a crate its page, items and users."""
    for name, shown in (("boot_and_run", ["crates/cli_engine/src/program.rt:", "    ensures done {", "IsDone (crates/", "scenario_run: ",
                                          "promise docs/reference/promises.md:"]),
                        ("quota_core", ["crate quota_core:\n    The books", "Books (crates/quota_core/src/books.rt:", "\nused by:\n"])):
        found = tool("dev/theorems")(name).ok()
        assert all(it in found for it in shown)


@pytest.mark.parametrize("edit", [*TOP.glob("attacks/*/*.edit"), *TOP.glob("crates/*/must-fail/*.edit")],
                         ids=lambda it: it.relative_to(TOP).as_posix())
def test_mutant(edit):
    """The texts that a mutant replaces are in its crate, each once."""
    crate, texts = TOP / "crates" / (edit.parts[-3] if edit.parts[-2] == "must-fail" else edit.parts[-2]), {}
    for line in edit.read_text().splitlines():
        word, _, text = line.partition(": ")
        if word == "file":
            path = crate / text
            texts.setdefault(path, path.read_text())
        elif word == "old":
            assert texts[path].count(text) == 1
            before = text
        elif word == "new" or line == "new:":
            texts[path] = texts[path].replace(before, text)


@pytest.mark.slow
@needs("rt")
def test_first_proof(tmp_path):
    """The exercise of docs/maintain/first-proof.md in a copy of its crate: the function that it adds is proved."""
    page, crate = (TOP / "docs/maintain/first-proof.md").read_text(), tmp_path / "crates/view_test_report"
    shutil.copytree(TOP / "crates/view_test_report", crate, ignore=shutil.ignore_patterns("out"))
    (tmp_path / "crates.txt").write_text("view_test_report: hex\n")
    function, clause = re.search(r"`(pub fn passes.*?)` with `(ensures .*?)`", page).groups()
    comment, body = re.search(r'"(Returns how many trials passed\.)"', page)[1], "trials.iter().filter(|it| it.result.passed).count()"
    for name, change in (("specs/Trials.antt", lambda text: text + "\n" + "".join(
            it.replace("failed", "passed").replace("not ", "") + "\n" for it in text.split("\n") if "failed_among" in it)),
                         ("src/test_result.rt", lambda text: text.replace("{failed_among", "{failed_among, passed_among")
                          + f"\n/// {comment}\n{function}\n    {clause}\n{{\n    {body}\n}}\n")):
        (crate / name).write_text(change((crate / name).read_text()))
    ran = run("rt", "check", "--only", "test_result::passes", cwd=crate)
    assert ran.status == 0 and "\nfn view_test_report::test_result::passes: proved\n" in ran.out + ran.err


CONSOLES = [it.relative_to(TOP).as_posix() for it, text in documents().items() if b"\n```console\n" in text]


@pytest.mark.slow
@pytest.mark.parametrize("page", [*CONSOLES, "examples/ci"])
def test_commands_of_page(page):
    """The commands of a page print what the page shows, and the jobs of examples/ci pass."""
    ran = tool("dev/tour")("--check", page)
    if ran.out.startswith("skipped: "):
        pytest.skip(ran.out.strip())
    ran.ok()


@pytest.mark.slow
@needs("dot", "chromium", "chromedriver", "selenium")
def test_pictures(tmp_path):
    """The pictures of the documents are drawn again, each whole."""
    tool("dev/pictures")(tmp_path).ok()
    assert sorted(it.name for it in tmp_path.iterdir()) == ["desk.png", "labels.svg", "machine.svg", "theorem.svg"]
    for name in ("labels.svg", "machine.svg", "theorem.svg"):
        assert (tmp_path / name).read_text() == (EXAMPLES / "pictures" / name).read_text()
    assert "PNG image data, 1500 x 1187" in run("file", tmp_path / "desk.png").out


def sources(language):
    """Returns the files of tools, tests, bench and examples in a language, by their first lines and endings."""
    mark, ending = {"sh": (rb"#!.*sh\b|# shellcheck shell", ".sh"), "python": (rb"#!.*python", ".py")}[language]
    found = (it for folder in (".ci", "tools", "dev", "tests", "bench", "examples") for it in sorted((TOP / folder).rglob("*")))
    found = [it for it in found if it.is_file() and "/out/" not in str(it)]
    return [it for it in found if it.suffix == ending or re.match(mark, it.read_bytes())]


@needs("shellcheck")
@pytest.mark.parametrize("file", sources("sh"), ids=lambda it: it.relative_to(TOP).as_posix())
def test_shellcheck(file):
    run("shellcheck", "-x", "-P", "SCRIPTDIR", file, cwd=TOP).ok()


@needs("pyflakes")
def test_pyflakes():
    run(PYTHON, "-m", "pyflakes", *sources("python")).ok()
