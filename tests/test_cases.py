"""The cases of cases/, and the examples: both programs and the tools print what the files say."""
import re
import subprocess

import pytest
from commands import CASES, ENGINE_CASES, EXAMPLES, PYTHON, TOP, Program, environment, machine_of, run, tool

KINDS = (".stdout", ".args", ".status", ".stderr")
FOLDERS = [it for root in ("engine", "nethrywel", "tools") for it in sorted((CASES / root).iterdir()) if it.is_dir()]


def id_of(path):
    return path.relative_to(CASES).as_posix()


def names_in(folder):
    """Returns the names of the cases in a folder."""
    return sorted(it.name for it in folder.iterdir() if it.is_file() and it.suffix not in (*KINDS, ".json", ".md"))


# Cases of a million lines, which take minutes without the optimizations of a proved program.
SLOW = ("as-many-lines-as-may-be",)


def cases():
    found = ((folder, name) for folder in FOLDERS for name in names_in(folder))
    return [pytest.param(folder / name, marks=[pytest.mark.slow] * (name in SLOW)) for folder, name in found]


def check(program, case, **options):
    """Compares what a program prints for a case with the case's files."""
    files = {kind: case.with_name(case.name + kind) for kind in KINDS}
    parts = {kind: path.read_bytes() if path.exists() else b"" for kind, path in files.items()}
    args = parts[".args"].removesuffix(b"\n")
    with case.open("rb") as stdin:
        ran = run(program.path, *(args.split(b"\n") if args else ()), stdin=stdin, cwd=case.parent, **options)
    assert ran == (int(parts[".status"] or 0), *(parts[it].decode(errors="surrogateescape") for it in (".stdout", ".stderr")))


@pytest.mark.parametrize("case", cases(), ids=id_of)
def test_case(request, case):
    """The first folder of a case is its program, or has folders of the tools' names."""
    of = case.relative_to(CASES).parts[0]
    check(tool(f"tools/{case.parent.name}") if of == "tools" else request.getfixturevalue(of), case)


@pytest.mark.slow
@pytest.mark.parametrize("size", [1, 7])
def test_pieces(engine, tmp_path, size):
    """Each case of the engine prints the same if each read takes at most this number of bytes (pieces.c). If none takes any, the
    input is empty."""
    library = tmp_path / "pieces.so"
    subprocess.run(["cc", "-O1", "-shared", "-fPIC", "-o", library, TOP / "tests/pieces.c"], check=True)
    assert engine(stdin="alice quota\n", env=environment(LD_PRELOAD=library, PIECES=0)) == (0, "", "")
    for folder in FOLDERS:
        for name in names_in(folder) if folder.parent == ENGINE_CASES else ():
            check(engine, folder / name, env=environment(LD_PRELOAD=library, PIECES=size))


def test_second_build(engine, tmp_path):
    """The build by the second compiler, which `rt ci` leaves, parses command lines in the same way."""
    second = Program(tmp_path / "scenario_run")
    try:
        (tmp_path / "scenario_run").symlink_to(engine.path + ".by-rattle")
        second("--version")
    except FileNotFoundError:
        pytest.skip("rt ci makes the second build")
    for name in names_in(ENGINE_CASES / "words"):
        check(second, ENGINE_CASES / "words" / name)


def rows_of(folder):
    """Returns the first cell of each row of the tables in a folder's README.md, without backquotes."""
    cells = [line.split("|")[1].strip(" `") for line in (folder / "README.md").read_text().splitlines() if line.startswith("|")]
    return sorted(it for it in cells if it != "Case" and it.strip("-"))


@pytest.mark.parametrize("folder", [*FOLDERS, CASES / "lists"], ids=id_of)
def test_folder(folder):
    """Each case, and each table of lists, has its row in README.md. Each case has its NAME.stdout, and each other file belongs
    to a case."""
    names = names_in(folder)
    assert rows_of(folder) == names
    words = {line for it in folder.glob("*.args") for line in it.read_bytes().split(b"\n")}
    assert [it.name for it in folder.glob("*.json") if it.name.encode() not in words] == [], "no case names it"
    assert [it.name for it in folder.iterdir() if it.suffix in KINDS and it.stem not in names] == [], "it belongs to no case"
    assert folder.name == "lists" or [it for it in names if not (folder / f"{it}.stdout").exists()] == []


def lists():
    """Yields the start lists of all tables with what a check reports of each."""
    for table in names_in(CASES / "lists"):
        form, *rows = (CASES / "lists" / table).read_text().removesuffix("\n").split("\n")
        for number, (text, result) in enumerate((row.split(" => ", 1) for row in rows), 2):
            yield pytest.param(form.replace("@", text, 1).encode(), result, id=f"lists/{table}/{number}")


def checked(engine, text, path):
    """Returns what the engine's check of a start list reports: `ok`, or the fault."""
    path.write_bytes(text)
    ran = engine("--check", path)
    fault = re.fullmatch(r"boot: (.*)\n", ran.err)
    assert ran == ((2, "", fault[0]) if fault else (0, "ok\n", ""))
    return fault[1] if fault else "ok"


@pytest.mark.parametrize("text, result", lists())
def test_list(engine, tmp_path, text, result):
    assert checked(engine, text, tmp_path / "list.json") == result


def test_cut_lists(engine, tmp_path):
    """The built-in list is no JSON if it is cut at any byte; nor is a text that isn't UTF-8."""
    text = next(it for it in lists() if it.values[1] == "ok" and "built-in/" in it.id).values[0]
    for cut in [*(text[:length] for length in range(len(text))), b'{"\xff":0}']:
        assert checked(engine, cut, tmp_path / "cut.json") == "Bad_json", cut


def scenarios(pattern):
    return [it.relative_to(EXAMPLES).with_suffix("").as_posix() for it in sorted(EXAMPLES.glob(pattern))]


@pytest.mark.parametrize("name", scenarios("*.scenario"))
def test_example(engine, nethrywel, name):
    """Both programs print the transcript of an example in the strict format."""
    machine = machine_of(name)
    accounts = ["--accounts"] if machine else []
    text, transcript = ((EXAMPLES / f"{name}.{it}").read_text() for it in ("scenario", "transcript"))
    assert engine(*accounts, *machine[1:], stdin=text) == (0, transcript, "")
    strict = "".join(f"!{it}" for it in text.splitlines(keepends=True))
    assert nethrywel("run", *accounts, *machine, "-", stdin=strict) == (0, transcript, "")


SHOWN = {file: words.split() for file, words in (it.split(": ") for it in (CASES / "shown").read_text().splitlines())}
SHOWN |= {f"{it}.transcript": ("run", *machine_of(it), f"{it}.scenario") for it in scenarios("friendly/*.scenario")}


@pytest.mark.parametrize("file", SHOWN)
def test_shown(nethrywel, file):
    assert nethrywel(*SHOWN[file]) == (0, (EXAMPLES / file).read_text(), "")


@pytest.mark.slow
@pytest.mark.parametrize("script, count", [("reach", 100), ("policies", 100), ("needs", 50), ("least", 20)])
def test_budgets_and_routes(nethrywel, script, count):
    """bench/reach.py, bench/policies.py, bench/needs.py and bench/least.py compare reach, policies, needs and least with second
    readings, or many runs, of drawn lists and scenarios."""
    run(PYTHON, TOP / f"bench/{script}.py", nethrywel.path, str(count), timeout=900).ok()
