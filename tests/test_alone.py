"""`scenario_run --only` prints for each component what it is answered among the others, and the account list adds up."""
import re
from collections import defaultdict

import pytest
from commands import ENGINE_CASES, EXAMPLES, TOP
from hypothesis import given
from hypothesis import strategies as st

SCRIPTS = ("alice", "bob", "sub/carol", "sub/dave")
# An unknown name, an init and a server make calls too.
CALLERS = (*SCRIPTS, "al", "sub", "log")
MACHINE = TOP / "bench/mixed.json"
WHOLE = (256 * 4096, 256)

# Each script gets a buffer at the same address; then come calls around it.
LENT = [f"{name} {call}" for name in SCRIPTS for call in (
    "open File_system ram_quota=36K, cap_quota=6", "call 1 CREATE a", "call 1 BUFFER 8192", "attach 2")]
# Calls of every kind except an exit, with sizes, selectors and addresses of several kinds; and calls around a buffer.
CALLS, BUFFER_CALLS = ((TOP / f"bench/{it}.calls").read_text().splitlines() for it in ("mixed", "buffers"))


def lines(of, count):
    """Draws a few lines more than a count, each a call by any caller."""
    line = st.builds("{} {}".format, st.sampled_from(CALLERS), st.sampled_from(of))
    return st.lists(line, min_size=count, max_size=count + 10)


def replies_to(transcript):
    """Returns what each known name is answered: its replies, each with the log lines before it."""
    replies, before = defaultdict(str), ""
    for line in transcript.splitlines(keepends=True):
        before += line
        if not line.startswith("["):
            replies[line.split(":")[0]] += before
            before = ""
    return {name: text for name, text in replies.items() if name != "?"}


def check_each_alone(engine, scenario, *words, **options):
    whole = engine(*words, stdin=scenario, **options)
    assert whole.status == 0, whole
    for name, text in replies_to(whole.out).items():
        assert engine(*words, "--only", name, stdin=scenario, **options) == (0, text, ""), name


def sums(accounts):
    """Returns the sums of all limits of an account list, reserves too, and its totals."""
    limits = re.findall(r"^(?:account|reserve|session) .*ram (?:\d+/)?(\d+) caps (?:\d+/)?(\d+)$", accounts, re.M)
    total = re.search(r"^total ram (\d+) caps (\d+)$", accounts, re.M)
    return tuple(sum(int(it[part]) for it in limits) for part in (0, 1)), (int(total[1]), int(total[2]))


@pytest.mark.slow
@given(mix=lines(BUFFER_CALLS, 100))
def test_mix_around_buffers(engine, mix):
    check_each_alone(engine, "\n".join([*LENT, *mix]), MACHINE)


@pytest.mark.slow
@given(phases=st.tuples(*[lines(CALLS, 30)] * 4))
def test_mix_with_exits(engine, phases):
    """After each exit of a mix the limits of the account list add up to the machine's."""
    mix = []
    for script, phase in zip(SCRIPTS, phases, strict=True):
        mix += phase
        ran = engine("--accounts", MACHINE, stdin="\n".join(mix))
        assert ran.status == 0 and sums(ran.out) == (WHOLE, WHOLE), ran
        mix.append(f"{script} exit")
    check_each_alone(engine, "\n".join(mix), MACHINE)


def whole_runs():
    """Yields the scenarios of the repository that the engine runs whole, each with its start list."""
    for path in sorted(EXAMPLES.glob("*.scenario")):
        machine = path.with_suffix(".json")
        yield pytest.param(path, [machine] if machine.exists() else [], id=path.relative_to(TOP).as_posix())
    for path in sorted(ENGINE_CASES.glob("*/*.stdout")):
        case, args = path.with_suffix(""), path.with_suffix(".args")
        words = args.read_text(errors="surrogateescape").split("\n")[:-1] if args.exists() else []
        words = [it for it in words if it != "--accounts"]
        is_whole = not words or len(words) == 1 and not words[0].startswith("-") and (case.parent / words[0]).exists()
        if is_whole and not path.with_suffix(".status").exists():
            yield pytest.param(case, [case.parent / it for it in words], id=case.relative_to(TOP).as_posix())


@pytest.mark.slow
@pytest.mark.parametrize("scenario, words", whole_runs())
def test_scenario(engine, scenario, words):
    check_each_alone(engine, scenario.read_text(errors="surrogateescape"), *words)
