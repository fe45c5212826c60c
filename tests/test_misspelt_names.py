"""A line with a misspelt component, service, key, request or kind is never a passed test, whatever it expects."""
import string

from commands import CASES
from hypothesis import assume, given
from hypothesis import strategies as st

MACHINE = ("--machine", CASES / "nethrywel/declared/files/windows.json")
OPENED = "gina open Gui ram_quota=32K, cap_quota=5 => cap 1\n"
SCRIPTS, KINDS = ("gina", "hugo"), ("view", "surface")
SERVICES, KEYS = ("Gui", "LOG"), ("ram_quota", "cap_quota", "label")
REQUESTS = "MAKE RESIZE DROP COUNT NAME STAT BUFFER UNBUFFER".split()
# Lines that pass: what is before a name, the name, what is after it, and the other names that could be there.
LINES = (
    ("", "gina", " quota", SCRIPTS),
    ("", "hugo", " open LOG ram_quota=4K, cap_quota=2", SCRIPTS),
    ("gina call 1 ", "STAT", "", REQUESTS),
    ("gina call 1 ", "MAKE", " view main", REQUESTS),
    ("gina call 1 MAKE ", "view", " main", KINDS),
    ("gina call 1 COUNT ", "surface", "", KINDS),
    ("hugo open ", "LOG", " ram_quota=4K, cap_quota=2", SERVICES),
    ("gina open ", "Gui", "", SERVICES),
    ("hugo open LOG ", "ram_quota", "=4K, cap_quota=2", KEYS),
    ('hugo open LOG ram_quota=4K, cap_quota=2, ', "label", '="a, b=1"', KEYS),
    ("gina upgrade 1 ", "cap_quota", "=1, ram_quota=1", KEYS),
    ("gina upgrade 7 ", "ram_quota", "=4K", KEYS),
    ("gina request ", "ram_quota", "=4K", KEYS),
    ("gina yield ram_quota=4K, ", "cap_quota", "=1", KEYS),
)
EXPECTED = ("", " => granted", " => refused", " => *", " => ERR *", " => $reply", " => Gone", " => ok", " => Service_denied")


@st.composite
def misspelt(draw):
    """Draws a line with a name that is changed by one edit, so that nothing has the new name, and an expectation."""
    before, name, after, names = draw(st.sampled_from(LINES))
    place, left_out = draw(st.integers(0, len(name))), draw(st.integers(0, 1))
    other = name[:place] + draw(st.sampled_from(["", *string.ascii_letters])) + name[place + left_out :]
    assume(other and other not in names)
    return before + other + after + draw(st.sampled_from(EXPECTED))


def test_misspelt_names(nethrywel):
    assert not nethrywel("run", *MACHINE, "-", stdin=OPENED + "".join(f"{''.join(it[:3])}\n" for it in LINES)).status

    @given(misspelt())
    def check(line):
        ran = nethrywel("run", *MACHINE, "-", stdin=f"{OPENED}{line}\n")
        assert ran.status == 3 and ran.err.startswith("-:2:"), line

    check()
