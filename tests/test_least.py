"""What `nethrywel least` writes for a scenario with names is answered as the scenario expects, and nothing less is."""
import itertools
import json

from hypothesis import given
from hypothesis import strategies as st

SERVERS = [{"name": "log", "quantum": "0", "caps": 0, "provides": ["LOG"]},
           {"name": "files", "quantum": "0", "caps": 0, "provides": ["File_system"]}]


def machine(budgets):
    """Returns a start list in which each script has a budget."""
    scripts = [{"name": name, "binary": "script", "quantum": str(ram), "caps": caps} for name, (ram, caps) in budgets.items()]
    return json.dumps({"machine": {"pages": 4096, "caps": 4096}, "default-route": [{"any-service": True, "any-child": True}],
                       "start": SERVERS + scripts})


# By the call that gives it back, what a script takes: a call with one of these sizes, and the reply that binds a name.
TAKEN = {"free": ("alloc {}", (1, 4096, 9000, 65536), "cap"), "capfree": ("capalloc", (0,), "cap"),
         "del": ("new {}", (1, 2000, 9000, 20000), "at"), "sdel": ("snew {}", (1, 8000), "at")}
STEPS = (*((step, end) for end in TAKEN for step in ("takes", "gives")),
         *((it,) for it in "opens requests requests lends repeats closes refused".split()))


class Script:
    """The lines of a script, each of which is granted if its accounts suffice, and the names of what the script has."""

    def __init__(self, name, pick, numbers):
        self.name, self.pick, self.numbers = name, pick, numbers
        self.names, self.sessions = {it: [] for it in TAKEN}, {}

    def lines(self):
        """Returns the lines of one more step, which opens a session if it needs one and there is none."""
        step, *of = self.pick(STEPS)
        if step in ("requests", "lends", "closes"):
            step, of = (step, [self.pick(sorted(self.sessions))]) if self.sessions else ("opens", [])
        return getattr(self, step)(*of)

    def binds(self, call, form, names):
        """Returns the line of a call whose reply binds a new name, which is added to others."""
        names.append(f"${self.name}{next(self.numbers)}")
        return f"{self.name} {call} => {form} {names[-1]}"

    def takes(self, end):
        call, sizes, form = TAKEN[end]
        return [self.binds(call.format(self.pick(sizes)), form, self.names[end])]

    def gives(self, end):
        """Returns the line of a call that gives back what a name denotes, or a line that binds one if there is none."""
        names = self.names[end]
        return [f"{self.name} {end} {names.pop(self.pick(range(len(names))))} => ok"] if names else self.takes("free")

    def opened(self, names):
        ram, caps = self.pick((1, 4096, 9000, 16384, 40960)), self.pick((1, 2, 3, 6))
        return self.binds(f"open File_system ram_quota={ram}, cap_quota={caps}", "cap", names)

    def opens(self):
        names = []
        line = self.opened(names)
        self.sessions[names[0]] = {}
        return [line]

    def requests(self, at):
        files = self.sessions[at]
        if not files or self.pick((True, False)):
            files[f"f{next(self.numbers)}"] = 0
            return [f"{self.name} call {at} CREATE {list(files)[-1]} => OK"]
        file, more = self.pick(sorted(files)), self.pick((1, 40, 3000))
        files[file] += more
        return [f"{self.name} call {at} WRITE {file} {files[file] - more} {'61' * more} => OK {more}"]

    def lends(self, at):
        """Returns lines that use a session's buffer and give it back."""
        names = []
        return [self.binds(f"call {at} BUFFER {self.pick((1, 5000))}", "OK cap", names),
                self.binds(f"attach {names[0]}", "at", names), f"{self.name} poke {names[1]} 61 => ok",
                f"{self.name} call {at} UNBUFFER => OK"]

    def repeats(self):
        """Returns lines of a round, in which a session needs more each time."""
        names = []
        opening = self.opened(names)
        lent = self.binds(f"call {names[0]} BUFFER $n+{self.pick((1, 4096))}", "OK cap", names)
        return ["@repeat 2 as n", opening, lent, f"{self.name} close {names[0]} => ok", "@end"]

    def closes(self, at):
        del self.sessions[at]
        return [f"{self.name} close {at} => ok"]

    def refused(self):
        return [f"{self.name} alloc 17M => refused"]


@st.composite
def drawn(draw):
    """Draws the budgets of two scripts, which often don't suffice, and a scenario with names."""
    numbers = itertools.count(1)
    scripts = [Script(name, lambda of: draw(st.sampled_from(of)), numbers) for name in ("a", "b")]
    budgets = {it.name: draw(st.sampled_from(((4096, 2), (16384, 4), (65536, 12)))) for it in scripts}
    chosen = draw(st.lists(st.sampled_from(scripts), min_size=6, max_size=24))
    return budgets, [line for it in chosen for line in it.lines()]


def less(budgets):
    """Yields these budgets with a byte or a capability less of one script."""
    for name, (ram, caps) in budgets.items():
        yield from ({**budgets, name: it} for it in ((ram - 1, caps), (ram, caps - 1)) if min(it) >= 0)


def budgets_in(path):
    """Returns the budget of each script of a start list, in bytes and capabilities."""
    def bytes_of(text):
        return int(text[:-1]) * 1024 if text.endswith("K") else int(text)

    return {it["name"]: (bytes_of(it["quantum"]), it["caps"]) for it in json.loads(path.read_text())["start"] if it.get("binary") == "script"}


def test_names(nethrywel, tmp_path_factory):
    @given(drawn())
    def check(it):
        budgets, lines = it
        folder = tmp_path_factory.mktemp("least")
        given_list, scenario, list_, least = (folder / name for name in ("given.json", "scenario", "least.json", "least"))
        given_list.write_text(machine(budgets))
        scenario.write_text("".join(f"{line}\n" for line in lines))
        words = ["least", "--machine", given_list, scenario]
        list_.write_text(nethrywel(*words, "--list").ok())
        minimum = budgets_in(list_)
        least.write_text(nethrywel(*words, "--scenario").ok())
        nethrywel("run", "--machine", list_, least).ok()
        safe_list, safe = folder / "safe.json", folder / "safe"
        safe_list.write_text(nethrywel(*words, "--safe", "--list").ok())
        safe.write_text(nethrywel(*words, "--safe", "--scenario").ok())
        nethrywel("run", "--machine", safe_list, safe).ok()
        # The address of a block depends on the budget, so a smaller budget may name other blocks.
        if any(" new " in line for line in lines):
            return
        for name, (ram, caps) in budgets_in(safe_list).items():
            for more in (1, 4096, 9000, 20000):
                list_.write_text(machine({**budgets_in(safe_list), name: (ram + more, caps + more % 3)}))
                nethrywel("run", "--machine", list_, safe).ok()
        for smaller in less(minimum):
            list_.write_text(machine(smaller))
            assert nethrywel("run", "--machine", list_, least).status == 3, smaller

    check()
