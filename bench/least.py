#!/usr/bin/env python3
"""Draws scenarios of one script, and compares the rows of `PROGRAM least --json` with what
`PROGRAM run` answers under many budgets: all page counts, the bytes at, one below and one above each row's ends, and
capabilities from 0 to 20. Of a session the donation varies, and every other account has enough. The same scenario with names for
its selectors has the same rows, also on a list whose budgets rarely suffice. The safe budget of each account is computed a second
time from its rows."""
import json, os, random, re, subprocess, tempfile

from command import PROGRAM, SEED, number, run

PAGE = 4096
SIDE_BY_SIDE = 24


def amount(draw, most):
    size = draw.randrange(1, most) * PAGE
    return size + draw.choice((0, 0, 0, 1, -1, 100))


def calls_of(draw):
    """Lines of one script, without its name."""
    lines, sessions, selectors = [], [], 0
    for _ in range(draw.randrange(3, 27)):
        kind = draw.randrange(24)
        if kind < 3:
            lines.append(f"alloc {amount(draw, 5)}")
            selectors += 1
        elif kind == 3:
            lines.append(f"free {draw.randrange(1, selectors + 2)}")
        elif kind < 8:
            lines.append(f"new {draw.choice((1, 100, 100, 2000, 4000, 4090, 9000, 20000, 30000, 65536))}")
        elif kind == 8:
            lines.append(f"del 0x{0x100000010 + draw.choice((0, 0x80, 0x1000, 0x1080, 0x4000)):x}")
        elif kind == 9:
            lines.append(f"snew {draw.choice((1, 100, 4064, 4065, 8000))}")
        elif kind == 10:
            lines.append(f"sdel 0x{0x100000020 + draw.choice((0, 0x1000, 0x4000)):x}")
        elif kind == 11:
            lines.append(draw.choice(("capalloc", "capalloc", f"capfree {draw.randrange(1, selectors + 2)}")))
        elif kind == 12:
            lines.append(f"{draw.choice(('yield', 'request'))} ram_quota={amount(draw, 3)}, cap_quota={draw.randrange(2)}")
        elif kind < 16 and len(sessions) < 3:
            service = draw.choice(("LOG", "File_system", "File_system", "File_system"))
            lines.append(f"open {service} ram_quota={amount(draw, 9)}, cap_quota={draw.randrange(1, 6)}")
            selectors += 1
            sessions.append(selectors)
        elif sessions:
            at, name = draw.choice(sessions), draw.choice("ab")
            bytes_ = "61" * draw.choice((1, 1, 40, 900, 3000))
            offset = draw.choice((0, 0, 1, 40))
            lines.append(
                draw.choice(
                    (
                        f"call {at} CREATE {name}",
                        f"call {at} CREATE {name}",
                        f"call {at} CREATE {draw.randrange(40)}",
                        f"call {at} WRITE {name} {offset} {bytes_}",
                        f"call {at} WRITE {name} {offset} {bytes_}",
                        f"call {at} BUFFER {draw.choice((1, 4096, 5000))}",
                        f"call {at} PUT {name} {offset} {draw.randrange(3)} {draw.choice((1, 100, 3000))}",
                        f"call {at} UNBUFFER",
                        f"call {at} CLEAR {name}",
                        f"call {at} DROP {name}",
                        f"call {at} STAT",
                        f"upgrade {at} ram_quota={amount(draw, 3)}, cap_quota={draw.randrange(3)}",
                        f"close {at}",
                    )
                )
            )
        elif draw.randrange(12) == 0:
            lines.append("exit")
    return lines


def machine(scripts, reserve):
    """A start list on the largest machine: the servers, and a script a budget."""
    start = [
        {"name": "log", "quantum": "0", "caps": 0, "provides": ["LOG"]},
        {"name": "files", "quantum": "0", "caps": 0, "provides": ["File_system"]},
    ]
    for place, (ram, caps) in enumerate(scripts):
        entry = {"name": f"s{place}", "binary": "script", "quantum": str(ram), "caps": caps}
        if reserve:
            entry |= {"reserve": str(reserve[0]), "reserve-caps": reserve[1]}
        start.append(entry)
    return {"machine": {"pages": 4096, "caps": 4096}, "default-route": [{"any-service": True, "any-child": True}], "start": start}


def safe_of(rows):
    """The lowest RAM from which on some row has each, and the capabilities that all of these rows need."""
    begins, ends = [low for low, _, _ in rows], {below for _, below, _ in rows}
    if None not in ends:
        return None
    ram = max(low for low in begins if low not in ends)
    return ram, max(caps for low, _, caps in rows if low >= ram)


class Nethrywel:
    def __init__(self, program, folder):
        self.program, self.list, self.scenario = program, os.path.join(folder, "list.json"), os.path.join(folder, "scenario")

    def write(self, made, lines):
        with open(self.list, "w") as file:
            json.dump(made, file)
        with open(self.scenario, "w") as file:
            file.write("".join(line + "\n" for line in lines))

    def printed(self, *words):
        done = subprocess.run([self.program, *words], capture_output=True, text=True)
        if done.returncode not in (0, 3):
            raise SystemExit(f"{words}: status {done.returncode}: {done.stderr}")
        return done.stdout

    def rows(self, *words):
        printed = json.loads(self.printed("least", *words, "--machine", self.list, "--json", self.scenario))
        found, safe = {}, {}
        for row in printed[:-1]:
            key = (row["component"], row["line"])
            found.setdefault(key, []).append((row["ram_from"], row["ram_below"], row["caps_from"]))
            safe[key] = None if row["safe_ram"] is None else (row["safe_ram"], row["safe_caps"])
        for key, rows in found.items():
            if safe[key] != safe_of(rows):
                raise SystemExit(f"{words}: {key} has the rows {rows}, and {safe[key]} is said to be safe")
        return found

    def replies(self, made, scripts):
        """What each of the scripts is answered, line by line."""
        self.write(made, [f"s{place} {call}" for place, calls in enumerate(scripts) for call in calls])
        printed = [line for line in self.printed("run", "--machine", self.list, self.scenario).splitlines() if re.match(r"s\d+: ", line)]
        found, at = [], 0
        for calls in scripts:
            found.append([line.split(": ", 1)[1] for line in printed[at : at + len(calls)]])
            at += len(calls)
        return found


def wants(calls, replies):
    """Whether the account is short of its quota."""
    return any(
        reply in ("Out_of_ram", "Out_of_caps") and not call.startswith(("request", "call ")) for call, reply in zip(calls, replies)
    )


def session_wants(calls, replies, opening):
    """Whether the session that a line opens is."""
    selector = None
    for place, (call, reply) in enumerate(zip(calls, replies)):
        if place == opening:
            if not reply.startswith("cap "):
                return True
            selector = reply[4:]
        elif selector:
            words = call.split()
            if words[0] == "exit" or (words[0] == "close" and words[1] == selector):
                return False
            if words[0] == "call" and words[1] == selector and reply in ("ERR OUT_OF_RAM", "ERR OUT_OF_CAPS"):
                return True
    return False


def covered(rows, ram, caps):
    return any(low <= ram and (below is None or ram < below) and caps >= least for low, below, least in rows)


def budgets(draw, rows, most):
    """Budgets to look at: all page counts, each end, and few or just enough capabilities."""
    ends = [low for low, _, _ in rows] + [below for _, below, _ in rows if below]
    rams = {pages * PAGE for pages in range(max(ends, default=0) // PAGE + 6)}
    rams |= {end + by for end in ends for by in (-1, 0, 1)} | {draw.randrange(most) for _ in range(4)}
    found = []
    for ram in sorted(ram for ram in rams if 0 <= ram <= most):
        chosen = {least + by for _, _, least in rows for by in (-1, 0)} | {draw.randrange(21), 20}
        found += [(ram, caps) for caps in sorted(chosen) if 0 <= caps]
    return found


def groups(of, size):
    return [of[at : at + size] for at in range(0, len(of), size)]


def check_account(nethrywel, draw, calls, rows, reserve, most):
    looked = 0
    for group in groups(budgets(draw, rows, most), SIDE_BY_SIDE):
        answered = nethrywel.replies(machine(group, reserve), [calls] * len(group))
        for (ram, caps), replies in zip(group, answered):
            looked += 1
            if covered(rows, ram, caps) == wants(calls, replies):
                return f"{ram} and {caps}: {replies}", looked
    return None, looked


def meant(call):
    """A call that may have any reply: a request of a session that another selector names isn't understood, and that is no error."""
    return f"{call} => *!" if call.startswith("call ") else call


def donating(call, ram, caps):
    return re.sub(r"ram_quota=\d+, cap_quota=\d+", f"ram_quota={ram}, cap_quota={caps}", call)


def check_session(nethrywel, draw, calls, rows, opening, most):
    looked = 0
    for group in groups(budgets(draw, rows, most), 4):
        scripts = []
        for ram, caps in group:
            scripts.append(
                [
                    (donating(call, ram, caps) if place == opening else donating(call, 64 * PAGE, 40)) if call.startswith("open") else call
                    for place, call in enumerate(calls)
                ]
            )
        answered = nethrywel.replies(machine([(1000 * PAGE, 1000)] * len(group), None), scripts)
        for (ram, caps), script, replies in zip(group, scripts, answered):
            looked += 1
            if covered(rows, ram, caps) == session_wants(script, replies, opening):
                return f"donation {ram} and {caps}: {replies}", looked
    return None, looked


def named(calls, replies):
    """The lines of a script in which selectors are names that replies bind, by what it is answered where all is ample."""
    lines, names = [], {}
    for place, (call, reply) in enumerate(zip(calls, replies)):
        word, *rest = call.split(" ", 1)
        if word in ("free", "capfree", "call", "upgrade", "close"):
            selector, *rest = rest[0].split(" ", 1)
            call = " ".join((word, names.get(selector, selector), *rest))
        bound = re.fullmatch(r"(?:OK )?cap (\d+)", reply)
        if bound:
            names[bound[1]] = f"$n{place}"
            call += f" => {reply[: -len(bound[1])]}$n{place}"
        lines.append(f"s0 {call}")
    return lines


def check_names(nethrywel, draw, calls, rows, reserve):
    """The difference that names make to the rows of a script, if there is one."""
    ample = [donating(call, 64 * PAGE, 40) if call.startswith("open") else call for call in calls]
    (replies,) = nethrywel.replies(machine([(1000 * PAGE, 1000)], reserve), [ample])
    poor = (draw.choice((0, 1, 3, 8)) * PAGE, draw.choice((0, 1, 2, 5)))
    lines = named(calls, replies)
    nethrywel.write(machine([poor], reserve), lines)
    found = nethrywel.rows()
    return None if found == rows else "\n".join([f"with names, given {poor}:", *lines, str(rows), str(found)])


def check(nethrywel, draw):
    """A scenario's difference, if it has one, and how many budgets were looked at."""
    calls = calls_of(draw)
    if not calls:
        return None, 0
    reserve = draw.choice((None, None, (amount(draw, 3), 1)))
    own = machine([(64 * PAGE, 32)], reserve)
    lines = [f"s0 {meant(call)}" for call in calls]
    nethrywel.write(own, lines)
    donated, least = nethrywel.rows("--as-donated"), nethrywel.rows()
    rewritten = nethrywel.printed("least", "--machine", nethrywel.list, "--scenario", nethrywel.scenario).splitlines()
    said = [line[3:].removesuffix(" => *!") for line in rewritten] or calls
    most = 150 * PAGE
    looked = 0
    differs = check_names(nethrywel, draw, calls, least, reserve)
    if differs:
        return differs, looked
    for rows, lines in ((donated.get(("s0", None), []), calls), (least.get(("s0", None), []), said)):
        differs, more = check_account(nethrywel, draw, lines, rows, reserve, most)
        looked += more
        if differs:
            return "\n".join(["of the script:", *lines, str(rows), f"reserve {reserve}", differs]), looked
    for (name, line), rows in donated.items():
        if name == "s0" and line and reserve is None:
            differs, more = check_session(nethrywel, draw, calls, rows, line - 1, most)
            looked += more
            if differs:
                return "\n".join([f"of the session of line {line}:", *calls, str(rows), differs]), looked
    return None, looked


def compare(given):
    count, seed, looked = given.SCENARIOS, given.SEED, 0
    with tempfile.TemporaryDirectory() as folder:
        nethrywel = Nethrywel(given.PROGRAM, folder)
        for at in range(count):
            differs, more = check(nethrywel, random.Random(f"{seed} {at}"))
            looked += more
            if differs:
                print(f"scenario {at} of seed {seed} differs {differs}")
                return 1
    print(f"{count} scenarios, {looked} budgets: no difference")
    return 0


if __name__ == "__main__":
    run("least.py PROGRAM [SCENARIOS] [SEED]", __doc__, compare, PROGRAM, number("SCENARIOS", 1000, "how many are drawn"), SEED)
