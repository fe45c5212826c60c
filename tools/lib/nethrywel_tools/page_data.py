"""What a page shows of a start list, a policy and a scenario, from what nethrywel prints with --json and from transcripts.
Values are put next to each other, and thinned where they are many; nothing is computed again."""
import json
import re
from collections import Counter

from .outputs import calls_in, diagnostics_in, documents_in
from .start_list_places import places, range_of, rules_in, rules_named
from .timelines import TICKS, TIMELINES, Timelines, donation_in, some, thin

# A scenario is shown whole up to so many lines and bytes, with its replies.
WHOLE_LINES, WHOLE_BYTES = 3000, 500_000
# Of a longer one lines are kept: at both ends, that don't meet their expectations, that are refused, and evenly; each so long.
ENDS, WRONG, REFUSED, EVENLY, LONG = 300, 400, 400, 600, 120
ACCOUNTS, COMPLAINTS, TEXT_LINES = 300, 1000, 400
NO_BUDGET = "no budget suffices: even the largest machine refuses a call, which is right for an attacker"
LEFT = ("lines", "timelines", "points", "accounts", "complaints", "ticks")
# The kinds of objects of a check that are remarks on lines of a policy.
REMARKS = ("warning", "note")
# The parts of a page that show what a command prints; with `run --only` it is the part `alone`.
PARTS = {
    "check": ("reach",), "tree": ("reach", "budgets"), "reach": ("reach",), "route": ("reach",), "diff": (),
    "trace": ("scenario", "timelines", "alone", "budgets"), "run": ("scenario", "alone"), "accounts": ("budgets",),
    "least": ("budgets",),
}


def amount(number):
    return f"{number // 1024}K" if number and number % 1024 == 0 else str(number)


def lines_in(text):
    return text.removesuffix("\n").split("\n") if text else []


def errors_in(text):
    """Returns the texts of what a command wrote on standard error."""
    return "\n".join(it.text for it in diagnostics_in(text))


def outputs_in(calls, transcript):
    """Yields each call with its lines of a transcript: the log lines that it finished, and its reply."""
    lines = iter(lines_in(transcript))
    for it in calls:
        answer, output = f"{it.component}: {it.reply}", []
        for line in lines:
            output.append(line)
            if line == answer:
                break
        yield it, output


def clipped(text):
    return text if len(text) <= LONG else f"{text[:LONG]} .. ({len(text)} characters)"


def policy_lines(text, status, found, rules):
    """Returns the lines of a policy, each with whether it is kept, the rules that a breach names, and what a remark says: a warning of
    a line that speaks of nothing, which isn't kept, or a note of one that is kept by the tree."""
    faults = {it.line or 0: it.text for it in found if it.kind not in REMARKS}
    remarks = {it.line: it for it in found if it.kind in REMARKS}
    lines = []
    for number, line in enumerate(lines_in(text), 1):
        printed, remark = faults.get(number), remarks.get(number)
        is_void = bool(remark) and remark.kind == "warning"
        kept = None if printed or is_void or status == 2 or re.match(r"\s*(#|$)", line) else True
        named = rules_named(printed, printed.split(" ")[0], rules) if printed else []
        lines.append({"text": line, "printed": printed, "kept": kept, "rules": named, "remark": remark and remark.text, "void": is_void})
    return {"lines": lines, "fault": faults.get(0), "read": status != 2}


def requests_of(requests, rules):
    """Returns the scripts, each with the routes of its session requests."""
    scripts = {}
    for it in requests:
        label = f', with label "{it.label}"' if it.label is not None else ""
        way = {"service": it.service, "to": it.to or "denied", "by": it.by + label, "rules": rules_named(it.by, it.name, rules)}
        scripts.setdefault(it.name, []).append(way)
    return [{"name": name, "ways": ways} for name, ways in scripts.items()]


def accounts_of(documents):
    """Returns the accounts that are open at the end, with their peaks; the reserve of a script is in its account."""
    accounts = []
    for it in documents:
        if it.kind == "reserve":
            accounts[-1]["reserve"] = [it.ram, it.caps]
        elif it.ram_used is not None:
            accounts.append({
                "name": it.name, "session": it.session and str(it.session), "server": it.server, "label": it.label,
                "ram": [it.ram_used, it.ram_limit, it.ram_peak], "caps": [it.caps_used, it.caps_limit, it.caps_peak],
            })
    return accounts


def budget_of(key, rows, given):
    """Returns one account's sufficient budgets, as values and as text, with what it was given."""
    name, session, line = key
    below = ("" if it.ram_below is None else f" below {amount(it.ram_below)}" for it in rows)
    said = "; ".join(f"ram from {amount(it.ram_from)}{less}, caps from {it.caps_from}" for it, less in zip(rows, below))
    printed, fits = [said or NO_BUDGET], bool(given) and any(it.suffices(*given) for it in rows)
    if given and rows:
        more = given[0] - rows[0].ram_from, given[1] - rows[0].caps_from
        gap = f"{amount(abs(more[0]))} and {abs(more[1])}"
        least = f"the least is {amount(rows[0].ram_from)} and {rows[0].caps_from}"
        end = least if min(more) < 0 else f"{gap} could be saved" if any(more) else "the least"
        printed.append(f"given {amount(given[0])} and {given[1]}: {end if fits else f'insufficient; {least}'}")
    return {
        "name": name, "session": session and str(session), "line": line, "given": given, "printed": printed,
        "rows": [[it.ram_from, it.ram_below, it.caps_from] for it in rows], "short": not rows or bool(given) and not fits,
    }


class PageData:
    """What is printed of texts, which are in a folder as list.json, policy and scenario; the first two may be none. `run` runs
    the program with arguments there, and returns status, output and standard error. `missing` has why a part of the page isn't
    whole: the commands that came to no end."""

    def __init__(self, run, list_text, policy_text, scenario_text):
        self.run, self.list, self.policy, self.scenario, self.missing = run, list_text, policy_text, scenario_text, {}
        self.machine = ["--machine", "list.json"] if list_text is not None else []
        self.rules, self.calls, self.outputs, self.budgets = {}, [], [], {}

    def ran(self, *words, parts=None):
        """Returns status, output and standard error of a command. Status 1, which none has that came to its end, is noted."""
        status, out, err = self.run(words)
        for part in (parts or PARTS[words[0]]) if status == 1 else ():
            self.missing.setdefault(part, []).append(f"nethrywel {' '.join(words)}: {errors_in(err)}")
        return status, out, err

    def first(self):
        """Returns what is printed of the start list and, if it boots, of each line."""
        data = {"list": self.list, "boots": True, "count": len(lines_in(self.scenario)), "left": dict.fromkeys(LEFT, 0)}
        data["missing"] = self.missing
        data |= dict.fromkeys(("policy", "reach", "least", "alone"))
        data |= {it: [] for it in ("findings", "ways", "lines", "complaints", "faults", "timelines", "accounts")}
        if self.list is None or self.of_list(data):
            self.of_scenario(data)
        return data

    def of_list(self, data):
        found = places(self.list)
        self.rules = rules_in(self.list, found)
        status, out, err = self.ran("check", "--json", *(["--policy", "policy"] if self.policy else []), "list.json")
        printed = [*documents_in(out), *diagnostics_in(err)] if status != 1 else []
        of_policy = [it for it in printed if it.file == "policy"]
        for it in printed:
            if it.file != "policy":
                where = f"{it.line}:{it.column}: " if it.line else f"{it.part}: " if it.part and it.kind == "finding" else ""
                place = range_of(it, self.list, found)
                data["findings"].append({"printed": where + it.text, "range": place, "advice": it.kind == "advice"})
        # (a policy with a fault, or a breach of it, is no fault of the list; without a check the run decides)
        data["boots"] = status in (0, 1) or bool(of_policy)
        if self.policy and data["boots"] and status != 1:
            data["policy"] = policy_lines(self.policy, status, of_policy, self.rules)
        if data["boots"]:
            tree = self.ran("tree", "--json", "list.json")[1]
            data["ways"] = requests_of(documents_in(tree, "wish"), self.rules)
            # (nothing is charged to a server, so it needs no budget)
            own = (it for it in documents_in(tree, "component") if it.binary in ("script", "init"))
            self.budgets = {it.name: (it.ram, it.caps) for it in own}
            data["reach"] = json.loads(self.ran("reach", "--json", "list.json")[1] or "null")
        return data["boots"]

    def of_scenario(self, data):
        data["status"], out, err = self.ran("trace", "--json", *self.machine, "scenario")
        self.calls = list(calls_in(out.split("\n")))
        errors = diagnostics_in(err)
        complaints = [[it.line, it.column, it.text] for it in errors if it.file == "scenario" and it.column]
        data["faults"] = [it.text for it in errors if data["status"] != 1 and (it.file != "scenario" or not it.column)]
        data["wrong"] = len({it[0] for it in complaints})
        self.of_lines(data, complaints)
        shown = {it[0] for it in data["lines"]}
        data["complaints"] = [it for it in complaints if it[0] in shown or it[0] > data["count"]][:COMPLAINTS]
        data["left"]["complaints"] = len(complaints) - len(data["complaints"])
        timelines, data["left"]["timelines"], thinned = thin(Timelines(self.calls).all())
        data["left"]["points"] = thinned or any(len(it.refused) > TICKS for it in timelines)
        data["timelines"] = [{
            "name": it.name, "session": bool(it.part), "points": it.points, "refusals": len(it.refused),
            "refused": some(it.refused, TICKS),
        } for it in timelines]
        listed = self.ran("accounts", "--json", *self.machine, "scenario")[1]
        accounts = accounts_of(documents_in(listed, "account", "session", "reserve"))
        donated = Counter()
        for it in accounts:
            if it["session"]:
                donated.update({(it["name"], "ram"): it["ram"][1], (it["name"], "caps"): it["caps"][1]})
        data["given"] = {name: [donated[name, "ram"], donated[name, "caps"]] for name, _ in donated}
        data["accounts"], data["left"]["accounts"] = accounts[:ACCOUNTS], max(len(accounts) - ACCOUNTS, 0)

    def of_lines(self, data, complaints):
        """Fills in the lines that are shown, each with its number, its text, who called, the reply and the log lines that it
        finished."""
        texts, transcript = lines_in(self.scenario), self.ran("run", *self.machine, "scenario")[1]
        self.outputs = list(outputs_in(self.calls, transcript))
        printed = {it.line: (it.component, it.reply, output[:-1]) for it, output in self.outputs}
        if len(texts) <= WHOLE_LINES and len(self.scenario) + len(transcript) <= WHOLE_BYTES:
            data["lines"] = [[i, text, *printed.get(i, ())] for i, text in enumerate(texts, 1)]
            return
        count, refused = len(texts), list(dict.fromkeys(it.line for it in self.calls if it.is_refused))
        kept = {*range(1, min(ENDS, count) + 1), *range(max(count - ENDS, 0) + 1, count + 1)}
        wrong = sorted({it[0] for it in complaints if it[0] <= count})
        kept.update(wrong[:WRONG], some(refused, REFUSED), some(range(1, count + 1), EVENLY))
        for i in sorted(kept):
            reply = [(name, clipped(text), list(map(clipped, logs[:8]))) for name, text, logs in [printed[i]]] if i in printed else [()]
            data["lines"].append([i, clipped(texts[i - 1]), *reply[0]])
        data["left"]["lines"] = count - len(kept)

    def alone(self):
        """Returns for each script that has a call the replies to its lines, in the whole run and in a run of them alone."""
        scripts, own = [], {}
        for it, output in self.outputs if "alone" not in self.missing else ():
            if it.ram_used is not None:
                own.setdefault(it.component, []).append((it, output))
        for name, whole in own.items():
            status, out, _ = self.ran("run", f"--only={name}", *self.machine, "scenario", parts=["alone"])
            if status == 1:
                continue
            both = zip(whole, outputs_in([it for it, _ in whole], out))
            differ = {it.line: "\n".join(alone) for (it, output), (_, alone) in both if output != alone}
            lines = list(dict.fromkeys(it.line for it, _ in whole))
            refused = some(sorted({it.line for it, _ in whole if it.is_refused}), TICKS)
            count = "1 line" if len(lines) == 1 else f"{len(lines)} lines"
            said = f"{count} of {name}: {f'{len(differ)} differ' if differ else 'the same alone as in the whole run'}"
            ticks = sorted({*some(lines, TICKS), *refused})
            scripts.append({
                "name": name, "printed": said, "lines": ticks, "thinned": len(ticks) < len(lines), "refused": refused,
                "differ": list(differ.items()),
            })
        missing = self.missing.get("alone", [])
        return {"scripts": scripts, "thinned": any(it["thinned"] for it in scripts), "missing": missing}

    def least(self):
        """Returns which budgets suffice for each account."""
        status, out, _ = self.ran("least", "--json", *self.machine, "scenario")
        # (nothing is printed if nothing is run, as of a round without an end)
        if status == 1 or not out:
            return {"accounts": [], "left": 0, "text": [], "missing": self.missing.get("budgets", [])}
        found, given = [], dict(self.budgets)
        if self.list is None:
            boot = documents_in(self.ran("accounts", "--json", "/dev/null")[1], "account")
            own = {it.component for it in documents_in(self.ran("least", "--json", "/dev/null")[1], "interval")}
            given = {it.name: (it.ram_limit, it.caps_limit) for it in boot if it.name in own}
        openings = Counter()
        for it in self.calls:
            if it.call.startswith("open ") and it.reply.startswith("cap ") and it.ram_used is not None:
                key = it.component, int(it.reply[4:]), it.line
                openings[key] += 1
                given[key] = donation_in(it.call)
        answered = Counter()
        for it in documents_in(out, "interval"):
            key = it.component, it.session, it.line
            if found and found[-1][0] == key and found[-1][1][-1].ram_below is not None:
                found[-1][1].append(it)
            else:
                found.append((key, [it]))
                answered[it.component, it.line] += it.count
        # (an account for which no budget suffices has no interval; one interval may be that of several sessions of a line)
        known = {key for key, _ in found}
        opened = Counter()
        for name, session, line in sorted(openings.elements(), key=lambda it: it not in known):
            opened[name, line] += 1
            if opened[name, line] > answered[name, line]:
                found.append(((name, session, line), []))
        own = ((name, None, None) for name in given if isinstance(name, str))
        found += [(key, []) for key in own if key not in known]
        accounts = [budget_of(key, rows, given.get(key if key[1] else key[0])) for key, rows in found]
        sessions = {id(it) for it in some([it for it in accounts if it["session"]], TIMELINES)}
        shown = [it for it in accounts if not it["session"] or id(it) in sessions]
        text, missing = lines_in(self.ran("least", *self.machine, "scenario")[1]), self.missing.get("budgets", [])
        return {"accounts": shown, "left": len(accounts) - len(shown), "text": text[:TEXT_LINES], "missing": missing}

    def route(self, client, service, label):
        """Returns the route of one session request, as it is printed, with the rules that it names."""
        arguments = [f'label="{label}"'] if label else []
        _, out, err = self.ran("route", "--", "list.json", client, service, *arguments)
        printed = out or errors_in(err)
        return {"printed": printed.splitlines(), "rules": rules_named(printed, client, self.rules)}

    def routes(self, reach):
        """Returns the route of each cell's request, by the script, the service and the label."""
        keys = dict.fromkeys((it["from"], it["service"], it["label"] if it["reach"] == "some" else "") for it in reach or [])
        return {"\n".join(it): self.route(*it) for it in keys}

    def diff(self, before):
        """Returns how the start list differs from one before, with the effect on the scenario's replies."""
        if self.list is None:
            return {"printed": [], "why": "the built-in machine has no text: write a start list"}
        status, out, err = self.ran("diff", before, "list.json", "scenario")
        return {"printed": lines_in(out), "why": "" if status in (0, 4) else err}
