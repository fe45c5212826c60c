"""A start list of the configuration of Genode's init."""
import json
from dataclasses import dataclass, replace

from .genode_config import Component, Concern, Init, Note, Reader
from .genode_costs import Kind
from .genode_routes import ListRule, Names, Routes, reached
from .genode_xml import WrongText

PAGE, MOST, LEAST, ENTRIES, RULES, BYTES, WIDTH = 4096, 4096, 16, 32, 32, 65536, 128
BUILT_IN = {"LOG": "log", "File_system": "files"}


@dataclass
class Entry:
    """An entry of a start list. A server has a service, a declared one has kinds too, and an init has entries."""

    name: str
    binary: str
    ram: int = 0
    caps: int = 0
    service: str | None = None
    kinds: list[Kind] | None = None
    route: list[ListRule] | None = None
    default_route: list[ListRule] | None = None
    entries: list["Entry"] | None = None

    def count(self) -> int:
        return sum(1 + it.count() for it in self.entries or ())


class Port:
    """Makes the start list of a configuration, with its notes."""

    def __init__(self, reader: Reader, costs: dict[str, list[Kind]], scale: int):
        self.init, self.costs, self.scale, self.found = reader.init, costs, scale, [*reader.notes]
        services = self.init.services()
        asking = {it for it in self.init.all() if any(reached(it, service) - {it} for service in services)}
        inits = [self.init, *(it.inner for it in self.init.all() if it.inner)]
        self.names = {it: Names(it, asking, self.found) for it in inits}
        self.routes = Routes(services, self.names, self.found)
        self.list = Entry("", "init")
        self.fill(self.list, self.init)
        self.list.ram, self.list.caps = self.machine()
        self.notes = self.all_notes(set(self.init.all()), services)

    def note(self, it: Component, text: str, concern=Concern.NOTHING):
        self.found.append(Note(it, it.place, text, concern))

    def fill(self, made: Entry, init: Init):
        """Adds the entries of an init. Clients without a route have the default route, or each its own if they differ in it."""
        rules = {it: self.routes.rules_of(it) for it in self.names[init].clients}
        long = next((it for it in rules if len(rules[it]) > RULES), None)
        if long:
            raise WrongText(f"expected at most {RULES} rules for `{long.name}`, found {len(rules[long])}", long.place)
        shared = {tuple(rules[it]) for it in rules if it.route is None}
        made.default_route, made.entries = list(shared.pop()) if len(shared) == 1 else [], []
        for it in init.components:
            made.entries += [self.server(it, service) for service in it.provides]
            if it in rules:
                is_own = (it.route is not None or not made.default_route) and (rules[it] or made.default_route)
                made.entries.append(self.client(it, rules[it] if is_own else None))
            elif it.ram or it.caps:
                text = f"{it.ram} bytes and {it.caps} capabilities aren't carried over: nothing is charged to a server"
                self.note(it, f"`{it.name}`: {text}")

    def server(self, it: Component, service: str) -> Entry:
        name, kinds = self.names[it.home].servers[it, service], self.costs.get(service)
        if service in BUILT_IN:
            return Entry(name, BUILT_IN[service], service=service)
        if kinds is None:
            self.note(it, f"`{name}`: no costs of `{service}`, so its sessions have no objects", Concern.BUDGETS)
        elif any(kind.is_assumed for kind in kinds):
            self.note(it, f"`{name}`: sizes of `{service}` are assumed")
        return Entry(name, "server", service=service, kinds=kinds or [])

    def client(self, it: Component, route: list[ListRule] | None) -> Entry:
        ram = it.ram if self.scale == 1 else it.ram // self.scale // PAGE * PAGE
        made = Entry(self.names[it.home].clients[it], "init" if it.inner else "script", ram, it.caps // self.scale, route=route)
        for old, new, unit in ((it.ram, made.ram, "bytes"), (it.caps, made.caps, "capabilities")):
            if old and not new:
                self.note(it, f"`{it.name}`: its {old} {unit} become 0, divided by {self.scale}", Concern.BUDGETS)
        if it.inner:
            self.fill(made, it.inner)
            ram, caps = sum(one.ram for one in made.entries), sum(one.caps for one in made.entries)
            if ram > made.ram or caps > made.caps:
                text = f"its components have {ram} bytes and {caps} capabilities, more than the {made.ram} and {made.caps}"
                self.note(it, f"`{it.name}`: {text} of their init", Concern.BUDGETS)
        return made

    def machine(self) -> tuple[int, int]:
        """Returns the bytes and the capabilities of the smallest machine that has what the outermost entries have."""
        pages, caps = -(-sum(it.ram for it in self.list.entries) // PAGE), sum(it.caps for it in self.list.entries)
        if max(pages, caps) > MOST:
            found = f"found {pages} and {caps}; --scale {self.scale * -(-max(pages, caps) // MOST)} fits"
            raise WrongText(f"expected budgets of at most {MOST} pages and {MOST} capabilities, {found}")
        if self.list.count() > ENTRIES:
            found = f"found {self.list.count()}; --only NAME,.. takes some with what they reach"
            raise WrongText(f"expected at most {ENTRIES} entries, {found}")
        return max(pages, LEAST) * PAGE, max(caps, LEAST)

    def all_notes(self, kept: set[Component], services: list[str]) -> list[Note]:
        """Returns the notes on components that are in the list, each once, by their places."""
        other = [it for it in self.routes.left if it.service not in self.init.parent_provides]
        found = [it for it in self.found if it.owner is None or it.owner in kept]
        found = [it if it.service in (None, *services) else replace(it, concern=Concern.NOTHING) for it in found]
        found += [Note(None, it.place, f"no component provides `{it.service}`, so its rule is left out") for it in other]
        core = [it.service for it in self.routes.left if it not in other]
        if core:
            names = ", ".join(f"`{it}`" for it in dict.fromkeys(core))
            text = f"rules for services of core, which isn't modelled, are left out: {len(core)}, for {names}"
            found.append(Note(None, None, text))
        # (the same text at one place, of several clients of a default route, is one note)
        once = {(it.place, it.text): it for it in found}
        return sorted(once.values(), key=lambda it: it.place or (1 << 30, 0))

    def text(self, about: str) -> str:
        """Returns the start list as text."""
        machine = {"pages": self.list.ram // PAGE, "caps": self.list.caps}
        text = lined({"_about": about, "machine": machine, **members_of(self.list)}) + "\n"
        if len(text.encode()) > BYTES:
            raise WrongText(f"expected a start list of at most {BYTES} bytes, found {len(text.encode())}")
        return text


def members_of(it: Entry) -> dict:
    default = {"default-route": [rule_of(one) for one in it.default_route]} if it.default_route else {}
    return {**default, "start": [entry_of(one) for one in it.entries]}


def entry_of(it: Entry) -> dict:
    amounts = [f"{it.ram >> bits}{unit}" for unit, bits in (("M", 20), ("K", 10)) if it.ram and it.ram % (1 << bits) == 0]
    made = {"name": it.name, "binary": it.binary, "quantum": [*amounts, str(it.ram)][0], "caps": it.caps}
    made |= {"provides": [it.service]} if it.service else {}
    kinds = [{"kind": one.kind, "block": one.block, "bytes": one.bytes} for one in it.kinds or ()]
    made |= {"kinds": kinds} if it.kinds is not None else {}
    made |= {"route": [rule_of(one) for one in it.route]} if it.route is not None else {}
    return made | ({"config": members_of(it)} if it.entries is not None else {})


def rule_of(it: ListRule) -> dict:
    service = {"service": it.service} if it.service else {"any-service": True}
    return {**service, **dict(it.labels), it.target[0]: it.target[1]}


def lined(value, depth=1) -> str:
    """Returns a JSON text. A list or an object that is too long for a line has lines for its parts."""
    flat = json.dumps(value, ensure_ascii=False)
    if len(flat) + depth <= WIDTH or not isinstance(value, (dict, list)):
        return flat
    new = "\n" + " " * depth
    if isinstance(value, list):
        return f"[{new}{f',{new}'.join(lined(it, depth + 1) for it in value)}]"
    parts = (f"{json.dumps(name)}: {lined(it, depth + 1)}" for name, it in value.items())
    return "{" + ",".join((new if "{" in it else " ") + it for it in parts).lstrip() + "}"
