"""The configuration of Genode's init: components with budgets, services and routes. What has no counterpart in a start list is a
note."""
import re
from dataclasses import dataclass, field
from enum import Enum

from .genode_xml import Element, Place, WrongText, parse

NAME, LABELS = r"[A-Za-z0-9_.-]{1,32}", ("label", "label_prefix", "label_suffix", "label_last", "unscoped_label")
SCALES, DEPTH, COMPONENTS, SERVICES = {"": 0, "K": 10, "M": 20, "G": 30}, 3, 256, 64


class Concern(Enum):
    """What of the answers of a start list a note can change."""

    NOTHING = ""
    ROUTING = "routing"
    BUDGETS = "budgets"


CONCERNS = {
    **dict.fromkeys(("service", "local", "include"), Concern.ROUTING),
    **dict.fromkeys(("preserve", "resource"), Concern.BUDGETS),
}
REASONS = {
    **dict.fromkeys(("priority", "prio_levels", "affinity", "affinity-space", "heartbeat"), ": time isn't modelled"),
    **dict.fromkeys(("configfile", "include"), ": its text isn't in this file"),
    "service": ": an init provides no service here",
}


@dataclass(frozen=True)
class Note:
    """What isn't carried over as it is of a component, or of the outermost init. One on the rules of a service doesn't concern
    routing if no component provides that service."""

    owner: "Component | None"
    place: Place | None
    text: str
    concern: Concern = Concern.NOTHING
    service: str | None = None


class TargetKind(Enum):
    PARENT = "parent"
    CHILD = "child"
    ANY_CHILD = "any-child"


@dataclass(frozen=True)
class Target:
    kind: TargetKind
    child: str


@dataclass(eq=False)
class RouteRule:
    """A node `service`, or `any-service`, which has no service, with its targets in order."""

    place: Place
    service: str | None
    labels: dict[str, str]
    targets: list[Target]


@dataclass(eq=False)
class Component:
    name: str
    place: Place
    home: "Init"
    ram: int = 0
    caps: int = 0
    provides: list[str] = field(default_factory=list)
    route: list[RouteRule] | None = None
    inner: "Init | None" = None

    @property
    def rules(self) -> list[RouteRule]:
        """Returns the rules that decide its session requests: its own, or the default route of its init."""
        return self.home.default_route if self.route is None else self.route

    @property
    def path(self) -> str:
        return f"{self.home.owner.path}/{self.name}" if self.home.owner else self.name


@dataclass(eq=False)
class Init:
    """What an init's configuration has; the outermost one has no owner."""

    owner: Component | None
    parent_provides: set[str]
    aliases: dict[str, str]
    default_route: list[RouteRule] = field(default_factory=list)
    components: list[Component] = field(default_factory=list)

    def child(self, name: str) -> Component | None:
        return next((it for it in self.components if it.name == self.aliases.get(name, name)), None)

    def providers(self, service: str) -> list[Component]:
        return [it for it in self.components if service in it.provides]

    def all(self):
        """Yields the components at any depth, an init before its own."""
        for it in self.components:
            yield it
            yield from it.inner.all() if it.inner else ()

    def services(self) -> list[str]:
        return list(dict.fromkeys(service for it in self.all() for service in it.provides))


def number_of(element: Element, name: str, is_ram: bool) -> int | None:
    """Returns the amount of RAM, or the number of capabilities, that an attribute has; None without the attribute."""
    text, most = element.attributes.get(name), (1 << (64 if is_ram else 32)) - 1
    found = re.fullmatch(r"(0x[0-9a-fA-F]{1,16}|[0-9]{1,20})([KMG]?)", text or "")
    value = int(found[1], 16 if "x" in found[1] else 10) << SCALES[found[2]] if found and (is_ram or not found[2]) else most + 1
    if text is not None and value > most:
        expected = "an amount with K, M, G or no suffix" if is_ram else f"a number of at most {most}"
        raise WrongText(f"{name}: expected {expected}, found `{text}`", element.place)
    return None if text is None else value


class Reader:
    """Reads a configuration, with its notes."""

    def __init__(self, data: bytes):
        self.notes: list[Note] = []
        root = parse(data)
        if root.name != "config":
            raise WrongText(f"expected `<config>`, found `<{root.name}>`", root.place)
        self.init = self.init_of(root, None, 0)
        components, services = len([*self.init.all()]), len(self.init.services())
        if components > COMPONENTS or services > SERVICES:
            found = f"found {components} and {services}"
            raise WrongText(f"expected at most {COMPONENTS} components and {SERVICES} services, {found}")

    def note(self, *parts):
        self.notes.append(Note(*parts))

    def leave(self, owner, element: Element, attributes=(), children=(), concern=Concern.NOTHING, service=None):
        """Notes each attribute and each element that nothing reads."""
        left = [(it, f"`{it}`", element.place) for it in element.attributes if it not in attributes]
        left += [(it.name, f"`<{it.name}>`", it.place) for it in element.children if it.name not in children]
        for name, what, place in left:
            text = f"{what} of `<{element.name}>` isn't carried over{REASONS.get(name, '')}"
            self.note(owner, place, text, CONCERNS.get(name, concern), service)

    def again(self, owner, found: list[Element], which: str, concern: Concern):
        """Notes each element after the first one of those that are expected once, with which of them counts."""
        for it in found[1:]:
            names = {"resource": "amount of RAM", "alias": f"`<alias>` of the name `{it.attributes.get('name')}`"}
            self.note(owner, it.place, f"one more {names.get(it.name, f'`<{it.name}>`')}: {which} here", concern)

    def first(self, owner, element: Element, name: str, concern=Concern.ROUTING) -> Element | None:
        """Returns the first element of a name in an element; each further one is a note."""
        found = element.all(name)
        self.again(owner, found, "the first one counts", concern)
        return found[0] if found else None

    def services_in(self, owner, element: Element, name: str) -> list[Element]:
        """Returns the services that elements of a name list together."""
        found = element.all(name)
        self.again(owner, found, "all of them count", Concern.ROUTING)
        for it in found:
            self.leave(owner, it, (), ("service",), Concern.ROUTING)
        return element.all(name, "service")

    def init_of(self, config: Element, owner: Component | None, depth: int) -> Init:
        if depth > DEPTH:
            raise WrongText(f"expected inits nested at most {DEPTH} deep, found one more", owner.place)
        self.leave(owner, config, (), ("parent-provides", "default", "default-route", "alias", "start"))
        default = self.first(owner, config, "default", Concern.BUDGETS) or Element("default", {}, config.place)
        self.leave(owner, default, ("caps", "ram"))
        services = {it.text("name") for it in self.services_in(owner, config, "parent-provides")}
        made, aliases = Init(owner, services, {it.text("name"): it.text("child") for it in config.all("alias")}), config.all("alias")
        for name in made.aliases:
            self.again(owner, [it for it in aliases if it.text("name") == name], "the last one counts", Concern.ROUTING)
        for it in config.all("start"):
            self.start(it, made, default, depth)
        route = self.first(owner, config, "default-route")
        made.default_route = self.route_of(route, owner) if route else []
        routes = [(owner, made.default_route), *((it, it.route or []) for it in made.components)]
        for of, rule in ((it, rule) for it, route in routes for rule in route):
            for to in (it for it in rule.targets if it.kind is TargetKind.CHILD and not made.child(it.child)):
                self.note(of, rule.place, f"unknown component `{to.child}`", Concern.ROUTING, rule.service)
        return made

    def start(self, start: Element, home: Init, default: Element, depth: int):
        made = Component(start.text("name"), start.place, home)
        if any(it.name == made.name for it in home.components):
            raise WrongText(f"duplicate name `{made.name}`", start.place)
        home.components.append(made)
        self.leave(made, start, ("name", "caps", "ram"), ("binary", "resource", "provides", "route", "config"))
        self.budget(start, made, default)
        for it in self.services_in(made, start, "provides"):
            self.leave(made, it, ("name",))
            if not re.fullmatch(NAME, it.text("name")):
                found = it.text("name")
                raise WrongText(f"expected a service of 1 to 32 letters, digits, `_`, `-` and `.`, found `{found}`", it.place)
            made.provides += [it.text("name")] * (it.text("name") not in made.provides)
        route, binary = self.first(made, start, "route"), self.first(made, start, "binary")
        made.route = self.route_of(route, made) if route else None
        is_init = (binary.text("name") if binary else made.name) == "init"
        config = self.first(made, start, "config", Concern.ROUTING if is_init or made.provides else Concern.NOTHING)
        if not is_init:
            self.leave_config(made, config)
        elif config:
            for it in made.provides:
                self.note(made, start.place, f"`{made.name}` provides `{it}`: an init provides no service here", Concern.ROUTING)
            made.provides, made.inner = [], self.init_of(config, made, depth + 1)
        else:
            text = f"`{made.name}` is an init whose list isn't in this file, and becomes a script"
            self.note(made, start.place, text, Concern.ROUTING)

    def budget(self, start: Element, made: Component, default: Element):
        """Reads RAM and capabilities: those of the start node, or the defaults of its init."""
        ram, caps = number_of(start, "ram", True), number_of(start, "caps", False)
        amounts = [it for it in start.all("resource") if it.text("name") == "RAM"]
        self.again(made, [*[start] * (ram is not None), *amounts], "the last one counts", Concern.BUDGETS)
        for it in start.all("resource"):
            if it.text("name") == "RAM":
                self.leave(made, it, ("name", "quantum"), (), Concern.BUDGETS)
                ram = number_of(it, "quantum", True)
            else:
                concern = Concern.NOTHING if it.text("name") == "CPU" else Concern.BUDGETS
                self.note(made, it.place, f"`<resource name=\"{it.text('name')}\">` isn't carried over", concern)
        ram = number_of(default, "ram", True) if ram is None else ram
        caps = number_of(default, "caps", False) if caps is None else caps
        for name in [it for it, value in (("ram", ram), ("caps", caps)) if value is None]:
            self.note(made, start.place, f"`{made.name}` has no `{name}`, and gets 0", Concern.BUDGETS)
        made.ram, made.caps = ram or 0, caps or 0

    def leave_config(self, made: Component, config: Element | None):
        """Notes a component's own configuration. Policies without a default policy refuse sessions that are routed to it."""
        if config is None:
            return
        policy = config.first("policy") if made.provides and not config.first("default-policy") else None
        why = "a server accepts each session that is routed to it" if made.provides else "the scenario has the calls of a script"
        text = f"`<{'policy' if policy else 'config'}>` of `{made.name}` isn't carried over: {why}"
        self.note(made, (policy or config).place, text, Concern.ROUTING if policy else Concern.NOTHING)

    def route_of(self, route: Element, owner: Component | None) -> list[RouteRule]:
        self.leave(owner, route, (), ("service", "any-service"), Concern.ROUTING)
        return [self.rule_of(it, owner) for it in route.children if it.name in ("service", "any-service")]

    def rule_of(self, rule: Element, owner: Component | None) -> RouteRule:
        service, kinds = rule.text("name") if rule.name == "service" else None, [it.value for it in TargetKind]
        self.leave(owner, rule, ("name", *LABELS), kinds, Concern.ROUTING, service)
        for name, what in (("label_last", "two rules"), ("unscoped_label", "the label of one client")):
            if name in rule.attributes:
                self.note(owner, rule.place, f"`{name}` becomes {what}")
        made = RouteRule(rule.place, service, {it: rule.attributes[it] for it in LABELS if it in rule.attributes}, [])
        for it in (it for it in rule.children if it.name in kinds):
            made.targets.append(Target(TargetKind(it.name), it.text("name") if it.name == "child" else ""))
            self.leave(owner, it, ("name", "label"))
            if "label" in it.attributes:
                text = f"`label` of `<{it.name}>` isn't carried over: a route can't replace a label"
                self.note(owner, it.place, text, Concern.ROUTING, service)
        if not made.targets:
            raise WrongText(f"expected a target in `<{rule.name}>`: `<parent/>`, `<child>` or `<any-child/>`", rule.place)
        return made
