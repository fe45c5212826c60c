"""Genode's routes as rules of a start list, in which a rule has one target, and the names of components there."""
import re
from dataclasses import dataclass
from functools import cache
from itertools import count

from .genode_config import NAME, Component, Concern, Init, Note, RouteRule, Target, TargetKind
from .genode_xml import WrongText

ARROW, LABEL, CONDITIONS = " -> ", 64, ("label", "label_prefix", "label_suffix")
NOT_IN_NAME, NOT_IN_LABEL = re.compile(r"[^A-Za-z0-9_.-]"), re.compile(r'[^ -~]|["\\]')


@dataclass(frozen=True)
class ListRule:
    """A rule of a start list: its service or any, its conditions on the label, and the member that is its target."""

    service: str | None
    labels: tuple[tuple[str, str], ...]
    target: tuple[str, str | bool]


class Names:
    """The names that the components of one init have in a start list: one for each service that a component provides, and one
    for its session requests."""

    def __init__(self, init: Init, asking: set[Component], notes: list[Note]):
        self.servers: dict[tuple[Component, str], str] = {}
        self.clients: dict[Component, str] = {}
        self.taken = {it.name for it in init.components if re.fullmatch(NAME, it.name)}
        for it in init.components:
            notes += [Note(it, it.place, text) for text in self.added(it, it in asking)]

    def free(self, wanted: str, ending="") -> str:
        """Returns a name that no entry has: the wanted one, or one with a number."""
        ends = (ending + (f"-{number}" if number > 1 else "") for number in count(1))
        names = ((NOT_IN_NAME.sub("_", wanted)[: 32 - len(end)] or "_") + end for end in ends)
        name = next(it for it in names if it not in self.taken)
        self.taken.add(name)
        return name

    def added(self, it: Component, is_asking: bool):
        """Adds the names of a component, and yields the notes on them."""
        own = it.name if re.fullmatch(NAME, it.name) else self.free(it.name)
        if own != it.name:
            yield f"`{it.name}` is no name here, and becomes `{own}`"
        for at, service in enumerate(it.provides):
            self.servers[it, service] = self.free(own, f".{service}"[:16]) if at else own
        if len(it.provides) > 1:
            yield f"`{it.name}` becomes a server for each service: {', '.join(self.servers[it, one] for one in it.provides)}"
        if not it.provides:
            self.clients[it] = own
        elif is_asking:
            self.clients[it] = self.free(own, ".client")
            yield f"`{it.name}` provides and asks: its session requests and its budget are those of `{self.clients[it]}`"


def conditions(rule: RouteRule, client: str) -> list[dict[str, str]]:
    """Returns the conditions under which a node matches, on the label that a client gives: one for each rule that they need."""
    plain = {it: rule.labels[it] for it in CONDITIONS if it in rule.labels}
    whole, last = rule.labels.get("unscoped_label"), rule.labels.get("label_last")
    if whole is not None:
        name, arrow, label = whole.partition(ARROW)
        return [{"label": label if arrow else ""}] if name == client else []
    if last is None:
        return [plain]
    if "label" in plain:
        return [plain] if (ARROW + plain["label"]).endswith(ARROW + last) else []
    ends = sorted((plain.get("label_suffix", ""), ARROW + last), key=len)
    return [{**plain, "label": last}, *([{**plain, "label_suffix": ends[1]}] if ends[1].endswith(ends[0]) else [])]


@cache
def target_of(rule: RouteRule, home: Init, service: str) -> Target | None:
    """Returns the first target that provides a service. If none does, a node of one service denies the request, and a node of any
    service doesn't decide it."""
    providers = home.providers(service)
    has = {TargetKind.PARENT: lambda _: service in home.parent_provides, TargetKind.ANY_CHILD: lambda _: bool(providers),
           TargetKind.CHILD: lambda name: home.child(name) in providers}
    return next((it for it in rule.targets if has[it.kind](it.child)), None)


def reached(client: Component, service: str, with_ambiguous=False) -> set[Component]:
    """Returns the servers that some label of a client reaches, as far as services decide; optionally also those of a request that
    is denied since several components provide its service."""
    found, providers = set(), client.home.providers(service)
    for rule in client.rules:
        if rule.service not in (None, service) or not conditions(rule, client.name):
            continue
        to = target_of(rule, client.home, service)
        if to and to.kind is TargetKind.PARENT:
            found |= reached(client.home.owner, service, with_ambiguous) if client.home.owner else set()
        elif to and to.kind is TargetKind.CHILD:
            found.add(client.home.child(to.child))
        elif to and (len(providers) == 1 or with_ambiguous):
            found |= set(providers)
        if not rule.labels and (to or rule.service):
            break
    return found


def take(init: Init, paths: list[str]):
    """Leaves out the components that are neither named nor reached by those that are; inits stay with what they start."""
    known, services, kept = {it.path: it for it in init.all()}, init.services(), set()
    unknown = [it for it in paths if it not in known]
    if unknown:
        raise WrongText(f"unknown component `{unknown[0]}`; expected the name of a `<start>`, or `INIT/NAME` within an init")
    todo = [known[it] for it in paths]
    todo += [inner for it in todo if it.inner for inner in it.inner.all()]
    while todo:
        it = todo.pop()
        if it not in kept:
            kept.add(it)
            # (an init makes no requests)
            todo += [server for service in services if not it.inner for server in reached(it, service, with_ambiguous=True)]
            todo += [it.home.owner] if it.home.owner else []
    for one in [init, *(it.inner for it in kept if it.inner)]:
        one.components = [it for it in one.components if it in kept]


class Routes:
    """Makes the rules of clients. It keeps the nodes for services that no component provides."""

    def __init__(self, services: list[str], names: dict[Init, Names], notes: list[Note]):
        self.services, self.names, self.notes = services, names, notes
        self.left: dict[RouteRule, Component] = {}
        self.shortened: dict[str, str] = {}

    def rules_of(self, client: Component) -> list[ListRule]:
        made, decided = [], set()
        for rule in client.rules:
            if rule.service not in (None, *self.services):
                self.left[rule] = client
            elif rule.service and len(rule.targets) > 1:
                self.read_on(client, rule)
            asked = [it for it in self.services if it not in decided and rule.service in (None, it)]
            found = {it: to for it in asked if (to := self.member(client, rule, it))}
            is_wide = rule.service is None and found and len(found) == len(asked) and len(set(found.values())) == 1
            for it in conditions(rule, client.name):
                labels = tuple((kind, self.label(text, kind, rule, client)) for kind, text in it.items())
                targets = {None: found[asked[0]]} if is_wide else found
                made += [ListRule(service, labels, to) for service, to in targets.items()]
                decided |= set(found) if not labels else set()
        # (at the end of the outermost list's rules, parent denies as no rule does)
        while made and not client.home.owner and made[-1].target[0] == TargetKind.PARENT.value:
            made.pop()
        return made

    def read_on(self, client: Component, rule: RouteRule):
        """Notes which of several targets of a node of one service decides. It is one on routing if the first target doesn't."""
        is_later = target_of(rule, client.home, rule.service) not in (None, rule.targets[0])
        text = f"`<service>` with {len(rule.targets)} targets: the first that provides `{rule.service}` decides here"
        self.note(client, rule, text, Concern.ROUTING if is_later else Concern.NOTHING)

    def member(self, client: Component, rule: RouteRule, service: str) -> tuple[str, str | bool] | None:
        """Returns the member of a rule that has a target, with its value."""
        home, to = client.home, target_of(rule, client.home, service)
        if to is None:
            return self.denial(client, rule) if rule.service else None
        is_child = to.kind is TargetKind.CHILD
        return to.kind.value, self.names[home].servers[home.child(to.child), service] if is_child else True

    def denial(self, client: Component, rule: RouteRule) -> tuple[str, str | bool]:
        """Returns a member that denies a request, by the first target if that does, else by a client, which provides nothing."""
        to, home, names = rule.targets[0], client.home, self.names[client.home]
        nobody = next(iter(names.clients.values()))
        if to.kind is not TargetKind.CHILD:
            # (parent denies in the outermost list alone)
            return ("child", nobody) if to.kind is TargetKind.PARENT and home.owner else (to.kind.value, True)
        child, unknown = home.child(to.child), NOT_IN_NAME.sub("_", to.child)[:32]
        if child:
            return "child", names.servers[child, child.provides[0]] if child.provides else names.clients[child]
        return "child", nobody if unknown in names.taken else unknown or nobody

    def note(self, client: Component, rule: RouteRule, text: str, concern=Concern.ROUTING):
        self.notes.append(Note(client, rule.place, text, concern))

    def here(self, it: Component) -> str:
        """Returns the name that labels of a component have in the start list."""
        return self.names[it.home].clients.get(it, it.name)

    def label(self, text: str, kind: str, rule: RouteRule, client: Component) -> str:
        """Returns a label with the names that the components of an init have here, of which a client can give the rest."""
        inner, (end, *names) = client.inner, text.split(ARROW)
        if inner and kind == "label_suffix":
            matches = lambda name: (bool(end) and name.endswith(end), name in names)
            for it in (it for it in inner.all() if matches(it.name) != matches(self.here(it))):
                self.note(client, rule, f"label_suffix: it may reach into `{it.name}`, which is `{self.here(it)}` here")
        elif inner:
            name, arrow, rest = text.partition(ARROW if ARROW in text else ARROW.rstrip())
            child = next((it for it in inner.components if it.name == name), None)
            if not child or not arrow and kind != "label":
                return text
            return self.here(child) + arrow + (self.label(rest, kind, rule, child) if arrow == ARROW else rest)
        if len(text) <= LABEL and not NOT_IN_LABEL.search(text):
            return text
        here = self.shortened.setdefault(text, f"{NOT_IN_LABEL.sub('_', text)[: LABEL - 4]}.{len(self.shortened) + 1}")
        self.note(client, rule, f"{kind}: no label here has `{text}`, which becomes `{here}`")
        return here
