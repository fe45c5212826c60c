"""tools/from-genode: each element of Genode's configuration, each note, each fault, and routes next to a second reading of both
forms."""
import itertools
import json
import random
import re
from xml.etree import ElementTree as XML

import genode_reading
import pytest
import start_list_reading
from commands import EXAMPLES, environment, needs, tool
from nethrywel_tools.genode_config import Reader
from nethrywel_tools.genode_list import Port
from nethrywel_tools.genode_routes import take

PORT = tool("tools/from-genode")
pytestmark = needs("defusedxml")


def node(tag, inner="", **attributes):
    """Returns an element as text."""
    return f"<{tag} " + " ".join(f"{name}='{it}'" for name, it in attributes.items()) + f">{inner}</{tag}>"


def server(name, service, inner=""):
    return node("start", f"<provides><service name='{service}'/></provides>{inner}", name=name, caps="10", ram="1M")


def client(route="", name="app", **more):
    return node("start", f"<route>{route}</route>" if route else "", **{"name": name, "caps": "20", "ram": "64K", **more})


def init(name, config, more=""):
    return node("start", f"<binary name='init'/><config>{config}</config>{more}", name=name, caps="40", ram="1M")


def rule(service, targets="<any-child/>", **labels):
    return node("service", targets, name=service, **labels)


def parent(*services):
    return node("parent-provides", "".join(f"<service name='{it}'/>" for it in services))


def child(name, **more):
    return node("child", **{"name": name, **more})


CORE, ANY, OUT = parent("PD", "ROM"), "<any-service><parent/><any-child/></any-service>", "<any-service><parent/></any-service>"
LOG, FILES, GUI = server("log", "LOG"), server("files", "File_system"), server("gui", "Gui")
SERVED = CORE + LOG + FILES
ANY_CHILD = {"any-service": True, "any-child": True}
LOG_CHILD, LOG_ANY, LOG_OUT = ({"service": "LOG", **it} for it in ({"child": "log"}, {"any-child": True}, {"parent": True}))


def short(value):
    """Returns the end of a text as the name of its test."""
    return re.sub(r"[^\w.,-]+", " ", value if isinstance(value, str) else str(value))[-60:].strip()


class Ported:
    """What the tool makes of a configuration: its status, its list, and its diagnostics without the file's name."""

    def __init__(self, folder, inner, *words, costs=None):
        (folder / "config.xml").write_bytes(inner if isinstance(inner, bytes) else f"<config>{inner}</config>".encode())
        if costs is not None:
            text = costs if isinstance(costs, (str, bytes)) else json.dumps(costs)
            (folder / "costs.json").write_bytes(text if isinstance(text, bytes) else text.encode())
            words += ("--costs", "costs.json")
        made = folder / "list.json"
        made.unlink(missing_ok=True)
        ran = PORT("config.xml", "-o", made, *words, cwd=folder)
        assert ran.out == ""
        self.status, self.err = ran.status, ran.err.replace("config.xml:", "")
        self.text = made.read_text() if made.exists() else None

    @property
    def value(self):
        assert self.text is not None, self.err
        return start_list_reading.check_list(self.text)

    @property
    def paths(self):
        return set(start_list_reading.components(self.value))

    def entry(self, path):
        return start_list_reading.components(self.value)[path][-1][1]

    def rules(self, path):
        part, it = start_list_reading.components(self.value)[path][-1]
        return it.get("route", part.get("default-route", []))


@pytest.fixture
def ported(tmp_path):
    return lambda *words, **options: Ported(tmp_path, *words, **options)


@pytest.mark.parametrize("inner, path, members", [
    (client(), "app", {"binary": "script", "quantum": "64K", "caps": 20}),
    (client(ram="0x1000"), "app", {"quantum": "4K"}),
    (client(ram="100"), "app", {"quantum": "100"}),
    ("<start name='app' caps='3'><resource name='RAM' quantum='2M'/></start>", "app", {"quantum": "2M", "caps": 3}),
    ("<default caps='7' ram='8K'/><start name='app'/>", "app", {"quantum": "8K", "caps": 7}),
    ("<default caps='7'/><start name='app' caps='9' ram='4K'/>", "app", {"caps": 9}),
    ("<start name='app' ram='4K' caps='1'><binary name='noux'/></start>", "app", {"binary": "script"}),
    (LOG, "log", {"binary": "log", "quantum": "0", "caps": 0, "provides": ["LOG"]}),
    (FILES, "files", {"binary": "files", "quantum": "0", "caps": 0, "provides": ["File_system"]}),
    (GUI, "gui", {"binary": "server", "quantum": "0", "caps": 0, "provides": ["Gui"], "kinds": []}),
    (init("sub", client(name="x")), "sub/x", {"binary": "script", "quantum": "64K"}),
    (init("sub", client(name="x")), "sub", {"binary": "init", "quantum": "1M", "caps": 40}),
    (init("a", init("b", init("c", client()))), "a/b/c/app", {"binary": "script"}),
], ids=short)
def test_entry(ported, inner, path, members):
    assert ported(inner).entry(path).items() >= members.items()


TWO = "<start name='rom' caps='1' ram='4K'><provides><service name='Report'/><service name='ROM'/></provides></start>"
UNSCOPED = SERVED + client(name="a") + client(name="b") + node("default-route", rule("LOG", "<parent/>", unscoped_label="a") + ANY)


@pytest.mark.parametrize("inner, path, rules", [
    (SERVED + client(ANY), "app", [ANY_CHILD]),
    (SERVED + client() + node("default-route", ANY), "app", [ANY_CHILD]),
    (SERVED + client(rule("LOG", child("log"))), "app", [LOG_CHILD]),
    (SERVED + client(rule("LOG")), "app", [LOG_ANY]),
    (SERVED + client(node("any-service", "<any-child/>", label_prefix="a")), "app", [{**ANY_CHILD, "label_prefix": "a"}]),
    (SERVED + client(rule("LOG", label="a") + rule("LOG", label_suffix="b")), "app",
     [{**LOG_ANY, "label": "a"}, {**LOG_ANY, "label_suffix": "b"}]),
    # The first target that provides the service, service by service.
    (SERVED + client(node("any-service", child("log") + child("files"))), "app",
     [LOG_CHILD, {"service": "File_system", "child": "files"}]),
    (SERVED + client(rule("LOG", child("files") + "<parent/><any-child/>")), "app", [LOG_ANY]),
    (SERVED + client(rule("LOG", child("log")) + ANY), "app", [LOG_CHILD, ANY_CHILD]),
    # A parent that is core, and has the service too: no component gets the request.
    (parent("LOG") + LOG + client(ANY), "app", []),
    (parent("LOG") + SERVED + client(rule("LOG", "<parent/>", label="a") + ANY), "app",
     [{**LOG_OUT, "label": "a"}, LOG_OUT, {"service": "File_system", "any-child": True}]),
    # No target provides the service: a node of one service denies, and one of any service doesn't decide.
    (SERVED + client(rule("LOG", child("files"))), "app", [{"service": "LOG", "child": "files"}]),
    (SERVED + client(rule("LOG", "<parent/>") + ANY), "app", [LOG_OUT, ANY_CHILD]),
    (SERVED + client(OUT + rule("LOG")), "app", [LOG_ANY]),
    (SERVED + client(rule("LOG", child("lgo"))), "app", [{"service": "LOG", "child": "lgo"}]),
    (TWO + client(rule("ROM", child("rom.ROM"))), "app", [{"service": "ROM", "child": "app"}]),
    (server("", "LOG") + client(rule("LOG", child(""))), "app", [{"service": "LOG", "child": "_"}]),
    (SERVED + init("sub", client(rule("LOG", "<parent/>"))), "sub/app", [{"service": "LOG", "child": "app"}]),
    (SERVED + init("sub", parent("LOG") + client(OUT)), "sub/app", [LOG_OUT]),
    (SERVED + client(rule("ROM", "<parent/>") + rule("PD", "<parent/>")), "app", []),
    (SERVED + "<alias name='terminal' child='log'/>" + client(rule("LOG", child("terminal"))), "app", [LOG_CHILD]),
    (SERVED + client(rule("LOG", label_last="a")), "app", [{**LOG_ANY, "label": "a"}, {**LOG_ANY, "label_suffix": " -> a"}]),
    (SERVED + client(rule("LOG", unscoped_label="app -> a")), "app", [{**LOG_ANY, "label": "a"}]),
    (SERVED + client(rule("LOG", unscoped_label="apple") + ANY), "app", [ANY_CHILD]),
    (UNSCOPED, "a", [{**LOG_OUT, "label": ""}, ANY_CHILD]),
    (UNSCOPED, "b", [ANY_CHILD]),
], ids=short)
def test_rules(ported, inner, path, rules):
    assert ported(inner).rules(path) == rules


def test_kinds(ported):
    """The kinds of a service are those of the costs, without their comments."""
    kind = {"kind": "view", "block": 160, "bytes": 4}
    made = ported(GUI, costs={"_about": 1, "Gui": [{**kind, "_source": "a page"}]})
    assert made.entry("gui")["kinds"] == [kind] and "assumed" not in made.err
    assert "1:9: note: `gui`: sizes of `Gui` are assumed\n" in ported(GUI, costs={"Gui": [{**kind, "_assumed": "so"}]}).err


def test_several_services(ported):
    """A component that provides several services is a server for each, and routes lead to the one that is meant."""
    made = ported(TWO + client(rule("ROM", child("rom")) + ANY))
    assert made.entry("rom.ROM")["provides"] == ["ROM"]
    assert made.rules("app") == [{"service": "ROM", "child": "rom.ROM"}, ANY_CHILD]
    assert "note: `rom` becomes a server for each service: rom, rom.ROM\n" in made.err


ASKING = server("gui", "Gui", f"<route>{ANY}</route>")


def test_client_of_server(ported):
    """A server that asks is two entries, of which the client has the budget."""
    made = ported(LOG + ASKING)
    assert made.entry("gui")["quantum"] == "0"
    assert made.entry("gui.client").items() >= {"quantum": "1M", "caps": 10, "route": [ANY_CHILD]}.items()
    assert "note: `gui` provides and asks: its session requests and its budget are those of `gui.client`\n" in made.err


def test_labels_with_names(ported):
    """Labels that an init's list sees have the names of clients in the start list."""
    labels = ("label", "gui"), ("label", "gui -> a"), ("label_prefix", "gui ->"), ("label_prefix", "gui"), ("label", "other -> gui")
    route = node("route", "".join(rule("LOG", **{kind: text}) for kind, text in labels))
    made = ported(LOG + init("sub", parent("LOG") + ASKING, route))
    seen = [it.get("label", it.get("label_prefix")) for it in made.entry("sub")["route"]]
    assert seen == ["gui.client", "gui.client -> a", "gui.client ->", "gui", "other -> gui"]


@pytest.mark.parametrize("kind, text, is_noted", [
    ("label_suffix", "ui", True), ("label_suffix", "client", True), ("label_suffix", " -> gui", True),
    ("label_suffix", "i -> a", True), ("label_suffix", " -> a", False), ("label_suffix", "a", False),
    ("label_suffix", " -> ui", False), ("label_last", "gui", True), ("label_last", "a", False)])
def test_suffix_with_names(ported, kind, text, is_noted):
    """A suffix that ends names otherwise than it ends those of the start list is a note."""
    made = ported(LOG + init("sub", parent("LOG") + ASKING, node("route", rule("LOG", **{kind: text}))))
    assert ("note: routing: label_suffix: it may reach into `gui`, which is `gui.client` here\n" in made.err) == is_noted


@pytest.mark.parametrize("name, here", [("my app", "my_app"), ("a" * 33, "a" * 32), ("ä", "_"), ("", "_")])
def test_names(ported, name, here):
    """A name that is none here is another one, and those that are names stay."""
    made = ported(client(name=name))
    assert made.entry(here) and f"note: `{name}` is no name here, and becomes `{here}`\n" in made.err
    both = ported(client(name=name) + client(name=here))
    assert both.entry(here) and both.entry(f"{here[:30]}-2")


def test_taken_names(ported):
    made = ported(LOG + ASKING + client(name="gui.client"))
    assert made.entry("gui.client")["caps"] == 20 and made.entry("gui.client-2")["caps"] == 10


def test_labels(ported):
    """A label that no client can give is another one, the same wherever it is."""
    made = ported(LOG + client("".join(rule("LOG", label=it) for it in ("a" * 65, "a&quot;", "a" * 65))))
    labels = [it["label"] for it in made.rules("app")]
    assert labels == ["a" * 60 + ".1", "a_.2", "a" * 60 + ".1"]
    assert f"note: routing: label: no label here has `{'a' * 65}`, which becomes `{labels[0]}`\n" in made.err


def starting(inner):
    return f"<start name='a' caps='1' ram='1'>{inner}</start>"


LEFT, TIME = "isn't carried over", "isn't carried over: time isn't modelled"
ACCEPTS, NO_SERVICE = "isn't carried over: a server accepts each session that is routed to it", "an init provides no service here"
NO_LABEL = "isn't carried over: a route can't replace a label"
FIRST, LAST, ALL = (f"{it} here\n" for it in ("the first one counts", "the last one counts", "all of them count"))
DECIDES = "`<service>` with 2 targets: the first that provides `LOG` decides here"


@pytest.mark.parametrize("inner, text", [
    (client(priority="-1"), f"1:9: note: `priority` of `<start>` {TIME}"),
    (client(ld="no"), f"1:9: note: `ld` of `<start>` {LEFT}"),
    (client(version="1"), f"1:9: note: `version` of `<start>` {LEFT}"),
    ("<affinity-space width='2'/>", f"1:9: note: `<affinity-space>` of `<config>` {TIME}"),
    ("<heartbeat rate_ms='1'/>", f"1:9: note: `<heartbeat>` of `<config>` {TIME}"),
    ("<resource name='RAM' preserve='1M'/>", f"1:9: note: budgets: `<resource>` of `<config>` {LEFT}"),
    ("<service name='LOG'/>", f"1:9: note: routing: `<service>` of `<config>` {LEFT}: {NO_SERVICE}"),
    ("<include rom='x'/>", f"1:9: note: routing: `<include>` of `<config>` {LEFT}: its text isn't in this file"),
    ("<default-route/><default-route/>", f"1:25: note: routing: one more `<default-route>`: {FIRST}"),
    ("<default/><default/>", f"1:19: note: budgets: one more `<default>`: {FIRST}"),
    ("<parent-provides/><parent-provides/>", f"1:27: note: routing: one more `<parent-provides>`: {ALL}"),
    ("<alias name='b' child='a'/><alias name='b' child='c'/>", f"1:36: note: routing: one more `<alias>` of the name `b`: {LAST}"),
    (starting("<route/><route/>"), f"1:50: note: routing: one more `<route>`: {FIRST}"),
    (starting("<binary name='b'/><binary name='init'/>"), f"1:60: note: routing: one more `<binary>`: {FIRST}"),
    (starting("<config/><config/>"), f"1:51: note: one more `<config>`: {FIRST}"),
    (starting("<binary name='init'/><config/><config/>"), f"1:72: note: routing: one more `<config>`: {FIRST}"),
    (server("log", "LOG", "<config/><config/>"), f" note: routing: one more `<config>`: {FIRST}"),
    (starting("<provides/><provides/>"), f"1:53: note: routing: one more `<provides>`: {ALL}"),
    (starting("<provides><srevice name='LOG'/></provides>"), f"1:52: note: routing: `<srevice>` of `<provides>` {LEFT}"),
    (starting("<resource name='RAM' quantum='2'/>"), f"1:42: note: budgets: one more amount of RAM: {LAST}"),
    ("<start name='a' caps='1'><resource name='RAM' quantum='1'/><resource name='RAM' quantum='2'/></start>",
     f"1:68: note: budgets: one more amount of RAM: {LAST}"),
    (SERVED + client(rule("LOG", child("files") + child("log"))), f" note: routing: {DECIDES}\n"),
    (SERVED + client() + node("default-route", rule("LOG", "<parent/><any-child/>")), f" note: routing: {DECIDES}\n"),
    (SERVED + client(rule("LOG", child("log") + "<any-child/>")), f" note: {DECIDES}\n"),
    (starting("<affinity/>"), f"1:42: note: `<affinity>` of `<start>` {TIME}"),
    (starting("<exit/>"), f"1:42: note: `<exit>` of `<start>` {LEFT}"),
    (starting("<configfile name='x'/>"), f"1:42: note: `<configfile>` of `<start>` {LEFT}: its text isn't in this file"),
    (starting("<resource name='CPU' quantum='5'/>"), f'1:42: note: `<resource name="CPU">` {LEFT}'),
    (starting("<resource name='IRQ'/>"), f'1:42: note: budgets: `<resource name="IRQ">` {LEFT}'),
    (starting("<resource name='RAM' quantum='1' constrain_phys='1'/>"),
     f"1:42: note: budgets: `constrain_phys` of `<resource>` {LEFT}"),
    (starting("<config/>"), f"1:42: note: `<config>` of `a` {LEFT}: the scenario has the calls of a script"),
    (server("log", "LOG", "<config/>"), f"note: `<config>` of `log` {ACCEPTS}"),
    (server("log", "LOG", "<config><policy label='a'/></config>"), f"note: routing: `<policy>` of `log` {ACCEPTS}"),
    (server("log", "LOG", "<config><policy/><default-policy/></config>"), f"note: `<config>` of `log` {ACCEPTS}"),
    (LOG, "1:9: note: `log`: 1048576 bytes and 10 capabilities aren't carried over: nothing is charged to a server\n"),
    ("<start name='log' caps='0' ram='0'><provides><service name='LOG'/></provides><exit/></start>", "`<exit>`"),
    ("<start name='a' caps='1'/>", "1:9: note: budgets: `a` has no `ram`, and gets 0"),
    ("<start name='a' ram='1'/>", "1:9: note: budgets: `a` has no `caps`, and gets 0"),
    (init("sub", client(ram="2M")),
     "1:9: note: budgets: `sub`: its components have 2097152 bytes and 20 capabilities, more than the 1048576 and 40 of their init"),
    (GUI, "1:9: note: budgets: `gui`: no costs of `Gui`, so its sessions have no objects"),
    (starting("<binary name='init'/>"), "1:9: note: routing: `a` is an init whose list isn't in this file, and becomes a script"),
    (init("sub", "", "<provides><service name='Gui'/></provides>"), f"note: routing: `sub` provides `Gui`: {NO_SERVICE}"),
    (LOG + client(rule("LOG", child("lgo"))), "note: routing: unknown component `lgo`\n"),
    (LOG + client(node("any-service", child("lgo") + "<any-child/>")), "note: routing: unknown component `lgo`\n"),
    (client(rule("Nic", child("lgo"))), "note: unknown component `lgo`\n"),
    (LOG + client(rule("LOG", child("log", label="x"))), f"note: routing: `label` of `<child>` {NO_LABEL}"),
    (CORE + client(rule("ROM", "<parent label='x'/>")), f"note: `label` of `<parent>` {NO_LABEL}"),
    (LOG + client(rule("LOG", child("log", diag="yes"))), f"note: `diag` of `<child>` {LEFT}"),
    (LOG + client(rule("LOG", label_frob="x")), f"note: routing: `label_frob` of `<service>` {LEFT}"),
    (LOG + client(rule("LOG", "<local/><any-child/>")), f"note: routing: `<local>` of `<service>` {LEFT}"),
    (LOG + client(rule("LOG", label_last="x")), "note: `label_last` becomes two rules"),
    (LOG + client(rule("LOG", unscoped_label="app")), "note: `unscoped_label` becomes the label of one client"),
    (client(rule("Nic")), "note: no component provides `Nic`, so its rule is left out"),
    (CORE + client(rule("ROM", "<parent/>") + rule("PD", "<parent/>")),
     " note: rules for services of core, which isn't modelled, are left out: 2, for `ROM`, `PD`"),
], ids=short)
def test_note(ported, inner, text):
    """Each element that isn't carried over is a note with its place. With --strict the status is 3 if a note is on routing or
    budgets, and the list is written."""
    made = ported(inner)
    assert made.status == 0 and text in made.err
    *notes, last = made.err.splitlines()
    concerns = [sum(f" note: {it}: " in line for line in notes) for it in ("routing", "budgets")]
    assert last == f"{len(notes)} note{'s' * (len(notes) > 1)}: {concerns[0]} on routing, {concerns[1]} on budgets"
    strict = ported(inner, "--strict")
    assert (strict.status, strict.err, strict.text) == (3 if any(concerns) else 0, made.err, made.text)


LARGE = "error: expected budgets of at most 4096 pages and 4096 capabilities, found"


@pytest.mark.parametrize("whole, text", [
    (b"<config>", "1:9: error: invalid XML: no element found"),
    (b"<config>\n <start</config>", "2:8: error: invalid XML: not well-formed (invalid token)"),
    (b"", "1:1: error: invalid XML: no element found"),
    (b"<init/>", "1:1: error: expected `<config>`, found `<init>`"),
    (b"<config>\n <start caps='1'/></config>", "2:2: error: missing attribute; expected `name` of `<start>`"),
    (client("<service><parent/></service>"), "error: missing attribute; expected `name` of `<service>`"),
    (client("<any-service/>"), "error: expected a target in `<any-service>`: `<parent/>`, `<child>` or `<any-child/>`"),
    ("<start name='a'/><start name='a'/>", "1:26: error: duplicate name `a`"),
    ("<start name='a' ram='1k'/>", "1:9: error: ram: expected an amount with K, M, G or no suffix, found `1k`"),
    (client(ram="20000000000G"), "1:9: error: ram: expected an amount with K, M, G or no suffix, found `20000000000G`"),
    ("<default caps='x'/><start name='a'/>", "1:9: error: caps: expected a number of at most 4294967295, found `x`"),
    (server("a", "a b"), "error: expected a service of 1 to 32 letters, digits, `_`, `-` and `.`, found `a b`"),
    (init("a", init("b", init("c", init("d", "")))), "expected inits nested at most 3 deep, found one more"),
    (client(ram="17M"), f"{LARGE} 4352 and 20; --scale 2 fits"),
    (client(caps="10000"), f"{LARGE} 16 and 10000; --scale 3 fits"),
    ("".join(client(name=it) for it in range(257)),
     "error: expected at most 256 components and 64 services, found 257 and 0"),
    ("".join(client(name=it) for it in range(33)),
     "error: expected at most 32 entries, found 33; --only NAME,.. takes some with what they reach"),
    (LOG + client("".join(rule("LOG", label=it) for it in range(33))), "error: expected at most 32 rules for `app`, found 33"),
], ids=short)
def test_fault(ported, whole, text):
    made = ported(whole)
    assert (made.status, made.text) == (2, None) and f"{text}\n" in made.err and made.err.endswith("\n1 error\n"), made.err


NO_TYPE = "expected no document type and no entities, found some"


@pytest.mark.parametrize("data, text", [
    (b'<!DOCTYPE c [<!ENTITY a "aaaa"><!ENTITY b "&a;&a;&a;">]><config>&b;</config>', NO_TYPE),
    (b'<!DOCTYPE c SYSTEM "http://localhost/x.dtd"><config/>', NO_TYPE),
    (b'<!DOCTYPE c [<!ENTITY a SYSTEM "file:///etc/passwd">]><config>&a;</config>', NO_TYPE),
    (b"<config>&a;</config>", "invalid XML: undefined entity"),
    (b"<config>" + b"<start>" * 5000, "expected at most 64 nested elements, found more"),
    (b"<config>" + b"<start/>" * 10_000, "expected at most 10000 elements, found more"),
    (b'<?xml version="1.0" encoding="x"?><config/>', "invalid XML: unknown encoding"),
    (b'<?xml version="1.0" encoding="gbk"?><config/>', "invalid XML: multi-byte encodings are not supported"),
    (b'<?xml version="1.0" encoding="idna"?><config/>', "invalid XML: decoding with 'idna' codec failed"),
    (b'<?xml version="1.0" encoding="punycode"?><config a="\x80"/>', "invalid XML: 'ascii' codec can't decode byte 0x80"),
    (b"<config \xff\xff/>", "invalid XML: not well-formed"),
    (b"\x00\x01", "invalid XML"),
], ids=short)
def test_hostile(ported, data, text):
    made = ported(data)
    assert (made.status, made.text) == (2, None) and text in made.err and len(made.err.splitlines()) == 2, made.err


def test_control_characters(ported):
    """What a text has doesn't reach the terminal as it is."""
    assert "`a\\x9b`" in ported(client(name="a\x9b")).err


KIND = {"kind": "a", "block": 112, "bytes": 0}
TOO_LARGE = "invalid JSON: expected fewer nested values, and numbers of at most 4300 digits"


@pytest.mark.parametrize("costs, text", [
    ("{", "costs.json:1:2: error: invalid JSON: Expecting property name enclosed in double quotes"),
    ("[]", "costs.json: error: expected an object with a list of kinds for each service"),
    ({"Gui": 1}, "costs.json: error: Gui: expected a list of at most 16 kinds"),
    ({"Gui": [{**KIND, "kind": str(it)} for it in range(17)]}, "costs.json: error: Gui: expected a list of at most 16 kinds"),
    ({"Gui": [{"block": 112, "bytes": 0}]}, "costs.json: error: Gui[0]: expected an object whose `kind` is a name"),
    ({"Gui": [{**KIND, "kind": 5}]}, "costs.json: error: Gui[0]: expected an object whose `kind` is a name"),
    ({"Gui": [{**KIND, "kind": "a b"}]}, "costs.json: error: Gui[0]: expected an object whose `kind` is a name"),
    ({"Gui": [KIND, {**KIND, "block": 111}]},
     "costs.json: error: Gui[1]: block: expected a whole number from 112 to 65535, found 111"),
    ({"Gui": [{**KIND, "bytes": None}]}, "costs.json: error: Gui[0]: bytes: expected a whole number from 0 to 65535, found null"),
    ({"Gui": [{**KIND, "bytes": True}]}, "costs.json: error: Gui[0]: bytes: expected a whole number from 0 to 65535, found true"),
    ({"Gui": [KIND, KIND]}, "costs.json: error: Gui: expected kinds with different names"),
    ("[" * 100_000, f"costs.json: error: {TOO_LARGE}"),
    ('{"Gui": [{"kind": "a", "block": ' + "1" * 5000 + "}]}", f"costs.json: error: {TOO_LARGE}"),
    (b'{"Gui": "\xe4"}', "costs.json: error: invalid JSON: expected utf-8, found invalid continuation byte at byte 9"),
], ids=short)
def test_costs(ported, costs, text):
    made = ported(GUI, costs=costs)
    assert (made.status, made.text, made.err) == (2, None, f"{text}\n1 error\n")


def test_unread_costs(ported):
    """A member of a kind that nothing reads is a note on budgets, with its place."""
    costs = '{"_about": {"a": 1},\n "Gui": [{"kind": "a", "block": 112, "bytes": 0,\n  "bites": 4, "_source": 1}]}'
    made = ported(GUI, costs=costs)
    assert made.status == 0 and made.err.startswith("costs.json:3:12: note: budgets: unknown member `bites` of `Gui[0]`\n")
    assert made.err.count("unknown member") == 1 and "2 notes: 0 on routing, 1 on budgets\n" in made.err
    strict = ported(GUI, "--strict", costs=costs)
    assert (strict.status, strict.err, strict.text) == (3, made.err, made.text)


def test_scale(ported):
    """Budgets are divided, and are whole pages then; the machine is the smallest that has them."""
    made = ported(client(ram="17M", caps="100", name="a") + client(ram="10K", caps="3", name="b"), "--scale", "2")
    assert made.value["machine"] == {"pages": 2177, "caps": 51} and "divided by 2" in made.value["_about"]
    assert made.entry("a").items() >= {"quantum": "8704K", "caps": 50}.items()
    assert made.entry("b").items() >= {"quantum": "4K", "caps": 1}.items()
    assert ported(client(), "--scale", "1").value["machine"] == {"pages": 16, "caps": 20}
    assert "--scale 4 fits" in ported(client(ram="64M", caps="1"), "--scale", "2").err


def test_scale_to_nothing(ported):
    """A budget that becomes 0 is a note on budgets."""
    made = ported(client(ram="12K", caps="3") + client(ram="16K", caps="4", name="b"), "--scale", "4", "--strict")
    lines = [f"1:9: note: budgets: `app`: its {it} become 0, divided by 4" for it in ("12288 bytes", "3 capabilities")]
    assert made.status == 3 and made.err.splitlines() == [*lines, "2 notes: 0 on routing, 2 on budgets"]


@pytest.mark.parametrize("word", ["0", "-1", "x", "1.5", ""])
def test_wrong_scale(ported, word):
    assert ported("", "--scale", word).status == 2


REACHING = (SERVED + GUI + client(rule("LOG", child("log")), "a") + client(rule("Gui", child("gui")), "b") + client(ANY, "c")
            + init("sub", parent("LOG") + client(OUT, "x") + client("<any-service><any-child/></any-service>", "y"),
                   node("route", rule("LOG", child("log")))))


@pytest.mark.parametrize("names, paths", [
    ("a", {"log", "a"}), ("b", {"gui", "b"}), ("a,b", {"log", "gui", "a", "b"}), ("c", {"log", "files", "gui", "c"}),
    ("sub", {"log", "sub", "sub/x", "sub/y"}), ("sub/x", {"log", "sub", "sub/x"}), ("sub/y", {"sub", "sub/y"}), ("log", {"log"}),
])
def test_only(ported, names, paths):
    """Some components are taken with what they reach and with the inits that start them; others have no notes."""
    made = ported(REACHING, "--only", names)
    assert made.paths == paths and ("`gui`" in made.err) == ("gui" in paths)


def test_only_ambiguous(ported):
    """A request that is denied since several provide its service stays denied."""
    route = rule("LOG", child("log"), label="a") + "<any-service><any-child/></any-service>"
    assert ported(LOG + server("log2", "LOG") + client(route), "--only", "app").paths == {"log", "log2", "app"}


def test_only_unknown(ported):
    made = ported(REACHING, "--only", "a,d")
    assert made.status == 2 and "error: unknown component `d`; expected the name of a `<start>`" in made.err


def test_only_of_many(ported):
    inner = LOG + "".join(client(ANY, f"a{it}") for it in range(40))
    assert ported(inner).status == 2 and ported(inner, "--only", "a7").paths == {"log", "a7"}


def test_file(tmp_path):
    """A file that can't be read has status 2, and a list that can't be written 1."""
    ran = PORT("none.xml", "-o", "list.json", cwd=tmp_path)
    assert (ran.status, ran.err) == (2, "from-genode: none.xml: No such file or directory\n")
    (tmp_path / "config.xml").write_text("<config/>")
    ran = PORT("config.xml", "-o", "none/list.json", cwd=tmp_path)
    assert ran.status == 1 and ran.err == f"from-genode: {tmp_path}/none/list.json: No such file or directory\n"
    PORT("config.xml", "-o", "list.json", cwd=tmp_path).ok()
    assert (tmp_path / "list.json").read_text().startswith('{"_about": "config.xml by nethrywel-from-genode"')


def test_missing_package(tmp_path):
    """Without the parser the tool reports what to do, and writes nothing."""
    (tmp_path / "defusedxml.py").write_text("raise ModuleNotFoundError(name=__name__)\n")
    ran = PORT("-o", tmp_path / "list.json", EXAMPLES / "genode/pump.xml", env=environment(PYTHONPATH=tmp_path))
    assert (ran.status, ran.err) == (1, "from-genode: python3-defusedxml isn't here; run dev/setup\n")
    assert not (tmp_path / "list.json").exists()


def routes(root, value):
    """Yields each component with a session request, where Genode's init routes that, and whether the list does the same."""
    found = start_list_reading.components(value)
    for steps in (it for it in genode_reading.clients(root) if it[-1][1].find("config") is None):
        path = "/".join(it.get("name") for _, it in steps)
        scripts = [found[it] for it in (path, f"{path}.client") if it in found and found[it][-1][1]["binary"] == "script"]
        for service, label in itertools.product(genode_reading.SERVICES, (*genode_reading.TEXTS, "alice", "bob -> a", "x")):
            to = "/".join(genode_reading.route(steps, service, label) or ())
            here = start_list_reading.route(scripts[0], service, label) if scripts else None
            # (a component that asks itself alone is no client here)
            yield path, (service, label), to, here in ((to, f"{to}.{service}") if to and (scripts or to != path) else (None,))


def drawn(seed):
    root = XML.Element("config")
    genode_reading.drawn_config(random.Random(seed), root, 0)
    return root, Reader(XML.tostring(root))


def test_random_routes():
    """Each label of each component is routed as Genode's init routes it, in configurations drawn at random."""
    reaching = 0
    for root, reader in map(drawn, range(60)):
        value = start_list_reading.check_list(Port(reader, {}, 1).text("drawn"))
        for *request, to, is_same in routes(root, value):
            assert is_same, (*request, XML.tostring(root))
            reaching += bool(to)
    assert reaching > 1000


def test_random_only():
    """The routes of a component are the same in a list of it with what it reaches."""
    reaching = 0
    for seed, (root, reader) in enumerate(map(drawn, range(60))):
        path = random.Random(seed).choice([it.path for it in reader.init.all() if not it.inner])
        take(reader.init, [path])
        value = start_list_reading.check_list(Port(reader, {}, 1).text("drawn"))
        for *request, to, is_same in (it for it in routes(root, value) if it[0] == path):
            assert is_same, (*request, XML.tostring(root))
            reaching += bool(to)
    assert reaching > 100
