"""A reading of Genode's configuration as its init decides routes, label by label, and configurations drawn at random."""
from xml.etree import ElementTree as XML

SERVICES = ("LOG", "File_system", "Gui")
TEXTS = ("", "a", "b", "ab", "a -> b", "b -> a")
NAMES = ("alice", "bob", "gui")


def last_of(label):
    return label.split(" -> ")[-1]


def has_label(node, name, label):
    """Returns whether a node's conditions hold of the label that a child called NAME gives."""
    if node.get("unscoped_label") is not None:
        return node.get("unscoped_label") == (f"{name} -> {label}" if label else name)
    conditions = {"label": label.__eq__, "label_prefix": label.startswith, "label_suffix": label.endswith,
                  "label_last": lambda text: text == last_of(label)}
    return all(holds(node.get(it)) for it, holds in conditions.items() if node.get(it) is not None)


def providers(config, service):
    return [it.get("name") for it in config.findall("start") if it.find(f"provides/service[@name='{service}']") is not None]


def provides(config, target, service):
    if target.tag == "parent":
        return service in (it.get("name") for it in config.findall("parent-provides/service"))
    aliases = {it.get("name"): it.get("child") for it in config.findall("alias")}
    found = providers(config, service)
    return bool(found) if target.tag == "any-child" else aliases.get(target.get("name"), target.get("name")) in found


def clients(config, outer=()):
    """Yields the steps of each component, from the outermost list on: a configuration and a start node."""
    for start in config.findall("start"):
        steps = (*outer, (config, start))
        is_init = start.find("binary") is not None and start.find("binary").get("name") == "init"
        yield steps
        if is_init:
            yield from clients(start.find("config"), steps)


def route(steps, service, label):
    """Returns the names of the inits and of the server to which a session request is routed, or None, also if it is core."""
    if not steps:
        return None
    *outer, (config, start) = steps
    nodes = start.find("route") if start.find("route") is not None else config.find("default-route")
    for node in nodes if nodes is not None else ():
        if node.tag == "service" and node.get("name") != service or not has_label(node, start.get("name"), label):
            continue
        target = next((it for it in node if provides(config, it, service)), None)
        if target is None and node.tag == "any-service":
            continue
        if target is None:
            return None
        if target.tag == "parent":
            return route(outer, service, f"{start.get('name')} -> {label}" if label else start.get("name"))
        found = providers(config, service)
        if target.tag == "any-child" and len(found) > 1:
            return None
        aliases = {it.get("name"): it.get("child") for it in config.findall("alias")}
        name = found[0] if target.tag == "any-child" else aliases.get(target.get("name"), target.get("name"))
        return tuple([*(it.get("name") for _, it in outer), name])
    return None


def drawn_route(draw, parent, tag, within):
    """Adds a route of up to six nodes. WITHIN has the names of the components of an init that the route is of."""
    route_of = XML.SubElement(parent, tag)
    for _ in range(draw.randrange(6)):
        service = draw.choice((None, None, *SERVICES))
        node = XML.SubElement(route_of, "service", name=service) if service else XML.SubElement(route_of, "any-service")
        label = draw.choice(TEXTS)
        if within and draw.random() < 0.6:
            label = f"{draw.choice(within)} -> {label}" if label else draw.choice(within)
        kind = draw.choice((None, None, "label", "label_prefix", "label_suffix", "label_last", "unscoped_label"))
        if kind in ("label_suffix", "label_last"):
            # (no name ends so: a component that provides and asks has another name in the list)
            label = "a"
        if kind == "unscoped_label":
            label = draw.choice(NAMES) + (f" -> {label}" if label else "")
        if kind:
            node.set(kind, label)
        if kind == "label_last" and draw.random() < 0.3:
            node.set(draw.choice(("label_prefix", "label_suffix", "label")), "a")
        for _ in range(draw.randrange(1, 4)):
            target = XML.SubElement(node, draw.choice(("parent", "child", "any-child")))
            if target.tag == "child":
                target.set("name", draw.choice((*NAMES, "log", "files", "sub", "other")))


def drawn_config(draw, parent, depth):
    """Fills a node `config`, some elements of which are given twice, and returns the names of its components."""
    names, times = [], lambda: range(draw.choice((1, 1, 1, 1, 2)))
    provided = [XML.SubElement(parent, "parent-provides") for _ in times()]
    for service in SERVICES:
        if draw.random() < 0.5:
            XML.SubElement(draw.choice(provided), "service", name=service)
    for _ in times():
        XML.SubElement(parent, "alias", name="other", child=draw.choice(NAMES))
    for name in draw.sample(("alice", "bob", "gui", "log", "files", "sub"), draw.randrange(2, 7)):
        start = XML.SubElement(parent, "start", name=name, caps="1", ram="4K")
        names.append(name)
        if name == "sub" and depth < 2:
            XML.SubElement(start, "binary", name="init")
            start.set("caps", str(64 >> 2 * depth))
            start.set("ram", f"{256 >> 2 * depth}K")
            within = drawn_config(draw, XML.SubElement(start, "config"), depth + 1)
        else:
            within = []
            own = {"log": ["LOG"], "files": ["File_system"], "gui": ["Gui"]}
            provides_of = [XML.SubElement(start, "provides") for _ in times()]
            for service in own.get(name) or draw.sample(SERVICES, draw.choice((0, 0, 0, 1, 2))):
                XML.SubElement(draw.choice(provides_of), "service", name=service)
        for _ in times() if draw.random() < 0.5 else ():
            drawn_route(draw, start, "route", within)
    for _ in times():
        drawn_route(draw, parent, "default-route", [])
    return names
