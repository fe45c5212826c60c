"""A second reading of docs/reference/start-list.md with declared servers: what is wrong with a start list, its components, and
where a session request is routed."""
import json
import re

NAME, AMOUNT = r"[A-Za-z0-9_.-]{1,32}", r"([0-9]+)([KMG]?)"
SERVICES = {"log": "LOG", "files": "File_system"}
LABELS = {"label", "label_prefix", "label_suffix"}
TARGETS = {"child", "any-child", "parent"}


def is_whole(value, least, most):
    return type(value) is int and least <= value <= most


def bytes_of(text):
    digits, unit = re.fullmatch(AMOUNT, text).groups()
    return int(digits) << {"": 0, "K": 10, "M": 20, "G": 30}[unit]


def check_rules(rules):
    assert isinstance(rules, list) and len(rules) <= 32
    for it in rules:
        assert set(it) <= {"service", "any-service", *LABELS, *TARGETS}, it
        assert len({"service", "any-service"} & set(it)) == 1 and len(TARGETS & set(it)) == 1, it
        assert all(it.get(one, True) is True for one in ("any-service", "any-child", "parent")), it
        assert all(re.fullmatch(NAME, it.get(one, "name")) for one in ("service", "child")), it
        assert all(len(it.get(one, "")) <= 172 for one in LABELS), it


def check_kinds(kinds):
    assert isinstance(kinds, list) and len(kinds) <= 16
    assert len({it["kind"] for it in kinds}) == len(kinds)
    for it in kinds:
        assert set(it) == {"kind", "block", "bytes"} and re.fullmatch(NAME, it["kind"]), it
        assert is_whole(it["block"], 112, 65535) and is_whole(it["bytes"], 0, 65535), it


def check_entry(it, depth):
    binary, members = it["binary"], {"name", "binary", "quantum", "caps", "route"}
    members |= {"script": set(), "init": {"config"}, "server": {"provides", "kinds"}}.get(binary, {"provides"})
    assert binary in ("script", "init", "server", *SERVICES) and set(it) <= members, it
    assert re.fullmatch(NAME, it["name"]) and re.fullmatch(AMOUNT, it["quantum"]) and is_whole(it["caps"], 0, (1 << 32) - 1), it
    check_rules(it.get("route", []))
    if binary == "init":
        check_part(it["config"], depth + 1)
        assert covers(bytes_of(it["quantum"]), it["caps"], it["config"]["start"]), it["name"]
    elif binary != "script":
        (service,) = it["provides"]
        assert re.fullmatch(NAME, service) and service == SERVICES.get(binary, service), it
        assert binary != "server" or service not in SERVICES.values()
        check_kinds(it.get("kinds", []))
        assert ("kinds" in it) == (binary == "server")


def covers(ram, caps, entries):
    return sum(bytes_of(it["quantum"]) for it in entries) <= ram and sum(it["caps"] for it in entries) <= caps


def check_part(part, depth):
    assert depth <= 3 and set(part) <= {"_about", "machine", "default-route", "start"}
    check_rules(part.get("default-route", []))
    assert len({it["name"] for it in part["start"]}) == len(part["start"])
    for it in part["start"]:
        check_entry(it, depth)


def check_list(text):
    """Checks that a start list has no fault and boots, and returns it."""
    assert len(text.encode()) <= 65536
    value = json.loads(text)
    check_part(value, 0)
    machine = value["machine"]
    assert all(is_whole(machine[it], 16, 4096) for it in ("pages", "caps")) and set(machine) == {"pages", "caps"}
    assert covers(machine["pages"] * 4096, machine["caps"], value["start"]) and len(components(value)) <= 32
    return value


def components(part, outer=()):
    """Returns each entry by its path, with the parts and names from the outermost list on, its own last."""
    found = {}
    for it in part["start"]:
        steps = (*outer, (part, it))
        found["/".join(one["name"] for _, one in steps)] = steps
        found |= components(it["config"], steps) if it["binary"] == "init" else {}
    return found


def has_label(rule, label):
    return (rule.get("label", label) == label and label.startswith(rule.get("label_prefix", ""))
            and label.endswith(rule.get("label_suffix", "")))


def route(steps, service, label):
    """Returns the path of the server to which a session request of an entry is routed, or None."""
    if not steps:
        return None
    *outer, (part, it) = steps
    rules = it.get("route", part.get("default-route", []))
    rule = next((one for one in rules if one.get("service", service) == service and has_label(one, label)), None)
    if rule is None:
        return None
    if "parent" in rule:
        return route(outer, service, f"{it['name']} -> {label}" if label else it["name"])
    servers = [one["name"] for one in part["start"] if service in one.get("provides", [])]
    servers = [one for one in servers if one == rule["child"]] if "child" in rule else servers
    return "/".join([*(one["name"] for _, one in outer), servers[0]]) if len(servers) == 1 else None
