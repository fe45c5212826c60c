"""A second reading of the machine for sessions of declared servers, of docs/reference alone: what each line is replied."""
import re
from dataclasses import dataclass, field

from start_list_reading import bytes_of, components, route

PAGE, MOST, USER, HEAP = 4096, (1 << 64) - 1, (0x10000000, 0x20000000), 0x100000000
NAME = re.compile(r"[A-Za-z0-9_.-]{1,32}")


class Refused(Exception):
    """A refusal of a call, or an error of a service, by its name."""


def pages(size):
    return -(-size // PAGE)


def number(text, most=MOST):
    """Returns the number that a word is, or None."""
    return int(text) if re.fullmatch("[0-9]+", text) and int(text) <= most else None


@dataclass
class Account:
    ram: int
    caps: int
    used_ram: int = 0
    used_caps: int = 0

    def test(self, ram, caps):
        if self.used_ram + ram > self.ram:
            raise Refused("Out_of_ram")
        if self.used_caps + caps > self.caps:
            raise Refused("Out_of_caps")

    def charge(self, ram, caps):
        self.test(ram, caps)
        self.used_ram += ram
        self.used_caps += caps

    def credit(self, ram, caps):
        self.used_ram -= ram
        self.used_caps -= caps

    def give(self, to, ram, caps):
        """Moves limits that aren't used to another account."""
        self.test(ram, caps)
        self.ram, self.caps, to.ram, to.caps = self.ram - ram, self.caps - caps, to.ram + ram, to.caps + caps

    def __str__(self):
        return f"ram {self.used_ram}/{self.ram} caps {self.used_caps}/{self.caps}"


class Heap:
    """A heap of chunks, whose blocks are by chunk and offset: their sizes, and whether they are used."""

    def __init__(self, account):
        self.account, self.growth, self.chunks = account, 4, []

    def new(self, size):
        """Takes a block for so many bytes, below 65536, and returns its chunk and offset."""
        need = max(48, 16 + size) + 15 & ~15
        blocks = ((has, at, offset) for at, chunk in enumerate(self.chunks) for offset, (has, used) in chunk.items() if not used)
        fits = [it for it in blocks if it[0] >= need]
        if not fits:
            self.grow(need)
            fits = [(self.chunks[-1][0][0], len(self.chunks) - 1, 0)]
        found, at, offset = min(fits)
        rest = found - need if found - need >= 48 else 0
        self.chunks[at][offset] = (found - rest, True)
        if rest:
            self.chunks[at][offset + need] = (rest, False)
        return at, offset

    def grow(self, need):
        if len(self.chunks) == 64:
            raise Refused("Too_many_chunks")
        own, wanted = pages(need), max(pages(need), self.growth)
        is_short = self.account.used_ram + wanted * PAGE > self.account.ram
        size = (own if is_short else wanted) * PAGE
        self.account.charge(size, 1)
        self.growth = self.growth if is_short else min(64, self.growth * 2)
        self.chunks.append({0: (size, False)})

    def free(self, place):
        at, offset = place
        chunk = self.chunks[at]
        chunk[offset] = (chunk[offset][0], False)
        joined, last = {}, None
        for offset in sorted(chunk):
            size, used = chunk[offset]
            if last is not None and not used and not joined[last][1]:
                joined[last] = (joined[last][0] + size, False)
            else:
                joined[offset], last = (size, used), offset
        self.chunks[at] = joined


@dataclass
class Memory:
    """A dataspace, or a buffer, which its session's account has paid."""

    data: bytearray
    session: "Session | None" = None


@dataclass
class Thing:
    """An object of a session: its kind, its place in the heap, its units, and the bytes of its contents."""

    kind: dict
    place: tuple
    units: int = 0
    contents: int = 0


@dataclass
class Session:
    """A session of a declared server, whose account has paid itself and its object."""

    kinds: dict
    account: Account
    things: dict = field(default_factory=dict)
    buffer: int | None = None

    def __post_init__(self):
        self.heap = Heap(self.account)
        self.account.charge(PAGE, 2)

    def make(self, client, kind, name):
        if kind not in self.kinds:
            raise Refused("BAD_KIND")
        if not NAME.fullmatch(name):
            raise Refused("BAD_NAME")
        if name in self.things:
            raise Refused("EXISTS")
        self.things[name] = Thing(self.kinds[kind], self.heap.new(self.kinds[kind]["block"]))
        return "OK"

    def thing(self, name):
        if name not in self.things:
            raise Refused("NOT_FOUND")
        return self.things[name]

    def resize(self, client, name, units):
        it = self.thing(name)
        size = units * it.kind["bytes"]
        contents = pages(32 + size) * PAGE if size else 0
        if units == it.units:
            return "OK"
        if contents > MOST:
            raise Refused("INVALID_SIZE")
        if contents:
            self.account.charge(contents, 1)
        self.account.credit(it.contents, 1 if it.contents else 0)
        it.units, it.contents = units, contents
        return "OK"

    def drop(self, client, name):
        it = self.thing(name)
        self.account.credit(it.contents, 1 if it.contents else 0)
        self.heap.free(self.things.pop(name).place)
        return "OK"

    def count(self, client, kind=None):
        if kind is not None and kind not in self.kinds:
            raise Refused("BAD_KIND")
        return f"OK {sum(it.kind['kind'] == kind or kind is None for it in self.things.values())}"

    def name(self, client, at):
        if at >= len(self.things):
            raise Refused("END")
        name, it = list(self.things.items())[at]
        return f"OK {it.kind['kind']} {name} {it.units}"

    def stat(self, client):
        return f"OK {self.account}"

    def add_buffer(self, client, size):
        if size == 0 or pages(size) * PAGE > MOST:
            raise Refused("INVALID_SIZE")
        if self.buffer is not None:
            raise Refused("EXISTS")
        self.account.charge(pages(size) * PAGE, 1)
        self.buffer = client.add(Memory(bytearray(pages(size) * PAGE), self))
        return f"OK cap {self.buffer}"

    def remove_buffer(self, client):
        if self.buffer is None:
            raise Refused("NO_BUFFER")
        self.account.credit(len(client.things[self.buffer].data), 1)
        client.remove(self.buffer)
        self.buffer = None
        return "OK"

    # Each request: its words after the first, of which `N` are numbers, and what carries it out.
    REQUESTS = {"MAKE": [("FF", make)], "RESIZE": [("FN", resize)], "DROP": [("F", drop)], "COUNT": [("", count), ("F", count)],
                "NAME": [("N", name)], "STAT": [("", stat)], "BUFFER": [("N", add_buffer)], "UNBUFFER": [("", remove_buffer)]}

    def reply(self, client, request):
        first, *words = request.split(" ")
        for form, work in self.REQUESTS.get(first, ()):
            values = [number(it) if kind == "N" else it for kind, it in zip(form, words)]
            if len(form) == len(words) and len(request) <= 8192 and all(it not in (None, "") for it in values):
                try:
                    return work(self, client, *values)
                except Refused as why:
                    return f"ERR {str(why).upper()}"
        return "ERR BAD_REQUEST"


def arguments(text):
    """Returns the donation and the label of session arguments."""
    given = {"ram_quota": 0, "cap_quota": 0, "label": ""}
    for key, value in (it.strip(" ").split("=") for it in text.split(",") if it.strip(" ")):
        value = value.strip('"')
        given.setdefault(key, value)
        given[key] = value if key == "label" else bytes_of(value)
    return given["ram_quota"], given["cap_quota"], given["label"]


class Script:
    """A component that makes calls: its account, what its selectors name, and its regions by their starts."""

    def __init__(self, machine, path, entry):
        self.machine, self.path, self.things, self.regions = machine, path, {}, {}
        self.account, self.has_exited = Account(bytes_of(entry["quantum"]), entry["caps"]), False

    def add(self, it):
        selector = next(it for it in range(1, len(self.things) + 2) if it not in self.things)
        self.things[selector] = it
        return selector

    def remove(self, selector):
        it = self.things.pop(selector)
        self.regions = {at: region for at, region in self.regions.items() if region is not it}

    def named(self, selector, kind, refusal):
        it = self.things.get(number(selector))
        if not isinstance(it, kind):
            raise Refused(refusal)
        return it

    def alloc(self, size):
        size = pages(number(size)) * PAGE
        if not 0 < size <= MOST:
            raise Refused("Invalid_size")
        self.account.charge(size, 1)
        return f"cap {self.add(Memory(bytearray(size)))}"

    def free(self, selector):
        it = self.named(selector, Memory, "Invalid_cap")
        if it.session:
            raise Refused("Invalid_cap")
        self.account.credit(len(it.data), 1)
        self.remove(number(selector))
        return "ok"

    def capalloc(self):
        self.account.charge(0, 1)
        return f"cap {self.add('rpc')}"

    def capfree(self, selector):
        self.named(selector, str, "Invalid_cap")
        self.account.credit(0, 1)
        self.remove(number(selector))
        return "ok"

    def attach(self, selector):
        it = self.named(selector, Memory, "Invalid_cap")
        if len(self.regions) == 128:
            raise Refused("Too_many_regions")
        at = USER[0]
        for start in sorted(self.regions):
            if start - at >= len(it.data):
                break
            at = start + len(self.regions[start].data)
        if at + len(it.data) > USER[1]:
            raise Refused("Region_conflict")
        self.regions[at] = it
        return f"at 0x{at:x}"

    def detach(self, at):
        if self.regions.pop(int(at, 16), None) is None:
            raise Refused("Page_fault")
        return "ok"

    def range_of(self, at, size):
        if not 0 < size <= 1024:
            raise Refused("Invalid_size")
        for start, it in self.regions.items():
            if start <= at and at + size <= start + len(it.data):
                return it.data, slice(at - start, at - start + size)
        raise Refused("Page_fault")

    def peek(self, at, size):
        data, part = self.range_of(int(at, 16), number(size))
        return f"data {data[part].hex()}"

    def poke(self, at, text):
        data, part = self.range_of(int(at, 16), len(text) // 2)
        data[part] = bytes.fromhex(text)
        return "ok"

    def quota(self):
        return str(self.account)

    def open(self, service, text=""):
        ram, caps, label = arguments(text)
        kinds = self.machine.kinds_at(self.path, service, label)
        if kinds is None:
            raise Refused("Service_denied")
        self.account.test(ram, caps)
        if ram < PAGE:
            raise Refused("Insufficient_ram_quota")
        if caps < 2:
            raise Refused("Insufficient_cap_quota")
        own = Account(0, 0)
        self.account.give(own, ram, caps)
        return f"cap {self.add(Session(kinds, own))}"

    def upgrade(self, selector, text=""):
        it = self.named(selector, Session, "Invalid_session")
        self.account.give(it.account, *arguments(text)[:2])
        return "ok"

    def call(self, selector, request=""):
        return self.named(selector, Session, "Invalid_session").reply(self, request)

    def close(self, selector):
        it = self.named(selector, Session, "Invalid_session")
        if it.buffer is not None:
            self.remove(it.buffer)
        self.remove(number(selector))
        self.account.ram, self.account.caps = self.account.ram + it.account.ram, self.account.caps + it.account.caps
        return "ok"

    def exit(self):
        self.things, self.regions, self.has_exited = {}, {}, True
        return "ok"

    def reply(self, line):
        """Returns the reply of a call, whose last argument has all that follows."""
        name, *rest = line.split(" ", 1)
        if self.has_exited:
            return "Gone"
        words = rest[0].split(" ", 1) if rest else []
        try:
            return getattr(self, name)(*words)
        except Refused as why:
            return str(why)


class Machine:
    """A start list's components, and where their session requests are routed."""

    def __init__(self, start_list):
        self.entries = components(start_list)
        own = {path: it[-1][1] for path, it in self.entries.items()}
        self.scripts = {path: Script(self, path, it) for path, it in own.items() if it["binary"] == "script"}

    def kinds_at(self, path, service, label):
        """Returns the kinds of the server to which a request is routed, or None if it is denied."""
        to = route(self.entries[path], service, label)
        return to and {it["kind"]: it for it in self.entries[to][-1][1]["kinds"]}

    def reply(self, line):
        path, call = line.split(" ", 1)
        if path in self.scripts:
            return f"{path}: {self.scripts[path].reply(call)}"
        is_server = path in self.entries and self.entries[path][-1][1]["binary"] != "init"
        return f"{path}: {'Not_a_script' if is_server else 'Unknown_component'}"
