#!/usr/bin/env python3
"""Writes a large scenario to standard output.

A shape `NAME:SIZE` is one in steady state, on the machine `largest.json`: first so many things are taken, by lines that
aren't among the LINES, and then one of them, at random, is given back and one taken in turn. NAME is live (dataspaces of
a page), selectors (of RPC objects), blocks (sliced blocks of a page), open (sessions of the log service), holes (of the
least size, in a heap), small (blocks of 1 to 128 bytes), powers (blocks of ten sizes, by powers of two), named (files of a
session, on the machine `files.json`) or sized (the same, of which the size of one is asked). `moves:SIZE`, on the machine
`lender.json`, puts and gets so many bytes in turn.

Shapes: quota (quota alone, both scripts in turn), churn (an allocation and its release, one dataspace at a time),
limit (allocations and releases at the account's limit), bytes (pokes and peeks of 1 to 1,024 bytes in turn), short (the
same of 1 to 16 bytes), regions (attaches and detaches, up to 128 regions), full (detaches, attaches and peeks with 127 or
128 regions attached), caps (selectors taken and given back, up to 16), sliced (sliced blocks taken and given back, up to
16), heap (small blocks of the heap taken and given back, up to 64), turns (a block of the heap and its release in turn, one
at a time), holes (blocks taken and given back among 48 holes), sessions (sessions of the log service opened, written to and
closed, up to 8), reserves (what a reserve has, a request, a yield and what the account has, in turn), log (log lines of 1 to
200 bytes), files (small files made, written, read and dropped), contents (the same with writes of up to 1,000 bytes), buffers
(puts and gets of up to 512 bytes, pokes and peeks of the buffer, which is made again now and then), lent (pokes and peeks of a
buffer, of 1 to 180 bytes), eight (eight clients of the machine `eight.json` that use everything at once), nested (the last
script of the machine `nested.json`, of 32 entries in six lists, uses everything at once), few (the same lines on the machine
`few.json`, which has four of these entries), offsets (that last script reads files by offset), visits (the thirty clients of
the machine `clients.json` open and close sessions), hostile (lines that are refused, of all kinds), every (rounds of every
call, by both scripts in turn, some refused; at the end both hold something of each kind, and exit).
"""
import bisect
import random
import sys

from command import SEED, argument, run
from nethrywel_tools.command_line import Fault


def quota(lines, _):
    for number in range(lines):
        yield "alice quota" if number % 2 == 0 else "bob quota"


def reserves(lines, _):
    """What the reserve has, a request of half of it, a yield of as much, and what the account has, in turn."""
    yield "alice yield ram_quota=8K, cap_quota=2"
    for number in range(lines - 1):
        yield (
            "alice reserve",
            "alice request ram_quota=4K, cap_quota=1",
            "alice yield ram_quota=4K, cap_quota=1",
            "alice quota",
        )[number % 4]


def churn(lines, _):
    for number in range(lines):
        yield "alice alloc 4096" if number % 2 == 0 else "alice free 1"


def limit(lines, rng):
    held = []
    for _ in range(lines):
        if len(held) < 16 and (not held or rng.random() < 0.6):
            free = next(s for s in range(1, 18) if s not in held)
            held.append(free)
            yield "alice alloc 4096"
        elif len(held) == 16 and rng.random() < 0.5:
            yield "alice alloc 1"
        else:
            yield f"alice free {held.pop(rng.randrange(len(held)))}"


USER_WINDOW = 0x10000000
PAGE = 4096
MOST_REGIONS = 128


def pokes_and_peeks(lines, rng, most):
    """Pokes and peeks of 1 to `most` bytes, anywhere in a region of four pages."""
    yield "alice alloc 16384"
    yield "alice attach 1"
    for number in range(lines - 2):
        count = rng.randint(1, most)
        address = USER_WINDOW + rng.randrange(4 * PAGE - count + 1)
        if number % 2 == 0:
            yield f"alice poke {address:#x} {rng.randbytes(count).hex()}"
        else:
            yield f"alice peek {address:#x} {count}"


def bytes_of_all_lengths(lines, rng):
    return pokes_and_peeks(lines, rng, 1024)


def bytes_of_short_lengths(lines, rng):
    return pokes_and_peeks(lines, rng, 16)


def bytes_of_middle_lengths(lines, rng):
    return pokes_and_peeks(lines, rng, 180)


def regions(lines, rng):
    """Attaches and detaches of one page, three attaches to two detaches until all regions are attached."""
    yield "alice alloc 1"
    attached = []
    for _ in range(lines - 1):
        if len(attached) == MOST_REGIONS or (attached and rng.random() < 0.4):
            place = attached.pop(rng.randrange(len(attached)))
            yield f"alice detach {USER_WINDOW + place * PAGE:#x}"
        else:
            attached.append(next(p for p in range(MOST_REGIONS) if p not in attached))
            yield "alice attach 1"


def full(lines, rng):
    """A detach, an attach and two peeks in turn, while all regions are attached."""
    yield "alice alloc 1"
    for _ in range(MOST_REGIONS):
        yield "alice attach 1"
    for number in range(lines - 1 - MOST_REGIONS):
        if number % 4 == 0:
            yield f"alice detach {USER_WINDOW + rng.randrange(MOST_REGIONS) * PAGE:#x}"
        elif number % 4 == 1:
            yield "alice attach 1"
        else:
            yield f"alice peek {USER_WINDOW + rng.randrange(MOST_REGIONS * PAGE):#x} 1"


def caps(lines, rng):
    held = []
    for _ in range(lines):
        if len(held) < 16 and (not held or rng.random() < 0.6):
            held.append(next(s for s in range(1, 18) if s not in held))
            yield "alice capalloc"
        elif len(held) == 16 and rng.random() < 0.5:
            yield "alice capalloc"
        else:
            yield f"alice capfree {held.pop(rng.randrange(len(held)))}"


HEAP_WINDOW = 0x100000000
SLICED_HEADER = 32


def sliced(lines, rng):
    """Blocks of one page, three taken to two given back until the account is used up."""
    held = []
    for _ in range(lines):
        if len(held) == 16 or (held and rng.random() < 0.4):
            page = held.pop(rng.randrange(len(held)))
            yield f"alice sdel {HEAP_WINDOW + page * PAGE + SLICED_HEADER:#x}"
        else:
            held.append(next(p for p in range(16) if p not in held))
            yield "alice snew 256"


HEAP_HEADER = 16
LEAST_BLOCK = 48
FIRST_CHUNK = 4 * PAGE
MOST_GROWTH = 64 * PAGE


class Heap:
    """The chunks of a heap: the size of each block and the block before it, by addresses, and the holes in order."""

    def __init__(self):
        self.sizes, self.before, self.starts, self.holes = {}, {}, set(), []
        self.end, self.growth = HEAP_WINDOW, FIRST_CHUNK

    def take(self, count):
        """The address of the payload of a block for so many bytes, in the best hole. Where none serves, the heap grows."""
        size = max(LEAST_BLOCK, HEAP_HEADER + (count + 15) // 16 * 16)
        place = bisect.bisect_left(self.holes, (size, 0))
        if place == len(self.holes):
            self.starts.add(self.end)
            self.sizes[self.end] = self.growth
            self.holes.append((self.growth, self.end))
            self.end += self.growth
            self.growth = min(2 * self.growth, MOST_GROWTH)
            place = bisect.bisect_left(self.holes, (size, 0))
        have, block = self.holes.pop(place)
        if have - size >= LEAST_BLOCK:
            self.sizes[block] = size
            self.add_hole(block + size, have - size, block)
        return block + HEAP_HEADER

    def add_hole(self, block, size, before):
        self.sizes[block] = size
        self.before[block] = before
        if block + size in self.sizes and block + size not in self.starts:
            self.before[block + size] = block
        bisect.insort(self.holes, (size, block))

    def is_hole(self, block):
        place = bisect.bisect_left(self.holes, (self.sizes.get(block, 0), block))
        return place < len(self.holes) and self.holes[place][1] == block

    def join(self, block):
        """Takes a hole away that is to be a part of another, and returns its size."""
        size = self.sizes.pop(block)
        self.holes.remove((size, block))
        return size

    def give(self, address):
        """The block of a payload becomes a hole, joined with the holes next to it."""
        block = address - HEAP_HEADER
        size, before = self.sizes.pop(block), self.before.get(block)
        if block + size not in self.starts and self.is_hole(block + size):
            size += self.join(block + size)
        if block not in self.starts and self.is_hole(before):
            block, size, before = before, size + self.join(before), self.before.get(before)
        self.add_hole(block, size, before)


def heap(lines, rng):
    """Blocks of 1 to 128 bytes, three taken to two given back until 64 are held."""
    blocks, held = Heap(), []
    for _ in range(lines):
        count = rng.randint(1, 128)
        if len(held) == 64 or (held and rng.random() < 0.4):
            address = held.pop(rng.randrange(len(held)))
            blocks.give(address)
            yield f"alice del {address:#x}"
        else:
            held.append(blocks.take(count))
            yield f"alice new {count}"


def turns(lines, rng):
    """A block of 1 to 128 bytes and its release in turn."""
    for number in range(lines):
        if number % 2 == 0:
            yield f"alice new {rng.randint(1, 128)}"
        else:
            yield f"alice del {HEAP_WINDOW + HEAP_HEADER:#x}"


LIVE_HOLES = 48
SPARE_HOLES = 8


def holes(lines, rng):
    """Least blocks side by side, of which every second one is given back; then one is taken and one given back in turn,
    with 48 or 49 of these holes, and the rest of the chunk as one more."""
    heap = Heap()
    count = LIVE_HOLES + SPARE_HOLES
    blocks = []
    for _ in range(2 * count + 1):
        blocks.append(heap.take(1))
        yield "alice new 1"
    for address in blocks[1::2]:
        heap.give(address)
        yield f"alice del {address:#x}"
    held = []
    for _ in range(lines - 3 * count - 1):
        if len(held) < SPARE_HOLES:
            held.append(heap.take(1))
            yield "alice new 1"
        else:
            address = held.pop(rng.randrange(len(held)))
            heap.give(address)
            yield f"alice del {address:#x}"


MOST_SESSIONS = 8


def text_in_hex(rng, most):
    """Up to so many letters and a newline, in hexadecimal digits."""
    return "".join(f"{rng.randrange(0x61, 0x7B):02x}" for _ in range(rng.randint(1, most))) + "0a"


def sessions(lines, rng):
    """Of ten lines two open a session, two close one and the others write, with 1 to 8 sessions open."""
    held = []
    for _ in range(lines):
        chance = rng.random()
        if not held or (chance < 0.2 and len(held) < MOST_SESSIONS):
            selector = next(s for s in range(1, MOST_SESSIONS + 1) if s not in held)
            held.append(selector)
            yield f'alice open LOG ram_quota=4K, cap_quota=2, label="session {selector}"'
        elif chance < 0.4:
            yield f"alice close {held.pop(rng.randrange(len(held)))}"
        else:
            yield f"alice call {rng.choice(held)} WRITE {text_in_hex(rng, 20)}"


def log(lines, rng):
    """Lines of a session of each script in turn, one a request."""
    yield 'alice open LOG ram_quota=4K, cap_quota=2, label="main"'
    yield "bob open LOG ram_quota=4K, cap_quota=2"
    for number in range(lines - 2):
        yield f"{'alice' if number % 2 == 0 else 'bob'} call 1 WRITE {text_in_hex(rng, 199)}"


def bulk(lines, rng):
    """Requests of 4,000 bytes each: log lines of a thousand bytes, which are cut at 200."""
    yield "alice open LOG ram_quota=4K, cap_quota=2"
    for _ in range(lines - 1):
        yield "alice call 1 WRITE " + 4 * ("".join(f"{rng.randrange(0x61, 0x7B):02x}" for _ in range(999)) + "0a")


MOST_FILES = 4


def files_of(name, lines, rng, most):
    """Requests of a session with up to four files; of ten two make a file, one drops one, and the others write and read."""
    held = {}
    for _ in range(lines):
        chance = rng.random()
        if not held or (chance < 0.2 and len(held) < MOST_FILES):
            number = next(n for n in range(MOST_FILES) if n not in held)
            held[number] = 0
            yield f"{name} call 1 CREATE f{number}"
        elif chance < 0.3:
            number = rng.choice(list(held))
            del held[number]
            yield f"{name} call 1 DROP f{number}"
        elif chance < 0.65:
            number = rng.choice(list(held))
            size = held[number]
            count = rng.randint(1, most)
            offset = rng.randint(0, size) if size + count < 3000 else 0
            held[number] = max(size, offset + count)
            yield f"{name} call 1 WRITE f{number} {offset} {rng.randbytes(count).hex()}"
        else:
            number = rng.choice(list(held))
            yield f"{name} call 1 READ f{number} {rng.randint(0, held[number])} {most}"


def files(lines, rng, most=32):
    yield "alice open File_system ram_quota=56K, cap_quota=12"
    yield from files_of("alice", lines - 1, rng, most)


def contents(lines, rng):
    return files(lines, rng, 1000)


CLIENTS = ["anna", "bert", "cleo", "dora", "emil", "fred", "gina", "mallory"]


def buffers(lines, rng, most=512):
    """A buffer of two pages that is attached: of twenty lines nine put, six get, and four poke or peek; one makes it again."""
    yield "alice open File_system ram_quota=56K, cap_quota=12"
    yield "alice call 1 CREATE f"
    yield "alice call 1 BUFFER 8192"
    yield "alice attach 2"
    size, number = 0, 4
    while number < lines:
        chance = rng.random()
        count = rng.randint(1, most)
        place = rng.randint(0, 8192 - count)
        if chance < 0.45:
            offset = rng.randint(0, size) if size + count < 6000 else rng.randint(0, 6000 - count)
            size = max(size, offset + count)
            yield f"alice call 1 PUT f {offset} {place} {count}"
        elif chance < 0.75:
            yield f"alice call 1 GET f {rng.randint(0, size)} {place} {count}"
        elif chance < 0.95:
            few = min(count, 32)
            address = USER_WINDOW + place
            yield f"alice poke {address:#x} {rng.randbytes(few).hex()}" if chance < 0.85 else f"alice peek {address:#x} {few}"
        else:
            yield "alice call 1 UNBUFFER"
            yield "alice call 1 BUFFER 8192"
            yield "alice attach 2"
            number += 2
        number += 1


def lent(lines, rng):
    """Pokes and peeks of a buffer that a session lends, of 1 to 180 bytes in turn."""
    yield "alice open File_system ram_quota=56K, cap_quota=12"
    yield "alice call 1 BUFFER 8192"
    yield "alice attach 2"
    for number in range(lines - 3):
        count = rng.randint(1, 180)
        address = USER_WINDOW + rng.randint(0, 8192 - count)
        yield f"alice poke {address:#x} {rng.randbytes(count).hex()}" if number % 2 == 0 else f"alice peek {address:#x} {count}"


def moves(lines, _, size):
    """Puts and gets in turn of so many bytes, over a file that has as many."""
    yield "alice open File_system ram_quota=8M, cap_quota=8"
    yield "alice call 1 CREATE f"
    yield f"alice call 1 BUFFER {size}"
    yield f"alice call 1 PUT f 0 0 {size}"
    for number in range(lines):
        yield f"alice call 1 {'PUT' if number % 2 == 0 else 'GET'} f 0 0 {size}"


def all_at_once(name, stream, rng, free):
    """One of a client's calls, at random: a request to its files, or a call of another kind. The first selector that no
    session has is `free`."""
    chance = rng.random()
    if chance < 0.4:
        return next(stream)
    if chance < 0.5:
        return f"{name} call 2 WRITE {text_in_hex(rng, 20)}"
    if chance < 0.6:
        return f"{name} {rng.choice(['alloc 4096', f'free {free}', f'attach {free}'])}"
    if chance < 0.7:
        return f"{name} {rng.choice(['snew 100', 'sdel 0x100004020', 'sdel 0x100005020'])}"
    if chance < 0.8:
        return f"{name} {rng.choice(['new 40', 'del 0x100000090', 'del 0x1000000d0'])}"
    if chance < 0.9:
        return f"{name} poke 0x100000010 {rng.randbytes(16).hex()}"
    return f"{name} {rng.choice(['quota', 'peek 0x100000010 16', 'capalloc', f'capfree {free + 1}'])}"


def eight(lines, rng):
    """Each client has dataspaces, a heap, sliced blocks, a session of each service, and asks at random."""
    streams = []
    for name in CLIENTS:
        yield f"{name} open File_system ram_quota=28K, cap_quota=6"
        yield f"{name} open LOG ram_quota=4K, cap_quota=2"
        yield f"{name} new 100"
        streams.append(files_of(name, lines, rng, 32))
    for _ in range(lines - 3 * len(CLIENTS)):
        client = rng.randrange(len(CLIENTS))
        yield all_at_once(CLIENTS[client], streams[client], rng, 3)


def nested(lines, rng):
    """The same of one client, which is an init's. Of a hundred lines two close a third session and two open it again, with its
    own init's log server and by the init above with the file server in turn, and ten make requests there."""
    name = "fog/dora"
    yield f"{name} open File_system ram_quota=28K, cap_quota=6"
    yield f"{name} open LOG ram_quota=4K, cap_quota=2"
    yield f"{name} open LOG ram_quota=4K, cap_quota=2"
    yield f"{name} new 100"
    stream = files_of(name, lines, rng, 32)
    for number in range(lines - 4):
        is_log, place = number % 100 < 50, number % 50
        if place == 0:
            yield f"{name} close 3"
        elif place == 1:
            yield f"{name} open {'LOG' if is_log else 'File_system'} ram_quota=4K, cap_quota=2, label=\"main\""
        elif place < 7:
            yield f"{name} call 3 WRITE {text_in_hex(rng, 20)}" if is_log else f"{name} call 3 STAT"
        else:
            yield all_at_once(name, stream, rng, 4)


def offsets(lines, rng):
    """Reads of up to 256 bytes at any offset of three files of 2,000 bytes; of ten lines one writes as many."""
    name = "fog/dora"
    yield f"{name} open File_system ram_quota=56K, cap_quota=12"
    for file in range(3):
        yield f"{name} call 1 CREATE f{file}"
        yield f"{name} call 1 WRITE f{file} 0 {rng.randbytes(1000).hex()}"
        yield f"{name} call 1 WRITE f{file} 1000 {rng.randbytes(1000).hex()}"
    for _ in range(lines - 10):
        file, count = rng.randrange(3), rng.randint(1, 256)
        offset = rng.randint(0, 2000 - count)
        if rng.random() < 0.1:
            yield f"{name} call 1 WRITE f{file} {offset} {rng.randbytes(count).hex()}"
        else:
            yield f"{name} call 1 READ f{file} {offset} {count}"


VISITORS = 30


def visits(lines, rng):
    """A client by chance: it closes its session, or opens one of either service where it has none."""
    visiting = set()
    for _ in range(lines):
        client = rng.randrange(VISITORS)
        if client in visiting:
            visiting.remove(client)
            yield f"client{client} close 1"
        else:
            visiting.add(client)
            yield f'client{client} open {rng.choice(["LOG", "File_system"])} ram_quota=8K, cap_quota=3, label="visit"'


def hostile(lines, rng):
    bad = [
        "",
        " alice quota",
        "alice  quota",
        "alice quota ",
        "alice quota\r",
        "alice frob",
        "alice alloc",
        "alice alloc -1",
        "alice alloc 18446744073709551616",
        "alice alloc " + "0" * 400 + "1x",
        "x" * 9000,
        "carol quota",
        "log quota",
        "files alloc 1",
        "alice free 0",
        "alice free 4294967297",
        "alice alloc 0",
        "alice alloc 18446744073709551615",
        "alice alloc 65537",
        "alice attach 1",
        "alice attach_at 1 0x10000800",
        "alice attach_at 1 0X10000000",
        "alice detach 0xffffffffffffffff",
        "alice detach 0x00000000000000001",
        "alice peek 0xffffffffffffffff 1024",
        "alice peek 0x10000000 0",
        "alice poke 0x10000000 abc",
        "alice poke 0x10000000 " + "ab" * 1025,
        "alice capfree 1",
        "alice snew 0",
        "alice snew 65505",
        "alice sdel 0x100000020",
        "alice new 0",
        "alice new 65535",
        "alice del 0x100000010",
        "alice open Nic ram_quota=4K, cap_quota=2",
        "alice open LOG ram_quota=4KK, cap_quota=2",
        "alice open LOG ram_quota=4K, cap_quota=17",
        "alice open LOG",
        "alice upgrade 1 ram_quota=4K",
        "alice call 4294967297 WRITE 61",
        "alice close 1",
    ]
    for _ in range(lines):
        yield rng.choice(bad)


ROUND = [
    "alloc 5000", "attach 1", "attach_at 1 0x10010000", "poke 0x10000ffe 6869", "peek 0x10010ffe 2", "detach 0x10000000",
    "new 65536", "del 0x100000000", "new 100", "poke 0x100000010 00ff", "peek 0x100000010 100", "del 0x100000010",
    "snew 256", "poke 0x100004020 68", "peek 0x100004020 256", "sdel 0x100004020", "capalloc", "capfree 2", "quota",
    'open LOG ram_quota=4K, cap_quota=2, label="main"', "call 2 WRITE 68690a", "call 2 WRITE 6869", "call 2 FROB",
    "open File_system ram_quota=20K, cap_quota=3", "upgrade 3 ram_quota=8K, cap_quota=2",
    "call 3 CREATE a", "call 3 WRITE a 0 6869", "call 3 WRITE a 2 00", "call 3 READ a 0 9", "call 3 SIZE a", "call 3 NAME 0",
    "call 3 BUFFER 4096", "attach 4", "poke 0x10000000 6162", "call 3 PUT a 0 0 2", "call 3 GET a 0 9 9", "free 4", "call 3 UNBUFFER",
    "call 3 STAT", "call 3 CREATE a", "call 3 CLEAR a", "call 3 DROP a", "call 3 NAME 0",
    "yield ram_quota=4K, cap_quota=1", "reserve", "request ram_quota=5K", "request ram_quota=4K, cap_quota=1", "request",
    "yield x",
    "open Nic", "open LOG x", "upgrade 1", "close 2", "close 3", "close 3", "free 1", "free 1", "frob",
]

HELD = [
    "yield ram_quota=4K, cap_quota=1", "alloc 5000", "attach 1", "new 100", "snew 256", "capalloc",
    "open LOG ram_quota=4K, cap_quota=2", "call 3 WRITE 6869",
    "open File_system ram_quota=28K, cap_quota=5", "call 4 CREATE a", "call 4 WRITE a 0 68", "call 4 BUFFER 1", "attach 5",
]

ENDS = ["bob exit", "bob quota", "carol quota", "log quota", "alice exit", "alice quota"]


def every(lines, _):
    """Rounds of every call, and then exits of scripts that hold something of each kind."""
    tail = [f"{name} {call}" for name in ("alice", "bob") for call in HELD] + ENDS
    for number in range(max(lines - len(tail), 0)):
        name = "alice" if number // len(ROUND) % 2 == 0 else "bob"
        yield f"{name} {ROUND[number % len(ROUND)]}"
    for name in ("alice", "bob"):
        # What an unfinished round left.
        yield from (f"{name} {call}" for call in ("close 2", "close 3", "free 1", "request ram_quota=4K, cap_quota=1"))
    yield from tail


def steady(take, give):
    """A shape in steady state: how one thing is taken, and how the one of a number is given back."""

    def shape(lines, rng, size):
        for _ in range(size):
            yield take
        for number in range(lines):
            yield give(rng.randrange(size)) if number % 2 == 0 else take

    return shape


def named(lines, rng, size):
    """A file dropped and made again in turn, of so many of a session."""
    yield "alice open File_system ram_quota=4M, cap_quota=80"
    for number in range(size):
        yield f"alice call 1 CREATE f{number}"
    for number in range(lines):
        if number % 2 == 0:
            name = f"f{rng.randrange(size)}"
        yield f"alice call 1 {'CREATE' if number % 2 else 'DROP'} {name}"


def sized(lines, rng, size):
    """The size of a file asked, of so many of a session."""
    yield from named(0, rng, size)
    for _ in range(lines):
        yield f"alice call 1 SIZE f{rng.randrange(size)}"


def live_holes(lines, rng, size):
    """So many holes of the least size, each between used blocks, and as many used blocks between such: one of these is given
    back and the best hole taken in turn."""
    heap, blocks = Heap(), []
    while len(blocks) < 2 * size:
        one, other = heap.take(1), heap.take(1)
        yield "alice new 1"
        yield "alice new 1"
        # The last block of a chunk may be larger.
        if other - one == LEAST_BLOCK:
            blocks.append(one)
    rng.shuffle(blocks)
    for address in blocks[size:]:
        heap.give(address)
        yield f"alice del {address:#x}"
    held = blocks[:size]
    for number in range(lines):
        if number % 2 == 0:
            place = rng.randrange(size)
            heap.give(held[place])
            yield f"alice del {held[place]:#x}"
        else:
            held[place] = heap.take(1)
            yield "alice new 1"


def in_turn(lines, rng, size, bytes_of_block):
    """So many blocks of a heap: one given back and one taken in turn."""
    heap, held = Heap(), []
    for number in range(size + lines):
        if number < size:
            held.append(None)
            place = number
        elif (number - size) % 2 == 0:
            place = rng.randrange(size)
            heap.give(held[place])
            yield f"alice del {held[place]:#x}"
            continue
        count = bytes_of_block()
        held[place] = heap.take(count)
        yield f"alice new {count}"


def small(lines, rng, size):
    """Blocks of 1 to 128 bytes."""
    return in_turn(lines, rng, size, lambda: rng.randint(1, 128))


def powers(lines, rng, size):
    """Blocks of ten sizes, the powers of two from 8 to 4,096 bytes."""
    return in_turn(lines, rng, size, lambda: 8 << rng.randrange(10))


STEADY = {
    "holes": live_holes,
    "small": small,
    "powers": powers,
    "named": named,
    "sized": sized,
    "live": steady("alice alloc 4096", lambda n: f"alice free {n + 1}"),
    "selectors": steady("alice capalloc", lambda n: f"alice capfree {n + 1}"),
    "blocks": steady("alice snew 256", lambda n: f"alice sdel {HEAP_WINDOW + n * PAGE + SLICED_HEADER:#x}"),
    "moves": moves,
    "open": steady("alice open LOG ram_quota=4K, cap_quota=2", lambda n: f"alice close {n + 1}"),
}


SHAPES = {
    "quota": quota,
    "reserves": reserves,
    "churn": churn,
    "limit": limit,
    "bytes": bytes_of_all_lengths,
    "middle": bytes_of_middle_lengths,
    "short": bytes_of_short_lengths,
    "regions": regions,
    "full": full,
    "caps": caps,
    "sliced": sliced,
    "heap": heap,
    "turns": turns,
    "holes": holes,
    "sessions": sessions,
    "log": log,
    "bulk": bulk,
    "files": files,
    "contents": contents,
    "buffers": buffers,
    "lent": lent,
    "eight": eight,
    "nested": nested,
    "few": nested,
    "offsets": offsets,
    "visits": visits,
    "hostile": hostile,
    "every": every,
}


def write(given):
    lines, rng, out = given.LINES, random.Random(given.SEED), []
    name, _, size = given.SHAPE.partition(":")
    if name not in (STEADY if size else SHAPES):
        raise Fault(f"unknown shape `{given.SHAPE}`", 2)
    for line in STEADY[name](lines, rng, int(size)) if size else SHAPES[name](lines, rng):
        out.append(line)
        if len(out) == 10000:
            sys.stdout.write("\n".join(out) + "\n")
            out.clear()
    if out:
        sys.stdout.write("\n".join(out) + "\n")


if __name__ == "__main__":
    run("generate.py SHAPE LINES [SEED]", __doc__, write, argument("SHAPE", help="what the lines do"),
        argument("LINES", type=int, help="how many lines"), SEED)
