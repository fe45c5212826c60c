"""tools/desk: what it answers, and what it refuses: strangers, large texts, long runs, and saves over a change on disk."""
import contextlib
import http.client
import json
import os
import signal
import socket
import struct
import time
from concurrent.futures import ThreadPoolExecutor
from urllib.parse import parse_qs, urlsplit

import pytest
from commands import PAGES, crawler_files, needs, script
from conftest import running_desk
from test_report import MACHINE

pytestmark = needs(*PAGES)
server = pytest.importorskip("nethrywel_tools.page_server", reason="waitress isn't here")
SMALL = {"list": "", "scenario": "alice quota\n"}
# A release walks the heap's chunk, here of 900 blocks.
BLOCKS = "@repeat 900\nalice new 1\n@end\n@repeat 320000 as i\nalice new 1 => at $block\nalice del $block => ok\n@end\n"
LONG = {"list": "", "scenario": BLOCKS}
STRANGER = "http://nethrywel.example"


class Client:
    """A client of a desk, and the scenario that the desk saves."""

    def __init__(self, url, scenario):
        self.at, self.scenario = urlsplit(url), scenario
        self.address, self.origin = (self.at.hostname, self.at.port), f"http://{self.at.netloc}"
        self.token = parse_qs(self.at.query)["token"][0]

    def ask(self, method, path, text=b"", **given):
        """Returns the status and the text of a reply. A header that is None isn't sent."""
        headers = {"Host": self.at.netloc, "Origin": self.origin, "X_Token": self.token, **given}
        headers = {name.replace("_", "-"): value for name, value in headers.items() if value is not None}
        link = http.client.HTTPConnection(*self.address, timeout=600)
        with contextlib.suppress(BrokenPipeError, ConnectionResetError):
            link.request(method, path, text, headers)
        with contextlib.closing(link), link.getresponse() as answer:
            return answer.status, answer.read().decode()

    def get(self, path=None, **given):
        return self.ask("GET", path or f"/?token={self.token}", **{"Origin": None, **given})

    def post(self, path, body, **given):
        return self.ask("POST", path, body if isinstance(body, bytes) else json.dumps(body).encode(), **given)

    def expect(self, status, text, path, body, **given):
        found = self.post(path, body, **given)
        assert found[0] == status and text in found[1], found

    def read(self, path, body):
        return json.loads(self.post(path, body)[1])

    def save(self, text, sums, of_list="{}"):
        return self.post("/save", {"list": of_list, "scenario": text, "sums": sums})

    def sums(self):
        return self.read("/read", {})["sums"]


@pytest.fixture(scope="module")
def client(tmp_path_factory):
    """A client of a desk that ends when its terminal is closed."""
    folder = tmp_path_factory.mktemp("client")
    files = crawler_files(folder)
    with running_desk(folder, "--seconds", "600", *files, end=signal.SIGHUP) as url:
        yield Client(url, files[1])
    assert sorted(os.listdir(folder)) == ["crawler.json", "crawler.scenario", "desk", "desk.err"]


def test_page(desk):
    """A desk of a scenario alone shows its page."""
    status, text = Client(desk("friendly/notes.scenario"), None).get()
    assert status == 200 and text.startswith("<!doctype html>")


@pytest.mark.parametrize("status, path, header", [
    (200, None, {}), (403, "/", {}), (403, "/?token=x", {}), (403, None, {"Host": "nethrywel.example"}),
    (403, None, {"Origin": STRANGER}), (404, "/etc/passwd?token={}", {}), (431, None, {"X_Long": "x" * 20_000})])
def test_pages(client, status, path, header):
    assert client.get(path and path.replace("{}", client.token), **header)[0] == status


@pytest.mark.parametrize("header", [
    {"X_Token": "x"}, {"X_Token": None}, {"Origin": STRANGER}, {"Origin": None}, {"Origin": "null"},
    {"Host": "nethrywel.example:{port}"}, {"Sec_Fetch_Site": "cross-site"}], ids=lambda it: "-".join(map(str, *it.items())))
def test_stranger(client, header):
    header = {name: value and value.replace("{port}", str(client.at.port)) for name, value in header.items()}
    for path, body in (("/run", SMALL), ("/save", SMALL), ("/rest", {"edit": 1, "what": "least"})):
        client.expect(403, "wrong token", path, body, **header)


def test_edits(client):
    client.expect(200, "ram 0/65536 caps 0/16", "/run", SMALL)
    edit = client.read("/run", {**SMALL, "scenario": "alice alloc 4K\n"})["edit"]
    client.expect(200, "ram from 4K, caps from 1", "/rest", {"edit": edit, "what": "least"})
    client.expect(200, "1 line of alice: the same alone", "/rest", {"edit": edit, "what": "alone"})
    client.expect(409, "a later edit", "/rest", {"edit": edit - 1, "what": "least"})


def test_route_of_a_name_like_an_option(client):
    edit = client.read("/run", {"list": MACHINE.replace("alice", "-v"), "scenario": "-v quota => ram 0/65536 caps 0/16\n"})["edit"]
    client.expect(200, "leads to log", "/rest", {"edit": edit, "what": "route", "from": "-v", "service": "LOG", "label": ""})


@pytest.mark.parametrize("status, text, path, body", [
    (400, "no request", "/rest", {"edit": 1, "what": "run"}),
    (400, "no request", "/rest", {"edit": 1, "what": "diff", "before": 1}),
    (400, "no request", "/run", {"list": 1, "scenario": ""}),
    (400, "no request", "/run", []),
    (400, "no request", "/example", {"name": "../../README"}),
    (400, "no request", "/save", {"list": "{}", "scenario": "", "sums": {"scenario": 1}}),
    (400, "no request", "/save", {"list": "{}", "scenario": "", "sums": {"../x": ""}}),
    (400, "no request", "/run", b"[" * 100_000),
    (404, "nothing is here", "/none", SMALL),
    (200, "crawler", "/example", {"name": "friendly/crawler"}),
    (200, "invalid JSON", "/run", {"list": "[" * 5000, "scenario": ""}),
    (413, "65537 bytes, at most 65536", "/run", {"list": " " * 65537, "scenario": ""}),
    (413, "65537 bytes, at most 65536", "/run", {"list": "", "policy": "#" * 65537, "scenario": ""}),
    (413, "1048577 bytes, at most 1048576", "/run", {"list": "", "scenario": "a" * 1048577}),
    (413, "1000001 lines, at most 1000000", "/run", {"list": "", "scenario": "\n" * 1000001}),
], ids="command number list array path sum file deep-request unknown example deep long-list long-policy long-line lines".split())
def test_answers(client, status, text, path, body):
    """What is no request of the desk, what nests too deeply and what is too large is answered, without a traceback."""
    client.expect(status, text, path, body)


@pytest.mark.parametrize("program, limit, text", [
    ("sleep 600", ("--seconds", "1"), "longer than 1 seconds"), ("yes", (), "wrote more than 67108864 bytes")], ids=["long", "much"])
def test_ended_run(desk, tmp_path, monkeypatch, program, limit, text):
    """A run that takes longer than its limit or that writes too much is ended."""
    monkeypatch.setenv("PROGRAMS", str(script(tmp_path / "programs/nethrywel", f'[ "$1" = --version ] || exec {program}').parent))
    Client(desk(*limit, "friendly/notes.scenario"), None).expect(409, text, "/run", SMALL)


@pytest.mark.slow
def test_later_edit(client):
    """A long run is ended by a later edit. How long the first takes to begin depends on the host."""
    for pause in (0.3, 0.6, 0.9, 1.2, 1.5):
        with ThreadPoolExecutor() as pool:
            earlier = pool.submit(client.post, "/run", LONG)
            time.sleep(pause)
            later, first = client.post("/run", SMALL), earlier.result()
        if later[0] == 200 and "a later edit" in first[1]:
            return
    pytest.fail(f"{later}, {first}")


def test_saves(client):
    """A file is saved over what was read. A change by somebody else remains until the user decides."""
    text, sums = client.scenario.read_text(), client.sums()
    assert client.save(text + "# saved\n", sums)[0] == 200
    assert client.save("# late\n", sums, of_list="[]")[0] == 409
    assert client.scenario.read_text() == text + "# saved\n"
    sums = client.sums()
    client.scenario.write_text("# theirs\n")
    status, answer = client.save("# mine\n", sums)
    assert status == 409 and "changed on disk" in answer
    assert client.scenario.read_text() == "# theirs\n"
    assert client.save("# mine\n", json.loads(answer)["sums"])[0] == 200
    assert client.scenario.read_text() == client.read("/read", {})["texts"]["scenario"] == "# mine\n"


@pytest.mark.parametrize("before, after", [("a\r\nb\r\n", "a\r\nc\r\nb\r\n"), ("a\r\nb\n", "a\r\nc\r\nb\n"), ("a\nb", "a\nc\nb")],
                         ids=["crlf", "mixed", "lf"])
def test_line_ends(client, before, after):
    """The ends of lines are kept: those of a file with one kind, and in another those of lines that aren't edited."""
    client.scenario.write_bytes(before.encode())
    assert client.save(after.replace("\r\n", "\n"), client.sums())[0] == 200
    assert client.scenario.read_bytes() == after.encode()


def test_many_saves(client):
    """Forty saves at once succeed, leave no other file, and keep the mode."""
    client.scenario.chmod(0o640)
    sums = client.sums()
    with ThreadPoolExecutor(40) as pool:
        assert list(pool.map(lambda _: client.save("# forty\n", sums)[0], range(40))) == [200] * 40
    assert [it for it in os.listdir(client.scenario.parent) if "crawler.scenario" in it] == ["crawler.scenario"]
    assert client.scenario.stat().st_mode & 0o777 == 0o640


def is_closed(link):
    """Returns whether the desk closes a connection within ten seconds, in which it gets a byte of a header each half second."""
    for _ in range(20):
        try:
            link.sendall(b"x")
            link.settimeout(0.5)
            if not link.recv(1):
                return True
        except TimeoutError:
            pass
        except OSError:
            return True
    return False


@pytest.mark.slow
def test_odd_clients(client):
    """Clients that leave early, and slow clients with more connections than the desk has descriptors, keep no page waiting."""
    for header in (b"GET / HTTP/1.1\r\n", b"GET / HTTP/1.1\r\n\r\n", b"GET http://[ HTTP/1.1\r\nx\r\n\r\n") * 50:
        with socket.create_connection(client.address) as it:
            it.sendall(header)
            it.setsockopt(socket.SOL_SOCKET, socket.SO_LINGER, struct.pack("ii", 1, 0))
    with contextlib.ExitStack() as ends:
        slow = [ends.enter_context(socket.create_connection(client.address, timeout=30)) for _ in range(400)]
        for it in slow:
            with contextlib.suppress(OSError):
                it.sendall(b"GET / HTTP/1.1\r\nHost: x\r\nX-Slow: ")
        began = time.monotonic()
        assert client.get()[0] == 200
        assert time.monotonic() - began < 20
        assert is_closed(slow[-1])


@pytest.mark.slow
def test_oldest_stranger(client):
    """Of more strangers than the desk has places for, the oldest is closed before its time for a header is over."""
    with contextlib.ExitStack() as ends:
        links = (socket.create_connection(client.address, timeout=server.HEADER_SECONDS - 1) for _ in range(server.STRANGERS + 1))
        first, *_ = [ends.enter_context(it) for it in links]
        assert first.recv(1) == b""


@pytest.mark.parametrize("status, line, header", [
    (403, "POST /save", "Host: {host}\r\nOrigin: http://{host}\r\nX-Token: x\r\nContent-Length: 9000000"), (400, "GET http://[", "x: x")],
    ids=["body-that-never-comes", "no-address"])
def test_refused_by_header(client, status, line, header):
    """A stranger's body that never comes is refused at once, and so is an address that is none."""
    with socket.create_connection(client.address, timeout=30) as it:
        it.sendall(f"{line} HTTP/1.1\r\n{header.format(host=client.at.netloc)}\r\n\r\n".encode())
        assert f" {status} ".encode() in it.recv(100)
