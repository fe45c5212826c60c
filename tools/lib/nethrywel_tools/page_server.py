"""Serves a page on 127.0.0.1 by waitress. A request that isn't of the page itself is refused by its header, before its body is
read."""
import hmac
import json
import logging
import sys
from http import HTTPStatus
from urllib.parse import parse_qs

from waitress import wasyncore
from waitress.channel import HTTPChannel
from waitress.parser import HTTPRequestParser, ParsingError
from waitress.server import TcpWSGIServer

HEADER_BYTES, HEADER_SECONDS, IDLE_SECONDS = 16 << 10, 5, 60
# Connections in all, and those of which no request had the token yet.
CONNECTIONS, STRANGERS, THREADS = 200, 50, 8
HEADERS = [
    ("Cache-Control", "no-store"), ("X-Content-Type-Options", "nosniff"), ("X-Frame-Options", "DENY"),
    ("Referrer-Policy", "no-referrer"), ("Cross-Origin-Resource-Policy", "same-origin"),
]


class Answer:
    """Status, kind and body of an answer."""

    def __init__(self, status, body, kind="application/json"):
        self.status, self.kind = HTTPStatus(status), kind
        self.body = body if isinstance(body, bytes) else json.dumps(body).encode()

    def to_response(self, *_):
        """Returns status, headers and body, as waitress asks an error for them."""
        return f"{self.status.value} {self.status.phrase}", [("Content-Type", self.kind), *HEADERS], self.body


class Request(HTTPRequestParser):
    """A request of a connection; if its header is refused, it is complete without its body."""

    # (waitress asks for it even if the header can't be read)
    path = ""

    def __init__(self, adj, channel):
        super().__init__(adj)
        self.channel = channel

    def parse_header(self, header):
        try:
            super().parse_header(header)
        except ValueError as fault:
            raise ParsingError("no address or no number") from fault
        self.error = self.channel.server.refusal(self)
        if self.error:
            self.completed, self.expect_continue, self.content_length = True, False, 0
        else:
            self.channel.is_known = True


class Channel(HTTPChannel):
    """A connection. It is known once a request of it had the token."""

    is_known = False

    def parser_class(self, adj):
        return Request(adj, self)


class Server(TcpWSGIServer):
    """The server of one page: it answers requests that have the token, and come by the printed address and from no other page.
    `answer` returns status, value or body, and its kind."""

    channel_class = Channel

    def __init__(self, answer, token, largest):
        self.answer, self.token, self.largest = answer, token, largest
        logging.getLogger("waitress").setLevel(logging.ERROR)
        super().__init__(
            self.app, host="127.0.0.1", port=0, ident="desk", threads=THREADS, connection_limit=CONNECTIONS, cleanup_interval=1,
            channel_timeout=IDLE_SECONDS, max_request_header_size=HEADER_BYTES, max_request_body_size=largest + 1,
            asyncore_use_poll=True, log_socket_errors=False,
        )
        self.hosts = {f"{it}:{self.effective_port}" for it in ("127.0.0.1", "localhost")}

    def app(self, asked, start):
        """Answers a request, as waitress calls it; one that fails is printed in a line."""
        try:
            answer = self.answer(asked)
        except Exception as fault:
            print(f"desk: a request failed: {type(fault).__name__}: {fault}", file=sys.stderr)
            answer = 500, {"why": "a fault of the desk"}
        status, headers, body = Answer(*answer).to_response()
        start(status, headers)
        return [body]

    def refusal(self, request):
        """Returns what answers a request that is refused by its header, or None."""
        given, origins = request.headers.get, {f"http://{it}" for it in self.hosts}
        if request.command == "POST":
            token = given("X_TOKEN", "")
        else:
            token = "".join(parse_qs(request.query).get("token", []))
            origins.add(None)
        if (
            given("HOST") not in self.hosts
            or given("ORIGIN") not in origins
            or given("SEC_FETCH_SITE", "none") not in ("none", "same-origin")
            or not hmac.compare_digest(token.encode(), self.token.encode())
        ):
            return Answer(403, {"why": "a wrong token, or another page"})
        if request.chunked or request.content_length > self.largest:
            size = "an unknown number of" if request.chunked else request.content_length
            return Answer(413, {"why": f"a request of {size} bytes, at most {self.largest} are read"})
        return None

    def handle_accept(self):
        """Takes a connection. If there are too many that aren't known, the oldest of them is closed: a new one needn't wait."""
        super().handle_accept()
        strangers = [it for it in self.active_channels.values() if not it.is_known]
        if len(strangers) > STRANGERS:
            min(strangers, key=lambda it: it.creation_time).handle_close()

    def maintenance(self, now):
        """Closes connections that are idle, and those that have sent no header in time, however they drip."""
        super().maintenance(now)
        for it in self.active_channels.values():
            if not it.is_known and now - it.creation_time > HEADER_SECONDS:
                it.will_close = True

    def serve(self, at_end):
        """Answers until it is interrupted, and then calls `at_end` before it waits for its threads."""
        try:
            wasyncore.loop(timeout=0.5, use_poll=True, map=self._map)
        finally:
            at_end()
            self.task_dispatcher.shutdown()
            wasyncore.close_all(self._map)
