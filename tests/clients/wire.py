"""What clients send byte by byte: connections that stay open or not, chunks, large heads and bodies, odd targets."""
import json
import resource
import socket

from checks import Reply
from hostile.server import request, token
from service import CLIENT, SECONDS, Connector, started

QUIET = 0.1  # seconds without a byte, behind the last reply
GET = request("GET", "/Users?count=1", CLIENT)
HTTP_1_0 = "Messages on the wire: the connection is closed after a request of HTTP/1.0"
NO_HOST = "Messages on the wire: other headers, as Host, aren't read"
MOST_OPEN = 1_024  # connections that a server keeps
TLS_HELLO = bytes.fromhex("16030100c8010000c40303") + bytes(range(128, 208))


class Talk:
    """A connection, the pieces that are sent on it, and so many replies. Is it open afterwards, and what more came?"""

    def __init__(self, port, pieces, replies, shut=False, head=False):
        self.replies, self.more, self.is_open = [], b"", True
        with socket.create_connection(("127.0.0.1", port), SECONDS) as connection:
            connection.setsockopt(socket.IPPROTO_TCP, socket.TCP_NODELAY, 1)
            with connection.makefile("rb") as file:
                self.talk(connection, pieces, shut)
                self.listen(connection, file, replies, head)

    @staticmethod
    def talk(connection, pieces, shut):
        try:
            for piece in pieces:
                connection.sendall(piece)
        except (BrokenPipeError, ConnectionResetError):
            pass  # the reply tells why the server took no more
        if shut:
            connection.shutdown(socket.SHUT_WR)

    def listen(self, connection, file, replies, head):
        self.replies = [read_reply(file, not head) for _ in range(replies)]
        connection.settimeout(QUIET)
        try:
            self.more = file.read1(1000)
            self.is_open = self.more != b""
        except TimeoutError:
            pass
        except ConnectionResetError:
            self.is_open = False


def read_reply(file, has_body=True):
    """The next reply; status 0 if none comes."""
    words = file.readline().split()
    if len(words) < 2 or words[0] != b"HTTP/1.1":
        return Reply(0, {}, b"")
    headers = {}
    while (line := file.readline()) not in (b"\r\n", b""):
        name, _, value = line.decode().partition(":")
        headers[name.lower()] = value.strip()
    length = int(headers.get("content-length", 0)) if has_body else 0
    return Reply(int(words[1]), headers, file.read(length))


def run(suite):
    with started(suite) as server:
        connections(suite, server.port)
        chunks(suite, server.port)
        targets(suite, server.port)
        heads(suite, server.port)
        sizes(suite, server.port)
        framing(suite, server.port)
        tokens(suite, server.port)
        bodies(suite, server.port)
        idle(suite, server)


def talk(suite, name, port, pieces, statuses, is_open=True, choice=None, **how):
    """Checks the statuses of replies, and whether the connection stays open with nothing behind them."""
    pieces = [pieces] if isinstance(pieces, bytes) else pieces
    found = Talk(port, pieces, len(statuses), **how)
    seen = [reply.status for reply in found.replies], found.is_open, found.more
    suite.equal(name, seen, (statuses, is_open, b""), choice)
    return found


def message(*headers, body=b"", target="/Users", method="POST"):
    """The bytes of a request with these headers beside Host and its token."""
    lines = [f"{method} {target} HTTP/1.1", "Host: localhost", f"Authorization: Bearer {token(CLIENT)}", *headers, "",
             ""]
    return "\r\n".join(lines).encode() + body


def without(head, text, other=b""):
    if text not in head:
        raise ValueError(f"{text!r} isn't in {head!r}")
    return head.replace(text, other)


def connections(suite, port):
    old = without(GET, b"HTTP/1.1", b"HTTP/1.0")
    kept, closed = b"\r\nConnection: keep-alive\r\n\r\n", b"\r\nConnection: close\r\n\r\n"
    talk(suite, "a GET, and the connection stays open", port, GET, [200])
    talk(suite, "HTTP/1.0", port, old, [200], is_open=False)
    talk(suite, "HTTP/1.0 with keep-alive", port, without(old, b"\r\n\r\n", kept), [200], is_open=False,
         choice=HTTP_1_0)
    talk(suite, "Connection: close", port, without(GET, b"\r\n\r\n", closed), [200], is_open=False)
    talk(suite, "three requests at once", port, GET * 3, [200] * 3)
    talk(suite, "a client that closes its sending side", port, GET, [200], is_open=False, shut=True)
    talk(suite, "a request byte by byte", port, [bytes([byte]) for byte in GET], [200])
    talk(suite, "empty lines before a request", port, b"\r\n\r\n" + GET, [200])
    talk(suite, "no Host", port, without(GET, b"Host: localhost\r\n"), [200], choice=NO_HOST)
    head = without(GET, b"GET /Users?count=1", b"HEAD /Users")
    talk(suite, "HEAD is refused without a body", port, head, [405], head=True)


def chunks(suite, port):
    coded = "Transfer-Encoding: chunked"
    two = message(coded, body=b'8\r\n{"userNa\r\nd\r\nme":"chunk1"}\r\n0\r\n\r\n')
    talk(suite, "a body in chunks", port, two, [201])
    more = message(coded, body=b'15;x=y\r\n{"userName":"chunk2"}\r\n0\r\nX-Trailer: z\r\n\r\n')
    talk(suite, "chunks with an extension and a trailer", port, more, [201])
    expect = message("Expect: 100-continue", "Content-Length: 21")
    talk(suite, "Expect: 100-continue, and the body behind it", port, expect + b'{"userName":"expect"}', [100, 201])
    other = message("Expect: something", "Content-Length: 21", body=b'{"userName":"expec2"}')
    talk(suite, "Expect: something else", port, other, [201])


def targets(suite, port):
    for target, status, is_open in [("http://scim.example.com/Users?count=1", 200, True),
                                    ("https://scim.example.com/Users", 404, True), ("*", 404, True),
                                    ("/Users%00", 404, True), ("//Users", 404, True), ("/Users/", 200, True),
                                    ("/users", 404, True), ("/scim/v2/Users", 404, True), ("/Users\0", 400, False),
                                    ("/%55sers", 200, True), ("/Users/%2e%2e", 404, True)]:
        head = without(GET, b"/Users?count=1", target.encode())
        talk(suite, f"GET {target!r}", port, head, [status], is_open=is_open)
    for method, target, status in [("OPTIONS", "*", 404), ("TRACE", "/", 501), ("get", "/Users", 405),
                                   ("DELETE", "/Users", 405)]:
        head = without(GET, b"GET /Users?count=1", f"{method} {target}".encode())
        talk(suite, f"{method} {target}", port, head, [status])


def heads(suite, port):
    talk(suite, "HTTP/2.0 as the version", port, without(GET, b"HTTP/1.1", b"HTTP/2.0"), [400], is_open=False)
    preface = b"PRI * HTTP/2.0\r\n\r\nSM\r\n\r\n"
    talk(suite, "the preface of HTTP/2", port, preface, [400], is_open=False)
    talk(suite, "the hello of TLS", port, TLS_HELLO, [], is_open=False, shut=True)
    for count, status in [(64, 200), (65, 400)]:
        more = "".join(f"X-{number}: y\r\n" for number in range(count - 2)).encode()
        talk(suite, f"{count} headers", port, without(GET, b"\r\n\r\n", b"\r\n" + more + b"\r\n"), [status],
             is_open=status == 200)
    long = without(GET, b"\r\n\r\n", b"\r\nX-Long: " + b"y" * 16_384 + b"\r\n\r\n")
    talk(suite, "a head of more than 16 KiB", port, long, [400], is_open=False)


def sizes(suite, port):
    head = message("Content-Length: 2000000")
    talk(suite, "a length of 2 MB", port, head, [413], is_open=False)
    talk(suite, "2 MB that are sent before the reply is read", port, [head, *[b"x" * 100_000] * 20], [413],
         is_open=False)
    body = json.dumps({"userName": "large", "title": "t" * 60_000}).encode()
    talk(suite, "a body of 60 kB", port, message(f"Content-Length: {len(body)}", body=body), [201])


def framing(suite, port):
    for name, headers, status in [
            ("Content-Length beside Transfer-Encoding", ["Content-Length: 2", "Transfer-Encoding: chunked"], 400),
            ("Content-Length twice", ["Content-Length: 2", "Content-Length: 2"], 400),
            ("Content-Length: -2", ["Content-Length: -2"], 400),
            ("Transfer-Encoding: gzip, chunked", ["Transfer-Encoding: gzip, chunked"], 501)]:
        talk(suite, name, port, message(*headers, body=b"{}"), [status], is_open=False)


def tokens(suite, port):
    line = f"Authorization: Bearer token-of-{CLIENT}\r\n".encode()
    for name, other in [("two Authorization headers", line * 2), ("Basic", line.replace(b"Bearer", b"Basic")),
                        ("two spaces behind Bearer", line.replace(b"Bearer ", b"Bearer  "))]:
        found = talk(suite, name, port, without(GET, line, other), [401])
        suite.equal(f"{name}: WWW-Authenticate", found.replies[0].headers.get("www-authenticate"), "Bearer")


def bodies(suite, port):
    user = "/Users/00000000-0000-4000-8000-0000000000ff"
    talk(suite, "DELETE with Content-Length: 0", port, message("Content-Length: 0", method="DELETE", target=user),
         [404])
    talk(suite, "GET with a body", port, message("Content-Length: 2", body=b"{}", method="GET"), [200])
    talk(suite, "POST without a body", port, message(), [400])
    text = b'\xef\xbb\xbf{"userName":"bom"}'
    talk(suite, "POST with a byte order mark", port, message(f"Content-Length: {len(text)}", body=text), [400])


def idle(suite, server):
    """As many idle connections as a server keeps: the one that has been idle longest gives way to a new client."""
    soft, hard = resource.getrlimit(resource.RLIMIT_NOFILE)
    if hard != resource.RLIM_INFINITY and hard < MOST_OPEN + 200:
        suite.skipped[f"idle connections: this shell may open only {hard} files"] += 1
        return
    if soft != resource.RLIM_INFINITY:
        resource.setrlimit(resource.RLIMIT_NOFILE, (max(soft, MOST_OPEN + 200), hard))
    held = [socket.create_connection(("127.0.0.1", server.port), SECONDS) for _ in range(MOST_OPEN)]
    try:
        reply = Connector(server.port).get("/Users", count=1)
        suite.reply("a new client beside 1,024 idle connections", reply, 200)
        held[0].settimeout(QUIET)
        suite.equal("the oldest of them is closed", received(held[0]), b"")
        held[-1].sendall(GET)
        suite.equal("the newest is served", received(held[-1])[:12], b"HTTP/1.1 200")
    finally:
        for connection in held:
            connection.close()


def received(connection):
    """Some bytes from a connection, none if it was closed; None if it is silent."""
    connection.settimeout(SECONDS if connection.gettimeout() is None else connection.gettimeout())
    try:
        return connection.recv(1_000)
    except TimeoutError:
        return None
