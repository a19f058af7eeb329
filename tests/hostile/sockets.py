"""Connections that take memory, places or turns from others, a pause, and lines of chunks."""
import os
import selectors
import signal
import socket
import threading
import time

from lab import MOST_SECONDS, PATIENCE, Row, id_of, least, meta, somebody, watched
from server import Client, Probe, read_reply, request, token

MEMORY_MIB = 256  # the bound on replies and unfinished messages of all connections together, as it is by default
SLACK = 1.25  # what the allocator may take more
PIECE = 4_096  # the bytes that the server reads at once
MOST_BODY = 1_048_576
MOST_WAIT = 60  # seconds until a new client has a place, if all are taken by slow ones


def opened(port, count):
    sockets = []
    for _ in range(count):
        sockets.append(socket.create_connection(("127.0.0.1", port), 60))
    return sockets


def closed(sockets):
    for one in sockets:
        one.close()


def push_all(sockets, data, seconds):
    """Sends the data over each connection as far as it's taken within these seconds, and takes nothing."""
    waiting, end = selectors.DefaultSelector(), time.monotonic() + seconds
    for one in sockets:
        one.setblocking(False)
        waiting.register(one, selectors.EVENT_WRITE, [0])
    while waiting.get_map() and time.monotonic() < end:
        for key, _ in waiting.select(0.2):
            try:
                key.data[0] += key.fileobj.send(data[key.data[0]:key.data[0] + 65_536])
            except BlockingIOError:
                continue
            except OSError:
                key.data[0] = len(data)
            if key.data[0] == len(data):
                waiting.unregister(key.fileobj)
    waiting.close()


def memory(lab):
    """Connections without a token that take no reply, or end no message."""
    schemas = b"GET /Schemas HTTP/1.1\r\nHost: x\r\n\r\n"
    unfinished = (f"POST /Users HTTP/1.1\r\nHost: x\r\nContent-Length: {MOST_BODY}\r\n\r\n".encode()
                  + b"x" * (MOST_BODY - 1))
    for name, count, data in (("replies that nobody takes", lab.sizes.takers, schemas * (PIECE // len(schemas))),
                              ("bodies without an end", lab.sizes.bodies, unfinished)):
        plain, _ = growth(lab, count, lambda sockets: asked(sockets, schemas))
        hostile, wait = growth(lab, count, lambda sockets: push_all(sockets, data, PATIENCE * 2))
        yield Row(f"{count:,} connections: {name}", "MiB", plain, hostile, wait,
                  f"at most {MEMORY_MIB} MiB, GET at most {MOST_SECONDS} s",
                  hostile <= MEMORY_MIB * SLACK and wait <= MOST_SECONDS)


def asked(sockets, message):
    """Each connection asks once, and takes the reply."""
    for one in sockets:
        one.sendall(message)
        with one.makefile("rb") as file:
            read_reply(file)


def growth(lab, count, work):
    """By how many MiB the server grows at most, and another client's longest GET meanwhile."""
    with lab.server() as server:
        user = somebody(server)
        server.forget_peak()
        before = server.memory_mib("VmRSS")

        def grown():
            sockets = opened(server.port, count)
            work(sockets)
            settle(server)
            peak = server.memory_mib("VmHWM") - before
            closed(sockets)
            return peak

        return watched(server, user, grown)


def settle(server):
    """Waits until the server has next to nothing to do."""
    end = time.monotonic() + PATIENCE
    while time.monotonic() < end:
        before = server.ran()
        time.sleep(0.5)
        if server.ran() - before < 0.1:
            return


def places(lab):
    """All places taken by connections that send a byte now and then, or that are silent behind a reply."""
    count = lab.sizes.places
    with lab.server() as server:
        user = somebody(server)
        quiet = wait_of_new(server, user)
        for name, most, take in ((f"{count:,} that send a byte each 10 s", MOST_WAIT, byte_by_byte),
                                 (f"{count:,} that are silent behind a reply", MOST_SECONDS, silent)):
            sockets = opened(server.port, count)
            ending = threading.Event()
            taker = threading.Thread(target=take, args=(sockets, ending), daemon=True)
            taker.start()
            time.sleep(2)
            wait = wait_of_new(server, user)
            ending.set()
            taker.join()
            closed(sockets)
            yield Row(name, "s", quiet, wait, wait, f"a new client waits at most {most} s", wait <= most)


def byte_by_byte(sockets, ending):
    for byte in b"GET /Users HTTP/1.1\r\nX-Slow: 1":
        for one in sockets:
            try:
                one.send(bytes([byte]))
            except OSError:
                pass  # the server closed it
        if ending.wait(10):
            return


def silent(sockets, ending):
    message = b"GET /ServiceProviderConfig HTTP/1.1\r\nHost: x\r\n\r\n"
    for one in sockets:
        try:
            one.settimeout(5)
            asked([one], message)
        except (OSError, ConnectionError):
            pass
    ending.wait()


def wait_of_new(server, user):
    """Seconds from a new client's connection to its reply; infinite if none comes in time."""
    begun = time.monotonic()
    try:
        client = Client(server.port, MOST_WAIT + 5)
        client.ask(request("GET", f"/Users/{user}", "other"))
        client.close()
    except OSError:
        return float("inf")
    return time.monotonic() - begun


class Flood(threading.Thread):
    """Connections that send a message again and again, as often as the server takes it, and drop the replies."""

    def __init__(self, port, count, data):
        super().__init__(daemon=True)
        self.sockets, self.data, self.ending = opened(port, count), data, threading.Event()

    def run(self):
        ready = selectors.DefaultSelector()
        for one in self.sockets:
            one.setblocking(False)
            ready.register(one, selectors.EVENT_READ | selectors.EVENT_WRITE, [0])
        while not self.ending.is_set() and ready.get_map():
            for key, events in ready.select(0.2):
                try:
                    self.step(key, events)
                except BlockingIOError:
                    pass
                except OSError:
                    ready.unregister(key.fileobj)
            time.sleep(0.001)
        closed(self.sockets)

    def step(self, key, events):
        if events & selectors.EVENT_READ and not key.fileobj.recv(262_144):
            raise ConnectionError("closed")
        if events & selectors.EVENT_WRITE:
            sent = key.fileobj.send(self.data[key.data[0]:])
            key.data[0] = (key.data[0] + sent) % len(self.data)


def fairness(lab):
    """A client that may only read, with searches in a row over several connections."""
    message = request("GET", "/Users?sortBy=title&count=1", "reader")
    for connections in (1, 10, 30):
        with lab.server_over(users(lab.sizes.users)) as server:
            user = somebody(server)
            one = least(server, message, {200})
            _, quiet = watched(server, user, lambda: time.sleep(1))
            flood = Flood(server.port, connections, message * (PIECE // len(message)))
            wait = starved(server, user, flood)
            yield Row(f"{connections} connections search {lab.sizes.users:,} users", "s", one, wait, wait,
                      "GET at most 4 such searches", wait <= 4 * one + quiet and wait <= MOST_SECONDS)


def starved(server, user, flood):
    """The longest GET of another client while there is a flood."""
    with Probe(server, user) as probe:
        probe.settled.wait(PATIENCE)
        flood.start()
        time.sleep(PATIENCE)
        wait = probe.wait(PATIENCE * 2)
    flood.ending.set()
    server.kill()
    flood.join()
    return wait


def users(count):
    for number in range(count):
        yield {"id": id_of(number), "userName": f"user{number}", "title": f"Guide {number * 7919 % 10_007}",
               "name": {"familyName": f"Jensen{number}", "givenName": "Barbara"}, "meta": meta("User"),
               "emails": [{"value": f"user{number}@example.com", "type": "work"}]}


def pauses(lab):
    """The server is stopped, clients send requests, and it goes on after a short or a long pause."""
    count = 10
    with lab.server() as server:
        user = somebody(server)
        short, long = (answered(server, user, count, seconds) for seconds in (1, lab.sizes.pause))
        yield Row(f"{count} requests in a pause of {lab.sizes.pause} s", "", short, long, 0,
                  "all are answered", long == count)


def answered(server, user, count, seconds):
    """How many requests that were sent in a pause are answered behind it."""
    message = request("GET", f"/Users/{user}", "reader")
    clients = [server.connect(30) for _ in range(count)]
    for client in clients:
        client.ask(message)
    os.kill(server.process.pid, signal.SIGSTOP)
    for client in clients:
        client.socket.sendall(message)
    time.sleep(seconds)
    os.kill(server.process.pid, signal.SIGCONT)
    return sum(has_reply(client) for client in clients)


def has_reply(client):
    try:
        return read_reply(client.file)[0] == 200
    except OSError:
        return False
    finally:
        client.close()


def chunk_lines(lab):
    """Chunks of a byte whose lines have long extensions, beside such chunks without."""
    def cost(chunk, count):
        head = (f"POST /Users HTTP/1.1\r\nHost: x\r\nAuthorization: Bearer {token('nobody')}\r\n"
                "Content-Type: application/scim+json\r\nTransfer-Encoding: chunked\r\n\r\n").encode()
        with lab.server() as server:
            message = head + chunk * count + b"0\r\n\r\n"
            found, wait = watched(server, somebody(server), lambda: least(server, message, {400, 401, 413}))
            return found / len(message) * 1e6, wait

    with_extension = b"1;" + b"a" * 1_000 + b"\r\nx\r\n"
    without = b"1\r\nx\r\n"
    plain, _ = cost(without, lab.sizes.chunk_bytes // len(without))
    hostile, wait = cost(with_extension, lab.sizes.chunk_bytes // len(with_extension))
    yield Row("chunks with extensions, for each byte", "cpu us", plain, hostile, wait, "ratio at most 2",
              hostile <= 2 * plain and wait <= MOST_SECONDS)
