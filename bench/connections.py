"""Requests by several connections at once: how many a second, and how many syncs of a file they take."""
import re
import selectors
import shutil
import socket
import subprocess
import time
from contextlib import ExitStack
from statistics import median

import data
from measuring import Ask, Table
from server import SECONDS

ASKS = [Ask("GET by id", data.get, 1), Ask("PATCH of a title", data.retitle, 1), Ask("create", data.create, 1, 201)]
COUNTS = (1, 16, 64)
SYNCS = "fdatasync,fsync"


class Talk:
    """A connection that sends a request as soon as the reply to the one before has come."""

    def __init__(self, server, ask):
        self.server, self.ask, self.read = server, ask, b""
        self.socket = socket.create_connection(("127.0.0.1", server.port), SECONDS)
        self.socket.setsockopt(socket.IPPROTO_TCP, socket.TCP_NODELAY, 1)

    def send(self):
        self.socket.sendall(self.ask.make(self.server, next(self.server.numbers)))

    def hear(self):
        """Reads what has come, and returns whether it ends a reply, which must have the status that is wanted."""
        self.read += self.socket.recv(65_536)
        head, found, body = self.read.partition(b"\r\n\r\n")
        length = re.search(rb"\r\nContent-Length: (\d+)", head)
        if not found or len(body) < int(length[1] if length else 0):
            return False
        if not head.startswith(b"HTTP/1.1 %d " % self.ask.status):
            raise RuntimeError(f"status {self.ask.status} is wanted: {self.read[:300]!r}")
        self.read = b""
        return True


def answered(server, ask, connections, most, seconds):
    """How many requests the server answers on so many connections, and the seconds that it takes for them."""
    with selectors.DefaultSelector() as ready:
        talks = [Talk(server, ask) for _ in range(connections)]
        begun, sent, heard = time.perf_counter(), 0, 0
        for talk in talks:
            ready.register(talk.socket, selectors.EVENT_READ, talk)
            talk.send()
            sent += 1
        while heard < sent:
            for key, _ in ready.select(SECONDS):
                if key.data.hear():
                    heard += 1
                    if sent < most and time.perf_counter() - begun < seconds:
                        key.data.send()
                        sent += 1
        spent = time.perf_counter() - begun
        for talk in talks:
            talk.socket.close()
    return heard, spent


def syncs(server, ask, connections, requests):
    """How many syncs the server makes for each request, as strace counts them."""
    words = ["strace", "-f", "-c", "-e", f"trace={SYNCS}", "-p", str(server.process.pid)]
    tracer = subprocess.Popen(words, stderr=subprocess.PIPE, text=True)
    time.sleep(0.5)  # until strace has the server
    heard, _ = answered(server, ask, connections, requests, SECONDS)
    tracer.send_signal(2)
    counted = sum(int(line.split()[3]) for line in tracer.communicate()[1].splitlines()
                  if line.rstrip().endswith(tuple(SYNCS.split(","))))
    return counted / heard


def connections(bench):
    """GET, PATCH and create by 1, 16 and 64 connections at once: requests a second, and syncs for each request"""
    heads = ["a second", "syncs a request", *(["beside, a second"] if bench.beside else [])]
    table = Table("connections: requests of several connections, over so many users on a disk", heads,
                  [(0, 2)] if bench.beside else [])
    content, seconds = (bench.sizes[1],), bench.round_ms / 1000
    with ExitStack() as stack:
        programs = [bench.program, *([bench.beside] if bench.beside else [])]
        servers = [stack.enter_context(bench.server(content, program=program)) for program in programs]
        for ask in ASKS:
            for count in COUNTS:
                rounds = [[heard / spent for heard, spent in (answered(server, ask, count, 1_000_000, seconds) for server in servers)]
                          for _ in range(bench.rounds)]
                own, *other = (median(column) for column in zip(*rounds))
                traced = syncs(servers[0], ask, count, 10 * count + 100) if shutil.which("strace") else float("nan")
                table.add(f"{ask.name}, {count} at once", [own, traced, *other])
    return table
