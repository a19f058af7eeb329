"""Replies to an administrator that come in pieces: exports beside changes, and readers that take a listing slowly or as
fast as they can."""
import contextlib
import json
import os
import sqlite3
import subprocess
import tempfile
import threading
import time

from administrator import ADMIN, AdminServer, SlowReader, administered, command, expect, write_all_files
from changes import Changes
from lab import MOST_SECONDS, id_of, meta, somebody
from loads import Reads, Searches, loaded, waits_ms
from looking import WRITERS, words_of
from server import PATCH_OP, request, token

MANY = 8_000  # users, whose export is larger than what the system holds of a connection
LONG = "x" * 1_000
ROWS = 100_000  # of an audit, whose listing is larger than that
READERS = 3
BUSY = 3  # seconds of a measurement
MOST_RATIO = 3  # of a client's wait beside slow readers
CUT = "a reply to the administrator is cut: a resource was changed during the export"


def imported(program, folder):
    """A database of many users under the name `store.db`."""
    write_all_files(folder, WRITERS)
    users = os.path.join(folder, "users.json")
    with open(users, "w", encoding="ascii") as file:
        json.dump([{"id": id_of(number), "userName": f"user{number}", "title": LONG, "meta": meta("User")}
                   for number in range(1, MANY + 1)], file)
    command(program, "import", "--db", os.path.join(folder, "store.db"), "--users", users)
    os.remove(users)


def change(server, number):
    """Changes a user's title."""
    client = server.connect()
    operation = {"op": "replace", "path": "title", "value": f"{time.monotonic()}"}
    status, _ = client.ask(request("PATCH", f"/Users/{id_of(number)}", "writer",
                                   {"schemas": [PATCH_OP], "Operations": [operation]}))
    client.close()
    expect("status of a PATCH", status, 200)


def exports(program, folder):
    """An export is the whole of one moment, or it is cut: beside reads, beside a change, and beside many changes."""
    imported(program, folder)
    database = os.path.join(folder, "store.db")
    before = command(program, "export", "--db", database)
    with AdminServer(program, folder) as server:
        with loaded(server, [Reads("other", id_of(1)), Searches("reader")]):
            expect("export beside reads", server.admin().get("/export"), before)
        cut_by_a_change(server)
        slow = exports_beside(server, program, [Slowly(Changes("writer0", "slow"), 2)])
        fast = exports_beside(server, program, [Changes("writer1", "fast"), Reads("other", id_of(1))])
        if not slow[0] or not fast[1]:
            raise RuntimeError(f"exports whole and cut: {slow} beside slow changes, {fast} beside fast ones")
        after = server.admin().get("/export")
        server.stop()
    expect("export at rest", after, command(program, "export", "--db", database))
    return f"whole and cut: {slow[0]} and {slow[1]} beside slow changes, {fast[0]} and {fast[1]} beside fast ones"


def cut_by_a_change(server):
    """Only one export goes on at a time, and a change cuts it. The next one is whole."""
    reader = SlowReader(server.admin_port, "/export")
    begun = reader.take(1_000)
    other = server.admin().ask("GET", "/export")
    expect("a second export", (other.status, other.body), (503, b"another export isn't finished\n"))
    change(server, MANY)
    body, is_whole = reader.rest()
    expect("an export that a change meets is whole", is_whole, False)
    server.expect_logged(CUT)
    whole = server.admin().get("/export")
    if (begun + body)[:1_000] != whole[:1_000] or begun + body == whole:
        raise RuntimeError("the export that was cut isn't the beginning of what was there")


class Slowly:
    """Requests with a pause behind each reply."""

    def __init__(self, source, seconds):
        self.source, self.seconds, self.message = source, seconds, source.message

    def answered(self, status, body):
        self.source.answered(status, body)
        time.sleep(self.seconds)


def exports_beside(server, program, sources):
    """How many of ten exports were whole and how many were cut. The last whole one can be imported."""
    admin, last, counts = server.admin(), None, [0, 0]
    with loaded(server, sources):
        for _ in range(10):
            reply = admin.ask("GET", "/export")
            expect("status of an export", reply.status, 200)
            counts[not reply.is_whole] += 1
            if reply.is_whole:
                last = reply.body
                expect("users of an export", len({it["id"] for it in json.loads(last)}) >= MANY, True)
    if last is not None:
        check_import(program, last)
    return counts


def check_import(program, users):
    """RuntimeError unless `import` takes an export, and `export` gives it back."""
    with tempfile.TemporaryDirectory(prefix="scimd-again-") as folder:
        path, database = os.path.join(folder, "users.json"), os.path.join(folder, "store.db")
        with open(path, "wb") as file:
            file.write(users)
        command(program, "import", "--db", database, "--users", path)
        expect("an export that was imported", command(program, "export", "--db", database), users)


def slow_readers(program, folder):
    """Clients wait no longer beside administrators that take a long listing slowly, or one after another."""
    user = grown(program, folder)
    with AdminServer(program, folder) as server:
        quiet = measured(server, user)
        trickles = [Trickle(server) for _ in range(READERS)]
        slow = measured(server, user)
        listings = [trickle.end() for trickle in trickles]
        greedy = [Greedy(server) for _ in range(READERS)]
        fast = measured(server, user)
        taken = sum(reader.end() for reader in greedy)
        server.stop()
    due = command(program, "audit", "--db", server.database, *words_of({"count": ROWS}))
    for listing in listings:
        expect("a listing that was taken slowly", listing, (due, True))
    text = ", ".join(f"{middle:.2f} ms and at most {longest:.0f} {beside}" for (middle, longest), beside in (
        (quiet, "alone"), (slow, f"beside {READERS} slow readers"), (fast, f"beside {READERS} fast ones")))
    if slow[0] > MOST_RATIO * quiet[0] or max(slow[1], fast[1]) > MOST_SECONDS * 1_000 or not taken:
        raise RuntimeError(f"a GET waits {text}; {taken} listings were taken")
    return f"a GET waits {text}; {taken} listings of {ROWS} rows were taken"


def grown(program, folder):
    """A database with a long audit of copies of its first row, and the id of its one user."""
    with administered(program, folder, WRITERS) as server:
        user = somebody(server)
        server.stop()
    with contextlib.closing(sqlite3.connect(server.database)) as database:
        database.execute("INSERT INTO audit WITH RECURSIVE more(n) AS "
                         "(SELECT 2 UNION ALL SELECT n + 1 FROM more WHERE n < ?) "
                         "SELECT n, moment, client, op, kind, id, decided, rule, leaf, refusal FROM more, audit "
                         "WHERE number = 1", (ROWS,))
        database.commit()
    return user


def measured(server, user):
    """For how many milliseconds two clients wait for a GET by id, in the middle and at most."""
    with loaded(server, [Reads("reader", user), Reads("other", user)]) as loads:
        time.sleep(BUSY)
    return waits_ms(loads)


class Trickle(threading.Thread):
    """An administrator that takes a little of a long listing now and then, and the rest when it's told to end."""

    def __init__(self, server):
        super().__init__(daemon=True)
        self.reader, self.ending = SlowReader(server.admin_port, "/audit", {"count": ROWS}), threading.Event()
        self.taken = b""
        self.start()

    def run(self):
        while not self.ending.wait(0.02):
            self.taken += self.reader.take(2_000)

    def end(self):
        """What was taken, and whether that was all."""
        self.ending.set()
        self.join()
        rest, is_whole = self.reader.rest()
        return self.taken + rest, is_whole


class Greedy(threading.Thread):
    """An administrator that takes one long listing after another, by a program of its own."""

    def __init__(self, server):
        super().__init__(daemon=True)
        self.words = ["curl", "--silent", "--fail", "--output", "/dev/null", "--max-time", "60",
                      "--header", f"Authorization: Bearer {token(ADMIN)}",
                      f"http://127.0.0.1:{server.admin_port}/audit?count={ROWS}"]
        self.ending, self.count, self.fault = threading.Event(), 0, None
        self.start()

    def run(self):
        while not self.ending.is_set():
            status = subprocess.run(self.words, check=False).returncode
            if status:
                self.fault = RuntimeError(f"curl: exit status {status}")
                return
            self.count += 1

    def end(self):
        """How many listings were taken whole."""
        self.ending.set()
        self.join()
        if self.fault:
            raise self.fault
        return self.count
