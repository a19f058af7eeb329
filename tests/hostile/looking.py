"""What an administrator can look at: under load, and at rest beside what the commands say of the stopped database."""
import json
import os
import time
from collections import Counter

from administrator import ADMIN, administered, command, expect, figures_of, read
from changes import Changes
from lab import id_of, somebody
from loads import NOBODY, Reads, Refusals, Searches, loaded
from server import request

WRITERS = ["writer", "writer0", "writer1"]  # the first one isn't checked by `Changes`
ALL = 1_000_000_000  # more rows than there are
BUSY = 4  # seconds under load
PATHS = ["/health", "/metrics", "/audit", "/explain", "/export", "/reload", "/stop", "/nothing"]
FAULTS = [
    ("POST", "/health", {}, 405, "method not allowed", "GET"),
    ("DELETE", "/audit", {}, 405, "method not allowed", "GET"),
    ("GET", "/reload", {}, 405, "method not allowed", "POST"),
    ("GET", "/stop", {}, 405, "method not allowed", "POST"),
    ("GET", "/nothing", {}, 404, "no such endpoint", None),
    ("GET", "/Users", {}, 404, "no such endpoint", None),
    ("GET", "/health", {"x": 1}, 400, "unknown parameter", None),
    ("GET", "/audit", {"form": "json"}, 400, "unknown parameter", None),
    ("POST", "/stop", {"now": 1}, 400, "unknown parameter", None),
    ("GET", "/audit", {"from": "x"}, 400, "bad value of parameter: from", None),
    ("GET", "/audit", {"count": -1}, 400, "bad value of parameter: count", None),
    ("GET", "/audit", {"count": 1, "last": 1}, 400, "bad value of parameter: last", None),
    ("GET", "/audit", {"client": "a b"}, 400, "bad value of parameter: client", None),
    ("GET", "/audit", {"since": "2024-06-01"}, 400, "bad value of parameter: since", None),
    ("GET", "/audit", {"refusal": "F22"}, 400, "bad value of parameter: refusal", None),
    ("GET", "/audit", {"format": "xml"}, 400, "bad value of parameter: format", None),
    ("GET", "/explain", {"kind": "User"}, 400, "bad value of parameter: op", None),
    ("GET", "/explain", {"op": "read"}, 400, "bad value of parameter: kind", None),
    ("GET", "/explain", {"op": "read", "kind": "User", "id": 7}, 400, "bad value of parameter: id", None),
    ("GET", "/explain", {"op": "read", "kind": "User", "id": NOBODY}, 400, "bad value of parameter: client", None),
]


def new_changes():
    return [Changes(writer, f"seed {writer}") for writer in WRITERS[1:]]


def looks(program, folder):
    """All that can be asked under load, and at rest beside `audit`, `explain`, `export` and the audit log."""
    with administered(program, folder, WRITERS) as server:
        user = somebody(server)
        refusals, looking = Refusals("titles", user), Looking(server, user)
        with loaded(server, [*new_changes(), Searches("reader"), Reads("other", user), refusals]) as loads:
            end = time.monotonic() + BUSY
            while time.monotonic() < end:
                looking.look()
        asked = sum(len(load.done) for load in loads)
        refused = refusals.unknown_tokens + looking.refused
        looking.admin.close()
        seen = AtRest(server, user)
        server.stop()
    seen.compare(program, server, folder)
    seen.compare_figures(refused, server.accepted)
    return (f"{looking.rounds} rounds beside {asked} requests, {looking.exports['whole']} exports whole and "
            f"{looking.exports['cut']} cut; {seen.count} replies as the commands say")


class Looking:
    """An administrator that asks for everything again and again, and what it was told last."""

    def __init__(self, server, user):
        self.server, self.user, self.admin = server, user, server.admin()
        self.figures, self.rows, self.explained, self.exports = {}, 0, None, Counter()
        self.rounds, self.refused = 0, 0

    def look(self):
        expect("GET /health", self.admin.get("/health"), b"ok\n")
        self.look_at_figures()
        self.look_at_audit()
        explained = self.admin.get("/explain", question("titles", "modify", self.user))
        expect("GET /explain", explained, self.explained or explained)
        self.explained = explained
        reply = self.admin.ask("GET", "/export")
        self.exports["whole" if reply.is_whole else "cut"] += 1
        if reply.is_whole:
            json.loads(reply.body)
        self.look_at_faults()
        self.rounds += 1

    def look_at_figures(self):
        """The figures of counters never shrink."""
        figures, counters = figures_of(self.admin.get("/metrics").decode())
        for key, before in self.figures.items():
            if key[0] in counters and figures.get(key, -1) < before:
                raise RuntimeError(f"metrics: {key} was {before}, and is {figures.get(key)}")
        self.figures = figures

    def look_at_audit(self):
        """A listing has all rows up to some moment, and the next one goes on from there."""
        numbers = [int(line.split(" ")[0]) for line in self.admin.get("/audit").decode().splitlines()]
        if numbers != list(range(1, len(numbers) + 1)) or len(numbers) < self.rows:
            raise RuntimeError(f"audit: {len(numbers)} rows behind {self.rows}, the last ones {numbers[-3:]}")
        self.rows = len(numbers)
        last = [json.loads(line)["number"] for line in
                self.admin.get("/audit", {"last": 5, "format": "json"}).splitlines()]
        if last != list(range(last[0], last[0] + 5)) or last[-1] < self.rows:
            raise RuntimeError(f"audit: the last rows are {last}, behind {self.rows}")

    def look_at_faults(self):
        """What isn't carried out: requests with a fault, and with no token or a wrong one."""
        for method, path, parameters, status, text, allowed in FAULTS:
            reply = self.admin.ask(method, path, parameters)
            expect(f"{method} {path} {parameters}", (reply.status, reply.body.decode(), reply.headers["Allow"]),
                   (status, text + "\n", allowed))
        for name in (None, "nobody", "reader", "writer"):
            stranger = self.server.admin(name)
            for path in PATHS:
                reply = stranger.ask("POST" if path in ("/reload", "/stop") else "GET", path)
                found = reply.status, reply.headers["WWW-Authenticate"], reply.body
                expect(f"{path} with the token of {name}", found, (401, "Bearer", b"no token of an administrator\n"))
            stranger.close()
        self.look_at_clients_port()

    def look_at_clients_port(self):
        """An administrator's token is none of a client."""
        client = self.server.connect()
        status, _ = client.ask(request("GET", f"/Users/{self.user}", ADMIN))
        client.close()
        expect("GET by an administrator at the clients' port", status, 401)
        self.refused += 1


def question(client, op, user, kind="User", path=None):
    """The parameters of an explanation."""
    return {"client": client, "op": op, "kind": kind, "id": user, **({"path": path} if path else {})}


class AtRest:
    """What an administrator is told while nobody else asks."""

    def __init__(self, server, user):
        admin = server.admin()
        rows = admin.get("/audit").decode().splitlines()
        moment = rows[len(rows) // 2].split(" ")[1]
        self.listings = [(query, admin.get("/audit", query)) for query in queries(moment)]
        self.explanations = [(asked, admin.ask("GET", "/explain", asked)) for asked in questions(user)]
        self.export = admin.get("/export")
        self.figures, _ = figures_of(admin.get("/metrics").decode())
        self.rows = [line.split(" ") for line in rows]
        self.count = len(self.listings) + len(self.explanations) + 1
        admin.close()

    def compare(self, program, server, folder):
        """RuntimeError unless the commands say the same of the stopped database, and the audit log has its rows."""
        def told(name, *words, status=0):
            return command(program, name, "--db", server.database, *words, status=status)

        for query, listed in self.listings:
            expect(f"audit {query}", listed, told("audit", *words_of(query)))
        for asked, reply in self.explanations:
            words = ["--policy", os.path.join(folder, "policy.json")]
            words += [word for name, value in asked.items() for word in (f"--{name}", value)]
            if reply.status == 404:
                expect("explanation of nobody", reply.body, b"no such resource\n")
                expect("explain of nobody", told("explain", *words, status=1), b"scimd: absent\n")
            else:
                expect(f"explain {asked}", (reply.status, reply.body), (200, told("explain", *words)))
        expect("export", self.export, told("export"))
        expect("the audit log", read(server.audit_log), told("audit", *words_of({})))

    def compare_figures(self, refused, accepted):
        """RuntimeError unless the figures are those of the audit, which began with the server, and of the clients."""
        counted = Counter((row[2], row[3], row[6]) for row in self.rows)
        told = {tuple(dict(labels)[name] for name in ("client", "op", "outcome")): figure
                for (name, labels), figure in self.figures.items() if name == "scimd_requests_total"}
        expect("scimd_requests_total", told, dict(counted))
        for name, figure in (("scimd_audit_rows", len(self.rows)), ("scimd_commits_total", len(self.rows)),
                             ("scimd_failed_commits_total", 0), ("scimd_cache_filled", 1),
                             ("scimd_resident_resources", len(json.loads(self.export))),
                             ("scimd_refused_tokens_total", refused), ("scimd_connections_accepted_total", accepted),
                             ("scimd_admin_connections_open", 1)):
            expect(name, self.figures[name, ()], figure)


def queries(moment):
    """Parameters of a listing of the audit: each one, and some together."""
    return [{}, {"from": 10}, {"from": 0, "count": 3}, {"from": 5, "count": 400}, {"count": 0}, {"last": 7},
            {"last": 400}, {"from": 20, "last": 400}, {"from": ALL}, {"client": "reader"}, {"client": "stranger"},
            {"client": "writer0", "last": 3}, {"since": moment}, {"since": moment, "count": 5, "client": "titles"},
            {"refusal": "F14"}, {"refusal": "f9"}, {"refusal": "13", "last": 2}, {"format": "words", "last": 1},
            {"format": "json"}, {"format": "json", "client": "titles", "refusal": "F10", "last": 4}]


def words_of(query):
    """The options of `audit` for the parameters of a listing; `audit` prints 100 rows if none says how many."""
    words = [] if "count" in query or "last" in query else ["--count", str(ALL)]
    for name, value in query.items():
        if name != "format":
            words += [f"--{name}", str(value)]
        elif value == "json":
            words.append("--json")
    return words


def questions(user):
    """What is explained: decisions on one leaf and on all."""
    found = [question(client, op, user, path=path) for client in ("writer", "reader", "titles", "stranger")
             for op in ("read", "modify", "delete") for path in (None, "title", "emails.value")]
    return [*found, question("reader", "read", NOBODY), question("reader", "read", id_of(1), "Group", "displayName")]


def options(program, folder):
    """One option of the port without the other, a token in both files, and files that only their owner can read."""
    with administered(program, folder, WRITERS) as server:
        somebody(server)
        for path in (server.database, server.database + "-wal", server.audit_log):
            expect(f"mode of {os.path.basename(path)}", oct(os.stat(path).st_mode & 0o777), oct(0o600))
        words = server.words[1:]
        server.stop()
    port, tokens = words.index("--admin-port"), words.index("--admin-tokens")
    for left_out in (port, tokens):
        told = command(program, *words[:left_out], *words[left_out + 2:], status=2)
        expect("one option of the port", told.split(b"\n")[0], b"scimd: bad option")
    clients = os.path.join(folder, "tokens")
    told = command(program, *words[:tokens + 1], clients, *words[tokens + 2:], status=1)
    expect("the clients' tokens as those of administrators", told, b"scimd: admin tokens: line 1: token of a client\n")
    return "as due"
