"""What an administrator does to a busy server: reloads and stops by the port, files that go, and signals."""
import os
import shutil
import signal
import socket
import time

from administrator import ADMIN, AdminServer, SlowReader, administered, command, expect, line_of, read, replace, soon
from administrator import write_all_files
from changes import audited, exported
from lab import somebody
from loads import NOBODY, Reads, Searches, loaded, statuses, unanswered
from looking import WRITERS, new_changes, words_of
from server import SECONDS, read_reply, request
from streaming import imported

ROUNDS = 5  # stops of a busy server
BUSY = 0.7  # seconds under load
PIPELINED = 100
MOST_LAST_SECONDS = 35  # from a stop to the end of a server whose clients aren't done
GONE = "the database's files are gone"


def asked_by(server, client, user):
    """The status of a GET by id."""
    connection = server.connect(SECONDS)
    status, _ = connection.ask(request("GET", f"/Users/{user}", client))
    connection.close()
    return status


def rotation(program, folder):
    """A client changes its token while it asks: the old one is refused behind the reload, and no request is lost."""
    with administered(program, folder, WRITERS) as server:
        user, admin, path = somebody(server), server.admin(), os.path.join(folder, "tokens")
        old = read(path).decode()
        new = line_of("fresh").replace("fresh", "reader", 1)  # the client `reader` with the token of `fresh`
        expect("status with a token that isn't known", asked_by(server, "fresh", user), 401)
        with loaded(server, [*(Reads("reader", user, 200, 401) for _ in range(3)), Reads("other", user)]) as loads:
            replace(path, old + new)
            server.reload(admin)
            found = [asked_by(server, name, user) for name in ("reader", "fresh")]
            expect("statuses with both tokens", found, [200, 200])
            time.sleep(BUSY)
            replace(path, old.replace(line_of("reader"), "") + new)
            before = time.monotonic()
            server.reload(admin)
            after = time.monotonic()
            found = [asked_by(server, name, user) for name in ("reader", "fresh")]
            expect("statuses with the old token and the new one", found, [401, 200])
            time.sleep(BUSY)
        refused = check_revoked(loads[:-1], before, after)
        expect("a connection that was closed", any(load.is_closed for load in loads), False)
        expect("requests without a reply", unanswered(loads, time.monotonic()), 0)
        change_administrators(server, folder, admin)
        server.stop()
    return f"{len(statuses(loads))} requests were answered, {refused} of them after the old token was refused"


def check_revoked(loads, before, after):
    """How many requests were refused. Those that were answered before a reload weren't, and those that were begun
    after it were."""
    for load in loads:
        later = [done.status for done in load.done if done.begun > after]
        if not later or set(later) != {401}:
            raise RuntimeError(f"statuses {sorted(set(later))} after the reload")
        if {done.status for done in load.done if done.ended < before} != {200}:
            raise RuntimeError("a request before the reload was refused")
    return sum(done.status == 401 for load in loads for done in load.done)


def change_administrators(server, folder, admin):
    """An administrator's token is changed likewise."""
    path = os.path.join(folder, "admin-tokens")
    replace(path, line_of(ADMIN) + line_of("chief"))
    server.reload(admin)
    chief = server.admin("chief")
    replace(path, line_of("chief"))
    server.reload(chief)
    expect("an administrator whose token was taken away", admin.ask("GET", "/health").status, 401)
    replace(path, line_of("chief") + line_of(ADMIN))
    server.reload(chief)
    expect("an administrator whose token was given back", admin.get("/health"), b"ok\n")


def faulty_reloads(program, folder):
    """Files with a fault aren't put in force, not in part either; the old ones stay. Then a policy that allows less."""
    with administered(program, folder, WRITERS) as server:
        user, admin = somebody(server), server.admin()
        policy, tokens, admins = (os.path.join(folder, name) for name in ("policy.json", "tokens", "admin-tokens"))
        faults = [(policy, "{", "policy: rule 0: json"), (policy, None, f"cannot read {policy}"),
                  (policy, '{"version":1,"rules":[{}]}', "policy: rule 1: shape"),
                  (tokens, None, f"cannot read {tokens}"), (tokens, "reader\n", "tokens: line 1"),
                  (admins, None, f"cannot read {admins}"), (admins, line_of(ADMIN) + "x\n", "admin tokens: line 2"),
                  (admins, line_of("chief") + line_of("reader"), "admin tokens: line 2: token of a client"),
                  (tokens, line_of("writer") + line_of(ADMIN), "admin tokens: line 1: token of a client")]
        with loaded(server, [Reads("reader", user), Searches("other")]) as loads:
            for path, text, fault in faults:
                refuse_reload(server, admin, path, text, fault)
                expect("status by the old policy", asked_by(server, "titles", user), 200)
        text = read(policy).decode()
        replace(policy, text.replace('["reader", "other"]', '["other"]'))
        server.reload(admin)
        expect("status by the new policy", [asked_by(server, name, user) for name in ("reader", "other")], [404, 200])
        server.stop()
    return f"{len(faults)} faults, beside {len(statuses(loads))} requests"


def refuse_reload(server, admin, path, text, fault):
    """Has the files read again, one of which is gone or has a fault, and puts it back."""
    kept = read(path).decode()
    if text is None:
        os.remove(path)
    else:
        replace(path, text)
    reply = admin.ask("POST", "/reload")
    replace(path, kept)
    expect("reload of a file with a fault", (reply.status, reply.body.decode()), (409, fault + "\n"))
    server.expect_logged(f"reload: {fault}; the old files stay in force")


def stops(program, folder):
    """A busy server is stopped again and again: what was sent before is answered, and what was answered is there."""
    write_all_files(folder, WRITERS)
    all_changes, answered, first = new_changes(), 0, 1
    for _ in range(ROUNDS):
        with AdminServer(program, folder) as server:
            answered += stopped_while_busy(server, all_changes)
        for changes in all_changes:
            changes.step = None  # what has no reply wasn't done
        first += check_changes(program, server, all_changes, first)
    expect("the audit log", read(server.audit_log), command(program, "audit", "--db", server.database, *words_of({})))
    return f"{ROUNDS} stops, {answered} requests were answered, none was lost"


def stopped_while_busy(server, all_changes):
    """How many requests were answered until the end, each one among them that was sent before the stop."""
    pipeline = server.connect(SECONDS)
    with loaded(server, [*all_changes, Searches("reader")]) as loads:
        time.sleep(BUSY)
        pipeline.socket.sendall(request("GET", f"/Users/{NOBODY}", "other") * PIPELINED)
        before = time.monotonic()
        server.stop()
    found = [read_reply(pipeline.file)[0] for _ in range(PIPELINED)]
    expect("replies to requests in a row", found, [404] * PIPELINED)
    expect("what comes behind the last reply", pipeline.file.read(), b"")
    pipeline.close()
    expect("requests that were sent before the stop and lost", unanswered(loads, before), 0)
    return len(statuses(loads)) + PIPELINED


def check_changes(program, server, all_changes, first):
    """RuntimeError unless a stopped database holds what was acknowledged; how many rows it has from a number on."""
    users, rows = exported(program, server.database), audited(program, server.database, first)
    for fault in filter(None, [changes.fault(users, rows) for changes in all_changes]):
        raise RuntimeError(fault)
    return len(rows)


def last_half_minute(program, folder):
    """After a stop a message whose end comes is answered; no new connection is taken; half a minute later all end."""
    imported(program, folder)
    with AdminServer(program, folder) as server:
        message = request("POST", "/Users", "writer", {"userName": "late"})
        half, silent = server.connect(SECONDS), server.connect(SECONDS)
        half.socket.sendall(message[:-5])
        silent.socket.sendall(message[:20])
        reader = SlowReader(server.admin_port, "/export")
        reply = server.admin().ask("POST", "/stop")
        expect("POST /stop", (reply.status, reply.body), (200, b"stopping\n"))
        begun = time.monotonic()
        for port in (server.port, server.admin_port):
            expect(f"connection to port {port}", is_open(port), False)
        time.sleep(2)
        status, _ = half.ask(message[-5:])
        expect("status of a message whose end comes after the stop", status, 201)
        expect("exit status after a stop", server.ends(MOST_LAST_SECONDS), 0)
        seconds = time.monotonic() - begun
        expect("a reply that nobody took is whole", reader.rest()[1], False)
    if "late" not in {name for name, _ in exported(program, server.database).values()}:
        raise RuntimeError("a user that was acknowledged after the stop isn't there")
    return f"the server ended after {seconds:.0f} s"


def is_open(port):
    try:
        socket.create_connection(("127.0.0.1", port), 5).close()
        return True
    except ConnectionRefusedError:
        return False


def removed(database):
    os.remove(database)


def replaced(database):
    shutil.copyfile(database, database + ".copy")
    os.replace(database + ".copy", database)


def without_its_log(database):
    os.remove(database + "-wal")


def gone_files(program, folder):
    """The files of a busy server's database go: it says so, answers 500 and ends with status 1."""
    told = []
    for way in (removed, replaced, without_its_log):
        inner = os.path.join(folder, way.__name__)
        os.mkdir(inner)
        with administered(program, inner, WRITERS) as server:
            kept, seconds, loads = gone(server, way)
        found = statuses(loads)
        told.append(f"{way.__name__}: {found.count(500)} of {len(found)} answered 500, the end after {seconds:.1f} s")
        if way is removed:
            expect("the database is there again", os.path.exists(server.database), False)
        elif way is replaced:
            expect("the database that took the place", read(server.database), kept)
    return "; ".join(told)


def gone(server, way):
    """What is in the place of the database then, for how many seconds the server goes on, and its clients."""
    admin = server.admin()
    with loaded(server, [FiveHundreds(source) for source in (*new_changes(), Searches("reader"))]) as loads:
        time.sleep(BUSY)
        way(server.database)
        begun = time.monotonic()
        kept = read(server.database) if way is replaced else b""
        reply = soon("503 of /health", lambda: unhealthy(admin), 10)
        expect("GET /health", reply.body, GONE.encode() + b"\n")
        expect("exit status", server.ends(10), 1)
        seconds = time.monotonic() - begun
    server.expect_logged(f"{GONE}: nothing is committed any more, and the server ends")
    expect("the last line of the log", server.log()[-1], f"scimd: {GONE}")
    for load in loads:
        found = [done.status == 500 for done in load.done]
        if True not in found or found != sorted(found) or load.done[found.index(True)].ended < begun:
            raise RuntimeError(f"{found.count(True)} of {len(found)} requests were answered 500, or others after them")
    return kept, seconds, loads


def unhealthy(admin):
    """The reply of /health if it isn't 200."""
    reply = admin.ask("GET", "/health")
    return reply if reply.status == 503 else None


class FiveHundreds:
    """Requests that may be answered 500."""

    def __init__(self, source):
        self.source, self.message = source, source.message

    def answered(self, status, body):
        if status != 500:
            self.source.answered(status, body)


def signals(program, folder):
    """SIGTERM and SIGHUP end a busy server at once. What was answered is there; the audit log lacks at most the lines of
    the last round, which has one request of each client."""
    write_all_files(folder, WRITERS)
    all_changes, first = new_changes(), 1
    for number in (signal.SIGTERM, signal.SIGHUP):
        with AdminServer(program, folder) as server:
            with loaded(server, [*all_changes, Searches("reader")]):
                time.sleep(BUSY)
                server.process.send_signal(number)
                expect("exit status after a signal", server.ends(5), -number)
        first += check_changes(program, server, all_changes, first)
    with AdminServer(program, folder) as server:
        somebody(server)
        server.stop()
    rows = command(program, "audit", "--db", server.database, *words_of({})).splitlines()
    logged = read(server.audit_log).splitlines()
    known = set(logged)
    if logged != [row for row in rows if row in known] or len(rows) - len(logged) > 2 * (len(WRITERS) + 1):
        raise RuntimeError(f"the audit log has {len(logged)} lines for {len(rows)} rows")
    return f"{len(rows)} rows, of which the audit log lacks {len(rows) - len(logged)}"
