"""What an administrator meets: why clients are denied, the audit, tokens and policies that change, stops, signals."""
import json
import os
import re
import signal
import socket
import time

from checks import ENTERPRISE, NOBODY, lacks, shows, total
from service import SECONDS, AdminServer, Connector, digest_line, op, policy, rule, started, write

SECONDS_TO_LOG = 5
CLIENTS = ["hr", "helpdesk", "mail", "okta"]
RULES = [
    rule(["hr"]),
    rule(["helpdesk"], ["modify"], ["title"], ["User"]),
    rule(["helpdesk"], ["read"], ["id", "phoneNumbers.type"], ["User"]),
    rule(["mail"], ["read"], ["userName", "emails"], ["User"]),
    rule(["okta"], ["read", "modify"], ["id", "userName", "department"], ["User"]),
    rule(["okta"], ["read"], ["title"], ["User"], target='department eq "Sales"'),
]
DETAILS = "Where a client may expect more: `detail` names neither the attribute nor the rule"
NO_WORD = "Lines of the audit: a row for F9 to F12 has no leaf"
NO_FILTER = "Lines of the audit: the row of a search has neither the filter nor what was shown"
ONE_DECISION = "Output of `check` and `explain`: `--path` names the rules of one decision and nothing else"
ONE_PROGRAM = "docs/OPERATING.md, A systemd unit: only one program at a time can use a database"
SIGNALS = "docs/OPERATING.md, Stop: signals aren't caught"
ONE_LINE = "docs/OPERATING.md, The log: wrong tokens are counted, in at most a line a minute and address"
ROWS = [  # what `denied` leaves in the audit, without number and moment
    ("a create", "hr create User ANN Allow 1 - -", None),
    ("modify without read", "helpdesk modify User ANN Deny 0 title F14", None),
    ("a hidden user", "mail read User ANN Hidden 0 id F13", None),
    ("a change that would widen access", "okta modify User ANN Deny 6 title F19", None),
    ("a body with a fault", "hr create User - Refused - - F9", NO_WORD),
    ("a user that isn't there", f"mail read User {NOBODY} Absent - - F13", None),
    ("a search", "mail read User - Allow - - -", NO_FILTER),
    ("a search by a hidden attribute", "helpdesk read User - Allow - - -", NO_FILTER),
    ("a read", "helpdesk read User ANN Allow 3 - -", None),
]


def run(suite):
    folder = suite.new_folder("administrator")
    options = "--audit-log", os.path.join(folder, "audit.log")
    with started(suite, folder, CLIENTS, RULES, AdminServer, options) as server:
        ann = denied(suite, server)
        rows = audit(suite, server, ann)
        explanations(suite, server, ann)
        wrong_tokens(suite, server)
        reading(suite, server, ann, rows)
        beside(suite, server, ann)
        reloads(suite, server)
        stop(suite, server)
    signals(suite)


def denied(suite, server):
    """What clients may not do, and what they are told. Returns the id of a user."""
    hr, helpdesk, mail, okta = map(server.connector, CLIENTS)
    ann = hr.post("/Users", {"userName": "ann", "title": "Guide", ENTERPRISE: {"department": "Desk"},
                             "phoneNumbers": [{"type": "work", "value": "1"}]}).id
    path = f"/Users/{ann}"
    suite.reply("modify without read is denied", helpdesk.patch(path, op("replace", "title", "x")), 403,
                shows("detail", "Denied by policy."), choice=DETAILS)
    hidden = suite.reply("read without id finds nothing", mail.get(path), 404, shows("detail", "Resource not found."))
    widened = okta.patch(path, op("replace", f"{ENTERPRISE}:department", "Sales"))
    suite.reply("a change that would widen access", widened, 403, shows("detail", "The change would widen access."))
    suite.reply("a body with a fault", hr.post("/Users", b"{"), 400, shows("detail", "Malformed request body."))
    absent = mail.get(f"/Users/{NOBODY}")
    suite.equal("a hidden user is as one that isn't there", (hidden.status, hidden.body), (absent.status, absent.body))
    suite.reply("read without id lists nobody", mail.find("/Users", 'userName eq "ann"'), 200, total(0))
    suite.reply("a hidden attribute finds nobody", helpdesk.find("/Users", 'title eq "Guide"'), 200, total(0))
    suite.reply("a client sees what it may read", helpdesk.get(path), 200, shows("phoneNumbers", [{"type": "work"}]),
                lacks("userName", "title", "meta"))
    return ann


def audit(suite, server, ann):
    """The rows, by the administrator's port. Returns their text."""
    text = server.admin("GET", "/audit").body.decode()
    found = [line.split(" ", 2)[2].replace(ann, "ANN") for line in text.splitlines()]
    for number, (name, due, choice) in enumerate(ROWS):
        suite.equal(f"audit: {name}", (found + [None] * len(ROWS))[number], due, choice)
    for query, due in [({"last": 1}, [9]), ({"client": "mail"}, [3, 6, 7]), ({"refusal": "F14"}, [2]),
                       ({"count": 2}, [1, 2]), ({"since": "2999-01-01T00:00:00Z"}, []),
                       ({"client": "mail", "last": 1}, [7])]:
        lines = server.admin("GET", "/audit", **query).body.decode().splitlines()
        suite.equal(f"audit: {query}", [int(line.split()[0]) for line in lines], due)
    one = json.loads(server.admin("GET", "/audit", format="json", last=1).body)
    suite.equal("audit: as JSON", (one["number"], one["client"], one["refusal"]), (9, "helpdesk", None))
    return text


def explanations(suite, server, ann):
    """Why something was denied, by the administrator's port."""
    def explained(client, action, **more):
        return server.admin("GET", "/explain", client=client, op=action, kind="User", id=ann, **more)

    suite.equal("explain: one leaf", explained("helpdesk", "modify", path="title").body,
                b"rule 1: client\nrule 2: allow\n", choice=ONE_DECISION)
    for client, action, lines in [
            ("helpdesk", "modify", ["resource seen: read id rule 3 allow",
                                    "title rule 2 allow, but not written: read title rule 0 deny"]),
            ("mail", "read", ["resource not seen: read id rule 0 deny",
                              "userName rule 4 allow, but not read: read id rule 0 deny"]),
            ("okta", "read", ["resource seen: read id rule 5 allow", "title rule 0 deny"])]:
        found = explained(client, action).body.decode().splitlines()
        suite.equal(f"explain: what {client} may {action}", [line for line in lines if line in found], lines)
    leaves = [f"phoneNumbers.{name}:" for name in ("value", "display", "type", "primary")]
    if suite.knows("explanations of a whole attribute"):
        lines = explained("helpdesk", "read", path="phoneNumbers").body.decode().splitlines()
        suite.equal("explain: a whole attribute", [line for line in lines if line.endswith(":")], leaves)
    reply = explained("helpdesk", "read", path="phone")
    suite.equal("explain: a path that is none", (reply.status, reply.body.splitlines()[:1]),
                (400, [b"bad value of parameter: path"]))


def wrong_tokens(suite, server):
    for name in ("guess1", "guess2", None):
        suite.reply(f"a request with the token {name}", Connector(server.port, name).get("/Users"), 401)
    lines = server.admin("GET", "/metrics").body.decode().splitlines()
    suite.equal("wrong tokens are counted", [one for one in lines if one.startswith("scimd_refused_tokens_total")],
                ["scimd_refused_tokens_total 3"])
    line = re.compile(r"scimd: refused tokens: ([123]) from 127\.0\.0\.1 \(\1 in all\)")
    end = time.monotonic() + SECONDS_TO_LOG
    while not any(map(line.fullmatch, server.log())) and time.monotonic() < end:
        time.sleep(0.1)
    found = [told for told in server.log() if "refused tokens" in told]
    suite.equal("wrong tokens are logged, in one line", [bool(line.fullmatch(told)) for told in found], [True],
                choice=ONE_LINE)


def reading(suite, server, ann, rows):
    """What can be read while the server runs."""
    suite.equal("GET /health", server.admin("GET", "/health").body, b"ok\n")
    found = json.loads(server.admin("GET", "/export").body)
    suite.equal("GET /export", [one["id"] for one in found], [ann])
    with open(os.path.join(os.path.dirname(server.log_path), "audit.log"), encoding="ascii") as file:
        suite.equal("the audit log has the rows of the audit", file.read(), rows)
    suite.equal("a client's token isn't an administrator's", Connector(server.admin_port, "hr").get("/export").status,
                401)


def beside(suite, server, ann):
    """What another program says of the database while the server runs."""
    folder = os.path.dirname(server.log_path)
    database, policies = os.path.join(folder, "store.db"), os.path.join(folder, "policy.json")
    question = "--policy", policies, "--client", "hr", "--op", "read", "--kind", "User", "--id", ann
    for name, words in [("audit", ["audit"]), ("export", ["export"]), ("explain", ["explain", *question]),
                        ("serve", ["serve", "--policy", policies, "--tokens", os.path.join(folder, "tokens")])]:
        suite.fault(f"{name} beside the server", [*words, "--db", database], "database: cannot be used",
                    "another program", choice=ONE_PROGRAM)


def reloads(suite, server):
    """Tokens and policies that change while a connection stays open."""
    folder, hr, new = os.path.dirname(server.log_path), server.connector("hr"), server.connector("new")
    suite.reply("a token that isn't in the file yet", new.get("/Users"), 401)
    write(folder, "tokens", "".join(map(digest_line, [*CLIENTS, "new"])))
    write(folder, "policy.json", policy(*RULES, rule(["new"], ["read"], ["id"])))
    reply = server.admin("POST", "/reload")
    suite.equal("POST /reload", (reply.status, reply.body), (200, b"ok, rules: 7, tokens: 5, admin tokens: 1\n"))
    suite.reply("a new token after a reload, on the same connection", new.get("/Users"), 200, total(1))
    write(folder, "policy.json", policy(rule(["new"], ["write"])))
    reply = server.admin("POST", "/reload")
    suite.equal("POST /reload of a faulty policy", (reply.status, reply.body.splitlines()[:1]),
                (409, [b"policy: rule 1: name"]))
    suite.check("the fault is logged",
                None if any("policy: rule 1: name" in line for line in server.log()) else "it isn't")
    suite.reply("the old policy stays in force", hr.get("/Users"), 200, total(1))
    write(folder, "policy.json", policy(*RULES))
    write(folder, "tokens", "".join(map(digest_line, CLIENTS)))
    suite.equal("POST /reload without the token", server.admin("POST", "/reload").status, 200)
    suite.reply("a token that was taken away, on the same connection", new.get("/Users"), 401)


def stop(suite, server):
    """A stop by the port answers what was begun."""
    head = b"POST /Users HTTP/1.1\r\nAuthorization: Bearer token-of-hr\r\nContent-Length: 19\r\n\r\n"
    body = b'{"userName":"late"}'
    with socket.create_connection(("127.0.0.1", server.port), SECONDS) as late:
        late.sendall(head + body[:9])
        server.admin("GET", "/health")  # what was sent before has arrived
        reply = server.admin("POST", "/stop")
        suite.equal("POST /stop", (reply.status, reply.body), (200, b"stopping\n"))
        late.sendall(body[9:])
        suite.equal("a request whose end comes after the stop", late.recv(12), b"HTTP/1.1 201")
    suite.equal("exit status after a stop", server.process.wait(SECONDS), 0)
    suite.equal("the last line of the log", server.log()[-1], "scimd: stopped by the administrator")


def signals(suite):
    """Signals end a server at once, and lose nothing that was answered."""
    signal.signal(signal.SIGHUP, signal.SIG_DFL)  # under nohup it is ignored, by the server too
    folder = suite.new_folder("signals")
    server = started(suite, folder)
    for number, choice in [(signal.SIGHUP, SIGNALS), (signal.SIGTERM, SIGNALS), (signal.SIGKILL, None)]:
        with server:
            suite.reply(f"a create before {number.name}", server.connector().post("/Users", {"userName": number.name}),
                        201)
            server.process.send_signal(number)
            suite.equal(f"exit status after {number.name}", server.process.wait(SECONDS), -number, choice)
    with server:
        names = [one["userName"] for one in server.connector().get("/Users", sortBy="userName").resources]
        suite.equal("what was answered before the signals is there", names, ["SIGHUP", "SIGKILL", "SIGTERM"])
