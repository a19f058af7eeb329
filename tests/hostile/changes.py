"""A client that creates, changes, reads and deletes users at random, and what a store must hold after its requests."""
import json
import random
import subprocess
from collections import namedtuple

from server import PATCH_OP, USER, request

MOST_USERS = 30  # of a client, so that a store stays small
Step = namedtuple("Step", "op id name title")  # `op` as the audit names it; the id is None before a create


class Changes:
    """The requests of one client, one after another; all its users have names that begin with its own."""

    def __init__(self, client, seed):
        self.client, self.random = client, random.Random(seed)
        self.users, self.rows = {}, []  # what was answered: users by id, and rows of the audit since the last check
        self.count, self.step = 0, None  # the step is under way
        self.first_refused = None  # the first step that was answered 500

    def message(self):
        """The next request, which is under way from now on."""
        self.count += 1
        title = f"title {self.count} " + "x" * self.random.choice([0, 10, 500, 5_000])
        kind = self.random.choice(["POST", "PATCH", "PATCH", "PUT", "GET", "DELETE"])
        if not self.users:
            kind = "POST"
        elif len(self.users) > MOST_USERS:
            kind = "DELETE"
        if kind == "POST":
            self.step = Step("create", None, f"{self.client}-{self.count}", title)
            return request("POST", "/Users", self.client, self.body())
        user = self.random.choice(list(self.users))
        name, before = self.users[user]
        op = {"GET": "read", "DELETE": "delete"}.get(kind, "modify")
        self.step = Step(op, user, name, title if op == "modify" else before)
        return request(kind, f"/Users/{user}", self.client, self.patch() if kind == "PATCH" else
                       self.body() if kind == "PUT" else None)

    def body(self):
        return {"schemas": [USER], "userName": self.step.name, "title": self.step.title}

    def patch(self):
        return {"schemas": [PATCH_OP], "Operations": [{"op": "replace", "path": "title", "value": self.step.title}]}

    def answered(self, status, body):
        """Notes the reply to the request under way. A 500 says that nothing was done, and leaves no row."""
        if status == 500:
            self.first_refused = self.first_refused or self.step
            self.step = None
        elif status not in (200, 201, 204):
            raise RuntimeError(f"{self.client}: status {status}: {body[:300]!r}")
        else:
            step = self.step if self.step.id else self.step._replace(id=json.loads(body)["id"])
            self.apply(step)

    def apply(self, step):
        self.rows.append((step.op, step.id))
        if step.op == "delete":
            del self.users[step.id]
        else:
            self.users[step.id] = (step.name, step.title)
        self.step = None

    def ask(self, client):
        """Sends the next request and notes its reply; the status."""
        status, body = client.ask(self.message())
        self.answered(status, body)
        return status

    def fault(self, users, rows):
        """What is wrong with a store, or None: these users, and the rows behind the last check. The request under way
        may be done, with its row, or not; afterwards it's known."""
        mine = {user: it for user, it in users.items() if it[0].startswith(self.client + "-")}
        found = [row for client, *row in rows if client == self.client]
        if self.step is not None and len(found) == len(self.rows) + 1:
            made = next((user for user, it in mine.items() if it[0] == self.step.name), None)
            self.apply(self.step if self.step.id else self.step._replace(id=made))
        expected = [list(row) for row in self.rows]
        self.rows, self.step = [], None
        if found != expected:
            return f"{self.client}: rows {expected[-3:]} expected, found {found[-3:]}"
        if mine != self.users:
            wrong = [user for user in {**mine, **self.users} if mine.get(user) != self.users.get(user)]
            return f"{self.client}: users {wrong[:3]} aren't as they were acknowledged"
        return None


def exported(program, database):
    """The users of a database: name and title by id."""
    done = subprocess.run([program, "export", "--db", database], stdout=subprocess.PIPE, stderr=subprocess.PIPE,
                          timeout=300, check=False)
    if done.returncode:
        raise RuntimeError(f"export: {done.stderr.decode(errors='replace').strip()}")
    return {it["id"]: (it["userName"], it.get("title")) for it in json.loads(done.stdout) if "userName" in it}


def audited(program, database, first):
    """The rows from a number on: client, operation and id. Their numbers have no gap."""
    done = subprocess.run([program, "audit", "--db", database, "--from", str(first), "--count", "1000000000"],
                          stdout=subprocess.PIPE, stderr=subprocess.PIPE, timeout=300, check=False)
    if done.returncode:
        raise RuntimeError(f"audit: {done.stderr.decode(errors='replace').strip()}")
    rows = [line.split(" ") for line in done.stdout.decode().splitlines()]
    if [int(row[0]) for row in rows] != list(range(first, first + len(rows))):
        raise RuntimeError("audit: numbers have a gap")
    return [(row[2], row[3], row[5]) for row in rows]
