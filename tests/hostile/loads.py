"""Clients that keep a server busy, each over a connection of its own, and what became of their requests."""
import contextlib
import random
import statistics
import threading
import time
from collections import namedtuple

from server import SECONDS, read_reply, request, search

SEARCH_REQUEST = "urn:ietf:params:scim:api:messages:2.0:SearchRequest"
NOBODY = "00000000-0000-4000-8000-0000000000ff"
Done = namedtuple("Done", "begun sent ended status")  # when it was begun, sent whole and answered, and the status


class Load(threading.Thread):
    """A connection whose client sends one request after another, until it's told to end or its connection is closed."""

    def __init__(self, server, source):
        super().__init__(daemon=True)
        self.source, self.client, self.ending = source, server.connect(SECONDS), threading.Event()
        self.done, self.begun, self.sent = [], None, None  # when the request under way was begun, and sent whole
        self.is_closed, self.fault = False, None

    def run(self):
        try:
            while not self.ending.is_set():
                self.ask(self.source.message())
        except TimeoutError:
            self.fault = RuntimeError(f"no reply within {SECONDS} s")
        except OSError:
            self.is_closed = True
        except RuntimeError as fault:
            self.fault = fault

    def ask(self, message):
        self.begun, self.sent = time.monotonic(), None
        self.client.socket.sendall(message)
        self.sent = time.monotonic()
        status, body = read_reply(self.client.file)
        self.done.append(Done(self.begun, self.sent, time.monotonic(), status))
        self.begun = None
        self.source.answered(status, body)


@contextlib.contextmanager
def loaded(server, sources):
    """Loads of these sources until the end of the `with`, where the first fault of one is raised."""
    loads = [Load(server, source) for source in sources]
    for load in loads:
        load.start()
    try:
        yield loads
    finally:
        for load in loads:
            load.ending.set()
        for load in loads:
            load.join()
            load.client.close()
    for load in loads:
        if load.fault:
            raise load.fault


def unanswered(loads, before):
    """How many requests that were sent whole before a moment have no reply."""
    return sum(load.begun is not None and load.sent is not None and load.sent < before for load in loads)


def statuses(loads):
    return [done.status for load in loads for done in load.done]


def waits_ms(loads):
    """For how many milliseconds a request waits for its reply: in the middle, and at most."""
    waits = [(done.ended - done.begun) * 1_000 for load in loads for done in load.done]
    return statistics.median(waits), max(waits)


class Reads:
    """Reads of a user by a client, each answered with one of these statuses."""

    def __init__(self, client, user, *expected):
        self.client, self.user, self.expected = client, user, expected or (200,)

    def message(self):
        return request("GET", f"/Users/{self.user}", self.client)

    def answered(self, status, body):
        if status not in self.expected:
            raise RuntimeError(f"{self.client}: status {status} for a GET: {body[:300]!r}")


class Searches(Reads):
    """Searches of users by a client, by GET and by POST."""

    FILTERS = ['title co "title 1"', 'userName sw "writer0"', "not (title pr)", 'meta.resourceType eq "User"']

    def __init__(self, client, *expected):
        super().__init__(client, None, *expected)
        self.random = random.Random(client)

    def message(self):
        text = self.random.choice(self.FILTERS)
        if self.random.random() < 0.5:
            return search("Users", text, self.client, "&count=5&sortBy=title")
        return request("POST", "/Users/.search", self.client,
                       {"schemas": [SEARCH_REQUEST], "filter": text, "count": 5, "sortBy": "userName"})


class Refusals:
    """Requests that a client without rights is refused, one after another; each leaves another refusal in the audit,
    but for one with an unknown token, which leaves none."""

    def __init__(self, client, user):
        self.user, self.number, self.unknown_tokens = user, 0, 0
        self.requests = [(request("DELETE", f"/Users/{user}", client), 403),
                         (request("GET", f"/Users/{NOBODY}", client), 404),
                         (search("Users", "title eq", client), 400),
                         (request("PATCH", f"/Users/{user}", client, {"Operations": []}), 400),
                         (request("GET", f"/Users/{user}", "nobody"), 401)]

    def message(self):
        self.number += 1
        return self.requests[self.number % len(self.requests)][0]

    def answered(self, status, body):
        if status != self.requests[self.number % len(self.requests)][1]:
            raise RuntimeError(f"status {status} for refusal {self.number % len(self.requests)}: {body[:300]!r}")
        self.unknown_tokens += status == 401
