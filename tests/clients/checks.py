"""Checks of replies and of commands, each of them as expected or not, and whether a client would wish for more."""
import json
import os
import re
from collections import Counter
from dataclasses import dataclass, field

CORE = "urn:ietf:params:scim:schemas:core:2.0"
USER, GROUP = f"{CORE}:User", f"{CORE}:Group"
ENTERPRISE = "urn:ietf:params:scim:schemas:extension:enterprise:2.0:User"
MESSAGES = "urn:ietf:params:scim:api:messages:2.0"
PATCH_OP, LIST, SEARCH, ERROR = (f"{MESSAGES}:{name}" for name in ("PatchOp", "ListResponse", "SearchRequest", "Error"))
NOBODY = "00000000-0000-4000-8000-0000000000ff"  # an id that no resource has

# The choices of docs/PROFILE.md by which a wish isn't met.
EMPTY_PAGE = "Sorting and pages: an empty page has no `Resources`"
FILTER_GRAMMAR = "Paths and filters: nothing stands behind the bracket of a filter"
ONE_VALUE = "Where a client may expect more: a list isn't read as one value"
MATCHES = "The message of a PATCH: the value for `attribute[filter]` is one value, not a list"


@dataclass
class Reply:
    """A reply to one request."""
    status: int
    headers: dict  # by their names in lower case
    body: bytes

    @property
    def json(self):
        """The body, or None if it isn't JSON."""
        try:
            return json.loads(self.body)
        except ValueError:
            return None

    def at(self, path):
        """The value at a path, as `emails/0/value`, or None."""
        value = self.json
        for name in path.split("/"):
            if isinstance(value, list) and name.isdigit() and int(name) < len(value):
                value = value[int(name)]
            elif isinstance(value, dict):
                value = value.get(name)
            else:
                return None
        return value

    @property
    def id(self):
        return self.at("id") or NOBODY

    @property
    def resources(self):
        return self.at("Resources") or []


def shows(path, wanted):
    """A condition: the body has this value at a path."""
    return lambda reply: unlike(path, reply.at(path), wanted)


def lacks(*paths):
    """A condition: the body has nothing at these paths."""
    return lambda reply: next(filter(None, (unlike(path, reply.at(path), None) for path in paths)), None)


def total(count):
    """A condition: a list reply that counts so many matches."""
    return lambda reply: unlike("schemas", reply.at("schemas"), [LIST]) or shows("totalResults", count)(reply)


def because(keyword):
    """A condition: the error message has this `scimType`."""
    return shows("scimType", keyword)


def headed(name, wanted):
    """A condition: the reply has this header."""
    return lambda reply: unlike(name, reply.headers.get(name.lower()), wanted)


def unlike(what, found, wanted):
    """What is told if two values differ, else None."""
    return None if found == wanted else f"{what}: expected {str(wanted)[:200]!r}, found {str(found)[:300]!r}"


def form(reply):
    """What is wrong with the form of a reply, whatever it answers (RFC 7644 sections 3.4.2, 3.8 and 3.12)."""
    if not reply.body:
        return None if reply.status in (201, 204) else "no body"
    if reply.headers.get("content-type") != "application/scim+json":
        return f"Content-Type {reply.headers.get('content-type')}"
    if not isinstance(reply.json, dict) or not reply.at("schemas"):
        return f"no object with `schemas`: {reply.body[:100]!r}"
    if reply.status >= 400:
        return error_form(reply)
    if reply.at("schemas") == [LIST]:
        return list_form(reply)
    location = reply.headers.get("location")
    if reply.status == 201 and (not location or reply.at("meta/location") not in (None, location)):
        return f"Location {location!r} beside meta.location {reply.at('meta/location')!r}"
    return None


def error_form(reply):
    if reply.at("schemas") != [ERROR] or reply.at("status") != str(reply.status) or not reply.at("detail"):
        return f"no error message: {reply.body[:200]!r}"
    return None


def list_form(reply):
    counts = [reply.at(name) for name in ("totalResults", "startIndex", "itemsPerPage")]
    if not all(isinstance(count, int) for count in counts) or counts[2] != len(reply.resources):
        return f"no list: {reply.body[:200]!r}"
    return None


@dataclass
class Suite:
    """The checks of one kind of client. Each line of `told` is a check that isn't as expected."""
    name: str
    program: object
    folder: str
    kept: int = 0
    told: list = field(default_factory=list)
    wishes: list = field(default_factory=list)
    skipped: Counter = field(default_factory=Counter)

    def check(self, name, fault, choice=None):
        """Notes a check, which is as expected if `fault` is empty. A choice of the server is why the client doesn't
        get what it wishes for, though it gets what is expected."""
        if choice is not None:
            self.wishes.append(f"{self.name}: {name}: {choice}")
        if fault:
            self.told.append(f"{self.name}: {name}: {fault}")
        else:
            self.kept += 1

    def reply(self, name, reply, status, *conditions, choice=None):
        """Checks a reply, and returns it."""
        fault = unlike("status", reply.status, status)
        if fault:
            fault += f" {reply.body[:200].decode(errors='replace')}"
        faults = (condition(reply) for condition in (form, *conditions))
        self.check(name, fault or next(filter(None, faults), None), choice)
        return reply

    def equal(self, name, found, wanted, choice=None):
        self.check(name, unlike("value", found, wanted), choice)

    def fault(self, name, words, line, detail=None, status=1, choice=None):
        """Checks how a command fails: with this status and this line, and a second line behind it in which there is
        this pattern. Older programs have no such line."""
        found, _, told = self.program.run(*words)
        lines = told.splitlines() or [""]
        self.equal(name, (found, lines[0]), (status, f"scimd: {line}"), choice)
        if detail is not None and self.knows("second lines of faults"):
            is_there = len(lines) == 2 and lines[1].startswith("  ") and re.search(detail, lines[1])
            self.check(f"{name}: the second line", None if is_there else f"expected {detail!r} in {lines[1:]}")

    def knows(self, what, word="token", *command):
        """Whether the program has what came with a word of its help. If not, a check is skipped."""
        if self.program.has(word, *command):
            return True
        self.skipped[f"{what}: `scimd {' '.join([*command, '--help'])}` has no `{word}`"] += 1
        return False

    def new_folder(self, name):
        path = os.path.join(self.folder, name)
        os.mkdir(path)
        return path

    @property
    def count(self):
        return self.kept + len(self.told)
