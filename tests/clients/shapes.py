"""Unusual shapes that connectors send: empty parameters, repeated ones, texts for numbers, large groups."""
from checks import ENTERPRISE, GROUP, NOBODY, PATCH_OP, USER, because, headed, lacks, shows, total, unlike
from service import op, patching, started

PLUS = "Requests: a query string is read as a form, `+` for a space"
FIRST = "Requests: the first of a name counts"
EMPTY = "Requests: an empty text is a wrong value"
ID_FORM = "Moments, ids and resources: an id is in lower case; no other form is read"
NO_MATCH = "The steps of a PATCH: replace without a match has no target (RFC 7644 section 3.5.2.3)"
ONE_MATCH = "The message of a PATCH: the value for `attribute[filter]` is one value, not a list"
OTHER_TYPE = "Where a client may expect more: a number isn't a text"
SCHEMAS_PATH = "Where a client may expect more: `schemas` is no attribute"
MOST_VALUES = "Limits: a multi-valued attribute has at most 10,000 values"
DETAILS = "Where a client may expect more: `detail` names neither the attribute nor the operation"
MOST = 10_000


def run(suite):
    with started(suite) as server:
        client = server.connector()
        user = client.post("/Users", {"schemas": [USER], "userName": "a+b", "title": "Guide", "externalId": "7"}).id
        queries(suite, client, user)
        texts(suite, client, user)
        changes(suite, client, f"/Users/{user}")
        bodies(suite, client, user)
        methods(suite, client, user)
        members(suite, client, user)
        large_groups(suite, client)


def queries(suite, client, user):
    for name, target, count, choice in [
            ("a plus sign that isn't escaped", "/Users?filter=userName%20eq%20%22a+b%22", 0, PLUS),
            ("a plus sign that is escaped", "/Users?filter=userName%20eq%20%22a%2Bb%22", 1, None),
            ("a filter that is given twice", '/Users?filter=title%20pr&filter=title%20eq%20%22x%22', 1, None),
            ("empty attributes and filter", "/Users?attributes=&excludedAttributes=&filter=", 1, None),
            ("a long filter", "/Users?filter=" + "%20or%20".join(["title%20pr"] * 300), 1, None)]:
        suite.reply(name, client.ask("GET", target), 200, total(count), choice=choice)
    suite.reply("attributes that are given twice", client.ask("GET",
                                                              f"/Users/{user}?attributes=title&attributes=userName"),
                200, shows("title", "Guide"), lacks("userName"), choice=FIRST)
    for name in ("count", "startIndex", "sortOrder"):
        suite.reply(f"an empty {name}", client.ask("GET", f"/Users?{name}="), 400, because("invalidValue"),
                    choice=EMPTY)
    suite.reply("an id in upper case", client.get(f"/Users/{user.upper()}"), 404, choice=ID_FORM)
    for name, target in [("a filter that is escaped twice", "/Users?filter=userName%2520eq%2520%22x%22"),
                         ("an ampersand in a filter", "/Users?filter=userName%20eq%20%22a&b%22")]:
        suite.reply(name, client.ask("GET", target), 400, because("invalidFilter"))


def texts(suite, client, user):
    """The text of an error tells what is wrong, but not where."""
    wrong = client.patch(f"/Users/{user}", op("replace", "title", "x"), op("replace", "active", "perhaps"))
    suite.reply("the text of a 400", wrong, 400, shows("detail", "A value in the request is not valid."),
                choice=DETAILS)


def changes(suite, client, path):
    patched = patching(suite, client, path)
    home = {"type": "home", "value": "1"}
    patched("Replace of a home mail where there is none", op("Replace", 'emails[type eq "home"].value', "1"),
            because("noTarget"), status=400, choice=NO_MATCH)
    patched("Add of a home mail as an object", op("Add", 'emails[type eq "home"]', {"value": "1"}),
            shows("emails", [home]))
    patched("Add of another mail as a list of one", op("Add", 'emails[type eq "other"]', [{"value": "2"}]),
            because("invalidValue"), status=400, choice=ONE_MATCH)
    patched("Replace of a name by an object", op("Replace", "name", {"familyName": "B"}),
            shows("name", {"familyName": "B"}))
    patched("Replace of a name by null", op("Replace", "name", None), lacks("name"))
    patched('Replace of a title by ""', op("Replace", "title", ""), shows("title", ""))
    patched("Replace of a title by null", op("Replace", "title", None), lacks("title"))
    patched("Replace of a text by a number", op("Replace", f"{ENTERPRISE}:employeeNumber", 7), because("invalidValue"),
            status=400, choice=OTHER_TYPE)
    patched("Replace of active by 1", op("Replace", "active", 1), because("invalidValue"), status=400)
    patched("Replace of schemas", op("Replace", "schemas", [USER]), because("invalidPath"), status=400,
            choice=SCHEMAS_PATH)
    patched("Replace of externalId by null", op("Replace", "externalId", None), lacks("externalId"))


def bodies(suite, client, user):
    suite.reply("POST of a number for a text", client.post("/Users", {"userName": "n",
                                                                      ENTERPRISE: {"employeeNumber": 7}}), 400,
                because("invalidValue"), choice=OTHER_TYPE)
    body = {"schemas": [USER, "urn:x:y"], "userName": "a+b", "meta": {"version": "W/1"}, "groups": [{"value": NOBODY}],
            "urn:x:y": {"tag": "x"}}
    suite.reply("PUT with meta, groups and an unknown extension", client.put(f"/Users/{user}", body), 200,
                lacks("groups", "urn:x:y", "meta/version"), shows("schemas", [USER]))
    message = {"schemas": [PATCH_OP], "Operations": op("replace", "title", "x")}
    suite.reply("PATCH of one operation that isn't in a list", client.ask("PATCH", f"/Users/{user}", message), 400,
                because("invalidSyntax"))


def methods(suite, client, user):
    one = f"/Users/{user}"
    for method, target, allowed in [("PATCH", "/Users", "GET, POST"), ("PUT", "/Users", "GET, POST"),
                                    ("POST", one, "GET, PUT, PATCH, DELETE"), ("GET", "/Users/.search", "POST")]:
        name = f"{method} {target.replace(user, 'ID')}"
        suite.reply(name, client.ask(method, target), 405, headed("Allow", allowed))


def members(suite, client, user):
    group = client.post("/Groups", {"schemas": [GROUP], "displayName": "Crew"}).id
    path, only = f"/Groups/{group}", [{"value": user}]
    patched = patching(suite, client, path)
    patched("Add of members as an object", op("Add", "members", {"value": user}), shows("members", only))
    patched("Remove of members by a text", op("Remove", "members", user), lacks("members"))
    patched("Add of members as a text", op("Add", "members", user), shows("members", only))
    patched("Replace of members.value", op("Replace", "members.value", NOBODY), because("mutability"), status=400)
    patched("Add of a member who isn't there", op("Add", "members", [{"value": "nobody"}]),
            shows("members/1/value", "nobody"))
    suite.reply("groups with chosen attributes", client.get("/Groups", attributes="displayName,members.value"), 200,
                lambda reply: unlike("keys", set(reply.at("Resources/0")), {"id", "schemas", "displayName", "members"}))
    client.delete(f"/Users/{user}")
    suite.reply("a user who was deleted stays a member", client.get(path), 200, shows("members/0/value", user))


def large_groups(suite, client):
    """A group of as many members as there may be, and one more."""
    many = [{"value": f"member{number}"} for number in range(MOST)]
    made = client.post("/Groups", {"schemas": [GROUP], "displayName": "Many", "members": many},
                       attributes="displayName")
    suite.reply("POST of a group of 10,000 members", made, 201, shows("displayName", "Many"))
    more = client.patch(f"/Groups/{made.id}", op("add", "members", [{"value": "more"}]))
    suite.reply("Add of one more member", more, 400, because("invalidValue"), shows("detail",
                                                                                    "The result is not valid."),
                choice=MOST_VALUES)
    body = {"schemas": [GROUP], "displayName": "More", "members": [*many, {"value": "more"}]}
    suite.reply("POST of a group of one more member", client.post("/Groups", body), 400, because("invalidValue"),
                choice=MOST_VALUES)
