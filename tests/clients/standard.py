"""The examples of RFC 7644, sections 3.3 to 3.14 and 4. Each check begins with its section."""
from checks import (ENTERPRISE, FILTER_GRAMMAR, GROUP, NOBODY, PATCH_OP, SEARCH, USER, because, headed, lacks, shows,
                    total, unlike)
from service import op, patching, started

SCHEMAS_FILTER = "Paths and filters: `schemas` is no attribute, and a name that the type doesn't have has no value"
NO_ETAGS = "Where a client may expect more: ETags aren't supported, and the header isn't read"
BABS = "2819c223-7f76-453a-919d-413861904646"
JAMES = "08e1d05d-121c-4561-8b96-473d93df9210"
BJENSEN = {"schemas": [USER], "userName": "bjensen", "externalId": "bjensen", "name": {
    "formatted": "Ms. Barbara J Jensen III", "familyName": "Jensen", "givenName": "Barbara"}}
JANE = {"schemas": [USER, ENTERPRISE], "userName": "Jane", "title": "Tour Guide", "userType": "Employee",
        "active": True, "name": {"familyName": "O'Malley"}, ENTERPRISE: {"department": "Tours"},
        "emails": [{"type": "work", "value": "jane@example.com"}, {"type": "home", "value": "jane@example.org"}]}
IVAN = {"schemas": [USER], "userName": "ivan", "userType": "Intern", "active": False,
        "emails": [{"type": "work", "value": "ivan@other.net"}], "ims": [{"type": "xmpp", "value": "ivan@foo.com"}]}
EXAMPLES = '(emails co "example.com" or emails.value co "example.org")'
WORK = 'emails[type eq "work" and value co "@example.com"]'
FILTERS = [  # a filter, and the names of those for whom it is true, in order
    ('userName eq "bjensen"', "bjensen"), ('name.familyName co "O\'Malley"', "Jane"), ('userName sw "J"', "Jane"),
    (f'{USER}:userName sw "J"', "Jane"), ("title pr", "Jane"),
    ('meta.lastModified gt "2011-05-13T04:42:34Z"', "bjensen ivan Jane"),
    ('meta.lastModified ge "2011-05-13T04:42:34Z"', "bjensen ivan Jane"),
    ('meta.lastModified lt "2011-05-13T04:42:34Z"', ""), ('meta.lastModified le "2011-05-13T04:42:34Z"', ""),
    ('title pr and userType eq "Employee"', "Jane"), ('title pr or userType eq "Intern"', "ivan Jane"),
    (f'userType eq "Employee" and {EXAMPLES}', "Jane"), (f'userType ne "Employee" and not {EXAMPLES}', "bjensen ivan"),
    ('userType eq "Employee" and (emails.type eq "work")', "Jane"), (f'userType eq "Employee" and {WORK}', "Jane"),
    (f'{WORK} or ims[type eq "xmpp" and value co "@foo.com"]', "ivan Jane"), ("id pr", "bjensen ivan Jane"),
    ('meta.resourceType eq "User"', "bjensen ivan Jane"), ("emails pr", "ivan Jane"), ("not (emails pr)", "bjensen"),
    ("name pr", "bjensen Jane"), ('userName EQ "JANE"', "Jane"), (f'id eq "{BABS}"', ""),
    ('addresses.country eq "x"', ""),
    ("active eq true", "Jane"), ("active eq false", "ivan"), ("active ne true", "bjensen ivan"),
    ("active ne false", "bjensen Jane")]
FAULTY = ["emails.type ne true", "userName", "userName eq", 'eq "x"', 'userName eq "x', "userName eq x",
          '(userName eq "x"', 'userName eq "x")', 'userName zz "x"', 'userName eq "x" and', 'emails[type eq "work"',
          "userName eq 'bjensen'"]

ENDPOINTS = [
    ("3.7 Bulk", "POST", "/Bulk", 501),
    ("3.8 a suffix .scim", "GET", f"/Users/{NOBODY}.scim", 404),
    ("3.11 GET of Me", "GET", "/Me", 501),
    ("3.11 POST to Me", "POST", "/Me", 501),
    ("3.11 PATCH of Me", "PATCH", "/Me", 501),
    ("3.12 an unknown endpoint", "GET", "/People", 404),
    ("3.13 a version in the path", "GET", "/v2/Users", 404),
    ("OPTIONS", "OPTIONS", "/Users", 405),
    ("4 an unknown schema", "GET", "/Schemas/urn:x:y", 404),
    ("4 POST to schemas", "POST", "/Schemas", 405),
    ("4 the server's configuration", "GET", "/ServiceProviderConfig", 200),
    ("4 the type User", "GET", "/ResourceTypes/User", 200),
    ("4 the type Group", "GET", "/ResourceTypes/Group", 200),
    ("4 the schema of users", "GET", f"/Schemas/{USER}", 200),
    ("4 the schema of groups", "GET", f"/Schemas/{GROUP}", 200),
    ("4 the extension", "GET", f"/Schemas/{ENTERPRISE}", 200),
]


def run(suite):
    with started(suite) as server:
        client = server.connector()
        user = creates(suite, client)
        filters(suite, client)
        pages(suite, client)
        replaces(suite, client, user)
        group = additions(suite, client, user)
        removals(suite, client, group, user)
        replacements(suite, client, group, user)
        faults(suite, client, user)
        shown(suite, client, user)
        deletions(suite, client, user)
        endpoints(suite, client)
        conditions(suite, client)
        texts(suite, client)


def creates(suite, client):
    user = suite.reply("3.3 create", client.post("/Users", BJENSEN), 201, shows("userName", "bjensen"),
                       shows("name/formatted", "Ms. Barbara J Jensen III"), shows("meta/resourceType", "User")).id
    suite.reply("3.3 create of the same", client.post("/Users", BJENSEN), 409, because("uniqueness"))
    suite.reply("3.3 create with an unknown schema alone", client.post("/Users", {**IVAN, "schemas": ["urn:x:y"]}), 201,
                shows("schemas", [USER]))
    client.post("/Users", JANE)
    suite.reply("3.4.1 read", client.get(f"/Users/{user}"), 200, shows("id", user), shows("schemas", [USER]))
    suite.reply("3.12 error message", client.get(f"/Users/{BABS}"), 404, shows("detail", "Resource not found."))
    return user


def filters(suite, client):
    for text, names in FILTERS:
        reply = client.find("/Users", text, attributes="userName", sortBy="userName")
        suite.reply(f"3.4.2.2 {text}", reply, 200, total(len(names.split())), named(*names.split()))
    for text in FAULTY:
        suite.reply(f"3.4.2.2 faulty: {text}", client.find("/Users", text), 400, because("invalidFilter"))
    suite.reply("3.4.2.2 schemas eq a URN", client.find("/Users", f'schemas eq "{ENTERPRISE}"'), 200, total(0),
                choice=SCHEMAS_FILTER)
    suite.reply("3.4.2.2 a name behind brackets", client.find("/Users", 'emails[type eq "work"].value sw "jane"'), 400,
                because("invalidFilter"), choice=FILTER_GRAMMAR)


def named(*names):
    """A condition: a page of users with these names, in this order."""
    return lambda reply: unlike("names", tuple(one.get("userName") for one in reply.resources), names)


def pages(suite, client):
    suite.reply("3.4.2 GET /Users?attributes=userName", client.get("/Users", attributes="userName"), 200, total(3),
                lacks("Resources/0/meta", "Resources/0/name"))
    suite.reply("3.4.2.1 query of the root", client.find("/", "id pr"), 501)
    suite.reply("3.4.2.3 sorted, descending", client.get("/Users", sortBy="userName", sortOrder="descending"), 200,
                total(3), named("Jane", "ivan", "bjensen"))
    for name, start, count, due in [("the first page", 1, 2, 2), ("the second page", 3, 2, 1),
                                    ("negative numbers", -5, -1, 0)]:
        suite.reply(f"3.4.2.4 {name}", client.get("/Users", startIndex=start, count=count), 200, total(3),
                    shows("startIndex", max(start, 1)), shows("itemsPerPage", due))
    body = {"schemas": [SEARCH], "attributes": ["title", "userName"], "filter": 'title sw "tour"', "startIndex": 1,
            "count": 10}
    suite.reply("3.4.3 search by POST", client.post("/Users/.search", body), 200, total(1),
                shows("Resources/0/title", "Tour Guide"), lacks("Resources/0/meta"))
    suite.reply("3.4.3 search of the root by POST", client.post("/.search", body), 501)


def replaces(suite, client, user):
    path = f"/Users/{user}"
    body = {**BJENSEN, "roles": [], "emails": [{"value": "bjensen@example.com"}, {"value": "babs@jensen.org"}]}
    suite.reply("3.5.1 PUT", client.put(path, body), 200, shows("emails/1/value", "babs@jensen.org"), lacks("roles"))
    suite.reply("3.5.1 PUT without userName", client.put(path, {"schemas": [USER]}), 400, because("invalidValue"))
    suite.reply("3.5.1 PUT of a name that is taken", client.put(path, {**body, "userName": "JANE"}), 409,
                because("uniqueness"))
    suite.reply("3.5.1 PUT with another id in the body", client.put(path, {**body, "id": BABS}), 200, shows("id", user))


def member(value, display):
    return {"display": display, "$ref": f"https://example.com/v2/Users/{value}", "value": value}


def additions(suite, client, user):
    group = client.post("/Groups", {"schemas": [GROUP], "displayName": "Tour Guides"}).id
    babs, james = member(BABS, "Babs Jensen"), member(JAMES, "James Smith")
    suite.reply("3.5.2.1 add of a member", client.patch(f"/Groups/{group}", op("add", "members", [babs])), 200,
                shows("members", [babs]))
    suite.reply("3.5.2.1 add of another", client.patch(f"/Groups/{group}", op("add", "members", [james])), 200,
                shows("members", [babs, james]))
    value = {"emails": [{"value": "babs@jensen.org", "type": "home"}], "nickname": "Babs"}
    suite.reply("3.5.2.1 add without a path", client.patch(f"/Users/{user}", {"op": "add", "value": value}), 200,
                shows("nickName", "Babs"), shows("emails/2", {"value": "babs@jensen.org", "type": "home"}))
    return group


def removals(suite, client, group, user):
    path, babs, james = f"/Groups/{group}", member(BABS, "Babs Jensen"), member(JAMES, "James Smith")
    patched = patching(suite, client, path)
    gone = op("remove", f'members[value eq "{BABS}"]')
    patched("3.5.2.2 remove of a member", gone, shows("members", [james]))
    client.patch(path, op("add", "members", [babs]))
    patched("3.5.2.2 remove of all members", op("remove", "members"), lacks("members"))
    client.patch(f"/Users/{user}", op("add", "emails", [{"type": "work", "value": "bjensen@example.com"}]))
    complex_filter = 'emails[type eq "work" and value ew "example.com"]'
    suite.reply("3.5.2.2 remove by two terms", client.patch(f"/Users/{user}", op("remove", complex_filter)), 200,
                lacks("emails/3"), shows("emails/2/type", "home"))
    client.patch(path, op("add", "members", [babs]))
    patched("3.5.2.2 remove and add", [gone, op("add", "members", [james])], shows("members", [james]))
    for name, operation, keyword in [("without a path", {"op": "remove"}, "noTarget"),
                                     ("of what is required", op("remove", "userName"), "mutability"),
                                     ("of what is readOnly", op("remove", "id"), "mutability")]:
        suite.reply(f"3.5.2.2 remove {name}", client.patch(f"/Users/{user}", operation), 400, because(keyword))


def replacements(suite, client, group, user):
    both = [member(BABS, "Babs Jensen"), member(JAMES, "James Smith")]
    suite.reply("3.5.2.3 replace of members", client.patch(f"/Groups/{group}", op("replace", "members", both)), 200,
                shows("members", both))
    path, home = f"/Users/{user}", {"type": "work", "streetAddress": "100 Universal City Plaza", "country": "USA"}
    patched = patching(suite, client, path)
    client.patch(path, op("add", "addresses", [home]))
    moved = {**home, "streetAddress": "911 Universal City Plaza", "primary": True}
    patched("3.5.2.3 replace by brackets", op("replace", 'addresses[type eq "work"]', moved),
            shows("addresses", [moved]))
    street = op("replace", 'addresses[type eq "work"].streetAddress', "1010 Broadway Ave")
    patched("3.5.2.3 replace of a sub-attribute", street,
            shows("addresses", [{**moved, "streetAddress": "1010 Broadway Ave"}]))
    emails = [{"value": "bjensen@example.com", "type": "work", "primary": True},
              {"value": "babs@jensen.org", "type": "home"}]
    patched("3.5.2.3 replace without a path", {"op": "replace", "value": {"emails": emails, "nickname": "Barb"}},
            shows("emails", emails), shows("nickName", "Barb"))


def faults(suite, client, user):
    path = f"/Users/{user}"
    patched = patching(suite, client, path)
    for name, operation, keyword in [
            ("a path of no attribute", op("add", "nothing", "x"), "invalidPath"),
            ("a path that is none", op("add", "emails[type eq", "x"), "invalidPath"),
            ("an unknown operation", op("move", "title", "x"), "invalidSyntax"),
            ("a value of another type", op("replace", "active", "perhaps"), "invalidValue")]:
        patched(f"3.5.2 {name}", operation, because(keyword), status=400)
    both = op("add", "title", "Chief"), op("replace", 'roles[value eq "x"].value', "y")
    patched("3.5.2 a faulty operation behind a valid one", [*both], because("noTarget"), status=400)
    suite.reply("3.5.2 nothing of it is done", client.get(path), 200, lacks("title"))


def shown(suite, client, user):
    path = f"/Users/{user}"

    def keys(name, reply, status, *due):
        suite.reply(f"3.9 {name}", reply, status, lambda reply: unlike("keys", set(reply.json),
                                                                       {"id", "schemas", *due}))

    keys("attributes of a PATCH", client.patch(path, op("add", "title", "x"), attributes="userName"), 200, "userName")
    keys("attributes of a GET", client.get(path, attributes="userName,title"), 200, "userName", "title")
    keys("attributes with a URN (3.10)", client.get(path, attributes=f"{USER}:userName"), 200, "userName")
    keys("attributes of a POST", client.post("/Users", {"userName": "shown"}, attributes="userName"), 201, "userName")
    suite.reply("3.9 id is always shown", client.get(path, excludedAttributes="id,name"), 200, shows("id", user),
                lacks("name"))
    suite.reply("3.9 both lists", client.get(path, attributes="title", excludedAttributes="name"), 400,
                because("invalidValue"))


def deletions(suite, client, user):
    suite.reply("3.6 delete", client.delete(f"/Users/{user}"), 204)
    suite.reply("3.6 read of what was deleted", client.get(f"/Users/{user}"), 404)
    suite.reply("3.6 delete of all", client.delete("/Users"), 405, headed("Allow", "GET, POST"))


def endpoints(suite, client):
    for name, method, target, status in ENDPOINTS:
        suite.reply(name, client.ask(method, target), status)
    suite.equal("HEAD is refused", client.ask("HEAD", "/Users").status, 405)
    suite.reply("the reply behind that of a HEAD", client.get("/Groups", count=0), 200, total(1))


def conditions(suite, client):
    user = client.post("/Users", {"userName": "tagged"}).id
    suite.reply("3.8 Accept: text/html", client.ask("GET", f"/Users/{user}", Accept="text/html"), 200)
    suite.reply("3.14 If-None-Match", client.ask("GET", f"/Users/{user}", **{"If-None-Match": 'W/"1"'}), 200)
    body = {"schemas": [PATCH_OP], "Operations": [op("add", "title", "x")]}
    suite.reply("3.14 If-Match of a tag that nobody gave", client.ask("PATCH", f"/Users/{user}", body,
                                                                      **{"If-Match": 'W/"1"'}), 200,
                shows("title", "x"), choice=NO_ETAGS)


def texts(suite, client):
    for name, text in [("letters beyond ASCII", "Größe 東京 😀"), ("quotes and backslashes", 'a"b\\c')]:
        found = suite.reply(name, client.post("/Users", {"userName": name, "title": text}), 201, shows("title", text))
        quoted = text.replace("\\", "\\\\").replace('"', '\\"')
        suite.reply(f"{name} in a filter", client.find("/Users", f'title eq "{quoted}"'), 200, total(1),
                    shows("Resources/0/id", found.id))
