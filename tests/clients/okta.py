"""What Okta's provisioning sends: imports by pages, whole users by PUT, groups by PATCH."""
from checks import EMPTY_PAGE, GROUP, NOBODY, USER, because, lacks, shows, total
from service import Connector, op, patching, started

DISCOVERY = "Where a client may expect more: `/ServiceProviderConfig` has no `meta`"
NAME = "test.user@okta.local"


def person(name, **more):
    return {"schemas": [USER], "userName": name, "name": {"givenName": "Test", "familyName": "User"}, "active": True,
            "emails": [{"primary": True, "value": name, "type": "work"}], "displayName": "Test User", "locale": "en-US",
            "externalId": f"00u-{name}", "groups": [], **more}


def run(suite):
    with started(suite) as server:
        okta = server.connector()
        before_anything(suite, server, okta)
        user = users(suite, okta)
        changes(suite, okta, f"/Users/{user}", user)
        groups(suite, okta, user)
        faults(suite, okta)
        pages(suite, okta)


def before_anything(suite, server, okta):
    """Questions to a server that has nothing."""
    stranger = Connector(server.port, None)
    suite.reply("GET /ServiceProviderConfig without a token", stranger.get("/ServiceProviderConfig"), 200,
                shows("patch/supported", True), shows("changePassword/supported", False), lacks("meta"),
                choice=DISCOVERY)
    suite.reply("GET /ServiceProviderConfigs, the older name", okta.get("/ServiceProviderConfigs"), 404)
    for name, reply in [("an empty list of users", okta.get("/Users", startIndex=1, count=2)),
                        ("an empty list of groups", okta.get("/Groups", startIndex=1, count=100)),
                        ("a name nobody has", okta.find("/Users", f'userName eq "{NAME}"', startIndex=1, count=100))]:
        suite.reply(name, reply, 200, total(0), lacks("Resources"), choice=EMPTY_PAGE)


def users(suite, okta):
    """Creates a user and finds it. Returns its id."""
    body = person(NAME, password="1mz050nq")
    user = suite.reply("POST of a user with a password", okta.post("/Users", body), 201, shows("userName", NAME),
                       lacks("password", "groups")).id
    suite.reply("POST again", okta.post("/Users", body), 409, because("uniqueness"))
    for name, text in [("by name", NAME), ("by name in capitals", NAME.upper())]:
        suite.reply(f"a user {name}", okta.find("/Users", f'userName eq "{text}"', startIndex=1, count=100), 200,
                    total(1), shows("Resources/0/id", user))
    suite.reply("GET of a user", okta.get(f"/Users/{user}"), 200, shows("id", user), shows("name/familyName", "User"))
    suite.reply("GET of an id nobody has", okta.get("/Users/010101001010101011001010101011"), 404)
    suite.reply("a list of one", okta.get("/Users", count=1, startIndex=1), 200, total(1), shows("itemsPerPage", 1),
                shows("startIndex", 1), shows("Resources/0/name/familyName", "User"), shows("Resources/0/active", True))
    return user


def changes(suite, okta, path, user):
    patched = patching(suite, okta, path)
    body = {**person(NAME), "id": user, "name": {"givenName": "Other", "familyName": "User"}}
    suite.reply("PUT of a whole user", okta.put(path, body), 200, shows("name/givenName", "Other"), shows("id", user))
    suite.reply("PUT of active false", okta.put(path, {**body, "active": False}), 200, shows("active", False))
    for value in (True, False):
        patched(f"PATCH of active {value} without a path", {"op": "replace", "value": {"active": value}},
                shows("active", value))
    patched("PATCH of a password", {"op": "replace", "value": {"password": "4G5fy2bd"}}, lacks("password"))
    suite.reply("PUT of an id nobody has", okta.put(f"/Users/{NOBODY}", body), 404)


def groups(suite, okta, user):
    member = {"value": user, "display": NAME}
    body = {"schemas": [GROUP], "displayName": "Test SCIMv2", "members": [member]}
    group = suite.reply("POST of a group with members", okta.post("/Groups", body), 201, shows("members", [member])).id
    path = f"/Groups/{group}"
    patched = patching(suite, okta, path)
    suite.reply("GET of groups", okta.get("/Groups", startIndex=1, count=100), 200, total(1))
    suite.reply("a group by its name", okta.find("/Groups", 'displayName eq "Test SCIMv2"'), 200, total(1),
                shows("Resources/0/id", group))
    patched("PATCH of a group's name with its id", {"op": "replace", "value": {"id": group, "displayName": "Renamed"}},
            shows("displayName", "Renamed"))
    patched("PATCH that removes and adds a member",
            [op("remove", f'members[value eq "{user}"]'), op("add", "members", [member])], shows("members", [member]))
    patched("PATCH that replaces the members", op("replace", "members", [{"value": user}]),
            shows("members", [{"value": user}]))
    suite.reply("PUT of a group", okta.put(path, {**body, "id": group}), 200, shows("displayName", "Test SCIMv2"),
                shows("members", [member]))
    suite.reply("GET of a group", okta.get(path), 200, shows("members", [member]))
    suite.reply("a user has its groups", okta.get(f"/Users/{user}"), 200, shows("groups/0/value", group))
    suite.reply("DELETE of a group", okta.delete(path), 204)


def faults(suite, okta):
    suite.reply("a page beyond the end", okta.get("/Users", startIndex=100, count=10), 200, total(1),
                lacks("Resources"), shows("itemsPerPage", 0), choice=f"{EMPTY_PAGE}, whatever the total is")
    suite.reply("POST without userName", okta.post("/Users", {"schemas": [USER], "displayName": "x"}), 400,
                because("invalidValue"))
    suite.reply("POST of broken JSON", okta.post("/Users", b'{"userName": '), 400, because("invalidSyntax"))
    suite.reply("a filter that is none", okta.find("/Users", "userName eq"), 400, because("invalidFilter"))
    suite.reply("count=abc", okta.get("/Users", count="abc"), 400, because("invalidValue"))
    suite.reply("sortBy", okta.get("/Users", sortBy="userName", sortOrder="descending"), 200, total(1))


def pages(suite, okta):
    """An import of 251 users by pages."""
    for number in range(250):
        okta.post("/Users", person(f"page{number}@okta.local"))
    found, asked = [], 0
    while len(found) == 100 * asked:
        page = okta.get("/Users", startIndex=1 + len(found), count=100)
        found, asked = found + [one["id"] for one in page.resources], asked + 1
    suite.equal("251 users by pages of 100", (len(found), len(set(found)), page.at("totalResults")), (251, 251, 251))
    suite.reply("count=1000 shows 200", okta.get("/Users", count=1000), 200, total(251), shows("itemsPerPage", 200))
    suite.reply("without count 100 are shown", okta.get("/Users"), 200, total(251), shows("itemsPerPage", 100))
