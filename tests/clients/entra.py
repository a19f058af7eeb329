"""What Microsoft Entra's provisioning sends: look-ups, capital letters, texts for booleans, members in two shapes."""
from checks import (EMPTY_PAGE, ENTERPRISE, FILTER_GRAMMAR, GROUP, MATCHES, NOBODY, ONE_VALUE, USER, because, headed,
                    lacks, shows, total)
from service import Connector, op, patching, started

MAIL = "Test_User_11bb11bb@testuser.com"
NAME = "Test_User_ab6490ee"
EXTERNAL = "0a21f0f2-8d2a-4f8e-bf98-7363c4aed4ef"
MANAGER = f"{ENTERPRISE}:manager"
MANAGER_KEY = f"{ENTERPRISE}/manager"
SHOWN_EMPTY = "Bodies: a text that isn't an object counts as the `value`, the empty text too"
WORK = 'emails[type eq "work"]'


def person(name, **more):
    return {"schemas": [USER, ENTERPRISE], "userName": name, "active": True, "meta": {"resourceType": "User"},
            "name": {"formatted": "givenName familyName", "familyName": "familyName", "givenName": "givenName"},
            "roles": [], **more}


def run(suite):
    with started(suite) as server:
        entra = server.connector()
        user = look_ups(suite, entra)
        changes(suite, entra, f"/Users/{user}")
        lists(suite, entra, f"/Users/{user}")
        managers(suite, entra, user)
        without_paths(suite, entra, f"/Users/{user}")
        values(suite, entra, f"/Users/{user}")
        group, other = groups(suite, entra, user)
        members(suite, entra, group, other, user)
        deletions(suite, entra, group, user)
        requests(suite, server, entra)
        shapes(suite, entra)


def look_ups(suite, entra):
    """The test connection, a create, and all questions by which Entra looks for a user. Returns the user's id."""
    suite.reply("test connection: filter on a name nobody has", entra.find("/Users", 'userName eq "nobody"'), 200,
                total(0), lacks("Resources"), choice=EMPTY_PAGE)
    body = person(NAME, externalId=EXTERNAL, emails=[{"primary": True, "type": "work", "value": MAIL}])
    user = suite.reply("POST of a user", entra.post("/Users", body), 201, shows("userName", NAME),
                       shows("emails/0/value", MAIL), shows("active", True), lacks("roles")).id
    suite.reply("POST again", entra.post("/Users", body), 409, because("uniqueness"))
    suite.reply("POST again in another case", entra.post("/Users", person(NAME.upper())), 409, because("uniqueness"))
    suite.reply("GET by id", entra.get(f"/Users/{user}"), 200, shows("id", user), shows("externalId", EXTERNAL))
    suite.reply("GET of an id nobody has", entra.get(f"/Users/{NOBODY}"), 404)
    suite.reply("GET of an id that is no UUID", entra.get("/Users/5171a35d"), 404)
    for name, text in [
            ("userName", f'userName eq "{NAME}"'), ("userName in another case", f'userName eq "{NAME.upper()}"'),
            ("externalId", f'externalId eq "{EXTERNAL}"'),
            ("emails by type and value", f'emails[type eq "work" and value eq "{MAIL}"]'),
            ("emails.value", f'emails.value eq "{MAIL}"'),
            ("brackets and active", f'(userName eq "{NAME}") and (active eq true)'),
            ('active eq "True"', f'userName eq "{NAME}" and active eq "True"')]:
        suite.reply(f"filter: {name}", entra.find("/Users", text), 200, total(1), shows("Resources/0/id", user))
    suite.reply("filter: a name behind brackets, as the matching attribute", entra.find("/Users",
                                                                                        f'{WORK}.value eq "{MAIL}"'),
                400, because("invalidFilter"), choice=FILTER_GRAMMAR)
    suite.reply("filter: employeeNumber by its URN", entra.find("/Users", f'{ENTERPRISE}:employeeNumber eq "7"'), 200,
                total(0), lacks("Resources"), choice=EMPTY_PAGE)
    plus = f"/Users?filter=userName+eq+%22{NAME}%22"
    suite.reply("filter: plus signs for spaces", entra.ask("GET", plus), 200, total(1))
    return user


def changes(suite, entra, path):
    """The PATCH messages for single attributes."""
    patched = patching(suite, entra, path)
    patched("Replace of a mail and a name", [op("Replace", f"{WORK}.value", "updated@testuser.com"),
                                             op("Replace", "name.familyName", "updated")],
            shows("emails/0/value", "updated@testuser.com"), shows("emails/0/primary", True),
            shows("name/familyName", "updated"), shows("name/givenName", "givenName"))
    patched("Replace of userName", op("Replace", "userName", "5b50642d"), shows("userName", "5b50642d"))
    for name, value, due in [("active false", False, False), ('active "True"', "True", True),
                             ('active "False"', "False", False)]:
        patched(f"Replace of {name}", op("Replace", "active", value), shows("active", due))
    patched('Replace of active "True" without a path', {"op": "Replace", "value": {"active": "True"}},
            shows("active", True))
    patched("Replace of externalId", op("Replace", "externalId", "new"), shows("externalId", "new"))
    patched("several operations on one attribute",
            [op("Add", "title", "one"), op("Replace", "title", "two"), op("Replace", "title", "three")],
            shows("title", "three"))
    patched("a path with the core URN", op("Replace", f"{USER}:title", "Chief"), shows("title", "Chief"))
    patched("Replace of id", op("Replace", "id", NOBODY), because("mutability"), status=400)


def lists(suite, entra, path):
    """Values of lists that are chosen by brackets."""
    patched = patching(suite, entra, path)
    mobile = 'phoneNumbers[type eq "mobile"]'
    patched("Add of a mobile number where there is none", op("Add", f"{mobile}.value", "1"),
            shows("phoneNumbers", [{"type": "mobile", "value": "1"}]))
    home = 'addresses[type eq "work"]'
    patched("Add of the parts of an address", [op("Add", f"{home}.{name}", name) for name in ("streetAddress",
                                                                                              "locality",
                                                                                              "postalCode")],
            shows("addresses", [{"type": "work", "streetAddress": "streetAddress", "locality": "locality",
                                 "postalCode": "postalCode"}]))
    patched("Replace where nothing matches", op("Replace", 'phoneNumbers[type eq "fax"].value', "1"),
            because("noTarget"), status=400)
    role = 'roles[primary eq "True"]'
    patched("Add of the parts of a primary role",
            [op("Add", f"{role}.{name}", f"role {name}") for name in ("display", "value", "type")],
            shows("roles", [{"primary": True, "display": "role display", "value": "role value", "type": "role type"}]))
    patched("Replace of the primary role's value", op("Replace", f"{role}.value", "other"),
            shows("roles/0/value", "other"))
    patched("Replace of a role that nobody has", op("Replace", 'roles[value eq "x"].value', "y"), because("noTarget"),
            status=400)


def managers(suite, entra, user):
    """The enterprise extension, and the manager in all its shapes."""
    path = f"/Users/{user}"
    patched = patching(suite, entra, path)
    patched("Add of department by its URN", op("Add", f"{ENTERPRISE}:department", "Sales"),
            shows(f"{ENTERPRISE}/department", "Sales"))
    patched("the extension's URN as the path", op("Add", ENTERPRISE, {"department": "Desk"}),
            shows(f"{ENTERPRISE}/department", "Desk"))
    patched("Add of manager as a text", op("Add", MANAGER, "boss"), shows(MANAGER_KEY, {"value": "boss"}))
    patched("Replace of manager by an object", op("Replace", MANAGER, {"value": "chief"}),
            shows(MANAGER_KEY, {"value": "chief"}))
    patched("Add of manager as a list of one", op("Add", MANAGER, [{"value": "boss"}]), because("invalidValue"),
            status=400, choice=ONE_VALUE)
    patched("Replace of manager.value", op("Replace", f"{MANAGER}.value", "boss"),
            shows(MANAGER_KEY, {"value": "boss"}))
    suite.reply("question for the manager", entra.find("/Users", f'id eq "{user}" and manager eq "boss"',
                                                       attributes="id"), 200, total(1), shows("Resources/0/id", user))
    suite.reply("question for the manager without quotes", entra.find("/Users", f"id eq {user} and manager eq boss"),
                400, because("invalidFilter"))
    patched("Remove of manager", op("Remove", MANAGER), lacks(MANAGER_KEY))
    patched("Remove of manager again", op("Remove", MANAGER), lacks(MANAGER_KEY))
    patched('Replace of manager by ""', op("Replace", MANAGER, ""), shows(MANAGER_KEY, {"value": ""}),
            choice=SHOWN_EMPTY)


def without_paths(suite, entra, path):
    """Operations whose value is an object of paths, and paths of unknown extensions."""
    patched = patching(suite, entra, path)
    value = {"displayName": "Barbara", "name.givenName": "Barbara", f"{WORK}.value": "b@testuser.com",
             f"{ENTERPRISE}:costCenter": "7"}
    patched("no path: dotted keys, brackets and URNs", {"op": "Add", "value": value}, shows("displayName", "Barbara"),
            shows("name/givenName", "Barbara"), shows("emails/0/value", "b@testuser.com"),
            shows(f"{ENTERPRISE}/costCenter", "7"))
    value = {ENTERPRISE: {"department": "Bees", "manager": {"value": "queen"}}}
    patched("no path: the extension as an object", {"op": "Replace", "value": value},
            shows(f"{ENTERPRISE}/department", "Bees"), shows(MANAGER_KEY, {"value": "queen"}))
    tag = "urn:ietf:params:scim:schemas:extension:CustomExtension:2.0:User:tag"
    patched("no path: a key of an unknown extension", {"op": "Add", "value": {tag: "x"}})
    patched("a path of an unknown extension", op("Add", tag, "x"), because("invalidPath"), status=400)


def values(suite, entra, path):
    """Roles, mails and certificates as whole lists."""
    patched = patching(suite, entra, path)
    roles = [{"primary": False, "type": "WindowsAzureActiveDirectoryRole", "display": name,
              "value": f'{{"id":"{name}"}}'} for name in ("Admin", "User")]
    patched("Add of roles as texts of JSON", op("Add", "roles", roles), shows("roles/2/display", "User"),
            lacks("roles/3"))
    patched("Remove of roles", op("Remove", "roles"), lacks("roles"))
    second = {"type": "home", "value": "home@testuser.com", "primary": True}
    patched("Add of a second mail as the primary one", op("Add", "emails", [second]), shows("emails/0/primary", False),
            shows("emails/1", second))
    patched("Remove of a mail by its type", op("Remove", 'emails[type eq "home"]'), lacks("emails/1"),
            shows("emails/0/type", "work"))
    patched("Remove of a mail's value", op("Remove", f"{WORK}.value"),
            shows("emails", [{"type": "work", "primary": False}]))
    patched("Add of a certificate", op("Add", "x509Certificates", [{"value": "TUlJ"}]),
            shows("x509Certificates", [{"value": "TUlJ"}]))
    body = person("validator", active="True", roles=[{"primary": "True", "value": "a"}],
                  **{ENTERPRISE: {"manager": "boss"}})
    suite.reply('POST with "True" and a manager as a text', entra.post("/Users", body), 201, shows("active", True),
                shows("roles", [{"primary": True, "value": "a"}]), shows(MANAGER_KEY, {"value": "boss"}))


def groups(suite, entra, user):
    """Creates groups and finds them. Returns the ids of a group and of another user."""
    schemas = [GROUP, "http://schemas.microsoft.com/2006/11/ResourceManagement/ADSCIM/2.0/Group"]
    body = {"schemas": schemas, "externalId": "8aa1a0c0", "displayName": "Team", "members": [],
            "meta": {"resourceType": "Group"}}
    group = suite.reply("POST of a group", entra.post("/Groups", body), 201, shows("displayName", "Team"),
                        shows("schemas", [GROUP]), lacks("members")).id
    suite.reply("POST of a group with the same name", entra.post("/Groups", {**body, "externalId": "x"}), 201)
    suite.reply("GET of a group without its members", entra.get(f"/Groups/{group}", excludedAttributes="members"), 200,
                shows("id", group), lacks("members"))
    suite.reply("filter: displayName", entra.find("/Groups", 'displayName eq "Team"', excludedAttributes="members"),
                200, total(2))
    suite.reply("filter: externalId of a group", entra.find("/Groups", 'externalId eq "8aa1a0c0"'), 200, total(1))
    suite.reply("Replace of a group's name", entra.patch(f"/Groups/{group}", op("Replace", "displayName", "Crew")), 200,
                shows("displayName", "Crew"))
    return group, entra.post("/Users", person("other")).id


def members(suite, entra, group, other, user):
    path = f"/Groups/{group}"
    patched, nobody = patching(suite, entra, path), lacks("members")
    both = [{"value": user}, {"value": other}]
    patched("Add of a member", op("Add", "members", [{"$ref": None, "value": user}]), shows("members", both[:1]))
    patched("Add of members of whom one is there", op("Add", "members", both), shows("members", both))
    for text in (f'id eq "{group}" and members eq "{user}"', f'members[value eq "{user}"]',
                 f'members.value eq "{user}"'):
        name = text.replace(group, "GROUP").replace(user, "USER")
        suite.reply(f"filter: {name}", entra.find("/Groups", text, attributes="id"), 200, total(1),
                    shows("Resources/0/id", group))
    suite.reply("a user has its groups", entra.get(f"/Users/{user}"), 200, shows("groups/0/value", group),
                shows("groups/0/display", "Crew"))
    patched("Remove of a member in a list", op("Remove", "members", [{"$ref": None, "value": user}]),
            shows("members", both[1:]))
    remove = op("Remove", f'members[value eq "{other}"]')
    patched("Remove of a member by brackets", remove, nobody)
    patched("Remove of a member who isn't there, by brackets", remove, nobody)
    patched("Remove of a member who isn't there, in a list", op("Remove", "members", both[:1]), nobody)
    patched("Add of members without a path", {"op": "Add", "value": {"members": both}}, shows("members", both))
    body = {"schemas": [GROUP], "displayName": "Nested", "members": [{"value": group, "type": "Group"}]}
    suite.reply("POST of a group with a group in it", entra.post("/Groups", body), 201, shows("members/0/value", group))
    patched("Replace of members by none", op("Replace", "members", []), nobody)


def deletions(suite, entra, group, user):
    for path in (f"/Groups/{group}", f"/Users/{user}"):
        name = path.split("/")[1]
        suite.reply(f"DELETE in {name}", entra.delete(path), 204)
        suite.reply(f"DELETE in {name} again", entra.delete(path), 404)
    suite.reply("the same user again", entra.post("/Users", person("5b50642d")), 201)
    suite.reply("PATCH of a user who was deleted", entra.patch(f"/Users/{user}", op("Replace", "active", False)), 404)


def requests(suite, server, entra):
    """Headers, tokens and discovery."""
    plain = server.connector(kind="application/json")
    suite.reply("Accept: application/json", plain.get("/Users", count=1), 200)
    suite.reply("Content-Type: application/json", plain.post("/Users", person("json")), 201)
    suite.reply("bearer in lower case", server.connector(scheme="bearer").get("/Users", count=1), 200)
    for name, who in [("no token", None), ("a wrong token", "stranger")]:
        suite.reply(name, Connector(server.port, who).get("/Users"), 401, headed("WWW-Authenticate", "Bearer"))
    suite.reply("GET /Schemas", entra.get("/Schemas"), 200, total(4))
    suite.reply("GET of the enterprise schema", entra.get(f"/Schemas/{ENTERPRISE}"), 200, shows("id", ENTERPRISE))


def shapes(suite, entra):
    """PATCH messages in unusual forms."""
    path = f"/Users/{entra.post('/Users', person('shapes')).id}"
    patched = patching(suite, entra, path)
    bare = {"Operations": [op("Replace", "title", "bare")]}
    suite.reply("PATCH without schemas", entra.ask("PATCH", path, bare), 200, shows("title", "bare"))
    lower = {"operations": [op("replace", "title", "lower")]}
    suite.reply("PATCH with operations in lower case", entra.ask("PATCH", path, lower), 200, shows("title", "lower"))
    patched("PATCH without an operation", [], because("invalidSyntax"), status=400)
    patched("Replace of active by a list of one", op("Replace", "active", [{"value": True}]), because("invalidValue"),
            status=400, choice=ONE_VALUE)
    patched("Replace of a mail by a list of one", op("Replace", WORK, [{"value": "x"}]), because("invalidValue"),
            status=400, choice=MATCHES)
