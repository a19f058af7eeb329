"""What an HR feed and identity governance send: discovery, creates by externalId, changes since a moment, searches."""
import time

from checks import ENTERPRISE, SEARCH, USER, lacks, shows, total, unlike
from service import started

PEOPLE = 60
NO_META = "Where a client may expect more: resource types have no `meta`"
NO_DESCRIPTION = "Where a client may expect more: attributes have no `description`, references no `referenceTypes`"


def person(number, **more):
    return {"schemas": [USER, ENTERPRISE], "userName": f"worker{number:02}", "externalId": f"hr-{number}",
            "name": {"givenName": "Worker", "familyName": f"Number {number:02}"}, "title": "Clerk", "active": True,
            ENTERPRISE: {"employeeNumber": str(1000 + number), "department": "Even" if number % 2 == 0 else "Odd"},
            **more}


def run(suite):
    with started(suite) as server:
        hr = server.connector()
        discovery(suite, hr)
        ids, last = feed(suite, hr)
        changed_since(suite, hr, ids, last)
        pages(suite, hr)
        not_there(suite, hr)
        searches(suite, hr)


def discovery(suite, hr):
    suite.reply("GET /ServiceProviderConfig", hr.get("/ServiceProviderConfig"), 200, shows("filter/maxResults", 200),
                shows("bulk/supported", False), shows("etag/supported", False), shows("sort/supported", True),
                shows("authenticationSchemes/0/type", "oauthbearertoken"))
    types = suite.reply("GET /ResourceTypes", hr.get("/ResourceTypes"), 200, total(2),
                        shows("Resources/0/name", "User"), shows("Resources/1/endpoint", "/Groups"))
    suite.reply("GET /Schemas", hr.get("/Schemas"), 200, total(4), shows("Resources/0/id", USER))
    suite.check("each resource type has endpoint, schema and name, but no meta", next(
        (f"{one}" for one in types.resources if not {"endpoint", "schema", "name", "id"} <= set(one) or "meta" in one),
        None), choice=NO_META)
    suite.check("each attribute has its characteristics, but no description", attributes(hr), choice=NO_DESCRIPTION)
    suite.reply("a filter on /Schemas is denied (RFC 7644 section 4)", hr.find("/Schemas", f'id eq "{USER}"'), 403)
    suite.reply("GET /ResourceTypes/User", hr.get("/ResourceTypes/User"), 200, shows("endpoint", "/Users"),
                shows("schema", USER))


def attributes(hr):
    """What is wrong with the attributes of a schema."""
    due = {"name", "type", "multiValued", "required", "caseExact", "mutability", "returned", "uniqueness"}
    found = hr.get(f"/Schemas/{USER}").at("attributes") or [{}]
    found = found + [inner for one in found for inner in one.get("subAttributes", [])]
    return next((f"{one}" for one in found if set(one) - {"subAttributes"} != due), None)


def feed(suite, hr):
    """Sends everybody, twice, the second time as they are. Returns the ids and the last change."""
    replies = [hr.post("/Users", person(number)) for number in range(PEOPLE)]
    suite.equal(f"{PEOPLE} creates", {reply.status for reply in replies}, {201})
    ids = [reply.id for reply in replies]
    found = [hr.find("/Users", f'externalId eq "hr-{number}"').at("Resources/0/id") for number in range(PEOPLE)]
    suite.equal("each is found by externalId", found, ids)
    before = [reply.at("meta/lastModified") for reply in replies]
    time.sleep(1.1)  # a moment is a whole second
    again = [hr.put(f"/Users/{one}", person(number)) for number, one in enumerate(ids)]
    suite.equal("PUT of what is there changes nothing", [reply.at("meta/lastModified") for reply in again], before)
    return ids, max(before)


def changed_since(suite, hr, ids, last):
    """One is changed, and found by the moment of its change."""
    changed = suite.reply("PUT of one change", hr.put(f"/Users/{ids[7]}", person(7, title="Chief")), 200,
                          shows("title", "Chief"),
                          lambda reply: None if reply.at("meta/lastModified") > last else "lastModified didn't move")
    for name, moment in [("changes since a moment", last), ("a moment with milliseconds", last[:-1] + ".000Z"),
                         ("a moment with +00:00", last[:-1] + "+00:00")]:
        suite.reply(name, hr.find("/Users", f'meta.lastModified gt "{moment}"'), 200, total(1),
                    shows("Resources/0/id", changed.id))


def pages(suite, hr):
    query = {"sortBy": "name.familyName", "count": 25}
    suite.reply("the first sorted page", hr.get("/Users", startIndex=1, **query), 200, total(PEOPLE),
                shows("Resources/0/userName", "worker00"), shows("Resources/24/userName", "worker24"))
    suite.reply("the second sorted page", hr.get("/Users", startIndex=26, **query), 200, total(PEOPLE),
                shows("Resources/0/userName", "worker25"), shows("startIndex", 26))
    suite.reply("count=0 gives the total alone", hr.get("/Users", count=0), 200, total(PEOPLE),
                shows("itemsPerPage", 0))


def not_there(suite, hr):
    suite.reply("a search by POST", hr.post("/Users/.search", {"schemas": [SEARCH], "filter": 'userName eq "worker03"',
                                                               "attributes": ["title"], "startIndex": 1, "count": 10}),
                200, total(1), shows("Resources/0/title", "Clerk"), lacks("Resources/0/userName"))
    suite.reply("a search over all types", hr.post("/.search", {"schemas": [SEARCH], "count": 1}), 501)
    suite.reply("Bulk", hr.post("/Bulk", {"Operations": []}), 501)


def searches(suite, hr):
    number = f"{ENTERPRISE}:employeeNumber"
    suite.reply("attributes with a URN", hr.get("/Users", attributes=f"userName,{number}", count=1), 200, total(PEOPLE),
                shown_keys("id", "schemas", "userName", ENTERPRISE))
    suite.reply("excludedAttributes", hr.get("/Users", excludedAttributes="name,externalId,title", count=1), 200,
                shown_keys("id", "schemas", "userName", "active", "meta", ENTERPRISE))
    core = f"{USER}:userName"
    for text, count in [('department eq "Odd" and name.familyName co "0"', 5), ('employeeNumber eq "1003"', 1),
                        (f'{core} eq "worker03"', 1), ('USERNAME Eq "worker03" AND Active eQ true', 1),
                        ('not (department eq "Odd")', 30)]:
        suite.reply(f"filter: {text.replace(USER, 'CORE')}", hr.find("/Users", text), 200, total(count))


def shown_keys(*due):
    """A condition: the first resource of the page has these keys and no other."""
    return lambda reply: unlike("keys", sorted(reply.at("Resources/0") or []), sorted(due))
