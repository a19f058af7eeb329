"""What the scenarios serve and ask: users files, policies, tokens and requests."""
import hashlib
import json
from urllib.parse import quote

MOMENT = "2024-01-01T00:00:00Z"
ENTERPRISE = "urn:ietf:params:scim:schemas:extension:enterprise:2.0:User"
PATCH_OP = "urn:ietf:params:scim:api:messages:2.0:PatchOp"
TOKENS = f"hr {hashlib.sha256(b'abc').hexdigest()}\n"
FIRST_GROUP = 10_000_000  # the number of the first group; all users have lower ones
TEN = 10  # the members of a group where connectors ask
PATHS = ["active", "displayName", "emails", "meta", "name.familyName", "name.givenName", "title", "department",
         "userName", "nickName", "timezone", "addresses.locality", "phoneNumbers.value", "manager.value"]


def id_of(number):
    return f"00000000-0000-4000-8000-{number:012x}"


def meta(kind):
    return {"created": MOMENT, "lastModified": MOMENT, "resourceType": kind}


def user(number):
    """A stored user of fifteen cells. Family names repeat after 10,007 users; ten users have a title with an x."""
    return {"id": id_of(number), "userName": f"user{number}", "externalId": f"HR-{number}", "active": True, "displayName": "Barbara Jensen",
            "emails": [{"primary": True, "type": "work", "value": f"user{number}@example.com"}],
            "name": {"familyName": f"Jensen{number * 7919 % 10007}", "givenName": "Barbara"},
            "title": "Executive" if number < 10 else "Tour Guide", ENTERPRISE: {"department": "Tours"},
            "meta": meta("User")}


def groups(users, groups_of_user, sizes, length):
    """Groups of so many users, so many that each user is in so many of them; or one of the first users for each size."""
    ranges = [range(number * length, (number + 1) * length) for number in range(users * groups_of_user // length)]
    for number, members in enumerate([range(size) for size in sizes] or ranges):
        yield {"id": id_of(FIRST_GROUP + number), "displayName": f"Team {number}", "externalId": f"T-{number}", "meta": meta("Group"),
               "members": [{"value": id_of(member % users)} for member in members]}


def write_users_file(path, users, groups_of_user=0, sizes=(), length=100):
    with open(path, "w", encoding="utf-8") as file:
        file.write("[" + json.dumps(user(0)))
        for number in range(1, users):
            file.write(",\n" + json.dumps(user(number)))
        for group in groups(users, groups_of_user, sizes, length):
            file.write(",\n" + json.dumps(group))
        file.write("]")


def rule(allow, client, ops, path, **target):
    return {"allow": allow, "clients": [client], "ops": ops, "types": ["User", "Group"], "paths": [path], **target}


def policy(rules=1, form="other client"):
    """A policy whose last rule lets the client `hr` do everything, behind other rules of one form."""
    ops, made = ["read", "modify"], []
    for number in range(rules - 1):
        path = PATHS[number % len(PATHS)]
        made.append({"fitting": rule(True, "hr", ops, path), "other client": rule(True, "other", ops, path),
                     "target": rule(False, "hr", ops, "title", target=f'department eq "None{number}"')}[form])
    made.append(rule(True, "hr", ["read", "create", "modify", "delete"], "*"))
    return json.dumps({"version": 1, "rules": made})


def policy_with_filters(count):
    """A policy that lets the client `hr` do everything, behind rules that hide values of emails that nobody has."""
    made = [{"allow": False, "clients": ["hr"], "ops": ["read"], "types": ["User"],
             "paths": [f'emails[type eq "kind{number}"]']} for number in range(count)]
    made.append(rule(True, "hr", ["read", "create", "modify", "delete"], "*"))
    return json.dumps({"version": 2, "rules": made})


def request(method, target, body=None):
    """The bytes of a request by `hr`."""
    head = f"{method} {target} HTTP/1.1\r\nHost: localhost\r\nAuthorization: Bearer abc\r\n"
    if body is None:
        return (head + "\r\n").encode()
    text = json.dumps(body)
    return f"{head}Content-Type: application/scim+json\r\nContent-Length: {len(text)}\r\n\r\n{text}".encode()


def patch(target, op, path, value=None):
    """The bytes of a PATCH of one operation."""
    given = {} if value is None else {"value": value}
    return request("PATCH", target, {"schemas": [PATCH_OP], "Operations": [{"op": op, "path": path, **given}]})


def search(users, text, rest=""):
    """A search by a filter, for at most 100 users or groups."""
    return request("GET", f"/{users}?count=100{rest}&filter={quote(text)}")


# The requests below have a number of their own; numbers that follow each other lead to users far apart.

def user_path(server, number):
    return f"/Users/{id_of(number * 7919 % server.users)}"


def get(server, number):
    return request("GET", user_path(server, number))


def by_name(server, number):
    return search("Users", f'userName eq "USER{number * 7919 % server.users}"')


def by_external_id(server, number):
    return search("Users", f'externalId eq "HR-{number * 7919 % server.users}"')


def by_address(server, number):
    return search("Users", f'emails.value eq "USER{number * 7919 % server.users}@example.com"')


def by_work_address(server, number):
    return search("Users", f'emails[type eq "work" and value eq "user{number * 7919 % server.users}@example.com"]')


def group_number(server, number):
    """One of the groups of ten that each user is in one of."""
    return number * 7919 % (server.users // TEN)


def by_group_name(server, number):
    """A search for one of the groups, without its members."""
    return search("Groups", f'displayName eq "team {group_number(server, number)}"', "&excludedAttributes=members")


def by_group_external_id(server, number):
    return search("Groups", f'externalId eq "T-{group_number(server, number)}"', "&excludedAttributes=members")


def by_group_of_user(server, number):
    """A search for the users of a group."""
    return search("Users", f'groups.value eq "{id_of(FIRST_GROUP + group_number(server, number))}"', "&attributes=userName")


def is_member(server, number):
    """Whether a user is in a group: a search for the group by its id, which names the user."""
    asked = f'id eq "{id_of(FIRST_GROUP + group_number(server, number))}" and members eq "{id_of(number)}"'
    return search("Groups", asked, "&attributes=id")


def by_member(server, number):
    return search("Groups", f'members.value eq "{id_of(number * 7919 % server.users)}"', "&excludedAttributes=members")


def by_member_in_brackets(server, number):
    return search("Groups", f'members[value eq "{id_of(number * 7919 % server.users)}"]', "&excludedAttributes=members")


def by_two_names(server, number):
    first, second = (other * 7919 % server.users for other in (number, number + 1))
    return search("Users", f'userName eq "USER{first}" or userName eq "user{second}"')


def by_two_texts(server, number):
    """A search for two users, by an externalId and by an address."""
    first, second = (other * 7919 % server.users for other in (number, number + 1))
    return search("Users", f'externalId eq "HR-{first}" or emails.value eq "user{second}@example.com"')


# What connectors ask in each cycle, by texts.
TEXTS = [("externalId", by_external_id), ("emails.value", by_address), ("a value path of emails", by_work_address),
         ("the name of a group", by_group_name), ("the externalId of a group", by_group_external_id),
         ("members.value", by_member), ("a value path of members", by_member_in_brackets),
         ("the id of a group and a member", is_member), ("the group of users", by_group_of_user),
         ("two names", by_two_names), ("an externalId or an address", by_two_texts)]


def retitle(server, number):
    return patch(user_path(server, number), "replace", "title", f"Guide {number}")


def replace(server, number):
    return request("PUT", user_path(server, number),
                   {**user(number * 7919 % server.users), "title": f"Guide {number}"})


def create(_server, number):
    return request("POST", "/Users", {"userName": f"new{number}", "title": "Guest", "active": True})


def page(server, number):
    """A page of 100 in the order of ids, with the groups of each user."""
    return request("GET", f"/Users?count=100&startIndex={number * 7919 % max(server.users - 100, 1) + 1}")


def last_page(server, number):
    """One of the last pages of 100 in the order of ids, with the groups of each user."""
    return request("GET", f"/Users?count=100&startIndex={server.users - 100 - number % 100}")


def sorted_page(_server, _number):
    """A page of 100 by family name, with the groups of each user."""
    return search("Users", 'userName sw "user"', "&sortBy=name.familyName")


def in_any_group(_server, _number):
    """A page of 100 of the users that are in a group, without their groups."""
    return search("Users", "groups pr", "&attributes=userName")


def unindexed(_server, _number):
    """A search that goes over all users, and finds ten."""
    return search("Users", 'title co "x"')


def by_email(_server, _number):
    """A search that goes over all users by an attribute that value filters may be on, and finds none."""
    return search("Users", 'emails.value co "@home"')
