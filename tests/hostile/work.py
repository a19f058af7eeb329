"""Messages of up to one MiB whose work multiplies: steps times values of a list."""
import itertools
import json

from lab import MOST_SECONDS, MOST_SECONDS_REFUSED, PATIENCE, by_seconds, least, somebody, watched
from server import GROUP, PATCH_OP, USER, request

MOST_BYTES = 1_048_576
OPERATIONS = 1_000
MOST_WORK = 25_000_000
STEP_WORK = 2_500
LISTS = ["emails", "phoneNumbers", "ims", "photos", "entitlements", "roles"]


def spaced(path):
    """The path with different spaces around it, short ones first."""
    for spaces in itertools.count():
        for left in range(spaces + 1):
            yield " " * left + path + " " * (spaces - left)


def body_of(operations):
    return json.dumps({"schemas": [PATCH_OP], "Operations": operations}, separators=(",", ":")).encode()


def keys(paths, value, op="replace", room=MOST_BYTES - 200):
    """A PATCH of one operation without a path, with as many of these keys as fit into so many bytes."""
    taken = {}
    for path in paths:
        room -= len(json.dumps(path)) + len(json.dumps(value, separators=(",", ":"))) + 2
        if room < 0:
            break
        taken[path] = value
    return body_of([{"op": op, "value": taken}])


def within(size, looks):
    """How many steps of so many looks at each of the values are within the limit on the work of a PATCH."""
    return MOST_WORK // (looks * size + STEP_WORK)


def nots(size, steps=None):
    depth = 30
    paths = (f"emails[{'not(' * depth}value co \"{number}\"{')' * depth}].type" for number in itertools.count())
    return keys(itertools.islice(paths, steps), "w")


def filters(size, steps=None):
    paths = (f'emails[value eq "e{number}"].type' for number in itertools.count())
    return keys(itertools.islice(paths, steps), "w")


def same_path(size, steps=None):
    return keys(itertools.islice(spaced("emails.type"), steps), "w")


def adds(size, steps=None):
    given = [{"value": f"e{number}"} for number in range(9)]
    return keys(itertools.islice(spaced("emails"), steps), given, "add")


def replaces(size, steps=OPERATIONS):
    return body_of([{"op": "replace", "path": f'emails[value eq "e{number % size}"]', "value": {"type": "w"}}
                    for number in range(steps)])


def removes(size, steps=OPERATIONS):
    terms = [" or ".join(f'value eq "{term:02}{step % 10}"' for term in range(48)) for step in range(steps)]
    return body_of([{"op": "remove", "path": f"members[{text}]"} for text in terms])


def removes_one(size, steps=OPERATIONS):
    return body_of([{"op": "remove", "path": f'members[value eq "x{number}"]'} for number in range(steps)])


def added_and_removed(size):
    """A step that makes the list shorter, and one that makes it longer, in turn."""
    steps = [[{"op": "remove", "path": f'emails[value eq "e{number}"]'},
              {"op": "add", "path": "emails", "value": [{"value": f"n{number}"}]}] for number in range(OPERATIONS // 2)]
    return body_of(list(itertools.chain.from_iterable(steps)))


def locales(size, spared=0):
    """Steps that remove a value, as many as fit and are within the limit on the work, some of which may be spared."""
    steps = (MOST_WORK - spared) // (STEP_WORK + len(LISTS) + 2)
    return keys(itertools.islice(spaced("locale"), steps), None, room=MOST_BYTES - 1_000)


def lists_and_locales(size):
    """A step at each list of a user, which adds what is there, and then cheap steps."""
    same = [{"op": "add", "path": name, "value": [{"value": "v1"}]} for name in LISTS]
    spared = len(LISTS) * (3 * size + STEP_WORK)
    return body_of(same + json.loads(locales(size, spared))["Operations"])


# Messages with as many steps as fit, most of which are refused for their work.
MESSAGES = [
    ("keys emails[not(not(.. value co ..", "Users", nots),
    ("keys emails[value eq ..].type", "Users", filters),
    ("keys emails.type", "Users", same_path),
    ("keys emails, adding what is there", "Users", adds),
    ("1,000 times replace emails[value eq ..]", "Users", replaces),
    ("1,000 times remove or add an email", "Users", added_and_removed),
    ("1,000 times remove members[48 terms]", "Groups", removes),
    ("1,000 times remove members[value eq ..]", "Groups", removes_one),
]
# The dearest of each form that isn't refused: the looks of a step at each value are those of docs/PROFILE.md.
WITHIN = [
    ("within the limit: nots", "Users", lambda size: nots(size, within(size * 6 // 5, 66))),
    ("within the limit: filters", "Users", lambda size: filters(size, within(size * 6 // 5, 6))),
    ("within the limit: one path", "Users", lambda size: same_path(size, within(size * 6 // 5, 4))),
    ("within the limit: adding what is there", "Users", lambda size: adds(size, within(2 * size, 9))),
    ("within the limit: replace", "Users", lambda size: replaces(size, within(size, 11))),
    ("within the limit: 48 terms", "Groups", lambda size: removes(size, within(size, 49))),
    ("within the limit: locale beside six long lists", "Wide", locales),
    ("within the limit: six long lists and locale", "Wide", lists_and_locales),
]


def plain(size):
    """A PATCH of one step and nearly one MiB."""
    pad = MOST_BYTES // size - 14
    return body_of([{"op": "replace", "path": "emails", "value": [{"value": f"e{number}".ljust(pad, "x")}
                                                                  for number in range(size)]}])


def wide(server, size):
    """A user with six long lists, which no body holds at once."""
    values = [{"value": f"v{number}"} for number in range(size)]
    user = server.create({"schemas": [USER], "userName": "wide", **{name: values for name in LISTS[:3]}})
    rest = body_of([{"op": "add", "path": name, "value": values} for name in LISTS[3:]])
    client = server.connect()
    status, body = client.ask(request("PATCH", f"/Users/{user}", "writer", rest))
    client.close()
    if status != 200:
        raise RuntimeError(f"status {status} for a PATCH: {body[:300]!r}")
    return user


def prepare(lab, server, kind):
    """A user and a group with long lists, or a user with several, and the user whom another client reads."""
    if kind == "Wide":
        return {"Wide": wide(server, lab.sizes.values), "other": somebody(server)}
    size = lab.sizes.values
    emails = [{"value": f"e{number}"} for number in range(size)]
    members = [{"value": f"m{number}"} for number in range(size)]
    return {"Users": server.create({"schemas": [USER], "userName": "long", "emails": emails}),
            "Groups": server.create({"schemas": [GROUP], "displayName": "long", "members": members}, "Groups"),
            "other": somebody(server)}


def patches(lab):
    """Each message by a client that may write what it touches, and by one that may not."""
    for client, status, most in (("titles", {400, 403, 404}, MOST_SECONDS_REFUSED),
                                 ("writer", {200, 204, 400}, MOST_SECONDS)):
        with lab.server() as server:
            usual = one_patch(lab, server, "Users", plain, client, status)[0]
        for name, kind, make in MESSAGES + WITHIN:
            with lab.server() as server:
                yield by_seconds(f"{client}: {name}", usual, *one_patch(lab, server, kind, make, client, status), most)


def one_patch(lab, server, kind, make, client, status):
    """Processor seconds for a PATCH, and another client's longest GET meanwhile."""
    ids = prepare(lab, server, kind)
    body = make(lab.sizes.values)
    assert len(body) <= MOST_BYTES
    endpoint = "Users" if kind == "Wide" else kind
    message = request("PATCH", f"/{endpoint}/{ids[kind]}", client, body)
    return watched(server, ids["other"], lambda: least(server, message, status, 1))
