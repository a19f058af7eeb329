"""The scenarios: each takes a run and gives a table. Their doc comments are what `--list` prints."""
import itertools
import json
import time
from contextlib import ExitStack
from statistics import median
from types import SimpleNamespace

import data
from measuring import Ask, Table
from server import run_ms

GET = Ask("GET by id", data.get, 100)
BY_NAME = Ask("search by userName eq", data.by_name, 100)
PATCH = Ask("PATCH of a title", data.retitle, 50)
PUT = Ask("PUT", data.replace, 50)
CREATE = Ask("create", data.create, 10, 201)
PAGE = Ask("page of 100 with groups", data.page, 5)
LAST_PAGE = Ask("one of the last pages of 100", data.last_page, 5)
SORTED = Ask("sorted page of 100 with groups", data.sorted_page, 2)
IN_ANY_GROUP = Ask("users in any group", data.in_any_group, 1)
UNINDEXED = Ask("unindexed filter", data.unindexed, 2)
BY_EMAIL = Ask("unindexed filter of emails", data.by_email, 2)
BOTH = (("", []), (", no cache", ["--no-cache"]))


def add_rows(bench, table, servers, asks, prefix=""):
    """Adds a row for each of what is asked, with a figure for each server."""
    for ask in asks:
        table.add(prefix + ask.name, bench.middles([(server, ask) for server in servers]))


def users(bench):
    """requests over 1,000, 10,000 and 100,000 users, each in a group of 100"""
    table = Table("users: processor ms a request, by the number of users", bench.sizes, [(1, 0), (2, 0)])
    with ExitStack() as stack:
        servers = [stack.enter_context(bench.server((size, 1))) for size in bench.sizes]
        add_rows(bench, table, servers, [GET, BY_NAME, PATCH, PAGE, LAST_PAGE, SORTED, UNINDEXED, CREATE])
    return table


def connectors(bench):
    """what connectors ask in each cycle, by texts, over 1,000, 10,000 and 100,000 users, each in a group of 10"""
    contents = [(size, 1, (), data.TEN) for size in bench.sizes]
    heads, made = [*bench.sizes], [(content, None) for content in contents]
    if bench.beside:
        heads, made = heads + ["beside"], made + [(contents[2], bench.beside)]
    table = Table("connectors: processor ms a request, by the number of users", heads, [(1, 0), (2, 0)])
    with ExitStack() as stack:
        servers = [stack.enter_context(bench.server(content, program=program)) for content, program in made]
        by_texts = [Ask(f"search by {name}", ask, 100) for name, ask in data.TEXTS]
        add_rows(bench, table, servers, [GET, BY_NAME, *by_texts, IN_ANY_GROUP])
    return table


def group_asks(number):
    """What the group of a number is asked."""
    path = f"/Groups/{data.id_of(data.FIRST_GROUP + number)}"

    bare, members_gone = path + "?excludedAttributes=members", itertools.count(10)
    asked = f'id eq "{path[8:]}" and members eq "{data.id_of(1)}"'

    def add(target):
        return lambda _server, own: data.patch(target, "add", "members", [{"value": data.id_of(5_000_000 + own)}])

    def rename(_server, own):
        return data.patch(bare, "replace", "displayName", f"Team {own}")

    def remove(_server, _own):
        return data.patch(bare, "remove", f'members[value eq "{data.id_of(next(members_gone))}"]')

    return [Ask("GET", lambda _server, _own: data.request("GET", path), 4),
            Ask("GET without the members", lambda _server, _own: data.request("GET", bare), 20),
            Ask("is it a member", lambda _server, _own: data.search("Groups", asked, "&attributes=id"), 20),
            Ask("PATCH that adds a member", add(path), 4), Ask("the same, replied without the members", add(bare), 4),
            Ask("PATCH that removes a member, likewise", remove, 4), Ask("PATCH of the name, likewise", rename, 4)]


def members(bench):
    """a group of 100, 1,000 and 9,900 members: GET, is it a member, and PATCH, with the cache and without"""
    heads = [*bench.lists, *(["beside"] if bench.beside else [])]
    table = Table("members: processor ms a request, by the members of the group", heads, [(1, 0), (2, 0)])
    content = (bench.sizes[1], 0, tuple(bench.lists))
    for end, options in BOTH:
        with ExitStack() as stack:
            server = stack.enter_context(bench.server(content, *options))
            other = stack.enter_context(bench.server(content, *options, program=bench.beside)) if bench.beside else None
            for asks in zip(*map(group_asks, range(len(bench.lists)))):
                pairs = [(server, ask) for ask in asks] + ([(other, asks[-1])] if other else [])
                table.add(asks[0].name + end, bench.middles(pairs))
    return table


def rules(bench):
    """policies of 10, 100 and 1,000 rules: all for the client, all but one for another, with targets that never hold"""
    counts = [10, 100, 1_000]
    table = Table("rules: processor ms a request, by the number of rules", counts, [(1, 0), (2, 0)])
    for form in ("fitting", "other client", "target"):
        with ExitStack() as stack:
            servers = [stack.enter_context(bench.server((bench.sizes[1], 1), policy=data.policy(count, form)))
                       for count in counts]
            add_rows(bench, table, servers, [GET, PUT, PAGE, UNINDEXED], form + ": ")
    return table


def values(bench):
    """rules for reading with a value filter on emails: none, one and ten, before the rule that allows all"""
    counts = [0, 1, 10]
    table = Table("values: processor ms a request, by the rules with a value filter", counts, [(1, 0), (2, 0)])
    with ExitStack() as stack:
        servers = [stack.enter_context(bench.server((bench.sizes[1], 1), policy=data.policy_with_filters(count)))
                   for count in counts]
        add_rows(bench, table, servers, [GET, BY_NAME, PAGE, UNINDEXED, BY_EMAIL])
    return table


def cache(bench):
    """requests with the cache and without: users in ten groups of 100, in one large group, and in none"""
    table = Table("cache: processor ms a request", ["cache", "no cache"], [(1, 0)])
    size, largest = bench.sizes[1], bench.lists[2]
    for prefix, content, asks in (("ten groups: ", (size, 10), [GET, BY_NAME, PATCH, PAGE, SORTED, UNINDEXED]),
                                  (f"a group of {largest:,}: ", (size, 0, (largest,)), [GET, PAGE]),
                                  ("no groups: ", (size, 0), [GET, PAGE, UNINDEXED])):
        with bench.server(content) as one, bench.server(content, "--no-cache") as other:
            add_rows(bench, table, [one, other], asks, prefix)
    return table


def memory(bench):
    """memory of a server with the cache and without, and what each user more takes"""
    half, whole = bench.sizes[2] // 2, bench.sizes[2]
    table = Table("memory: MB of the server, and KiB for each user more", [half, whole, "KiB a user"])
    for end, options in BOTH:
        held = []
        for size in (half, whole):
            with bench.server((size,), *options) as server:
                bench.figure(server, UNINDEXED)
                held.append(server.memory_mb())
        table.add("server" + end, held + [(held[1] - held[0]) * 1e6 / 1024 / (whole - half)])
    return table


def first_reply(bench, size, options):
    """Processor and elapsed milliseconds from the start of a server to its first reply."""
    with bench.server((size, 1), *options) as server:
        server.connect()
        server.ask(data.get(server, 1))
        return server.processor_ms(), (time.perf_counter() - server.begun) * 1000


def once_ms(bench, size):
    """Processor milliseconds of a GET by `once`, the middle of three."""
    words = [bench.program, "once", *bench.files[:2], "--users", bench.users_file(size, 1), "--client", "hr"]
    runs = [run_ms(words, data.get(SimpleNamespace(users=size), 1)) for _ in range(3)]
    if not all(printed.startswith(b"HTTP/1.1 200 ") for _, printed in runs):
        raise RuntimeError("once doesn't find the user")
    return median(spent for spent, _ in runs)


def start(bench):
    """an import, the start of a server up to its first reply, and a GET by `scimd once` over a users file"""
    table = Table("start: ms, by the number of users", bench.sizes, [(1, 0), (2, 0)])
    table.add("import, processor", [bench.database(size, 1)[1] for size in bench.sizes])
    for end, options in BOTH:
        rounds = [[first_reply(bench, size, options) for size in bench.sizes] for _ in range(3)]
        for place, what in enumerate(("processor", "elapsed")):
            figures = [median(figures[place] for figures in column) for column in zip(*rounds)]
            table.add(f"to the first reply, {what}{end}", figures)
    table.add("once, processor", [once_ms(bench, size) for size in bench.sizes])
    return table


def replayed_ms(bench, ask, count):
    """Processor milliseconds of a replay of so many requests."""
    lines = [f"{data.MOMENT} {data.id_of(1 << 40)} joined 1"]
    for number in range(1, count + 1):
        message = ask.make(SimpleNamespace(users=bench.sizes[0]), number)
        lines.append(f"{data.MOMENT} {data.id_of((1 << 40) + number)} piece 1 {message.hex()}")
    files = bench.files + ["--users", bench.users_file(bench.sizes[0], 1)]
    spent, printed = run_ms([bench.program, "replay", *files, "--events", bench.write("events", "\n".join(lines))])
    if printed.count(b"write 1 " + b"HTTP/1.1 20".hex().encode()) != count:
        raise RuntimeError(f"a replayed request isn't answered: {printed[:300]!r}")
    return spent


def replay(bench):
    """requests by `scimd replay`, in memory and without sockets, beside those of a server"""
    heads = ["replay", "serve", "serve, elapsed"]
    table = Table(f"replay: ms a request, over {bench.sizes[0]:,} users", heads, [(1, 0), (2, 1)])
    with bench.server((bench.sizes[0], 1)) as server:
        for ask, rounds in ((GET, 30), (BY_NAME, 30), (PATCH, 10), (CREATE, 50), (PAGE, 20)):
            count = ask.count * rounds
            few, many = (median(replayed_ms(bench, ask, number) for _ in range(3)) for number in (1, count))
            bench.figure(server, ask)
            served = zip(*(bench.figure(server, ask) for _ in range(bench.rounds)))
            table.add(ask.name, [(many - few) / (count - 1), *map(median, served)])
    return table


def body_asks(count):
    """What is asked with lists of so many values."""
    values = [{"value": data.id_of(place)} for place in range(count)]

    def new_group(server, listed):
        made = data.request("POST", "/Groups", {"displayName": "Team", "members": listed})
        return "/Groups/" + json.loads(server.ask(made, 201))["id"]

    def create(_server, own):
        emails = [{"value": f"user{place}@example.com"} for place in range(count)]
        return data.request("POST", "/Users", {"userName": f"new{own}", "emails": emails})

    def fill(server, _own):
        return data.patch(new_group(server, []), "add", "members", values)

    def take(server, _own):
        return data.patch(new_group(server, values), "remove", "members", values[:count // 10])

    return [Ask("create with so many emails", create, 1, 201), Ask("PATCH that adds so many members", fill, 1),
            Ask("PATCH that removes a tenth of so many", take, 1)]


def bodies(bench):
    """requests with lists of 1,000 and of 10,000 values"""
    counts = [bench.lists[1], bench.lists[1] * 10]
    table = Table("bodies: processor ms a request, by the values of a list", counts, [(1, 0)])
    with bench.server((bench.sizes[0],)) as server:
        for asks in zip(*map(body_asks, counts)):
            table.add(asks[0].name, bench.middles([(server, ask) for ask in asks]))
    return table
