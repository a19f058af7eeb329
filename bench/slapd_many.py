"""Requests of 64 connections at once beside those of OpenLDAP's slapd, which logs all requests as scimd does."""
import os
import subprocess
import time
from contextlib import contextmanager
from statistics import median

import data
from connections import answered
from measuring import Ask, Table
from slapd import PLACES, lacking

CONNECTIONS = 64
URL = "ldap://127.0.0.1:3891"
CLIENTS = os.path.join(os.path.dirname(os.path.abspath(__file__)), "ldap_clients.py")
ASKS = [("read", Ask("GET by id", data.get, 1)), ("change", Ask("PATCH of a title", data.retitle, 1)),
        ("create", Ask("create", data.create, 1, 201))]


def entries():
    """The LDIF of the root, of `hr` and of 10,000 users."""
    yield "dn: dc=example\nobjectClass: dcObject\nobjectClass: organization\ndc: example\no: x\n"
    yield "dn: uid=hr,dc=example\nobjectClass: inetOrgPerson\nuid: hr\ncn: hr\nsn: hr\nuserPassword: hr\n"
    for number in range(10_000):
        yield (f"dn: uid=user{number},dc=example\nobjectClass: inetOrgPerson\nuid: user{number}\ncn: user{number}\nsn: s\n"
               f"title: Chief\nmail: u{number}@example.com\n")


@contextmanager
def logging_slapd(folder, anchor):
    """slapd over 10,000 users, with its access log, in a folder of its own."""
    run, places = os.path.join(folder, "slapd"), {**os.environ, "PATH": PLACES}
    for part in ("db", "log"):
        os.makedirs(os.path.join(run, part))
    with open(os.path.join(anchor, "audited.conf.in"), encoding="utf-8") as file:
        text = file.read().replace("RUNDIR", run)
    paths = [os.path.join(run, name) for name in ("slapd.conf", "users.ldif")]
    for path, content in zip(paths, (text, "\n".join(entries()))):
        with open(path, "w", encoding="utf-8") as file:
            file.write(content)
    subprocess.run(["slapadd", "-q", "-b", "dc=example", "-f", paths[0], "-l", paths[1]], env=places, check=True)
    server = subprocess.Popen(["slapd", "-d", "0", "-f", paths[0], "-h", URL], env=places)
    try:
        time.sleep(2)
        yield
    finally:
        server.kill()
        server.wait()


def slapd_per_second(name, seconds):
    words = ["/usr/bin/python3", CLIENTS, URL, name, str(CONNECTIONS), str(seconds)]
    return float(subprocess.run(words, stdout=subprocess.PIPE, text=True, check=True).stdout)


def slapd_many(bench):
    """requests a second of 64 connections beside slapd, which logs all requests; skipped where it isn't installed"""
    reason = lacking(bench.slapd)
    if reason is not None:
        return f"slapd_many: skipped, {reason}"
    table = Table("slapd_many: requests a second of 64 connections, over 10,000 users on a disk", ["slapd with log", "scimd"],
                  [(1, 0)])
    seconds = bench.round_ms / 1000
    with bench.server((10_000,)) as server, logging_slapd(bench.folder, bench.slapd):
        for name, ask in ASKS:
            rounds = []
            for _ in range(bench.rounds):
                heard, spent = answered(server, ask, CONNECTIONS, 1_000_000, seconds)
                rounds.append((slapd_per_second(name, seconds), heard / spent))
            table.add(ask.name, [median(column) for column in zip(*rounds)])
    return table
