#!/usr/bin/python3
"""Asks slapd on so many connections at once. Prints how many requests a second it answers. Needs python3-ldap."""
import sys
import threading
import time

import ldap

USERS = 10_000


def read(connection, number):
    connection.search_s(f"uid=user{number % USERS},dc=example", ldap.SCOPE_BASE, "(objectClass=*)", ["uid", "mail", "title"])


def change(connection, number):
    connection.modify_s(f"uid=user{number % USERS},dc=example", [(ldap.MOD_REPLACE, "title", [b"Boss%d" % number])])


def create(connection, number):
    name = b"new%d" % number
    connection.add_s(f"uid=new{number},dc=example",
                     [("objectClass", b"inetOrgPerson"), ("uid", name), ("cn", name), ("sn", b"s"), ("mail", name + b"@example.com")])


def client(url, ask, first, seconds, all_bound, counts, place):
    connection = ldap.initialize(url)
    connection.simple_bind_s("uid=hr,dc=example", "hr")
    all_bound.wait()
    number, end = first, time.time() + seconds
    while time.time() < end:
        ask(connection, number)
        counts[place], number = counts[place] + 1, number + len(counts)


def main():
    url, name, connections, seconds = sys.argv[1], sys.argv[2], int(sys.argv[3]), float(sys.argv[4])
    ask = {"read": read, "change": change, "create": create}[name]
    counts, all_bound = [0] * connections, threading.Barrier(connections + 1)
    first = int(time.time() * 1000) % 1_000_000_000 * 100  # names that no earlier run made
    threads = [threading.Thread(target=client, args=(url, ask, first + place, seconds, all_bound, counts, place))
               for place in range(connections)]
    for thread in threads:
        thread.start()
    all_bound.wait()
    begun = time.time()
    for thread in threads:
        thread.join()
    print(sum(counts) / (time.time() - begun))


main()
