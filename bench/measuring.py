"""Servers over databases that are made once, the middle of several rounds of requests, and tables."""
import itertools
import os
import shutil
import time
from collections import namedtuple
from statistics import median

import data
from server import Server, run_ms

# `make(server, number)` gives the bytes of a request; a round asks so many of them, or fewer where these take too long.
Ask = namedtuple("Ask", "name make count status", defaults=[200])


class Bench:
    """A run: the program, a folder for its files, how large and how often."""

    def __init__(self, program, beside, folder, quick, slapd):
        self.program, self.beside, self.folder, self.slapd = program, beside, folder, slapd
        self.sizes = [300, 1_000, 3_000] if quick else [1_000, 10_000, 100_000]  # users
        self.lists = [30, 300, 900] if quick else [100, 1_000, 9_900]  # members of a group
        self.rounds, self.round_ms = (3, 100) if quick else (7, 1_000)
        self.imports, self.copies = {}, itertools.count()
        self.files = ["--policy", self.write("policy.json", data.policy()),
                      "--tokens", self.write("tokens", data.TOKENS)]

    def write(self, name, text):
        path = os.path.join(self.folder, name)
        with open(path, "w", encoding="utf-8") as file:
            file.write(text)
        return path

    def users_file(self, *content):
        """The path of a users file, which is written at the first call."""
        path = os.path.join(self.folder, f"users-{content}.json".replace(" ", ""))
        if not os.path.exists(path):
            data.write_users_file(path, *content)
        return path

    def database(self, *content):
        """The database of a users file, and the processor milliseconds of its import, which the first call makes."""
        users = self.users_file(*content)
        if users not in self.imports:
            self.imports[users] = run_ms([self.program, "import", "--db", users + ".db", "--users", users])[0]
        return users + ".db", self.imports[users]

    def server(self, content, *options, policy=None, program=None):
        """A server over a copy of the database; by default `hr` may do everything."""
        original, _ = self.database(*content)
        copy = os.path.join(self.folder, f"copy-{next(self.copies)}.db")
        for end in ("", "-wal"):
            if os.path.exists(original + end):
                shutil.copyfile(original + end, copy + end)
        files = self.files if policy is None else ["--policy", self.write("rules.json", policy), *self.files[2:]]
        return Server([program or self.program, "serve", *files, *options], copy, content[0])

    def middles(self, pairs):
        """For each server and what it is asked, the middle of the processor milliseconds a request, asked in turn."""
        for server, ask in pairs:
            self.figure(server, ask)
        rounds = [[self.figure(server, ask)[0] for server, ask in pairs] for _ in range(self.rounds)]
        return [median(column) for column in zip(*rounds)]

    def figure(self, server, ask):
        """Processor and elapsed milliseconds of the server for one request, in the mean of a round."""
        server.connect()
        messages = [ask.make(server, next(server.numbers)) for _ in range(ask.count)]
        before, begun, done, elapsed = server.processor_ms(), time.perf_counter(), 0, 0
        while done < len(messages) and elapsed < self.round_ms:
            server.ask(messages[done], ask.status)
            done, elapsed = done + 1, (time.perf_counter() - begun) * 1000
        return (server.processor_ms() - before) / done, elapsed / done


class Table:
    """Rows of figures, and behind them the ratios of these pairs of columns."""

    def __init__(self, title, heads, pairs=()):
        heads = [f"{head:,}" if isinstance(head, int) else head for head in heads]
        self.title, self.pairs = title, pairs
        self.rows = [("", heads + [f"{heads[over]} / {heads[under]}" for over, under in pairs])]

    def add(self, name, figures):
        shown = [f"{one:.3f}" if one < 10 else f"{one:,.1f}" for one in figures]
        self.rows.append((name, shown + [f"{figures[over] / figures[under]:.2f}" for over, under in self.pairs]))

    def __str__(self):
        widths = [max(len(cells[place]) for _, cells in self.rows) for place in range(len(self.rows[0][1]))]
        first = max(len(name) for name, _ in self.rows)
        return "\n".join([self.title] + ["  " + name.ljust(first) + "".join(
            "  " + cell.rjust(width) for cell, width in zip(cells, widths)) for name, cells in self.rows])
