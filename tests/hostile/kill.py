#!/usr/bin/env python3
"""Kills a server under load again and again, and looks at what its database holds. Nothing acknowledged is lost; a
request under way is there with its row of the audit, or neither is; the numbers of the rows have no gap."""
import os
import random
import threading
import time

from changes import Changes, audited, exported
from server import Server, write_files
from trials import options, tried

SHORTEST = 0.02  # seconds between the start and the kill


class Load(threading.Thread):
    """A connection whose client sends one request after another until the server is gone."""

    def __init__(self, server, changes):
        super().__init__(daemon=True)
        self.server, self.changes, self.count, self.fault = server, changes, 0, None

    def run(self):
        try:
            client = self.server.connect()
            while True:
                self.changes.ask(client)
                self.count += 1
        except OSError:
            pass  # the server was killed
        except RuntimeError as fault:
            self.fault = fault


def loaded(server, all_changes, seconds):
    """How many requests were answered until the kill."""
    loads = [Load(server, changes) for changes in all_changes]
    for load in loads:
        load.start()
    time.sleep(seconds)
    server.kill()
    for load in loads:
        load.join()
        if load.fault:
            raise load.fault
    return sum(load.count for load in loads)


def killed_at_start(server, seconds):
    """Starts a server, and kills it before it may listen."""
    server.launch()
    time.sleep(seconds)
    server.kill()


def run(program, folder, chosen):
    writers = [f"writer{number}" for number in range(chosen.connections)]
    write_files(folder, writers)
    source, first, answered = random.Random(chosen.seed), 1, 0
    database = os.path.join(folder, "store.db")
    all_changes = [Changes(writer, f"{chosen.seed} {writer}") for writer in writers]
    for number in range(1, chosen.count + 1):
        server = Server(program, folder)
        if number % 5 == 0:
            killed_at_start(server, source.uniform(0, 0.05))
        server.start()
        answered += loaded(server, all_changes, source.uniform(SHORTEST, chosen.longest))
        users, rows = exported(program, database), audited(program, database, first)
        first += len(rows)
        for fault in filter(None, [changes.fault(users, rows) for changes in all_changes]):
            raise RuntimeError(f"after kill {number}: {fault}")
        if number % 20 == 0:
            print(f"{number} kills, {answered} requests answered, {first - 1} rows, {len(users)} users", flush=True)
    if len(audited(program, database, 1)) != first - 1:
        raise RuntimeError("rows of the audit are lost")
    return answered


def main():
    parser = options(__doc__, "kills", 200)
    parser.add_argument("--connections", type=int, default=6, metavar="N", help="clients at once (default 6)")
    parser.add_argument("--longest", type=float, default=0.4, metavar="SECONDS",
                        help="the most seconds between a start and its kill (default 0.4)")
    chosen = parser.parse_args()
    answered = tried("kill", run, chosen)
    print(f"kill: {chosen.count} kills, {answered} requests answered, none lost")


if __name__ == "__main__":
    main()
