#!/usr/bin/env python3
"""Rounds: strace records what a server reads, writes and syncs while several clients change and read users. No byte of a
reply is sent before its round is synced: since the request came, the database was synced, and nothing of it is written
that isn't. Tells how many syncs there were for each request, and how many replies followed each."""
import codecs
import os
import re
import shutil
import sys
import threading
from collections import namedtuple

from changes import Changes, audited, exported
from server import Client, Server, write_files
from trials import options, tried

WRITES = ("pwrite64", "pwritev", "pwritev2", "ftruncate")
SYNCS = ("fsync", "fdatasync")
READS = ("read", "recvfrom", "recvmsg", "readv")
SENDS = ("write", "sendto", "sendmsg", "writev")
CALLS = ",".join(WRITES + SYNCS + READS + SENDS)
LINE = re.compile(rb"^\d+ +(\w+)\((\d+)<([^>]*)>(.*)\) += (\d+)$")
START = b"HTTP/1.1 "
Call = namedtuple("Call", "name number target starts_reply")  # a call that did something, and the number of its file


def parsed(path):
    """The calls in order. Of what was sent it is known whether it begins with a status line."""
    with open(path, "rb") as lines:
        for line in lines:
            if b"<unfinished ...>" in line or b" resumed>" in line:
                raise RuntimeError("the server has more than one thread, which this script can't follow")
            found = LINE.match(line)
            if not found:
                continue
            name, number, target, words, result = found.groups()
            if name.decode() in READS + SENDS and result == b"0":
                continue  # the end of a stream
            yield Call(name.decode(), int(number), codecs.escape_decode(target)[0].decode(errors="replace"),
                       b'"' + START in words)


class Watch:
    """What was written and not synced, when each connection was last read, and the replies between two syncs."""

    def __init__(self, folder):
        self.folder, self.written, self.syncs, self.read_at = folder, {}, 0, {}
        self.replies, self.since_sync, self.rounds = 0, 0, []

    def see(self, call):
        """Takes notice of a call; what is wrong with it, or None."""
        if os.path.dirname(call.target) == self.folder:
            self.see_file(call)
        elif call.name in READS:
            self.read_at[call.number] = self.syncs
        elif call.name in SENDS and call.starts_reply:
            self.replies += 1
            self.since_sync += 1
            if self.written:
                return f"{self.written} isn't synced"
            if self.read_at.get(call.number) == self.syncs:
                return "no file was synced since its request came"
        return None

    def see_file(self, call):
        if call.name in SYNCS:
            self.syncs += 1
            self.written.pop(os.path.basename(call.target), None)
            if self.since_sync:
                self.rounds.append(self.since_sync)
            self.since_sync = 0
        elif call.name in WRITES + ("write",):
            name = os.path.basename(call.target)
            self.written[name] = self.written.get(name, 0) + 1


def load(port, changes, requests, faults):
    """Sends so many requests over one connection, one after another."""
    try:
        client = Client(port, 60)
        for _ in range(requests):
            changes.ask(client)
        client.close()
    except (OSError, RuntimeError) as fault:
        faults.append(fault)


def record(program, folder, chosen):
    """Runs a server under strace until its clients have left; the clients."""
    writers = [f"writer{number}" for number in range(chosen.connections)]
    write_files(folder, writers)
    os.mkdir(os.path.join(folder, "store"))
    traced = ["strace", "-f", "-y", "-x", "-s", str(len(START)), "-e", f"trace={CALLS}", "-e", "signal=none", "-o",
              os.path.join(folder, "trace")]
    server = Server(program, folder, "--connections", str(len(writers)), database="store/store.db", under=traced)
    all_changes, faults = [Changes(writer, f"{chosen.seed} {writer}") for writer in writers], []
    with server:
        loads = [threading.Thread(target=load, args=(server.port, changes, chosen.count, faults), daemon=True)
                 for changes in all_changes]
        for one in loads:
            one.start()
        for one in loads:
            one.join()
        if faults:
            raise faults[0]
        server.process.wait(60)
    return all_changes


def run(program, folder, chosen):
    """What was seen. RuntimeError if a reply came too early, or the database isn't what was answered."""
    all_changes = record(program, folder, chosen)
    watch = Watch(os.path.join(folder, "store"))
    for call in parsed(os.path.join(folder, "trace")):
        fault = watch.see(call)
        if fault:
            raise RuntimeError(f"reply {watch.replies} was sent too early: {fault}")
    wanted = chosen.count * chosen.connections
    if watch.replies != wanted:
        raise RuntimeError(f"{watch.replies} replies in the trace, not {wanted}")
    database = os.path.join(folder, "store", "store.db")
    users, rows = exported(program, database), audited(program, database, 1)
    for fault in filter(None, [changes.fault(users, rows) for changes in all_changes]):
        raise RuntimeError(fault)
    return watch


def main():
    parser = options(__doc__, "requests of each connection", 100)
    parser.add_argument("--connections", type=int, default=16, metavar="N", help="clients at once (default 16)")
    chosen = parser.parse_args()
    if not shutil.which("strace"):
        sys.exit("rounds: needs strace, which isn't on this machine")
    watch = tried("rounds", run, chosen)
    print(f"rounds: {watch.replies} replies, none before its sync; {watch.syncs / watch.replies:.2f} syncs a request, "
          f"up to {max(watch.rounds + [watch.since_sync])} replies behind one sync")


if __name__ == "__main__":
    main()
