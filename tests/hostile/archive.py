#!/usr/bin/env python3
"""Kills `scimd archive` at random moments and at each call that changes a file, lets such calls fail, and fills the disk.
Each time the database has its resources, and it or the archive has all rows; then the archive is made to the end. Also
archives that are refused, and databases that are reached or made in another way."""
import os
import random
import re
import shutil
import sqlite3
import subprocess
import time

from archives import Source, archive, must, parts
from full_disk import MIB, small_disk
from server import Server
from trials import options, tried

USERS, REQUESTS = 2_000, 1_000
# The calls that change files, or make changes last. Of the frequent ones some are tried, from the first to the last.
CALLS = ["openat", "rename", "unlink", "fsync", "fdatasync", "ftruncate", "chmod", "chown", "pwrite64", "write"]
MOST = 12
FAILURES = {"openat": "EMFILE", "pwrite64": "ENOSPC", "write": "ENOSPC"}  # the others fail with EIO


def killed_at_random(source, chosen):
    """Kills the command within the time that it takes."""
    moments, states = random.Random(chosen.seed), []
    begun = time.perf_counter()
    must(archive(source.program, source.copy()) == (0, ""), "the command fails")
    seconds = time.perf_counter() - begun
    for _ in range(chosen.count):
        folder = source.copy()
        words = [source.program, "archive", "--db", "store.db", "--to", "old.db"]
        with subprocess.Popen(words, cwd=folder, stdout=subprocess.DEVNULL, stderr=subprocess.DEVNULL) as process:
            time.sleep(moments.uniform(0, seconds))
            process.kill()
        states.append(source.state(folder))
        source.end(folder, states[-1])
    print(f"killed at random: {told(states)}, within {seconds * 1000:.0f} ms", flush=True)


def told(states):
    return ", ".join(f"{states.count(state)} times {state}" for state in ("before", "archived", "done"))


def counted(source):
    """How often the command makes each of the calls."""
    trace = os.path.join(source.folder, "trace")
    under = ["strace", "-f", "-o", trace, "-e", f"trace={','.join(CALLS)}"]
    must(archive(source.program, source.copy(), under=under) == (0, ""), "the command fails under strace")
    with open(trace, encoding="ascii", errors="replace") as lines:
        found = [re.match(r"\d+ +(\w+)\(", line) for line in lines]
    return {call: sum(1 for it in found if it and it.group(1) == call) for call in CALLS}


def places(counts):
    """Each call and its number among the calls of its name; of frequent ones some."""
    for call, count in counts.items():
        step = max(1, count // MOST)
        yield from ((call, number) for number in range(1, count + 1, step))


def killed_at_calls(source, counts):
    """Kills the command before a call."""
    states = []
    for call, number in places(counts):
        folder = source.copy()
        archive(source.program, folder, under=injecting(call, f"signal=SIGKILL:when={number}"))
        states.append(source.state(folder))
        source.end(folder, states[-1])
    print(f"killed at calls: {told(states)}", flush=True)


def injecting(call, what):
    return ["strace", "-f", "-o", "/dev/null", "-e", f"trace={call}", "-e", f"inject={call}:{what}"]


def failing_at_calls(source, counts):
    """Lets a call fail. The command reports it and removes its parts, or goes on without it."""
    states = []
    for call, number in places(counts):
        folder, error = source.copy(), FAILURES.get(call, "EIO")
        status, said = archive(source.program, folder, under=injecting(call, f"error={error}:when={number}"))
        states.append(source.state(folder))
        where = f"{call} {number}: status {status}, {said!r}, {states[-1]}"
        must(status == 0 and said == "" or status == 1 and re.fullmatch("scimd: [^\n]+(\n  [^\n]+)?", said), where)
        must(status == 1 or states[-1] == "done", where)
        must(call == "unlink" or not parts(folder), f"{where}: {parts(folder)} are left over")
        source.end(folder, states[-1])
    print(f"failing calls: {told(states)}", flush=True)


def full_disk(source):
    """A disk with less and less room than the archive and the new database need."""
    states = []
    size = sum(os.path.getsize(os.path.join(source.made, name)) for name in os.listdir(source.made))
    for room in range(4 * size, 0, -size // 4):
        disk = os.path.join(source.folder, "disk")
        with small_disk(disk, size + room):
            folder = shutil.copytree(source.made, os.path.join(disk, "run"))
            status, said = archive(source.program, folder)
            states.append(source.state(folder))
            must((status, said, states[-1]) == (0, "", "done") or status == 1 and states[-1] == "before",
                 f"room for {room} bytes: status {status}, {said!r}, {states[-1]}")
            must(not parts(folder), f"room for {room} bytes: {parts(folder)} are left over")
        os.rmdir(disk)
    must({"before", "done"} == set(states), f"a full disk: only {states}")
    print(f"full disk of {size // MIB} MiB and more: {told(states)}", flush=True)


def make(folder, name):
    with open(os.path.join(folder, name), "xb") as file:
        file.write(b"not a database")
    os.chmod(os.path.join(folder, name), 0o600)


def no_log(folder):
    os.remove(os.path.join(folder, "store.db-wal"))


REFUSED = [  # what is changed before, the archive, and the rest of the message
    (lambda folder: make(folder, "old.db"), "old.db", ": it exists"),
    (lambda folder: make(folder, "old.db-wal"), "old.db", ": it exists"),
    (lambda folder: make(folder, "old.db-journal"), "old.db", ": it exists"),
    (lambda folder: os.mkdir(os.path.join(folder, "old.db"), 0o700), "old.db", ": it exists"),
    (lambda folder: os.symlink("nowhere", os.path.join(folder, "old.db")), "old.db", ": it exists"),
    (None, "store.db", ": it exists"),
    (None, "../run/store.db-wal", ": it exists"),
    (None, "store.db-journal", ""),
    (None, "store.db.archiving", ""),
    (None, "store.db.archiving-wal", ""),
    (None, "missing/old.db", ""),
    (None, "..", ""),
]


def refused(source):
    """Archives that can't be made, because of their names."""
    for change, to, rest in REFUSED:
        folder = source.copy()
        if change:
            change(folder)
        before = sorted(os.listdir(folder))
        source.refuse(folder, f"scimd: cannot archive to {to}{rest}", to=to)
        must(sorted(os.listdir(folder)) == before, f"{to}: files are left over")
        source.state(folder, to="none")
    folder = source.copy()
    for name in os.listdir(folder):
        os.rename(os.path.join(folder, name), os.path.join(folder, name.replace("store.db", "old.db.archiving")))
    source.refuse(folder, "scimd: cannot archive to old.db", database="old.db.archiving")
    source.state(folder, database="old.db.archiving", to="none")
    source.refuse(folder, "scimd: cannot read missing.db", database="missing.db")
    make(folder, "text.db")
    source.refuse(folder, "scimd: database: cannot be used", database="text.db")
    source.state(folder, database="old.db.archiving", to="none")
    print(f"refused: {len(REFUSED) + 3} archives", flush=True)


def in_use(source):
    """A database that a server has open, and the parts of an archive beside it that another run may be making."""
    folder = source.copy()
    make(folder, "store.db.archiving")
    with Server(source.program, source.folder, database="run/store.db") as server:
        source.refuse(folder, "scimd: database: cannot be used")
        server.connect().close()
    must(parts(folder) == ["store.db.archiving"], "a run that can't open the database removed a part")
    must(source.state(folder) == "before", "a database in use is archived")
    source.end(folder, "before")


def reached_otherwise(source):
    """A link to the database, an archive in another folder, an empty file, and a database of version 1."""
    folder = source.copy()
    os.symlink("run/store.db", os.path.join(source.folder, "link.db"))
    os.mkdir(os.path.join(folder, "kept"), 0o700)
    must(archive(source.program, source.folder, "link.db", "run/kept/old.db") == (0, ""), "a link fails")
    must(os.path.islink(os.path.join(source.folder, "link.db")), "the link is replaced")
    must(source.state(folder, to="kept/old.db") == "done", "a database behind a link isn't archived")
    folder = source.copy()
    open(os.path.join(folder, "empty.db"), "xb").close()
    os.chmod(os.path.join(folder, "empty.db"), 0o600)
    must(archive(source.program, folder, "empty.db", "none.db") == (0, ""), "an empty file fails")
    with sqlite3.connect(os.path.join(folder, "store.db")) as database:
        database.executescript("DROP TABLE secret; UPDATE setting SET number = 1 WHERE name = 'version'")
    database.close()
    must(archive(source.program, folder) == (0, ""), "a database of version 1 fails")
    must(source.state(folder) == "done", "a database of version 1 isn't archived")


def run(program, folder, chosen):
    source = Source(program, folder, USERS, REQUESTS)
    killed_at_random(source, chosen)
    if shutil.which("strace"):
        counts = counted(source)
        killed_at_calls(source, counts)
        failing_at_calls(source, counts)
    else:
        print("calls: left out, since they need strace")
    if os.geteuid() == 0:
        full_disk(source)
    else:
        print("full disk: left out, since only root may mount a tmpfs")
    refused(source)
    in_use(source)
    reached_otherwise(source)


def main():
    chosen = options(__doc__, "kills at random", 20).parse_args()
    tried("archive", run, chosen)
    print("archive: no row and no resource is lost")


if __name__ == "__main__":
    main()
