#!/usr/bin/env python3
"""A full disk and a device that fails: what is answered 500 isn't done (but for a change whose sync fails, which may
be there after a start), and what was acknowledged stays. The server goes on; after a failed sync it ends with status 1.
The same with several clients at once: where the device fails, the whole round is answered 500, and the next is served.
The full disk is a small tmpfs, which only root may mount; the device fails by strace, call by call."""
import argparse
import concurrent.futures
import contextlib
import os
import shutil
import subprocess
import sys
import tempfile

from changes import Changes, audited, exported
from server import SECONDS, Server, request, write_files

MIB = 1_048_576
FAILURES = ["pwrite64:error=EIO:when=200..260", "fdatasync:error=EIO:when=50..60", "pwrite64:error=ENOSPC:when=90..400",
            "ftruncate:error=EIO:when=1..2"]
ONE_WRITE = "pwrite64:error=EIO:when=300"
CLIENTS = 16
SHUT = "scimd: the database is shut after a failed write"


def asked(changes, server, count):
    """How many of so many requests are answered 500; each other one is answered as usual."""
    client = server.connect(60)
    refused = sum(changes.ask(client) == 500 for _ in range(count))
    client.close()
    return refused


def checked(program, database, changes):
    """RuntimeError unless the database holds what was acknowledged and nothing that was refused."""
    fault = changes.fault(exported(program, database), audited(program, database, 1))
    if fault:
        raise RuntimeError(fault)


@contextlib.contextmanager
def small_disk(path, size):
    os.mkdir(path)
    subprocess.run(["mount", "-t", "tmpfs", "-o", f"size={size}", "tmpfs", path], check=True)
    try:
        yield
    finally:
        subprocess.run(["umount", path], check=True)


def full(program, folder):
    """A disk that gets full while the server writes, and on which room is made again."""
    write_files(folder)
    changes = Changes("writer", "full")
    disk = os.path.join(folder, "disk")
    with small_disk(disk, 8 * MIB):
        filler = os.path.join(disk, "filler")
        with open(filler, "wb") as file:
            file.write(bytes(7 * MIB))
        with Server(program, folder, database="disk/store.db") as server:
            refused = until_full(changes, server)
            status, _ = server.connect(60).ask(request("GET", "/ServiceProviderConfig"))
            if status != 200:
                raise RuntimeError(f"status {status} for a page of discovery while the disk is full")
            refused += asked(changes, server, 50)
            os.remove(filler)
            later = asked(changes, server, 20)
        Server(program, folder, database="disk/store.db").__enter__().kill()
        checked(program, os.path.join(disk, "store.db"), changes)
    print(f"full disk: {changes.count} requests, {refused} answered 500, {later} of 20 after room was made; "
          "nothing acknowledged is lost")


def until_full(changes, server):
    for _ in range(100):
        refused = asked(changes, server, 50)
        if refused:
            return refused
    raise RuntimeError("the disk doesn't get full")


def failing(program, folder, failure, clients):
    """A device that fails at some calls, and a start after it. A server whose sync fails ends by itself."""
    writers = [f"writer{number}" for number in range(clients)]
    write_files(folder, writers)
    all_changes = [Changes(writer, failure + writer) for writer in writers]
    under = ["strace", "-f", "-o", "/dev/null", "-e", f"trace={failure.split(':')[0]}", "-e", f"inject={failure}"]
    is_sync = failure.startswith("fdatasync")
    with Server(program, folder, under=under) as server:
        refused, has_ended = all_asked(all_changes, server, 300)
        if is_sync or has_ended:
            check_end(server)
    if failure == ONE_WRITE and not has_ended and not 1 <= refused <= clients:
        raise RuntimeError(f"{refused} requests of one round are answered 500")
    Server(program, folder).__enter__().kill()
    for changes in all_changes:
        if is_sync:
            # The log has the change whose sync failed, and nobody knows whether the disk has it.
            changes.step = changes.first_refused
        checked(program, os.path.join(folder, "store.db"), changes)
    print(f"{failure}, {clients} at once: {sum(changes.count for changes in all_changes)} requests, {refused} answered "
          "500; nothing acknowledged is lost")


def all_asked(all_changes, server, count):
    """How many of so many requests of each client are answered 500, and whether the server ended before the last."""
    with concurrent.futures.ThreadPoolExecutor(len(all_changes)) as pool:
        told = list(pool.map(lambda changes: asked_to_its_end(changes, server, count), all_changes))
    return sum(refused for refused, _ in told), any(has_ended for _, has_ended in told)


def asked_to_its_end(changes, server, count):
    """How many of so many requests are answered 500, and whether the server ended before the last of them."""
    client, refused = server.connect(60), 0
    try:
        for _ in range(count):
            refused += changes.ask(client) == 500
        return refused, False
    except ConnectionError:
        return refused, True
    finally:
        client.close()


def check_end(server):
    """RuntimeError unless the server ends by itself, since its database is shut."""
    status = server.process.wait(SECONDS)
    told = server.process.stderr.read().decode(errors="replace").splitlines()
    if status != 1 or told[-1:] != [SHUT]:
        raise RuntimeError(f"exit status {status}: {told[-2:]}")


def runs():
    """The runs that this machine allows."""
    if os.geteuid() == 0:
        yield full, ()
    else:
        print("full disk: left out, since only root may mount a tmpfs")
    if shutil.which("strace"):
        yield from ((failing, (failure, 1)) for failure in FAILURES)
        yield from ((failing, (failure, CLIENTS)) for failure in [ONE_WRITE, *FAILURES])
    else:
        print("failing device: left out, since it needs strace")


def main():
    parser = argparse.ArgumentParser(description=__doc__)
    parser.add_argument("scimd", help="the program")
    program, bad = os.path.abspath(parser.parse_args().scimd), False
    for run, words in runs():
        with tempfile.TemporaryDirectory(prefix="scimd-disk-") as folder:
            try:
                run(program, folder, *words)
            except (OSError, RuntimeError, subprocess.SubprocessError) as fault:
                print(f"{run.__name__} {' '.join(map(str, words))}: BAD: {fault}")
                bad = True
    sys.exit(1 if bad else 0)


if __name__ == "__main__":
    main()
