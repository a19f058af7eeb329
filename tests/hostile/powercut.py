#!/usr/bin/env python3
"""Images of a power cut: strace records what a server writes and syncs while clients change users, each its own. Each
image has the calls up to a random one; of what was written since the last sync of its file it has any part. It is
opened by `scimd export` and `scimd audit`. All that was acknowledged is there; what was under way is there, or isn't,
with its row of the audit."""
import codecs
import os
import random
import re
import shutil
import sys
import threading
from collections import namedtuple

from changes import Changes, audited, exported
from server import Client, Server, write_files
from trials import options, tried

SECTOR = 512
CALLS = "pwrite64,write,sendto,fsync,fdatasync,ftruncate,unlink"
LINE = re.compile(rb"^\d+ +(\w+)\(\d+<((?:->|[^>])*)>(?:, (.*))?\) += (\d+)")
REMOVAL = re.compile(rb'^\d+ +unlink\("([^"]*)"\) += 0')
TEXT = re.compile(rb'"((?:[^"\\]|\\.)*)"(.*)')
Call = namedtuple("Call", "name file data place")  # a write's place, the length of `ftruncate`, or a client's port
PORT = re.compile(r":(\d+)\]$")  # at the end of what strace says of a socket


def parsed(path, folder):
    """The calls on the files of a folder, and a `Call` named `reply` for each reply that a client was sent."""
    with open(path, "rb") as lines:
        for line in lines:
            removed = REMOVAL.match(line)
            if removed:
                yield Call("unlink", os.path.basename(removed.group(1).decode()), b"", 0)
            found = LINE.match(line)
            if not found:
                continue
            name, target, words, result = found.groups()
            target = codecs.escape_decode(target)[0].decode()
            text = TEXT.match(words or b"")
            data = codecs.escape_decode(text.group(1))[0] if text else b""
            if name in (b"sendto", b"write") and data.startswith(b"HTTP/1.1 "):
                yield Call("reply", None, data, int(PORT.search(target).group(1)))
            elif os.path.dirname(target) == folder:
                yield on_file(name.decode(), os.path.basename(target), data, words, text, int(result))


def on_file(name, file, data, words, text, result):
    if name == "pwrite64":
        if text.group(2).startswith(b"..."):
            raise RuntimeError("a write is longer than what strace shows of it")
        return Call(name, file, data[:result], int(text.group(2).split(b",")[-1]))
    if name == "ftruncate":
        return Call(name, file, b"", int(words))
    if name in ("fsync", "fdatasync"):
        return Call("sync", file, b"", 0)
    raise RuntimeError(f"a call that this script doesn't replay: {name} on {file}")


class File:
    """A file on a disk: what a sync has made durable, and the calls since."""

    def __init__(self, data):
        self.durable, self.pending = bytearray(data), []

    def call(self, call):
        if call.name == "sync":
            for one in self.pending:
                apply(self.durable, one)
            self.pending = []
        else:
            self.pending.append(call)

    def image(self, source):
        """What a power cut leaves: a part of the pending calls, whole or sector by sector."""
        data = bytearray(self.durable)
        way = source.choice(["none", "all", "front", "some", "sectors", "torn"])
        front = source.randint(0, len(self.pending))
        for number, call in enumerate(self.pending):
            if way == "all" or way in ("front", "torn") and number < front:
                apply(data, call)
            elif way == "torn" and number == front:
                apply(data, call._replace(data=call.data[:source.randint(0, len(call.data))]))
            elif way == "some" and source.random() < 0.5:
                apply(data, call)
            elif way == "sectors":
                apply_sectors(data, call, source)
        return data


def apply(data, call):
    if call.name == "ftruncate":
        data[call.place:] = bytes(max(0, call.place - len(data)))
        return
    if call.data:
        data.extend(bytes(max(0, call.place - len(data))))
        data[call.place:call.place + len(call.data)] = call.data


def apply_sectors(data, call, source):
    """Any sectors of a write; a sector behind the end that isn't written has what lay on the disk before."""
    if call.name == "ftruncate":
        if source.random() < 0.5:
            apply(data, call)
        return
    for at in range(0, len(call.data), SECTOR):
        end = min(at + SECTOR, len(call.data))
        if source.random() < 0.5:
            apply(data, call._replace(data=call.data[at:end], place=call.place + at))
        elif source.random() < 0.1 and call.place + at >= len(data):
            apply(data, call._replace(data=source.randbytes(end - at), place=call.place + at))


class Recorded(threading.Thread):
    """A client, its port, and the states of its users after each of its requests."""

    def __init__(self, server, name, count, seed):
        super().__init__(daemon=True)
        self.client, self.count, self.changes = Client(server.port), count, Changes(name, seed)
        self.port = self.client.socket.getsockname()[1]
        self.name, self.states, self.fault = name, [{}], None

    def run(self):
        try:
            for _ in range(self.count):
                self.changes.ask(self.client)
                self.states.append({name: title for name, title in self.changes.users.values()})
        except (OSError, RuntimeError) as fault:
            self.fault = fault
        self.client.close()

    def is_found(self, users, rows, acknowledged):
        """Whether a store has the client's requests up to the last acknowledged one, or one more; None if neither."""
        mine = {name: title for name, title in users.items() if name.startswith(self.name + "-")}
        count = sum(client == self.name for client, *_ in rows)
        for done in (acknowledged, acknowledged + 1):
            if done < len(self.states) and mine == self.states[done] and count == done:
                return done > acknowledged
        return None


def record(program, folder, chosen):
    """Runs a server under strace; its clients by port."""
    names = [f"writer{number}" for number in range(chosen.connections)]
    write_files(folder, names)
    store = os.path.join(folder, "store")
    os.mkdir(store)
    traced = ["strace", "-f", "-yy", "-x", "-s", "4000000", "-e", f"trace={CALLS}", "-e", "signal=none", "-o",
              os.path.join(folder, "trace")]
    count = max(1, chosen.requests // chosen.connections)
    server = Server(program, folder, "--connections", str(chosen.connections), database="store/store.db", under=traced)
    with server:
        clients = [Recorded(server, name, count, f"{chosen.seed} {name}") for name in names]
        for client in clients:
            client.start()
        for client in clients:
            client.join()
            if client.fault:
                raise client.fault
        server.process.wait(120)
    return {client.port: client for client in clients}


def cut(program, folder, chosen, clients):
    """Makes the images in the order of the calls, and opens each; how many had what wasn't acknowledged yet."""
    source = random.Random(chosen.seed)
    store = os.path.join(folder, "store")
    calls = list(parsed(os.path.join(folder, "trace"), store))
    replies, asked = sum(call.name == "reply" for call in calls), sum(client.count for client in clients.values())
    if replies != asked:
        raise RuntimeError(f"{replies} replies in the trace, not {asked}")
    first = next(at for at, call in enumerate(calls) if call.name == "reply")
    cuts = sorted(source.randint(first if source.random() < 0.9 else 0, len(calls)) for _ in range(chosen.count))
    files, at, acknowledged, ahead = {}, 0, dict.fromkeys(clients, 0), 0
    for number, end in enumerate(cuts, 1):
        for call in calls[at:end]:
            if call.name == "reply":
                acknowledged[call.place] += 1
            elif call.name == "unlink":
                files.pop(call.file, None)
            else:
                files.setdefault(call.file, File(b"")).call(call)
        at = end
        ahead += opened(program, folder, files, source, acknowledged, clients)
        if number % 200 == 0:
            print(f"{number} images, {sum(acknowledged.values())} requests acknowledged", flush=True)
    return ahead


def opened(program, folder, files, source, acknowledged, clients):
    """Opens an image; whether it has a request under way. RuntimeError if it lacks one that was acknowledged."""
    image = os.path.join(folder, "image")
    shutil.rmtree(image, ignore_errors=True)
    os.mkdir(image)
    for name, file in files.items():
        with open(os.path.join(image, name), "wb") as out:
            out.write(file.image(source))
    database = os.path.join(image, "store.db")
    behind = f"behind {sum(acknowledged.values())} replies"
    try:
        users, rows = dict(exported(program, database).values()), audited(program, database, 1)
    except RuntimeError as fault:
        if not any(acknowledged.values()):  # the database may not be made yet, and a start makes it
            with Server(program, folder, database="image/store.db"):
                return False
        raise RuntimeError(f"{behind}: {fault}") from fault
    ahead = False
    for port, client in clients.items():
        found = client.is_found(users, rows, acknowledged[port])
        if found is None:
            raise RuntimeError(f"{behind}: {client.name} was acknowledged {acknowledged[port]} requests, and the image "
                               "has something else")
        ahead = ahead or found
    return ahead


def run(program, folder, chosen):
    """How many images have a request that wasn't acknowledged yet."""
    return cut(program, folder, chosen, record(program, folder, chosen))


def main():
    parser = options(__doc__, "images", 2_000)
    parser.add_argument("--requests", type=int, default=400, metavar="N", help="requests that are recorded (400)")
    parser.add_argument("--connections", type=int, default=1, metavar="N", help="clients at once (default 1)")
    chosen = parser.parse_args()
    if not shutil.which("strace"):
        sys.exit("powercut: needs strace, which isn't on this machine")
    ahead = tried("powercut", run, chosen)
    print(f"powercut: {chosen.count} images, all with what was acknowledged, {ahead} with a request under way")


if __name__ == "__main__":
    main()
