"""`scimd serve` over a new database, its clients, and what it costs."""
import contextlib
import hashlib
import json
import os
import select
import signal
import socket
import subprocess
import threading
import time
from urllib.parse import quote

SECONDS = 60  # no start takes longer
USER = "urn:ietf:params:scim:schemas:core:2.0:User"
GROUP = "urn:ietf:params:scim:schemas:core:2.0:Group"
PATCH_OP = "urn:ietf:params:scim:api:messages:2.0:PatchOp"
CLIENTS = ["reader", "other", "titles"]
RULES = [
    {"allow": True, "clients": ["reader", "other"], "ops": ["read"], "paths": ["*"]},
    {"allow": True, "clients": ["titles"], "ops": ["read"], "paths": ["id", "userName", "title"]},
    {"allow": True, "clients": ["titles"], "ops": ["modify"], "paths": ["id", "title"]},
]


class TooDear(Exception):
    """A request for which the server used more processor time than it may; nobody waits for its end."""

    def __init__(self, seconds):
        super().__init__(seconds)
        self.seconds = seconds


def token(client):
    return f"token-of-{client}"


def write_files(folder, writers=("writer",)):
    """The policy and the token file: writers may do all, reader and other may read, titles may change titles."""
    rules = [{"allow": True, "clients": list(writers), "ops": ["read", "create", "modify", "delete"], "paths": ["*"]},
             *RULES]
    with open(os.path.join(folder, "policy.json"), "w", encoding="ascii") as file:
        json.dump({"version": 1, "rules": [{**rule, "types": ["User", "Group"]} for rule in rules]}, file)
    with open(os.path.join(folder, "tokens"), "w", encoding="ascii") as file:
        for client in [*writers, *CLIENTS]:
            file.write(f"{client} {hashlib.sha256(token(client).encode()).hexdigest()}\n")


def request(method, target, client=None, body=None, more=""):
    """The bytes of a request; without a client it has no token."""
    head = f"{method} {target} HTTP/1.1\r\nHost: localhost\r\n{more}"
    if client is not None:
        head += f"Authorization: Bearer {token(client)}\r\n"
    if body is None:
        return (head + "\r\n").encode()
    data = body if isinstance(body, bytes) else json.dumps(body, separators=(",", ":")).encode()
    return f"{head}Content-Type: application/scim+json\r\nContent-Length: {len(data)}\r\n\r\n".encode() + data


def search(kind, text, client, rest=""):
    return request("GET", f"/{kind}?filter={quote(text)}{rest}", client)


def read_reply(file):
    """The status and the body of the next reply; ConnectionError if none comes."""
    line = file.readline()
    if not line.startswith(b"HTTP/1.1 ") or not line.endswith(b"\r\n"):
        raise ConnectionError(f"no reply: {line!r}")
    length, header = 0, file.readline()
    while header != b"\r\n":
        if not header:
            raise ConnectionError("a head ended early")
        name, _, value = header.partition(b":")
        if name.lower() == b"content-length":
            length = int(value)
        header = file.readline()
    body = file.read(length)
    if len(body) != length:
        raise ConnectionError("a reply ended early")
    return int(line.split()[1]), body


class Client:
    """A connection."""

    def __init__(self, port, seconds=None):
        self.socket = socket.create_connection(("127.0.0.1", port), seconds or SECONDS)
        self.socket.settimeout(seconds)
        self.socket.setsockopt(socket.IPPROTO_TCP, socket.TCP_NODELAY, 1)
        self.file = self.socket.makefile("rb")

    def ask(self, message):
        self.socket.sendall(message)
        return read_reply(self.file)

    def close(self):
        self.file.close()
        self.socket.close()


def schedule_ns(path):
    """Nanoseconds with a processor, and ready to run without one."""
    with open(path, encoding="ascii") as file:
        ran, waited, _ = file.read().split()
    return int(ran), int(waited)


class Server:
    """A server on a free port; the end of the `with` kills it. It may run under another program, such as strace."""

    def __init__(self, program, folder, *options, database="store.db", under=()):
        self.words = [*under, program, "serve", "--policy", os.path.join(folder, "policy.json"), "--tokens",
                      os.path.join(folder, "tokens"), "--db", os.path.join(folder, database), "--port", "0", *options]
        self.is_under, self.process = bool(under), None

    def __enter__(self):
        self.start()
        return self

    def __exit__(self, *_fault):
        self.kill()

    def launch(self):
        """Starts the program, which doesn't listen yet."""
        self.process = subprocess.Popen(self.words, bufsize=0, stdout=subprocess.PIPE, stderr=subprocess.PIPE)

    def start(self):
        self.launch()
        self.port = self.told_port("listening on")

    def told_port(self, words):
        """The port in the next line that the program prints: these words and an address."""
        ready, _, _ = select.select([self.process.stdout], [], [], SECONDS)
        line = self.process.stdout.readline().decode() if ready else ""
        if not line.startswith(f"{words} 127.0.0.1:"):
            self.process.kill()
            raise RuntimeError(f"the server doesn't listen: {line!r} {self.complaint()!r}")
        return int(line.rsplit(":", 1)[1])

    def complaint(self):
        """What the program said on standard error, after its end."""
        return self.process.communicate()[1].decode(errors="replace")

    def kill(self):
        if self.is_under:
            kill_children(self.process.pid)
            with contextlib.suppress(subprocess.TimeoutExpired):
                self.process.wait(5)  # it ends behind the server, which has the lock on the database until then
        self.process.kill()
        self.process.wait()
        for stream in filter(None, (self.process.stdout, self.process.stderr)):
            stream.close()

    def connect(self, seconds=None):
        return Client(self.port, seconds)

    def ran(self):
        """Seconds for which the server had a processor since its start."""
        return schedule_ns(f"/proc/{self.process.pid}/schedstat")[0] / 1e9

    def waited(self):
        """Seconds for which the server was ready and others had the processors."""
        return schedule_ns(f"/proc/{self.process.pid}/schedstat")[1] / 1e9

    def memory_mib(self, field):
        with open(f"/proc/{self.process.pid}/status", encoding="ascii") as file:
            return next(int(line.split()[1]) / 1024 for line in file if line.startswith(field + ":"))

    def forget_peak(self):
        """From now on VmHWM is the peak since this call."""
        with open(f"/proc/{self.process.pid}/clear_refs", "w", encoding="ascii") as file:
            file.write("5")

    def cost(self, client, message, status, most=None):
        """Processor seconds for one message, which is answered with one of these statuses."""
        before = self.ran()
        client.socket.settimeout(None)
        threading.Thread(target=send_all, args=(client.socket, message), daemon=True).start()
        while not select.select([client.socket], [], [], 0.2)[0]:
            if most is not None and self.ran() - before > most:
                raise TooDear(self.ran() - before)
        found, body = read_reply(client.file)
        if found not in status:
            raise RuntimeError(f"status {found} in place of {status}: {message[:200]!r} {body[:300]!r}")
        return self.ran() - before

    def create(self, body, kind="Users"):
        """The id of a new resource."""
        client = self.connect()
        status, answer = client.ask(request("POST", f"/{kind}", "writer", body))
        client.close()
        if status != 201:
            raise RuntimeError(f"status {status} for a create: {answer[:300]!r}")
        return json.loads(answer)["id"]


def kill_children(parent):
    try:
        with open(f"/proc/{parent}/task/{parent}/children", encoding="ascii") as file:
            for child in file.read().split():
                os.kill(int(child), signal.SIGKILL)
    except OSError:
        pass  # it has ended


def send_all(to, message):
    try:
        to.sendall(message)
    except OSError:
        pass  # the reader of the reply notices


class Probe(threading.Thread):
    """Another client that reads a user by id again and again. How long it waits for a reply leaves out the time in
    which other programs had the processors."""

    def __init__(self, server, user):
        super().__init__(daemon=True)
        self.server, self.message = server, request("GET", f"/Users/{user}", "other")
        self.longest, self.count, self.begun, self.fault = 0.0, 0, None, None
        self.settled, self.ending = threading.Event(), threading.Event()  # settled: a few replies have come

    def __enter__(self):
        self.client = self.server.connect()
        self.start()
        return self

    def run(self):
        try:
            while not self.ending.is_set():
                self.begun = self.now()
                status, _ = self.client.ask(self.message)
                if status != 200:
                    raise RuntimeError(f"status {status} for another client's GET")
                self.longest = max(self.longest, self.now() - self.begun)
                self.begun = None
                self.count += 1
                if self.count == 3:
                    self.settled.set()
                time.sleep(0.005)
        except (OSError, RuntimeError) as fault:
            self.fault = fault

    def now(self):
        mine = schedule_ns(f"/proc/self/task/{self.native_id}/schedstat")[1] / 1e9
        return time.perf_counter() - self.server.waited() - mine

    def __exit__(self, *_fault):
        self.ending.set()

    def wait(self, seconds):
        """The longest wait for a reply. One that doesn't come within these seconds counts as far as it got."""
        self.ending.set()
        self.join(seconds)
        begun = self.begun
        if self.is_alive() and begun is not None:
            return max(self.longest, self.now() - begun)
        return float("inf") if self.fault else self.longest
