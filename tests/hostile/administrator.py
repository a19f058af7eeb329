"""A server with an administrator's port, and what an administrator asks there."""
import contextlib
import hashlib
import http.client
import os
import re
import socket
import subprocess
import time
from collections import namedtuple
from urllib.parse import urlencode

from server import SECONDS, Server, request, token, write_files

ADMIN = "ops"
NAME = r"[a-zA-Z_:][a-zA-Z0-9_:]*"
SAMPLE = re.compile(rf"({NAME})(?:\{{(.*)\}})? ([0-9]+(?:\.[0-9]+)?)")
LABELS = re.compile(rf'(?:{NAME}="(?:[^"\\\n]|\\[\\"n])*"(?:,(?=.)|$))+')
LABEL = re.compile(rf'({NAME})="((?:[^"\\\n]|\\[\\"n])*)"')
SMALL = 4_096  # bytes of the receive buffer of a slow reader
Reply = namedtuple("Reply", "status headers body is_whole")


def line_of(name):
    """The line of a client or an administrator in a token file."""
    return f"{name} {hashlib.sha256(token(name).encode()).hexdigest()}\n"


def replace(path, text):
    """Gives a file another content, at once."""
    with open(path + ".new", "w", encoding="ascii") as file:
        file.write(text)
    os.replace(path + ".new", path)


def read(path):
    with open(path, "rb") as file:
        return file.read()


def expect(what, found, wanted):
    if found != wanted:
        raise RuntimeError(f"{what}: expected {str(wanted)[:300]!r}, found {str(found)[:300]!r}")


def command(program, *words, status=0):
    """What a command prints, which ends with this status: on standard output, or on standard error after a fault."""
    done = subprocess.run([program, *words], stdout=subprocess.PIPE, stderr=subprocess.PIPE, timeout=300, check=False)
    if done.returncode != status:
        raise RuntimeError(f"{words[0]}: exit status {done.returncode}: {done.stderr.decode(errors='replace').strip()}")
    return done.stderr if status else done.stdout


class Admin:
    """A connection to the administrator's port. It is opened again after a reply that was cut."""

    def __init__(self, port, name=ADMIN):
        self.connection = http.client.HTTPConnection("127.0.0.1", port, timeout=SECONDS)
        self.headers = {} if name is None else {"Authorization": f"Bearer {token(name)}"}

    def ask(self, method, path, parameters=()):
        self.connection.request(method, target_of(path, parameters), headers=self.headers)
        return taken(self.connection.getresponse(), self.connection)

    def get(self, path, parameters=()):
        """The body of a reply with status 200 that came whole."""
        reply = self.ask("GET", path, parameters)
        expect(f"GET {path}", (reply.status, reply.is_whole), (200, True))
        return reply.body

    def close(self):
        self.connection.close()


def target_of(path, parameters):
    return f"{path}?{urlencode(parameters)}" if parameters else path


def taken(response, connection):
    """A reply, and whether its body came to its end."""
    try:
        body, is_whole = response.read(), True
    except http.client.IncompleteRead as cut:
        body, is_whole = cut.partial, False
    except ConnectionResetError:
        body, is_whole = b"", False
    if not is_whole:
        connection.close()
    return Reply(response.status, response.headers, body, is_whole)


class SlowReader:
    """A connection with a small receive buffer, which takes the reply to one request in its own time."""

    def __init__(self, port, path, parameters=()):
        self.socket = socket.socket()
        self.socket.setsockopt(socket.SOL_SOCKET, socket.SO_RCVBUF, SMALL)
        self.socket.settimeout(SECONDS)
        self.socket.connect(("127.0.0.1", port))
        self.socket.sendall(request("GET", target_of(path, parameters), ADMIN))
        self.response = http.client.HTTPResponse(self.socket)
        self.response.begin()
        expect(f"status of GET {path}", self.response.status, 200)

    def take(self, count):
        """The next bytes of the body, at most so many."""
        return self.response.read(count)

    def rest(self):
        """The rest of the body, and whether it came to its end."""
        reply = taken(self.response, self.socket)
        self.socket.close()
        return reply.body, reply.is_whole


class AdminServer(Server):
    """A server with an administrator's port and an audit log. The file `log` of its folder has what it logs."""

    def __init__(self, program, folder, *options):
        self.folder, self.audit_log = folder, os.path.join(folder, "audit.log")
        self.database = os.path.join(folder, "store.db")
        super().__init__(program, folder, "--admin-port", "0", "--admin-tokens", os.path.join(folder, "admin-tokens"),
                         "--audit-log", self.audit_log, *options)
        self.accepted, self.log_file, self.log_start = 0, os.path.join(folder, "log"), 0

    def launch(self):
        with open(self.log_file, "ab") as log:
            self.log_start = log.tell()
            self.process = subprocess.Popen(self.words, bufsize=0, stdout=subprocess.PIPE, stderr=log)

    def start(self):
        super().start()
        self.admin_port = self.told_port("administrator on")

    def complaint(self):
        self.process.wait()
        return self.log()[-1:]

    def log(self):
        """The lines that the server said on standard error."""
        return read(self.log_file)[self.log_start:].decode(errors="replace").splitlines()

    def expect_logged(self, *lines):
        found = self.log()
        for line in lines:
            if f"scimd: {line}" not in found:
                raise RuntimeError(f"not logged: {line!r}, but {found[-4:]}")

    def connect(self, seconds=None):
        self.accepted += 1
        return super().connect(seconds)

    def admin(self, name=ADMIN):
        return Admin(self.admin_port, name)

    def ends(self, seconds):
        """The exit status of the server, which ends by itself within these seconds."""
        try:
            return self.process.wait(seconds)
        except subprocess.TimeoutExpired:
            raise RuntimeError(f"the server goes on for {seconds} s") from None

    def stop(self):
        """Stops the server by its administrator. It ends well."""
        reply = self.admin().ask("POST", "/stop")
        expect("POST /stop", (reply.status, reply.body), (200, b"stopping\n"))
        expect("exit status after a stop", self.ends(SECONDS), 0)
        self.expect_logged("the administrator stops the server")
        if not self.log()[-1].startswith("scimd: stopped"):
            raise RuntimeError(f"the last line of the log is {self.log()[-1]!r}")

    def reload(self, admin):
        """Has the files read again, which are all valid."""
        reply = admin.ask("POST", "/reload")
        expect("POST /reload", (reply.status, reply.body[:4]), (200, b"ok, "))
        self.expect_logged("reload: " + reply.body.decode().strip())


def write_all_files(folder, writers):
    """The files of `write_files`, and the administrators' tokens."""
    write_files(folder, writers)
    replace(os.path.join(folder, "admin-tokens"), line_of(ADMIN))


@contextlib.contextmanager
def administered(program, folder, writers, *options):
    """A running server over new files, which is killed at the end."""
    write_all_files(folder, writers)
    with AdminServer(program, folder, *options) as server:
        yield server


def figures_of(text):
    """The figures in a text in the format of Prometheus, by name and labels, and the names of those that only grow.
    RuntimeError if it isn't such a text."""
    helped, kinds, found, last = set(), {}, {}, None
    if not text.endswith("\n"):
        raise RuntimeError("metrics: the last line has no end")
    for line in text[:-1].split("\n"):
        words = line.split(" ", 3)
        if words[:2] == ["#", "HELP"] and len(words) == 4 and words[2] not in helped:
            last = words[2]
            helped.add(last)
        elif words[:2] == ["#", "TYPE"] and len(words) == 4 and words[2] == last and last not in kinds:
            kinds[last] = words[3]
        else:
            name, labels, figure = sample_of(line)
            if name != last or name not in kinds or (name, labels) in found:
                raise RuntimeError(f"metrics: {line!r} is out of place")
            found[name, labels] = figure
    expect("kinds of metrics", set(kinds.values()), {"counter", "gauge"})
    return found, {name for name, kind in kinds.items() if kind == "counter"}


def sample_of(line):
    """The name, the labels and the figure of a line."""
    match = SAMPLE.fullmatch(line)
    if not match or (match[2] and not LABELS.fullmatch(match[2])):
        raise RuntimeError(f"metrics: {line!r} is no sample")
    return match[1], tuple(sorted(LABEL.findall(match[2] or ""))), float(match[3])


def soon(what, finds, seconds=SECONDS):
    """Waits until the function finds something, and returns it."""
    end = time.monotonic() + seconds
    while time.monotonic() < end:
        found = finds()
        if found:
            return found
        time.sleep(0.02)
    raise RuntimeError(f"{what}: not within {seconds} s")
