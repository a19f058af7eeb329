"""The program: `scimd serve` with a connection, and commands that end by themselves."""
import glob
import itertools
import os
import resource
import select
import socket
import subprocess
import time
from http.client import HTTPResponse

SECONDS = 300  # no start, no reply and no command takes longer


class Server:
    """`scimd serve` on a free port of 127.0.0.1; the end of the `with` kills it and removes its database."""

    def __init__(self, words, database, users):
        self.database, self.users = database, users
        self.numbers = itertools.count(1)  # each request has a number of its own
        self.socket = None
        self.begun = time.perf_counter()
        self.process = subprocess.Popen([*words, "--db", database, "--port", "0"], stdout=subprocess.PIPE)

    def __enter__(self):
        try:
            ready, _, _ = select.select([self.process.stdout], [], [], SECONDS)
            line = self.process.stdout.readline().decode() if ready else ""
            if not line.startswith("listening on 127.0.0.1:"):
                raise RuntimeError(f"the server doesn't listen: {line!r}")
            self.port = int(line.rsplit(":", 1)[1])
        except BaseException:
            self.__exit__()
            raise
        return self

    def __exit__(self, *_fault):
        self.close()
        self.process.kill()
        self.process.wait()
        self.process.stdout.close()
        for path in glob.glob(self.database + "*"):
            os.remove(path)

    def close(self):
        if self.socket is not None:
            self.socket.close()

    def connect(self):
        """Opens a connection in place of the last one, which the server closes after 60 idle seconds."""
        self.close()
        self.socket = socket.create_connection(("127.0.0.1", self.port), SECONDS)
        self.socket.setsockopt(socket.IPPROTO_TCP, socket.TCP_NODELAY, 1)

    def ask(self, message, status=200):
        """The body of the reply to a message, which has the status."""
        self.socket.sendall(message)
        reply = HTTPResponse(self.socket)
        reply.begin()
        body = reply.read()
        if reply.status != status:
            raise RuntimeError(f"status {reply.status} in place of {status}: {message[:200]!r} {body[:300]!r}")
        return body

    def processor_ms(self):
        """Milliseconds that the server's threads have had a processor since the start."""
        total = 0
        for path in glob.glob(f"/proc/{self.process.pid}/task/*/schedstat"):
            with open(path, encoding="ascii") as file:
                total += int(file.read().split()[0])
        return total / 1e6

    def memory_mb(self):
        """Megabytes of memory that the server holds."""
        with open(f"/proc/{self.process.pid}/status", encoding="ascii") as file:
            return next(int(line.split()[1]) * 1024 / 1e6 for line in file if line.startswith("VmRSS:"))


def run_ms(words, given=b""):
    """Processor milliseconds of a command that must succeed, and what it prints."""
    before = resource.getrusage(resource.RUSAGE_CHILDREN)
    done = subprocess.run(words, input=given, stdout=subprocess.PIPE, timeout=SECONDS, check=True)
    after = resource.getrusage(resource.RUSAGE_CHILDREN)
    return (after.ru_utime + after.ru_stime - before.ru_utime - before.ru_stime) * 1000, done.stdout
