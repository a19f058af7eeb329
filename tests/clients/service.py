"""The program, servers of it over new databases, and clients that ask them."""
import hashlib
import http.client
import json
import os
import subprocess
from urllib.parse import quote, urlencode

from checks import PATCH_OP, Reply
from hostile.server import Server, token

SECONDS = 60  # no reply and no command takes longer
ALL = ["read", "create", "modify", "delete"]
CLIENT = "connector"  # the client that may do everything, where a suite has no other policy


def rule(clients, ops=ALL, paths=("*",), types=("User", "Group"), allow=True, **more):
    """A rule of a policy."""
    return {"allow": allow, "clients": list(clients), "ops": list(ops), "types": list(types), "paths": list(paths),
            **more}


def policy(*rules, version=1):
    return json.dumps({"version": version, "rules": rules}, indent=1)


def digest_line(client, text=None):
    """The line of a client in a token file."""
    return f"{client} {hashlib.sha256((text or token(client)).encode()).hexdigest()}\n"


def write(folder, name, text):
    """Writes a file, and returns its path."""
    path = os.path.join(folder, name)
    with open(path, "w", encoding="utf-8") as file:
        file.write(text)
    return path


def write_files(folder, clients=(CLIENT,), rules=None):
    """The policy, and a token for each of these clients. Without other rules each of them may do everything."""
    write(folder, "policy.json", policy(*(rules or [rule(clients)])))
    write(folder, "tokens", "".join(map(digest_line, clients)))


class Program:
    """The built program, and what its help knows."""

    def __init__(self, path):
        self.path, self.helps = path, {}

    def run(self, *words, stdin=b"", folder=None):
        """How a command ends: its status, and the texts on standard output and standard error."""
        done = subprocess.run([self.path, *words], input=stdin, capture_output=True, timeout=SECONDS, check=False,
                              cwd=folder)
        return done.returncode, done.stdout.decode(errors="replace"), done.stderr.decode(errors="replace")

    def help(self, *command):
        if command not in self.helps:
            self.helps[command] = "".join(self.run(*command, "--help")[1:])
        return self.helps[command]

    def has(self, word, *command):
        """Whether the help of a command, or of the program, has this word."""
        return word in self.help(*command).replace("=", " ").split()


class LoggedServer(Server):
    """A server over files of a folder. `log` has what it says on standard error."""

    def __init__(self, program, folder, *options, **more):
        super().__init__(program.path, folder, *options, **more)
        self.log_path = os.path.join(folder, "log")

    def launch(self):
        with open(self.log_path, "ab") as log:
            self.process = subprocess.Popen(self.words, bufsize=0, stdout=subprocess.PIPE, stderr=log)

    def complaint(self):
        self.process.wait()
        return self.log()[-2:]

    def log(self):
        with open(self.log_path, encoding="utf-8", errors="replace") as file:
            return file.read().splitlines()

    def connector(self, name=CLIENT, **more):
        return Connector(self.port, name, **more)


class AdminServer(LoggedServer):
    """A server with a port for administrators; the token is that of `ops`."""

    def __init__(self, program, folder, *options, **more):
        path = write(folder, "admin-tokens", digest_line("ops"))
        super().__init__(program, folder, "--admin-port", "0", "--admin-tokens", path, *options, **more)

    def start(self):
        super().start()
        self.admin_port = self.told_port("administrator on")

    def admin(self, method, path, /, **query):
        """The reply at the administrator's port."""
        connector = Connector(self.admin_port, "ops")
        reply = connector.ask(method, with_query(path, query))
        connector.close()
        return reply


def with_query(path, query):
    return f"{path}?{urlencode(query, quote_via=quote)}" if query else path


class Connector:
    """A client, whose connection stays open. Without a name it has no token."""

    def __init__(self, port, name=CLIENT, scheme="Bearer", kind="application/scim+json"):
        self.connection = http.client.HTTPConnection("127.0.0.1", port, timeout=SECONDS)
        self.headers = {"Content-Type": kind, "Accept": kind}
        if name is not None:
            self.headers["Authorization"] = f"{scheme} {token(name)}"

    def ask(self, method, target, body=None, **headers):
        """The reply to a request. A body that isn't bytes is sent as JSON."""
        if body is not None and not isinstance(body, bytes):
            body = json.dumps(body).encode()
        self.connection.request(method, target, body, {**self.headers, **headers})
        response = self.connection.getresponse()
        names = {name.lower(): value for name, value in response.getheaders()}
        return Reply(response.status, names, response.read())

    def get(self, path, /, **query):
        return self.ask("GET", with_query(path, query))

    def find(self, path, text, /, **query):
        """The reply to a search by a filter."""
        return self.get(path, filter=text, **query)

    def post(self, path, body, **query):
        return self.ask("POST", with_query(path, query), body)

    def put(self, path, body, **query):
        return self.ask("PUT", with_query(path, query), body)

    def patch(self, path, *operations, **query):
        return self.ask("PATCH", with_query(path, query), {"schemas": [PATCH_OP], "Operations": list(operations)})

    def delete(self, path):
        return self.ask("DELETE", path)

    def close(self):
        self.connection.close()


def op(name, path=None, *value):
    """An operation of a PATCH; without a path it has none."""
    found = {"op": name} if path is None else {"op": name, "path": path}
    return {**found, "value": value[0]} if value else found


def patching(suite, client, path):
    """A function that has a client send one operation, or a list of them, and checks the reply."""
    def patched(name, operations, *conditions, status=200, choice=None):
        operations = operations if isinstance(operations, list) else [operations]
        return suite.reply(name, client.patch(path, *operations), status, *conditions, choice=choice)
    return patched


def started(suite, folder=None, clients=(CLIENT,), rules=None, kind=LoggedServer, options=()):
    """A server, not started yet, over a new database in this folder, or in a new one."""
    folder = folder or suite.new_folder(suite.name)
    write_files(folder, clients, rules)
    return kind(suite.program, folder, *options)
