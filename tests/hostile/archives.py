"""A database with resources and rows of the audit, `scimd archive` over copies of it, and what it may leave."""
import json
import os
import shutil
import subprocess
from collections import namedtuple

from changes import Changes
from server import Server, write_files

ENDING = ".archiving"  # what the names of files end in that aren't in place yet, and of their logs before `-wal`
Held = namedtuple("Held", "resources rows")  # what `export` and `audit` print of a database


def printed(program, *words):
    done = subprocess.run([program, *words], stdout=subprocess.PIPE, stderr=subprocess.PIPE, timeout=300, check=False)
    if done.returncode:
        raise RuntimeError(f"{words[0]} {words[2]}: {done.stderr.decode(errors='replace').strip()}")
    return done.stdout


def held(program, database):
    return Held(printed(program, "export", "--db", database),
                printed(program, "audit", "--db", database, "--count", "1000000000"))


def must(holds, what):
    if not holds:
        raise RuntimeError(what)


def archive(program, folder, database="store.db", to="old.db", under=()):
    """Runs the command in a folder; its status, and what it printed."""
    done = subprocess.run([*under, program, "archive", "--db", database, "--to", to], cwd=folder,
                          stdout=subprocess.PIPE, stderr=subprocess.PIPE, timeout=300, check=False)
    return done.returncode, (done.stdout + done.stderr).decode(errors="replace").strip()


def users(count):
    moment = "2024-01-01T00:00:00Z"
    return [{"id": f"00000000-0000-4000-8000-{number:012}", "userName": f"user{number}", "title": "x" * (number % 400),
             "meta": {"created": moment, "lastModified": moment, "resourceType": "User"}} for number in range(count)]


class Source:
    """A database, as a server leaves it that is killed: its log has commits that its file doesn't have yet."""

    def __init__(self, program, folder, count, requests):
        self.program, self.folder = program, folder
        self.made = os.path.join(folder, "made")
        os.mkdir(self.made)
        write_files(folder)
        file = os.path.join(folder, "users.json")
        with open(file, "w", encoding="ascii") as out:
            json.dump(users(count), out)
        printed(program, "import", "--db", os.path.join(self.made, "store.db"), "--users", file)
        changes = Changes("writer", "archive")
        with Server(program, folder, database="made/store.db") as server:
            client = server.connect(60)
            for _ in range(requests):
                changes.ask(client)
            client.close()
        self.held = held(program, os.path.join(self.copy(), "store.db"))
        must(self.held.rows.count(b"\n") == requests, "a request has no row")

    def copy(self, name="run"):
        """A new folder with a copy of the database."""
        return copied(self.made, os.path.join(self.folder, name))

    def state(self, folder, database="store.db", to="old.db", due=None):
        """What a folder holds: the database as it was and no archive (`before`), both (`archived`), or the archive and
        the new database (`done`). RuntimeError if something is lost, or can be read by others."""
        due = due or self.held
        for name in os.listdir(folder):
            mode = os.lstat(os.path.join(folder, name)).st_mode
            must(not mode & 0o077 or os.path.islink(os.path.join(folder, name)), f"{name} has the mode {mode:o}")
        look = copied(folder, os.path.join(self.folder, "look"))
        found = held(self.program, os.path.join(look, database))
        must(found.resources == due.resources, "the database has other resources")
        if not os.path.lexists(os.path.join(look, to)):
            must(found.rows == due.rows, "there is no archive, and the database has other rows")
            return "before"
        must(held(self.program, os.path.join(look, to)) == due, "the archive isn't as the database was")
        if found.rows == due.rows and due.rows:
            return "archived"
        must(found.rows == b"", "the database has some of its rows")
        return "done"

    def end(self, folder, state):
        """Archives again where the command was broken off and left this state, to its end."""
        due, to = self.held, "old.db"
        if state != "before":
            self.refuse(folder, "scimd: cannot archive to old.db: it exists")
            to = "older.db"
        if state == "done":
            due = Held(self.held.resources, b"")
        must(archive(self.program, folder, to=to) == (0, ""), "the next archive fails")
        must(self.state(folder, to=to, due=due) == "done", "the next archive does nothing")
        must(not parts(folder), f"{parts(folder)} are left over")

    def refuse(self, folder, told, **how):
        """Archives where that is refused with these words on the first line, and checks that nothing is lost by it."""
        status, found = archive(self.program, folder, **how)
        must((status, found.split("\n")[0]) == (1, told), f"{how}: expected {told!r}, found {found!r}")


def copied(folder, to):
    shutil.rmtree(to, ignore_errors=True)
    return shutil.copytree(folder, to, symlinks=True)


def parts(folder):
    """The files in a folder that aren't in place yet, and their logs."""
    return [name for name in os.listdir(folder) if name.endswith((ENDING, ENDING + "-wal"))]
