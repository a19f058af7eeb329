#!/usr/bin/env python3
"""Measures the gate: processor seconds and loaded modules, crate by crate, in .ci/last-run.tsv.

    tools/gate_seconds.py                 runs `rt ci` from nothing and measures it
    tools/gate_seconds.py COMMAND ..      runs and measures another command, such as `rt ci scim_text`
    tools/gate_seconds.py --log LOG       reads the log of an earlier run

A log has no seconds by crate, so `--log` gives modules, functions and edits, and the total where the log ends with the
lines of `time`. A run is sampled twice a second: each process below the command counts for the crate that its
`--crate-name` says. What the samples miss, and `rt` itself, is in the row `other`; the row `total` is exact.
"""
import collections
import os
import re
import resource
import subprocess
import sys
import threading
import time

ROOT = os.path.dirname(os.path.dirname(os.path.abspath(__file__)))
TABLE = os.path.join(ROOT, ".ci", "last-run.tsv")
PARTS = ("proof", "edits", "program")
COUNTS = ("functions", "modules", "refused")
TICKS = os.sysconf("SC_CLK_TCK")
INTERVAL = 0.5


class Log:
    """What the lines of a log say of each crate."""

    def __init__(self):
        self.counts = collections.defaultdict(collections.Counter)
        self.crate = None
        self.end = ""
        self.total = None

    def read(self, line):
        if found := re.match(r"== (\w+)", line):
            self.crate = found[1]
        elif found := re.match(r"statements \w+: modules loaded=(\d+)", line):
            self.counts[self.crate]["modules"] += int(found[1])
        elif found := re.match(r"logic=proved functions=(\d+)", line):
            self.counts[self.crate]["functions"] += int(found[1])
        elif found := re.match(r"rt: must-fail (\w+)/\S+: refused", line):
            self.counts[found[1]]["refused"] += 1
        elif re.match(r"\d+ passed, \d+ failed", line):
            self.end = line.strip()
        elif found := re.match(r"(?:user|sys)\s+(\d+)m([\d.]+)s", line):
            self.total = (self.total or 0) + 60 * int(found[1]) + float(found[2])


def processes():
    """Yields each process: its id, its parent's, its start and its processor seconds so far, without its children's."""
    for name in os.listdir("/proc"):
        if name.isdigit():
            try:
                with open(f"/proc/{name}/stat") as file:
                    words = file.read().rpartition(") ")[2].split()
            except OSError:
                continue
            yield int(name), int(words[1]), words[19], (int(words[11]) + int(words[12])) / TICKS


def place_of(number):
    """Returns the crate and the part that a process works for, or None."""
    try:
        with open(f"/proc/{number}/cmdline", "rb") as file:
            words = file.read().decode(errors="replace").split("\0")
        folder = os.readlink(f"/proc/{number}/cwd")
    except OSError:
        return None
    crate = next((words[at + 1] for at, word in enumerate(words[:-1]) if word == "--crate-name"), None)
    if crate is None:
        return None
    if os.path.basename(folder).startswith("rt-edit"):
        return crate, "edits"
    return crate, "program" if "--backend" in words else "proof"


class Sampler:
    """The processor seconds of the processes below one, by crate and part."""

    def __init__(self, top):
        self.top = top
        self.places = {}
        self.latest = {}
        self.seconds = {}

    def sample(self):
        now = list(processes())
        below, parents = {self.top}, {number: parent for number, parent, _, _ in now}
        for number in parents:
            line = [number]
            while line[-1] in parents and line[-1] not in below and parents[line[-1]] not in line:
                line.append(parents[line[-1]])
            if line[-1] in below:
                below.update(line)
        for number, parent, start, seconds in now:
            if number in below and number != self.top:
                # a child such as a linker works for the crate of its parent
                self.places[number, start] = place_of(number) or self.places.get((number, start)) or self.latest.get(parent)
                self.latest[number] = self.places[number, start]
                self.seconds[number, start] = seconds

    def table(self):
        found = collections.Counter()
        for key, seconds in self.seconds.items():
            if self.places[key]:
                found[self.places[key]] += seconds
        return found


def measured(words, log):
    """Runs the command, shows and reads what it prints, and returns its status, its seconds by place, and in all."""
    ran = subprocess.Popen(words, cwd=ROOT, stdout=subprocess.PIPE, stderr=subprocess.STDOUT, text=True, errors="replace")
    sampler, ended = Sampler(ran.pid), threading.Event()

    def watch():
        while not ended.wait(INTERVAL):
            sampler.sample()

    watcher = threading.Thread(target=watch)
    watcher.start()
    for line in ran.stdout:
        print(line, end="", flush=True)
        log.read(line)
    status = ran.wait()
    ended.set()
    watcher.join()
    used = resource.getrusage(resource.RUSAGE_CHILDREN)
    return status, sampler.table(), used.ru_utime + used.ru_stime


def write(log, seconds, total):
    """Writes the table, the dearest crate first."""
    crates = {crate for crate, _ in seconds} | {crate for crate in log.counts if crate}
    cost = {crate: sum(seconds[crate, part] for part in PARTS) for crate in crates}
    number = lambda value: f"{value:.1f}" if seconds else "-"
    rows = [["crate", "seconds", *PARTS, *COUNTS]]
    for crate in sorted(crates, key=lambda crate: (-cost[crate], crate)):
        counts = [str(log.counts[crate][it]) for it in COUNTS]
        rows.append([crate, number(cost[crate]), *(number(seconds[crate, part]) for part in PARTS), *counts])
    if seconds and total is not None:
        rows.append(["other", f"{total - sum(cost.values()):.1f}", *["-"] * 6])
    sums = [str(sum(counts[it] for counts in log.counts.values())) for it in COUNTS]
    parts = [number(sum(seconds[crate, part] for crate in crates)) for part in PARTS]
    rows.append(["total", "-" if total is None else f"{total:.1f}", *parts, *sums])
    with open(TABLE, "w") as file:
        file.writelines("\t".join(row) + "\n" for row in rows)
    said = "unknown" if total is None else f"{total:.0f}"
    print(f"{os.path.relpath(TABLE)}: {said} processor seconds, {sums[1]} modules loaded; {log.end or 'the log has no last line'}")


def from_nothing():
    """The gate without what earlier runs proved, which kit 13b never uses and has no option for."""
    version = subprocess.run(["rt", "version"], capture_output=True, text=True).stdout
    return ["rt", "ci"] if "kit-13b" in version else ["rt", "ci", "--anew"]


def main(words):
    log = Log()
    if words[:1] == ["--log"] and len(words) == 2:
        with open(words[1], errors="replace") as file:
            for line in file:
                log.read(line)
        write(log, collections.Counter(), log.total)
        return 0
    if words[:1] and words[0].startswith("-"):
        print(__doc__, file=sys.stderr)
        return 2
    status, seconds, total = measured(words or from_nothing(), log)
    write(log, seconds, total)
    return status


if __name__ == "__main__":
    sys.exit(main(sys.argv[1:]))
