"""Requests of a server beside those of OpenLDAP's slapd, which `run.sh` of `shared/anchors/slapd` measures."""
import os
import re
import shutil
import subprocess
from statistics import median

import data
from measuring import Ask, Table

PLACES = os.environ.get("PATH", "") + ":/usr/sbin"
PATTERNS = [r"base reads/s ([\d.]+)", r"\nindexed search/s ([\d.]+)", r"unindexed search over 10k s ([\d.e-]+)",
            r"modify/s ([\d.]+)"]
ASKS = [Ask("read", data.get, 1_000), Ask("indexed search", data.by_name, 1_000),
        Ask("unindexed search", data.unindexed, 3), Ask("change", data.retitle, 200)]


def lacking(folder):
    """What slapd's figures need and this machine lacks; None if nothing."""
    if not os.path.exists(os.path.join(folder, "run.sh")):
        return f"there is no {folder}/run.sh"
    if not all(shutil.which(name, path=PLACES) for name in ("slapd", "slapadd")):
        return "slapd isn't installed"
    words = ["sh", "-c", "exec /usr/bin/python3 -c 'import ldap'"]
    has_ldap = subprocess.run(words, stderr=subprocess.DEVNULL, check=False).returncode == 0
    return None if has_ldap else "python3-ldap isn't installed"


def slapd_ms(folder, *words):
    """Elapsed milliseconds of each of what is asked."""
    words = ["sh", os.path.join(folder, "run.sh"), *words]
    done = subprocess.run(words, stdout=subprocess.PIPE, text=True, timeout=600, check=True,
                          env={**os.environ, "PATH": PLACES})
    read, search, unindexed, change = (float(re.search(pattern, done.stdout)[1]) for pattern in PATTERNS)
    return [1000 / read, 1000 / search, 1000 * unindexed, 1000 / change]


def slapd(bench):
    """requests over 10,000 users beside slapd, which logs all requests or none; skipped where it isn't installed"""
    reason = lacking(bench.slapd)
    if reason is not None:
        return f"slapd: skipped, {reason}"
    heads = ["slapd", "slapd with log", "scimd"]
    table = Table("slapd: elapsed ms a request, over 10,000 users", heads, [(2, 0), (2, 1)])
    alone, audited = slapd_ms(bench.slapd), slapd_ms(bench.slapd, "audited")
    with bench.server((10_000,)) as server:
        for place, ask in enumerate(ASKS):
            mine = median(bench.figure(server, ask)[1] for _ in range(bench.rounds))
            table.add(ask.name, [alone[place], audited[place], mine])
    return table
