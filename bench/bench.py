#!/usr/bin/env python3
"""Measures a built scimd. Figures compare within one run alone; docs/BENCHMARKS.md explains them."""
import argparse
import glob
import os
import signal
import sys
import tempfile
import time

import scenarios
from connections import connections
from measuring import Bench
from slapd import slapd
from slapd_many import slapd_many

TOP = os.path.dirname(os.path.dirname(os.path.abspath(__file__)))
SCENARIOS = [scenarios.users, scenarios.connectors, scenarios.members, scenarios.rules, scenarios.values, scenarios.cache,
             scenarios.memory, scenarios.start, scenarios.replay, scenarios.bodies, connections, slapd,
             slapd_many]


def newest_program():
    """The newest executable scimd below crates/scimd/out; None if there is none."""
    found = [path for path in glob.glob(os.path.join(TOP, "crates/scimd/out/**/scimd"), recursive=True)
             if os.path.isfile(path) and os.access(path, os.X_OK)]
    return max(found, key=os.path.getmtime, default=None)


def options():
    parser = argparse.ArgumentParser(description=__doc__)
    parser.add_argument("--scimd", metavar="PATH", help="the program; else the newest crates/scimd/out/**/scimd")
    parser.add_argument("--beside", metavar="PATH", help="another program, which some scenarios measure beside")
    parser.add_argument("--slapd", metavar="FOLDER", default=os.path.join(TOP, "../shared/anchors/slapd"),
                        help="the folder with run.sh that measures slapd")
    parser.add_argument("--quick", action="store_true", help="300, 1,000 and 3,000 users, and fewer rounds")
    parser.add_argument("--only", metavar="NAME", choices=[one.__name__ for one in SCENARIOS], help="one scenario")
    parser.add_argument("--list", action="store_true", help="list the scenarios")
    return parser.parse_args()


def run(chosen, asked):
    """Runs the scenarios that are asked for, and prints the table of each as soon as it is there."""
    program = os.path.abspath(chosen.scimd or newest_program() or "")
    if not os.path.isfile(program):
        sys.exit("bench: no scimd: name it by --scimd PATH, or build it (cd crates/scimd && rt run -- --help)")
    begun = time.time()
    with tempfile.TemporaryDirectory(prefix="scimd-bench-") as folder:
        beside = chosen.beside and os.path.abspath(chosen.beside)
        bench = Bench(program, beside, folder, chosen.quick, os.path.normpath(chosen.slapd))
        print(f"{program}\n{os.cpu_count()} processors, load {os.getloadavg()[0]:.1f}, {bench.rounds} rounds\n")
        for scenario in asked:
            print(scenario(bench), end="\n\n", flush=True)
    print(f"{time.time() - begun:.0f} s, load {os.getloadavg()[0]:.1f}")


def main():
    chosen = options()
    if chosen.list:
        print("\n".join(f"{one.__name__:8} {one.__doc__}" for one in SCENARIOS))
        return
    signal.signal(signal.SIGTERM, lambda *_: sys.exit(143))  # so that servers are killed and files removed
    run(chosen, [one for one in SCENARIOS if chosen.only in (None, one.__name__)])


if __name__ == "__main__":
    main()
