#!/usr/bin/env python3
"""Asks servers of a built scimd as connectors, clients of the standard and administrators do."""
import argparse
import http.client
import os
import signal
import subprocess
import sys
import tempfile
import time
import traceback

import administrator
import databases
import entra
import faults
import hr
import okta
import shapes
import standard
import wire
from checks import Suite
from service import Program

SUITES = [entra, okta, hr, standard, wire, shapes, administrator, databases, faults]
MOST_SECONDS = 115  # for all, unless an option says otherwise


def options():
    parser = argparse.ArgumentParser(description=__doc__)
    parser.add_argument("scimd", help="the program")
    parser.add_argument("--only", metavar="SUITE", action="append", choices=[one.__name__ for one in SUITES],
                        help="one suite; may be given several times")
    parser.add_argument("--wishes", action="store_true",
                        help="say which wishes aren't met, each with the choice of docs/PROFILE.md")
    parser.add_argument("--seconds", type=int, default=MOST_SECONDS, metavar="N",
                        help="end after this many seconds (default %(default)s)")
    parser.add_argument("--list", action="store_true", help="list the suites")
    return parser.parse_args()


class TooLate(Exception):
    """The checks take too long."""


def too_late(*_signal):
    raise TooLate("not done in time")


def done(module, program, folder):
    """The checks of a suite. What stops it is one more check that isn't as expected."""
    suite = Suite(module.__name__, program, folder)
    try:
        module.run(suite)
    except (OSError, RuntimeError, LookupError, TypeError, ValueError, http.client.HTTPException,
            subprocess.SubprocessError) as fault:
        places = [f"{place.name}:{place.lineno}" for place in traceback.extract_tb(fault.__traceback__)]
        suite.check("the rest", f"not tried: {fault!r} in {' '.join(places[1:4])}")
    return suite


def tell(suite, with_wishes):
    skipped = [f"{suite.name}: {count} of {reason}" for reason, count in suite.skipped.items()]
    for heading, lines in [("BAD", suite.told), ("skipped", skipped), ("wish", suite.wishes if with_wishes else [])]:
        for line in lines:
            print(f"{heading}: {line}", flush=True)


def table(suites):
    yield f"{'suite':14} {'checks':>7} {'as expected':>12} {'wishes not met by choice':>25}"
    rows = [(one.name, one.count, one.kept, len(one.wishes)) for one in suites]
    for name, *figures in [*rows, ("all", *(sum(column) for column in list(zip(*rows))[1:]))]:
        yield "{:14} {:7} {:12} {:25}".format(name, *figures)


def main():
    chosen = options()
    if chosen.list:
        print("\n".join(f"{one.__name__:14} {one.__doc__}" for one in SUITES))
        return
    begun = time.monotonic()
    signal.signal(signal.SIGALRM, too_late)
    signal.alarm(chosen.seconds)
    suites, late = [], None
    try:
        with tempfile.TemporaryDirectory(prefix="scimd-clients-") as folder:
            for module in SUITES:
                if chosen.only is None or module.__name__ in chosen.only:
                    suites.append(done(module, Program(chosen.scimd), os.path.realpath(folder)))
                    tell(suites[-1], chosen.wishes)
    except TooLate as fault:
        late = fault
    print("\n".join(table(suites)))
    ok = late is None and not any(suite.told for suite in suites)
    print(f"clients: {'all as expected' if ok else late or 'BAD'}, {time.monotonic() - begun:.0f} s")
    sys.exit(0 if ok else 1)


if __name__ == "__main__":
    main()
