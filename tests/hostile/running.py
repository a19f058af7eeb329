#!/usr/bin/env python3
"""Looks at a built scimd by its administrator's port, and reloads and stops it, while clients keep it busy."""
import argparse
import http.client
import os
import shutil
import subprocess
import sys
import tempfile
import time

import looking
import operating
import streaming

TRIALS = [looking.options, looking.looks, streaming.exports, streaming.slow_readers, operating.rotation,
          operating.faulty_reloads, operating.stops, operating.last_half_minute, operating.gone_files,
          operating.signals]


def options():
    parser = argparse.ArgumentParser(description=__doc__)
    parser.add_argument("scimd", help="the program")
    parser.add_argument("--only", metavar="NAME", action="append", choices=[one.__name__ for one in TRIALS],
                        help="one trial; may be given several times")
    parser.add_argument("--list", action="store_true", help="list the trials")
    return parser.parse_args()


def run(trial, program):
    """Prints the line of a trial; whether all was as expected."""
    with tempfile.TemporaryDirectory(prefix="scimd-running-") as folder:
        try:
            print(f"{trial.__name__}: {trial(program, os.path.realpath(folder))}", flush=True)
            return True
        except (OSError, RuntimeError, http.client.HTTPException, subprocess.SubprocessError) as fault:
            print(f"{trial.__name__}: BAD: {fault or repr(fault)}", flush=True)
            return False


def main():
    chosen = options()
    if chosen.list:
        print("\n".join(f"{one.__name__:18} {one.__doc__}" for one in TRIALS))
        return
    if not shutil.which("curl"):
        sys.exit("running: curl isn't there")
    begun, program = time.time(), os.path.abspath(chosen.scimd)
    kept = [run(trial, program) for trial in TRIALS if chosen.only is None or trial.__name__ in chosen.only]
    print(f"running: {'all as expected' if all(kept) else 'BAD'}, {time.time() - begun:.0f} s")
    sys.exit(0 if all(kept) else 1)


if __name__ == "__main__":
    main()
