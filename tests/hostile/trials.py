"""What scripts share that try one thing many times, in a folder of their own."""
import argparse
import os
import subprocess
import sys
import tempfile


def options(about, things, count):
    """A parser of the options that all these scripts have."""
    parser = argparse.ArgumentParser(description=about)
    parser.add_argument("scimd", help="the program")
    parser.add_argument("count", nargs="?", type=int, default=count, help=f"how many {things} (default {count})")
    parser.add_argument("--seed", type=int, default=1, metavar="N", help=f"another seed makes other {things}")
    return parser


def tried(name, run, chosen):
    """What `run` returns for the program, a new folder and the chosen options. A fault ends the script."""
    with tempfile.TemporaryDirectory(prefix=f"scimd-{name}-") as folder:
        try:
            return run(os.path.abspath(chosen.scimd), os.path.realpath(folder), chosen)
        except (OSError, RuntimeError, subprocess.SubprocessError) as fault:
            sys.exit(f"{name}: BAD: {fault}")
