#!/usr/bin/env bash
# What connectors, clients of the standard and administrators meet: more than 500 checks over servers with new
# databases. A line for each check that isn't as expected, and a table at the end; it takes less than two minutes.
# Run by hand: tests/clients.sh PATH_TO_SCIMD [--only SUITE] [--wishes] [--seconds N] [--list]
set -eu
scimd="$(realpath "${1:-$(dirname "$0")/../crates/scimd/out/scimd}")"
PYTHONPATH="$(dirname "$0")" exec python3 -B "$(dirname "$0")/clients/run.py" "$scimd" "${@:2}"
