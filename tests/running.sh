#!/usr/bin/env bash
# A busy server and its administrator: what the port tells, beside what the commands say of the stopped database;
# reloads, stops, slow readers, and files of the database that go. A line for each trial; it takes some two minutes.
# Run by hand: tests/running.sh PATH_TO_SCIMD [--only NAME] [--list]
set -eu
scimd="$(realpath "${1:-$(dirname "$0")/../crates/scimd/out/scimd}")"
exec python3 -B "$(dirname "$0")/hostile/running.py" "$scimd" "${@:2}"
