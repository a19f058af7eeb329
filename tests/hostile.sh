#!/usr/bin/env bash
# Attacks on a server by a stranger or a client with few rights. A line for each says what it cost beside plain input,
# how long another client waited for a GET by id meanwhile, and whether the bounds hold.
# Run by hand: tests/hostile.sh PATH_TO_SCIMD [--only NAME] [--list]; --help names the sizes.
set -eu
scimd="$(realpath "${1:-$(dirname "$0")/../crates/scimd/out/scimd}")"
exec python3 -B "$(dirname "$0")/hostile/attack.py" "$scimd" "${@:2}"
