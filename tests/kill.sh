#!/usr/bin/env bash
# Kills a server under load (kill -9), and checks after each kill that nothing acknowledged is lost.
# Run by hand: tests/kill.sh PATH_TO_SCIMD [KILLS] [--connections N] [--seed N]
set -eu
scimd="$(realpath "${1:-$(dirname "$0")/../crates/scimd/out/scimd}")"
exec python3 -B "$(dirname "$0")/hostile/kill.py" "$scimd" "${@:2}"
