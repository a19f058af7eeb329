#!/usr/bin/env bash
# Kills a server (kill -9) while 64 connections keep its rounds full, and checks after each kill that nothing
# acknowledged is lost, as tests/kill.sh does with few connections.
# Run by hand: tests/kill_rounds.sh PATH_TO_SCIMD [KILLS] [--seed N]
set -eu
scimd="$(realpath "${1:-$(dirname "$0")/../crates/scimd/out/scimd}")"
exec python3 -B "$(dirname "$0")/hostile/kill.py" "$scimd" "${2:-20}" --connections 64 --longest 1.5 "${@:3}"
