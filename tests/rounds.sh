#!/usr/bin/env bash
# Watches the system calls of a server under several connections: no reply before the sync of what it tells. Needs strace.
# Run by hand: tests/rounds.sh PATH_TO_SCIMD [REQUESTS] [--connections N] [--seed N]
set -eu
scimd="$(realpath "${1:-$(dirname "$0")/../crates/scimd/out/scimd}")"
exec python3 -B "$(dirname "$0")/hostile/rounds.py" "$scimd" "${@:2}"
