#!/usr/bin/env bash
# Kills `scimd archive` at random moments and at each call that changes a file, lets such calls fail, and fills the disk.
# Checks each time that no row and no resource is lost, and then archives to the end. Also archives that are refused.
# Run by hand: tests/archive.sh PATH_TO_SCIMD [KILLS] [--seed N]. The calls need strace, the full disk needs root.
set -eu
scimd="$(realpath "${1:-$(dirname "$0")/../crates/scimd/out/scimd}")"
exec python3 -B "$(dirname "$0")/hostile/archive.py" "$scimd" "${@:2}"
