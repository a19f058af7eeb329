#!/usr/bin/env bash
# A server on a disk that gets full, and on a device that fails at some calls.
# Run by hand, as root for the full disk (a tmpfs is mounted): tests/full_disk.sh PATH_TO_SCIMD
set -eu
scimd="$(realpath "${1:-$(dirname "$0")/../crates/scimd/out/scimd}")"
exec python3 -B "$(dirname "$0")/hostile/full_disk.py" "$scimd"
