#!/usr/bin/env bash
# Images of a power cut from a recorded run of a server, each opened by `scimd export` and `scimd audit`. Needs strace.
# Run by hand: tests/powercut.sh PATH_TO_SCIMD [IMAGES] [--requests N] [--connections N] [--seed N]
set -eu
scimd="$(realpath "${1:-$(dirname "$0")/../crates/scimd/out/scimd}")"
exec python3 -B "$(dirname "$0")/hostile/powercut.py" "$scimd" "${@:2}"
