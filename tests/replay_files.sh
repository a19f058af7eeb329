#!/usr/bin/env bash
# `scimd replay` reads and checks its files one after another: the fault is that of the first file that can't be read
# or is invalid. Run by hand: tests/replay_files.sh [PATH_TO_SCIMD]
set -eu
cd "$(dirname "$0")"
scimd="$(realpath "${1:-../crates/scimd/out/scimd}")"
files="$(mktemp -d)"
trap 'rm -rf "$files"' EXIT
cp ../examples/policy.json ../examples/users.json ../examples/tokens "$files"
printf '2024-06-01T12:00:00Z 00000000-0000-4000-8000-0000000000e1 joined 1\n' > "$files/events"
printf '{' > "$files/bad"
# Runs `replay` over these four files, and compares the first line of the fault.
expect() {
  local found
  found="$(cd "$files" && "$scimd" replay --policy "$1" --tokens "$2" --users "$3" --events "$4" 2>&1 >/dev/null | head -n 1 || true)"
  if [ "$found" != "$5" ]; then
    echo "replay $1 $2 $3 $4: expected '$5', found '$found'"
    exit 1
  fi
}
expect policy.json tokens users.json events ''
expect missing missing missing missing 'scimd: cannot read missing'
expect bad missing users.json events 'scimd: policy: rule 0: json'
expect policy.json bad missing events 'scimd: tokens: line 1'
expect policy.json tokens bad missing 'scimd: users: item 0'
expect policy.json tokens users.json missing 'scimd: cannot read missing'
expect policy.json missing bad events 'scimd: cannot read missing'
echo "replay_files: all as expected"
