#!/usr/bin/env bash
# Why a decision fell: why mail doesn't see the title of Bob, a contractor, and what mover may read of Alice and may change. The
# policy is looked through first, and each of its rules said in a sentence; the resources are those of users.json, in a
# database that is made for this.
set -eu
cd "$(dirname "$0")"
scimd="$(realpath "${1:-../crates/scimd/out/scimd}")"
folder="$(mktemp -d)"
trap 'rm -rf "$folder"' EXIT
"$scimd" import --db "$folder/directory.db" --users users.json
explain() {
  echo "== $*"
  "$scimd" explain --policy policy.json --db "$folder/directory.db" --kind User "$@" || echo "exit status $?"
}
alice=00000000-0000-4000-8000-00000000000a
bob=00000000-0000-4000-8000-00000000000b
echo "What the policy says"
"$scimd" check --policy policy.json --verbose
echo "Why mail isn't shown Bob's title"
explain --client mail --op read --id "$bob" --path title
echo "Why mover isn't shown Alice's title: she isn't at the desk"
explain --client mover --op read --id "$alice" --path title
echo "All that mover may change of Alice"
explain --client mover --op modify --id "$alice" | grep 'allow$'
echo "There is no such user"
explain --client mail --op read --id 00000000-0000-4000-8000-00000000000d --path title
