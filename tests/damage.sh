#!/usr/bin/env bash
# What scimd says over a database that it can't open, and with which status it ends: each command over a database of
# users.json that sqlite3 changed. Run by hand, where there is sqlite3: tests/damage.sh [PATH_TO_SCIMD]
set -eu
cd "$(dirname "$0")"
scimd="$(realpath "${1:-../crates/scimd/out/scimd}")"
files="$(mktemp -d)"
trap 'rm -rf "$files"' EXIT
cp ../examples/policy.json ../examples/users.json ../examples/tokens "$files"
cd "$files"
id=00000000-0000-4000-8000-0000000000
# Runs a command over the database, and compares its line and status.
ends() {
  local due="$1" found status=0
  shift
  found="$(timeout 20 "$scimd" "$@" --db store.db 2>&1)" || status=$?
  if [ "$found, exit $status" != "$due, exit 1" ]; then
    echo "$*: expected '$due, exit 1', found '$found, exit $status'"
    exit 1
  fi
}
# Changes a database by these statements, and runs each command over it.
expect() {
  rm -f store.db*
  "$scimd" import --db store.db --users users.json
  sqlite3 store.db "$1"
  ends "$2" export
  ends "$2" audit
  ends "$2" explain --policy policy.json --client hr --op read --kind User --id "${id}0a"
  ends "$2" serve --policy policy.json --tokens tokens --port 0
  ends "$2" serve --policy policy.json --tokens tokens --port 0 --no-cache
}
row="INSERT INTO audit SELECT number, 1717243200, 'hr', 0, 0, NULL, 0, 1, NULL, NULL FROM (SELECT 1 AS number UNION SELECT 3)"
expect "UPDATE resource SET document = '{}' WHERE id = '${id}0b'" "scimd: database: damaged ${id}0b"
expect "DELETE FROM taken WHERE id = '${id}0c'" "scimd: database: damaged ${id}0c"
expect "DELETE FROM member WHERE group_id = '${id}aa'" "scimd: database: damaged ${id}aa"
expect "DELETE FROM taken WHERE id = '${id}0c'; DELETE FROM member" "scimd: database: damaged ${id}0c"
expect "$row" 'scimd: database: cannot be used
  the audit has no row 2, but later ones'
expect "UPDATE setting SET number = 9" 'scimd: database: wrong version'
expect "DELETE FROM setting" 'scimd: database: wrong version'
expect "CREATE TABLE note (title TEXT)" 'scimd: database: cannot be used
  the table "note" isn'\''t one of this server'\''s'
expect "INSERT INTO setting VALUES ('other', 1)" 'scimd: database: cannot be used
  the table "setting" has further rows'
echo "damage: all as expected"
