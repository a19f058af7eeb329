#!/usr/bin/env bash
# The users of users.json in a database: they are imported, exported again, and lie in tables that sqlite3 reads. The audit
# is empty, since nobody has asked for anything. A database is imported into once, and a file that isn't there is none.
set -eu
cd "$(dirname "$0")"
scimd="$(realpath "${1:-../crates/scimd/out/scimd}")"
folder="$(mktemp -d)"
trap 'rm -r "$folder"' EXIT
users="$PWD/users.json"
cd "$folder"
# Runs a command, and tells how it ended where it failed.
run() {
  echo "== scimd $*"
  "$scimd" "$@" 2>&1 || echo "(exit status $?)"
}
cp "$users" users.json
run import --db store.db --users users.json
run export --db store.db
run audit --db store.db
echo "What was exported is imported to the same"
"$scimd" export --db store.db > exported.json
run import --db again.db --users exported.json
"$scimd" export --db again.db | cmp - exported.json && echo "the same"
echo "A database that has tables is left as it is"
run import --db store.db --users users.json
echo "There is no such file, and none is made"
run export --db nowhere.db
ls
if command -v sqlite3 > /dev/null; then
  echo "== sqlite3 store.db"
  sqlite3 store.db '.tables' 'SELECT id, kind FROM resource ORDER BY id' 'PRAGMA integrity_check'
fi
