#!/usr/bin/env bash
# A server and its administrator, who looks at its health, its figures, its audit and the reason for a refusal, takes a
# client's token away while the server runs, and stops it.
set -eu
cd "$(dirname "$0")"
scimd="$(realpath "${1:-../crates/scimd/out/scimd}")"
examples="$PWD"
folder="$(mktemp -d)"
server=
trap '[ -z "$server" ] || kill "$server" 2> /dev/null; rm -r "$folder"' EXIT
cd "$folder"
umask 077
cp "$examples/tokens" tokens
# The administrator's token is `open`. The server has its digest, and curl reads it from a file, so that it stands in no
# list of processes.
printf 'ops %s\n' "$(printf %s open | sha256sum | cut -d' ' -f1)" > admin-tokens
printf 'Authorization: Bearer open\n' > admin-header
"$scimd" import --db store.db --users "$examples/users.json"
touch told
"$scimd" serve --policy "$examples/policy.json" --tokens tokens --db store.db --port 0 \
  --admin-port 0 --admin-tokens admin-tokens > told 2> log &
server=$!
until grep -q administrator told; do kill -0 "$server"; sleep 0.1; done
cat told
clients="http://$(sed -n 's/listening on //p' told)"
admin="http://$(sed -n 's/administrator on //p' told)"
alice=/Users/00000000-0000-4000-8000-00000000000a
bob=00000000-0000-4000-8000-00000000000b
# Sends a request of the administrator, and shows the reply.
ask() {
  echo "== $1 $2"
  curl --silent --show-error --header @admin-header --request "$1" "$admin$2"
}
# Reads Alice as `mail`, and shows the status.
read_alice() {
  echo "== mail: GET $alice"
  curl --silent --show-error --header 'Authorization: Bearer hello' --output /dev/null --write-out '%{http_code}\n' \
    "$clients$alice"
}
ask GET /health
read_alice
ask GET /metrics | sed -n 1,7p
ask GET '/audit?client=mail&last=1'
ask GET "/explain?client=mail&op=read&kind=User&id=$bob&path=title"
grep -v '^mail ' "$examples/tokens" > tokens
ask POST /reload
read_alice
ask POST /stop
wait "$server"
server=
echo "== the end of the log"
tail -n 3 log
