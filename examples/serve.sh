#!/bin/sh
# Serves, and ends the server in order when this script gets SIGTERM or SIGINT: the server's standard input ends then.
#
#     examples/serve.sh ADDR [OPTION ..]
#
# PROGRAM is the server, crates/tile_server/out/tile_server beside this folder where it is not set. The data is in the
# folder tile-data of the current folder. The status is the server's.
set -u
program=${PROGRAM:-$(dirname "$0")/../crates/tile_server/out/tile_server}

room=$(mktemp -d) || exit 1
mkfifo -m 600 "$room/input" || exit 1
"$program" serve "$@" --until-stdin-ends <"$room/input" &
server=$!
# It is open for as long as this script holds it.
exec 3>"$room/input"
rm -r "$room"

stopped=
trap 'stopped=yes; exec 3>&-' TERM INT
wait "$server"
status=$?
# A signal ends a wait early.
while [ -n "$stopped" ] && [ "$status" -gt 128 ] && kill -0 "$server" 2>/dev/null; do
    wait "$server"
    status=$?
done
exit "$status"
