#!/bin/bash
# Shows what a fence would have told, over a log that was recorded before there was such a fence.
# Usage: examples/backtest.sh [FOLDER WORD ..]   FOLDER has the `tile-data` of a server, which may run: its log is copied first. The words
# are those of a SETCHAN. Without them a log is made of a small fleet's day, and a depot of 10 by 10 is asked for.
# Standard output has the number of lines, the first and the last ten of them, and the grid of where objects were put in the box of the
# fence's area, north on top, in characters beside the numbers. How far it is stands on standard error.
set -eu
cd "$(dirname "$0")/.."
here=$PWD
program=$here/crates/tile_server/out/tile_server
work=$(mktemp -d)
trap 'rm -rf "$work"' EXIT
# Builds the program where it is older than its sources.
./fudrask load 1 1 >/dev/null

# A day of four trucks: each goes to and fro along its own street, past the depot or into it.
days_script() {
    awk 'function word(w) { return "$" length(w) "%0D%0A" w "%0D%0A" }
    function set(id, lat, lon) {
        print "feed 1 0 *6%0D%0A" word("SET") word("fleet") word(id) word("POINT") word(lat "") word(lon "")
        print "take 1"
    }
    BEGIN {
        print "open"
        for (hour = 0; hour < 24; hour++)
            for (truck = 1; truck <= 4; truck++) {
                along = (hour * truck * 3) % 40
                set("truck" truck, truck * 2, (along < 20 ? along : 40 - along) - 5)
            }
    }'
}

if [ $# -eq 0 ]; then
    days_script >"$work/day"
    (cd "$work" && "$program" replay <day >/dev/null)
    set -- SETCHAN depot WITHIN fleet FENCE BOUNDS 0 0 9 9
else
    folder=$1
    shift
    mkdir "$work/tile-data"
    # First a, then b: see docs/OPERATING.md.
    cp "$folder/tile-data/a.log" "$work/tile-data/a.log"
    cp "$folder/tile-data/b.log" "$work/tile-data/b.log"
fi
examples/request.sh "$@" >"$work/asked"

# How far the reading is: the bytes that the process has read, of those of both files.
bytes=$(cat "$work"/tile-data/*.log | wc -c)
(cd "$work" && exec "$program" backtest <asked >report) &
told=$!
while sleep 1 && [ -r "/proc/$told/io" ]; do
    read_now=$(sed -n 's/^rchar: //p' "/proc/$told/io" 2>/dev/null) || break
    [ -n "$read_now" ] || break
    [ "$read_now" -le "$bytes" ] || read_now=$bytes
    echo "backtest: read $((read_now / 1000000)) of $((bytes / 1000000)) MB" >&2
done
wait "$told" || { status=$?; cat "$work/report"; exit "$status"; }

awk '{ line[NR] = $0 }
END {
    items = NR - 9
    print line[items + 1]
    for (i = 1; i <= items; i++)
        if (i <= 10 || i > items - 10) print "  " line[i]
        else if (i == 11) print "  .."
    most = 0
    for (v = 1; v <= 8; v++) {
        split(line[items + 1 + v], row, " ")
        for (u = 1; u <= 8; u++) { count[v, u] = row[u]; if (row[u] > most) most = row[u] }
    }
    shades = " .:-=+*#%@"
    for (v = 8; v >= 1; v--) {
        picture = ""
        numbers = ""
        for (u = 1; u <= 8; u++) {
            shade = most == 0 ? 0 : int((count[v, u] * 9 + most - 1) / most)
            picture = picture substr(shades, shade + 1, 1) substr(shades, shade + 1, 1)
            numbers = numbers sprintf(" %7d", count[v, u])
        }
        print "  |" picture "| " numbers
    }
}' "$work/report"
