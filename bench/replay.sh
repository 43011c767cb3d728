#!/bin/sh
# Measures how long scripts take: many points set, many that expire at one moment, pages of them, one large GeoJSON text, and one
# stream cut byte by byte.
# Usage: bench/replay.sh [N]   N points, 2000 if left out. Each line tells what was played, the bytes of the script and the seconds.
# Each script is played over a new log in a folder where TMPDIR says; in a folder in memory a sync costs nothing.
set -eu
cd "$(dirname "$0")/.."
n=${1:-2000}
program=$PWD/crates/tile_server/out/tile_server
work=$(mktemp -d)
trap 'rm -rf "$work"' EXIT

points() {
    awk -v n="$n" 'function word(w) { return "$" length(w) "%0D%0A" w "%0D%0A" }
    BEGIN {
        print "open"
        for (i = 0; i < n; i++) {
            print "feed 1 0 *6%0D%0A" word("SET") word("fleet") word("truck" i) word("POINT") word(i "") word(i "")
            print "take 1"
        }
    }'
}

expiring() {
    awk -v n="$n" 'function word(w) { return "$" length(w) "%0D%0A" w "%0D%0A" }
    BEGIN {
        print "open"
        for (i = 0; i < n; i++) {
            print "feed 1 0 *8%0D%0A" word("SET") word("fleet") word("truck" i) word("EX") word("1") word("POINT") word(i "") word(i "")
            print "take 1"
        }
        print "tick 1000"
    }'
}

pages() {
    points
    awk -v n="$n" 'function word(w) { return "$" length(w) "%0D%0A" w "%0D%0A" }
    BEGIN {
        for (i = 0; i < n; i += 100) {
            print "feed 1 0 *5%0D%0A" word("SCAN") word("fleet") word("CURSOR") word(i "") word("POINTS")
            print "take 1"
        }
    }'
}

large_text() {
    awk -v n=9999 'BEGIN {
        text = "{\"type\":\"LineString\",\"coordinates\":[[0,0]"
        for (i = 1; i < n; i++) text = text ",[" i "," i "]"
        text = text "]}"
        print "open"
        head = "*5%0D%0A$3%0D%0ASET%0D%0A$1%0D%0Ak%0D%0A$1%0D%0Aa%0D%0A$6%0D%0AOBJECT%0D%0A"
        print "feed 1 0 " head "$" length(text) "%0D%0A" text "%0D%0A"
        print "take 1"
    }'
}

cut_bytes() {
    awk -v n="$n" 'BEGIN {
        split("*1 %0D %0A $4 %0D %0A P I N G %0D %0A", first, " ")
        print "open"
        for (i = 0; i < n; i++) {
            for (k = 1; k <= 11; k++) print "feed 1 0 " first[k]
            print "take 1"
        }
    }'
}

measure() {
    "$2" > "$work/script"
    rm -rf "$work/tile-data"
    begun=$(date +%s.%N)
    (cd "$work" && "$program" replay < script > out)
    ended=$(date +%s.%N)
    awk -v what="$1" -v begun="$begun" -v ended="$ended" -v bytes="$(wc -c < "$work/script")" \
        'BEGIN { printf "%-28s %9d bytes %8.2f s\n", what, bytes, ended - begun }'
}

./fudrask load 1 1 > /dev/null
measure "points set: $n" points
measure "points that expire: $n" expiring
measure "points set, and pages: $n" pages
measure "a text of 9999 positions" large_text
measure "requests cut apart: $n" cut_bytes
