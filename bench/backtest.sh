#!/usr/bin/env bash
# Measures what a backtest costs over a log of many changes of one key: with a figure of 300 positions, on four processors and on one of them,
# and with a box on four, beside `check` of the same log.
# Usage: bench/backtest.sh [N]   N changes, 1000000 if left out: puts by 1,000 ids that wander, and a deletion in fifty. Each row tells seconds,
# the median of three runs; then the ratios that are held: the figure on four processors to one at most 0.4, the box to `check` at most 1.3.
# Status 1 where one is greater, where the report on one processor is another than on four, or where it has not as many item lines as its
# total says. Needs python3, taskset and four processors. The log, some 110 bytes a change, is made where TMPDIR says.
set -eu -o pipefail
shopt -s inherit_errexit
export LC_ALL=C
cd "$(dirname "$0")/.."
n=${1:-1000000}
program=$PWD/crates/tile_server/out/tile_server

fail() { printf 'backtest: %s\n' "$*" >&2; exit 1; }

case $n in '' | *[!0-9]* | 0*) fail "$n is no number of changes" ;; esac
for tool in python3 taskset; do
    command -v "$tool" >/dev/null || fail "$tool is not there"
done
# The first four processors that this process may run on.
four=$(python3 -c 'import os; print(*sorted(os.sched_getaffinity(0))[:4], sep=",")')
case $four in *,*,*,*) ;; *) fail "four processors are needed, there are: $four" ;; esac
one=${four%%,*}

# Builds the program where it is older than its sources.
./fudrask load 1 1 >/dev/null
work=$(mktemp -d)
trap 'rm -rf "$work"' EXIT

# The log, in batches of 64: the head of side A, the batches, the closed gate.
make_log() {
    mkdir "$work/tile-data"
    : >"$work/tile-data/b.log"
    python3 - "$n" >"$work/tile-data/a.log" <<'PYTHON'
import random, sys

draw = random.Random(1)
out = sys.stdout.buffer


def record(*words):
    return b"*%d\r\n" % len(words) + b"".join(b"$%d\r\n%s\r\n" % (len(word), word) for word in words)


def batch(records):
    text = b"".join(records)
    return b"\x01" + len(text).to_bytes(8, "big") + text


def wander(at):
    return max(-1000, min(1000, at + draw.randint(-50, 50)))


out.write(b"\x01TFL\x03\0\0\0" + (1).to_bytes(8, "big"))
places = [(draw.randint(-1000, 1000), draw.randint(-1000, 1000)) for _ in range(1000)]
records = []
for _ in range(int(sys.argv[1])):
    i = draw.randrange(1000)
    places[i] = tuple(map(wander, places[i]))
    if draw.randrange(50) == 0:
        records.append(record(b"DEL", b"fleet", b"truck%d" % i))
    else:
        text = b'{"type":"Point","coordinates":[%d,%d]}' % places[i]
        records.append(record(b"SET", b"fleet", b"truck%d" % i, b"OBJECT", text))
    if len(records) == 64:
        out.write(batch(records))
        records.clear()
if records:
    out.write(batch(records))
out.write(b"\0")
PYTHON
}

# A ring of 300 positions round the middle, the last as the first.
figure() {
    python3 - <<'PYTHON'
from math import cos, pi, sin

ring = [[round(500 * cos(2 * pi * i / 299)), round(500 * sin(2 * pi * i / 299))] for i in range(299)]
text = str([ring + ring[:1]]).replace(" ", "")
print(f'{{"type":"Polygon","coordinates":{text}}}', end="")
PYTHON
}

# The seconds of a run on these processors with what a file asks for, which writes its report into another.
run_once() {
    local processors=$1 asked=$2 report=$3 begun ended
    shift 3
    begun=$(date +%s%N)
    (cd "$work" && taskset -c "$processors" "$program" "$@" <"$asked" >"$report")
    ended=$(date +%s%N)
    awk -v t=$((ended - begun)) 'BEGIN { printf "%.3f\n", t / 1e9 }'
}

median() {
    for _ in 1 2 3; do run_once "$@"; done | sort -n | sed -n 2p
}

make_log
set_channel=(SETCHAN z WITHIN fleet FENCE DETECT "enter,exit")
examples/request.sh "${set_channel[@]}" BOUNDS -500 -500 500 500 >"$work/box"
examples/request.sh "${set_channel[@]}" OBJECT "$(figure)" >"$work/figure"

check=$(median "$four" /dev/null "$work/checked" check)
echo "check of $n changes: $check s ($(cat "$work/checked"))"
box=$(median "$four" "$work/box" "$work/report-box" backtest)
echo "a box, on four processors: $box s"
on_four=$(median "$four" "$work/figure" "$work/report-four" backtest)
echo "a figure of 300 positions, on four processors: $on_four s"
on_one=$(median "$one" "$work/figure" "$work/report-one" backtest)
echo "the same on one processor: $on_one s"

cmp -s "$work/report-four" "$work/report-one" || fail "the report on one processor is another than on four"
for report in "$work/report-box" "$work/report-four"; do
    lines=$(awk '$1 == "total" { exit } { n++ } END { print n + 0 }' "$report")
    total=$(sed -n 's/^total //p' "$report")
    echo "item lines $lines, total $total"
    [ "$lines" = "$total" ] || fail "not as many item lines as the total says"
    [ "$total" -gt 0 ] || fail "nothing is told"
done
awk -v f="$on_four" -v o="$on_one" -v b="$box" -v c="$check" 'BEGIN {
    printf "figure, four processors to one: %.2f (at most 0.4); box to check: %.2f (at most 1.3)\n", f / o, b / c
    exit !(f / o <= 0.4 && b / c <= 1.3)
}'
