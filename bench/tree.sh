#!/usr/bin/env bash
# Measures the tree of boxes beside the R*-tree of Boost.Geometry, 16 entries a node in both: places in random order are
# put in, windows with about ten of them are searched, the ten nearest of a place are sought, and a tenth of the places
# is taken out.
# Usage: bench/tree.sh [COUNT [SEED]]   COUNT places, 1000000 if left out, and a tenth as many searches of each kind;
# seed 1 if left out. Needs g++ and Debian's libboost-dev. PROGRAM may name another program than the repository's
# `benchmarks`.
# A row tells microseconds of processor time for one operation, the median of three runs that take turns, and what share
# of Boost's speed ours has; the last row what an entry takes in memory. Our entries are boxes, so the share is of the
# speed of Boost's tree of boxes; its tree of points, which would do for places, stands beside it.
# Status 1 where the programs do not find the same pairs, or where a share is below what is held: searches 1.0,
# insertions 0.7.
set -eu -o pipefail
shopt -s inherit_errexit
export LC_ALL=C
cd "$(dirname "$0")/.."
count=${1:-1000000}
seed=${2:-1}
program=${PROGRAM:-crates/benchmarks/out/benchmarks}

fail() { printf 'tree: %s\n' "$*" >&2; exit 1; }

case $count in '' | *[!0-9]* | 0* | ?) fail "$count is no number of places, 10 at least" ;; esac
case $seed in '' | *[!0-9]*) fail "$seed is no seed" ;; esac
command -v g++ >/dev/null || fail "g++ is not there"
[ -x "$program" ] || (cd crates/benchmarks && rt run >/dev/null)
work=$(mktemp -d)
trap 'rm -rf "$work"' EXIT
g++ -O2 -DBOOST_ALLOW_DEPRECATED_HEADERS -o "$work/boost" bench/tree.cpp ||
    fail "tree.cpp does not compile (Debian: libboost-dev)"

for run in 1 2 3; do
    "$program" tree "$count" "$seed" >"$work/ours.$run"
    "$work/boost" boxes "$count" "$seed" >"$work/boxes.$run"
    "$work/boost" points "$count" "$seed" >"$work/points.$run"
done

# What was found: each line but for its time.
found() { awk '$1 != "memory" { print $1, $2, $3 }' "$1"; }

for run in "$work"/*.[123]; do
    found "$run" | cmp -s - <(found "$work/ours.1") ||
        fail "the programs do not find the same: $(paste "$work/ours.1" "$run")"
done

# The median of a figure, which stands last in its line, over a program's runs.
median() { awk -v kind="$2" '$1 == kind { print $NF }' "$work/$1".[123] | sort -n | sed -n 2p; }

status=0
# A row: what it says, the lines that it is of, by how much their figure is divided, and the share that is held.
row() {
    awk -v says="$1" -v by="$3" -v held="$4" -v ours="$(median ours "$2")" -v boxes="$(median boxes "$2")" \
        -v points="$(median points "$2")" 'BEGIN {
        share = ours > 0 ? boxes / ours : 0
        printf "%-16s %8.2f %14.2f %14.2f %8.2f %6s\n",
            says, ours / by, boxes / by, points / by, share, held
        exit held != "" && share < held
    }' || status=1
}

printf '%-16s %8s %14s %14s %8s %6s\n' "$count places" ours 'Boost, boxes' 'Boost, points' share held
row insertion insert 1000 0.7
row 'window of ten' window 1000 1.0
row 'ten nearest' nearest 1000 1.0
row removal remove 1000 ''
row 'bytes an entry' memory 1 ''
awk '{ print $1, $2, "pairs" }' <(found "$work/ours.1") | paste -sd ';' | sed 's/;/; /g'
exit $status
