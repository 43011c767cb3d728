#!/usr/bin/env bash
# Measures what a record costs to be written through a journal, so many in one commit, and what it costs to open the log again: over a disk
# in memory, so that no disk's time is in it.
# Usage: bench/journal.sh [RECORDS]   RECORDS records of a point, 82 bytes each, 1000000 if left out.
# A row tells for the records of one commit how many batches and bytes were read, the nanoseconds of one record written and read, and the
# seconds of the whole opening.
set -eu
cd "$(dirname "$0")/.."
records=${1:-1000000}
program=crates/benchmarks/out/benchmarks

[ -x "$program" ] || (cd crates/benchmarks && rt run >/dev/null)

printf '%-8s %10s %12s %8s %8s %8s\n' batch batches bytes write open seconds
for batch in 1 50 10000; do
    read -r opened batches bytes wrote read <<<"$("$program" journal "$records" "$batch")"
    [ "$opened" = true ] || { echo "journal: not opened" >&2; exit 1; }
    seconds=$(awk -v n="$records" -v t="$read" 'BEGIN { printf "%.2f", n * t / 1e9 }')
    printf '%-8s %10s %12s %8s %8s %8s\n' "$batch" "$batches" "$bytes" "$wrote" "$read" "$seconds"
done
