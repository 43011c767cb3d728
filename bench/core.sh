#!/usr/bin/env bash
# Measures what a request costs on one thread, from the bytes of the request to the frame taken: nanoseconds, and allocations where
# valgrind is there (as the difference of two runs, so that filling is not counted).
# Usage: bench/core.sh [COUNT]   COUNT requests a row, 1000000 if left out. PROGRAM may name another program than the repository's.
set -eu
cd "$(dirname "$0")/.."
count=${1:-1000000}
program=${PROGRAM:-crates/benchmarks/out/benchmarks}

[ -x "$program" ] || (cd crates/benchmarks && rt run >/dev/null)

allocations() {
    valgrind "$program" core "$1" "$2" "$3" 2>&1 | awk '/total heap usage/ { gsub(",", "", $5); print $5 }'
}

printf '%-6s %8s %10s %12s %12s\n' kind ids answered nanoseconds allocations
for ids in 1000 100000; do
    for kind in set fields get ping; do
        each=-
        if command -v valgrind >/dev/null && [ "$ids" -le 1000 ]; then
            each=$((($(allocations "$kind" "$ids" 2000) - $(allocations "$kind" "$ids" 1000)) / 1000))
        fi
        read -r name many answered took <<<"$("$program" core "$kind" "$ids" "$count")"
        printf '%-6s %8s %10s %12s %12s\n' "$name" "$many" "$answered" "$took" "$each"
    done
done
