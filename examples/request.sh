#!/bin/bash
# Writes a request of these words, as a link carries it and as `tile_server backtest` reads it from standard input.
# Usage: examples/request.sh WORD ..
set -u
LC_ALL=C
[ $# -gt 0 ] || { echo "usage: examples/request.sh WORD .." >&2; exit 1; }
printf '*%d\r\n' $#
for word; do
    printf '$%d\r\n%s\r\n' ${#word} "$word"
done
