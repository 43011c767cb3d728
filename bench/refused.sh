#!/usr/bin/env bash
# Refuses memory: of each script one allocation after another fails, in a run of its own, until a run makes fewer of them.
# Scripts of `fault_trials`, told to play once, print the same whatever is refused; the program compares the core with another one where a call
# wanted memory. Scripts of `replay` end with status 7 and a beginning of their output, or as if nothing was refused; behind that the
# folder opens, and the world that is in it is one that the script comes through, not before what was acknowledged.
# Usage: bench/refused.sh [SCRIPT ..]   scripts of `replay`; examples/first.script and examples/fences.script if left out.
set -eu
cd "$(dirname "$0")/.."
here=$PWD
server=$here/crates/tile_server/out/tile_server
trials=$here/crates/fault_trials/out/fault_trials
work=$(mktemp -d)
trap 'rm -rf "$work"' EXIT
[ $# -gt 0 ] || set -- examples/first.script examples/fences.script

# Builds the programs where they are older than their sources.
./fudrask load 1 1 >/dev/null
[ -x "$trials" ] || (cd crates/fault_trials && rt run </dev/null >/dev/null)

# The REFUSED-th call that takes memory fails, and tells so on descriptor 9.
cat >"$work/refuse.c" <<'END'
#include <stdlib.h>
#include <unistd.h>
void *__libc_malloc(size_t), *__libc_calloc(size_t, size_t), *__libc_realloc(void *, size_t);
static long which, made;
static int is_refused(void) {
    if (which == 0) which = getenv("REFUSED") ? atol(getenv("REFUSED")) : -1;
    return ++made == which && write(9, "!", 1) == 1;
}
void *malloc(size_t size) { return is_refused() ? NULL : __libc_malloc(size); }
void *calloc(size_t count, size_t size) { return is_refused() ? NULL : __libc_calloc(count, size); }
void *realloc(void *old, size_t size) { return is_refused() ? NULL : __libc_realloc(old, size); }
END
cc -O1 -shared -fPIC -o "$work/refuse.so" "$work/refuse.c"

# Runs a program in a folder, where the allocation of a number is refused; what it comes to stands in `out` and `status`. Whether there was one.
is_refused() {
    local number=$1 folder=$2
    shift 2
    status=0
    (
        cd "$folder"
        export REFUSED=$number LD_PRELOAD=$work/refuse.so
        exec "$@"
    ) >"$work/out" 2>/dev/null 9>"$work/refused" || status=$?
    [ -s "$work/refused" ]
}

differences=0
differs() {
    differences=$((differences + 1))
    echo "  differs: $*"
}

# The scripts of `fault_trials`, each in a file that says to play it once.
split_trials() {
    awk -v work="$work" '
        /^script / { file = work "/trial" ++n; print "once" >file }
        n { print >file }' crates/fault_trials/stdin
}

try_trial() {
    local script=$1 name number=1
    name=$(sed -n 's/^script //p' "$script")
    "$trials" <"$script" >"$work/plain"
    while is_refused $number "$work" "$trials" <"$script"; do
        cmp -s "$work/plain" "$work/out" || differs "$name, allocation $number"
        number=$((number + 1))
    done
    printf '%-40s %6d refused\n' "$name" $((number - 1))
}

# In a new folder: plays a script, and has the folder opened once more.
play_in() {
    local folder=$1
    mkdir -p "$folder"
    (cd "$folder" && "$server" replay && "$server" check >check)
}

# What the first lines of a script print and leave, for each number of lines.
play_beginnings() {
    local script=$1 lines
    rm -rf "$work/first"
    for lines in $(seq 0 "$(wc -l <"$script")"); do
        mkdir -p "$work/first/$lines"
        head -n "$lines" "$script" | play_in "$work/first/$lines" >"$work/first/$lines/out"
    done
}

# Whether one text begins with another.
begins_with() { cmp -s -n "$(stat -c %s "$2")" "$1" "$2"; }

# Whether a folder has the log that a beginning of the script leaves, and what was printed ends in its last line: all lines before that are
# printed whole, and of that line, which may have been done though its answer found no memory, a part.
is_beginning() {
    local printed=$1 folder=$2 lines before
    for lines in $(seq 0 "$(wc -l <"$script")"); do
        before=$((lines > 0 ? lines - 1 : 0))
        if begins_with "$work/first/$lines/out" "$printed" && begins_with "$printed" "$work/first/$before/out" &&
            diff -rq "$work/first/$lines/tile-data" "$folder/tile-data" >/dev/null; then
            return 0
        fi
    done
    return 1
}

# A run in which memory was refused: it was done all the same, or it ended with status 7 where a beginning of the script does.
judge_replay() {
    local what=$1 folder=$2
    case $status in
    0) cp "$work/out" "$work/printed" ;;
    7)
        sed '$d' "$work/out" >"$work/printed"
        [ "$(tail -n 1 "$work/out")" = 'out of memory' ] || differs "$what: its last line"
        ;;
    *)
        differs "$what: status $status"
        return
        ;;
    esac
    (cd "$folder" && "$server" check >check) || differs "$what: its log is not opened"
    is_beginning "$work/printed" "$folder" || differs "$what: its output or its log"
}

try_replay() {
    local script=$1 number=1
    play_beginnings "$script"
    while
        rm -rf "$work/run" && mkdir "$work/run"
        is_refused $number "$work/run" "$server" replay <"$script"
    do
        judge_replay "$script, allocation $number" "$work/run"
        number=$((number + 1))
    done
    printf '%-40s %6d refused\n' "replay $script" $((number - 1))
}

split_trials
for trial in "$work"/trial*; do try_trial "$trial"; done
for script in "$@"; do try_replay "$script"; done
echo "$differences differences"
[ "$differences" = 0 ]
