#!/usr/bin/env bash
# Measures what the log costs beside redis-server with a log that is synced at every write (appendonly yes, appendfsync always), in the same
# run: SETs a second of 1, 50 and 200 clients, the opening of a log of many objects beside Redis loading its file, and how long a SET waits
# while that log is rewritten.
# Usage: bench/log.sh [REQUESTS [OBJECTS]]   REQUESTS a row and run, 20000 if left out; OBJECTS in the logs that are opened, 1000000 if left
# out. Needs redis-benchmark, redis-cli and redis-server (Debian's redis-tools and redis-server), and python3.
# A row of SETs tells requests a second of both, medians of three runs that alternate, and their ratio. The row of the opening tells objects
# a second from the start of the process to its first answer, medians of three as well, and the bytes of both logs. The last rows tell of
# one client that sets objects one after another while the log is rewritten (AOFSHRINK here, BGREWRITEAOF there): seconds until the new log
# stands, SETs a second in that time, and the longest wait for an answer in milliseconds; before them the same for as long without a rewriting.
# Both logs are made where TMPDIR says, which has to be on a disk: in a folder in memory a sync costs nothing. PROGRAM may name another program
# than the repository's.
set -eu
cd "$(dirname "$0")/.."
requests=${1:-20000}
objects=${2:-1000000}
port=19861 redis_port=16389
program=$(realpath -m "${PROGRAM:-crates/tile_server/out/tile_server}")
work=$(mktemp -d)
ulimit -n 4096 2>/dev/null || true
ours='' theirs=''
trap 'for it in $ours $theirs; do kill "$it" 2>/dev/null || true; done; rm -rf "$work"' EXIT

missing=0
for tool in redis-cli redis-benchmark redis-server python3; do
    command -v "$tool" >/dev/null || { echo "log: $tool is not there (Debian: redis-tools, redis-server, python3)"; missing=1; }
done
[ "$missing" = 0 ] || exit 1
# Builds the program where it is older than its sources, but where PROGRAM names another.
[ -n "${PROGRAM:-}" ] || ./fudrask load 1 1 >/dev/null
echo "log: the folder is on $(stat -f -c %T "$work")"

# Where a server's log stands: here, or Redis.
mkdir "$work/here" "$work/redis"

start_here() {
    (cd "$work/here" && exec "$program" serve "127.0.0.1:$port") >"$work/here.out" 2>&1 &
    ours=$!
}
start_redis() {
    redis-server --port "$redis_port" --dir "$work/redis" --save '' --appendonly yes --appendfsync always \
        --auto-aof-rewrite-percentage 0 --daemonize no >"$work/redis.out" 2>&1 &
    theirs=$!
}
# Redis answers an error while it loads.
wait_for() {
    until [ "$(redis-cli -p "$1" PING 2>/dev/null)" = PONG ]; do
        kill -0 "$2" 2>/dev/null || { echo "log: a server ended: $(tail -1 "$work/here.out" "$work/redis.out")" >&2; exit 1; }
        sleep 0.02
    done
}
bytes_in() { find "$1" -type f -printf '%s\n' | awk '{ n += $1 } END { print n }'; }
stop() {
    kill -9 "$1"
    wait "$1" 2>/dev/null || true
}
median() { sort -n | sed -n 2p; }

# Requests a second of one run: the port, clients, and the words of the request.
rate() {
    local at=$1 clients=$2
    shift 2
    redis-benchmark -p "$at" -n "$requests" -c "$clients" -r 1000 --csv "$@" 2>/dev/null |
        awk -F'","' 'NR > 1 { gsub("\"", "", $2); print int($2) }' | tail -1
}

start_here
start_redis
wait_for "$port" "$ours"
wait_for "$redis_port" "$theirs"
# As long as the text of the object here.
value=$(printf 'x%.0s' {1..39})
printf '%-10s %8s %10s %10s %6s\n' what clients here redis ratio
for clients in 1 50 200; do
    : >"$work/a"
    : >"$work/b"
    for _ in 1 2 3; do
        rate "$port" "$clients" SET fleet id__rand_int__ POINT 33 112 >>"$work/a"
        rate "$redis_port" "$clients" SET id__rand_int__ "$value" >>"$work/b"
    done
    a=$(median <"$work/a") b=$(median <"$work/b")
    printf '%-10s %8s %10s %10s %6s\n' SET "$clients" "$a" "$b" "$(awk "BEGIN { printf \"%.2f\", $a / $b }")"
done
stop "$ours"
stop "$theirs"

# Logs of so many objects, each set once.
rm -rf "$work/here" "$work/redis"
mkdir "$work/here" "$work/redis"
start_here
start_redis
wait_for "$port" "$ours"
wait_for "$redis_port" "$theirs"
python3 - "$port" "$redis_port" "$objects" "$value" <<'PYTHON'
import socket, sys

port, redis_port, objects = (int(it) for it in sys.argv[1:4])
value = sys.argv[4]
AHEAD = 1000


def text_of(*words):
    words = [str(word).encode() for word in words]
    return b"*%d\r\n" % len(words) + b"".join(b"$%d\r\n%s\r\n" % (len(it), it) for it in words)


# Sends the requests, many ahead of their answers, all of which are +OK.
def fill(at, request):
    with socket.create_connection(("127.0.0.1", at)) as own, own.makefile("rb") as answers:
        for first in range(0, objects, AHEAD):
            count = min(AHEAD, objects - first)
            own.sendall(b"".join(request(first + k) for k in range(count)))
            found = answers.read(5 * count)
            if found != b"+OK\r\n" * count:
                sys.exit(f"log: a SET was answered {found[:80]!r}")


fill(port, lambda k: text_of("SET", "fleet", f"truck{k:07}", "POINT", k % 1000, k // 1000))
fill(redis_port, lambda k: text_of("SET", f"truck{k:07}", value))
PYTHON
stop "$ours"
stop "$theirs"

# Objects a second of one opening, which $1 starts; $2 is its port, and $3 names the variable of its process.
opening() {
    local begun ended
    begun=$(date +%s%N)
    "$1"
    wait_for "$2" "${!3}"
    ended=$(date +%s%N)
    awk "BEGIN { printf \"%d\\n\", $objects * 1e9 / ($ended - $begun) }"
}
expect() {
    [ "$1" = "$2" ] || { echo "log: $1 objects were opened, not $2" >&2; exit 1; }
}
: >"$work/a"
: >"$work/b"
for _ in 1 2 3; do
    opening start_here "$port" ours >>"$work/a"
    expect "$(redis-cli -p "$port" SCAN fleet COUNT)" "$objects"
    stop "$ours"
    opening start_redis "$redis_port" theirs >>"$work/b"
    expect "$(redis-cli -p "$redis_port" DBSIZE)" "$objects"
    stop "$theirs"
done
ours='' theirs=''
a=$(median <"$work/a") b=$(median <"$work/b")
printf '%-10s %8s %10s %10s %6s\n' opening - "$a" "$b" "$(awk "BEGIN { printf \"%.2f\", $a / $b }")"
printf '%-10s %8s %10s %10s\n' bytes - "$(bytes_in "$work/here")" "$(bytes_in "$work/redis")"

# SETs of one client while the log is rewritten, and before.
start_here
start_redis
wait_for "$port" "$ours"
wait_for "$redis_port" "$theirs"
python3 - "$port" "$redis_port" "$work/here/tile-data" "$objects" "$value" <<'PYTHON'
import os, socket, sys, time

port, redis_port, folder, objects, value = int(sys.argv[1]), int(sys.argv[2]), sys.argv[3], int(sys.argv[4]), sys.argv[5]
# The most seconds that a rewriting may take.
PATIENCE = 600


def text_of(*words):
    words = [str(word).encode() for word in words]
    return b"*%d\r\n" % len(words) + b"".join(b"$%d\r\n%s\r\n" % (len(it), it) for it in words)


class Link:
    def __init__(self, at):
        self.own = socket.create_connection(("127.0.0.1", at))
        self.own.setsockopt(socket.IPPROTO_TCP, socket.TCP_NODELAY, 1)
        self.answers = self.own.makefile("rb")

    def ask(self, *words):
        self.own.sendall(text_of(*words))
        return self.answers.readline()

    def text(self, *words):
        size = int(self.ask(*words)[1:])
        return self.answers.read(size + 2)


# Whether a side of the log here is the one in use: its first byte is 1.
def is_open(side):
    with open(os.path.join(folder, side), "rb") as it:
        return it.read(1) == b"\1"


# Sets objects one after another until it is over: seconds, how many, and the longest wait in milliseconds.
def set_until(link, request, is_over):
    begun = now = time.monotonic()
    count, longest, looked = 0, 0.0, begun
    while True:
        before = now
        line = link.ask(*request(count))
        now = time.monotonic()
        if line != b"+OK\r\n":
            sys.exit(f"log: a SET was answered {line!r}")
        count += 1
        longest = max(longest, now - before)
        if now - looked > 0.05:
            looked = now
            if is_over(now - begun):
                return now - begun, count, 1000 * longest
        if now - begun > PATIENCE:
            sys.exit(f"log: the log was not rewritten in {PATIENCE} seconds")


def row(what, who, told):
    seconds, count, longest = told
    print(f"{what:10} {who:>8} {seconds:8.1f} s {count / seconds:8.0f} SETs/s {longest:8.1f} ms longest wait")


def measure(who, link, request, shrink, is_over):
    row("plain", who, set_until(link, request, lambda passed: passed > 10))
    shrink()
    row("rewriting", who, set_until(link, request, is_over))


here, redis, other = Link(port), Link(redis_port), Link(redis_port)
into = "a.log" if is_open("b.log") else "b.log"


def shrink_here():
    if here.ask("AOFSHRINK") != b"+OK\r\n":
        sys.exit("log: AOFSHRINK was refused")


def shrink_redis():
    if not other.ask("BGREWRITEAOF").startswith(b"+"):
        sys.exit("log: BGREWRITEAOF was refused")


measure("here", here, lambda k: ("SET", "fleet", f"truck{k % objects:07}", "POINT", k % 1000, 1), shrink_here, lambda passed: is_open(into))
measure(
    "redis", redis, lambda k: ("SET", f"truck{k % objects:07}", value), shrink_redis,
    lambda passed: b"aof_rewrite_in_progress:0" in other.text("INFO", "persistence"),
)
PYTHON
stop "$ours"
stop "$theirs"
ours='' theirs=''
