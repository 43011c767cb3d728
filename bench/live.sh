#!/usr/bin/env bash
# Tries live fences with a real client, and measures them beside redis-server in the same run.
# Usage: bench/live.sh [MESSAGES [BEFORE]]   MESSAGES to each of 50 listeners, 2000 if left out. BEFORE is the program of a build without live
# fences: searches without FENCE are then measured beside it. Needs Debian's redis-tools, redis-server and python3-redis, and says which is not there.
# What has to hold: redis-py reads 1, the confirmation and 10000 payloads once each, in order; no channel is left once it has gone; 50 live
# listeners are told at least half as many messages a second as redis-server tells by PUBLISH to 50; searches lose at most 2 in 100.
set -u
cd "$(dirname "$0")/.." || exit 1
messages=${1:-2000}
before=${2:-}
port=19861 redis_port=16380 before_port=19862
work=$(mktemp -d)
running=()
trap 'for it in "${running[@]}"; do kill "$it" 2>/dev/null; done; rm -rf "$work"' EXIT

missing=0
for tool in redis-cli redis-benchmark redis-server; do
    command -v "$tool" >/dev/null || { echo "live: $tool is not there (Debian: redis-tools, redis-server)"; missing=1; }
done
python=''
for it in /usr/bin/python3 python3; do
    [ -z "$python" ] && "$it" -c 'import redis' 2>/dev/null && python=$it
done
[ -n "$python" ] || { echo "live: the Python module redis is not there (Debian: python3-redis)"; missing=1; }
[ "$missing" = 0 ] || exit 1

# Serves a program at a port, each over a folder of its own.
serve() {
    mkdir -p "$work/$2"
    (cd "$work/$2" && exec "$1" serve "127.0.0.1:$2") >"$work/$2.out" 2>&1 &
    running+=($!)
    until [ "$(redis-cli -p "$2" PING 2>/dev/null)" = PONG ]; do sleep 0.2; done
}

[ -n "${PROGRAM:-}" ] || ./fudrask load 1 1 >/dev/null
serve "$(realpath "${PROGRAM:-crates/tile_server/out/tile_server}")" "$port"
redis-server --port "$redis_port" --save '' --appendonly no --daemonize no >"$work/theirs" 2>&1 &
running+=($!)
until [ "$(redis-cli -p "$redis_port" PING 2>/dev/null)" = PONG ]; do sleep 0.2; done

faults=0
"$python" - "$port" <<'PYTHON' || faults=1
import redis, sys, time

port = int(sys.argv[1])
MESSAGES = 10000
words = redis.Redis("127.0.0.1", port)
words.execute_command("FLUSHDB")
client = redis.Redis("127.0.0.1", port)
link = client.connection_pool.get_connection("WITHIN")
link.send_command(*"WITHIN fleet FENCE DETECT inside BOUNDS 0 0 100000 100000".split())
assert link.read_response() == 1
confirmed = link.read_response()
assert confirmed[0] == b"subscribe" and confirmed[2] == 1, confirmed
channel = confirmed[1]
assert words.execute_command("CHANS", "live/*")[0][0] == channel
for start in range(0, MESSAGES, 500):
    pipe = words.pipeline(transaction=False)
    for i in range(start, start + 500):
        pipe.execute_command("SET", "fleet", f"o{i}", "POINT", i, i)
    pipe.execute()
    for i in range(start, start + 500):
        told = link.read_response()
        wanted = (b'{"command":"set","detect":"inside","hook":"%s","key":"fleet","id":"o%d",'
                  b'"object":{"type":"Point","coordinates":[%d,%d]}}' % (channel, i, i, i))
        assert told == wanted, (told, wanted)
link.disconnect()
for _ in range(200):
    if words.execute_command("CHANS", "live/*") == []:
        break
    time.sleep(0.01)
assert words.execute_command("CHANS", "live/*") == [], "a channel is left"
words.execute_command("FLUSHDB")
print(f"live: redis-py was told {MESSAGES} messages, once each and in order, and no channel is left")
PYTHON

# Messages a second that 50 listeners are told, all of them together. The frames of both are about as long.
told() {
    "$python" - "$1" "$2" "$messages" <<'PYTHON'
import socket, sys, threading, time

which, port, messages = sys.argv[1], int(sys.argv[2]), int(sys.argv[3])
LISTENERS = 50


def text_of(*words):
    return b"*%d\r\n" % len(words) + b"".join(b"$%d\r\n%s\r\n" % (len(it), it) for it in words)


def read(link, count):
    while count > 0:
        piece = link.recv(1 << 20)
        assert piece, "a listener was let go"
        count -= len(piece)


# What each listener is answered first is read up to its last line.
def listener():
    link = socket.create_connection(("127.0.0.1", port))
    if which == "live":
        link.sendall(text_of(*b"WITHIN fleet FENCE DETECT inside BOUNDS 0 0 10 10".split()))
        lines = 7
    else:
        link.sendall(text_of(b"SUBSCRIBE", b"fleet"))
        lines = 6
    head = b""
    while head.count(b"\r\n") < lines:
        head += link.recv(65536)
    return link


payload = b'{"command":"set","detect":"inside","hook":"live/10","key":"fleet","id":"a","object":{"type":"Point","coordinates":[1,1]}}'
listeners = [listener() for _ in range(LISTENERS)]
writer = socket.create_connection(("127.0.0.1", port))
if which == "live":
    change = text_of(*b"SET fleet a POINT 1 1".split())
    answer = b"+OK\r\n"
else:
    change = text_of(b"PUBLISH", b"fleet", payload)
    answer = b":%d\r\n" % LISTENERS
# A first change tells how long a frame is of each listener.
writer.sendall(change)
read(writer, len(answer))
time.sleep(0.5)
sizes = [len(link.recv(1 << 16)) for link in listeners]
start = time.monotonic()
threads = [threading.Thread(target=read, args=(link, size * messages)) for link, size in zip(listeners, sizes)]
threads.append(threading.Thread(target=read, args=(writer, len(answer) * messages)))
for it in threads:
    it.start()
for done in range(0, messages, 100):
    writer.sendall(change * min(100, messages - done))
for it in threads:
    it.join()
print(int(LISTENERS * messages / (time.monotonic() - start)))
PYTHON
}
median() { sort -n | sed -n 2p; }
: >"$work/a"
: >"$work/b"
for _ in 1 2 3; do
    told live "$port" >>"$work/a" || faults=1
    told publish "$redis_port" >>"$work/b" || faults=1
done
a=$(median <"$work/a") b=$(median <"$work/b")
echo "live: 50 listeners are told $a messages a second, those of redis-server by PUBLISH $b: $(awk "BEGIN { printf \"%.2f\", $a / $b }")"
awk "BEGIN { exit !($a * 2 >= $b) }" || { echo "live: that is under a half"; faults=1; }

# Searches without FENCE, a second, in runs that alternate.
if [ -n "$before" ]; then
    serve "$(realpath "$before")" "$before_port"
    for at in "$port" "$before_port"; do
        redis-cli -p "$at" FLUSHDB >/dev/null
        for i in $(seq 1 1000); do echo "SET fleet o$i POINT $((i % 100)) $((i / 10))"; done | redis-cli -p "$at" >/dev/null
    done
    rate() {
        redis-benchmark -p "$1" -n 100000 -c 50 -P "$2" --csv WITHIN fleet COUNT BOUNDS 0 0 10 10 2>/dev/null |
            awk -F'","' 'NR > 1 { gsub("\"", "", $2); print int($2) }' | tail -1
    }
    for pipeline in 1 16 64; do
        : >"$work/a"
        : >"$work/b"
        for _ in 1 2 3 4 5; do
            rate "$port" "$pipeline" >>"$work/a"
            rate "$before_port" "$pipeline" >>"$work/b"
        done
        a=$(sort -n "$work/a" | sed -n 3p) b=$(sort -n "$work/b" | sed -n 3p)
        echo "live: $a searches a second with $pipeline at once, $b before: $(awk "BEGIN { printf \"%.3f\", $a / $b }")"
        awk "BEGIN { exit !($a >= 0.98 * $b) }" || { echo "live: more than 2 in 100 are lost"; faults=1; }
    done
fi
exit "$faults"
