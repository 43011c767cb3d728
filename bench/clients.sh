#!/usr/bin/env bash
# Tries the server with real clients, and measures it beside redis-server in the same run.
# Usage: bench/clients.sh [REQUESTS [ADDR]]   REQUESTS a row and run, 100000 if left out. With ADDR a server that runs there is used;
# else one is started over a new log, and what it keeps in memory beside 512 links is held to a bound. Needs Debian's redis-tools, redis-server and
# python3-redis, and says which of them is not there.
# A row tells requests a second of the server and of redis-server (no log), medians of three runs that alternate, and their ratio.
set -u
cd "$(dirname "$0")/.." || exit 1
requests=${1:-100000}
addr=${2:-}
redis_port=16379
work=$(mktemp -d)
ulimit -n 4096 2>/dev/null || true
ours='' theirs=''
trap 'for it in $ours $theirs; do kill "$it" 2>/dev/null; done; rm -rf "$work"' EXIT

missing=0
for tool in redis-cli redis-benchmark redis-server; do
    command -v "$tool" >/dev/null || { echo "clients: $tool is not there (Debian: redis-tools, redis-server)"; missing=1; }
done
python=''
for it in /usr/bin/python3 python3; do
    [ -z "$python" ] && "$it" -c 'import redis' 2>/dev/null && python=$it
done
[ -n "$python" ] || { echo "clients: the Python module redis is not there (Debian: python3-redis)"; missing=1; }
[ "$missing" = 0 ] || exit 1

if [ -z "$addr" ]; then
    addr=127.0.0.1:19851
    ./fudrask load 1 1 >/dev/null
    program=$PWD/crates/tile_server/out/tile_server
    (cd "$work" && exec "$program" serve "$addr") >"$work/ours" 2>&1 &
    ours=$!
fi
host=${addr%:*} port=${addr##*:}
redis-server --port "$redis_port" --save '' --appendonly no --daemonize no >"$work/theirs" 2>&1 &
theirs=$!

cli() { redis-cli -h "$host" -p "$port" "$@"; }
until [ "$(cli PING 2>/dev/null)" = PONG ]; do sleep 0.2; done
until [ "$(redis-cli -p "$redis_port" PING 2>/dev/null)" = PONG ]; do sleep 0.2; done

faults=0
expect() {
    local wanted=$1 found
    shift
    found=$("$@")
    [ "$found" = "$wanted" ] || { echo "clients: '$*' answered '$found', not '$wanted'"; faults=$((faults + 1)); }
}

cli FLUSHDB >/dev/null
expect OK cli SET fleet truck1 POINT 33 112
expect OK cli SET fleet truck2 FIELD speed 90 POINT 35 112
expect '{"type":"Point","coordinates":[112,33]}' cli GET fleet truck1
expect $'0\ntruck1\ntruck2' cli SCAN fleet IDS
expect $'0\ntruck2' cli NEARBY fleet LIMIT 10 IDS POINT 35 112 1
expect "ERR unknown command 'NOTHING'" cli NOTHING
expect 0 cli DEL fleet truck3
expect $'OK\nPONG' bash -c "printf 'SET fleet truck4 POINT 1 1\nPING\n' | redis-cli -h $host -p $port"

# The end of a link: after QUIT, after a protocol that broke, and after the caller's own end.
expect '+OK' bash -c "exec 3<>/dev/tcp/$host/$port; printf '*1\r\n\$4\r\nQUIT\r\n' >&3; timeout 5 cat <&3 | tr -d '\r'"
broken=$(bash -c "exec 3<>/dev/tcp/$host/$port; printf '!' >&3; timeout 5 cat <&3; echo \$?" | tr -d '\r')
case $broken in '-ERR'*0) ;; *) echo "clients: a broken protocol was answered '$broken'"; faults=$((faults + 1)) ;; esac

"$python" - "$host" "$port" <<'PYTHON' || faults=$((faults + 1))
import redis, socket, sys, threading

host, port = sys.argv[1], int(sys.argv[2])
client = redis.Redis(host, port)
assert client.ping()
assert client.execute_command("SET", "py", "a", "POINT", 7, 8) in (True, b"OK")
assert client.execute_command("GET", "py", "a") == b'{"type":"Point","coordinates":[8,7]}'
assert client.execute_command("GET", "py", "a", "POINT") == [b"7", b"8"]
try:
    client.execute_command("GET", "py")
    raise SystemExit("clients: a wrong number of words was not refused")
except redis.ResponseError:
    pass
# A pipeline of many requests over one link.
pipe = client.pipeline(transaction=False)
for i in range(1000):
    pipe.execute_command("FSET", "py", "a", "n", i)
    pipe.execute_command("FGET", "py", "a", "n")
answers = pipe.execute()
assert answers[1::2] == [str(i).encode() for i in range(1000)], answers[:8]


# Many links at once, of which half never read.
def silent():
    link = socket.create_connection((host, port))
    link.sendall(b"*1\r\n$4\r\nPING\r\n" * 1000)
    return link


silents = [silent() for _ in range(50)]
fails = []


def work(k):
    try:
        own = redis.Redis(host, port)
        for i in range(200):
            own.execute_command("SET", "many", f"{k}.{i}", "POINT", k, i)
            assert own.execute_command("GET", "many", f"{k}.{i}", "POINT") == [str(k).encode(), str(i).encode()]
    except Exception as fault:
        fails.append(fault)


threads = [threading.Thread(target=work, args=(k,)) for k in range(50)]
for it in threads:
    it.start()
for it in threads:
    it.join()
assert not fails, fails[0]
# The module reads answers of SCAN as those of Redis.
client.set_response_callback("SCAN", lambda answer, **_: answer)
found = client.execute_command("SCAN", "many", "COUNT")
assert found == 10000, found
for it in silents:
    it.close()
PYTHON

# As many links as there are sessions, of which half never read: each other subscribes, and all of them send many requests. The other half is
# answered all the same. A further caller is refused until one has gone.
"$python" - "$host" "$port" "$requests" "$ours" <<'PYTHON' || faults=$((faults + 1))
import socket, sys, threading, time

host, port, requests, server = sys.argv[1], int(sys.argv[2]), int(sys.argv[3]), sys.argv[4]
LINKS, MIB = 512, 1 << 20


def text_of(*words):
    return b"*%d\r\n" % len(words) + b"".join(b"$%d\r\n%s\r\n" % (len(it), it) for it in words)


# A size that the system tells of the server, in MiB.
def memory(name):
    with open(f"/proc/{server}/status") as status:
        return next(int(it.split()[1]) // 1024 for it in status if it.startswith(name))


# A link that is served: an answer has come, and is not read yet. It is tried anew while sessions of earlier callers end.
def link():
    for _ in range(600):
        made = socket.create_connection((host, port), 60)
        try:
            made.sendall(text_of(b"PING"))
            if made.recv(1, socket.MSG_PEEK):
                return made
        except ConnectionError:
            pass
        made.close()
        time.sleep(0.1)
    raise SystemExit("clients: there is no session for a link")


def is_refused():
    with socket.create_connection((host, port), 10) as further:
        try:
            return further.recv(1) == b""
        except ConnectionError:
            return True
        except socket.timeout:
            return False


def expect(own, wanted):
    found = b""
    while len(found) < len(wanted):
        piece = own.recv(65536)
        if not piece:
            break
        found += piece
    assert found == wanted, (found, wanted)


# Sends to each link what the system takes of its text, for half a minute at most. A link that was let go is left.
def flood(texts):
    for it in texts:
        it.setblocking(False)
    end = time.monotonic() + 30
    while texts and time.monotonic() < end:
        for it, text in list(texts.items()):
            try:
                texts[it] = text[it.send(text[:65536]) :]
            except BlockingIOError:
                pass
            except OSError:
                texts[it] = b""
            if not texts[it]:
                del texts[it]
        time.sleep(0.01)


before = memory("VmRSS") if server else 0
talkers = [link() for _ in range(LINKS // 2)]
silents = [link() for _ in range(LINKS // 2)]
assert is_refused(), "a caller beyond the 512th is let in"

first = talkers[0]
expect(first, b"+PONG\r\n")
first.sendall(text_of(*b"SETCHAN crowd WITHIN crowd FENCE DETECT inside BOUNDS 0 0 1000 100000".split()))
expect(first, b":1\r\n")
pings, gets = text_of(b"PING") * (requests // 50), text_of(b"GET", b"crowd", b"0.0") * (requests // 50)
texts = {it: text_of(b"SUBSCRIBE", b"crowd") + pings for it in silents[::2]} | {it: gets for it in silents[1::2]}
fails = []


def work(k, own):
    try:
        if own is not first:
            expect(own, b"+PONG\r\n")
        for i in range(max(requests // 1000, 1)):
            own.sendall(text_of(b"SET", b"crowd", b"%d.%d" % (k, i), b"POINT", b"%d" % k, b"%d" % i))
            expect(own, b"+OK\r\n")
            own.sendall(text_of(b"GET", b"crowd", b"%d.%d" % (k, i), b"POINT"))
            expect(own, text_of(b"%d" % k, b"%d" % i))
    except Exception as fault:
        fails.append(fault)


threads = [threading.Thread(target=flood, args=(texts,))]
threads += [threading.Thread(target=work, args=it) for it in enumerate(talkers)]
for it in threads:
    it.start()
for it in threads:
    it.join()
assert not fails, fails[0]

# What waits for a link that subscribed is 6 MiB in 32768 frames at most, for another 2 MiB; and a MiB a link is more than its threads, its
# records and a piece of a stream take.
if server:
    bound = LINKS // 4 * 6 + LINKS * 3 // 4 * 2 + LINKS
    after, most = memory("VmRSS"), memory("VmHWM")
    print(f"clients: 512 links, half of them silent: {before} MiB resident before, {after} after, {most} at most; allowed {before + bound}")
    assert most <= before + bound, "the server keeps too much for its links"
# A session is free again once a link has gone.
first.close()
last = link()
for it in talkers + silents:
    it.close()
last.sendall(text_of(b"FLUSHDB"))
expect(last, b"+PONG\r\n+OK\r\n")
last.close()
PYTHON
[ "$faults" = 0 ] || { echo "clients: $faults faults"; exit 1; }
echo "clients: all answers as expected"

# Requests a second of one run: the port, clients, pipeline, and the words of the request.
rate() {
    local at=$1 where=$2 clients=$3 pipeline=$4
    shift 4
    redis-benchmark -h "$where" -p "$at" -n "$requests" -c "$clients" -P "$pipeline" -r 1000 --csv "$@" 2>/dev/null |
        awk -F'","' 'NR > 1 { gsub("\"", "", $2); print int($2) }' | tail -1
}
median() { sort -n | sed -n 2p; }

# As long as the answer of GET here; redis-benchmark shows it in its table, so it has no commas or quotes.
value=$(printf 'x%.0s' {1..39})
printf '%8s %9s %-5s %10s %10s %6s\n' clients pipeline what here redis ratio
for row in '1 1' '50 1' '200 1' '50 16'; do
    read -r clients pipeline <<<"$row"
    for what in SET GET PING; do
        case $what in
        SET) here=(SET fleet id__rand_int__ POINT 33 112) there=(SET id__rand_int__ "$value") ;;
        GET) here=(GET fleet id__rand_int__) there=(GET id__rand_int__) ;;
        PING) here=(PING) there=(PING) ;;
        esac
        : >"$work/a"
        : >"$work/b"
        for _ in 1 2 3; do
            rate "$port" "$host" "$clients" "$pipeline" "${here[@]}" >>"$work/a"
            rate "$redis_port" 127.0.0.1 "$clients" "$pipeline" "${there[@]}" >>"$work/b"
        done
        a=$(median <"$work/a") b=$(median <"$work/b")
        printf '%8s %9s %-5s %10s %10s %6s\n' "$clients" "$pipeline" "$what" "$a" "$b" "$(awk "BEGIN { printf \"%.2f\", $a / $b }")"
    done
done
