#!/usr/bin/env bash
# Follows a running server, and measures that: by `follow`, which keeps the server's world, and by examples/copy_log.py, which keeps its log. How long
# a first copy takes beside `check` on the same log, what writers lose by a follower, how far each is behind when they rest, and whether the copy is the
# server's log, and `follow` tells the server's world, when any of the three were killed. Where redis-server is there, the same is measured of it and a
# replica (REPLICAOF), with as many keys.
# Usage: bench/follow.sh [OBJECTS [KILLS [SEED]]]   1000000 objects, as many as a server takes, and 100 kills if left out. Needs python3 and Debian's redis-tools. PROGRAM may
# name another program than the repository's.
# Kills come at random moments, of the server, the copy or `follow`, while fifty clients write; behind every third round the log is rewritten. When all
# rests, the bytes of the copy have to be those of the server's side in use, from its first byte to its closed gate, and the last line of `follow` the
# one that `check` writes.
# Status 1 where a copy differs.
set -eu
cd "$(dirname "$0")/.."
objects=${1:-1000000}
kills=${2:-100}
seed=${3:-$RANDOM}
program=${PROGRAM:-$PWD/crates/tile_server/out/tile_server}
command -v redis-benchmark >/dev/null || { echo "follow: redis-benchmark is not there (Debian: redis-tools)" >&2; exit 1; }
# Builds the program where it is older than its sources.
[ -n "${PROGRAM:-}" ] || ./fudrask load 1 1 >/dev/null

exec python3 - "$program" "$PWD/examples/copy_log.py" "$objects" "$kills" "$seed" <<'PYTHON'
import os, random, shutil, socket, struct, subprocess, sys, tempfile, threading, time

program, script = sys.argv[1:3]
objects, kills, seed = map(int, sys.argv[3:])
folder = tempfile.mkdtemp(prefix="follow-")
leader, standby = f"{folder}/leader", f"{folder}/standby"
os.mkdir(leader)
chance = random.Random(seed)


def text_of(*words):
    words = [str(word).encode() for word in words]
    return b"*%d\r\n" % len(words) + b"".join(b"$%d\r\n%s\r\n" % (len(it), it) for it in words)


def free_port():
    with socket.create_server(("127.0.0.1", 0)) as it:
        return it.getsockname()[1]


PORT = free_port()


class Server:
    def __init__(self):
        words = [program, "serve", f"127.0.0.1:{PORT}", "--followers", "4"]
        self.process = subprocess.Popen(words, cwd=leader, stdin=subprocess.DEVNULL, stdout=subprocess.PIPE)
        if not self.process.stdout.readline().startswith(b"listening "):
            sys.exit(f"follow: the server did not begin, status {self.process.wait()}")

    def kill(self):
        self.process.kill()
        self.process.wait()
        self.process.stdout.close()


def copying(*more):
    words = [sys.executable, script, f"127.0.0.1:{PORT}", f"{standby}/tile-data", *more]
    return subprocess.Popen(words, stdin=subprocess.DEVNULL, stdout=subprocess.DEVNULL)


class Follow:
    """`follow --watch`, whose lines are read as they come."""

    def __init__(self):
        words = [program, "follow", f"127.0.0.1:{PORT}", "--watch"]
        self.process = subprocess.Popen(words, cwd=folder, stdin=subprocess.DEVNULL, stdout=subprocess.PIPE)
        self.lines, self.last = 0, None
        threading.Thread(target=self.read, daemon=True).start()

    def read(self):
        for line in self.process.stdout:
            if line.startswith(b"objects "):
                self.last = line.decode().strip()
                self.lines += 1

    def kill(self):
        self.process.kill()
        self.process.wait()


def link():
    return socket.create_connection(("127.0.0.1", PORT), 60)


def asked(*words):
    """The first line of the answer."""
    with link() as own, own.makefile("rb") as answers:
        own.sendall(text_of(*words))
        return answers.readline()


def front(path):
    """The bytes of a side up to its closed gate, where it is open."""
    with open(path, "rb") as side:
        data = side.read()
    if len(data) < 17 or data[0] != 1:
        return None
    place = 16
    while data[place] == 1:
        place += 9 + struct.unpack(">Q", data[place + 1:place + 9])[0]
    return data[:place]


def in_use():
    sides = [front(f"{leader}/tile-data/{name}.log") for name in "ab"]
    return max((it for it in sides if it is not None), key=lambda it: it[8:16])


def is_same():
    return in_use() == front(f"{standby}/tile-data/a.log")


def wait_for(holds, most):
    begun = time.time()
    while not holds():
        if time.time() - begun > most:
            return None
        time.sleep(0.002)
    return time.time() - begun


def checked(at):
    begun = time.time()
    line = subprocess.run([program, "check"], cwd=at, stdout=subprocess.PIPE, check=True).stdout.decode().strip()
    return time.time() - begun, line


# Each write is of one of the objects that are there.
def truck(number):
    return f"truck{number:012}"


def fill():
    with link() as own, own.makefile("rb") as answers:
        for start in range(0, objects, 500):
            count = min(500, objects - start)
            own.sendall(b"".join(text_of("SET", "fleet", truck(start + i), "POINT", chance.randrange(-10**6, 10**6), chance.randrange(-10**6, 10**6)) for i in range(count)))
            for _ in range(count):
                answers.readline()


def rate(port=PORT, command=("SET", "fleet", "truck__rand_int__", "POINT", "1", "2")):
    words = ["redis-benchmark", "-p", str(port), "-c", "50", "-n", "50000", "-r", str(min(objects, 100000)), "--csv", *command]
    lines = subprocess.run(words, stdout=subprocess.PIPE, stderr=subprocess.DEVNULL, check=True).stdout.decode().splitlines()
    return float(lines[-1].split('","')[1].strip('"'))


def median(values):
    return sorted(values)[len(values) // 2]


server = Server()
fill()
begun = time.time()
if copying("--once").wait() != 0:
    sys.exit("follow: the first copy failed")
took = time.time() - begun
server.kill()
check, counted = checked(leader)
os.makedirs(standby, exist_ok=True)
same = checked(standby)[1] == counted
print(f"first copy of {objects} objects: {took:.2f} s, check {check:.2f} s, ratio {took / check:.2f} (at most 2); {counted}; {'the same' if same else 'NOT THE SAME'}")

server = Server()
begun = time.time()
line = subprocess.run([program, "follow", f"127.0.0.1:{PORT}"], stdin=subprocess.DEVNULL, stdout=subprocess.PIPE).stdout.decode().strip()
took = time.time() - begun
same = same and line == counted
print(f"follow: first world of {objects} objects: {took:.2f} s, ratio to check {took / check:.2f} (at most 2); {line}")
alone, followed = [], []
for _ in range(3):
    alone.append(rate())
    copy, watch = copying(), Follow()
    wait_for(is_same, 60)
    wait_for(lambda: watch.lines, 60)
    followed.append(rate())
    wait_for(is_same, 60)
    copy.kill()
    copy.wait()
    watch.kill()
print(f"SETs of 50 clients a second: alone {median(alone):.0f}, followed by both {median(followed):.0f}, ratio {median(followed) / median(alone):.2f} (at least 0.9)")

copy = copying()
wait_for(is_same, 30)
path = f"{standby}/tile-data/a.log"


def late():
    asked("SET", "fleet", truck(0), "POINT", 10, 10)


def size():
    return os.stat(path).st_size


# By how many bytes one such SET lengthens the copy.
late()
wait_for(is_same, 30)
before = size()
late()
wait_for(is_same, 30)
more = size() - before
behind = []
for _ in range(50):
    time.sleep(chance.random() / 5)
    wanted = size() + more
    late()
    behind.append(1000 * (wait_for(lambda: size() >= wanted, 10) or 10))
print(f"behind at rest: {median(behind):.0f} ms, at most {max(behind):.0f} (at most 150)")
watch = Follow()
wait_for(lambda: watch.lines, 60)
behind = []
for _ in range(50):
    time.sleep(chance.random() / 5)
    told = watch.lines
    late()
    behind.append(1000 * (wait_for(lambda: watch.lines > told, 10) or 10))
print(f"follow: behind at rest: {median(behind):.0f} ms, at most {max(behind):.0f} (at most 150)")


def write(stop, name):
    own_chance = random.Random(name)
    while not stop.is_set():
        try:
            with link() as own, own.makefile("rb") as answers:
                while not stop.is_set():
                    own.sendall(text_of("SET", "fleet", truck(own_chance.randrange(objects)), "POINT", name, own_chance.randrange(100)))
                    if not answers.readline():
                        break
        except OSError:
            time.sleep(0.05)


differ = 0
for turn in range(kills):
    stop = threading.Event()
    writers = [threading.Thread(target=write, args=(stop, name)) for name in range(50)]
    for it in writers:
        it.start()
    time.sleep(chance.random() / 3)
    if turn % 3 == 2:
        asked("AOFSHRINK")
        time.sleep(chance.random() / 10)
    whom = chance.randrange(4)
    if whom < 2:
        server.kill()
        server = Server()
    elif whom == 2:
        copy.kill()
        copy.wait()
        copy = copying()
    else:
        watch.kill()
        watch = Follow()
    stop.set()
    for it in writers:
        it.join()
    if wait_for(is_same, 60) is None:
        differ += 1
time.sleep(3)
copy.kill()
copy.wait()
watch.kill()
server.kill()
counted = [checked(at)[1] for at in (leader, standby)] + [watch.last]
print(f"{kills} kills: {differ} differences; {', '.join(map(str, counted))}")
if differ or not same or len(set(counted)) > 1:
    sys.exit(f"follow: the copy is not the log; seed {seed}, {folder}")


# ---- redis-server and a replica


class Redis:
    def __init__(self, name, *more):
        self.port, self.at = free_port(), f"{folder}/{name}"
        os.mkdir(self.at)
        words = ["redis-server", "--port", str(self.port), "--save", "", "--appendonly", "yes", "--appendfsync", "always", *more]
        self.process = subprocess.Popen(words, cwd=self.at, stdin=subprocess.DEVNULL, stdout=subprocess.DEVNULL)
        wait_for(lambda: self.said("PING") == "PONG", 30)

    def said(self, *words):
        return subprocess.run(["redis-cli", "-p", str(self.port), *words], stdout=subprocess.PIPE, stderr=subprocess.DEVNULL).stdout.decode().strip()

    def kill(self):
        self.process.kill()
        self.process.wait()


def replica_of(master):
    return Redis(f"replica{time.time()}", "--replicaof", f"127.0.0.1 {master.port}")


if shutil.which("redis-server"):
    master = Redis("master")
    with socket.create_connection(("127.0.0.1", master.port), 60) as own, own.makefile("rb") as answers:
        for start in range(0, objects, 500):
            count = min(500, objects - start)
            own.sendall(b"".join(text_of("SET", truck(start + i), f"POINT {chance.randrange(-10**6, 10**6)} {chance.randrange(-10**6, 10**6)}") for i in range(count)))
            for _ in range(count):
                answers.readline()
    begun = time.time()
    replica = replica_of(master)
    wait_for(lambda: replica.said("DBSIZE") == str(objects), 600)
    print(f"redis: first copy of {objects} keys: {time.time() - begun:.2f} s")
    replica.kill()
    alone, followed = [], []
    for _ in range(3):
        alone.append(rate(master.port, ("SET", "truck__rand_int__", "POINT 1 2")))
        replica = replica_of(master)
        wait_for(lambda: "master_link_status:up" in replica.said("INFO", "replication"), 600)
        followed.append(rate(master.port, ("SET", "truck__rand_int__", "POINT 1 2")))
        replica.kill()
    print(f"redis: SETs of 50 clients a second: alone {median(alone):.0f}, followed {median(followed):.0f}, ratio {median(followed) / median(alone):.2f}")
    replica = replica_of(master)
    wait_for(lambda: "master_link_status:up" in replica.said("INFO", "replication"), 600)
    behind = []
    with socket.create_connection(("127.0.0.1", replica.port), 60) as own, own.makefile("rb") as answers:
        def has(value):
            own.sendall(text_of("GET", "late"))
            head = answers.readline()
            return head != b"$-1\r\n" and answers.readline().strip() == value

        for i in range(50):
            time.sleep(chance.random() / 5)
            with socket.create_connection(("127.0.0.1", master.port), 60) as there, there.makefile("rb") as told:
                there.sendall(text_of("SET", "late", i))
                told.readline()
            behind.append(1000 * (wait_for(lambda: has(str(i).encode()), 10) or 10))
    print(f"redis: behind at rest: {median(behind):.1f} ms, at most {max(behind):.1f}")
    replica.kill()
    master.kill()
shutil.rmtree(folder)
PYTHON
