#!/usr/bin/env bash
# Opens a log of a world that is heavier than commands may make one, and looks whether it is served where it stands.
# Usage: bench/heavy.sh   Needs python3, about 700 MB on the disk and as much memory.
# The log is written here: 600 objects of a million bytes each, in two keys, and a channel. `check` has to count them. The server then has to
# read, and to refuse what puts an object or a channel with `database is full`, but not PERSIST, DROP and DEL; objects are deleted one by
# one, and the SET that is asked for behind each has to be refused as long as the world with it would weigh more than 536870912 bytes, and
# no longer. At the end the server is killed, and `check` has to count what was left.
# The folder is made where TMPDIR says. It is kept, and named, where an answer is another.
set -eu
cd "$(dirname "$0")/.."
# Builds the program where it is older than its sources.
./fudrask load 1 1 >/dev/null

exec python3 - "$PWD/crates/tile_server/out/tile_server" <<'PYTHON'
import itertools, os, shutil, socket, subprocess, sys, tempfile, time

MAX_WEIGHT = 536_870_912
TEXT = b'{"type":"Point","coordinates":[112,33]%s}' % (b" " * 1_000_000)
FULL = b"-ERR database is full\r\n"
program = sys.argv[1]
folder = tempfile.mkdtemp(prefix="heavy-")


class Other(Exception):
    """What was answered is another than what it has to be."""


def text_of(*words):
    words = [word if isinstance(word, bytes) else str(word).encode() for word in words]
    return b"*%d\r\n" % len(words) + b"".join(b"$%d\r\n%s\r\n" % (len(it), it) for it in words)


def record_of(key, name, deadline=None):
    until = [] if deadline is None else ["AT", deadline]
    return text_of("SET", key, name, *until, "OBJECT", TEXT)


def write_log(records):
    """One batch for each record on side A, behind which the gate is closed."""
    os.mkdir(os.path.join(folder, "tile-data"))
    with open(os.path.join(folder, "tile-data", "a.log"), "wb") as side:
        side.write(b"\x01TFL\x03\x00\x00\x00" + (1).to_bytes(8, "big"))
        for it in records:
            side.write(b"\x01" + len(it).to_bytes(8, "big") + it)
        side.write(b"\x00")
    open(os.path.join(folder, "tile-data", "b.log"), "wb").close()


def wants(what, answer, wanted):
    if answer != wanted:
        raise Other(f"{what}: {answer[:200]!r} in place of {wanted!r}")


def check(objects, channels):
    begun = time.monotonic()
    done = subprocess.run([program, "check"], cwd=folder, stdin=subprocess.DEVNULL, stdout=subprocess.PIPE)
    wants("check", done.stdout, b"objects %d channels %d generation 1\n" % (objects, channels))
    wants("the status of check", done.returncode, 0)
    return time.monotonic() - begun


def free_port():
    with socket.create_server(("127.0.0.1", 0)) as it:
        return it.getsockname()[1]


class Server:
    """The server over the folder, and one session of it."""

    def __init__(self):
        port = free_port()
        words = [program, "serve", f"127.0.0.1:{port}"]
        self.process = subprocess.Popen(words, cwd=folder, stdin=subprocess.DEVNULL, stdout=subprocess.PIPE, stderr=subprocess.STDOUT)
        line = self.process.stdout.readline()
        if not line.startswith(b"listening "):
            self.process.kill()
            raise Other(f"the server did not begin: {line!r}, status {self.process.wait()}")
        self.link = socket.create_connection(("127.0.0.1", port), 60)
        self.answers = self.link.makefile("rb")

    def ask(self, wanted, *words):
        """Each answer here is as long as the one that is wanted, or a line."""
        self.link.sendall(text_of(*words))
        answer = self.answers.readline()
        if answer[:1] in b"*$" and answer[:1] == wanted[:1]:
            answer += self.answers.read(len(wanted) - len(answer))
        wants(" ".join(str(it)[:40] for it in words), answer, wanted)

    def kill(self):
        self.link.close()
        self.process.kill()
        self.process.wait()
        self.process.stdout.close()


def play(server, records, channel):
    """What the server has to answer. How many objects are left of the first key."""
    point = b"*2\r\n$2\r\n33\r\n$3\r\n112\r\n"
    server.ask(point, "GET", "fleet", 0, "POINT")
    server.ask(b"*2\r\n$5\r\nfleet\r\n$4\r\nyard\r\n", "KEYS", "*")
    server.ask(FULL, "SET", "fleet", "new", "POINT", 1, 2)
    server.ask(FULL, "SET", "fleet", 0, "OBJECT", TEXT)
    server.ask(FULL, "FSET", "fleet", 0, "speed", 5)
    server.ask(FULL, "EXPIRE", "fleet", 0, 100)
    server.ask(FULL, "SETCHAN", "more", "WITHIN", "fleet", "FENCE", "BOUNDS", 0, 0, 10, 10)
    server.ask(b":1\r\n", "PERSIST", "fleet", "late")
    server.ask(b":-1\r\n", "TTL", "fleet", "late")
    server.ask(b":1\r\n", "DROP", "yard")
    left = {name: len(record_of(key, name)) for key, name in records if key == "fleet"}
    new = record_of("fleet", "new")
    for name in list(left):
        if sum(left.values()) + len(channel) + len(new) <= MAX_WEIGHT:
            break
        server.ask(FULL, "SET", "fleet", "new", "OBJECT", TEXT)
        server.ask(b":1\r\n", "DEL", "fleet", name)
        del left[name]
    server.ask(b"+OK\r\n", "SET", "fleet", "new", "OBJECT", TEXT)
    server.ask(b":1\r\n", "DELCHAN", "gate")
    return len(left) + 1


def main():
    records = [("fleet", i) for i in range(549)] + [("fleet", "late")] + [("yard", i) for i in range(50)]
    channel = text_of("SETCHAN", "gate", "WITHIN", "fleet", "FENCE", "BOUNDS", 0, 0, 10, 10)
    objects = (record_of(key, name, 9_000_000_000_000 if name == "late" else None) for key, name in records)
    write_log(itertools.chain(objects, [channel]))
    try:
        seconds = check(len(records), 1)
        server = Server()
        try:
            left = play(server, records, channel)
        finally:
            server.kill()
        check(left, 0)
    except (Other, OSError) as fault:
        print(f"heavy: {fault}")
        print(f"heavy: the log stands in {folder}")
        sys.exit(1)
    shutil.rmtree(folder)
    print(f"heavy: a log of {len(records)} MB was opened in {seconds:.1f} s and served; {left} objects were left")


main()
PYTHON
