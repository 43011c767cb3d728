#!/usr/bin/env bash
# Kills the server while it writes, and looks whether what it had answered is there when it is started again.
# Usage: bench/crash.sh [--shrink] [ROUNDS [SEED]]   ROUNDS kills, 200 if left out. With --shrink a client asks for AOFSHRINK in every third
# round, so that some of the kills come while the log is rewritten. Needs python3.
# In each round the server is started in one folder, eight clients set objects, several requests ahead of their answers, and signal 9 comes
# at a random moment, in some rounds while the log is opened. Each client has ids of its own and notes what was answered by +OK. When the
# server is started again, what stands of each client's ids has to be what its requests up to some place leave, and no answered one may be
# behind that place. A process that is killed loses nothing that it handed to the system: whether syncs come in the right order this does
# not show.
# The folder is made where TMPDIR says. It is kept, and named, where something is missing.
set -eu
cd "$(dirname "$0")/.."
shrink=0
[ "${1:-}" = --shrink ] && { shrink=1; shift; }
rounds=${1:-200}
seed=${2:-$RANDOM}
# Builds the program where it is older than its sources.
./fudrask load 1 1 >/dev/null

exec python3 - "$PWD/crates/tile_server/out/tile_server" "$rounds" "$seed" "$shrink" <<'PYTHON'
import os, random, shutil, socket, subprocess, sys, tempfile, threading, time

CLIENTS, IDS, AHEAD = 8, 20, 16
program, rounds, seed, shrink = sys.argv[1], int(sys.argv[2]), int(sys.argv[3]), sys.argv[4] == "1"
folder = tempfile.mkdtemp(prefix="crash-")


class Missing(Exception):
    """What stands is not what the answers promised, or the server did what it should not."""


def text_of(*words):
    words = [str(word).encode() for word in words]
    return b"*%d\r\n" % len(words) + b"".join(b"$%d\r\n%s\r\n" % (len(it), it) for it in words)


def free_port():
    with socket.create_server(("127.0.0.1", 0)) as it:
        return it.getsockname()[1]


class Server:
    """The server over the folder. It is started, and killed."""

    def __init__(self):
        self.port = free_port()
        words = [program, "serve", f"127.0.0.1:{self.port}"]
        self.process = subprocess.Popen(words, cwd=folder, stdin=subprocess.DEVNULL, stdout=subprocess.PIPE, stderr=subprocess.STDOUT)

    def listens(self):
        line = self.process.stdout.readline()
        if not line.startswith(b"listening "):
            raise Missing(f"the server did not begin: {line!r}, status {self.process.wait()}")

    def link(self):
        return socket.create_connection(("127.0.0.1", self.port), 60)

    def kill(self):
        status = self.process.poll()
        if status is not None:
            raise Missing(f"the server ended by itself: {self.process.stdout.read()!r}, status {status}")
        self.process.kill()
        self.process.wait()
        self.process.stdout.close()


class Client:
    """Sets objects of its own ids to numbers that rise, and knows what may stand of them."""

    def __init__(self, name):
        self.name = name
        self.number = 0
        # What stood at the start of the round: a number for each id, or None.
        self.stood = [None] * IDS
        # What was sent in this round: ids and numbers, and how many of them were answered.
        self.sent = []
        self.answered = 0
        self.fault = None

    def write(self, server, chance):
        try:
            with server.link() as own, own.makefile("rb") as answers:
                # Each round ends with the kill, which breaks the link.
                while True:
                    for _ in range(chance.randint(1, AHEAD)):
                        self.number += 1
                        i = chance.randrange(IDS)
                        self.sent.append((i, self.number))
                        own.sendall(text_of("SET", "crash", f"{self.name}.{i}", "POINT", self.number, self.name))
                    while self.answered < len(self.sent):
                        line = answers.readline()
                        if not line.endswith(b"\r\n"):
                            return
                        if line != b"+OK\r\n":
                            raise Missing(f"client {self.name} was answered {line!r}")
                        self.answered += 1
        except OSError:
            pass
        except Missing as fault:
            self.fault = fault

    def read(self, own, answers):
        """The number of each id, as the server tells it."""
        own.sendall(b"".join(text_of("GET", "crash", f"{self.name}.{i}", "POINT") for i in range(IDS)))
        found = []
        for i in range(IDS):
            line = answers.readline()
            if line == b"$-1\r\n":
                found.append(None)
                continue
            number, name = [answers.readline() + answers.readline() for _ in range(2)] if line == b"*2\r\n" else (b"", b"")
            if not name.endswith(b"\r\n%d\r\n" % self.name):
                raise Missing(f"{self.name}.{i} was told as {line + number + name!r}")
            found.append(int(number.split(b"\r\n")[1]))
        return found

    def look(self, own, answers):
        """Looks whether what stands is what the requests leave up to the last answered one, or to a later one."""
        found = self.read(own, answers)
        stands = list(self.stood)
        fits = False
        for place in range(len(self.sent) + 1):
            if place >= self.answered and stands == found:
                fits = True
                break
            if place < len(self.sent):
                i, number = self.sent[place]
                stands[i] = number
        if not fits:
            raise Missing(f"client {self.name}: {found} stands; before {self.stood}, sent {self.sent}, of which {self.answered} were answered")
        self.stood, self.sent, self.answered = found, [], 0


def look(server, clients):
    with server.link() as own, own.makefile("rb") as answers:
        for it in clients:
            it.look(own, answers)


# Asks for rewriting at some moment, and once more while that may go on.
def ask_to_shrink(server, chance, faults):
    try:
        with server.link() as own, own.makefile("rb") as answers:
            for _ in range(2):
                time.sleep(chance.uniform(0, 0.1))
                own.sendall(text_of("AOFSHRINK"))
                line = answers.readline()
                if line.endswith(b"\r\n") and line != b"+OK\r\n":
                    faults.append(Missing(f"AOFSHRINK was answered {line!r}"))
    except OSError:
        pass


def play(number, clients, chance):
    """One round. How many writes were answered in it."""
    server = Server()
    try:
        if chance.random() < 0.1:
            time.sleep(chance.uniform(0, 0.05))
            server.kill()
            return 0
        server.listens()
        look(server, clients)
        faults = []
        works = [threading.Thread(target=it.write, args=(server, random.Random(chance.random()))) for it in clients]
        if shrink and number % 3 == 0:
            works.append(threading.Thread(target=ask_to_shrink, args=(server, random.Random(chance.random()), faults)))
        for it in works:
            it.start()
        time.sleep(chance.uniform(0, 0.4))
        server.kill()
        for it in works:
            it.join()
        faults += [it.fault for it in clients if it.fault]
        if faults:
            raise faults[0]
        return sum(it.answered for it in clients)
    finally:
        if server.process.poll() is None:
            server.process.kill()


def main():
    chance = random.Random(seed)
    clients = [Client(name) for name in range(CLIENTS)]
    answered, number = 0, 0
    try:
        for number in range(1, rounds + 1):
            answered += play(number, clients, chance)
        server = Server()
        try:
            server.listens()
            look(server, clients)
        finally:
            server.process.kill()
            server.process.wait()
    except Missing as fault:
        print(f"crash: round {number} of seed {seed}: {fault}")
        print(f"crash: the log stands in {folder}")
        sys.exit(1)
    size = sum(os.path.getsize(os.path.join(folder, "tile-data", it)) for it in os.listdir(os.path.join(folder, "tile-data")))
    shutil.rmtree(folder)
    print(f"crash: {rounds} kills with seed {seed}: all of {answered} answered writes were there; {size} bytes in the log at the end")


main()
PYTHON
