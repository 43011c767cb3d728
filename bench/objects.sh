#!/usr/bin/env bash
# Measures what the objects of one key cost as there are more of them: points in random order are set, a tenth (at most 100000) is moved,
# windows with about 10 of them are searched (INTERSECTS), the 10 nearest are sought (NEARBY LIMIT 10), a tenth expires at one moment,
# and PDEL takes out all.
# Usage: bench/objects.sh [N...]   numbers of points; 10000 100000 1000000 if left out. Needs python3.
# A row tells for N points the seconds of each step, with those of reading the script and of writing what it prints, the microseconds of
# one operation in brackets, and the resident bytes a point once all are set. Each row has a folder of its own, made where TMPDIR says; in a
# folder in memory a sync costs nothing.
set -eu
cd "$(dirname "$0")/.."
[ $# -gt 0 ] || set -- 10000 100000 1000000
# Builds the program where it is older than its sources.
./fudrask load 1 1 >/dev/null

exec python3 - "$@" <<'PYTHON'
import os, random, subprocess, sys, tempfile, threading, time

PROGRAM = os.path.abspath("crates/tile_server/out/tile_server")
SIDE, SEARCHES = 1_000_000, 10_000
END = b"frame +PONG%0D%0A\n"


def line(moment, *words):
    words = [str(word) for word in words]
    text = "".join(f"${len(word)}%0D%0A{word}%0D%0A" for word in words)
    return f"feed 1 {moment} *{len(words)}%0D%0A{text}\ntake 1\n"


class Played:
    """A script that is played step by step, each step until its last answer is there."""

    def __init__(self):
        self.folder = tempfile.TemporaryDirectory(prefix="objects-")
        self.program = subprocess.Popen([PROGRAM, "replay"], cwd=self.folder.name, stdin=subprocess.PIPE, stdout=subprocess.PIPE, bufsize=0)
        self.moment = 0

    def step(self, lines):
        text = ("".join(lines) + line(self.moment, "PING")).encode()
        writer = threading.Thread(target=self.write, args=(text,))
        begun = time.monotonic()
        writer.start()
        tail = b""
        while not tail.endswith(END):
            piece = os.read(self.program.stdout.fileno(), 1 << 20)
            if not piece:
                sys.exit("objects: the program ended")
            tail = (tail + piece)[-len(END):]
        writer.join()
        return time.monotonic() - begun

    def write(self, text):
        view = memoryview(text)
        while view:
            view = view[self.program.stdin.write(view):]

    def resident(self):
        with open(f"/proc/{self.program.pid}/status") as status:
            return next(int(it.split()[1]) * 1024 for it in status if it.startswith("VmRSS"))


def place(chance):
    return chance.randrange(SIDE), chance.randrange(SIDE)


def measure(n):
    chance = random.Random(n)
    played = Played()
    played.step(["open\n"])
    empty = played.resident()
    order = list(range(n))
    chance.shuffle(order)
    rows = [("set", n, played.step(line(0, "SET", "fleet", f"truck{i:07}", "POINT", *place(chance)) for i in order))]
    each = (played.resident() - empty) / n
    moved = chance.sample(range(n), min(n, 100_000) if n > 100_000 else n // 10)
    rows.append(("move", len(moved), played.step(line(0, "SET", "fleet", f"truck{i:07}", "POINT", *place(chance)) for i in moved)))
    width = round(SIDE * (10 / n) ** 0.5)
    windows = [place(chance) for _ in range(SEARCHES)]
    rows.append(("window", SEARCHES, played.step(line(0, "INTERSECTS", "fleet", "IDS", "BOUNDS", y, x, y + width, x + width) for y, x in windows)))
    points = [place(chance) for _ in range(SEARCHES)]
    rows.append(("nearest", SEARCHES, played.step(line(0, "NEARBY", "fleet", "LIMIT", 10, "IDS", "POINT", y, x) for y, x in points)))
    dying = chance.sample(range(n), n // 10)
    played.step(line(0, "EXPIRE", "fleet", f"truck{i:07}", 1) for i in dying)
    played.moment = 2000
    rows.append(("expire", len(dying), played.step(["tick 2000\n"])))
    rows.append(("PDEL", n - len(dying), played.step([line(2000, "PDEL", "fleet", "*")])))
    played.program.stdin.close()
    played.program.wait()
    steps = "  ".join(f"{name} {took:8.2f} s ({took * 1e6 / max(1, count):7.2f})" for name, count, took in rows)
    print(f"{n:8d}  {steps}  {each:6.0f} bytes", flush=True)


for word in sys.argv[1:]:
    measure(int(word))
PYTHON
