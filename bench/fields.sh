#!/usr/bin/env bash
# Measures what fields cost: SETs of points bare, with two numbers and with two texts, the resident bytes of a point of each, the opening of the
# log that they leave, the bytes of an idle session, and the rewriting of a log of version 1 when it is opened; and what channels cost that
# end: microseconds of a SETCHAN with EX, and the seconds of the one call in which 65,536 of them end.
# Usage: bench/fields.sh [N [PROGRAM...]]   N points, 200000 if left out; PROGRAM: other builds of tile_server to measure in the same run, as
# one from before a change. Needs python3. Each row has a folder of its own, made where TMPDIR says; in a folder in memory a sync costs nothing.
# A row tells microseconds of a SET (the least of three), bytes a point, and seconds of the opening.
set -eu
cd "$(dirname "$0")/.."
n=${1:-200000}
[ $# -eq 0 ] || shift
# Builds the program where it is older than its sources.
./fudrask load 1 1 >/dev/null

exec python3 - "$n" crates/tile_server/out/tile_server "$@" <<'PYTHON'
import os, random, subprocess, sys, tempfile, threading, time

END = b"frame +PONG%0D%0A\n"
KINDS = {"bare": [], "numbers": ["FIELD", "load", 7, "FIELD", "speed", 55], "texts": ["FIELD", "driver", "ann", "FIELD", "state", "idle"]}
SESSIONS, CHANNELS = 512, 65536


def request(*words):
    words = [str(word) for word in words]
    return f"*{len(words)}%0D%0A" + "".join(f"${len(word)}%0D%0A{word}%0D%0A" for word in words)


def line(*words, moment=0):
    return f"feed 1 {moment} {request(*words)}\ntake 1\n"


class Played:
    """A script that is played step by step, each step until its last answer is there."""

    def __init__(self, program):
        self.folder = tempfile.TemporaryDirectory(prefix="fields-")
        self.program = subprocess.Popen([program, "replay"], cwd=self.folder.name, stdin=subprocess.PIPE, stdout=subprocess.PIPE, bufsize=0)

    def step(self, lines):
        text = ("".join(lines) + line("PING")).encode()
        writer = threading.Thread(target=self.write, args=(text,))
        begun = time.monotonic()
        writer.start()
        tail = b""
        while not tail.endswith(END):
            piece = os.read(self.program.stdout.fileno(), 1 << 20)
            if not piece:
                sys.exit("fields: the program ended")
            tail = (tail + piece)[-len(END):]
        writer.join()
        return time.monotonic() - begun

    def write(self, text):
        view = memoryview(text)
        while view:
            view = view[self.program.stdin.write(view):]

    def resident(self):
        with open(f"/proc/{self.program.pid}/status") as status:
            return next(int(it.split()[1]) * 1024 for it in status if it.startswith("VmRSS"))

    def end(self):
        self.program.stdin.close()
        self.program.wait()


def check(program, folder):
    begun = time.monotonic()
    told = subprocess.run([program, "check"], cwd=folder, capture_output=True, text=True).stdout.strip()
    return time.monotonic() - begun, told


def sets(program, fields, n):
    played = Played(program)
    played.step(["open\n"])
    empty = played.resident()
    points = [line("SET", "fleet", f"truck{i:07}", *fields, "POINT", i % 1000, i // 1000) for i in range(n)]
    took = [played.step(points)]
    each = (played.resident() - empty) / n
    took += [played.step(points) for _ in range(2)]
    played.end()
    opened, told = check(program, played.folder.name)
    return min(took) * 1e6 / n, each, opened, told, played


def rewritten(program, folder):
    """The seconds of opening a log whose version is one less, or none where there is none less."""
    path = os.path.join(folder, "tile-data", "a.log")
    with open(path, "r+b") as log:
        log.seek(4)
        if log.read(1) == b"\x01":
            return None
        log.seek(4)
        log.write(b"\x01")
    return check(program, folder)


def idle(program):
    played = Played(program)
    played.step(["open\n"])
    empty = played.resident()
    played.step(["open\n"] * (SESSIONS - 1))
    each = (played.resident() - empty) / (SESSIONS - 1)
    played.end()
    return each


def channels(program):
    """Microseconds of a SETCHAN that ends in a minute, and the seconds of the call in which all end."""
    played = Played(program)
    played.step(["open\n"])
    places = [(10 * (i % 256), 10 * (i // 256)) for i in range(CHANNELS)]
    random.Random(1).shuffle(places)
    fences = [line("SETCHAN", f"gate{x}/{y}", "EX", 60, "WITHIN", "fleet", "FENCE", "BOUNDS", x, y, x + 9, y + 9) for x, y in places]
    took = played.step(fences)
    alone = played.step([])
    ended = played.step([line("PING", moment=60000)]) - alone
    played.end()
    return took * 1e6 / CHANNELS, ended


n, programs = int(sys.argv[1]), [os.path.abspath(it) for it in sys.argv[2:]]
for program in programs:
    print(program)
    for kind, fields in KINDS.items():
        took, each, opened, told, played = sets(program, fields, n)
        print(f"  {kind:8} {took:7.2f} us a SET  {each:5.0f} bytes a point  opened in {opened:5.2f} s: {told}", flush=True)
        if kind == "numbers":
            again = rewritten(program, played.folder.name)
            if again:
                print(f"  {'':8} a log of version 1 opened in {again[0]:5.2f} s: {again[1]}", flush=True)
    print(f"  an idle session: {idle(program):.0f} bytes", flush=True)
    each, ended = channels(program)
    print(f"  a SETCHAN with EX: {each:.1f} us; all {CHANNELS} end in {ended:.2f} s", flush=True)
PYTHON
