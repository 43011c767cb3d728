#!/usr/bin/env bash
# Measures what fences cost a SET: trucks move to and fro, each in its own field of the plane, and every answer and message is taken.
# Channels stand one in each field, so that about one of them is near a truck. It tells `inside` of each SET, or, where it detects `exit` alone,
# nothing, since no truck leaves its field.
# Usage: bench/fences.sh [COUNT [CHANNELS...]]   COUNT SETs a row, 100000 if left out, and a hundredth of them in the last row; numbers
# of channels, 0 1000 65536 if left out. Needs python3.
# Two rows for each number of channels have one subscriber. The last has one channel and as many subscribers as there can be beside the
# session that sets. Each row has a folder of its own, made where TMPDIR says; in a folder in memory a sync costs nothing, and what is left is
# the cost of the SET itself. A row tells the seconds of the SETs, with those of reading the script and of writing what it prints, the microseconds
# of one SET, how many messages came, and the microseconds of one SETCHAN.
set -eu
cd "$(dirname "$0")/.."
# Builds the program where it is older than its sources, but where PROGRAM names another.
[ -n "${PROGRAM:-}" ] || ./fudrask load 1 1 >/dev/null

[ $# -gt 0 ] || set -- 100000
[ $# -gt 1 ] || set -- "$1" 0 1000 65536

exec python3 - "$@" <<'PYTHON'
import os, random, subprocess, sys, tempfile, threading, time

PROGRAM = os.path.abspath(os.environ.get("PROGRAM") or "crates/tile_server/out/tile_server")
FIELD = 1000
END = b"frame +PONG%0D%0A\n"


def feed(session, *words):
    words = [str(word) for word in words]
    text = "".join(f"${len(word)}%0D%0A{word}%0D%0A" for word in words)
    return f"feed {session} 0 *{len(words)}%0D%0A{text}\n"


def ask(*words):
    return feed(1, *words) + "take 1\n"


class Played:
    """A script that is played step by step, each step until its last answer is there."""

    def __init__(self):
        self.folder = tempfile.TemporaryDirectory(prefix="fences-")
        self.program = subprocess.Popen([PROGRAM, "replay"], cwd=self.folder.name, stdin=subprocess.PIPE, stdout=subprocess.PIPE, bufsize=0)

    def step(self, lines):
        """The seconds that the lines took, and how many messages they brought."""
        text = ("".join(lines) + ask("PING")).encode()
        writer = threading.Thread(target=self.write, args=(text,))
        begun = time.monotonic()
        writer.start()
        pieces, tail = [], b""
        while not tail.endswith(END):
            piece = os.read(self.program.stdout.fileno(), 1 << 20)
            if not piece:
                sys.exit("fences: the program ended")
            pieces.append(piece)
            tail = (tail + piece)[-len(END):]
        writer.join()
        took = time.monotonic() - begun
        return took, b"".join(pieces).count(b'"detect":')

    def write(self, text):
        view = memoryview(text)
        while view:
            view = view[self.program.stdin.write(view):]


def place(field, width):
    """The least corner of a field, in rows of so many."""
    return field // width * FIELD, field % width * FIELD


def channel(field, width, detect):
    y, x = place(field, width)
    return ask("SETCHAN", f"field{field:05}", "WITHIN", "fleet", "FENCE", "DETECT", detect, "BOUNDS", y, x, y + 500, x + 500)


def move(chance, field, width, hearers):
    y, x = place(field, width)
    words = ["SET", "fleet", f"truck{field:05}", "POINT", y + chance.randrange(500), x + chance.randrange(500)]
    return ask(*words) + "".join(f"take {session}\n" for session in hearers)


def measure(channels, detect, subscribers, count):
    chance = random.Random(channels)
    fields = channels or 1000
    width = max(1, round(fields ** 0.5))
    trucks = chance.sample(range(fields), min(fields, 1000))
    hearers = range(2, 2 + subscribers)
    played = Played()
    played.step(["open\n"] * (1 + subscribers) + [feed(session, "PSUBSCRIBE", "field*") + f"take {session}\n" for session in hearers])
    setting, _ = played.step(channel(field, width, detect) for field in range(channels))
    played.step(move(chance, field, width, hearers) for field in trucks)
    took, messages = played.step(move(chance, chance.choice(trucks), width, hearers) for _ in range(count))
    played.program.stdin.close()
    played.program.wait()
    each = f"{setting * 1e6 / channels:8.2f}" if channels else "       -"
    print(f"{channels:8d} {detect if channels else '-':>6} {subscribers:11d} {count:8d} {took:8.2f} {took * 1e6 / count:10.2f} {messages:10d} {each}", flush=True)


count, *rows = (int(word) for word in sys.argv[1:])
print("channels detect subscribers     SETs  seconds  us a SET   messages us a SETCHAN")
for channels in rows:
    for detect in ("inside", "exit") if channels else ("inside",):
        measure(channels, detect, 1, count)
measure(1, "inside", 511, max(1, count // 100))
PYTHON
