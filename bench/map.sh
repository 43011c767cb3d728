#!/usr/bin/env bash
# Opens the map in a browser without a screen, moves objects by redis-py, and looks at what the page has seen.
# Usage: bench/map.sh [FOLDER [OBJECTS [SECONDS]]]   1000 objects for 20 seconds if left out, each of which moves once a second. Screenshots
# go to FOLDER, where it is given. PROGRAM is the server, the one that ./fudrask builds if not set. Needs Debian's chromium, chromium-driver,
# python3-selenium and python3-redis, and says which is not there.
# What has to hold: 99 of 100 moves are seen by the page within 50 milliseconds after they were sent; it is told of what another listener to the
# channels is told, in that order; once it is left it leaves no channel behind; and it goes on by itself when the server was killed and started
# again. A row of times, counted from when a move was sent, has the median, the 99th of 100 and the share within 50 milliseconds: "answered" when
# the sender has the reply, "seen" when the page has the new place, "drawn" when the picture has it.
set -eu
cd "$(dirname "$0")/.."
folder=${1:-}
objects=${2:-1000}
seconds=${3:-20}

missing=0
for tool in chromium chromedriver; do
    command -v "$tool" >/dev/null || { echo "map: $tool is not there (Debian: chromium, chromium-driver)"; missing=1; }
done
python=''
for it in /usr/bin/python3 python3; do
    [ -z "$python" ] && "$it" -c 'import redis, selenium' 2>/dev/null && python=$it
done
[ -n "$python" ] || { echo "map: the modules redis and selenium are not there (Debian: python3-redis, python3-selenium)"; missing=1; }
[ "$missing" = 0 ] || exit 1

[ -n "${PROGRAM:-}" ] || ./fudrask load 1 1 >/dev/null
program=$(realpath "${PROGRAM:-crates/tile_server/out/tile_server}")
[ -z "$folder" ] || mkdir -p "$folder"

exec "$python" - "$program" "$folder" "$objects" "$seconds" <<'PYTHON'
import json, os, random, shutil, socket, subprocess, sys, tempfile, threading, time

import redis
from selenium import webdriver
from selenium.webdriver.chrome.options import Options
from selenium.webdriver.chrome.service import Service

program, folder, count, seconds = sys.argv[1], sys.argv[2], int(sys.argv[3]), int(sys.argv[4])
WIDE, WITHIN, STEPS = 20000, 50, 50
YARDS = {"north": (13000, 3000, 17000, 8000), "south": (2000, 4000, 6000, 9000), "east": (7000, 13000, 12000, 18000)}
LAKE = '{"type":"Polygon","coordinates":[[[2500,9500],[7000,9000],[8500,11500],[6000,14000],[3000,12500],[2500,9500]]]}'
PORT = 19871
faults = []
work = tempfile.mkdtemp(prefix="map-")


def fault(text):
    faults.append(text)
    print(f"map: {text}", flush=True)


def client():
    return redis.Redis("127.0.0.1", PORT)


def serve():
    server = subprocess.Popen([program, "serve", f"127.0.0.1:{PORT}", "--ws"], cwd=work, stdout=subprocess.DEVNULL)
    for _ in range(100):
        try:
            client().ping()
            return server
        except (redis.ConnectionError, redis.TimeoutError):
            time.sleep(0.1)
    sys.exit("map: the server does not come up")


def browser():
    options = Options()
    for it in ["--headless=new", "--window-size=1280,840", "--disable-dev-shm-usage"]:
        options.add_argument(it)
    if os.geteuid() == 0:
        options.add_argument("--no-sandbox")
    return webdriver.Chrome(service=Service("/usr/bin/chromedriver"), options=options)


def wait(what, holds, limit=20):
    """Waits until something holds, and gives the seconds that this took."""
    start = time.monotonic()
    while time.monotonic() - start < limit:
        if holds():
            return time.monotonic() - start
        time.sleep(0.05)
    fault(f"{what}: not within {limit} seconds")
    return limit


def picture(page, name, look):
    page.execute_cdp_cmd("Emulation.setEmulatedMedia", {"features": [{"name": "prefers-color-scheme", "value": look}]})
    time.sleep(0.5)
    if folder:
        page.save_screenshot(os.path.join(folder, name))


class Fleet:
    """Objects, each of which moves once a second. Where an object is tells which of its moves it was: its x is never the same twice."""

    def __init__(self):
        draw = random.Random(5)
        self.places = {f"truck{i}": [draw.randrange(WIDE), draw.randrange(WIDE)] for i in range(count)}
        self.ways = {it: (draw.choice([-1, 1]) * draw.randrange(120, 400), draw.randrange(-250, 250)) for it in self.places}

    def put(self, pipe, name):
        x, y = self.places[name]
        pipe.execute_command("SET", "fleet", name, "FIELD", "speed", abs(self.ways[name][0]) // 4, "POINT", y, x)

    def fill(self):
        pipe = client().pipeline(transaction=False)
        for name in self.places:
            self.put(pipe, name)
        pipe.execute()

    def move(self, seconds):
        """Moves them in fifty parts of a second."""
        self.sent, self.answered = {}, []
        pipe, names = client().pipeline(transaction=False), list(self.places)
        start = time.monotonic()
        for step in range(seconds * STEPS):
            time.sleep(max(0, start + step / STEPS - time.monotonic()))
            now = names[step % STEPS :: STEPS]
            for name in now:
                for at in (0, 1):
                    self.places[name][at] += self.ways[name][at]
                self.put(pipe, name)
            moment = time.time() * 1000
            for name in now:
                self.sent[f"{name} {self.places[name][0]}"] = moment
            pipe.execute()
            self.answered += [time.time() * 1000 - moment] * len(now)
        self.took = time.monotonic() - start


class Listener(threading.Thread):
    """Notes what is told by the channels that the page draws."""

    def __init__(self):
        super().__init__(daemon=True)
        self.told = []
        self.caller = client().pubsub()
        self.caller.psubscribe("yard-*")
        while self.caller.get_message(timeout=5) is None:
            pass
        self.start()

    def run(self):
        try:
            for it in self.caller.listen():
                self.told.append(it["data"].decode())
        except (redis.ConnectionError, ValueError, OSError):
            pass


# Notes when the page has seen and drawn each place of each object, five times a second.
WATCH = """
window.noted = new Map();
setInterval(() => {
  for (const [id, it] of Object.entries(fudrask.positions.fleet || {})) noted.set(`${id} ${it.x}`, [it.at, it.drawn]);
}, 200);
"""


def row(what, times, total):
    times.sort()
    within = sum(it <= WITHIN for it in times) / total
    middle, late = times[len(times) // 2], times[min(len(times) - 1, len(times) * 99 // 100)]
    print(f"map: {what} after {middle:.0f} ms, 99 of 100 {late:.0f} ms, within {WITHIN} ms {100 * within:.2f} of 100", flush=True)
    return within


def channels(words):
    """The names of the channels of live fences, and of the others."""
    names = [it[0].decode() for it in words.execute_command("CHANS", "*")]
    return [it for it in names if it.startswith("live/")], [it for it in names if not it.startswith("live/")]


def measure(page, listener, fleet):
    page.execute_script(WATCH)
    fleet.move(seconds)
    time.sleep(1)
    noted = dict(page.execute_script("return [...noted]"))
    both = [(noted[it][0] - at, noted[it][1] - at) for it, at in fleet.sent.items() if it in noted]
    print(f"map: {count} objects moved {len(fleet.sent)} times in {fleet.took:.1f} seconds, of which the page has seen {len(both)}")
    row("answered", fleet.answered, len(fleet.sent))
    if row("seen", [it[0] for it in both], len(fleet.sent)) < 0.99:
        fault(f"fewer than 99 of 100 moves are seen within {WITHIN} ms")
    row("drawn", [it[1] for it in both], len(fleet.sent))
    # Pictures take the page's time, so they come behind what is measured.
    mover = threading.Thread(target=fleet.move, args=(5,))
    mover.start()
    time.sleep(2)
    picture(page, "light.png", "light")
    picture(page, "dark.png", "dark")
    mover.join()
    time.sleep(1)
    told = page.execute_script("return fudrask.events.map(it => `${it.detect} ${it.id} ${it.hook}`)")
    heard = [json.loads(it) for it in listener.told]
    heard = [f"{it['detect']} {it['id']} {it['hook']}" for it in heard]
    print(f"map: {len(told)} events on the page, {len(heard)} told to another listener")
    if told != heard[-len(told) :] or len(told) < min(len(heard), 4000):
        fault("the page was told other events")


def restart(page, words, fleet, server):
    server.kill()
    server.wait()
    wait("the page tells that the server is gone", lambda: not page.execute_script("return fudrask.connected"))
    picture(page, "gone.png", "light")
    server = serve()
    took = wait("the page is connected again", lambda: page.execute_script("return fudrask.connected"))
    print(f"map: connected again {took:.1f} seconds after the server was there")
    time.sleep(1)
    # A place between two others.
    client().execute_command("SET", "fleet", "truck0", "POINT", 5, 7)
    wait("a move behind the restart is seen", lambda: page.execute_script("return fudrask.positions.fleet.truck0?.x") == 7)
    shown = page.execute_script("return Object.keys(fudrask.positions.fleet).length")
    if shown != count:
        fault(f"{shown} objects are shown behind the restart, not {count}")
    return server


def main():
    server, page = serve(), None
    try:
        words, fleet = client(), Fleet()
        page = browser()
        url = f"http://127.0.0.1:{PORT}/"
        page.get(url)
        wait("the page is connected", lambda: page.execute_script("return fudrask.connected"))
        for name, area in YARDS.items():
            words.execute_command("SETCHAN", f"yard-{name}", *"WITHIN fleet FENCE DETECT enter,exit BOUNDS".split(), *area)
        words.execute_command("SETCHAN", "yard-lake", *"WITHIN fleet FENCE DETECT enter,exit OBJECT".split(), LAKE)
        words.execute_command("SETCHAN", "yard-round", *"WITHIN fleet FENCE DETECT enter,exit CIRCLE 14500 14500 2500".split())
        listener = Listener()
        fleet.fill()
        shown = lambda: page.execute_script("return Object.keys(window.fudrask?.positions.fleet || {}).length")
        took = wait("all objects are shown", lambda: shown() == count)
        print(f"map: {count} objects of a new key are shown within {took:.1f} seconds")
        wait("all channels are shown", lambda: len(page.execute_script("return fudrask.areas")) == 5)
        measure(page, listener, fleet)
        live, others = channels(words)
        if len(live) != 1:
            fault(f"the page has {len(live)} live fences for one key")
        page.get("about:blank")
        wait("no live fence is left", lambda: not channels(words)[0], 5)
        if len(channels(words)[1]) != 5:
            fault("the page left or took channels")
        # A browser keeps links ready on which nothing was said, and asks for the page on one of them.
        time.sleep(12)
        page.get(url)
        wait("the page shows all when it is opened again", lambda: shown() == count)
        if page.execute_script("return !!window.fudrask"):
            server = restart(page, words, fleet, server)
    finally:
        if page:
            page.quit()
        server.kill()
        server.wait()
        shutil.rmtree(work)
    sys.exit(1 if faults else 0)


main()
PYTHON
