#!/usr/bin/env bash
# Tries WebSocket links with clients of other makers, and measures them beside an echo server in the same run.
# Usage: bench/ws.sh [SECONDS]   of each of three runs a side, 5 if left out. PROGRAM is the server, the one that ./fudrask builds if not set. Needs
# Debian's python3-websockets and node-ws, and says which is not there.
# What has to hold: beside 500 links that say nothing, and 50 callers that stop in the middle of a head, a PING is answered as before, and each of
# the 500 answers the pings of its client; what comes from another origin, a frame that is not masked, a message of 3 MB and one that is not the
# text of exactly one request are refused; 50 links are answered at least four fifths as many PINGs a second as an echo server of node-ws answers
# messages. It tells how much memory a link takes.
set -eu
cd "$(dirname "$0")/.."
seconds=${1:-5}
ulimit -n 4096 2>/dev/null || true

missing=0
command -v node >/dev/null && NODE_PATH=/usr/share/nodejs node -e 'require("ws")' 2>/dev/null || {
    echo "ws: node or its module ws is not there (Debian: node-ws)"
    missing=1
}
python=''
for it in /usr/bin/python3 python3; do
    [ -z "$python" ] && "$it" -c 'import websockets' 2>/dev/null && python=$it
done
[ -n "$python" ] || { echo "ws: the Python module websockets is not there (Debian: python3-websockets)"; missing=1; }
[ "$missing" = 0 ] || exit 1

[ -n "${PROGRAM:-}" ] || ./fudrask load 1 1 >/dev/null
program=$(realpath "${PROGRAM:-crates/tile_server/out/tile_server}")

exec "$python" - "$program" "$seconds" <<'PYTHON'
import asyncio, multiprocessing, os, selectors, shutil, socket, statistics, subprocess, sys, tempfile, time

import websockets

program, seconds = sys.argv[1], float(sys.argv[2])
PORT, ECHO = 19881, 19882
SILENT, TALKERS, CLIENTS = 500, 50, 2
PING = b"*1\r\n$4\r\nPING\r\n"
# A frame with a whole binary message, whose mask is zero.
MASKED = b"\x82\x8e\0\0\0\0" + PING
HEAD = (b"GET / HTTP/1.1\r\nHost: 127.0.0.1\r\nUpgrade: websocket\r\nConnection: Upgrade\r\n"
        b"Sec-WebSocket-Version: 13\r\nSec-WebSocket-Key: dGhlIHNhbXBsZSBub25jZQ==\r\n%s\r\n")
ECHOES = """
const { Server } = require("ws");
new Server({ host: "127.0.0.1", port: %d }).on("connection", link => link.on("message", data => link.send(data)));
""" % ECHO
faults = []


def fault(text):
    faults.append(text)
    print(f"ws: {text}", flush=True)


def plain(sent=b"", port=PORT):
    link = socket.create_connection(("127.0.0.1", port), 20)
    link.sendall(sent)
    return link


def read(link, count):
    """So many bytes, or fewer where the link ends."""
    found = b""
    try:
        while len(found) < count:
            piece = link.recv(count - len(found))
            if not piece:
                break
            found += piece
    except ConnectionError:
        pass
    return found


def greeted(port=PORT, headers=b""):
    """A link and the head that it was answered."""
    link = plain(HEAD % headers, port)
    head = b""
    while not head.endswith(b"\r\n\r\n"):
        piece = link.recv(1)
        if not piece:
            break
        head += piece
    return link, head


def status(head):
    return head.split(b" ", 2)[1].decode() if b" " in head else "nothing"


def wait_for(port):
    for _ in range(200):
        try:
            return plain(port=port).close()
        except OSError:
            time.sleep(0.05)
    sys.exit(f"ws: nobody listens at {port}")


def memory(server):
    with open(f"/proc/{server.pid}/status") as lines:
        return next(int(it.split()[1]) for it in lines if it.startswith("VmRSS"))


async def ask(link, request=PING, wanted=b"+PONG\r\n"):
    await link.send(request)
    found = await asyncio.wait_for(link.recv(), 20)
    if found != wanted:
        fault(f"{request!r} is answered {found!r}")


async def times(link, count=300):
    """Milliseconds of so many PINGs, one behind another: the median, the 99th of 100, the longest."""
    taken = []
    for _ in range(count):
        start = time.monotonic()
        await ask(link)
        taken.append((time.monotonic() - start) * 1000)
    taken.sort()
    middle, late = taken[len(taken) // 2], taken[len(taken) * 99 // 100]
    return f"{middle:.2f} ms, 99 of 100 {late:.2f}, the longest {taken[-1]:.1f}", middle


def connected(**more):
    return websockets.connect(f"ws://127.0.0.1:{PORT}/", compression=None, **more)


async def beside_silent(server):
    talker = await connected()
    words, alone = await times(talker)
    print(f"ws: a PING alone takes {words}", flush=True)
    before = memory(server)
    links = []
    for _ in range(0, SILENT, 50):
        links += await asyncio.gather(*(connected(ping_interval=2, ping_timeout=10) for _ in range(50)))
    taken = memory(server) - before
    print(f"ws: {SILENT} links take {taken} kB, {taken / SILENT:.1f} each", flush=True)
    halves = [plain((HEAD % b"")[: 20 + 3 * it]) for it in range(TALKERS)]
    words, beside = await times(talker)
    print(f"ws: beside {SILENT} silent links and {TALKERS} halves of heads {words}", flush=True)
    # Twice its time is the machine's noise; half a millisecond more counts for nothing.
    if beside > 2 * alone + 0.5:
        fault("silent links hold up a PING")
    await asyncio.sleep(5)
    ended = sum(it.closed for it in links)
    if ended:
        fault(f"{ended} of the silent links were ended, or answered no ping")
    for it in links[::50]:
        await ask(it)
    print(f"ws: with a PING on some of them {memory(server) - before} kB", flush=True)
    for it in halves:
        it.close()
    await asyncio.gather(*(it.close() for it in links), talker.close())


async def refusals():
    for origin, wanted in ((f"http://127.0.0.1:{PORT}", 101), (f"http://localhost:{PORT}", 101), (None, 101), ("null", 403),
                           ("http://example.org", 403), (f"http://127.0.0.1:{PORT}0", 403), (f"https://127.0.0.1:{PORT}", 403)):
        link, head = greeted(headers=b"" if origin is None else b"Origin: %s\r\n" % origin.encode())
        link.close()
        print(f"ws: origin {origin} gets {status(head)}")
        if status(head) != str(wanted):
            fault(f"and not {wanted}")
    for path, wanted in (("/", "200"), ("/other", "404")):
        with plain(f"GET {path} HTTP/1.1\r\nHost: 127.0.0.1\r\n\r\n".encode()) as link:
            head = read(link, 1 << 20)
            if status(head) != wanted or (wanted == "200") != (b"<title>Fudrask map</title>" in head):
                fault(f"GET {path} gets {status(head)}, not {wanted}")
    # A frame that is not masked.
    link, _ = greeted()
    link.sendall(b"\x82\x0e" + PING)
    found = read(link, 1 << 16)
    if b"PONG" in found:
        fault("a frame without a mask is taken as a request")
    print(f"ws: a frame without a mask: the link ends behind {found!r}")
    # A message of 3 MB: one frame, and many.
    for parts in (1, 30):
        link, size = greeted()[0], 3_000_000 // parts
        try:
            for part in range(parts):
                first, last = 0x02 if part == 0 else 0, 0x80 if part == parts - 1 else 0
                link.sendall(bytes([first | last, 0xFF]) + size.to_bytes(8, "big") + bytes(4) + b"*" * size)
            found = read(link, 1 << 16)
        except (ConnectionError, socket.timeout) as it:
            found = type(it).__name__.encode()
        print(f"ws: 3 MB in {parts} frames: the link ends behind {found!r}")
        if found == b"timeout" or b"protocol" in found:
            fault("a message of 3 MB is read")
    for what, message in (("two requests in a message", PING + PING), ("half a request", PING[:9]), ("a text", PING.decode())):
        async with connected() as link:
            await ask(link)
            try:
                await link.send(message)
                found = await asyncio.wait_for(link.recv(), 5)
                fault(f"{what}: answered {found!r}")
            except websockets.ConnectionClosed:
                print(f"ws: {what}: the link ends")
            except asyncio.TimeoutError:
                fault(f"{what}: the link goes on")


def rounds(port, links, size, until, found):
    """A client: PINGs on each of its links, one at a time. Puts how many were answered."""
    look = selectors.DefaultSelector()
    for _ in range(links):
        link = greeted(port)[0]
        link.setsockopt(socket.IPPROTO_TCP, socket.TCP_NODELAY, 1)
        link.sendall(MASKED)
        look.register(link, selectors.EVENT_READ)
    done, start = 0, time.monotonic()
    while (now := time.monotonic()) < start + until:
        for key, _ in look.select(1):
            got = key.fileobj.recv(4096)
            assert len(got) == size, got
            key.fileobj.send(MASKED)
            done += 1
    found.put(done / (now - start))


def rate(port, size):
    found = multiprocessing.Queue()
    clients = [multiprocessing.Process(target=rounds, args=(port, TALKERS // CLIENTS, size, seconds, found)) for _ in range(CLIENTS)]
    for it in clients:
        it.start()
    total = sum(found.get(timeout=seconds + 30) for _ in clients)
    for it in clients:
        it.join()
    return int(total)


def ratio():
    echoes = subprocess.Popen(["node", "-e", ECHOES], env={**os.environ, "NODE_PATH": "/usr/share/nodejs"})
    try:
        wait_for(ECHO)
        ours, theirs = [], []
        for _ in range(3):
            ours.append(rate(PORT, 9))
            theirs.append(rate(ECHO, 16))
    finally:
        echoes.kill()
        echoes.wait()
    a, b = statistics.median(ours), statistics.median(theirs)
    print(f"ws: {TALKERS} links are answered {a} PINGs a second, by node-ws {b} messages: {a / b:.2f} ({ours}, {theirs})")
    if a < 0.8 * b:
        fault("that is under four fifths")


def main():
    work = tempfile.mkdtemp(prefix="ws-")
    server = subprocess.Popen([program, "serve", f"127.0.0.1:{PORT}", "--ws"], cwd=work, stdout=subprocess.DEVNULL)
    try:
        wait_for(PORT)
        asyncio.run(beside_silent(server))
        asyncio.run(refusals())
        ratio()
    finally:
        server.kill()
        server.wait()
        shutil.rmtree(work)
    sys.exit(1 if faults else 0)


main()
PYTHON
