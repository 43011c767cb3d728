#!/usr/bin/env bash
# Watches the system calls of the server by strace, and looks whether each +OK of a SET is sent only when its record is on the disk: behind a
# write of the record, fdatasync, a write of the byte that makes the record count, and fdatasync, in this order and on one file.
# Usage: bench/syncs.sh [SETS]   SETS one at a time, 20 if left out; then as many from each of eight clients, up to sixteen ahead of their
# answers, before and while the log is rewritten; and then as many one at a time. Needs strace and python3.
# It writes the calls of one SET as they were seen, and what it counted, and ends with 1 where a +OK was sent otherwise, and names it.
# A kill of the process shows nothing of this, since the system keeps what a process wrote. That the disk keeps what was synced is the
# disk's own promise.
# The folder is made where TMPDIR says. It is kept, and named, where something is wrong.
set -eu
cd "$(dirname "$0")/.."
for tool in strace python3; do
    command -v "$tool" >/dev/null || { echo "syncs: $tool is not there (Debian: $tool)"; exit 1; }
done
# Builds the program where it is older than its sources.
./fudrask load 1 1 >/dev/null

exec python3 - "$PWD/crates/tile_server/out/tile_server" "${1:-20}" <<'PYTHON'
import collections, os, re, shutil, socket, subprocess, sys, tempfile, threading

CLIENTS, AHEAD = 8, 16
CALLS = "openat,pwrite64,fdatasync,fsync,ftruncate,recvfrom,read,sendto,write,writev,sendmsg"
program, sets = sys.argv[1], int(sys.argv[2])
folder = tempfile.mkdtemp(prefix="syncs-")
trace = os.path.join(folder, "trace")


def text_of(*words):
    words = [str(word).encode() for word in words]
    return b"*%d\r\n" % len(words) + b"".join(b"$%d\r\n%s\r\n" % (len(it), it) for it in words)


class Server:
    """The server under strace, over a new log. It ends by itself after its last caller."""

    def __init__(self, callers):
        with socket.create_server(("127.0.0.1", 0)) as it:
            self.port = it.getsockname()[1]
        words = ["strace", "-f", "-s", "1000000", "-e", f"trace={CALLS}", "-o", trace]
        words += [program, "serve", f"127.0.0.1:{self.port}", "--sessions", str(callers)]
        self.process = subprocess.Popen(words, cwd=folder, stdin=subprocess.DEVNULL, stdout=subprocess.PIPE)
        line = self.process.stdout.readline()
        if not line.startswith(b"listening "):
            sys.exit(f"syncs: the server did not begin: {line!r}")

    def ask(self, name, count, ahead):
        """Sets objects named after the client, and reads the answers."""
        with socket.create_connection(("127.0.0.1", self.port), 60) as own, own.makefile("rb") as answers:
            sent = read = 0
            while read < count:
                # The first one goes alone, so that it tells whose link it is.
                while sent < count and sent - read < (ahead if read else 1):
                    own.sendall(text_of("SET", "syncs", id_of(name, sent), "POINT", sent, sent))
                    sent += 1
                line = answers.readline()
                if line != b"+OK\r\n":
                    sys.exit(f"syncs: a SET was answered {line!r}")
                read += 1

    def shrink(self):
        with socket.create_connection(("127.0.0.1", self.port), 60) as own:
            own.sendall(text_of("AOFSHRINK"))
            own.recv(100)


def id_of(name, number):
    return f"{name}.{number}."


def several(server, names, beside=lambda: None):
    threads = [threading.Thread(target=server.ask, args=(it, sets, AHEAD)) for it in names]
    for it in threads:
        it.start()
    beside()
    for it in threads:
        it.join()


def run():
    # While the last caller has not come the server looks for callers, and rewrites the log behind each look.
    server = Server(1 + CLIENTS + 1 + CLIENTS + 1)
    server.ask("alone", sets, 1)
    several(server, [f"client{i}" for i in range(CLIENTS)])
    several(server, [f"rewriting{i}" for i in range(CLIENTS)], server.shrink)
    server.ask("after", sets, 1)
    if server.process.wait() != 0:
        sys.exit(f"syncs: the server ended with status {server.process.returncode}")


# A call: its place in the order of beginnings and ends of all calls, what it was given, and what it answered.
Call = collections.namedtuple("Call", "name words answer begun ended")
LINE = re.compile(r"^(\d+) +(?:<\.\.\. (\w+) resumed>|(\w+)\()(.*)$")


def calls():
    """The calls in order of their ends. One that strace wrote in two lines began at the first of them."""
    open_calls = {}
    with open(trace, encoding="latin-1") as lines:
        for place, line in enumerate(lines):
            found = LINE.match(line)
            if not found:
                continue
            thread, resumed, name, rest = found.groups()
            begun, words = open_calls.pop(thread, (place, "")) if resumed else (place, "")
            words += rest
            if words.endswith("<unfinished ...>"):
                open_calls[thread] = begun, words[: -len("<unfinished ...>")]
                continue
            words, _, answer = words.rpartition(" = ")
            yield Call(resumed or name, words.rstrip().removesuffix(")").rstrip(), answer, begun, place)


class Log:
    """What the calls did to the files of the log: records that were written, and those that count by now."""

    def __init__(self):
        self.files = {}
        # The writes of each file, and the sync behind each.
        self.writes = collections.defaultdict(list)
        # Of each commit the write of its records and that of its byte.
        self.commits = []
        self.rewritings = 0

    def see(self, call):
        """Takes in a call on the log, and tells whether it was one."""
        if call.name == "openat" and ".log" in call.words:
            self.files[call.answer] = re.search(r'(\w+\.log)"', call.words).group(1)
            return True
        file = self.files.get(call.words.split(",")[0])
        if file is None:
            return False
        if call.name == "pwrite64":
            self.writes[file].append({"call": call, "at": int(call.words.rsplit(", ", 1)[1]), "synced": None})
        elif call.name == "fdatasync" and call.answer == "0":
            self.sync(self.writes[file], call)
        return True

    def sync(self, writes, call):
        for it in writes:
            if it["synced"] is None and it["call"].ended < call.begun:
                it["synced"] = call
        for opened in [it for it in writes if it["synced"] is call and '"\\1", 1,' in it["call"].words]:
            writes.remove(opened)
            self.rewritings += opened["at"] == 0
            commits = [(it, opened) for it in writes if is_opened(it, opened)]
            self.commits += commits
            for it, _ in commits:
                writes.remove(it)

    def stands_before(self, place, named):
        """The calls that made the record of this object count, all before the place, or none."""
        for record, opened in self.commits:
            if named in record["call"].words and opened["synced"].ended < place:
                return record["call"], record["synced"], opened["call"], opened["synced"]
        return None


# Whether a write was synced before the byte in front of it was written.
def is_opened(record, opened):
    return record["synced"] is not None and record["at"] == opened["at"] + 1 and record["synced"].ended < opened["call"].begun


def short(call):
    words = call.words if len(call.words) < 90 else f"{call.words[:50]} .. {call.words[-30:]}"
    return f"    {call.name}({words}) = {call.answer}"


def look():
    """Goes over the calls once: how many +OK were sent as promised, and the faults."""
    log, names, answered, faults, example = Log(), {}, collections.Counter(), [], None
    for call in calls():
        if log.see(call):
            continue
        socket_of = call.words.split(",")[0]
        if call.name in ("recvfrom", "read"):
            if call.answer == "0":
                names.pop(socket_of, None)
            first = re.search(r"((?:alone|client|rewriting|after)\d*)\.(\d+)\.", call.words)
            if first and first.group(2) == "0":
                names[socket_of] = [first.group(1), 0]
        elif socket_of in names and call.name in ("sendto", "write", "writev", "sendmsg"):
            for _ in range(call.words.count("+OK")):
                name, number = names[socket_of]
                names[socket_of][1] += 1
                stood = log.stands_before(call.begun, id_of(name, number))
                if stood is None:
                    faults.append(f"syncs: the +OK of {id_of(name, number)} was sent before its record was on the disk:\n{short(call)}")
                    continue
                example = example or [*stood, call]
                answered[name.rstrip("0123456789")] += 1
    return answered, faults, example or [], log


run()
answered, faults, example, log = look()
wanted = {"alone": sets, "client": sets * CLIENTS, "rewriting": sets * CLIENTS, "after": sets}
for fault in faults[:5]:
    print(fault)
if not faults and answered != wanted:
    faults = [f"syncs: {dict(answered)} were seen to be answered, and {wanted} were"]
    print(faults[0])
if faults:
    sys.exit(f"syncs: {len(faults)} faults; the calls are in {trace}")
print("syncs: the calls of the first SET:")
print("\n".join(short(it) for it in example))
if log.rewritings < 2:
    sys.exit("syncs: the log was not rewritten")
kinds = {
    "alone": "one at a time",
    "client": "of eight clients",
    "rewriting": "of eight clients while the log is rewritten",
    "after": "one at a time, in the new file",
}
for name, what in kinds.items():
    print(f"syncs: {answered[name]} SETs {what}: each +OK was sent behind write, fdatasync, write, fdatasync of its record")
print(f"syncs: {len(log.commits) - log.rewritings} commits for {sum(answered.values())} SETs")
shutil.rmtree(folder)
PYTHON
