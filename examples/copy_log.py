#!/usr/bin/env python3
"""Keeps a copy of a running server's log, from which another server can be started.

    examples/copy_log.py ADDR FOLDER [--once]

The server was started with --followers. FOLDER is made where it is not there; it is of the form of `tile-data`, so that behind
`mkdir standby; examples/copy_log.py 127.0.0.1:9851 standby/tile-data` the program that is started in `standby` has what the server had. A copy that
stands there already goes on. With --once it ends with status 0 when it has all that the server had; else it goes on, tells on standard output how far
it is at each change, and connects anew where the server is gone. It needs nothing but Python. The status is 1 where the server refuses, or answers
what is no part.

At each moment the folder holds a log that the server had: bytes are written behind the closed gate and made safe before the gate is opened, and a log
of a later generation takes the place of the old file as a whole. What the server acknowledged and this copy has not yet is lost where the server's
disk is: the last line tells up to where it goes.
"""
import os
import socket
import struct
import sys
import time

from live import frame, request

FIRST_GATE = 16
VERSION = 3


def header(generation):
    """What stands in front of the first batch of a side, its gate open."""
    return b"\x01TFL" + bytes([VERSION, 0, 0, 0]) + struct.pack(">Q", generation)


class Copy:
    """The copy in a folder: a log of a generation up to a place, and bytes behind that which reach no end of a batch yet."""

    def __init__(self, folder):
        os.makedirs(folder, exist_ok=True)
        self.path = os.path.join(folder, "a.log")
        # The other side, on which there is nothing.
        with open(os.path.join(folder, "b.log"), "ab"):
            pass
        self.generation, self.place = self.found()
        self.held = bytearray()
        # Whether what is held is a log from its first batch on, which takes the place of the file.
        self.is_anew = self.generation == 0

    def found(self):
        """What stands there: its generation and the place of its closed gate; none of both where there is no log."""
        try:
            with open(self.path, "rb") as log:
                size, head = os.fstat(log.fileno()).st_size, log.read(FIRST_GATE)
                if size <= FIRST_GATE or head[:8] != header(0)[:8]:
                    return 0, 0
                place = FIRST_GATE
                while log.seek(place) == place and log.read(1) == b"\x01":
                    place += 9 + struct.unpack(">Q", log.read(8))[0]
                return struct.unpack(">Q", head[8:])[0], place
        except FileNotFoundError:
            return 0, 0

    def wanted(self):
        """The place behind what it has."""
        return (FIRST_GATE if self.is_anew else self.place) + len(self.held)

    def ask(self):
        return "FEED", str(self.generation), str(self.wanted())

    def forget(self):
        """Lets go what reached no end, so that it is asked for again."""
        self.held.clear()

    def hear(self, generation, start, end, data):
        """Takes a part. Whether it reaches the end of the log."""
        if generation != self.generation or start != self.wanted():
            if start != FIRST_GATE or generation < self.generation:
                raise ValueError("a part of an earlier log")
            self.generation, self.is_anew = generation, True
            self.forget()
        self.held += data
        if start + len(data) < end:
            return False
        if self.is_anew:
            self.write_anew()
        elif self.held:
            self.write_behind()
        self.place, self.is_anew = end, False
        self.forget()
        return True

    def write_anew(self):
        """A log of a later generation, as a whole."""
        made = self.path + ".new"
        with open(made, "wb") as log:
            log.write(header(self.generation) + bytes(self.held) + b"\0")
            log.flush()
            os.fsync(log.fileno())
        os.replace(made, self.path)
        at = os.open(os.path.dirname(self.path) or ".", os.O_RDONLY)
        os.fsync(at)
        os.close(at)

    def write_behind(self):
        """Batches behind the closed gate, which is opened when they are safe."""
        with open(self.path, "r+b") as log:
            for at, piece in ((self.place + 1, bytes(self.held[1:]) + b"\0"), (self.place, bytes(self.held[:1]))):
                log.seek(at)
                log.write(piece)
                log.flush()
                os.fsync(log.fileno())


def part_of(answer):
    if not isinstance(answer, list) or len(answer) != 5 or answer[0] != b"PART":
        raise ValueError("what came is no part")
    return int(answer[1]), int(answer[2]), int(answer[3]), answer[4]


def follow(copy, host, port, once):
    """Asks for part after part. Ends where the copy has all, if that is enough."""
    shown = None
    with socket.create_connection((host, port)) as caller, caller.makefile("rb") as link:
        while True:
            caller.sendall(request(copy.ask()))
            if not copy.hear(*part_of(frame(link))):
                continue
            if shown != (copy.generation, copy.place):
                shown = copy.generation, copy.place
                print("generation %d up to %d" % shown, flush=True)
            if once:
                return
            time.sleep(0.1)


def main():
    words = [word for word in sys.argv[1:] if word != "--once"]
    if len(words) != 2:
        sys.exit(__doc__)
    once = "--once" in sys.argv
    host, _, port = words[0].rpartition(":")
    copy = Copy(words[1])
    while True:
        try:
            follow(copy, host, int(port), once)
            return
        except ValueError as refusal:
            sys.exit(f"copy_log: {refusal}")
        except KeyboardInterrupt:
            return
        except (EOFError, ConnectionError) as gone:
            if once:
                sys.exit(f"copy_log: the server is gone: {gone or 'the link ended'}")
            copy.forget()
            time.sleep(1)


if __name__ == "__main__":
    main()
