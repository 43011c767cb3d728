#!/usr/bin/env python3
"""Listens to a live fence: prints each message as a line, as it comes.

    examples/live.py ADDR WITHIN fleet FENCE DETECT enter,exit BOUNDS 0 0 10 10

The words behind the address are the search. It needs nothing but Python. The status is 1 where the server refuses the search, and 0 once the link
has ended.
"""
import socket
import sys


def request(words):
    """The text of a request: an array of bulk strings."""
    texts = [word.encode() for word in words]
    return b"*%d\r\n" % len(texts) + b"".join(b"$%d\r\n%s\r\n" % (len(text), text) for text in texts)


def frame(link):
    """The next frame: bytes, a number, a list, None for a null; an error is raised. At the end of the link EOFError."""
    line = link.readline()
    if not line.endswith(b"\r\n"):
        raise EOFError
    mark, rest = line[:1], line[1:-2]
    if mark == b"-":
        raise ValueError(rest.decode(errors="replace"))
    if mark == b":":
        return int(rest)
    if mark == b"+":
        return rest
    if int(rest) < 0:
        return None
    if mark == b"*":
        return [frame(link) for _ in range(int(rest))]
    text = link.read(int(rest) + 2)
    if len(text) < int(rest) + 2:
        raise EOFError
    return text[:-2]


def main():
    if len(sys.argv) < 3:
        sys.exit(__doc__)
    host, _, port = sys.argv[1].rpartition(":")
    with socket.create_connection((host, int(port))) as caller, caller.makefile("rb") as link:
        caller.sendall(request(sys.argv[2:]))
        try:
            # The channel is set, and subscribed to.
            frame(link)
            frame(link)
        except ValueError as refusal:
            sys.exit(f"live: {refusal}")
        try:
            while True:
                print(frame(link).decode(errors="replace"), flush=True)
        except (EOFError, ConnectionError, KeyboardInterrupt):
            pass


if __name__ == "__main__":
    main()
