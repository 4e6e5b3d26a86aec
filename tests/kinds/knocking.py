#!/usr/bin/env python3
"""Opens connections to a service one behind another, by the thousand, in a process of its own.

Usage: tests/kinds/knocking.py ADDRESS well COUNT     each asks for a key, is answered, says quit, and is ended
       tests/kinds/knocking.py ADDRESS broken COUNT   each ends within a request: every second one is reset, the others are closed
       tests/kinds/knocking.py ADDRESS legs COUNT KEY..   all at once ask for all of these keys, and read as many lines
"""
import socket
import struct
import sys

ASKED = b"get absent\r\n"
MISS = b"END\r\n"
PIECES = (b"s", b"set k 0 0 3", b"set k 0 0 300\r\n", b"set k 0 0 300\r\nthree", b"get k k k", b"delete k", b"get a\r\nget b\r\nset c 0 0 9\r\n123")
TOGETHER = 32  # that break off before it is looked whether the service keeps up
PATIENCE = 30


def connected(address):
    """A connection."""
    host, port = address.rsplit(":", 1)
    stream = socket.create_connection((host, int(port)), timeout=PATIENCE)
    stream.setsockopt(socket.IPPROTO_TCP, socket.TCP_NODELAY, 1)
    return stream


def expect(stream, wanted):
    """Reads what is wanted."""
    got = b""
    while len(got) < len(wanted):
        came = stream.recv(len(wanted) - len(got))
        if not came:
            sys.exit(f"wanted {wanted!r}, got {got!r} and the end")
        got += came
    if got != wanted:
        sys.exit(f"wanted {wanted!r}, got {got!r}")


def end_well(address):
    """One connection that ends well: the service ends it first."""
    with connected(address) as stream:
        stream.sendall(ASKED + b"quit\r\n")
        expect(stream, MISS)
        if stream.recv(1):
            sys.exit("something came behind the answer")


def break_off(address, number):
    """One connection that ends within a request."""
    with connected(address) as stream:
        stream.sendall(PIECES[number % len(PIECES)])
        if number % 2:
            stream.setsockopt(socket.SOL_SOCKET, socket.SO_LINGER, struct.pack("ii", 1, 0))


def ask_for(address, count, keys):
    """So many connections ask for keys, which may be lost."""
    asked = b"".join(b"get %s\r\n" % key.encode() for key in keys)
    streams = [connected(address) for _ in range(count)]
    for stream in streams:
        stream.sendall(asked)
    for stream in streams:
        with stream, stream.makefile("rb") as lines:
            for _ in keys:
                line = lines.readline()
                if line not in (MISS, b"SERVER_ERROR leg lost\r\n"):
                    sys.exit(f"got {line!r}")


def main():
    address, kind, count, *keys = sys.argv[1:]
    if kind == "legs":
        ask_for(address, int(count), keys)
        return
    for number in range(int(count)):
        if kind == "well":
            end_well(address)
        else:
            break_off(address, number)
            if number % TOGETHER == 0:
                end_well(address)


main()
