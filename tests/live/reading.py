"""Whether the other side of a connection on this machine has read what was sent, by what the system says of both ends."""
import socket
import struct
import time

from client import PATIENCE
from wanted import Wrong


def wait_until_read(stream):
    """Waits until nothing that was sent is still on its way or unread, so that what is sent next comes by a read of its own."""
    try:
        here, there = spelled(stream.getsockname()), spelled(stream.getpeername())
    except OSError:
        return  # the connection is gone, and nothing more will be read
    until = time.monotonic() + PATIENCE
    while unread(here, there):
        if time.monotonic() > until:
            raise Wrong("what the other side of a connection reads", "all that was sent", f"bytes left at {there}")
        time.sleep(0.002)


def unread(here, there):
    """How many bytes from here to there aren't acknowledged or aren't read. A connection that is gone has none."""
    count = 0
    with open("/proc/net/tcp", encoding="ascii") as lines:
        for line in lines:
            if here in line and there in line:
                _, local, _, _, queues, *_ = line.split()
                sent, received = queues.split(":")
                count += int(sent if local == here else received, 16)
    return count


def spelled(address):
    """An address as the system's table spells it."""
    host, port = address
    return f"{struct.unpack('=I', socket.inet_aton(host))[0]:08X}:{port:04X}"
