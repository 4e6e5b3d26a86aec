"""Addresses for services and fake nodes."""
import errno
import socket


class Place:
    """A port that is kept for a service: it is bound, but nothing listens there.

    A program can listen at a port that is kept so, since it too says that the address may be shared. Nothing else is
    given that port meanwhile, whether to listen or to connect from, and who connects to it is refused until it listens.
    """

    def __init__(self, hosts=("127.0.0.1",)):
        self.host = hosts[0]
        self.sockets = []
        self.port = 0
        try:
            for host in hosts:
                self.sockets.append(bound(host, self.port))
                self.port = self.sockets[0].getsockname()[1]
        except OSError:
            self.close()
            raise

    def address(self, host=None):
        """The address, of the first host or of another one."""
        return f"{host or self.host}:{self.port}"

    def close(self):
        """Keeps the port no longer."""
        for it in self.sockets:
            it.close()


def bound(host, port):
    """A socket that keeps a port of a host, or any free one at port 0."""
    it = socket.socket()
    it.setsockopt(socket.SOL_SOCKET, socket.SO_REUSEADDR, 1)
    try:
        it.bind((host, port))
    except OSError:
        it.close()
        raise
    return it


def place_at(*hosts):
    """A port that is free at each of these hosts."""
    for _ in range(20):
        try:
            return Place(hosts)
        except OSError as error:
            if error.errno != errno.EADDRINUSE:
                raise
    raise OSError(errno.EADDRINUSE, f"no port is free at each of {hosts}")


def is_listened_at(address):
    """Whether something listens there, found out without connecting: an address can't be shared with what listens."""
    host, port = address.rsplit(":", 1)
    try:
        bound(host, int(port)).close()
    except OSError as error:
        if error.errno != errno.EADDRINUSE:
            raise
        return True
    return False
