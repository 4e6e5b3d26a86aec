"""Clients that ask at the same time of a service that may lack memory or open files."""
import threading

from client import MISS, PATIENCE, STORED, Client, get_of, hits, set_of
from wanted import Wrong

FAILED = b"SERVER_ERROR "


class Asker:
    """One client, which sets and gets keys of its own. Each answer has to be right, or one line of SERVER_ERROR; or its
    connection is closed, where no answer has begun."""

    def __init__(self, address, number, rounds):
        self.address = address
        self.number = number
        self.rounds = rounds
        self.answers = 0  # that were right
        self.failures = 0  # answers that were a SERVER_ERROR
        self.closed = False
        self.wrong = None

    def go(self):
        """Asks until it has asked all, or its connection is closed. What is wrong is kept for the case."""
        try:
            with Client(self.address) as client:
                for turn in range(self.rounds):
                    if not self.ask_both(client, f"k{self.number}-{turn}", f"{self.number} {turn} " * 30):
                        self.closed = True
                        return
                client.quit()
        except (BrokenPipeError, ConnectionResetError):
            self.closed = True
        except Exception as error:  # of a thread of its own
            self.wrong = error

    def ask_both(self, client, key, value):
        """Sets and gets a key, and says whether the connection is still there. A set that failed may be done or not."""
        stored = self.ask(client, set_of(key, value), (STORED,))
        found = (hits((key, value)),) if stored == STORED else (hits((key, value)), MISS)
        return stored is not None and self.ask(client, get_of(key), found) is not None

    def ask(self, client, request, wanted):
        """The answer to a request: one of those that are wanted, a failure, or nothing where the connection was closed."""
        client.send(request)
        got = b""
        while got not in wanted and not (got.startswith(FAILED) and got.endswith(b"\r\n")):
            if not any(text.startswith(got) for text in (*wanted, FAILED)) and not got.startswith(FAILED):
                raise Wrong(f"an answer of {self.address}", wanted[0], got)
            came, end = client.piece(65536, PATIENCE)
            if end and not got and end != b"<nothing more>":
                return None
            if end:
                raise Wrong(f"an answer of {self.address}", wanted[0], got + end)
            got += came
        self.answers += got in wanted
        self.failures += got not in wanted
        return got


def ask_at_once(service, count, rounds):
    """So many clients of a service at once, once they have ended. What was wrong with one of them is a failure."""
    askers = [Asker(service.address, number, rounds) for number in range(count)]
    threads = [threading.Thread(target=it.go, daemon=True) for it in askers]
    for it in threads:
        it.start()
    for it in threads:
        it.join()
    for it in askers:
        if it.wrong:
            raise it.wrong
    return askers
