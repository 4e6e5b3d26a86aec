"""A scraper of metrics, and what it makes of them."""
import http.client
import re
import time

from client import PATIENCE
from wanted import Wrong

SAMPLE = re.compile(rb'([a-z_]+)(?:\{(.*)\})? ([0-9.]+)')
LABEL = re.compile(rb'([a-z0-9_]+)="((?:[^"\\]|\\.)*)"')


def asked(address, method="GET", path="/metrics"):
    """The status, the fields and the body of the answer to a request."""
    connection = http.client.HTTPConnection(address, timeout=PATIENCE)
    try:
        connection.request(method, path)
        answer = connection.getresponse()
        return answer.status, dict(answer.getheaders()), answer.read()
    finally:
        connection.close()


def scraped(address):
    """The samples that are told at an address: each number by its name and the values of its labels."""
    status, fields, body = asked(address)
    if status != 200 or fields.get("Content-Type") != "text/plain; version=0.0.4; charset=utf-8":
        raise Wrong(f"the answer of {address}", 200, (status, fields))
    samples = {}
    for line in body.splitlines():
        if line.startswith(b"#"):
            continue
        name, labels, number = SAMPLE.fullmatch(line).groups()
        values = tuple(value.decode() for _, value in LABEL.findall(labels or b""))
        samples[(name.decode(), *values)] = float(number) if b"." in number else int(number)
    return samples


def wait_for(address, name, wanted):
    """Waits until a sample has this value, as a connection's end is counted once it was seen."""
    until = time.monotonic() + PATIENCE
    while True:
        got = scraped(address).get(name)
        if got == wanted:
            return
        if time.monotonic() > until:
            raise Wrong(f"{name} at {address}", wanted, got)
        time.sleep(0.02)
