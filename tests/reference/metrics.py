"""What nodes and proxies tell of themselves, and what scrapers are answered. Written from docs/METRICS.md."""
import re

PHASES = ("old-only", "both-read-old", "both-read-new", "new-only")
COMMANDS = ("get", "set", "delete")
KINDS = ("hit", "miss", "stored", "deleted", "not found", "leg lost", "out of memory", "clock fault", "other fault")
MOST = 2**64 - 1
MOST_HEAD = 8192
MOST_FIELDS = 64
METRICS = b"metrics 1\n"
REASONS = {
    400: "Bad Request",
    404: "Not Found",
    405: "Method Not Allowed",
    431: "Request Header Fields Too Large",
}
TOKEN = rb"[A-Za-z0-9!#$%&'*+.^_`|~-]+"
VALUE = rb"[\t\x20-\x7e\x80-\xff]*"
START = re.compile(rb"(?:\r?\n)*(" + TOKEN + rb") ([\x21-\x7e\x80-\xff]+) HTTP/1\.[01]\r?\n")
FIELD = re.compile(TOKEN + rb":" + VALUE + rb"\r?\n")
END = re.compile(rb"\r?\n")
# what a field, or the end of a head, may begin with
BEGUN = re.compile(rb"(?:" + TOKEN + rb"(?::" + VALUE + rb")?)?\r?")


def label(name, value):
    escaped = str(value).replace("\\", "\\\\").replace('"', '\\"').replace("\n", "\\n")
    return f'{name}="{escaped}"'


def sample(name, labels, number):
    shown = ",".join(label(*each) for each in labels)
    return f"{name}{{{shown}}} {number}\n" if labels else f"{name} {number}\n"


def family(name, help_text, kind, samples):
    lines = "".join(sample(name + ending, labels, number) for ending, labels, number in samples)
    return f"# HELP {name} {help_text}\n# TYPE {name} {kind}\n{lines}"


def one(name, help_text, kind, number):
    return family(name, help_text, kind, [] if number is None else [("", [], number)])


def info(name, help_text, key, value):
    return family(name, help_text, "gauge", [("", [(key, value)], 1)])


def of_service(known):
    return (
        info("migctl_build_info", "The version of the program.", "version", known["version"])
        + one("migctl_start_time_seconds", "When the service began, in seconds since the epoch.", "gauge", known["began"])
        + one("migctl_open_connections", "Connections of clients that are open.", "gauge", known["connected"])
        + one("migctl_connections_total", "Connections of clients that were accepted.", "counter", known["accepted"])
        + one("migctl_clock_seconds", "What the clock of the service says, in seconds since the epoch.", "gauge", known["clock"])
        + one(
            "migctl_clock_steps_back_total",
            "How often the clock gave a reading before the one that it gave last.",
            "counter",
            known["steps_back"],
        )
    )


def of_node(known):
    def by_result(name, help_text, counts):
        return family(name, help_text, "counter", [("", [("result", result)], count) for result, count in counts])

    return (
        of_service(known)
        + info("migctl_node_info", "Where clients of the node connect.", "address", known["address"])
        + one("migctl_node_items", "Items that the node holds.", "gauge", known["items"])
        + one("migctl_node_capacity_items", "Items that the node holds at most.", "gauge", known["capacity"])
        + by_result(
            "migctl_node_gets_total", "Keys that were asked for.", [("hit", known["hits"]), ("miss", known["misses"])]
        )
        + one("migctl_node_sets_total", "Values that were stored.", "counter", known["stored"])
        + by_result(
            "migctl_node_deletes_total",
            "Keys that were to be deleted.",
            [("deleted", known["deleted"]), ("not found", known["not_found"])],
        )
        + one("migctl_node_evictions_total", "Items that went since a new one took their room.", "counter", known["evicted"])
        + one("migctl_node_loops", "Loops that serve clients.", "gauge", known["loops"])
    )


def seconds(micros):
    whole, part = divmod(micros, 1_000_000)
    return f"{whole}.{part:06}"


def of_times(times, micros):
    samples, count = [], 0
    for bound, more in times:
        count = min(count + more, MOST)
        samples.append(("_bucket", [("le", bound)], count))
    samples += [("_sum", [], seconds(micros)), ("_count", [], count)]
    return family("migctl_proxy_leg_seconds", "How long legs took, carried and lost ones, in seconds.", "histogram", samples)


def of_proxy(known):
    requests = [
        ("", [("command", COMMANDS[command]), ("phase", PHASES[phase])], count) for command, phase, count in known["requests"]
    ]
    answers = [("", [("kind", KINDS[kind])], count) for kind, count in known["answers"]]
    legs = [
        ("", [("pool", pool), ("node", node), ("outcome", outcome)], count)
        for pool, node, carried, lost, *_ in known["links"]
        for outcome, count in (("carried", carried), ("lost", lost))
    ]
    up, breaks, dials = ([("", [("pool", row[0]), ("node", row[1])], row[at]) for row in known["links"]] for at in (4, 5, 6))
    phases = [("", [("phase", phase)], int(at == known["phase"])) for at, phase in enumerate(PHASES)]
    return (
        of_service(known)
        + info(
            "migctl_proxy_config_info",
            "The SHA-256 of the configuration as transcripts write it.",
            "sha256",
            known["config"],
        )
        + one(
            "migctl_proxy_last_issue_seconds",
            "The latest reading by which an answered request was judged, in seconds since the epoch.",
            "gauge",
            known["last_issue"],
        )
        + one("migctl_proxy_hop", "The migration in force, counted from 0.", "gauge", known["hop"])
        + family("migctl_proxy_phase", "1 for the phase in force, 0 for each other.", "gauge", phases)
        + one(
            "migctl_proxy_next_phase_seconds",
            "When the next phase begins, in seconds since the epoch.",
            "gauge",
            known["next_phase"],
        )
        + family(
            "migctl_proxy_requests_total",
            "Requests that came to an answer, by command and by the phase of their reading.",
            "counter",
            requests,
        )
        + family(
            "migctl_proxy_answers_total",
            "What clients were answered: keys of gets that were found or not, and answers to requests.",
            "counter",
            answers,
        )
        + one(
            "migctl_proxy_requests_held_back_total",
            "Requests that were held back until there was room for them.",
            "counter",
            known["held_back"],
        )
        + family(
            "migctl_proxy_legs_total", "Legs of requests, by pool, by node and by what became of them.", "counter", legs
        )
        + of_times(known["times"], known["micros"])
        + one("migctl_proxy_requests_under_way", "Requests that are under way.", "gauge", known["under_way"])
        + one("migctl_proxy_room_requests", "Requests that may be under way at once.", "gauge", known["room"])
        + one("migctl_proxy_loops", "Loops that carry requests, each of which is a proxy of the fleet.", "gauge", known["loops"])
        + one("migctl_proxy_max_clients", "Clients that may be served at once.", "gauge", known["max_clients"])
        + one(
            "migctl_proxy_clients_wait",
            "1 while clients aren't accepted since as many are served as may be, else 0.",
            "gauge",
            int(known["clients_wait"]),
        )
        + family(
            "migctl_proxy_link_up", "Loops that have a connection to the node, by pool and by node.", "gauge", up
        )
        + family(
            "migctl_proxy_link_breaks_total",
            "Connections to the node that were there and are gone, by pool and by node.",
            "counter",
            breaks,
        )
        + family(
            "migctl_proxy_link_dials_total", "Connections to the node that were begun, by pool and by node.", "counter", dials
        )
    )


def response(status, media_type, body, allow=""):
    head = (
        f"HTTP/1.1 {status}\r\nContent-Type: {media_type}\r\nContent-Length: {len(body)}\r\n{allow}Connection: close\r\n\r\n"
    )
    return head.encode()


def refusal(number):
    status = f"{number} {REASONS[number]}"
    body = status.encode() + b"\n"
    allow = "Allow: GET, HEAD\r\n" if number == 405 else ""
    return response(status, "text/plain; charset=utf-8", body, allow) + body


def of_scrape(request):
    """The answer to a request whose input ends behind these bytes."""
    request = request[:MOST_HEAD]
    start = START.match(request)
    if not start or not is_utf8(start[2]):
        return refusal(400)
    place, fields = start.end(), 0
    while not END.match(request, place):
        field = FIELD.match(request, place)
        if not field:
            return refusal(431 if len(request) == MOST_HEAD and BEGUN.fullmatch(request, place) else 400)
        place, fields = field.end(), fields + 1
        if fields > MOST_FIELDS:
            return refusal(431)
    return of_head(start[1], start[2])


def of_head(method, target):
    if target != b"/metrics":
        return refusal(404)
    if method not in (b"GET", b"HEAD"):
        return refusal(405)
    told = response("200 OK", "text/plain; version=0.0.4; charset=utf-8", METRICS)
    return told + METRICS if method == b"GET" else told


def is_utf8(data):
    try:
        data.decode()
        return True
    except UnicodeDecodeError:
        return False
