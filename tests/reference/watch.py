"""What a watcher sees of a fleet, finds of the premises and shows. Written from docs/WATCH.md."""
import json

PHASES = ("old-only", "both-read-old", "both-read-new", "new-only")
UNSEEN, HOLDS, BROKEN = 0, 1, 2
FINDINGS = ("unseen", "holds", "broken")
COLOURS = (33, 32, 31)
CYAN, RED = 36, 31
MOST = 2**64 - 1


def number_of(word):
    """The number that a word is; None where it is none."""
    if not word or any(byte not in b"0123456789" for byte in word) or int(word) > MOST:
        return None
    return int(word)


def lines_of(text):
    return text.split(b"\n")[:-1]


def behind(text, head):
    """What stands behind a head in the first line that has it; None where none has."""
    return next((line[len(head) :] for line in lines_of(text) if line.startswith(head)), None)


def number_behind(text, head):
    word = behind(text, head)
    return None if word is None else number_of(word)


def quoted(text, head):
    word = behind(text, head)
    return None if word is None or b'"' not in word else word[: word.index(b'"')]


def sum_behind(text, head):
    total = 0
    for line in lines_of(text):
        if not line.startswith(head):
            continue
        _, brace, rest = line[len(head) :].partition(b"}")
        number = number_of(rest[1:]) if brace and rest[:1] == b" " else None
        if number is None:
            return None
        total += number
    return min(total, MOST)


def hyphen(number):
    return "-" if number is None else str(number)


def told(text):
    """The words of what a service tells."""
    digest = quoted(text, b'migctl_proxy_config_info{sha256="')
    if digest is not None:
        return proxy_told(text, digest)
    address = quoted(text, b'migctl_node_info{address="')
    if address is None:
        return "nothing"
    numbers = [number_behind(text, b"migctl_node_items "), number_behind(text, b'migctl_node_gets_total{result="hit"} ')]
    return "nothing" if None in numbers else f"node -{address.hex()} {numbers[0]} {numbers[1]}"


def proxy_told(text, digest):
    names = (b"migctl_clock_seconds ", b"migctl_proxy_next_phase_seconds ", b"migctl_proxy_requests_held_back_total ")
    perhaps = [behind(text, name) for name in names]
    if any(word is not None and number_of(word) is None for word in perhaps):
        return "nothing"
    clock, next_phase, held_back = (None if word is None else number_of(word) for word in perhaps)
    heads = [b'migctl_proxy_phase{phase="' + phase.encode() + b'"} ' for phase in PHASES]
    phase = next((name for name, head in zip(PHASES, heads) if number_behind(text, head) == 1), None)
    kinds = [number_behind(text, b'migctl_proxy_answers_total{kind="' + kind + b'"} ') for kind in (b"hit", b"leg lost")]
    steps_back = number_behind(text, b"migctl_clock_steps_back_total ")
    hop = number_behind(text, b"migctl_proxy_hop ")
    requests = sum_behind(text, b"migctl_proxy_requests_total{")
    if None in (phase, steps_back, hop, requests, *kinds):
        return "nothing"
    counts = " ".join(map(str, (requests, *kinds)))
    return f"proxy -{digest.hex()} {hyphen(clock)} {steps_back} {hop} {phase} {hyphen(next_phase)} {counts} {hyphen(held_back)}"


def stats(text):
    """The words of what a memcached tells."""
    if not text.endswith(b"END\r\n"):
        return "nothing"
    words = [behind(text, head) for head in (b"STAT curr_items ", b"STAT get_hits ")]
    numbers = [None if word is None else number_of(word.removesuffix(b"\r")) for word in words]
    return "nothing" if None in numbers else f"stats {numbers[0]} {numbers[1]}"


def reached(proxies):
    return [proxy for proxy in proxies if proxy["told"]]


def after(before, broken, holds):
    if before == BROKEN or broken:
        return BROKEN
    return HOLDS if holds else before


def differing(look):
    return [proxy for proxy in reached(look["proxies"]) if proxy["told"]["digest"] != look["expected"]]


def went_back(look):
    def did(proxy):
        clock = proxy["told"]["clock"]
        earlier = [
            one["told"]["clock"]
            for one in reached(look["earlier"])
            if one["address"] == proxy["address"] and one["told"]["clock"] is not None
        ]
        return proxy["told"]["steps_back"] > 0 or clock is not None and any(clock < one for one in earlier)

    return [proxy for proxy in reached(look["proxies"]) if did(proxy)]


def not_begun(look):
    """The hops that no proxy that answered may have begun, where one answered."""
    clocks = [proxy["told"]["clock"] for proxy in reached(look["proxies"])]
    if not clocks or None in clocks:
        return []
    return [hop for hop, (start, _) in enumerate(look["schedule"]) if all(clock < start for clock in clocks)]


def in_pool(look, pool):
    return [node for node in look["nodes"] if node["pool"] == pool]


def spread(look):
    """The greatest least and the greatest most distance of two clocks, pair by pair."""
    ranges = [
        (proxy["told"]["clock"] * 1000 - proxy["answered"], proxy["told"]["clock"] * 1000 + 999 - proxy["asked"])
        for proxy in reached(look["proxies"])
        if proxy["told"]["clock"] is not None
    ]
    if not ranges:
        return None
    least, most = 0, 0
    for one, (low, high) in enumerate(ranges):
        for other_low, other_high in ranges[:one]:
            least = max(least, low - other_high, other_low - high)
            most = max(most, high - other_low, other_high - low)
    return least, most


def found(look):
    """What is found of each premise: same, empty, near, forward."""
    before, hops = look["before"], not_begun(look)
    answered = bool(reached(look["proxies"]))
    pools = [in_pool(look, hop + 1) for hop in hops]
    filled = any(node["items"] not in (None, 0) for pool in pools for node in pool)
    empty = any(pool and all(node["items"] == 0 for node in pool) for pool in pools)
    allowed = 1000 * min(interval for _, interval in look["schedule"])
    apart = spread(look)
    near = before[2] if apart is None else after(before[2], apart[0] > allowed, apart[1] <= allowed)
    return (
        after(before[0], bool(differing(look)), answered),
        after(before[1], filled, empty),
        near,
        after(before[3], bool(went_back(look)), answered),
    )


def is_last(look):
    """Whether a proxy answered, and each one that ever did says that it is in the last phase of the last hop."""
    last = (3, len(look["schedule"]) - 1)
    missed = [proxy for proxy in look["proxies"] if proxy["known"] and not proxy["told"]]
    places = [(proxy["told"]["phase"], proxy["told"]["hop"]) for proxy in reached(look["proxies"])]
    return bool(places) and not missed and set(places) == {last}


def place(schedule, at):
    """The hop in force, and its phase."""
    hop = max([number for number, (start, _) in enumerate(schedule) if start <= at], default=0)
    start, interval = schedule[hop]
    return hop, sum(at >= start + times * interval for times in range(3))


def next_phase(schedule, at):
    """The hop and the phase that are next, in how many seconds, and the hop's interval."""
    hop, phase = place(schedule, at)
    if phase == 3:
        hop, phase = hop + 1, 0
    if hop == len(schedule):
        return None
    start, interval = schedule[hop]
    return hop, phase + 1, start + phase * interval - at, interval


def short(number):
    for power, unit in ((18, "P"), (15, "T"), (12, "G"), (9, "M"), (6, "k")):
        if number >= 10**power:
            return f"{number // 10 ** (power - 3)}{unit}"
    return str(number)


def printable(word):
    return "".join(chr(byte) if 32 <= byte <= 126 else "?" for byte in word)


def counted(number, word):
    return f"{short(number)} {word}" + ("" if number == 1 else "s")


def cut(name):
    return printable(name.encode()[:24])


def coloured(look, colour, word):
    return f"\x1b[{colour}m{word}\x1b[0m" if look["colours"] else word


def cell(number):
    return ("-" if number is None else short(number)).rjust(8)


def rate(look, proxy):
    earlier = next((one for one in reached(look["earlier"]) if one["address"] == proxy["address"]), None)
    if not proxy["told"] or not earlier:
        return None
    requests = max(proxy["told"]["requests"] - earlier["told"]["requests"], 0)
    return min(requests * 1000 // max(proxy["answered"] - earlier["answered"], 1), MOST)


def proxy_line(look, proxy):
    front = cut(proxy["address"]).ljust(24) + " "
    known = proxy["told"]
    if not known:
        return front + coloured(look, RED, "unreached") + "\n"
    phase = PHASES[known["phase"]]
    clock = cell(None)
    if known["clock"] is not None:
        passed = max(proxy["answered"] - look["moment"], 0) // 1000
        ahead = known["clock"] - min(look["at"] + passed, MOST)
        clock = (("-" if ahead < 0 else "+") + short(abs(ahead))).rjust(8)
    cells = [rate(look, proxy), known["hits"], known["lost"], known["held_back"]]
    shown = coloured(look, CYAN, phase) + " " * (13 - len(phase))
    return front + shown + clock + "".join(map(cell, cells)) + "\n"


def pool_lines(look, pool):
    nodes, front = in_pool(look, pool), str(pool).rjust(4) + " "
    if len(nodes) <= 16:
        return "".join(front + cut(node["name"]).ljust(24) + cell(node["items"]) + cell(node["hits"]) + "\n" for node in nodes)
    seen = sum(node["items"] is not None for node in nodes)
    items, hits = (min(sum(node[name] or 0 for node in nodes), MOST) for name in ("items", "hits"))
    return f"{front}{short(len(nodes))} nodes, {short(seen)} seen, {counted(items, 'item')}, {counted(hits, 'hit')}\n"


def schedule_lines(look):
    hop, phase = place(look["schedule"], look["at"])
    text = f"second {look['at']}, hop {hop}, {coloured(look, CYAN, PHASES[phase])}\n"
    follows = next_phase(look["schedule"], look["at"])
    if not follows:
        return text + "[##########] no phase follows\n"
    hop, phase, seconds, interval = follows
    full = 10 * max(interval - seconds, 0) // interval
    return text + f"[{'#' * full}{'-' * (10 - full)}] {short(seconds)} s to {coloured(look, CYAN, PHASES[phase])} of hop {hop}\n"


def named(proxies, said):
    if not proxies:
        return ""
    more = f" and {short(len(proxies) - 1)} more" if len(proxies) > 1 else ""
    return f", {cut(proxies[0]['address'])} {said}{more}"


def seconds(milliseconds):
    if milliseconds < 10**9:
        return f"{milliseconds // 1000}.{milliseconds % 1000 // 100}"
    return short(min(milliseconds // 1000, MOST))


def premise_lines(look, findings):
    """The line of each premise."""
    hops, apart = not_begun(look), spread(look)
    pool = ""
    if hops:
        nodes = in_pool(look, hops[0] + 1)
        seen = [node["items"] for node in nodes if node["items"] is not None]
        holds = " holds" if len(seen) == len(nodes) else f": {short(len(seen))} of {counted(len(nodes), 'node')} seen,"
        pool = f", pool {hops[0] + 1}{holds} {counted(min(sum(seen), MOST), 'item')}"
    near = ""
    if apart:
        least, most = seconds(apart[0]), seconds(apart[1] + 99)
        near = f", {least} to {most} s apart, {short(min(interval for _, interval in look['schedule']))} s allowed"
    details = (named(differing(look), "differs"), pool, near, named(went_back(look), "went back"))
    names = ("same configuration", "new pool empty", "clocks near", "no clock went back")
    return [
        name.ljust(20) + coloured(look, COLOURS[finding], FINDINGS[finding]) + detail + "\n"
        for name, finding, detail in zip(names, findings, details)
    ]


def as_text(look, findings):
    proxies = "proxy".ljust(25) + "phase".ljust(13) + "".join(name.rjust(8) for name in ("clock", "req/s", "hits", "lost", "held")) + "\n"
    proxies += "".join(proxy_line(look, proxy) for proxy in look["proxies"])
    nodes = "pool " + "node".ljust(24) + "items".rjust(8) + "hits".rjust(8) + "\n"
    nodes += "".join(pool_lines(look, pool) for pool in range(len(look["schedule"]) + 1))
    return "\n".join((schedule_lines(look), proxies, nodes, "".join(premise_lines(look, findings))))


def changes(look, findings):
    def state(proxy):
        known = proxy["told"]
        return "unreached" if not known else f"{PHASES[known['phase']]} of hop {known['hop']}"

    before = {(proxy["address"], state(proxy)) for proxy in look["earlier"]}
    lines = [
        f"{look['at']} {cut(proxy['address'])} {state(proxy)}\n"
        for proxy in look["proxies"]
        if (proxy["address"], state(proxy)) not in before
    ]
    shown = premise_lines({**look, "colours": False}, findings)
    lines += [f"{look['at']} {line}" for line, old, new in zip(shown, look["before"], findings) if old != new]
    return "".join(lines)


def as_json(look, findings):
    def of_proxy(proxy):
        known = proxy["told"]
        if not known:
            return {"address": proxy["address"], "reached": False}
        counts = {name: known[name] for name in ("clock", "held_back", "hits", "hop", "lost")}
        texts = {"address": proxy["address"], "digest": printable(known["digest"]), "phase": PHASES[known["phase"]]}
        return {**counts, **texts, "reached": True, "requests_per_second": rate(look, proxy)}

    apart, follows = spread(look), next_phase(look["schedule"], look["at"])
    value = {
        "at": look["at"],
        "next": follows and {"hop": follows[0], "phase": PHASES[follows[1]], "seconds": follows[2]},
        "nodes": look["nodes"],
        "premises": dict(zip(("same", "empty", "near", "forward"), (FINDINGS[finding] for finding in findings))),
        "proxies": [of_proxy(proxy) for proxy in look["proxies"]],
        "spread": apart and {"at_least": min(apart[0], MOST), "at_most": min(apart[1], MOST)},
    }
    return json.dumps(value, ensure_ascii=False, separators=(",", ":"), sort_keys=True)


def of_look(look):
    """Everything that a look comes to."""
    findings = found(look)
    return as_text(look, findings) + changes(look, findings) + as_json(look, findings) + ("\nlast\n" if is_last(look) else "")
