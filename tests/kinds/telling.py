"""What services tell that a watch reads, by docs/WATCH.md, where a case plays them."""
import time

PHASES = ("old-only", "both-read-old", "both-read-new", "new-only")


def proxy_text(phase, second=None, requests=0, digest="0" * 64, held=0):
    """What a proxy tells. Its clock is the machine's where no second is said."""
    second = int(time.time()) if second is None else second
    lines = (
        f'proxy_config_info{{sha256="{digest}"}} 1',
        f"clock_seconds {second}",
        "clock_steps_back_total 0",
        "proxy_hop 0",
        *(f'proxy_phase{{phase="{it}"}} {int(it == phase)}' for it in PHASES),
        f'proxy_requests_total{{command="get",phase="{phase}"}} {requests}',
        *(f'proxy_answers_total{{kind="{it}"}} 0' for it in ("hit", "leg lost")),
        f"proxy_requests_held_back_total {held}",
    )
    return b"".join(b"migctl_%s\n" % line.encode() for line in lines)


def node_text(address, items=0, hits=0):
    """What a node of this address tells."""
    lines = f'node_info{{address="{address}"}} 1', f"node_items {items}", f'node_gets_total{{result="hit"}} {hits}'
    return b"".join(b"migctl_%s\n" % line.encode() for line in lines)


def stats_text(items, hits):
    """A memcached's answer to `stats`."""
    return b"STAT curr_items %d\r\nSTAT get_hits %d\r\nEND\r\n" % (items, hits)
