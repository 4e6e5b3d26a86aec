"""The picture of a transcript. Written from what docs/definitions prints of mr_drawing; the colours, which mean nothing here, are
those of the cases.
"""
import pathlib

from . import fields, json_text, scripts, text, transcripts
from .history import BEGINNING, Answered, Stored
from .proxies import Refused
from .worlds import World

MOST = 2000
LEFT, CELL, TOP, LEVEL = 176, 56, 176, 24
START = "<svg xmlns='http://www.w3.org/2000/svg' role='img'"
COLOURS = pathlib.Path(__file__).resolve().parents[1] / "cases/files/colours.txt"
LEGEND = b"O old-only, A both-read-old, B both-read-new, N new-only. Dashed: it came again. Broken, with an x: it was lost."
ENTITIES = {38: "&amp;", 60: "&lt;", 62: "&gt;", 34: "&quot;", 39: "&apos;", 92: "\\\\"}
VERBS = {text.Get: "get", text.Set: "set", text.Delete: "delete"}
KINDS = {"Look": "get", "Set": "set", "Delete": "del"}
OUTCOMES = {"hit": "hit", "miss": "miss", "stored": "stored", "deleted": "deleted", "not_found": "absent", "lost": "failed"}
LETTERS = {"old-only": "O", "both-read-old": "A", "both-read-new": "B", "new-only": "N"}


def shown(data):
    """Bytes as they are shown."""
    return "".join(ENTITIES.get(byte) or (chr(byte) if 32 <= byte <= 126 else f"\\x{byte:02x}") for byte in data)


def width(byte):
    return 2 if byte == 92 else 1 if 32 <= byte <= 126 else 4


def fitting(data, room):
    count = 0
    for byte in data:
        room -= width(byte)
        if room < 0:
            break
        count += 1
    return count


def shortened(data, room):
    return data if fitting(data, room) == len(data) else data[:fitting(data, max(room - 2, 0))] + b".."


def across(column):
    return LEFT + CELL * (column + 1)


def middle(column):
    return across(column) + CELL // 2


def down(level):
    return TOP + LEVEL * level


def center(level):
    return down(level) + LEVEL // 2


def op_text(op):
    return ".".join(map(str, op))


class Told:
    """A script that was played: for each event what became of it, and for each message and reply whose it is."""

    def __init__(self, data):
        fields.check_size(data)
        self.value = json_text.read(data)
        self.script = scripts.script_of(self.value, transcripts.FOUND_KEYS)
        self.world = World(self.script.setup)
        self.notes = []
        for event in self.script.events:
            try:
                self.notes.append(self.world.step(event))
            except Refused:
                break
        self.checked = transcripts.check(data)
        self.events = self.script.events[:MOST]
        self.whole = len(self.script.events) <= MOST
        self.names = list(self.world.nodes)
        self.issues = {tuple(note["issued"]): column for column, note in enumerate(self.notes[:MOST])
                       if isinstance(note, dict) and "issued" in note}
        self.blamed = self.blame()

    def blame(self):
        verdict = self.checked.verdict
        ops = [op for op in (verdict.get, verdict.delete) if op]
        if verdict.kind != "stale":
            return ops
        history = self.world.history
        place = next(place for place, entry in enumerate(history) if isinstance(entry, Answered) and entry.op == verdict.get)
        item = next(item for item in history[place].answer.items if item.key == verdict.key)
        by = [entry.by for entry in history[:place] if isinstance(entry, Stored) and entry[1:] == item]
        return ops + [op for op in by[-1:] if op != BEGINNING]

    def level(self, op):
        above = [other for other in self.issues if other[0] < op[0] or other[0] == op[0] and other < op]
        return len(above) + op[0] + 1

    def base(self, proxy):
        return len([op for op in self.issues if op[0] < proxy]) + proxy

    def height(self, proxy):
        return len([op for op in self.issues if op[0] == proxy]) + 1

    def levels(self):
        return len(self.issues) + len(self.script.setup.proxies)

    def node(self, lane):
        return center(self.levels() + 3 + 2 * lane)

    def foot(self):
        return down(self.levels() + 3 + 2 * len(self.names))

    def width(self):
        return max(across(len(self.events)) + CELL, 960)

    def played(self, column):
        return column < len(self.notes)

    def lasts(self, column, op):
        """How many further columns a request lasts."""
        for later in range(column + 1, len(self.events)):
            event = self.events[later]
            if not self.played(later):
                continue
            if self.notes[later] == {"answered": list(op)}:
                return later - column
            if isinstance(event, scripts.ProxyRestart) and event.proxy == op[0]:
                return later - column
        return len(self.events) - column - 1

    def phase_lasts(self, first, proxy):
        """How many columns from the first on come before the proxy's clock shows another reading."""
        for column in range(first, len(self.events)):
            event = self.events[column]
            if self.played(column) and isinstance(event, scripts.Clock) and event.proxy == proxy:
                return column - first
        return len(self.events) - first

    def came(self, kind, number, columns):
        return any(self.played(column) and isinstance(self.events[column], kind) and self.events[column][0] == number
                   for column in columns)


def attributes(**values):
    return "".join(f" {name}='{value}'" for name, value in values.items())


def line(name, x, y, to):
    return f"<line class='{name}'" + attributes(x1=x, y1=y, x2=x, y2=to) + "/>\n"


def box(name, x, y, wide, high):
    return f"<rect class='{name}'" + attributes(x=x, y=y, width=wide, height=high) + "/>\n"


def words(name, x, y, said):
    return f"<text class='{name}'" + attributes(x=x, y=y) + f">{shown(said)}</text>\n"


def said(name, column, y, word):
    return words(name, middle(column), y + 4, word.encode())


def lane(x, more, level, height, phase):
    return box(phase, x, down(level), CELL * (more + 1), LEVEL * height - 2)


def mark(x, level, standing):
    letter = LETTERS[standing.phase] + (str(standing.hop) if standing.hop else "")
    return words("mark", x + 6, down(level) + 17, letter.encode())


def lanes(told):
    """What is drawn of the lanes: below everything else, and above the lines."""
    for number, proxy in enumerate(told.script.setup.proxies):
        standing = proxy.config.schedule.standing(proxy.reading)
        level, height = told.base(number), told.height(number)
        yield (lane(LEFT, told.phase_lasts(0, number), level, height, standing.phase),
               words("name", 16, down(level) + 17, f"proxy {number}".encode()) + mark(LEFT, level, standing))
    for number, name in enumerate(told.names):
        y = told.node(number)
        under = "<line class='node'" + attributes(x1=LEFT, y1=y, x2=across(len(told.events)), y2=y) + "/>\n"
        yield under, words("name", 16, y + 4, shortened(name.encode(), 22))


def column_of(told, column):
    title = json_text.write(told.value["events"][column])
    number = f"<text class='number'" + attributes(x=middle(column), y=166) + f">{column}</text>\n"
    high = attributes(x=across(column), y=152, width=CELL, height=told.foot() - 152)
    return "", number + f"<rect class='event'{high}><title>{shown(title)}</title></rect>\n"


def issued(told, column, event, note):
    op, (first, count) = tuple(note["issued"]), note["messages"]
    level, columns = told.level(op), told.lasts(column, op) + 1
    request = event.request
    keys = request.keys if isinstance(request, text.Get) else [request.key]
    label = b" ".join([VERBS[type(request)].encode(), *keys])
    yield "", (box("bar blamed" if op in told.blamed else "bar", across(column) + 4, down(level) + 3, CELL * columns - 8, 18)
               + words("ask", across(column) + 9, down(level) + 16, shortened(label, max(8 * columns - 2, 0))))
    for message in range(first, first + count):
        if told.whole and not told.came(scripts.Deliver, message, range(len(told.events))):
            node = told.node(told.names.index(told.world.messages[message].leg.node))
            yield (line("leg lost", middle(column), center(level), node),
                   said("said", column, center(told.levels()), "lost") + said("cross", column, node, "x"))


def delivered(told, column, event, note):
    message = told.world.messages[event.message]
    again = " again" if told.came(scripts.Deliver, event.message, range(column)) else ""
    node = told.node(told.names.index(message.leg.node))
    kind = KINDS[type(message.leg.command).__name__]
    yield (line("leg" + again, middle(column), center(told.level(message.op)), node),
           said("said", column, center(told.levels()), f"{kind} {message.leg.side}"))
    if told.whole and not told.came(scripts.Return, note["performed"], range(len(told.events))):
        yield (line("back lost", middle(column) + 14, node, node - 14),
               said("said", column, center(told.levels() + 1), "lost") + words("cross", middle(column) + 14, node - 14, b"x"))


def returned(told, column, event):
    delivery = told.world.deliveries[event.reply]
    again = " again" if told.came(scripts.Return, event.reply, range(column)) else ""
    node = told.node(told.names.index(delivery.message.leg.node))
    yield (line("back" + again, middle(column), node, center(told.level(delivery.message.op))),
           said("said", column, center(told.levels() + 1), OUTCOMES[delivery.reply.kind]))


def broken(told, column, proxy):
    level, height = told.base(proxy), told.height(proxy)
    yield "", (box("gap", middle(column) - 3, down(level), 6, LEVEL * height - 2)
               + said("said", column, down(level) + 13, "restart"))


def emptied(told, column, name):
    y = told.node(told.names.index(name))
    yield "", box("gap", middle(column) - 6, y - 4, 12, 8) + said("said", column, y - 12, "restart")


def ticked(told, column, event):
    standing = told.script.setup.proxies[event.proxy].config.schedule.standing(event.reading)
    level, height = told.base(event.proxy), told.height(event.proxy)
    yield (lane(across(column), told.phase_lasts(column + 1, event.proxy), level, height, standing.phase),
           mark(across(column), level, standing))


def shapes_of(told, column):
    """What is drawn of an event."""
    event = told.events[column]
    if not told.played(column):
        word = ("said bad", "refused") if column == len(told.notes) else ("said", "-")
        return [("", said(word[0], column, center(told.levels()), word[1]))]
    note = told.notes[column]
    if isinstance(event, scripts.Clock):
        return ticked(told, column, event)
    if isinstance(event, scripts.Client):
        if isinstance(note, dict):
            return issued(told, column, event, note)
        return [("", said("said", column, down(told.base(event.proxy)) + 13, "quit"))]
    if isinstance(event, scripts.Deliver):
        return delivered(told, column, event, note)
    if isinstance(event, scripts.Return):
        return returned(told, column, event)
    if isinstance(event, scripts.GiveUp):
        foot = center(told.levels() + 1)
        return [(line("leg", middle(column), center(told.level(event.op)), foot), said("said", column, foot, "gave up"))]
    if isinstance(event, scripts.NodeRestart):
        return emptied(told, column, event.node)
    return broken(told, column, event.proxy)


def sentence(verdict):
    if verdict.kind == "safe":
        return ""
    ends = f"delete {op_text(verdict.delete)} had removed" if verdict.kind == "stale" else "nothing had stored"
    return words("plain bad", 16, 102, f"get {op_text(verdict.get)} shows what {ends}".encode())


def draw(data, lines):
    """The picture of the transcript that these bytes are, with these lines at the top."""
    told = Told(data)
    shapes = list(lanes(told))
    for column in range(len(told.events)):
        shapes.append(column_of(told, column))
        shapes.extend(shapes_of(told, column))
    size = attributes(width=told.width(), height=told.foot())
    head = START + size + ">\n" + COLOURS.read_text(encoding="utf-8") + box("ground", 0, 0, told.width(), told.foot())
    head += "".join(words("plain", 16, 30 + 24 * place, it) for place, it in enumerate(lines))
    head += sentence(told.checked.verdict) + words("faint", 16, 126, LEGEND)
    if not told.whole:
        head += words("faint", 16, 146, f"the first 2000 events of {len(told.script.events)}".encode())
    picture = head + "".join(under for under, _ in shapes) + "".join(over for _, over in shapes) + "</svg>\n"
    return picture.encode()
