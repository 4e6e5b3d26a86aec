"""Draws cases: the words, the files and the standard input that the program is given.

About a third of them is valid, a third hostile, and a third altered from what was valid. A case is a function of a seed and an
index, so that one which fails can be drawn again.
"""
from typing import Callable, Dict, List, NamedTuple, Tuple

from . import breaches, changed_texts, configs, fleets, last_events, requests, scripts
from .sources import ChainSource, SecondSource, Source
from .spelling import compact, spelled

FILE = "fleet.json"
NO_READINGS = ("", ",", "1,", ",1", "1,,2", "x", "1,x", "1 ,2", "1.0", "18446744073709551616", "1,-1", "0x1", "1;2", "1e3",
               "\u0661", "1,18446744073709551616", "99999999999999999999999")


class Drawn(NamedTuple):
    name: str
    words: List[str]
    files: Dict[str, bytes]
    stdin: bytes
    then: Tuple[str, ...] = ()  # commands that read in turn what was written


def draw(seed, index):
    return pictured(of_some_kind(Source(f"{seed} {index}"), "drawn"))


def draw_chain(seed, index):
    """A case of which the configurations have several hops."""
    return pictured(of_some_kind(ChainSource(f"{seed} chain {index}"), "chain"))


def pictured(drawn):
    """A case of which the transcript, if it is a run, is made a picture."""
    return drawn._replace(then=("draw",)) if drawn.words[0] == "run" else drawn


def draw_second(seed, index):
    """A run of a script of format 2. The transcript is checked."""
    return of_some_kind(SecondSource(f"{seed} second {index}"), "second")._replace(then=("check",))


def draw_upgrade(seed, index):
    """An upgrade of a script, of either format and of any number of hops. What it gave is run."""
    of = (Source, ChainSource, Source, SecondSource)[index % 4]
    return of_some_kind(of(f"{seed} upgrade {index}"), "upgrade")._replace(then=("run",))


def of_some_kind(source, among):
    """A case of a kind that is as likely as it is said to come among those of a sort."""
    name, kind = source.choices(list(KINDS.items()), [getattr(kind, among) for kind in KINDS.values()])[0]
    return Drawn(name, *kind.make(source))


def next_of(drawn, written):
    """What reads the output of a drawn case, which is no fault; None where nothing does."""
    if not drawn.then:
        return None
    command, *others = drawn.then
    return Drawn(f"{drawn.name}, then {command}", [command], {}, written, tuple(others))


def altered_transcript(seed, index):
    """A check or a picture of a transcript that is changed in one place."""
    source = Source(f"{seed} altered transcript {index}")
    name, data, _ = changed_texts.altered(source, changed_texts.transcripts(seed), index)
    return Drawn(name, *given(source, source.choice(("check", "check", "draw")), data))


def altered_config(seed, index):
    """A timeline or a plan by a configuration that is changed in one place."""
    source = Source(f"{seed} altered configuration {index}")
    name, data, original = changed_texts.altered(source, changed_texts.configurations(seed), index)
    return Drawn(name, *configured(source, data, configs.hops_of(original), requests.valid_request))


def planned(source, config, hops, request):
    """A plan by the bytes of a configuration, at a reading about the bounds of a schedule, of what stands in these bytes."""
    at = source.choice((configs.reading_about(source, hops),) * 5 + (0, configs.GREATEST))
    options = [["--config", FILE], ["--at", str(at)]]
    source.shuffle(options)
    return ["plan", *options[0], *options[1]], {FILE: config}, request


def plan_of(source, request):
    config = configs.valid_config(source)
    return planned(source, compact(config).encode(), configs.hops_of(config), request)


def said(source, request):
    """A plan by six words, which are good or have one or two of the mistakes that words may have."""
    words, hop = configs.six_words(source)
    at = source.choice((configs.reading_about(source, (hop,)),) * 5 + (0, configs.GREATEST))
    return ["plan", *words, str(at)], {}, request


def timed(source, config, hops):
    """A timeline by the bytes of a configuration, often with readings about the bounds of a schedule."""
    words = ["timeline", "--config", FILE]
    if source.random() < 0.6:
        words += ["--readings", ",".join(readings(source, hops))]
    return words, {FILE: config}, b""


def readings(source, hops):
    count = source.choice((1, 1, 2, 3, 10))
    drawn = [configs.reading_about(source, hops) for _ in range(count)]
    if source.random() < 0.4:
        interval = source.choice(hops).interval
        drawn = [drawn[0] + source.choice((0, 0, 1, interval // 2, interval)) for _ in drawn]
    if source.random() < 0.2:
        drawn.insert(source.randrange(count + 1), source.choice((0, configs.GREATEST)))
    zeros = "0" * source.choice((0, 0, 0, 0, 3))
    return [zeros + str(min(reading, configs.GREATEST)) for reading in drawn]


def configured(source, config, hops=configs.USUAL_HOPS, asked=requests.altered_request):
    """A command that reads a configuration, and what it is given."""
    if source.random() < 0.5:
        return timed(source, config, hops)
    return planned(source, config, hops, asked(source))


def valid_config(source):
    config = configs.valid_config(source)
    return configured(source, spelled(source, config), configs.hops_of(config))


def altered_valid_config(source):
    config = configs.valid_config(source)
    hops = configs.hops_of(config)
    return configured(source, configs.altered_text(source, config), hops)


def valid_timeline(source):
    config = configs.valid_config(source)
    return timed(source, compact(config).encode(), configs.hops_of(config))


def odd_words(source):
    """A file that isn't there, readings that are none, or both; the file that is there may be refused too."""
    config = configs.refused_config(source) if source.random() < 0.5 else compact(configs.valid_config(source)).encode()
    words, files, stdin = configured(source, config)
    shape = source.randrange(3)
    if shape != 0:
        words = [source.choice(("nowhere.json", "./nowhere/fleet.json")) if word == FILE else word for word in words]
    if shape != 1:
        words = ["timeline", "--config", words[words.index("--config") + 1], "--readings", source.choice(NO_READINGS)]
    return words, files, stdin


def given(source, command, data):
    """A command that reads a file or the standard input, and these bytes for it."""
    if source.random() < 0.5:
        return [command], {}, data
    return [command, "script.json"], {"script.json": data}, source.choice((b"", b"{}"))


def text_of(command, fleet):
    """What the command reads of a fleet: its script, or its transcript."""
    return fleet.transcript() if command == "check" else fleet.script()


def valid(command):
    def make(source):
        fleet = fleets.drawn_fleet(source) if source.random() < 0.97 else fleets.empty_fleet(source)
        value = text_of(command, fleet)
        return given(source, command, spelled(source, value) if source.random() < 0.3 else compact(value).encode())

    return make


def breached(source):
    return given(source, "run", compact(breaches.drawn_breach(source).script()).encode())


def hostile(command):
    def make(source):
        fleet = fleets.drawn_fleet(source)
        shape = source.random()
        if shape < 0.7:
            return given(source, command, scripts.refused_text(source, text_of(command, fleet)))
        if shape < 0.72:  # what another command reads
            return given(source, command, compact(text_of("run" if command == "check" else "check", fleet)).encode())
        add = last_events.add_refused if shape < 0.93 else last_events.add_greatest
        add(source, fleet)
        return given(source, command, compact(text_of(command, fleet)).encode())

    return make


def altered(command):
    def make(source):
        return given(source, command, scripts.altered_text(source, text_of(command, fleets.drawn_fleet(source))))

    return make


class Kind(NamedTuple):
    """What makes cases of a kind, and how often it comes: among all cases, among those of chains, among scripts of format 2 and among
    upgrades."""
    make: Callable
    drawn: int = 0
    chain: int = 0
    second: int = 0
    upgrade: int = 0


# A request is refused before a hop is looked at.
KINDS = {
    "plan, valid request": Kind(lambda source: plan_of(source, requests.valid_request(source)), drawn=8, chain=18),
    "plan, refused request": Kind(lambda source: plan_of(source, requests.refused_request(source)), drawn=7),
    "plan, altered request": Kind(lambda source: plan_of(source, requests.altered_request(source)), drawn=5),
    "plan, six words": Kind(lambda source: said(source, requests.valid_request(source)), drawn=6),
    "plan, six words and another request": Kind(lambda source: said(source, requests.altered_request(source)), drawn=2),
    "configuration, valid": Kind(valid_config, drawn=4, chain=6),
    "configuration, refused": Kind(lambda source: configured(source, configs.refused_config(source)), drawn=8, chain=12),
    "configuration, altered": Kind(altered_valid_config, drawn=8, chain=10),
    "timeline, valid": Kind(valid_timeline, drawn=4, chain=8),
    "timeline, odd words": Kind(odd_words, drawn=2),
    "run, valid": Kind(valid("run"), drawn=8, chain=14, second=8),
    "run, one premise false": Kind(breached, drawn=2, chain=12, second=1),
    "run, hostile": Kind(hostile("run"), drawn=9, chain=10, second=6),
    "run, altered": Kind(altered("run"), drawn=7, chain=4, second=3),
    "check, valid": Kind(valid("check"), drawn=9, chain=4),
    "check, hostile": Kind(hostile("check"), drawn=9, chain=10),
    "check, altered": Kind(altered("check"), drawn=12, chain=8),
    "upgrade, valid": Kind(valid("upgrade"), upgrade=3),
    "upgrade, hostile": Kind(hostile("upgrade"), upgrade=1),
    "upgrade, altered": Kind(altered("upgrade"), upgrade=1),
}
SORTS = {"drawn": draw, "chain": draw_chain, "format 2": draw_second, "upgrade": draw_upgrade, "transcript": altered_transcript,
         "configuration": altered_config}
