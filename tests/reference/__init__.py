"""A second implementation of what `migctl` answers, and a generator of cases to compare both on.

It is written from the documents and not from the program's code, so that a mistake of one isn't a mistake of the other.
`tests/run` draws cases, lets the program answer each, and compares that with what stands here. The modules, lowest first:

    refusals, json_text, fields     what is refused; JSON; what is read from its values
    text, phases, pools, configs    requests; when and where they go, along chains of migrations; configurations
    nodes, proxies, worlds          a cache, a proxy, a fleet of them event by event
    history                         what happened in a fleet, and its judge
    formats, scripts, transcripts   what a fleet is made of and what happens to it; what came of that, and its check
    upgrades                        scripts of format 1 in format 2
    pictures                        the picture of a transcript
    commands                        from words, files and input to status, output and faults
    byte_runs                       what the clients of fleets as streams of bytes may be told
    drawing, coverage               cases; what they come to, counted
"""
from . import commands, upgrades
from .coverage import kinds_of, missing
from .drawing import SORTS, Drawn, next_of

__all__ = ["SORTS", "Drawn", "answer", "kinds_of", "keeps_what_it_says", "missing", "next_of"]


def answer(drawn):
    """What the program has to answer to a drawn case: status, standard output, standard error."""
    return commands.answer(drawn.words, drawn.files, drawn.stdin)


def keeps_what_it_says(drawn, answer):
    """Whether an upgrade, if this was one and is no fault, reads as the script that it was made of: so has its run the same verdict."""
    if drawn.words[0] != "upgrade" or answer.status != 0:
        return True
    return upgrades.says_the_same(commands.given(drawn.words[1:], drawn.files, drawn.stdin), answer.stdout)
