"""The refusals and the line that the program prints of each, by number. Written from docs/FORMATS.md, "The faults"; those that
a text alone never comes to aren't here.
"""

NUMBERS = {
    "text": {"LineTooLong": 1, "BadKey": 2, "BadNumber": 3, "WrongWords": 4, "DataTooLong": 5, "BadDataEnd": 6,
             "UnknownCommand": 7, "Truncated": 8},
    "pools": {"TooManyNodes": 2, "BadName": 3, "RepeatedName": 4, "SharedName": 5},
    "phases": {"ZeroInterval": 1, "TooLate": 2},
    "plan": {"NotJson": 1, "WrongKind": 2, "MissingKey": 3, "UnknownKey": 4, "BadPool": 5, "BadRoute": 6, "BadSchedule": 7,
             "BadHash": 8, "BadSetup": 9, "BadEvent": 10, "TooLarge": 11, "EventRefused": 12},
}


class Refusal(Exception):
    """The first thing that is wrong with a text: which layer says so, and under which name."""

    def __init__(self, layer, name):
        super().__init__(layer, name)
        self.layer = layer
        self.name = name

    @property
    def number(self):
        return NUMBERS[self.layer][self.name]

    @property
    def line(self):
        return f"migctl: {self.layer} {self.number} {self.name}"


def text(name):
    return Refusal("text", name)


def plan(name):
    return Refusal("plan", name)


def pools(name):
    return Refusal("pools", name)


def phases(name):
    return Refusal("phases", name)
