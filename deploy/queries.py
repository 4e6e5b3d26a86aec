"""What Prometheus is asked in a query: families with the labels and values that it picks, and lists of labels."""
import dataclasses
import re

TOKEN = re.compile(r'"(?:[^"\\]|\\.)*"|[A-Za-z_:][A-Za-z0-9_:]*|\$\w+|[0-9][0-9A-Za-z.]*|=~|!~|!=|\S')
NAME = re.compile(r"[A-Za-z_:][A-Za-z0-9_:]*")
OVER_LABELS = ("by", "without", "on", "ignoring", "group_left", "group_right")
BETWEEN = ("and", "or", "unless", "bool", "offset")
AGGREGATES = ("sum", "min", "max", "avg", "group", "count", "count_values", "stddev", "stdvar", "topk", "bottomk", "quantile")


@dataclasses.dataclass
class Query:
    """What a query names."""

    picked: list = dataclasses.field(default_factory=list)  # pairs of a family and its matchers: label, operator, value
    labels: list = dataclasses.field(default_factory=list)  # of lists as that behind `by`


def listed(tokens, at, end):
    """The tokens from here to the one that ends a list, but for commas; and where that one is."""
    found = []
    while tokens[at] != end:
        if tokens[at] != ",":
            found.append(tokens[at])
        at += 1
    return found, at


def read_query(text):
    """What a query in PromQL names."""
    tokens = [*TOKEN.findall(text), "", ""]
    query, at = Query(), 0
    while tokens[at]:
        word, follows = tokens[at], tokens[at + 1]
        at += 1
        if word == "[":
            _, at = listed(tokens, at, "]")
        elif word in OVER_LABELS:
            labels, at = listed(tokens, at + 1, ")") if follows == "(" else ([], at)
            query.labels += labels
        elif NAME.fullmatch(word) and word not in BETWEEN and word not in AGGREGATES and follows != "(":
            parts, at = listed(tokens, at + 1, "}") if follows == "{" else ([], at)
            matchers = [(parts[it], parts[it + 1], parts[it + 2].strip('"')) for it in range(0, len(parts), 3)]
            query.picked.append((word, matchers))
    return query
