"""What was wanted, what came instead, and how both are shown."""

SHOWN = 120  # bytes or characters of a long value


class Wrong(Exception):
    """Something else came than was wanted."""

    def __init__(self, what, wanted, got):
        super().__init__(f"{what}: wanted {shown(wanted, got)}, got {shown(got, wanted)}")


def shown(value, other):
    """A value in a line. Of a long one only what stands where it begins to differ from the other."""
    if isinstance(value, (tuple, list)):
        others = other if isinstance(other, (tuple, list)) and len(other) == len(value) else [None] * len(value)
        return "({})".format(", ".join(shown(it, its_other) for it, its_other in zip(value, others)))
    if not isinstance(value, (bytes, str)) or len(value) <= SHOWN:
        return repr(value)
    place = 0
    if isinstance(other, type(value)):
        place = next((i for i, (a, b) in enumerate(zip(value, other)) if a != b), min(len(value), len(other)))
    begin = max(0, place - SHOWN // 4)
    return f"{value[begin : begin + SHOWN]!r} at {begin} of {len(value)}"


def check(what, wanted, got):
    """Nothing, where what was wanted came."""
    if wanted != got:
        raise Wrong(what, wanted, got)


def check_true(what, holds):
    """Nothing, where it holds."""
    check(what, True, bool(holds))
