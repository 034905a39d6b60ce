"""A slice as C has it: an address and a length, two variables. What sets a slice is split to set first the one, then the other."""
from printer.mir import NoRule, chain, head, items

SLICE = '"&[]"'
PARTS = ("at", "length")


def is_slice(kind):
    return head(kind) == "tyStruct" and kind[1] == SLICE


def lent(kind):
    """The reference in a slice, and whether it may write."""
    reference = items(kind[2])[0]
    return reference, reference[2] == "mut"


def variables(local, kind):
    return [f"v{local}_{part}" for part in PARTS] if is_slice(kind) else [f"v{local}"]


def names(place, kinds):
    """The variables that a place reads or sets."""
    found, steps = variables(place[1], kinds[place[1]]), items(place[2])
    return [found[steps[0][1]]] if len(found) > 1 and steps else found


def half(place, i):
    return ["place", place[1], chain(items(place[2]) + [["field", i]])]


def halves(value, to):
    """Address and length of what a slice is set to."""
    if value[0] == "aggregate":
        operands = items(value[1])
    elif value[0] == "rvOpd" and head(value[1]) == "copy":
        operands = [["copy", half(value[1][1], i)] for i in (0, 1)]
    else:
        raise NoRule("a slice that is set to", value)
    if len(operands) != 2 or any(head(x) == "copy" and x[1][1] == to[1] for x in operands):
        raise NoRule("a slice that is set to", value)
    return operands


def split(body, kind_of):
    """A body in which no statement sets a slice; `kind_of` gives a place's type."""
    word = head(body)
    if word in ("seq", "block", "loop", "default"):
        return [word] + [split(part, kind_of) for part in body[1:]]
    if word in ("if", "switch", "arm"):
        return body[:2] + [split(part, kind_of) for part in body[2:]]
    if word == "assign" and is_slice(kind_of(body[1])):
        at, length = [["assign", half(body[1], i), ["rvOpd", operand]] for i, operand in enumerate(halves(body[2], body[1]))]
        return ["seq", at, length]
    return body
