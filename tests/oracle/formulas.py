"""Formulas (rules and hints) read from bytes, by document 01: where they end, which byte is wrong, which parts are carried."""

NULLARY = {0x00: "false", 0x01: "true", 0x02: "last"}
NUMBERED = {0x03: "fact", 0x04: "step"}
UNARY = {0x10: "not", 0x20: "next", 0x21: "eventually", 0x22: "always"}
BINARY = {0x11: "and", 0x12: "or", 0x23: "until", 0x24: "release"}
CODE = {kind: code for codes in (NULLARY, NUMBERED, UNARY, BINARY) for code, kind in codes.items()}
TEMPORAL = {"eventually", "always", "until", "release"}

MOST_BYTES = 128
MOST_PARTS = 6


class Refused(Exception):
    """A refusal: its number and its place."""

    def __init__(self, number, place):
        super().__init__(number, place)
        self.number, self.place = number, place


def read_formula(data, at, end, facts, steps):
    """The formula at an offset and the offset after it. A formula is a tuple ("and", left, right, offset), ("fact", i, offset), ..."""
    if at >= end:
        raise Refused(4, end)
    code = data[at]
    if code in NULLARY:
        return (NULLARY[code], at), at + 1
    if code in NUMBERED:
        if at + 1 >= end:
            raise Refused(4, end)
        if data[at + 1] >= (facts if code == 0x03 else steps):
            raise Refused(4, at + 1)
        return (NUMBERED[code], data[at + 1], at), at + 2
    if code in UNARY:
        inner, after = read_formula(data, at + 1, end, facts, steps)
        return (UNARY[code], inner, at), after
    if code in BINARY:
        left, middle = read_formula(data, at + 1, end, facts, steps)
        right, after = read_formula(data, middle, end, facts, steps)
        return (BINARY[code], left, right, at), after
    raise Refused(4, at)


def read_section(data, at, end, facts, steps):
    """The formula that takes the bytes from one offset to another."""
    formula, after = read_formula(data, at, end, facts, steps)
    if after < end:
        raise Refused(4, after)
    places = list(carried(formula))
    if len(places) > MOST_PARTS:
        raise Refused(5, places[MOST_PARTS])
    return formula


def operands(formula):
    return [x for x in formula[1:-1] if isinstance(x, tuple)]


def within(formula):
    """The formula and all formulas in it."""
    yield formula
    for x in operands(formula):
        yield from within(x)


def carried(formula, under_next=False):
    """The carried parts by offset: operands of a next, and what begins with 21 to 24."""
    found = {}
    if under_next or formula[0] in TEMPORAL:
        found[formula[-1]] = formula
    for x in operands(formula):
        found.update(carried(x, formula[0] == "next"))
    return dict(sorted(found.items()))
