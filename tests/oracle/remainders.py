"""What a rule leaves after a world: the progression of document 003, figure 1. A remainder is the set of those settings of the rule's carried
parts that make it true, and a setting is the set of the offsets of the parts that are true in it."""

from itertools import product

from formulas import carried, within
from truth import true_at


def progress(formula, world, setting):
    """Figure 1: the truth of what is left after a world that is not the closing one, where the parts at these offsets are true."""
    kind, at = formula[0], formula[-1]
    if kind in ("false", "last"):
        return False
    if kind == "true":
        return True
    if kind == "fact":
        return formula[1] in world[0]
    if kind == "step":
        return world[1] == formula[1]
    if kind == "not":
        return not progress(formula[1], world, setting)
    if kind == "and":
        return progress(formula[1], world, setting) and progress(formula[2], world, setting)
    if kind == "or":
        return progress(formula[1], world, setting) or progress(formula[2], world, setting)
    if kind == "next":
        return formula[1][-1] in setting
    if kind == "eventually":
        return progress(formula[1], world, setting) or at in setting
    if kind == "always":
        return progress(formula[1], world, setting) and at in setting
    left, right = progress(formula[1], world, setting), progress(formula[2], world, setting)
    return right or (left and at in setting) if kind == "until" else right and (left or at in setting)


class Rule:
    """A rule or hint with its carried parts and all their settings."""

    def __init__(self, formula):
        self.formula = formula
        self.parts = carried(formula)
        self.settings = [frozenset(o for o, yes in zip(self.parts, bits) if yes) for bits in product((False, True), repeat=len(self.parts))]
        self.facts = frozenset(f[1] for f in within(formula) if f[0] == "fact")
        self.steps = frozenset(f[1] for f in within(formula) if f[0] == "step")
        self.known, self.replaced = {}, {}

    def view(self, world):
        """Of a world what the rule speaks of; two worlds with the same view leave the same, so that each is worked out once."""
        return world[0] & self.facts, world[1] if world[1] in self.steps else None

    def first(self, world):
        return frozenset(s for s in self.settings if progress(self.formula, world, s))

    def later(self, remainder, world):
        """The remainder of a remainder: each part in it is replaced by what the part itself leaves."""
        view = self.view(world)
        if (remainder, view) not in self.known:
            if view not in self.replaced:
                self.replaced[view] = [frozenset(o for o, part in self.parts.items() if progress(part, view, s)) for s in self.settings]
            self.known[remainder, view] = frozenset(s for s, r in zip(self.settings, self.replaced[view]) if r in remainder)
        return self.known[remainder, view]

    def at_close(self, remainder, facts):
        """Whether it is true of the closing world alone."""
        closing = [(facts, None)]
        return frozenset(o for o, part in self.parts.items() if true_at(closing, 0, part)) in remainder
