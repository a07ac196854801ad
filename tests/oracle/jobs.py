"""A job read from its bytes, or its refusal, and the read-through of a step list: written from document 01 and the cards alone, slowly, by their own
words, with nothing shared with the planner."""

from copy import copy
from typing import NamedTuple

from formulas import MOST_BYTES, Refused, read_section
from pack import NEW_STEP, OLD_STEP, PAIR, TASK, number
from remainders import Rule
from truth import meets

MOST_STEPS = 65535


class Step(NamedTuple):
    """Four sets of facts, and the cost."""

    needed: frozenset
    added: frozenset
    deleted: frozenset
    forbidden: frozenset
    cost: int


def read_pairs(data, steps, count):
    """Where each section begins and ends."""
    expected, sections = 4 + PAIR * count, []
    for i in range(count):
        at = 4 + PAIR * i
        if at + PAIR > len(data):
            raise Refused(2, i)
        offset, length = number(data, at, 2), number(data, at + 2, 2)
        right = length in (TASK + OLD_STEP * steps, TASK + NEW_STEP * steps) if i == 0 else 1 <= length <= MOST_BYTES
        if offset != expected or not right or offset + length > len(data):
            raise Refused(2, i)
        sections.append((offset, offset + length))
        expected = offset + length
    if expected != len(data):
        raise Refused(2, count - 1)
    return sections


def held(needed, rights):
    """Whether all needed rights are held: each bit of the one byte that is set is set in the other."""
    return all(rights >> bit & 1 for bit in range(8) if needed >> bit & 1)


class Job:
    """An accepted job; making one of other bytes raises Refused. A set of facts is a frozenset of their numbers. Its caller may use every step, until
    `of_caller` says which; `usable` has their numbers."""

    def __init__(self, data):
        if len(data) < 4 or not 1 <= data[0] <= 64 or data[1] > 64 or data[2] > 8 or data[3] > 8:
            raise Refused(1, 0)
        facts, steps, rules, hints = data[:4]
        sections = read_pairs(data, steps, 1 + rules + hints)

        def facts_at(offset):
            value = number(data, offset, 8)
            if value >> facts:
                raise Refused(3, offset)
            return frozenset(i for i in range(facts) if value >> i & 1)

        task, end = sections[0]
        # the length alone tells the form
        size = NEW_STEP if end - task == TASK + NEW_STEP * steps else OLD_STEP

        def step_at(offset):
            needed, added, deleted = facts_at(offset), facts_at(offset + 8), facts_at(offset + 16)
            forbidden = facts_at(offset + 24) if size == NEW_STEP else frozenset()
            return Step(needed, added, deleted, forbidden, number(data, offset + size - 2, 2))

        self.start, self.goal = facts_at(task), facts_at(task + 8)
        self.steps = [step_at(task + TASK + size * i) for i in range(steps)]
        self.usable = range(steps)
        formulas = [Rule(read_section(data, a, e, facts, steps)) for a, e in sections[1:]]
        self.rules, self.hints = formulas[:rules], formulas[rules:]
        self.offsets = [a for a, _ in sections]

    def of_caller(self, needs, rights):
        """The same job, asked by a caller who holds these rights and lends this list of needed ones; a list of another length is refused."""
        if len(needs) != len(self.steps):
            raise Refused(14, len(needs))
        return self.using([step for step, needed in enumerate(needs) if held(needed, rights)])

    def using(self, usable):
        """The same job, asked by a caller who may use these steps alone, which are numbers in rising order."""
        other = copy(self)
        other.usable = usable
        return other

    def usable_steps(self):
        return [self.steps[step] for step in self.usable]

    def barred(self):
        """The numbers of the steps that the caller may not use."""
        return [step for step in range(len(self.steps)) if step not in self.usable]

    def forbidding_nothing(self):
        """The same job, but with every forbidden set empty."""
        other = copy(self)
        other.steps = [step._replace(forbidden=frozenset()) for step in self.steps]
        return other

    def applicable(self, step, facts):
        """All needed facts are true, and no forbidden one is."""
        return self.steps[step].needed <= facts and not self.steps[step].forbidden & facts

    def able(self, facts):
        """The numbers of the steps that the caller may make here: applicable ones, all of whose rights are held."""
        return [step for step in self.usable if self.applicable(step, facts)]

    def after(self, step, facts):
        return (facts - self.steps[step].deleted) | self.steps[step].added

    def worlds(self, plan):
        """The worlds of a step list: the start facts, the facts after each step with that step, and the closing world."""
        worlds, facts = [(self.start, None)], self.start
        for step in plan:
            facts = self.after(step, facts)
            worlds.append((facts, step))
        return worlds + [(facts, None)]

    def cost(self, plan):
        return sum(self.steps[s].cost for s in plan)

    def read_through(self, plan):
        """Cost and hint bits of an allowed plan, which has no step that the caller may not use."""
        if len(plan) > MOST_STEPS:
            raise Refused(6, MOST_STEPS)
        facts = self.start
        for i, step in enumerate(plan):
            if step >= len(self.steps):
                raise Refused(6, i)
            if step not in self.usable:
                raise Refused(15, i)
            if not self.applicable(step, facts):
                raise Refused(7, i)
            facts = self.after(step, facts)
        if not self.goal <= facts:
            raise Refused(8, 0)
        worlds = self.worlds(plan)
        for i, rule in enumerate(self.rules):
            if not meets(worlds, rule.formula):
                raise Refused(9, i)
        return self.cost(plan), sum(1 << i for i, h in enumerate(self.hints) if meets(worlds, h.formula))

    def allowed(self, plan):
        try:
            self.read_through(plan)
        except Refused:
            return False
        return True
