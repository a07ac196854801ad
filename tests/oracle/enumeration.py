"""A second opinion on the search, which shares nothing with the first but the reading of a job and the truth of formulas: step lists are
enumerated, and judged one by one."""

from itertools import islice

MOST_STEPS = 6
MOST_WORK = 20000


class Enumeration:
    """All lists of applicable steps that the caller may use, of up to `length` steps: the best allowed one as (cost, length, steps), and all allowed ones
    of its cost.

    The length is at most 6, and such that the lists times one more than the bytes of the formulas stay below 20,000: with a rule of 6 bytes some
    2,800 lists, which are all those of up to 4 steps where 7 steps are applicable everywhere. A list that is dearer than an allowed one is not
    judged, since it cannot be the best."""

    def __init__(self, job, formula_bytes):
        self.job, self.best, self.cheapest, self.length = job, None, [], -1
        lists, enumerated, most = [(0, (), job.start)], 0, MOST_WORK // (1 + formula_bytes)
        while lists and self.length < MOST_STEPS and enumerated + len(lists) <= most:
            for cost, plan, facts in lists:
                if job.goal <= facts and not (self.best and cost > self.best[0]) and job.allowed(plan):
                    self.found(cost, plan)
            enumerated += len(lists)
            self.length += 1
            longer = ((cost + job.steps[s].cost, plan + (s,), job.after(s, facts)) for cost, plan, facts in lists for s in job.able(facts))
            # one list too many tells as much as all of them
            lists = list(islice(longer, most - enumerated + 1))
        if not lists:
            self.length = float("inf")

    def found(self, cost, plan):
        if self.best is None or cost < self.best[0]:
            self.cheapest = []
        key = (cost, len(plan), plan)
        self.best = min(self.best or key, key)
        self.cheapest.append(plan)

    def decides(self):
        """Whether the job's plan must be the best plan: it has no hints, or every allowed plan of least cost was seen and meets all of them. Where
        each step costs 1 or more, lists that are longer than the least cost cost more."""
        if not self.job.hints:
            return True
        seen = self.best is not None and all(s.cost for s in self.job.usable_steps()) and self.best[0] <= self.length
        every = (1 << len(self.job.hints)) - 1
        return seen and all(self.job.read_through(plan)[1] == every for plan in self.cheapest)

    def contradicts(self, numbers, plan):
        """Why a search cannot have given these numbers and this plan, or None."""
        number, first, count = numbers
        if number == 0 and count <= self.length:
            return None if self.best == (first, count, tuple(plan)) else f"the best list is {self.best}"
        if number == 0:
            return f"{self.best} is no dearer, and shorter" if self.best and self.best[0] <= first else None
        if number == 13 and first <= self.length:
            return None if self.best and self.best[1] == first else f"the best list is {self.best}"
        if number in (11, 12):
            return f"{self.best} is allowed" if self.best else None
        return None
