"""The max estimate of what is left, from card 2's sentence: a fact that is true costs 0, any other the least over the steps that add it of the step's
cost plus its dearest needed fact; a state costs its dearest goal fact. Deleted and forbidden facts are overlooked. By card 4 only those steps count that the
caller may use."""

NONE = float("inf")     # above every number: what cannot be built, and the estimate of a state that has none


def fact_costs(steps, facts):
    """What each fact costs that can be built from these; a fact that is left out costs NONE.

    Every fact that is not true costs more than any number at first, and is lowered by the equations until all of them hold. So of several solutions,
    which steps of cost 0 allow that build each other's facts, the largest is found. The steps are gone through from either end in turn, which is quick
    for chains."""
    costs, lowered = dict.fromkeys(facts, 0), True
    while lowered:
        lowered, steps = False, steps[::-1]
        for step in steps:
            # one needed fact that costs NONE makes the whole so dear that it lowers nothing
            if step.needed <= costs.keys():
                cost = step.cost + max((costs[fact] for fact in step.needed), default=0)
                for fact in step.added:
                    if cost < costs.get(fact, NONE):
                        costs[fact], lowered = cost, True
    return costs


class Estimates:
    """The estimates of a job's states for its caller, each worked out once."""

    def __init__(self, job):
        self.steps, self.goal, self.known = job.usable_steps(), job.goal, {}

    def of(self, facts):
        """The estimate at a state, or NONE."""
        if facts not in self.known:
            costs = fact_costs(self.building(facts), facts)
            self.known[facts] = max((costs.get(f, NONE) for f in self.goal), default=0)
        return self.known[facts]

    def building(self, facts):
        """The steps that count as building facts from these: all that may be used, whatever they forbid."""
        return self.steps
