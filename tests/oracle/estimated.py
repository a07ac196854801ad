"""Random jobs in which the estimate of what is left decides: facts that are lost for good, facts that nothing builds, steps of cost 0 that build each
other's facts, facts whose only builder forbids what is true, needed facts that one step builds together, and long chains of dear steps."""

import pack
from jobs import Job, Step
from richer import packed, richer_job, union

DEAREST = 65535


class Draft:
    """A job taken apart, so that it can be changed. A step's sets are sets of facts."""

    def __init__(self, data):
        job = Job(data)
        self.facts, self.start, self.goal = data[0], set(job.start), set(job.goal)
        self.steps = [Step(*map(set, step[:4]), step.cost) for step in job.steps]
        self.new_form = pack.step_bytes(data) == pack.NEW_STEP
        _, self.rules, self.hints = pack.sections_of(data)

    def fact(self, true=False):
        """One more fact, true at the start or not."""
        self.facts += 1
        if true:
            self.start.add(self.facts - 1)
        return self.facts - 1

    def step(self, needed, added, cost, deleted=(), forbidden=()):
        """One more step; gives its number."""
        self.steps.append(Step(set(needed), set(added), set(deleted), set(forbidden), cost))
        return len(self.steps) - 1

    def want(self, rng, fact):
        """Makes the goal need a fact, or each step that adds some fact of the goal."""
        wanted = rng.choice(sorted(self.goal)) if self.goal and rng.random() < 0.4 else None
        if wanted is None:
            self.goal.add(fact)
        for step in self.steps:
            if wanted in step.added and fact not in step.added:
                step.needed.add(fact)

    def bytes(self):
        steps = [packed(*s[:3], s.forbidden if self.new_form else None, s.cost) for s in self.steps]
        return pack.job(self.facts, union(self.start), union(self.goal), steps, self.rules, self.hints)


# ---- changes of a job; each gives hints that cut pairs near it


def lose(rng, draft):
    """A fact that is true and wanted, and that steps delete: one or two, or all that add some fact of the goal, or a new one that does for less what
    another does. Now and then a step adds it again."""
    fact, steps = draft.fact(true=True), range(len(draft.steps))
    wanted = rng.choice(sorted(draft.goal) or [fact])
    draft.want(rng, fact)
    kind = rng.random()
    if kind < 0.35:
        losing = rng.sample(steps, min(len(steps), rng.choice([1, 2])))
    elif kind < 0.65:
        losing = [i for i in steps if wanted in draft.steps[i].added]
    else:
        like = draft.steps[rng.choice(steps)]
        losing = [draft.step(like.needed, like.added, like.cost // 2, like.deleted, like.forbidden)]
    for number in losing:
        draft.steps[number].deleted.add(fact)
    if rng.random() < 0.2:
        draft.step([], [fact], rng.randint(1, 3))
    return [[0x22, 0x03, fact]] * 2 + [never(number) for number in losing]


def cycle(rng, draft):
    """Two or three facts, one of them wanted, each of which a step builds from the one before and the first from the last: for nothing, or now and then
    not. Now and then a step builds one of them from nothing."""
    facts = [draft.fact() for _ in range(rng.choice([2, 2, 3]))]
    draft.want(rng, rng.choice(facts))
    cost = rng.choice([0, 0, 0, 1])
    for at, fact in enumerate(facts):
        draft.step([facts[at - 1]], [fact], cost)
    if rng.random() < 0.4:
        draft.step([], [rng.choice(facts)], rng.randint(1, 3))
    return dead_hints(rng, draft)


def unbuilt(rng, draft):
    """A fact that is wanted and that nothing adds."""
    draft.want(rng, draft.fact())
    return dead_hints(rng, draft)


def obstruct(rng, draft):
    """A fact that is wanted and whose only builder forbids a fact that is true. Now and then a step deletes that one, any or a new one."""
    wanted, true = draft.fact(), draft.fact(true=True)
    draft.want(rng, wanted)
    draft.step([], [wanted], rng.randint(1, 3), forbidden=[true])
    draft.new_form = True
    kind = rng.random()
    if kind < 0.3:
        rng.choice(draft.steps).deleted.add(true)
    elif kind < 0.6:
        draft.step([], [], rng.randint(1, 3), deleted=[true])
    return dead_hints(rng, draft)


def share(rng, draft):
    """A fact that is wanted and that needs two or three others, which one step builds together after another step; a way that costs one more builds it
    at once. So an estimate that counts each needed fact comes to a dearer plan."""
    before, wanted, *together = [draft.fact() for _ in range(rng.choice([4, 5]))]
    draft.want(rng, wanted)
    first, cost, last = rng.randint(0, 1), rng.randint(2, 3), rng.randint(0, 1)
    draft.step([], [before], first)
    draft.step([before], together, cost)
    draft.step(together, [wanted], last)
    draft.step([], [wanted], first + cost + last + 1)
    return dead_hints(rng, draft)


def never(number):
    """The hint that a step is never made."""
    return [0x22, 0x10, 0x04, number]


def dead_hints(rng, draft):
    """A hint that is dead at the start, and two that die with a step."""
    return [[0x00]] + [never(rng.randrange(len(draft.steps))) for _ in range(2)]


def estimated_job(rng):
    """A richer job with one or two of these changes, often with one of their hints, and now and then with one that any step is never made; its own hints
    stay or go."""
    draft, hints = Draft(richer_job(rng)), []
    for change in rng.choices([lose, cycle, unbuilt, obstruct, share], [10, 3, 1, 3, 2], k=rng.choice([1, 1, 1, 2])):
        hints += change(rng, draft)
    kept = draft.hints if rng.random() < 0.4 else []
    kept += [bytes(rng.choice(hints))] * (rng.random() < 0.75)
    kept += [bytes(never(rng.randrange(len(draft.steps))))] * (rng.random() < 0.3)
    draft.hints = kept
    return draft.bytes()


# ---- long chains


def chain_job(rng):
    """Facts each of which is built from the one before, by steps that cost 65,535 or nearly as much; most often the last is the goal. Where there is room
    for more steps, some that cost nothing lead further along, but lose the first fact, which is true at the start, which nothing adds, and which is
    often a part of the goal."""
    count = rng.choice([16, 33, 63, 64, 64])
    start = [0] if rng.random() < 0.5 else []
    steps = [([i - 1] if i else [], [i], [], rng.choice([DEAREST, DEAREST, DEAREST - 1])) for i in range(len(start), count)]
    if rng.random() < 0.3:
        steps.reverse()
    elif count <= 33:
        rng.shuffle(steps)
    for _ in range(rng.randint(0, min(3, 64 - len(steps))) if start else 0):
        at = rng.randrange(count)
        steps.append(([at], [min(count - 1, at + rng.randint(1, 4))], [0], 0))
    goal = [count - 1 if rng.random() < 0.8 else rng.randrange(count)] + start * (rng.random() < 0.7)
    hints = [[0x22, 0x03, 0]] if start and rng.random() < 0.5 else []
    rules = [[0x21, 0x03, rng.randrange(count)]] if rng.random() < 0.3 else []
    forbidden = [] if rng.random() < 0.5 else None
    return pack.job(count, union(start), union(goal), [packed(*step[:3], forbidden, step[3]) for step in steps], rules, hints)
