"""The pairs that a job reaches for its caller, and its answer: document 01's "Pairs and hints", and card 2, by which a pair without an estimate is not
reached. All pairs are visited, by rising key, whatever their estimates.

What happened on the way is noted as events, so that the comparison can tell whether its jobs make the rules matter."""

from estimate import NONE

SLOT = 160          # docs/TABLE.md
MOST_SLOTS = 65536

MERGED = "merge"                        # two steps of the same least key lead to one pair
PATH = "path changed by a merge"        # the later arrival has the earlier path
HINTS = "hints changed by a merge"      # the conjunction is not what was kept
CUT = "cut by a merge"                  # the conjunction is dead, and not each of the arrivals' hint remainders
REPLACED = "key replaced"               # a smaller key arrives at a pair that waits with a larger one
SHORTER = "fewer steps at equal cost"   # it is smaller only because it has fewer steps
LONGER = "more steps at equal cost"     # a key arrives that is larger only because it has more steps, and is left aside


def slots(table):
    return min(len(table) // SLOT, MOST_SLOTS)


class TooMany(Exception):
    """More pairs are reached than the caller wants to wait for."""


class Arrival:
    """By which key, hint remainders and first path a pair is reached; `merged` tells whether a merge gave a step of that path."""

    def __init__(self, key, hints, path, merged=False):
        self.key, self.hints, self.path, self.merged = key, hints, path, merged

    def cut(self):
        return not all(self.hints)


class Exploration:
    """All pairs reached, each with its Arrival, and for each event the least rank at which it happened. Pairs without an estimate are left aside, and
    `aside` tells whether there were any. Without estimates (None) it is the exploration of document 01 before card 2."""

    def __init__(self, job, estimates, most=None):
        self.job, self.estimates, self.aside = job, estimates, False
        self.reached, self.waiting, self.events = {}, {}, {}
        first = (job.start, None)
        start = (job.start, tuple(r.first(first) for r in job.rules))
        if all(start[1]) and not self.without_estimate(job.start):
            self.waiting[start] = Arrival((0, 0), tuple(h.first(first) for h in job.hints), ())
        while self.waiting:
            pair = min(self.waiting, key=lambda p: self.waiting[p].key)
            self.reached[pair] = self.waiting.pop(pair)
            if most is not None and len(self.reached) > most:
                raise TooMany
            if not self.reached[pair].cut():
                self.leave(pair)

    def without_estimate(self, facts):
        """Whether a pair of this state, which document 01 counts as reached, has no estimate; it is then left aside."""
        without = self.estimates is not None and self.estimates.of(facts) == NONE
        self.aside = self.aside or without
        return without

    def leave(self, pair):
        """Every step out of a pair that is not cut: the caller may use it, since by card 4 no other step leads to a pair."""
        job, here = self.job, self.reached[pair]
        for step in job.able(pair[0]):
            facts = job.after(step, pair[0])
            world = (facts, step)
            to = (facts, tuple(r.later(x, world) for r, x in zip(job.rules, pair[1])))
            if not all(to[1]) or to in self.reached or self.without_estimate(facts):
                continue
            key = (here.key[0] + job.steps[step].cost, here.key[1] + 1)
            hints = tuple(h.later(x, world) for h, x in zip(job.hints, here.hints))
            self.arrive(to, Arrival(key, hints, here.path + (step,), here.merged))

    def arrive(self, pair, new):
        """One more arrival at a pair that waits, or that is new."""
        old = self.waiting.get(pair)
        if old is None:
            self.waiting[pair] = new
        elif new.key < old.key:
            self.waiting[pair] = new
            self.note(REPLACED, pair, new)
            if new.key[0] == old.key[0]:
                self.note(SHORTER, pair, new)
        elif new.key == old.key:
            self.waiting[pair] = self.merge(pair, old, new)
        elif new.key[0] == old.key[0]:
            self.note(LONGER, pair, new)

    def merge(self, pair, old, new):
        """Two arrivals of one key: the first path, and the conjunction of the hint remainders."""
        hints = tuple(a & b for a, b in zip(old.hints, new.hints))
        earlier = new.path < old.path
        merged = Arrival(new.key, hints, min(old.path, new.path), earlier or old.merged)
        self.note(MERGED, pair, new)
        if earlier:
            self.note(PATH, pair, new)
        if hints != old.hints:
            self.note(HINTS, pair, new)
        if merged.cut() and not (old.cut() and new.cut()):
            self.note(CUT, pair, new)
        return merged

    def note(self, event, pair, new):
        at = rank(self.estimates, pair, new)
        self.events[event] = min(at, self.events.get(event, at))


def rank(estimates, pair, arrival):
    """By what the search takes pairs: cost plus estimate, then steps."""
    cost, steps = arrival.key
    return cost + (estimates.of(pair[0]) if estimates else 0), steps


def is_goal(job, pair):
    return job.goal <= pair[0] and all(r.at_close(x, pair[0]) for r, x in zip(job.rules, pair[1]))


class Answer:
    """What the rules give with 10 left aside: the number 0 with key and path, or 11 or 12. Without estimates (None) it is document 01's.

    pairs    the pairs reached, each with its Arrival
    reached  how many they are
    aside    whether pairs without an estimate were left aside
    needed   how many of the pairs come before the answer, or all if there is none: they must be taken to know that there is no better one
    events   what happened at ranks up to the answer's
    merged   whether a merge gave a step of the path"""

    def __init__(self, job, estimates, most=None):
        explored = Exploration(job, estimates, most)
        self.estimates, self.pairs, self.aside = estimates, explored.reached, explored.aside
        goals = [(a.key, a.path, a.merged) for pair, a in self.pairs.items() if not a.cut() and is_goal(job, pair)]
        self.reached = len(self.pairs)
        if goals:
            self.number = 0
            self.key, self.path, self.merged = min(goals)
            self.needed = sum(rank(estimates, pair, a) < self.key for pair, a in self.pairs.items())
        else:
            self.number = 11 if any(a.cut() for a in self.pairs.values()) else 12
            self.key, self.path, self.merged = None, (), False
            self.needed = self.reached
        self.events = {e for e, at in explored.events.items() if goals == [] or at <= self.key}
