"""Checks of the oracle itself on cards 2 and 4: estimates and usable steps are as they were worked out by hand, and of each random job all holds that card 2
says of the estimate and of the answers with and without it, and card 4 of barred steps and of more rights. Each gives what is wrong in words, or None."""

from copy import copy

from estimate import NONE, Estimates
from jobs import Job
from pack import job, step
from pairs import Answer
from remainders import Rule

# job P of document 01; the estimate of scanned is 9 and the dearer of sanded, 5, and lamp, 2
P = [step(0, 1, 0, 5), step(0, 2, 0, 2), step(3, 4, 0, 9)]
# facts 0 and 1 are built from each other for nothing; fact 0 also from fact 2 for 5
CYCLE = [step(1, 2, 0, 0), step(2, 1, 0, 0), step(4, 1, 0, 5)]
# fact 0 is built by either of two steps, the cheaper of which forbids fact 1 and deletes facts 0 and 2
TWO = [step(0, 1, 0, 8, 0), step(0, 1, 5, 3, 2)]

# steps, goal, true facts, estimate; in a set 1 stands for fact 0, 2 for fact 1, 4 for fact 2
EXAMPLES = [
    (P, 4, 0, 14), (P, 4, 1, 11), (P, 4, 2, 14), (P, 4, 3, 9), (P, 4, 4, 0), (P, 0, 0, 0), (P, 7, 4, 5), (P, 3, 2, 5), (P[:2], 4, 3, NONE),
    (CYCLE, 1, 0, NONE), (CYCLE, 3, 0, NONE), (CYCLE, 3, 4, 5), (CYCLE, 3, 2, 0), (CYCLE, 7, 3, NONE),
    (TWO, 1, 2, 3), (TWO, 5, 6, 3), (TWO, 5, 2, NONE),
]


# the same for callers who may use some steps alone: steps, usable ones, goal, true facts, estimate
BARRED_EXAMPLES = [
    (P, [1, 2], 4, 0, NONE), (P, [1, 2], 4, 1, 11), (P, [0, 1], 4, 3, NONE), (P, [2], 4, 3, 9), (P, [], 4, 4, 0), (P, [], 0, 0, 0), (P, [], 1, 0, NONE),
    (CYCLE, [0, 1], 3, 4, NONE), (CYCLE, [0, 2], 3, 4, 5), (TWO, [0], 1, 2, 8), (TWO, [1], 1, 2, 3), (TWO, [], 1, 2, NONE),
]

# needed rights of sand, lamp and pass, rights held, the steps that may be used
RIGHTS_EXAMPLES = [
    ([0, 0, 0], 0, [0, 1, 2]), ([1, 0, 0], 0, [1, 2]), ([1, 0, 0], 254, [1, 2]), ([1, 2, 3], 1, [0]), ([1, 2, 3], 2, [1]), ([1, 2, 3], 3, [0, 1, 2]),
    ([128, 129, 255], 128, [0]), ([128, 129, 255], 129, [0, 1]), ([128, 129, 255], 127, []), ([128, 129, 255], 255, [0, 1, 2]), ([64, 16, 80], 96, [0]),
]


def wrong_example():
    every = [(steps, range(len(steps)), *rest) for steps, *rest in EXAMPLES]
    for steps, usable, goal, true, wanted in every + BARRED_EXAMPLES:
        found = Job(job(3, true, goal, steps)).using(usable)
        got = Estimates(found).of(found.start)
        if got != wanted:
            return f"the estimate at {true} for the goal {goal} by the steps {list(usable)} is {got} and not {wanted}"
    for needs, rights, wanted in RIGHTS_EXAMPLES:
        got = Job(job(3, 0, 4, P)).of_caller(bytes(needs), rights).usable
        if got != wanted:
            return f"by the list {needs} and the rights {rights} the steps {got} may be used and not {wanted}"
    return None


# ---- card 2


def wrong_answer(answer):
    """What card 2 makes of document 01's answer: the pairs that have an estimate stay as they are, and so does the answer, but that 11 becomes 12 where
    only other pairs were cut."""
    before, estimates = answer.before, answer.estimates
    kept = {pair: a for pair, a in before.pairs.items() if estimates.of(pair[0]) != NONE}
    if kept.keys() != answer.pairs.keys():
        return f"{len(kept)} of document 01's {before.reached} pairs have an estimate, and {answer.reached} are reached"
    if any((a.key, a.hints, a.path) != (b.key, b.hints, b.path) for a, b in ((kept[pair], answer.pairs[pair]) for pair in kept)):
        return "a pair has another key, path or hint remainder than by document 01"
    number = 12 if before.number == 11 and not any(a.cut() for a in kept.values()) else before.number
    if (number, before.key, before.path) != (answer.number, answer.key, answer.path):
        return f"it answers {answer.number} by {answer.path}, and document 01 {before.number} by {before.path}"
    return None


def wrong_on_plan(job, answer):
    """The estimate nowhere exceeds what is left of the plan, if there is one."""
    estimates, plan = answer.estimates, answer.path
    for done, (facts, _) in enumerate(job.worlds(plan)[:-1] if answer.number == 0 else []):
        if estimates.of(facts) > job.cost(plan[done:]):
            return f"the estimate is {estimates.of(facts)} after {done} steps of the plan {plan}, and {job.cost(plan[done:])} is left"
    return None


def wrong_on_step(job, answer):
    """Along no step out of a state of document 01's pairs the estimate falls by more than the step's cost, or comes where there was none."""
    estimates = answer.estimates
    for facts in {pair[0] for pair in answer.before.pairs}:
        for number in job.able(facts):
            if estimates.of(facts) > job.steps[number].cost + estimates.of(job.after(number, facts)):
                return f"the estimate falls by more than its cost along step {number} from the facts {sorted(facts)}"
    return None


# ---- card 4


def without_barred(job):
    """The job that has nothing but the usable steps, which keep their order. A step that is left out is never made, so where a formula names it stands
    false. Parts keep their offsets, so that remainders can be compared."""
    number = {step: at for at, step in enumerate(job.usable)}

    def renamed(formula):
        if formula[0] == "step":
            return ("step", number[formula[1]], formula[-1]) if formula[1] in number else ("false", formula[-1])
        return tuple(renamed(part) if isinstance(part, tuple) else part for part in formula)

    other = copy(job)
    other.steps, other.usable = job.usable_steps(), range(len(job.usable))
    other.rules, other.hints = ([Rule(renamed(rule.formula)) for rule in rules] for rules in (job.rules, job.hints))
    return other


def wrong_by_barred(job, answer):
    """Nothing of an answer hangs on barred steps: the job without them has the same pairs and the same answer, but for the numbers of the steps."""
    reduced = without_barred(job)
    other = Answer(reduced, Estimates(reduced))

    def path(arrival):
        return tuple(job.usable[step] for step in arrival.path)

    if answer.pairs.keys() != other.pairs.keys():
        return f"{answer.reached} pairs are reached, and {other.reached} in the job without the barred steps"
    if any((a.key, a.hints, a.path) != (b.key, b.hints, path(b)) for a, b in ((answer.pairs[pair], other.pairs[pair]) for pair in answer.pairs)):
        return "a pair has another key, path or hint remainder than in the job without the barred steps"
    if (answer.number, answer.key, answer.path) != (other.number, other.key, path(other)):
        return f"it answers {answer.number} by {answer.path}, and {other.number} by {path(other)} in the job without the barred steps"
    return None


def wrong_by_more_rights(job, answer):
    """Without hints a caller who may use every step reaches each pair too, by no greater key, and has no dearer plan."""
    more = answer.unbarred
    if job.hints:
        return None
    if not answer.pairs.keys() <= more.pairs.keys():
        return "a pair is not reached with all rights"
    if any(more.pairs[pair].key > a.key for pair, a in answer.pairs.items()):
        return "a pair has a greater key with all rights"
    if answer.number == 0 and (more.number != 0 or more.key[0] > answer.key[0]):
        return f"it answers {answer.number} {answer.key}, and {more.number} {more.key} with all rights"
    return None


def wrong(job, answer):
    """Whatever is wrong with the oracle on a job."""
    found = wrong_answer(answer) or wrong_on_plan(job, answer) or wrong_on_step(job, answer)
    return found or (wrong_by_barred(job, answer) or wrong_by_more_rights(job, answer) if job.barred() else None)
