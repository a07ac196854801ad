"""What is to be seen in a random job, a refused or an accepted one, and in its read-throughs. The tally counts these events."""

from copy import copy

import pack
from estimate import NONE, Estimates, fact_costs
from formulas import CODE, MOST_BYTES, MOST_PARTS, within
from jobs import Job, held
from pairs import Answer, TooMany


def of_refused(data, refused, needs):
    """Events of a job that is refused, whatever the list of needed rights. A high bit is bit V or one above it."""
    found = {
        f"{refused.number} and a list of another length": len(data) > 1 and len(needs) != data[1],
        "place over 255": refused.place > 255,
        "task of another length": (refused.number, refused.place) == (2, 0) and adjoining(data),
    }
    if refused.number == 3:
        sets = pack.sets_of(data)
        high = [pack.number(data, offset, 8) >> data[0] for _, offset in sets]
        first = [offset for _, offset in sets].index(refused.place)
        found[f"high bit in {sets[first][0]}"] = True
        found["high bit in the next set, too"] = any(high[first + 1:first + 2])
        found["high bit in a later set, too"] = any(high[first + 2:])
        found["no high bit but V"] = high[first] == 1
    return found


def adjoining(data):
    """Whether the pairs of a job with a right head are whole and fit the bytes, whatever the sections' lengths: each section begins where the one
    before ended, and the last ends with the job."""
    expected = 4 + pack.PAIR * (1 + data[2] + data[3])
    if len(data) < expected:
        return False
    for offset, length in pack.pairs_of(data):
        if offset != expected:
            return False
        expected += length
    return expected == len(data)


def of_accepted(data, job, answer):
    """Events of a job that is accepted, and of its answer."""
    formulas, steps = job.rules + job.hints, pack.step_bytes(data)
    lengths = [length for _, length in pack.pairs_of(data)[1:]]
    return {
        "over 2 pairs": answer.reached > 2,
        "plan through a merge": answer.merged,
        "plan of 4 steps or more": len(answer.path) >= 4,
        "64 facts": data[0] == 64,
        "64 steps": data[1] == 64,
        "8 rules and 8 hints": data[2] == data[3] == 8,
        "rule of 128 bytes": MOST_BYTES in lengths,
        "the most bytes": len(data) == pack.MOST_JOB,
        "offset over 255": job.offsets[-1] > 255,
        "rule of 5 parts": any(len(r.parts) == MOST_PARTS - 1 for r in formulas),
        "rule of 6 parts": any(len(r.parts) == MOST_PARTS for r in formulas),
        "no steps": steps is None,
        "steps in the old form": steps == pack.OLD_STEP,
        "steps in the new form": steps == pack.NEW_STEP,
        "17 old steps or 13 new ones": data[1] and data[1] % (17 if steps == pack.OLD_STEP else 13) == 0,
        "an empty forbidden set": steps == pack.NEW_STEP and not all(s.forbidden for s in job.steps),
        "a fact needed and forbidden": any(s.needed & s.forbidden for s in job.steps),
    }


def of_fact_codes(data, job, answer, most):
    """Events of the fact codes in a job's rules and hints. That each of them counts is seen from the answers of planners that take the truth of a fact code
    for that of the one before it in its formula, or a step code for a fact code."""
    formulas = [sorted(within(r.formula), key=lambda f: f[-1]) for r in job.rules + job.hints]
    codes = {kind: [[f[-1] for f in found if f[0] == kind] for found in formulas] for kind in ("fact", "step")}
    one_off = [{at + 1: data[after + 1] for at, after in zip(places, places[1:] + places[:1])} for places in codes["fact"]]
    as_fact = {at: CODE["fact"] for places in codes["step"] for at in places if data[at + 1] < data[0]}
    return {
        "rule of 20 fact codes": any(len(places) >= 20 for places in codes["fact"]),
        "rule of 30 fact codes": any(len(places) >= 30 for places in codes["fact"]),
        "a fact at two places of a rule": any(len(places) > len({data[at + 1] for at in places}) for places in codes["fact"]),
        "a number that is a code": any(data[at + 1] in CODE.values() for kind in codes for places in codes[kind] for at in places),
        "truths one place off decide": decides(data, job, one_off, answer, most),
        "truths one place off decide, 15 fact codes": decides(data, job, [changed for changed in one_off if len(changed) >= 15], answer, most),
        "a step read as a fact decides": decides(data, job, [as_fact], answer, most),
    }


def decides(data, job, changes, answer, most):
    """Whether other bytes in the formulas give another answer. A change is the bytes at some offsets."""
    changed = bytearray(data)
    for change in changes:
        for at, byte in change.items():
            changed[at] = byte
    if changed == data:
        return False
    # the estimates do not look at formulas, so that they are the same
    return other_answer(Job(bytes(changed)).using(job.usable), answer.estimates, answer, most)


def different(answer, other):
    return any(getattr(answer, part) != getattr(other, part) for part in ("number", "key", "path", "reached"))


def other_answer(job, estimates, answer, most):
    """Whether a job with these estimates has another answer than this one; more pairs than `most` are a difference, too."""
    try:
        return different(answer, Answer(job, estimates, most))
    except TooMany:
        return True


def of_forbidden(job, answer, most):
    """Events that show that a job's forbidden sets matter: how its answer differs from the one with these sets empty. More pairs than `most` that are
    then reached are a difference, too."""
    if not any(s.forbidden for s in job.steps):
        return {}
    try:
        # the estimates overlook forbidden facts, so that they are the same
        other = Answer(job.forbidding_nothing(), answer.estimates, most)
    except TooMany:
        return {"forbidden facts decide": True}
    planned = answer.number == other.number == 0
    return {
        "forbidden facts decide": different(answer, other),
        "another plan by forbidden facts": planned and answer.path != other.path,
        "a dearer plan by forbidden facts": planned and answer.key[0] > other.key[0],
        "no plan by forbidden facts": other.number == 0 and answer.number != 0,
    }


def of_estimates(job, answer, most):
    """Events that show that the estimates matter: how the answer differs from the one of document 01, and from those that a planner would give which took
    other estimates."""
    before, first = answer.before, answer.estimates.of(job.start)
    without = {pair: a for pair, a in before.pairs.items() if answer.estimates.of(pair[0]) == NONE}
    changed = (before.number, answer.number) == (11, 12)
    return {
        "no goal": not job.goal,
        "an estimate over 65,535": 65535 < first < NONE,
        "an estimate over 2,000,000": 2000000 < first < NONE,
        "a pair without an estimate": without,
        "a start without an estimate": without and first == NONE,
        "a start with an estimate, a later pair without": without and first < NONE,
        "a plan beside pairs without an estimate": without and answer.number == 0,
        "11 that becomes 12": changed,
        "11 that becomes 12, the start with an estimate": changed and first < NONE,
        "11 that stays beside a cut pair without an estimate": answer.number == 11 and any(a.cut() for a in without.values()),
        "no estimate because of a free cycle": any(free_cycle(job, facts) for facts in {pair[0] for pair in without}),
        **of_overlooked(job, answer, most),
    }


def free_cycle(job, facts):
    """Whether a state without an estimate had one if facts counted as built that steps of cost 0 would build from each other alone: the most facts
    each of which such a step adds that needs only some of them and what can be built."""
    steps = job.usable_steps()
    if all(step.cost or not step.needed for step in steps):
        return False
    built = fact_costs(steps, facts).keys()
    free, kept = None, {f for step in steps for f in step.added} - built
    while kept != free:
        free = kept
        kept = {f for f in free if any(f in s.added and s.cost == 0 and s.needed <= free | built for s in steps)}
    return job.goal <= fact_costs(steps, facts | free).keys()


class Heeding(Estimates):
    """The estimates of a planner that does not overlook forbidden facts: a step builds nothing where it forbids a true fact."""

    def building(self, facts):
        return [step for step in self.steps if not step.forbidden & facts]


def of_overlooked(job, answer, most):
    """Events that show that forbidden facts are overlooked, at the pairs of the plan, at those that are cut, or at the start."""
    if not answer.reached or not any(step.forbidden for step in job.steps):
        return {}
    heeding, cut = Heeding(job), {pair[0] for pair, a in answer.pairs.items() if a.cut()}
    if not any(heeding.of(facts) == NONE for facts in cut.union(facts for facts, _ in job.worlds(answer.path))):
        return {}
    try:
        other = Answer(job, heeding, most).number
    except TooMany:
        other = None
    return {
        "an estimate by overlooking forbidden facts": True,
        "a plan by overlooking forbidden facts": answer.number == 0 and other in (11, 12),
        "11 by overlooking forbidden facts": answer.number == 11 and other == 12,
    }


def of_rights(job, needs, rights, answer, most):
    """Events that show that barred steps matter: how the answer differs from that of a caller who may use every step, and from those of planners that leave
    out formulas which name a barred step, count barred steps in the estimate, are content with one right of several, or take needs for rights."""
    barred, unbarred = set(job.barred()), answer.unbarred
    if not barred:
        return {}
    rules, hints = copy(job), copy(job)
    rules.rules, hints.hints = [[f for f in formulas if not f.steps & barred] for formulas in (job.rules, job.hints)]
    counting = Estimates(job.using(range(len(needs))))
    one = job.using([s for s, needed in enumerate(needs) if needed & rights or not needed])
    exchanged = job.using([s for s, needed in enumerate(needs) if held(rights, needed)])
    try:
        counted = Answer(job, counting, most)
    except TooMany:
        counted = None
    planned = answer.number == unbarred.number == 0
    return {
        "a barred step": True,
        "every step barred": not job.usable,
        "barred steps decide the answer": different(answer, unbarred),
        "another plan by rights": planned and answer.path != unbarred.path,
        "a dearer plan by rights": planned and answer.key[0] > unbarred.key[0],
        "no plan by rights": unbarred.number == 0 and answer.number != 0,
        "a rule names a barred step and that decides": other_answer(rules, answer.estimates, answer, most),
        "a hint names a barred step and that decides": other_answer(hints, answer.estimates, answer, most),
        "a start without an estimate by rights": answer.estimates.of(job.start) == NONE > counting.of(job.start),
        "a barred step in the estimate decides": counted is None or different(answer, counted),
        "12 by rights in the estimate": counted and (counted.number, answer.number) == (11, 12),
        "one right of several decides": other_answer(one, Estimates(one), answer, most),
        "rights and needs exchanged decide": other_answer(exchanged, Estimates(exchanged), answer, most),
    }


# ---- read-throughs


def refused_by_forbidden(job, numbers, steps):
    """Whether a read-through was refused with 7 though all facts that the step needs are true."""
    number, place, _ = numbers
    return number == 7 and job.steps[steps[place]].needed <= job.worlds(steps[:place])[-1][0]


def of_list_by_rights(job, numbers, steps):
    """Events of a read-through whose caller may not use every step."""
    number, place, _ = numbers
    if not job.barred():
        return {}
    unbarred, later = job.using(range(len(job.steps))), steps[place + 1:]
    return {
        "15 where 7 would have come": number == 15 and not job.applicable(steps[place], job.worlds(steps[:place])[-1][0]),
        "15 in a list that others may use": number == 15 and unbarred.allowed(list(steps)),
        "15 after the first step": number == 15 and place > 0,
        "15 before a later 6": number == 15 and any(step >= len(job.steps) for step in later),
        "6 for a caller with a barred step": number == 6,
        "6 before a later 15": number == 6 and any(step in job.barred() for step in later),
        "7 before a later 15": number == 7 and any(step in job.barred() for step in later),
        "passed for a caller with a barred step": number == 0 and steps,
    }
