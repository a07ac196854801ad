"""Random callers: the list of needed rights that is lent beside a job, and the rights that are held. A step that the caller may not use is barred. And the
jobs that two calls are compared on: one whose barred steps are others, and one without hints."""

import pack
from estimate import NONE, Estimates

EVERY = 255     # all eight rights


# ---- lists and rights


def anyone(rng, count):
    """A caller of so many steps who may use all of them: zeros and no rights, as the program has it, zeros and any rights, or a list within the rights."""
    kind = rng.random()
    if kind < 0.3:
        return bytes(count), 0
    rights = rng.choice([EVERY, rng.randrange(256)])
    return bytes(count) if kind < 0.5 else bytes(rng.randrange(256) & rights for _ in range(count)), rights


def barring(rng, count, barred):
    """A caller of so many steps who may use all but these. What else a step needs is held: nothing, some or all of it, so that a barred step lacks one
    right of several, or all, or some."""
    rights = rng.choice([0, EVERY - (1 << rng.randrange(8)), rng.randrange(EVERY)])
    lacking = [1 << bit for bit in range(8) if not rights >> bit & 1]

    def needed(step):
        found = rng.choice([0, rights, rng.randrange(256) & rights])
        return found | sum(rng.sample(lacking, rng.choice([1, rng.randint(1, len(lacking))]))) if step in barred else found

    return bytes(map(needed, range(count))), rights


def to_bar(rng, job, answer):
    """Steps to bar, at least one: often such that the goal can still be built, as the estimate has it, if one of some tries is so; but where a hint cut off
    every plan often those that build some goal fact, so that 11 becomes 12."""
    wanted, steps = rng.choice(sorted(job.goal - job.start) or [None]), range(len(job.steps))
    building = {s for s in steps if wanted in job.steps[s].added}
    if answer.number == 11 and building and rng.random() < 0.2:
        return building
    found = some_steps(rng, job, answer.path)
    for _ in range(rng.choice([0, 4, 4, 4])):
        if Estimates(job.using([s for s in steps if s not in found])).of(job.start) < NONE:
            break
        found = some_steps(rng, job, answer.path)
    return found


def some_steps(rng, job, plan):
    """At least one step: most often one of the plan of a caller who may use every step, and perhaps others; or any; or one or two that rules and hints name;
    or all; or all but those of the plan; or all but one or two."""
    steps = range(len(job.steps))
    named = {step for formula in rng.choice([job.rules, job.hints, job.hints]) or job.rules for step in formula.steps}
    kind = rng.random()
    if kind < 0.45 and plan:
        found = {rng.choice(plan)} | {s for s in steps if rng.random() < 0.06}
    elif kind < 0.6:
        found = {s for s in steps if rng.random() < 0.25}
    elif kind < 0.88 and named:
        found = set(rng.sample(sorted(named), rng.randint(1, min(2, len(named)))))
    elif kind < 0.91:
        found = set(steps)
    elif kind < 0.96 and plan:
        found = set(steps) - set(plan)
    else:
        found = set(steps) - set(rng.sample(steps, min(len(steps), rng.choice([1, 2]))))
    return found or {rng.choice(steps)}


def of_job(rng, job, answer):
    """A list and rights for an accepted job, which has this answer for a caller who may use every step. In most of the jobs this caller may, too."""
    if not job.steps or rng.random() < 0.64:
        return anyone(rng, len(job.steps))
    return barring(rng, len(job.steps), to_bar(rng, job, answer))


def of_refused(rng, data):
    """A list and rights for a job that is refused: as long as its second byte says, if there is one, or of any length."""
    count = data[1] if len(data) > 1 and rng.random() < 0.3 else rng.choice([0, 1, 2, 3, 8, 64, 65, 300])
    return rng.randbytes(count), rng.randrange(256)


def other_length(rng, count):
    """A list that is not as long as there are steps, and rights. Some lengths are right in their lowest 8 or 16 bits."""
    lengths = [count - 1, count - 1, count + 1, count + 1, 0, 0, 2 * count, 64, 65, 255, 256, count + 256, count + 65536]
    length = rng.choice([n for n in lengths if n >= 0 and n != count])
    return rng.choice([bytes(length), rng.randbytes(length)]), rng.choice([0, EVERY, rng.randrange(256)])


def few_each(rng, count):
    """A list in which each step needs none to three rights."""
    return bytes(sum(1 << bit for bit in rng.sample(range(8), rng.choice([0, 1, 1, 1, 2, 3]))) for _ in range(count))


def growing(rng):
    """Rights of which each has more than the one before, one to three, up to all of them."""
    held = rng.choice([0, 0, rng.randrange(256) & rng.randrange(256)])
    while held != EVERY:
        yield held
        lacking = [1 << bit for bit in range(8) if not held >> bit & 1]
        held |= sum(rng.sample(lacking, min(len(lacking), rng.choice([1, 1, 2, 3]))))
    yield EVERY


# ---- jobs to compare with


def with_other_barred(rng, data, job):
    """The same job in the same form, but with other sets and costs in some or all of the steps that the caller may not use. Any other ones; or such as would
    matter most if they were looked at: the step builds the goal for nothing, or does for less what another step does, or has every set full."""
    data, size, task = bytearray(data), pack.step_bytes(data), pack.pairs_of(data)[0][0]
    all_facts, goal, barred = (1 << data[0]) - 1, pack.number(data, task + 8, 8), job.barred()

    def place(step):
        return task + pack.TASK + size * step

    def other():
        kind = rng.random()
        if kind < 0.35:
            return 0, goal, 0, 0, 0
        if kind < 0.5:
            return (all_facts,) * 4 + (65535,)
        if kind < 0.7:
            at = place(rng.randrange(len(job.steps)))
            like = [pack.number(data, at + 8 * i, 8) for i in range(3)]
            return (*like, 0, pack.number(data, at + size - 2, 2) // 2)
        return tuple(rng.getrandbits(64) & rng.getrandbits(64) & all_facts for _ in range(4)) + (rng.choice([0, 1, 2, 65535, rng.randrange(65536)]),)

    for step in rng.sample(barred, rng.randint(1, len(barred))):
        needed, added, deleted, forbidden, cost = other()
        at = place(step)
        data[at:at + size] = pack.step(needed, added, deleted, cost, forbidden if size == pack.NEW_STEP else None)
    return bytes(data)


def without_hints(data):
    """The same job without its hints."""
    task, rules, _ = pack.sections_of(data)
    return pack.with_formulas(data[:2], task, rules, [])
