"""Random jobs that make a search work: several facts, sparse needs, costs that tie, rules and hints that can be met, and in about half of them steps
in the new form, with forbidden facts that come true on the way. Now and then a job is as large as document 01 and the cards allow in some way."""

import struct

import pack
from formulas import MOST_BYTES, read_section
from generate import atoms, sized, walk
from jobs import Job
from pairs import Answer
from truth import meets


# ---- rules and hints that can be met


def shape(rng, atom):
    """A formula of one or two carried parts that some step list is likely to meet."""
    x, y = atom(), atom()
    return rng.choice([
        [0x21, *x],                                             # eventually x
        [0x23, 0x10, *x, *y],                                   # not x until y
        [0x22, 0x12, 0x10, *x, 0x21, *y],                       # always: x implies eventually y
        [0x22, 0x10, *x],                                       # never x
        [0x24, *y, 0x10, *x],                                   # y releases not x
        [0x21, 0x11, *x, 0x20, 0x21, *y],                       # x, and later y
        [0x12, 0x22, 0x10, *x, 0x21, *y],                       # never x, or eventually y
        [0x22, 0x12, 0x10, *x, 0x20, 0x23, 0x10, *x, *y],       # after x, no x until y
        [0x21, 0x11, 0x02, *x] if x[0] == 0x03 else [0x22, 0x12, 0x02, 0x12, 0x10, *x, 0x20, 0x10, *x],   # x at the end; x never twice running
    ])


def shapes(rng, atom):
    """One shape, or two or three in a conjunction or disjunction, which have up to six carried parts."""
    found = shape(rng, atom)
    for _ in range(rng.choice([0, 0, 0, 0, 1, 1, 2])):
        found = [rng.choice([0x11, 0x11, 0x12]), *found, *shape(rng, atom)]
    return found


def lengthened(rng, atom, length):
    """A shape made exactly this long by a formula that decides nothing, or that only allows more."""
    found = shape(rng, atom)
    rest = length - len(found)
    if rng.random() < 0.3:
        return [0x12, *found, *sized(rng, atom, rest - 1, 4)]
    idle = sized(rng, atom, rest - 3, 4)
    return rng.choice([[0x11, *found, 0x12, 0x01, *idle], [0x12, *found, 0x11, 0x00, *idle], [0x12, 0x11, *idle, 0x00, *found]])


def joined(rng, code, operands):
    """The operands under codes of one operator of two operands: all codes stand first, or each before its first operand."""
    if rng.random() < 0.5:
        return [code] * (len(operands) - 1) + [b for x in operands for b in x]
    return [b for x in operands[:-1] for b in (code, *x)] + operands[-1]


def on_states(rng, facts, states):
    """Never one of these states, or eventually one: as many of them as there is room for, each by the truth of every fact, in any order."""
    def named(state):
        return joined(rng, 0x11, [[0x03, f] if f in state else [0x10, 0x03, f] for f in rng.sample(range(facts), facts)])
    found = []
    for operand in map(named, states):
        if 2 + sum(map(len, found)) + len(operand) + len(found) <= MOST_BYTES:
            found.append(operand)
    return rng.choice([[0x22, 0x10], [0x22, 0x10], [0x21]]) + joined(rng, 0x12, found)


# ---- steps


def union(facts):
    return sum(1 << f for f in set(facts))


def packed(needed, added, deleted, forbidden, cost):
    """A step of these facts; in the old form if forbidden is None."""
    return pack.step(union(needed), union(added), union(deleted), cost, None if forbidden is None else union(forbidden))


def random_step(rng, active, number, chained, new_form):
    """Needed, added, deleted and forbidden facts of a step: it adds one or two of the active facts, most often the one whose turn it is. A chained
    step needs the fact before that one. It may delete what it adds."""
    at = number % len(active) if rng.random() < 0.7 else rng.randrange(len(active))
    added = [active[at]] + ([rng.choice(active)] if rng.random() < 0.1 else [])
    needed = [active[at - 1]] if chained and at else []
    needed += [f for f in active if f not in added and rng.random() < 0.06]
    deleted = [f for f in active if rng.random() < 0.1]
    return needed, added, deleted, forbidden_facts(rng, active, needed, added) if new_form else None


def forbidden_facts(rng, active, needed, added):
    """Active facts that a step forbids: some that other steps add; now and then what it adds itself, so that it is made once; seldom a fact that it
    needs, so that it is never made."""
    found = [f for f in active if f not in needed + added and rng.random() < 0.12]
    if rng.random() < 0.15:
        found += added
    if needed and rng.random() < 0.05:
        found.append(rng.choice(needed))
    return found


# ---- jobs


def completed(rng, facts, start, steps, make, rules, hints):
    """The job of these steps, whose goal a random walk reaches, with so many rules and hints, most of which that walk meets."""
    plain = Job(pack.job(facts, start, 0, steps))
    worlds = plain.worlds(walk(rng, plain, rng.choice([3, 4, 5, 6, 8, 12]), new=True))
    gained = sorted(worlds[-1][0] - plain.start)
    goal = rng.sample(gained, rng.choice([len(gained), len(gained), rng.randint(0, len(gained))])) if rng.random() < 0.9 else [rng.randrange(facts)]

    def formula(likely):
        wished = rng.random() < likely
        for _ in range(20):
            found = bytes(make())
            if not wished or meets(worlds, read_section(found, 0, len(found), facts, len(steps))):
                break
        return found

    return pack.job(facts, start, union(goal), steps, [formula(0.9) for _ in range(rules)], [formula(0.6) for _ in range(hints)])


def obstructed(rng, data):
    """A job whose steps have the new form, with one more forbidden fact, so that its plan is allowed no longer: a fact that is true before a step of
    the plan and that this step does not need. If one of three such facts leaves another plan, then it is that one. (Plans are the same with estimates and
    without.)"""
    job = Job(data)
    plan = Answer(job, None).path
    worlds, found = job.worlds(plan), data
    facts = [(step, fact) for i, step in enumerate(plan) for fact in sorted(worlds[i][0] - job.steps[step].needed)]
    for step, fact in rng.sample(facts, min(3, len(facts))):
        at = [offset for name, offset in pack.sets_of(data) if name == "forbidden"][step]
        found = data[:at] + pack.facts(pack.number(data, at, 8) | 1 << fact) + data[at + 8:]
        if Answer(Job(found), None).number == 0:
            break
    return found


def richer_job(rng):
    """3 to 6 facts and 3 to 7 steps, costs 0 to 3, up to 3 rules and 3 hints of shapes."""
    active, count = range(rng.choice([3, 4, 5, 5, 6, 6])), rng.choice([3, 4, 5, 6, 6, 7, 7])
    chained, new_form = rng.random() < 0.3, rng.random() < 0.5
    start = union(f for f in active if rng.random() < 0.1)
    # steps that cost nothing make keys that differ in their number of steps alone; without them lists of few steps decide, even with hints
    costs = rng.choice([[0, 1, 2, 3], [1, 2, 3], [0, 1], [0, 1]])
    steps = [packed(*random_step(rng, active, i, chained, new_form), rng.choice(costs)) for i in range(count)]
    atom = atoms(rng, active, range(count))
    few = lambda: rng.choice([0, 0, 1, 1, 2, 3])
    data = completed(rng, len(active), start, steps, lambda: shapes(rng, atom), few(), few())
    for _ in range(rng.choice([0, 1, 1, 2]) if new_form else 0):
        data = obstructed(rng, data)
    return data


def wide_job(rng):
    """7 facts, each added by a step that needs nothing, so that about 128 pairs are reached; most often all facts are the goal. Forbidden facts ask
    for an order of the steps, so that few pairs are lost."""
    new_form = rng.random() < 0.5
    forbidden = lambda: [f for f in range(7) if rng.random() < 0.1] if new_form else None
    steps = [packed([], [i], [], forbidden(), rng.randint(0, 3)) for i in range(7)]
    steps += [packed(*random_step(rng, range(7), i, True, new_form), rng.randint(1, 3)) for i in range(rng.randint(0, 2))]
    rng.shuffle(steps)
    atom = atoms(rng, range(7), range(len(steps)))
    formulas = lambda: [shape(rng, atom) for _ in range(rng.choice([0, 0, 1]))]
    return pack.job(7, 0, rng.choice([127, 127, 63]), steps, formulas(), formulas())


def dense_job(rng):
    """3 to 8 facts, and as many steps or one or two more. Each rule or hint says of some states that are met on the way that they never come, or that one of
    them does, and names every fact for each."""
    active = range(rng.randint(3, 8))
    new_form = rng.random() < 0.5
    steps = [packed(*random_step(rng, active, i, False, new_form), rng.randint(0, 3)) for i in range(len(active) + rng.randint(0, 2))]
    plain = Job(pack.job(len(active), 0, 0, steps))
    met = sorted({tuple(sorted(facts)) for _ in range(4) for facts, _ in plain.worlds(walk(rng, plain, 6, new=True))})
    few = lambda: rng.choice([0, 1, 1, 2])
    formula = lambda: on_states(rng, len(active), rng.sample(met, min(len(met), rng.randint(1, 5))))
    return completed(rng, len(active), 0, steps, formula, 1 + few(), few())


def large_job(rng):
    """As large as can be in some way (facts, steps, formulas, the length of a formula), or in all, yet with few facts that change."""
    largest = rng.random() < 0.25
    facts = 64 if largest or rng.random() < 0.6 else rng.randint(7, 63)
    count = 64 if largest or rng.random() < 0.6 else rng.randint(8, 63)
    many = largest or rng.random() < 0.5
    active = sorted({facts - 1, *rng.sample(range(facts), rng.randint(2, 3) if many else rng.randint(4, 6))})
    still = [f for f in range(facts) if f not in active]
    true, untrue = still[::2], still[1::2]
    # only the new form has the most bytes
    new_form = largest or rng.random() < 0.5
    steps = []
    for i in range(count):
        needed, added, deleted, forbidden = random_step(rng, active, i, False, new_form)
        needed += rng.sample(true, rng.randint(0, min(2, len(true))))
        # a step that can never be taken, or one that deletes what is not true
        if untrue and rng.random() < 0.4:
            rng.choice([needed, deleted]).append(rng.choice(untrue))
        # a step that forbids what is never true, or, seldom, what always is
        if new_form and rng.random() < 0.4:
            forbidden += rng.sample(true if rng.random() < 0.1 else untrue, min(1, len(untrue)))
        steps.append(packed(needed, added, deleted, forbidden, rng.choice([0, 1, 1, 2, 2, 3, 3, 255, 256, 65535])))
    # numbers that are also codes, facts that never change, and steps of every number
    named = active * 4 + rng.sample(still, min(4, len(still))) + [f for f in (3, 4, 0x10, 0x12, 0x20, 0x23) if f < facts]
    atom = atoms(rng, named, range(count))
    long = rng.random() < 0.6

    def formula():
        if largest or long and rng.random() < 0.7:
            return lengthened(rng, atom, 128 if largest or rng.random() < 0.7 else rng.randint(60, 127))
        return shapes(rng, atom)

    few = lambda: 8 if many else rng.randint(0, 2)
    return completed(rng, facts, union(true + [f for f in active if rng.random() < 0.1]), steps, formula, few(), few())


def either_form_job(rng):
    """Steps in 442 bytes, or two or three times as many: as long as 17 steps in the old form and as 13 in the new one, so that only their number tells
    the form. Most words of 16 bits are 0, and the others have one or two bits, so that the steps make sense in both forms."""
    words = [rng.choice([1, 32, 33]) if rng.random() < 0.12 else 0 for _ in range(221 * rng.choice([1, 1, 2, 3]))]
    data, size = struct.pack(f"<{len(words)}H", *words), rng.choice([pack.OLD_STEP, pack.NEW_STEP])
    steps = [data[at:at + size] for at in range(0, len(data), size)]
    active = [word + bit for word in (0, 16, 32, 48) for bit in (0, 5)]
    atom = atoms(rng, active, range(len(steps)))
    few = lambda: rng.choice([0, 0, 1])
    return completed(rng, 64, union(f for f in active if rng.random() < 0.4), steps, lambda: shape(rng, atom), few(), few())
