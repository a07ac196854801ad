"""Random bytes to call the planner with: formulas, small jobs, damaged jobs, step lists, and rules to write back. Larger jobs are in richer.py."""

import pack

LEAVES = [[0x00], [0x01], [0x02]]


# ---- formulas


def formula(rng, facts, steps, depth):
    """A formula of any shape, with at most so many operators in each other."""
    if depth == 0 or rng.random() < 0.25:
        choice = rng.random()
        if choice < 0.45 or (choice < 0.9 and not steps):
            return [0x03, rng.randrange(facts)]
        if choice < 0.9:
            return [0x04, rng.randrange(steps)]
        return rng.choice(LEAVES)
    code = rng.choice([0x10, 0x11, 0x12, 0x20, 0x21, 0x22, 0x23, 0x24])
    arity = 2 if code in (0x11, 0x12, 0x23, 0x24) else 1
    return [code] + [b for _ in range(arity) for b in formula(rng, facts, steps, depth - 1)]


def atoms(rng, facts, steps):
    """A function that gives a fact or step of these numbers."""
    def atom():
        return [0x04, rng.choice(steps)] if steps and rng.random() < 0.5 else [0x03, rng.choice(facts)]
    return atom


def sized(rng, atom, length, parts):
    """A formula of exactly this length with at most so many carried parts; `atom` gives its facts and steps."""
    if length == 1:
        return rng.choice(LEAVES)
    if length == 2 and rng.random() < 0.9:
        return atom()
    temporal = parts > 0 and rng.random() < 0.6
    if length > 2 and rng.random() < 0.8:
        code = rng.choice([0x23, 0x24] if temporal else [0x11, 0x12])
        # a short operand on one side makes deep formulas, which are as likely as broad ones
        left = rng.choice([rng.randint(1, length - 2), rng.randint(1, min(3, length - 2))])
        inner = parts - temporal
        given = rng.randint(0, inner)
        return [code] + sized(rng, atom, left, given) + sized(rng, atom, length - 1 - left, inner - given)
    return [rng.choice([0x20, 0x21, 0x22]) if temporal else 0x10] + sized(rng, atom, length - 1, parts - temporal)


# ---- small jobs


def small_job(rng):
    """At most 3 facts and 4 steps of either form, and formulas of any shape, most of which settle at once."""
    facts, steps = rng.randint(1, 3), rng.choice([0, 0, 1, 2, 2, 3, 3, 4])
    long = rng.random() < 0.1
    few = lambda: rng.choice([0, 0, 0, 1, 1, 2])
    subset = lambda p: sum(1 << i for i in range(facts) if rng.random() < p)
    atom = atoms(rng, range(facts), range(steps))
    any_formula = lambda: sized(rng, atom, rng.randint(16, 128), 4) if long else formula(rng, facts, steps, rng.randint(0, 3))
    new_form = rng.random() < 0.5
    forbidden = lambda: subset(0.2) if new_form else None
    step = lambda: pack.step(subset(0.3), subset(0.4), subset(0.3), rng.choice([0, 0, 1, 1, 2, 3, 65535]), forbidden())
    return pack.job(facts, subset(0.3), subset(0.4), [step() for _ in range(steps)],
                    [any_formula() for _ in range(few())], [any_formula() for _ in range(few())])


# ---- jobs changed, most often so that they are refused


def many_parts(rng, data):
    """A whole job with one more rule or hint of many carried parts, now and then after or before one with a wrong byte: which is refused first?"""
    task, rules, hints = pack.sections_of(data)
    some = rng.choice([rules, hints])
    some[7:] = []
    some.insert(rng.randint(0, len(some)), bytes([rng.choice([0x20, 0x21, 0x22]) for _ in range(rng.randint(6, 11))] + [0x03, 0]))
    if rng.random() < 0.3:
        some = rng.choice([f for f in (rules, hints) if f])
        at = rng.randrange(len(some))
        some[at] = some[at][:-1] + b"\x05"
    return pack.with_formulas(data[:2], task, rules, hints)


def damaged(rng, data):
    """The bytes cut off, with more after them, or with a wrong byte or two."""
    data = bytearray(data)
    for _ in range(rng.randint(1, 2)):
        kind = rng.random()
        if kind < 0.15:
            del data[rng.randrange(len(data) + 1):]
        elif kind < 0.25:
            data += rng.randbytes(rng.randint(1, 3))
        elif data:
            # most often in the head and the pairs, or in the formulas at the end
            front, back = min(rng.choice([4, 24, 24]), len(data)), min(12, len(data))
            at = rng.choice([rng.randrange(len(data)), rng.randrange(front), len(data) - 1 - rng.randrange(back)])
            data[at] = rng.choice([0, 1, 2, 3, 4, 0x10, 0x11, 0x20, 0x21, 0x23, 65, 255, rng.randrange(256)])
    return bytes(data)


def other_length(rng, data):
    """A whole job whose task does not have the length of either form, though all pairs fit: it is cut off or made longer, to a length near those of the
    two forms or between them, or it stays as it is and the number of steps changes. (Seldom the other number of steps fits the other form.)"""
    task, rules, hints = pack.sections_of(data)
    steps = data[1]
    old, new = pack.TASK + pack.OLD_STEP * steps, pack.TASK + pack.NEW_STEP * steps
    if rng.random() < 0.3:
        steps = rng.choice([n for n in range(65) if n != steps])
    else:
        near = [old - 1, old + 1, old + 8, old + pack.OLD_STEP, (old + new) // 2, new - 8, new - 1, new + 1, new + pack.NEW_STEP]
        length = rng.choice([n for n in near if n not in (old, new)])
        task = task[:length].ljust(length, b"\0")
    return pack.with_formulas(bytes([data[0], steps]), task, rules, hints)


def high_bits(rng, data):
    """A whole job with a bit V or above in one of its sets of facts, and often in the next one, too, or in any other; with 64 facts there is none. Each
    kind of set is as likely, but a forbidden set, which half of the jobs do not have, three times as likely."""
    found, count, sets = bytearray(data), data[0], pack.sets_of(data)
    if count == 64:
        return data
    kinds = sorted({name for name, _ in sets})
    kind = rng.choice(kinds + ["forbidden"] * 2 if "forbidden" in kinds else kinds)
    one = rng.choice([i for i, (name, _) in enumerate(sets) if name == kind])
    other = rng.choice([one, one, (one + 1) % len(sets), rng.randrange(len(sets))])
    for i in {one, other}:
        offset, bit = sets[i][1], rng.choice([count, count, rng.randrange(count, 64), 63])
        found[offset + bit // 8] |= 1 << bit % 8
    return bytes(found)


# ---- step lists


def walk(rng, job, count, new=False):
    """So many applicable steps at random that the caller may use, or as many as there are; if wished, only such as lead to facts that were not met before."""
    steps, facts, met = [], job.start, {job.start}
    for _ in range(count):
        able = [s for s in job.able(facts) if not (new and job.after(s, facts) in met)]
        if not able:
            break
        steps.append(rng.choice(able))
        facts = job.after(steps[-1], facts)
        met.add(facts)
    return bytes(steps)


def walk_to_goal(rng, job, count, least):
    """A walk of so many steps, cut off at a moment at which the goal facts are true if there is one after at least so many steps."""
    steps = walk(rng, job, count)
    worlds = job.worlds(steps)
    ends = [i for i in range(least, len(steps) + 1) if job.goal <= worlds[i][0]]
    return steps[:rng.choice(ends)] if ends else steps


# ---- rules to write back

OUT_OF_RANGE = [65, 66, 255, 256, (1 << 32) + 3, (1 << 64) - 1]


def rule_to_write(rng):
    """Numbers of facts and steps, and the bytes of a rule."""
    facts, steps = rng.choice([1, 2, 3, 8, 64]), rng.choice([0, 1, 3, 8, 64])
    atom = atoms(rng, range(facts), range(steps))
    kind = rng.random()
    if kind < 0.35:
        rule = bytes(formula(rng, facts, steps, rng.randint(0, 5)))
    elif kind < 0.75:
        rule = bytes(sized(rng, atom, rng.choice([1, 2, 3, 8, 40, 100, 127, 128, rng.randint(1, 128)]), rng.randint(0, 6)))
    elif kind < 0.8:
        # not before a long rule makes the written rule longer than the rule
        rule = bytes([0x10] + sized(rng, atom, 127, rng.randint(0, 6)))
    elif kind < 0.85:
        rule = bytes([0x10] * rng.randint(1, 127) + rng.choice(LEAVES))
    elif kind < 0.95:
        rule = bytes([rng.choice([0x20, 0x21, 0x22]) for _ in range(rng.randint(4, 8))] + sized(rng, atom, rng.randint(2, 119), 4))
    else:
        rule = bytes(sized(rng, atom, rng.choice([129, 130, 256, 300]), 6)) if rng.random() < 0.6 else b""
    if rng.random() < 0.15:
        rule = damaged(rng, rule)
    if rng.random() < 0.06:
        facts = rng.choice([0] + OUT_OF_RANGE)
    if rng.random() < 0.06:
        steps = rng.choice(OUT_OF_RANGE)
    return facts, steps, rule
