"""The bytes of a job, put together from its parts and taken apart again, as document 01 and the cards lay them out."""

import struct

PAIR, TASK = 4, 16              # bytes of a pair, and of start and goal
OLD_STEP, NEW_STEP = 26, 34     # bytes of a step in the old form, and in the new form of card 1, which has a forbidden set

# the longest job: 64 steps in the new form, 8 rules and 8 hints of 128 bytes
MOST_JOB = 4 + 17 * PAIR + TASK + 64 * NEW_STEP + 16 * 128


# ---- put together


def facts(value):
    return value.to_bytes(8, "little")


def step(needed, added, deleted, cost, forbidden=None):
    """A step in the new form, or in the old form if no forbidden set is given."""
    sets = [needed, added, deleted] + ([] if forbidden is None else [forbidden])
    return b"".join(map(facts, sets)) + struct.pack("<H", cost)


def job(count, start, goal, steps, rules=(), hints=()):
    """A job of so many facts; steps, rules and hints are bytes, and all steps have one form."""
    task = facts(start) + facts(goal) + b"".join(steps)
    return with_formulas(bytes([count, len(steps)]), task, rules, hints)


def with_formulas(counts, task, rules, hints):
    sections = [task] + [bytes(f) for f in (*rules, *hints)]
    offset, pairs = 4 + PAIR * len(sections), b""
    for section in sections:
        pairs += struct.pack("<2H", offset, len(section))
        offset += len(section)
    return counts + bytes([len(rules), len(hints)]) + pairs + b"".join(sections)


# ---- taken apart: jobs whose pairs fit their sections


def number(data, at, length):
    return int.from_bytes(data[at:at + length], "little")


def pairs_of(data):
    """Offset and length of each section."""
    return [(number(data, at, 2), number(data, at + 2, 2)) for at in range(4, 4 + PAIR * (1 + data[2] + data[3]), PAIR)]


def sections_of(data):
    """The task section, the rules and the hints."""
    task, *formulas = [data[offset:offset + length] for offset, length in pairs_of(data)]
    return task, formulas[:data[2]], formulas[data[2]:]


def formula_bytes(data):
    """How many bytes the rules and hints have."""
    return sum(length for _, length in pairs_of(data)[1:])


def step_bytes(data):
    """How many bytes a step has, or None in a job without steps, since both forms are then the same."""
    return (pairs_of(data)[0][1] - TASK) // data[1] if data[1] else None


def sets_of(data):
    """Every set of facts in job order, as its name and its offset."""
    task, size = pairs_of(data)[0][0], step_bytes(data)
    found = [("start", task), ("goal", task + 8)]
    for i in range(data[1]):
        at = task + TASK + size * i
        found += zip(("needed", "added", "deleted", "forbidden"), range(at, at + size - 2, 8))
    return found
