"""What document 01 and the cards want of a call: the numbers it answers, and every lent byte afterwards."""

from formulas import MOST_BYTES, Refused, read_section
from pairs import slots
from written import positive


def search(refused, answer, table, plan):
    """The ends that are right for a search, as (number, place or cost, steps), table, plan buffer: one, or two where 10 is open too. The first is
    what the rules give with 10 left aside."""
    if refused:
        return [((refused.number, refused.place, 0), table, plan)]
    cleared, steps = bytes(len(table)), bytes(answer.path)
    if answer.number:
        ends = [((answer.number, 0, 0), cleared, plan)]
    elif len(steps) > len(plan):
        ends = [((13, len(steps), 0), cleared, plan)]
    else:
        ends = [((0, answer.key[0], len(steps)), cleared, steps + plan[len(steps):])]
    if answer.reached > slots(table):
        ends.append(((10, 0, 0), cleared, plan))
    return ends


def read_through(refused, job, steps):
    """The numbers that a read-through answers; it writes nothing else."""
    try:
        if refused:
            raise refused
        return (0, *job.read_through(list(steps)))
    except Refused as r:
        return r.number, r.place, 0


def read_rule(facts, steps, rule):
    """The rule to write back, or its refusal."""
    if not (1 <= facts <= 64 and 0 <= steps <= 64):
        raise Refused(1, 0)
    if not 1 <= len(rule) <= MOST_BYTES:
        raise Refused(2, 0)
    return read_section(rule, 0, len(rule), facts, steps)


def write_back(facts, steps, rule, buffer):
    """The numbers that writing back answers, and the buffer afterwards."""
    try:
        written = bytes(positive(read_rule(facts, steps, rule)))
        if len(written) > len(buffer):
            raise Refused(13, len(written))
    except Refused as r:
        return (r.number, r.place, 0), buffer
    return (0, len(written), 0), written + buffer[len(written):]
