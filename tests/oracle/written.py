"""How document 01 writes a rule back: with not only before fact, step or last, and no other change."""

from formulas import CODE, read_formula, within
from truth import meets

DUAL = {"and": "or", "or": "and", "until": "release", "release": "until", "eventually": "always", "always": "eventually", "true": "false",
        "false": "true"}


def positive(rule, negated=False):
    """The bytes of a rule, or of its negation, written back."""
    kind, rest = rule[0], rule[1:-1]
    if kind == "not":
        return positive(rest[0], not negated)
    if kind in ("last", "fact", "step"):
        return [CODE["not"]] * negated + [CODE[kind], *rest]
    if kind == "next":
        # not next x becomes last or next not x
        return [CODE["or"], CODE["last"]] * negated + [CODE["next"], *positive(rest[0], negated)]
    return [CODE[DUAL[kind] if negated else kind]] + [b for x in rest for b in positive(x, negated)]


def check_written(rng, rule, facts, steps):
    """Judges `positive` itself: what it writes has not only before fact, step or last, and means the same in random worlds."""
    data = bytes(positive(rule))
    written, after = read_formula(data, 0, len(data), facts, steps)
    assert after == len(data), data.hex()
    assert all(f[1][0] in ("fact", "step", "last") for f in within(written) if f[0] == "not"), data.hex()
    for _ in range(20):
        worlds = [(frozenset(i for i in range(facts) if rng.random() < 0.5), rng.choice([None, *range(steps)])) for _ in range(rng.randint(1, 5))]
        assert meets(worlds, rule) == meets(worlds, written), data.hex()
