"""The truth of a formula in a sequence of worlds: definition 1 of source document 003. A world is a pair of a set of facts and a step or None."""


def true_at(worlds, i, formula):
    """The truth at moment i, in the definition's own words."""
    last = len(worlds) - 1
    kind = formula[0]
    if kind == "false":
        return False
    if kind == "true":
        return True
    if kind == "last":
        return i == last
    if kind == "fact":
        return formula[1] in worlds[i][0]
    if kind == "step":
        return worlds[i][1] == formula[1]
    if kind == "not":
        return not true_at(worlds, i, formula[1])
    if kind == "and":
        return true_at(worlds, i, formula[1]) and true_at(worlds, i, formula[2])
    if kind == "or":
        return true_at(worlds, i, formula[1]) or true_at(worlds, i, formula[2])
    if kind == "next":
        return i < last and true_at(worlds, i + 1, formula[1])
    if kind == "eventually":
        return any(true_at(worlds, j, formula[1]) for j in range(i, last + 1))
    if kind == "always":
        return all(true_at(worlds, j, formula[1]) for j in range(i, last + 1))
    if kind == "until":
        return any(true_at(worlds, j, formula[2]) and all(true_at(worlds, k, formula[1]) for k in range(i, j)) for j in range(i, last + 1))
    # release: not (not left until not right)
    return not any(not true_at(worlds, j, formula[2]) and all(not true_at(worlds, k, formula[1]) for k in range(i, j)) for j in range(i, last + 1))


def truths(worlds, formula):
    """The truth at every moment, for lists that are too long for the definition: from the last moment to the first, by what holds one later."""
    kind, count = formula[0], len(worlds)
    if kind in ("false", "true", "last", "fact", "step"):
        return [true_at(worlds, i, formula) for i in range(count)]
    left = truths(worlds, formula[1])
    if kind == "not":
        return [not x for x in left]
    if kind == "next":
        return left[1:] + [False]
    right = truths(worlds, formula[2]) if kind in ("and", "or", "until", "release") else left
    if kind == "and":
        return [x and y for x, y in zip(left, right)]
    if kind == "or":
        return [x or y for x, y in zip(left, right)]
    later, found = kind in ("always", "release"), []
    for x, y in zip(reversed(left), reversed(right)):
        later = {"eventually": x or later, "always": x and later, "until": y or (x and later), "release": y and (x or later)}[kind]
        found.append(later)
    return found[::-1]


def work(count, formula):
    """About how many formulas the definition judges at a moment that has so many moments from it on."""
    inner = sum(work(count, x) for x in formula[1:-1] if isinstance(x, tuple))
    return 1 + inner * {"eventually": count, "always": count, "until": count * count, "release": count * count}.get(formula[0], 1)


def meets(worlds, formula):
    """The truth at the first moment; where the definition is affordable by both ways, which must agree."""
    answer = truths(worlds, formula)[0]
    if work(len(worlds), formula) <= 2000 and answer != true_at(worlds, 0, formula):
        raise AssertionError((worlds, formula))
    return answer
