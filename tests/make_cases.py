"""Writes what the programs `cases` and `dagzhimo` are run on and what they must print: the cases of document 01 and of the cards, each with what these
say of it, and random rules with what they are to be written back as, by the document's words.

    tests/make_cases.py [--check]

With --check nothing is written: it fails if a stored file is not what would be written, and names the file. In both ways it fails if the oracle,
which judges the random jobs, does not say of these cases what document 01 and the cards say."""

import pathlib
import random
import struct
import sys

ROOT = pathlib.Path(__file__).resolve().parent.parent
sys.path.insert(0, str(ROOT / "tests" / "oracle"))

import expect  # noqa: E402
from estimate import Estimates  # noqa: E402
from formulas import Refused  # noqa: E402
from generate import formula  # noqa: E402
from jobs import Job  # noqa: E402
from pack import job, sections_of, step, with_formulas  # noqa: E402
from pairs import Answer  # noqa: E402
from written import check_written, positive  # noqa: E402


MOST_INPUT = 16384  # as much of its standard input as the program `cases` reads


def p(goal=4, rules=(), hints=(), forbidden=(None, None, None)):
    """Job P: sand, lamp, pass, in the old form, or in the new form where each step forbids these facts."""
    sand, lamp, scan = forbidden
    return job(3, 0, goal, [step(0, 1, 0, 5, sand), step(0, 2, 0, 2, lamp), step(3, 4, 0, 9, scan)], rules, hints)


def p_in(length):
    """Job P in the new form with nothing forbidden, its task cut off or made longer to this length."""
    task = sections_of(p(forbidden=(0, 0, 0)))[0]
    return with_formulas(bytes([3, 3]), task[:length].ljust(length, b"\0"), [], [])


# a case is a letter and five bytes, then its bytes: the list of needed rights, the steps, the job; or the rule (crates/cases/src/main.rt)


def zeros(data):
    """The list of a caller who may use every step of a job, as the program lends it."""
    return bytes(data[1]) if len(data) > 1 else b""


def search(data, room=64, needs=None, rights=0):
    needs = zeros(data) if needs is None else bytes(needs)
    return b"s" + bytes([room, len(needs), rights]) + struct.pack("<H", len(data)) + needs + data


def read_through(data, steps, needs=None, rights=0):
    needs = zeros(data) if needs is None else bytes(needs)
    return b"v" + bytes([len(steps), len(needs), rights]) + struct.pack("<H", len(data)) + needs + bytes(steps) + data


def write_back(rule, count=3, steps=3):
    return b"w" + bytes([len(rule), 0, 0, count, steps]) + bytes(rule)


def random_rules(count):
    """Random rules and what they are written back as."""
    rng = random.Random(20261115)
    for _ in range(count):
        data = bytes(formula(rng, 3, 3, rng.randint(1, 4)))[:60]
        try:
            rule = expect.read_rule(3, 3, data)
        except Refused as r:
            yield write_back(data), f"refused {r.number} {r.place}"
            continue
        out = bytes(positive(rule))
        check_written(rng, rule, 3, 3)
        yield write_back(data), f"written {len(out)}: " + out.hex(" ")


NEXTS = [0x20] * 6 + [0x03, 0x00]
LAMP_FIRST = [0x23, 0x10, 0x04, 0x00, 0x04, 0x01]

DOCUMENT_01 = [
    (search(p()), "plan 3 16\n0\n1\n2"),
    (search(p(rules=[LAMP_FIRST])), "plan 3 16\n1\n0\n2"),
    (search(p(rules=[[0x02]])), "refused 12 0"),
    (search(p(rules=[[0x21, 0x02]])), "plan 3 16\n0\n1\n2"),
    (search(p(rules=[[0x00]])), "refused 12 0"),
    (search(p(goal=0)), "plan 0 0"),
    (search(p(goal=0, rules=[[0x20, 0x02]])), "plan 0 0"),
    (search(p(goal=0, rules=[[0x20, 0x20, 0x01]])), "plan 1 2\n1"),
    (search(p(hints=[[0x22, 0x10, 0x04, 0x01]])), "refused 11 0"),
    (search(p(hints=[[0x21, 0x04, 0x00]])), "plan 3 16\n0\n1\n2"),
    (write_back([0x10, 0x20, 0x03, 0x00]), "written 6: 12 02 20 10 03 00"),
    # six times 20, then 03 00: accepted, and met by a plan of five steps, whose closing world is moment 6; seven times: 5, at the byte 03
    (search(p(rules=[NEXTS])), "plan 5 20\n0\n1\n1\n1\n2"),
    (read_through(p(rules=[NEXTS]), [0, 1, 2]), "refused 9 0"),
    (search(p(rules=[[0x20] + NEXTS])), "refused 5 113"),
    (search(b""), "refused 1 0"),
    (search(p(), room=2), "refused 13 3"),
    (search(p(), room=3), "plan 3 16\n0\n1\n2"),
    # two steps of cost 0 that undo each other, goal out of reach
    (search(job(2, 0, 2, [step(0, 1, 0, 0), step(1, 0, 1, 0)])), "refused 12 0"),
    (read_through(p(hints=[[0x21, 0x04, 0x00]]), [0, 1, 2]), "passed 16 1"),
    (read_through(p(), [0, 2]), "refused 7 1"),
]

# steps that need facts absent; in a set 1 stands for fact 0, sanded, 2 for fact 1, lamp, and 4 for fact 2, scanned
CARD_1 = [
    (search(p(forbidden=(0, 0, 0))), "plan 3 16\n0\n1\n2"),
    # no sand once the lamp is on; no lamp once it is sanded; both
    (search(p(forbidden=(2, 0, 0))), "plan 3 16\n0\n1\n2"),
    (search(p(forbidden=(0, 1, 0))), "plan 3 16\n1\n0\n2"),
    (search(p(forbidden=(2, 1, 0))), "refused 12 0"),
    (search(p(forbidden=(2, 0, 0), rules=[LAMP_FIRST])), "refused 12 0"),
    (read_through(p(forbidden=(0, 1, 0)), [1, 0, 2]), "passed 16 0"),
    (read_through(p(forbidden=(0, 1, 0)), [0, 1, 2]), "refused 7 1"),
    # pass needs sanded and forbids it
    (search(p(forbidden=(0, 0, 1))), "refused 12 0"),
    (read_through(p(forbidden=(0, 0, 1)), [0, 1, 2]), "refused 7 2"),
    # pass forbids what it adds
    (read_through(p(forbidden=(0, 0, 4)), [0, 1, 2, 2]), "refused 7 3"),
    # lens (fact 0) is lowered, lens and clamp (fact 1) are wanted; swing forbids lens; lower adds it; raise deletes it
    (search(job(2, 1, 3, [step(0, 2, 0, 3, 1), step(0, 1, 0, 2, 0), step(1, 0, 1, 1, 0)])), "plan 3 6\n2\n0\n1"),
    # fact 3 of 3: the first step begins at 8 + 16, its forbidden set 24 later, and each next step 34 later; the goal stands before, at 16
    (search(p(forbidden=(8, 0, 0))), "refused 3 48"),
    (search(p(forbidden=(0, 8, 8))), "refused 3 82"),
    (read_through(p(forbidden=(0, 0, 8)), [0, 1, 2]), "refused 3 116"),
    (search(p(goal=12, forbidden=(8, 8, 8))), "refused 3 16"),
    # three steps take 16 + 78 bytes or 16 + 102
    (search(p_in(95)), "refused 2 0"),
    (search(p_in(106)), "refused 2 0"),
    (read_through(p_in(117), [0, 1, 2]), "refused 2 0"),
    # without steps both forms are the same
    (search(job(3, 0, 4, [])), "refused 12 0"),
    (search(job(3, 4, 4, [])), "plan 0 0"),
]

# an estimate of what is left; the hint 00 is dead at the start, and cuts the start pair if that is reached
DEAD, KEEP = [[0x00]], [[0x22, 0x03, 0x00]]
LOSE, RESTORE = step(0, 2, 1, 3), step(0, 1, 0, 2)

CARD_2 = [
    # a true fact costs 0, and a state without goal costs 0; but a goal that cannot be built leaves the start without an estimate
    (search(job(1, 1, 1, [], hints=DEAD)), "refused 11 0"),
    (search(job(1, 0, 0, [], hints=DEAD)), "refused 11 0"),
    (search(job(1, 0, 1, [], hints=DEAD)), "refused 12 0"),
    # fact 1, which is wanted, needs fact 0, and nothing adds that, or a step does that needs nothing
    (search(job(2, 0, 2, [step(1, 2, 0, 1)], hints=DEAD)), "refused 12 0"),
    (search(job(2, 0, 2, [step(1, 2, 0, 1), step(0, 1, 0, 1)], hints=DEAD)), "refused 11 0"),
    # facts 0 and 1 are built from each other for nothing
    (search(job(2, 0, 2, [step(1, 2, 0, 0), step(2, 1, 0, 0)], hints=DEAD)), "refused 12 0"),
    # fact 0 is true, and the step that adds fact 1 forbids it
    (search(job(2, 1, 2, [step(0, 2, 0, 1, 1)], hints=DEAD)), "refused 11 0"),
    # fact 0 is true and wanted; step 0, which adds fact 1, deletes it; the hint that it stays true cuts the pair after that, if that pair is reached
    (search(job(2, 1, 3, [LOSE], hints=KEEP)), "refused 12 0"),
    (search(job(2, 1, 3, [LOSE, RESTORE], hints=KEEP)), "refused 11 0"),
    # the dearest needed fact counts and not all: one step adds facts 1 and 2 for 2, which fact 3 needs, and another adds fact 3 at once for 4
    (search(job(4, 0, 8, [step(0, 1, 0, 1), step(1, 6, 0, 2), step(6, 8, 0, 0), step(0, 8, 0, 4)])), "plan 3 3\n0\n1\n2"),
]

# who may use which step: one step that adds the goal for 3, and the choice between two that do, the first for 1 and the second for 5
ONE = [step(0, 1, 0, 3)]
CHOICE = [step(0, 1, 0, 1), step(0, 1, 0, 5)]

CARD_4 = [
    # without the right and with it; two needed rights of which one is held, or the other, or both
    (search(job(1, 0, 1, ONE), needs=[0x01], rights=0xfe), "refused 12 0"),
    (search(job(1, 0, 1, ONE), needs=[0x01], rights=0x01), "plan 1 3\n0"),
    (search(job(1, 0, 1, ONE), needs=[0x81], rights=0x80), "refused 12 0"),
    (read_through(job(1, 0, 1, ONE), [0], needs=[0x81], rights=0x01), "refused 15 0"),
    (read_through(job(1, 0, 1, ONE), [0], needs=[0x81], rights=0x81), "passed 3 0"),
    # a list that is too short, too long, or for no steps; but 5 comes before it: the rule begins at 12 + 16, and its seventh part 7 bytes later
    (search(job(1, 0, 1, ONE), needs=[]), "refused 14 0"),
    (read_through(job(1, 0, 1, ONE), [1], needs=[0, 0]), "refused 14 2"),
    (search(job(1, 0, 0, []), needs=[0]), "refused 14 1"),
    (search(job(1, 0, 0, [], rules=[[0x20] + NEXTS]), needs=[0]), "refused 5 35"),
    # a step that is barred and not applicable; a number that is no step, where the only step is barred; a barred step after one that is not
    (read_through(job(1, 0, 0, [step(1, 0, 0, 1)]), [0], needs=[2], rights=1), "refused 15 0"),
    (read_through(job(1, 0, 1, ONE), [1], needs=[2], rights=1), "refused 6 0"),
    (read_through(job(1, 0, 1, CHOICE), [1, 0], needs=[4, 2], rights=2), "refused 15 1"),
    # the barred step would be cheaper; a rule that wants it
    (search(job(1, 0, 1, CHOICE), needs=[1, 0]), "plan 1 5\n1"),
    (search(job(1, 0, 1, CHOICE, rules=[[0x21, 0x04, 0x00]]), needs=[1, 0]), "refused 12 0"),
    # only the barred step would give the start an estimate, and so let the dead hint cut it
    (search(job(1, 0, 1, ONE, hints=DEAD), needs=[1]), "refused 12 0"),
    (search(job(1, 0, 1, ONE, hints=DEAD), needs=[1], rights=1), "refused 11 0"),
]

CASES = DOCUMENT_01 + CARD_1 + CARD_2 + CARD_4


def printed(case):
    """What the oracle says of a case, in the words of the program `cases`."""
    kind, size, count, rights, body = case[:1], *case[1:4], case[6:]
    if kind == b"w":
        numbers, buffer = expect.write_back(case[4], case[5], body, bytes(512))
        return refusal(numbers) or f"written {numbers[1]}: " + buffer[:numbers[1]].hex(" ")
    needs, steps, data = body[:count], body[count:count + size], body[count + size if kind == b"v" else count:]
    refused, judged = None, None
    try:
        judged = Job(data).of_caller(needs, rights)
    except Refused as r:
        refused = r
    if kind == b"v":
        numbers = expect.read_through(refused, judged, steps)
        return refusal(numbers) or f"passed {numbers[1]} {numbers[2]}"
    numbers, _, plan = expect.search(refused, judged and Answer(judged, Estimates(judged)), bytes(65536), bytes(size))[0]
    return refusal(numbers) or "\n".join([f"plan {numbers[2]} {numbers[1]}", *map(str, plan[:numbers[2]])])


def refusal(numbers):
    return f"refused {numbers[0]} {numbers[1]}" if numbers[0] else None


def files():
    """Each stored file and what it must hold."""
    cases = CASES + list(random_rules(200))
    return {
        "crates/cases/stdin": b"".join(data for data, _ in cases),
        "crates/cases/stdout": "".join(line + "\n" for _, line in cases).encode(),
        "crates/dagzhimo/stdin": p(),
        "crates/dagzhimo/stdout": b"plan 3 16\n0\n1\n2\n",
    }


def main():
    check = sys.argv[1:] == ["--check"]
    if sys.argv[1:] and not check:
        sys.exit(__doc__)
    for case, line in CASES:
        if printed(case) != line:
            sys.exit(f"the oracle says {printed(case)!r} and document 01 or a card {line!r} of the case {case.hex()}")
    if len(files()["crates/cases/stdin"]) > MOST_INPUT:
        sys.exit(f"the program `cases` reads {MOST_INPUT} bytes, and the cases have more")
    for name, wanted in files().items():
        path = ROOT / name
        if not check:
            path.write_bytes(wanted)
        elif not path.exists() or path.read_bytes() != wanted:
            sys.exit(f"{name} is not what tests/make_cases.py writes")
    if check:
        print("stored cases: as tests/make_cases.py writes them")


if __name__ == "__main__":
    main()
