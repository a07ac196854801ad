"""Counts what the random jobs tried, with a floor for each: a comparison that seldom tries something says little of it."""

from collections import Counter

from pairs import CUT, HINTS, LONGER, MERGED, PATH, REPLACED, SHORTER

# how often each must happen at least, in a thousand jobs: about half of what was counted with several seeds, or what a comment asks
FLOORS = {
    # how often each number was answered; 0 is a result
    "search": {0: 260, 1: 11, 2: 110, 3: 88, 4: 22, 5: 14, 10: 210, 11: 55, 12: 120, 13: 66, 14: 45},
    "read-through": {0: 640, 1: 5, 2: 55, 3: 44, 4: 11, 5: 7, 6: 130, 7: 165, 8: 500, 9: 180, 14: 90, 15: 195},
    "write-back": {0: 200, 1: 50, 2: 20, 4: 45, 5: 25, 13: 110},
    # the first seven are events of a job's exploration up to its answer
    "jobs with": {
        MERGED: 150, PATH: 75, HINTS: 22, CUT: 6, REPLACED: 65, SHORTER: 2, LONGER: 65, "over 2 pairs": 240, "plan through a merge": 41,
        "plan of 4 steps or more": 36, "64 facts": 20, "64 steps": 12, "8 rules and 8 hints": 10, "rule of 128 bytes": 11, "the most bytes": 3,
        "offset over 255": 80, "rule of 5 parts": 40, "rule of 6 parts": 20,
        # fact codes
        "rule of 20 fact codes": 10, "rule of 30 fact codes": 3, "a fact at two places of a rule": 115, "a number that is a code": 300,
        "truths one place off decide": 60, "truths one place off decide, 15 fact codes": 8, "a step read as a fact decides": 110,
        # the two forms of a step; forbidden facts must decide in a tenth of the jobs
        "no steps": 12, "steps in the old form": 175, "steps in the new form": 175, "17 old steps or 13 new ones": 7, "an empty forbidden set": 165,
        "a fact needed and forbidden": 30, "forbidden facts decide": 100, "another plan by forbidden facts": 42,
        "a dearer plan by forbidden facts": 12, "no plan by forbidden facts": 21,
        # estimates; a pair without one must matter in a tenth of the jobs
        "no goal": 50, "an estimate over 65,535": 8, "an estimate over 2,000,000": 5, "a pair without an estimate": 100,
        "a start without an estimate": 38, "a start with an estimate, a later pair without": 36, "a plan beside pairs without an estimate": 18,
        "11 that becomes 12": 25, "11 that becomes 12, the start with an estimate": 8, "11 that stays beside a cut pair without an estimate": 5,
        "no estimate because of a free cycle": 9, "an estimate by overlooking forbidden facts": 35,
        "a plan by overlooking forbidden facts": 5, "11 by overlooking forbidden facts": 12,
        # rights; barred steps must decide in a tenth of the jobs
        "a barred step": 125, "every step barred": 11, "barred steps decide the answer": 100, "another plan by rights": 16,
        "a dearer plan by rights": 10, "no plan by rights": 25, "a rule names a barred step and that decides": 9,
        "a hint names a barred step and that decides": 2, "a start without an estimate by rights": 26, "a barred step in the estimate decides": 26,
        "12 by rights in the estimate": 3, "one right of several decides": 32, "rights and needs exchanged decide": 68},
    # a high bit is bit V or one above it
    "jobs refused with": {
        "place over 255": 4, "task of another length": 20, "high bit in start": 8, "high bit in goal": 5, "high bit in needed": 5,
        "high bit in added": 5, "high bit in deleted": 5, "high bit in forbidden": 5, "high bit in the next set, too": 7,
        "high bit in a later set, too": 7, "no high bit but V": 12,
        "1 and a list of another length": 2, "2 and a list of another length": 32, "3 and a list of another length": 27,
        "4 and a list of another length": 6, "5 and a list of another length": 4},
    # enumerated plans of four steps or more come in few jobs, with two searches each: seeds came to 3 to 13 in a thousand
    "calls with": {
        "10 where an answer exists": 160, "over 64 slots": 12, "as many slots as pairs": 150, "one slot fewer": 90,
        "slots for the pairs with an estimate alone": 65, "no slot and no pair": 30,
        "a buffer as long as the plan": 120, "one byte shorter": 42, "search with a memo": 100, "read-through with a memo": 165,
        "over 128 bytes written": 10, "enumeration": 140, "enumeration and hints": 14, "enumeration of 4 steps or more": 2, "enumeration and 13": 25,
        "7 for a forbidden fact alone": 85,
        # rights
        "slots for the pairs of usable steps alone": 56, "no slot and no pair by rights": 20, "enumeration and a barred step": 29,
        "15 where 7 would have come": 31, "15 in a list that others may use": 72, "15 after the first step": 63, "15 before a later 6": 27,
        "6 for a caller with a barred step": 85, "6 before a later 15": 31, "7 before a later 15": 8, "passed for a caller with a barred step": 125,
        "a list one too short": 6, "a list one too long": 6, "an empty list for some steps": 6, "a list for no steps": 1,
        "a list that is right in its lowest 8 bits": 6},
    # the library's answers compared with each other
    "searches of twins": {0: 53, 10: 47, 11: 15, 12: 110, 13: 10, "a difference with all rights": 80},
    "read-throughs of twins": {0: 185, 6: 85, 7: 55, 8: 340, 9: 53, 15: 195},
    "growing rights": {
        "compared": 1600, "with a plan": 500, "a first plan": 185, "a cheaper plan": 38, **{f"right {bit} decides": 8 for bit in range(8)}},
    "jobs with the operator": {
        "false": 24, "true": 24, "last": 115, "fact": 275, "step": 260, "not": 245, "and": 170, "or": 220, "next": 170, "eventually": 220,
        "always": 225, "until": 150, "release": 105},
}

FEWEST = 2000   # fewer jobs tell nothing of what is seldom, so no floor is asked of them


class Tally:
    def __init__(self):
        self.counts = Counter()

    def count(self, kind, *events):
        self.counts.update((kind, event) for event in events)

    def count_true(self, kind, happened):
        """Counts those of the events that did happen."""
        self.count(kind, *(event for event, yes in happened.items() if yes))

    def seldom(self, jobs):
        """What happened less often than its floor, in words."""
        if jobs < FEWEST:
            return []
        return [f"{kind} {event}: {self.counts[kind, event]}, floor {jobs * floor // 1000}" for kind, floors in FLOORS.items()
                for event, floor in floors.items() if self.counts[kind, event] < jobs * floor // 1000]

    def __str__(self):
        return "; ".join(f"{kind} " + ", ".join(f"{event}: {self.counts[kind, event]}" for event in floors) for kind, floors in FLOORS.items())
