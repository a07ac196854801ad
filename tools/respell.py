#!/usr/bin/env python3
"""Brings the repository's own names in specs/ and proofs/ to the library's spelling: definitions, lemmas, fields, constructors and variables in snake case.

usage: tools/respell.py        at the top of a checkout that the toolchain's port.py has turned, once

A name that is declared in a .antt file of crates/ is turned: accountOf to account_of, and a dash between words to an underscore. A dash stays after the name
of a function of the library, as in length-formulas_from. A lemma whose new name is that of a definition, or of a name of the library that its file uses,
gets _lem. Types and facts, names from src/ and names that the toolchain makes keep their spelling. README.md and the pages of docs/ are turned where they
cite names in backticks, the notes of docs/changes/ aside; the texts of must-fail edits are turned as far as names go.
"""
import collections
import glob
import os
import re

TOKEN = re.compile(r"[^\s(){}\[\],;.|`\"]+")
DECLARED = re.compile(r"^ *(?:abbrev |unfoldable |pub |data |record |ruleset )*([^\s(){}:,;.]+)(?: [^\s(){}:,;.=]+)* *:(?: |$)")
WORDS = {"use", "open", "mod", "where", "let", "in", "elim", "unfolding", "module", "λ"}
LIBRARY = {"length", "take", "drop", "map", "append", "sets", "replicate", "reverse", "get_or"}
# what the library calls otherwise today
PARTS = {"getD": "get_or"}
# names that would fall together, and names that no declaration shows
FIXED = {
    "Not-late": "NotLate",
    "tooSmall": "too_small_end",
    "someCut": "has_cut",
    "someCutIn": "has_cut_in",
    "same_key": "same_key_lem",
    "made_by": "made_by_lem",
    "row_words": "row_words_lem",
    "no-goal": "no_goal_lem",
    "fine-a": "fine_a",
    "fine-b": "fine_b",
    "turn-1": "turn_1",
    "bufferA": "buffer_a",
    "bufferB": "buffer_b",
    "numbersA": "numbers_a",
    "numbersB": "numbers_b",
    "partA": "part_a",
    "partB": "part_b",
    "tableA": "table_a",
    "tableB": "table_b",
}


def bare(text, comment):
    return "\n".join(re.sub(r"(^|\s)" + re.escape(comment) + r"(\s.*)?$", "", line) for line in text.split("\n"))


def snake(part):
    return re.sub(r"([a-z0-9])([A-Z])", lambda m: m[1] + "_" + m[2].lower(), PARTS.get(part, part))


def spelled(name):
    parts = name.split("-")
    new = snake(parts[0])
    for before, part in zip(parts, parts[1:]):
        new += ("-" if PARTS.get(before, before) in LIBRARY else "_") + snake(part)
    return new


def survey(files):
    """The names that the files declare, those that they bring in from the library, and the tokens of each file."""
    own = {line.split(":")[0].split()[0] for line in open("crates.txt") if line.strip()}
    declared, library, tokens = set(), collections.defaultdict(set), {}
    for f in files:
        text = bare(open(f).read(), "--")
        tokens[f] = set(TOKEN.findall(text))
        for m in re.finditer(r"use ([\w+.'-]+)\.\{([^}]*)\}", text):
            path = m[1].split(".")
            if not (path[0] == "Rattle" and path[1] in own):
                library[f] |= {n.strip().split(" as ")[0] for n in m[2].split(",")}
        for line in text.split("\n"):
            m = DECLARED.match(line)
            if m and m[1] not in WORDS:
                declared.add(m[1])
    return declared, library, tokens


def mapping(files):
    declared, library, tokens = survey(files)
    brought = set().union(*library.values())
    new = dict(FIXED)
    for name in sorted(declared - brought - set(FIXED)):
        if name[0].isupper() or "" in name.split("-") or spelled(name) == name:
            continue
        new[name] = spelled(name)
    for name in [n for n in new if "-" in n and n not in FIXED]:
        other = {n for n, v in new.items() if v == new[name] and n != name} | {new[name]}
        if any(name in tokens[f] and (other & tokens[f]) for f in files):
            new[name] += "_lem"
    return new


def turned(text, new):
    return TOKEN.sub(lambda m: new.get(m[0], m[0]), text)


def main():
    every = [f for f in glob.glob("crates/**/*", recursive=True) if "/out/" not in f and os.path.isfile(f)]
    proofs = sorted(f for f in every if f.endswith(".antt"))
    if any("same_key_lem" in open(f).read() for f in proofs):
        raise SystemExit("these files are turned already")
    new = mapping(proofs)
    for f in every:
        if f.endswith((".antt", ".rt", ".edit")):
            text = open(f).read()
            open(f, "w").write(turned(text, new))
    for f in ["README.md"] + sorted(glob.glob("docs/*.md")):
        text = open(f).read()
        open(f, "w").write(re.sub(r"`[^`\n]+`", lambda m: turned(m[0], new), text))
    print(f"{len(new)} names")


main()
