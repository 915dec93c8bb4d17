#!/usr/bin/env python3
"""Spells the names of this repository's own definitions and lemmas as today's Rattle does.

usage: python3 tools/respell.py [TOP]        run once, right after the kit's port.py; TOP is the top of the checkout

A definition, a field, a constructor and a lemma that only describes itself are in snake case, types and facts in upper
camel case. A dash stays where it joins the two names that a lemma speaks of. Only antt files and the clauses of source
files are read; functions, texts, inputs and outputs keep their names. It stops where two names would fall together.
"""

import glob
import os
import re
import sys

# types, facts and constructors
CAMEL = """
Analog-obeys Arrived-at Coordinate-ranges Is-word Moveset-set On-course Output-state Parameters-set Planned-from
Planning-laws Preset-held Preset-loaded Servo-state Starts-inside Worked-cases reversed-obeys
""".split()

# lemmas named for two names, which a dash joins
JOINED = {
    "after-feel-saturated": "after_feel-saturated",
    "after-name-saturated": "after_name-saturated",
    "after-step-saturated": "after_step-saturated",
    "answer-by-first-no": "answer-by_first_no",
    "first-no-append": "first_no-append",
    "held-neg": "held-neg",
    "mirror-after-feel": "mirror-after_feel",
    "mirror-after-name": "mirror-after_name",
    "mirror-after-step": "mirror-after_step",
    "mirror-cond": "mirror-cond",
    "mirror-name-answer": "mirror-name_answer",
    "mirror-step-answer": "mirror-step_answer",
    "mirror-stepped": "mirror-stepped",
    "name-answer-saturated": "name_answer-saturated",
    "reached-saturated": "Reached-saturated",
    "step-answer-saturated": "step_answer-saturated",
}

# variables of definitions and proofs
LOCAL = "axes-right first-right good-first good-second in-band starts-right wide-gain wide-number with-offset".split()

WORD = re.compile(r"(?<![\w'\-·.«])([A-Za-z_][\w']*(?:-[\w']+)+)(?![\w'\-»])|(?<=\.)([A-Za-z_][\w']*(?:-[\w']+)+)(?![\w'\-»])")
DEFINED = re.compile(r"\s*(?:abbrev |unfoldable |private )*(?:pub )?(?:record |data )?([A-Za-z_][\w']*(?:-[\w']+)+)(?: *[({].*)? *:")


def antt(top):
    return sorted(glob.glob(os.path.join(top, "crates/*/specs/**/*.antt"), recursive=True) + glob.glob(os.path.join(top, "crates/*/proofs/**/*.antt"), recursive=True))


def is_own(path):
    """A file of definitions or of lemmas, and not the answers of a function."""
    return "/specs/" in path or os.path.basename(path)[0].isupper() and os.path.basename(os.path.dirname(path)) == "proofs"


def camel(name):
    return "".join(part[0].upper() + part[1:] for part in name.split("-"))


def names(top):
    found = set(LOCAL)
    for path in filter(is_own, antt(top)):
        with open(path, encoding="utf-8") as f:
            found.update(m.group(1) for line in f if not line.lstrip().startswith("--") for m in [DEFINED.match(line)] if m)
    found.add("gap-within")
    to = {}
    for name in sorted(found):
        to[name] = camel(name) if name in CAMEL else JOINED.get(name, name.replace("-", "_"))
    return {a: b for a, b in to.items() if a != b}


def respelled(line, to, counted):
    def one(m):
        word = m.group(1) or m.group(2)
        if word in to:
            counted[word] = counted.get(word, 0) + 1
            return to[word]
        return word

    return WORD.sub(one, line)


def is_clause(line):
    return re.match(r"\s*(pub )?(ghost|requires|ensures|law)\b", line) is not None


def main():
    top = sys.argv[1] if len(sys.argv) > 1 else "."
    to = names(top)
    by = {}
    for a, b in to.items():
        by.setdefault(b, []).append(a)
    together = {b: a for b, a in by.items() if len(a) > 1}
    taken = set()
    for path in filter(is_own, antt(top)):
        with open(path, encoding="utf-8") as f:
            for line in f:
                m = re.match(r"\s*(?:abbrev |unfoldable |private )*(?:pub )?(?:record |data )?([A-Za-z_][\w']*)(?: *[({].*)? *:", line)
                if m and m.group(1) in by and m.group(1) != "gap_within":
                    taken.add(m.group(1))
    if together or taken:
        print("names fall together:", together, sorted(taken))
        return 1
    counted = {}
    for path in antt(top) + sorted(glob.glob(os.path.join(top, "crates/*/src/**/*.rt"), recursive=True)):
        with open(path, encoding="utf-8") as f:
            lines = f.read().split("\n")
        if path.endswith(".antt"):
            turned = [line if line.lstrip().startswith("--") else respelled(line, to, counted) for line in lines]
        else:
            turned = [respelled(line, to, counted) if is_clause(line) else line for line in lines]
        if turned != lines:
            with open(path, "w", encoding="utf-8") as f:
                f.write("\n".join(turned))
    print(f"{len(counted)} names, {sum(counted.values())} places")
    return 0


if __name__ == "__main__":
    raise SystemExit(main())
