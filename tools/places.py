#!/usr/bin/env python3
"""Lists the places in crates/*/src that an older form may stand at: python3 tools/places.py [POINT]

A hit is only a line to be read; docs/DESIGN-PASS.md says which of them are places. Points 5 and 8 count facts and proof files.
Generated tables (table.rt) are left out. Run it in a checkout of the commit that is to be counted.
"""
import collections
import glob
import re
import sys

LINES = {
    "1 an enum": r"^ *(pub(\(\w+\))? )?enum ",
    "1 a number that names a kind": r"\b(number|code|argument|mode|noted|kind|axis): u(8|16)\b",
    "1 an Option or a Result taken apart by hand": r"\b(None|Some\(_\)|Err\(_\)|Ok\(_\)) => ",
    "1 a flag in a struct": r"^ *(pub(\(\w+\))? )?\w+: bool,",
    "3 a loop": r"^\s*('\w+: )?(for|while|loop)\b",
    "3 an array written or read by a counted index": r"\w\[(i|at|start|index|pair|word|axis|\d+)( [+-] \d+)?\]",
    "4 a conversion": r"fn (number|code|\w+_number|\w+_name|from_\w+|to_\w+)\b|\bas [iu](8|16|32|64|size)\b",
    "4 printing": r"fn print_\w+",
    "4 an impl of a trait that can be derived": r"impl.* (PartialEq|Eq|PartialOrd|Ord|Clone|Copy|Default|Debug) for",
    "6 a fixed array or packed table": r"^ *(pub )?\w+: \[|const \w+: \[u16",
    "7 a choice of a step": r"^\s*(return )?match ",
}


def code(path):
    return open(path, encoding="utf-8").read().split("\n")


def files():
    return sorted(p for p in glob.glob("crates/*/src/**/*.rt", recursive=True) if not p.endswith("table.rt"))


def functions():
    """Each function as (place, name, parameters, body)."""
    for path in files():
        text = "\n".join(re.sub(r"//.*", "", l) for l in code(path))
        for m in re.finditer(r"\bfn (\w+)(<[^(]*>)?\(", text):
            end = text.find("\n{\n", m.end())
            brace = text.find("{", m.end())
            while brace != -1 and re.search(r"(ensures|requires)[ \w]*$", text[:brace]):
                depth = 0
                for brace in range(brace, len(text)):
                    depth += {"{": 1, "}": -1}.get(text[brace], 0)
                    if depth == 0:
                        break
                brace = text.find("{", brace + 1)
            if brace == -1 or (";" in text[m.end():brace] and end == -1):
                continue
            depth = 0
            for stop in range(brace, len(text)):
                depth += {"{": 1, "}": -1}.get(text[stop], 0)
                if depth == 0:
                    break
            head = text[m.end():brace]
            parameters = re.findall(r"(\w+): ", head.split("->")[0].split("ensures")[0].split("requires")[0])
            yield f"{path}:{text.count(chr(10), 0, m.start()) + 1}", m.group(1), parameters, text[brace:stop + 1]


def twins():
    """Functions of one name, or whose bodies are the same but for names, numbers and types."""
    names, bodies = collections.defaultdict(list), collections.defaultdict(list)
    for place, name, _, body in functions():
        names[name].append(place)
        shape = re.sub(r"\b[A-Za-z_]\w*\b|\d[\w_]*", "x", re.sub(r'"[^"]*"', "s", body))
        shape = re.sub(r"\s+", "", shape)
        if len(shape) > 25:
            bodies[shape].append(f"{place} {name}")
    for name, places in sorted(names.items()):
        if len(places) > 1:
            print(f"2 one name: {name}: " + ", ".join(places))
    for places in bodies.values():
        if len(places) > 1:
            print("2 one shape: " + ", ".join(places))


def facts():
    """Conditions on a value that stand in the clauses of three or more functions, and parameters that three or more share."""
    clauses = collections.Counter()
    for path in files():
        for line in code(path):
            m = re.match(r"\s*(requires|ensures)[ \w]*\{(.*)\}", line)
            if m and (m.group(1) == "requires" or re.search(r"\b(Ranges|Within|Inside|StartsInside|Rooms?|IfOk|IfSome|OnOk)\b", m.group(2))):
                for fact in set(re.findall(r"\b(?:Ranges|CoordinateRanges|Within|Inside|StartsInside|Rooms?|Joins|record_count|length words)\b", m.group(2))):
                    clauses[path.split("/")[1], fact] += 1
    for (crate, fact), count in sorted(clauses.items()):
        if count >= 3:
            print(f"5 a fact in {count} clauses: {crate}: {fact}")
    shared = collections.Counter()
    for place, _, parameters, _ in functions():
        for i, a in enumerate(parameters):
            for b in parameters[i + 1:]:
                shared[place.split("/")[1], a, b] += 1
    for (crate, a, b), count in sorted(shared.items()):
        if count >= 3 and "rt" not in (a, b):
            print(f"5 parameters of {count} functions: {crate}: {a}, {b}")


def main():
    wanted = sys.argv[1] if len(sys.argv) > 1 else ""
    for what, pattern in LINES.items():
        if not what.startswith(wanted):
            continue
        hits = [f"{p}:{i}: {l.strip()}" for p in files() for i, l in enumerate(code(p), 1) if re.search(pattern, re.sub(r"//.*", "", l)) and not re.match(r"\s*(ghost|ensures|requires)", l)]
        print(f"{what}: {len(hits)}")
        for hit in hits:
            print("  " + hit)
    if wanted in ("", "2"):
        twins()
    if wanted in ("", "5"):
        facts()
    if wanted in ("", "8"):
        proofs = glob.glob("crates/*/proofs/**/*.antt", recursive=True)
        print(f"8 proof files: {len(proofs)}, of which lemma files {len([p for p in proofs if p.count('/') == 3])}")


main()
