#!/usr/bin/env python3
"""Respells the definitions and lemmas of specs/ and proofs/ as today's Rattle spells names: words in snake case, types in camel case.

usage: python3 tools/respell.py [--list]      at the top of the repository; --list only prints the table of names

Names are collected from the declarations in crates/*/specs and crates/*/proofs, and from the names that files there give to what they import. A name that a file takes from a library keeps
its spelling in that file, and so does a goal's name, which Rattle makes. Functions of src/ are never declared in those folders,
so they keep theirs. Text between double quotes keeps its words. The same table is applied to src/, specs/, proofs/ and to the
texts of must-fail/.
"""
import os
import re
import sys

WORD = re.compile(r"[A-Za-z_][\w'\u2032\u00b7-]*")
DECLARED = re.compile(r"^\s*(?:(?:abbrev|pub|unfoldable|record|data) )*([A-Za-z_][\w'\u2032\u00b7-]*)((?: [({].*?[)}])*) : (.*)$")
USE = re.compile(r"^\s*(?:pub )?(?:ghost )?use ([^;\n]*)", re.M)
GOALS = re.compile(r"(?:\b(?:goal|need)\.|\bGoals\b|\bGiven\b)")
# names that stand in proofs/ and that Rattle makes
MADE = re.compile(r"^(?:invariant|decreases|loop|returns|overflow|else|then|if|in|index|offset|bounds)-")


# new names that would fall together with another name of the same file or module
APART = {
    "isNamed": "berth_is_named",
    "berthsOf": "named_berths",
    "faultOf": "unplanned_fault",
    "faultLine": "line_of_fault",
    "gapWithin": "gap_lies_within",
    "ofPair": "is_of_pair",
    "limit-after": "limit_after_lem",
    "duty-of": "duty_of_lem",
    "cost-row": "cost_row_lem",
    "at-end": "at_end_lem",
    "to-come": "to_come_lem",
    "charges-in-range": "charges_in_range_lem",
}


def files(root):
    for folder, dirs, names in os.walk(os.path.join(root, "crates")):
        dirs[:] = sorted(d for d in dirs if d != "out")
        for name in sorted(names):
            if name.endswith((".antt", ".rt", ".edit")):
                yield os.path.join(folder, name)


def odd(name):
    mixed = name[0].islower() and re.search(r"[a-z0-9][A-Z]", name)
    return "-" in name or "\u2032" in name or "\u00b7" in name or bool(mixed)


def snake(name):
    name = re.sub(r"([a-z0-9])([A-Z])", lambda m: m.group(1) + "_" + m.group(2).lower(), name)
    return name.replace("-", "_").replace("\u00b7", "_").replace("\u2032", "'")


def camel(name):
    return "".join(p[:1].upper() + p[1:] for p in re.split("[-\u00b7]", name)).replace("\u2032", "'")


def collect(root):
    table, types = {}, set()
    for path in files(root):
        if path.endswith(".edit"):
            continue
        with open(path, encoding="utf-8") as f:
            text = f.read()
        for line in text.splitlines() if path.endswith(".antt") else []:
            if line.lstrip().startswith(("use ", "pub use ", "let ", "--", "open ")):
                continue
            m = DECLARED.match(line)
            if not m:
                continue
            name, rest = m.group(1), m.group(3)
            if GOALS.match(rest) or MADE.match(name) or not odd(name):
                continue
            if name[0].isupper() and (re.search(r"\bType \d+( where)?$", rest.strip()) or re.match(r"\s*(?:abbrev|pub|unfoldable)*\s*(?:pub )?record ", line)):
                types.add(name)
            table[name] = None
        for m in USE.finditer(text):
            if m.group(1).startswith("Rattle.") and not m.group(1).startswith("Rattle.std"):
                for alias in re.findall(r" as ([A-Za-z_][\w'\u2032\u00b7-]*)", m.group(1)):
                    if odd(alias):
                        table[alias] = None
    for name in table:
        table[name] = APART.get(name) or (camel(name) if name in types else snake(name))
    return table


def taken(text):
    """The names that a file takes from a library."""
    found = set()
    for m in USE.finditer(text):
        if not re.match(r"(?:Rattle\.std|borrow|lib|mathlib|native|Prim|denote|logic)\b", m.group(1)):
            continue
        braces = re.search(r"\{(.*)\}", m.group(1))
        for item in (braces.group(1).split(",") if braces else []):
            found.update(w for w in re.split(r"\s+as\s+", item.strip()))
    return found


def respell(text, table, keep):
    def turn(m):
        w = m.group(0)
        new = table.get(w)
        return w if new is None or w in keep else new

    out = []
    for line in text.split("\n"):
        if re.match(r"\s*(?:--|//)", line):
            # in a comment a word with a dash is mostly English
            out.append(WORD.sub(lambda m: turn(m) if "-" not in m.group(0) else m.group(0), line))
            continue
        parts = re.split(r'("(?:[^"\\]|\\.)*")', line)
        out.append("".join(p if p.startswith('"') else WORD.sub(turn, p) for p in parts))
    return "\n".join(out)


def fall_together(root, table):
    """The files in which a new name stood already."""
    found = []
    for path in files(root):
        with open(path, encoding="utf-8") as f:
            words = set(WORD.findall(f.read()))
        for old, new in table.items():
            if old in words and new in words:
                found.append((path, old, new))
    seen = {}
    for old, new in table.items():
        seen.setdefault(new, []).append(old)
    return found, {n: o for n, o in seen.items() if len(o) > 1}


def main(argv):
    root = "."
    table = collect(root)
    if "--list" in argv:
        for old, new in sorted(table.items()):
            print(old, new)
        there, twice = fall_together(root, table)
        for path, old, new in there:
            print("stands already:", path, old, new)
        for new, olds in twice.items():
            print("fall together:", new, olds)
        return 0
    for path in files(root):
        with open(path, encoding="utf-8") as f:
            text = f.read()
        keep = taken(text) if path.endswith((".antt", ".rt")) else set()
        new = respell(text, table, keep)
        if new != text:
            with open(path, "w", encoding="utf-8") as f:
                f.write(new)
    return 0


if __name__ == "__main__":
    raise SystemExit(main(sys.argv[1:]))
