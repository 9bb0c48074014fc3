#!/usr/bin/env python3
"""Lists the places in crates/*/src (tests' crates too, with --tests) that a plainer form might serve, by seven points, and the lines of proofs/.

Run it at the top of the repository: tools/places.py [--tests] [POINT ..], POINT 1 to 7. It prints each place and, at the end, how many
there are of each kind. It finds candidates by their text; whether one is to be changed is for a reader to say.
"""
import glob
import re
import sys
from collections import defaultdict


def sources(tests):
    for path in sorted(glob.glob("crates/*/src/**/*.rt", recursive=True)):
        crate = path.split("/")[1]
        if not tests and (crate.endswith("_tests") or path.endswith("/tests.rt")):
            continue
        text = open(path).read()
        if not tests and "#[cfg(test)]\nmod tests {" in text:
            text = text[: text.index("#[cfg(test)]\nmod tests {")]
        yield path, text


def lines_with(pattern, tests, flags=0):
    rx = re.compile(pattern, flags)
    for path, text in sources(tests):
        for match in rx.finditer(text):
            start = text.rfind("\n", 0, match.start()) + 1
            if re.match(r"\s*//", text[start:match.start() + 2]):
                continue
            line = text.count("\n", 0, match.start()) + 1
            yield f"{path}:{line}", " ".join(match.group(0).split())


def functions(tests):
    """Each function: its place, its name, its parameters' names, its clauses, and whether it is a trait's."""
    rx = re.compile(r"^( *)(?:pub(?:\(crate\))? )?fn (\w+)[^\n]*", re.M)
    for path, text in sources(tests):
        for match in rx.finditer(text):
            rest = text[match.start():]
            end = re.search(r"^%s\{$|;$" % match.group(1), rest, re.M)
            head = rest[: end.start()] if end else rest
            line = text.count("\n", 0, match.start()) + 1
            inside = head[head.index("fn "):]
            above = [m.group(0) for m in re.finditer(r"^(?:impl|(?:pub(?:\(crate\))? )?trait)\b[^\n]*", text[: match.start()], re.M)]
            of_trait = bool(match.group(1)) and bool(above) and (" for " in above[-1] or "trait " in above[-1])
            params = re.findall(r"[(,]\s*(?:mut )?(\w+): ", inside.split(" -> ")[0].split("\n    requires")[0].split("\n    ensures")[0])
            clauses = re.findall(r"(?:requires|ensures)\*?(?: \w+)? \{(.*?)\}\s*(?=requires|ensures|$|\n)", head, re.S)
            yield f"{path}:{line}", match.group(2), params, [" ".join(c.split()) for c in clauses], of_trait


def options(tests):
    yield "own enums", lines_with(r"^\s*(?:pub(?:\(crate\))? )?enum \w+", tests, re.M)
    yield "flags in a struct", lines_with(r"^    (?:pub(?:\(crate\))? )?\w+: bool,$", tests, re.M)
    yield "a number that stands for none", lines_with(r"[!=]= NONE\b|= NONE;", tests)
    yield "let-else that hands on None or Err", lines_with(r"let (?:Some|Ok)\([^;]*?else \{\s*return (?:None|Err)[^;]*;", tests, re.S)
    yield "match that maps or hands on", lines_with(r"None => None\b|Ok\(\w+\) => Ok\(|Err\(\w+\) => Err\(|Ok\(\(\)\) => (?:Ok|\w+::)|Err\(\w+\) => \w+::\w+\(\w+\),", tests)
    yield "numbers for kinds", lines_with(r"::\w+ => \d+,", tests)


def twins(tests):
    named = defaultdict(list)
    for place, name, _, _, of_trait in functions(tests):
        if not of_trait:
            named[name].append(place)
    said = defaultdict(list)
    for path, text in sources(tests):
        for match in re.finditer(r"^(?:pub(?:\(crate\))? )?const (\w+): \w+ = ([\d_]+);", text, re.M):
            said[match.group(2).replace("_", "")].append((f"{path}:{text.count(chr(10), 0, match.start()) + 1}", match.group(1)))
    yield "functions of one name in several places", [(p, n) for n, ps in sorted(named.items()) if len(ps) > 1 and n not in {"new", "next", "main"} for p in ps]
    yield "one number under several names", [(p, f"{n} = {v}") for v, ps in sorted(said.items()) if len(ps) > 1 for p, n in ps]
    yield "a body that only calls the like", lines_with(r"^( *)(?:pub(?:\(crate\))? )?fn \w+[^{]*?\n(?: +ensures [^\n]*\n)+\1\{\n +(?:self\.|crate::|Row::|Reader::|TapeReader::)?\w+\((?:\w+(?:, )?)*\)\n\1\}", tests, re.M)


def loops(tests):
    yield "while over an index", lines_with(r"while \w+ [<>] .*|while .*\.len\(\).*", tests)
    yield "loop", lines_with(r"^\s*(?:'\w+: )?loop \{", tests, re.M)
    yield "for over a range of indices", lines_with(r"for \w+ in [\w.]+\.\.[^{]*", tests)
    yield "for that only looks for something", lines_with(r"for [\w(][^{;]* in [^{]*\{\s*if [^{]*\{\s*return [^;]*;\s*\}\s*\}", tests, re.S)
    yield "while let over a reader of one's own", lines_with(r"while let .*", tests)


def handwritten(tests):
    yield "impl of a comparison or a conversion", lines_with(r"^impl(?:<[^\n]*>)? (?:PartialEq|Eq|PartialOrd|Ord|Clone|Copy|Debug|From<[^\n]*>|TryFrom<[^\n]*>) for .*", tests, re.M)
    yield "Display", lines_with(r"^impl.*Display for .*", tests, re.M)
    yield "as", lines_with(r"[\w.*\]\[()]+ as (?:[ui]\d+|usize)\b", tests)
    yield "comparison field by field", lines_with(r"\.\w+ [<=]=? ?\w+\.\w+\s*(?:&&|\|\|)[^;]*", tests)


def together(tests):
    said = defaultdict(set)
    passed = defaultdict(set)
    for place, name, params, clauses, _ in functions(tests):
        crate = place.split("/")[1]
        for clause in clauses:
            said[(crate, clause.strip())].add(f"{place} {name}")
        for i in range(len(params)):
            for j in range(i + 2, len(params)):
                passed[(crate, tuple(params[i:j + 1]))].add(f"{place} {name}")
    facts = [(k, v) for k, v in said.items() if len(v) >= 3]
    yield "a clause in three or more functions", [(f"{c} ({len(v)})", f) for (c, f), v in sorted(facts, key=lambda x: -len(x[1]))]
    groups = [(k, v) for k, v in passed.items() if len(v) >= 3]
    groups = [(k, v) for k, v in groups if not any(k[0] == o[0] and len(o[1]) > len(k[1]) and v <= w and set(k[1]) <= set(o[1]) for o, w in groups)]
    yield "three or more parameters together in three or more functions", [(f"{c} ({len(v)})", ", ".join(p)) for (c, p), v in sorted(groups, key=lambda x: -len(x[1]))]
    yield "a record written out in a clause", lines_with(r"\(record \{ yard = |\(record \{ successors = ", tests)


def buffers(tests):
    yield "an array of a fixed size", lines_with(r"\[[\w<>:]+(?:\([^\]]*\))?; [\w* +]+\]", tests)
    yield "a count beside a buffer", lines_with(r"^    (?:pub(?:\(crate\))? )?(?:count|links|len|length): usize,", tests, re.M)
    yield "an index made of two", lines_with(r"\w+ \* 32 \+ \w+|\* BERTHS \+", tests)
    yield "three or more slices of one length as parameters", [(p, f"{n}({', '.join(ps)})") for p, n, ps, cs, _ in functions(tests) if sum("length" in c and "≡ length" in c for c in cs) >= 2]


def steps(tests):
    yield "function pointers and dyn", lines_with(r"\bdyn \w+|: fn\(|\[fn\(", tests)
    yield "a match on a step", lines_with(r"match self\.(?:stage|state|step)\b", tests)
    yield "traits with one method", lines_with(r"^pub(?:\(crate\))? trait \w+", tests, re.M)


POINTS = {1: options, 2: twins, 3: loops, 4: handwritten, 5: together, 6: buffers, 7: steps}


def main():
    tests = "--tests" in sys.argv
    chosen = [int(a) for a in sys.argv[1:] if a.isdigit()] or sorted(POINTS)
    totals = []
    for point in chosen:
        for kind, places in POINTS[point](tests):
            places = list(places)
            print(f"point {point}, {kind}: {len(places)}")
            for place, text in places:
                print(f"    {place}: {text[:160]}")
            totals.append((point, kind, len(places)))
    print()
    for point, kind, count in totals:
        print(f"{point}  {count:4}  {kind}")
    if len(chosen) == len(POINTS):
        for crate in sorted(glob.glob("crates/*")):
            files = glob.glob(crate + "/proofs/**/*.antt", recursive=True)
            if files:
                print(f"8  {sum(open(f).read().count(chr(10)) for f in files):4}  lines of proofs in {crate.split('/')[1]} ({len(files)} files)")


main()
