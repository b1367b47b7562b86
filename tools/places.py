#!/usr/bin/env python3
"""Lists the places in crates/*/src that the design pass counts.

    tools/places.py POINT        POINT is 1 to 8; prints one place a line, then how many
    tools/places.py              the counts alone

Points 1, 3, 4, 6 and 7 are searches for text. Point 2 compares the bodies of functions with their names, types and
numbers taken out. Point 5 counts clauses, and pairs of parameters, that stand in three or more functions of a crate.
Point 8 counts what stands in proofs/. docs/DESIGN-PASS.md says of each place what became of it.
"""
import collections
import itertools
import pathlib
import re
import sys

ROOT = pathlib.Path(__file__).resolve().parent.parent
TESTS = {"store_tests", "log_tests", "placement_tests"}


def sources():
    for path in sorted(ROOT.glob("crates/*/src/**/*.rt")):
        yield path.relative_to(ROOT), path.read_text()


def lines(pattern):
    """The lines of code, comments aside, in which the pattern is found."""
    found = []
    for path, text in sources():
        for number, line in enumerate(text.split("\n"), 1):
            if not line.lstrip().startswith("//") and re.search(pattern, line):
                found.append(f"{path}:{number}: {line.strip()}")
    return found


def functions():
    """Each function with a body: its file, name, parameters and body."""
    for path, text in sources():
        for m in re.finditer(r"\bfn (\w+)(?:<[^({]*>)?\(([^)]*)\)[^;{]*", text):
            at, body = m.end(), None
            # the body is the first brace that stands alone at the function's indentation, or ends the signature
            start = re.compile(r"^ *\{\n|\{\n", re.M).search(text, at - 1)
            if start:
                depth, i = 0, start.end() - 2
                while i < len(text):
                    depth += {"{": 1, "}": -1}.get(text[i], 0)
                    if depth == 0:
                        break
                    i += 1
                body = text[start.end() - 2 : i + 1]
            names = [p.strip().split(":")[0].replace("mut ", "") for p in m.group(2).split(",") if ":" in p]
            yield path, m.group(1), names, body


def enums_flags_codes():
    found = lines(r"^\s*(pub(\(crate\))? )?enum ")
    found += lines(r"^\s*(pub(\(crate\))? )?\w+: bool,$")
    found += lines(r"\bkind: u64|-> u8\b|^const (PUT|REMOVAL)\b|struct OutOfMemory")
    found += lines(r"(None|Err\(\w*\)) => (return )?(None|Err\()|Ok\(\w+\) => Ok\(|Some\(\w+\) => (Some|Ok)\(")
    return found


def twins():
    groups = collections.defaultdict(list)
    for path, name, _, body in functions():
        if body is None or body.count("\n") < 3 or path.parts[1] in TESTS:
            continue
        shape = re.sub(r"//[^\n]*", "", body)
        shape = re.sub(r"\"[^\"]*\"", "S", shape)
        shape = re.sub(r"\b(?!if\b|else\b|match\b|for\b|while\b|return\b|let\b|mut\b|in\b)\w+\b", "x", shape)
        shape = re.sub(r"x(::x)+", "x", re.sub(r"\s+", "", shape))
        groups[shape].append(f"{path}: {name}")
    return [" = ".join(sorted(g)) for g in groups.values() if len(g) > 1]


def loops():
    return lines(r"^\s*(for .*\.\.|while |loop \{)") + lines(r"^\s*\w+ [+-]= 1;|^\s*\w+ = \w+ [+-] 1;")


def by_hand():
    found = lines(r"^\s*impl.*\b(Order|Display|From<.*>|TryFrom<.*>|Debug|PartialEq|Clone) for ")
    found += lines(r"\bfn (number|word|of_word|call|of|from_bytes|to_bytes|place|fault_of|statement_of|closing)\(")
    found += lines(r"\bfn (write|print|add|describe)_?\w*(<.*>)?\(")
    return found


def together():
    found = []
    for crate in sorted({p.parts[1] for p, _ in sources()} - TESTS):
        clauses, pairs = collections.Counter(), collections.Counter()
        for path, text in sources():
            if path.parts[1] == crate:
                for m in re.finditer(r"^\s*(requires|ensures)(?: \w+)? (\{.*\})\s*$", text, re.M):
                    clauses[m.group(1) + " " + m.group(2)] += 1
        for path, _, names, _ in functions():
            if path.parts[1] == crate:
                for pair in itertools.combinations(sorted(set(n.lstrip("_") for n in names)), 2):
                    pairs[pair] += 1
        found += [f"{crate}: {n} contracts: {c}" for c, n in sorted(clauses.items()) if n >= 3]
        found += [f"{crate}: {n} functions: {a}, {b}" for (a, b), n in sorted(pairs.items()) if n >= 3]
    return found


def buffers():
    return lines(r"\[0; \d|\}; \d+\]|\b(used|len|end|start|left|few|n): usize|answers: (Vec|&\[)")


def switches():
    return lines(r"macro_rules!|match self(\.\w+)? \{|match \w+ \{$|enum (Ending|Marked|Policy)")


def proofs():
    found = []
    for crate in sorted(ROOT.glob("crates/*/")):
        answers = sum(len(re.findall(r"^pub \S+ : goal", f.read_text(), re.M)) for f in crate.glob("proofs/**/Answers.antt"))
        lemmas = sum(len(re.findall(r"^(?:abbrev |unfoldable )?(?:pub )?[\w'+-]+ : ", f.read_text(), re.M)) for f in crate.glob("proofs/*.antt"))
        if answers + lemmas:
            found.append(f"{crate.name}: {answers} answers, {lemmas} lemmas")
    return found


POINTS = [enums_flags_codes, twins, loops, by_hand, together, buffers, switches, proofs]

if __name__ == "__main__":
    wanted = [int(a) for a in sys.argv[1:]]
    for number, point in enumerate(POINTS, 1):
        found = point()
        if number in wanted:
            print("\n".join(found))
        if not wanted or number in wanted:
            print(f"point {number}: {len(found)}")
