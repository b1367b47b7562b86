#!/usr/bin/env python3
# Respells this repository's own definitions and lemmas as the language now spells names: words in snake case, types
# in camel case. Run once at the top of the checkout, after the kit's port.py. It renames only what specs/ and proofs/
# declare; names that the prover makes (goals, steps) and names of src/ stay.
import collections
import glob
import re
import sys

NAME = re.compile(r"[A-Za-z_0-9'\u2080-\u2089\u0370-\u03ff\u2115\u2124-]+")
DECL = re.compile(
    r"\s*(?:(?:abbrev pub|unfoldable pub|pub record|pub data|pub|abbrev|unfoldable|record|data)\s+)?"
    r"([^\s(){}:;,.«»λ]+)\s*(?:\(.*)?:"
)
# names that the rule alone would spell badly
ODD = {"getD-unpack": "get_or_unpack", "putMid-over": "put_mid_over"}


def files(*endings):
    return sorted(f for e in endings for f in glob.glob(f"crates/*/**/*{e}", recursive=True))


def respelled(name):
    if name in ODD:
        return ODD[name]
    if name[0].isupper():
        return "".join(p[:1].upper() + p[1:] for p in name.split("-"))
    return name.replace("-", "_")


def declared():
    names = set()
    for f in files(".antt"):
        for line in open(f):
            code = line.split("-- ")[0]
            m = DECL.match(code)
            if m and "-" in m[1][1:] and not re.search(r":\s*goal\.", code) and not m[1].startswith("-"):
                names.add(m[1])
    for f in files(".antt", ".rt"):
        for line in open(f):
            if "use " in line:
                names.update(n for n in re.findall(r" as ([^\s,}]+)", line) if "-" in n)
    return names


# what a file imports from the kit's library, which keeps its spelling there
def foreign(text):
    names = set()
    for path, items in re.findall(r"use ([^\s;{]+)\.\{([^}]*)\}", text):
        if path.startswith("Rattle.std.") or not path.startswith("Rattle."):
            names.update(NAME.findall(items))
    return names


# the parts of a line in which names are renamed: no comment, no text in quotes
def turned(line, table, comment):
    at = line.find(comment)
    code, rest = (line[:at], line[at:]) if at >= 0 else (line, "")
    parts = re.split(r'("(?:[^"\\]|\\.)*")', code)
    for i in range(0, len(parts), 2):
        parts[i] = NAME.sub(lambda m: table.get(m[0], m[0]), parts[i])
    return "".join(parts) + rest


def main():
    table = {n: respelled(n) for n in declared()}
    back = collections.defaultdict(list)
    for old, new in table.items():
        back[new].append(old)
    tokens = {t for f in files(".antt", ".rt") for t in NAME.findall(open(f).read())}
    clash = [f"{n}: {o}" for n, o in back.items() if len(o) > 1 or n in tokens]
    print("\n".join(sorted(clash)), file=sys.stderr)
    if "--dry" in sys.argv:
        return
    for f in files(".antt", ".rt"):
        text = open(f).read()
        comment = "--" if f.endswith(".antt") else "//"
        theirs = foreign(text)
        ours = {o: n for o, n in table.items() if o not in theirs}
        new = "\n".join(turned(line, ours, comment) for line in text.split("\n"))
        if new != text:
            open(f, "w").write(new)
    for old in sorted(table):
        print(old, table[old])


main()
