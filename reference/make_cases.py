#!/usr/bin/env python3
"""Writes the cases on which `simulate_cases` is run, and what it must print.

    reference/make_cases.py

writes crates/simulate_cases/stdin and crates/simulate_cases/stdout; the same each time. stdin is the scripts with a
byte 0x1E between each two; stdout is, for each, the line `script N` and its transcript by reference/simulate.py.
"""
import os
import sys

sys.dont_write_bytecode = True
import generate
import simulate

ROOT = os.path.join(os.path.dirname(os.path.abspath(__file__)), "..")
SEPARATOR = b"\x1e"
TOP = 2**64 - 1

WORKED = b"cluster 5 4 2 rendezvous table 4\ncal 0 12 250\njoin 4\nstep\nget 0\nleave 2\nstep\n"
STORIES = ["retire-with-a-late-write", "full-store-stops-a-move", "store-added-under-load"]
FIRST = "cluster 5 4 2 rendezvous table 4"


def script(*lines):
    return "\n".join(lines).encode() + b"\n"


def play(text):
    """The script of lines that are separated by `; ` here."""
    return script(*text.split("; "))


def raw(*lines):
    """The script of lines that are bytes."""
    return b"\n".join(lines) + b"\n"


def told():
    """The worked example and the stories."""
    yield WORKED
    for name in STORIES:
        with open(os.path.join(ROOT, "scripts", name + ".script"), "rb") as story:
            yield story.read()


# ---------------------------------------------------------------- bytes and lines


def shapes():
    """Scripts that are odd as a whole: next to nothing, ends of lines, the longest there is."""
    first = FIRST.encode()
    yield from [b"", b"\n", b"\n\n", b" ", b"\0", b"\r\n", b"\t\n", b"\xff"]
    for start in [b"\n", b" ", b"\r\n", b"\xef\xbb\xbf"]:
        yield start + first + b"\n"
    for end in [b"", b"\n", b"\n\n", b"\n\n\n", b"\r\n", b"\n\r\n", b" \n", b"\rstep\r", b"\n" + first + b"\n"]:
        yield first + end
    for end in [b"", b"\n", b"\n\n", b"\n ", b"\r", b"\r\n", b"\n\n\nstep"]:
        yield first + b"\nstep" + end
    yield raw(first, *[b""] * 1010)
    for length, end in [(16384, b"\nget 0"), (16384, b"\nget 0\n"), (16385, b"\nget 0\n")]:
        start = raw(first, b"cal 0 12 250")
        yield start + b"x" * (length - len(start) - len(end)) + end
    busy = raw(first, *[b"cal 18446744073709551615 4294967295 1000000"] * 371)
    yield (busy + b"get 18446744073709551615\nst").ljust(16384, b"x")


def sixteen_full_stores():
    """The most that a script can ask for: 16 stores of cap 64, filled, with one leaving and coming back."""
    lines = ["cluster 16 16 4 rendezvous mixed 64"]
    lines += [f"cal {key} 1 1" for key in range(250)]
    lines += ["leave 9"] + ["step"] * 251 + ["join 9"] + ["step"] * 251
    yield script(*lines)


# ---------------------------------------------------------------- broken lines

COMMANDS = ["cal 7 12 250", "read 8 9 valid", "read 8 9 saturated", "read 8 0 missing", "get 7", "del 70", "join 4",
            "leave 3", "step"]
BYTES = [b" ", b"0", b"9", b"x", b"E", b"\t", b"\r", b"\0", b"+", b"-", b".", b"/", b":", b"\x7f", b"\x80", b"\xc3\xa9"]
NUMBERS = ["0", "00", "01", "007", "10", "", "+7", "-7", "-0", "7.0", "1e3", "0x7", "1_0", "7,", "x", "7x", " 7",
           "18446744073709551614", "18446744073709551615", "18446744073709551616", "18446744073709551620",
           "18446744073709551700", "18446744073709552000", "18446744073710000000", "20000000000000000000",
           "10000000000000000000", "99999999999999999999", "9999999999999999999", "184467440737095516150",
           "018446744073709551615", "1" * 60, "\u0667", "\uff17"]
VERBS = ["", "c", "ca", "call", "cals", "Cal", "CAL", "cluster", "g", "ge", "gett", "gut", "put", "set", "d", "de",
         "delete", "dle", "j", "jo", "joi", "joins", "l", "lea", "leav", "leaves", "r", "re", "rea", "reads", "red",
         "s", "st", "ste", "steps", "stop", "step7", "x", "#", "7", "-", "ok"]
WORDS = ["", "v", "va", "val", "vali", "validd", "valid7", "Valid", "VALID", "value", "s", "saturate", "saturatedd",
         "satin", "m", "missin", "missings", "mixed", "0", "x", "valid ", "valid valid", "valid\r", "none"]


def unique(lines):
    return list(dict.fromkeys(lines))


def spoilt(line):
    """A line cut off at every byte, without each byte, and with each odd byte put in or in place of another."""
    line = line.encode()
    cut = [line[:n] for n in range(len(line))]
    without = [line[:n] + line[n + 1 :] for n in range(len(line))]
    inserted = [line[:n] + byte + line[n:] for n in range(len(line) + 1) for byte in BYTES]
    replaced = [line[:n] + byte + line[n + 1 :] for n in range(len(line)) for byte in BYTES]
    return unique(cut + without), unique(inserted), unique(replaced)


def broken_commands():
    """Each command, broken at each byte in every way."""
    first = FIRST.encode()
    for command in COMMANDS:
        cut, inserted, replaced = spoilt(command)
        yield raw(first, *cut)
        if command not in ("read 8 9 saturated", "read 8 0 missing"):
            yield raw(first, *inserted)
            yield raw(first, *replaced)


def broken_words():
    """Each word of each command, replaced by words that are wrong in it, and some that are right."""
    for command in ["cal 7 12 250", "read 8 9 valid", "get 7", "del 7", "join 4", "leave 3"]:
        words = command.split(" ")
        for place in range(1, len(words)):
            odd = WORDS if words[place] == "valid" else NUMBERS
            yield script(FIRST, *[" ".join(words[:place] + [word] + words[place + 1 :]) for word in odd])
    for rest in ["", " ", " 7", " 7 8 9", " 7 8 valid"]:
        yield script(FIRST, *[verb + rest for verb in VERBS])
    legal = ["cal 7 12 250", "read 8 9 valid", "read 8 9 saturated", "read 8 0 missing", "get 7", "del 7", "join 9",
             "leave 9", "step"]
    for end in [" ", " 7", "\r", "\t", "\0", ";", "\u00a0", "\u2028"]:
        yield script(FIRST, *[line + end for line in legal])
    for start in [" ", "\t", "# ", "2 ", "\ufeff"]:
        yield script(FIRST, *[start + line for line in legal])
    for space in ["  ", "\t", "", ",", "\u00a0"]:
        yield script(FIRST, *[line.replace(" ", space, 1) for line in legal])
        yield script(FIRST, *[space.join(line.rsplit(" ", 1)) for line in legal])
    for turn in [str.upper, str.capitalize, lambda line: line + " " + line, lambda line: line[::-1]]:
        yield script(FIRST, *map(turn, legal))


# ---------------------------------------------------------------- line 1


def broken_first_lines():
    """Line 1, broken: each is a script of its own, with a line behind it that must print nothing."""
    cut, inserted, replaced = spoilt(FIRST)
    some = cut + inserted[::7] + replaced[::7]
    words = FIRST.split(" ")
    policies = ["", "r", "rendezvou", "rendezvouss", "Rendezvous", "j", "jum", "jumps", "jumprendezvous", "hash", "4"]
    kinds = ["", "t", "tabl", "tables", "tree", "l", "lo", "logs", "lag", "m", "mixe", "mixedd", "Table", "mix", "7"]
    verbs = ["", "Cluster", "CLUSTER", "clusters", "cal", "c", "clutter"]
    for place in range(1, len(words)):
        odd = {4: policies, 5: kinds}.get(place, NUMBERS)
        some += [" ".join(words[:place] + [word] + words[place + 1 :]).encode() for word in odd]
    some += [(verb + FIRST[7:]).encode() for verb in verbs]
    some += [command.encode() for command in COMMANDS]
    some += [FIRST.encode() + end for end in [b" ", b" 4", b"\r", b"\0", b"x", b"\t", b" table"]]
    for line in unique(some):
        yield line + b"\nget 0\n"


def limits():
    """Line 1 at, and beyond, each limit."""
    far = [2**8 + 1, 2**16 + 1, 2**32, 2**32 + 1, 2**63, TOP]
    for policy, most in [("rendezvous", 4), ("jump", 1)]:
        for stores, members, copies, cap in (
            [(s, 1, 1, 4) for s in [0, 1, 2, 16, 17, *far]]
            + [(5, m, 1, 4) for m in [0, 1, 5, 6, *far]]
            + [(16, 16, 1, 1), (1, 1, 1, 64), (17, 17, 1, 4), (0, 0, 1, 4), (0, 0, 0, 0), (1, 2, 1, 4), (16, 17, 1, 4)]
            + [(5, 5, r, 4) for r in [0, 1, most, most + 1, *far]]
            + [(5, 1, most, 4), (1, 1, most, 1), (5, 1, most + 1, 4)]
            + [(5, 5, 1, cap) for cap in [0, 1, 64, 65, *far]]
        ):
            kind = ["table", "log", "mixed"][(stores + members + copies + cap) % 3]
            yield script(f"cluster {stores} {members} {copies} {policy} {kind} {cap}", "get 0")
    yield script("cluster 99 99 99 jump table 99 ", "get 0")
    yield script("cluster 99 99 99 jump table", "get 0")
    yield script("cluster 99 99 99 jump tree 99", "get 0")


# ---------------------------------------------------------------- refusals


def refusals():
    """Each refusal for each of its reasons, what comes first where several hold, and that nothing has changed."""
    for kind in ["table", "log", "mixed"]:
        # 4 at a write: a cap met exactly; a key that is stored is written all the same
        yield play(f"cluster 1 1 1 jump {kind} 1; cal 7 12 250; cal 8 12 250; cal 7 13 251; read 7 5 valid; "
                   "read 8 5 valid; get 7; get 8; del 7; cal 8 1 1; cal 7 1 1; get 8; get 7")
        yield play(f"cluster 2 2 1 rendezvous {kind} 2; cal 0 1 1; cal 2 1 1; cal 4 1 1; cal 1 1 1; cal 3 1 1; "
                   "cal 5 1 1; cal 4 1 1; cal 6 1 1; del 3; cal 5 1 1; cal 7 1 1")
        # 4 where a later store of the list is full, or an earlier: the first full one is named, no store is written
        yield play(f"cluster 3 3 2 rendezvous {kind} 1; cal 2 1 1; cal 1 1 1; cal 21 1 1; cal 27 1 1; cal 23 1 1; "
                   "get 1; get 27; del 2; cal 1 1 1; cal 21 1 1; cal 0 1 1")
        yield play(f"cluster 3 3 3 rendezvous {kind} 2; cal 0 1 1; cal 1 1 1; cal 2 1 1; cal 3 1 1; cal 4 1 1; "
                   "cal 0 2 2; del 1; cal 3 1 1")
        yield play(f"cluster 3 2 4 rendezvous {kind} 2; cal 0 1 1; cal 1 1 1; cal 2 1 1; cal 3 1 1; join 2; "
                   "cal 2 1 1; step; step; step; cal 2 1 1")
        # 4 at a step, again and again until there is room; a refused step leaves the cursor
        yield play(f"cluster 2 2 1 rendezvous {kind} 1; cal 0 1 1; cal 1 2 2; leave 1; step; step; step; get 1; "
                   "cal 1 3 3; step; del 0; step; get 1; step; step")
        yield play(f"cluster 2 2 1 rendezvous {kind} 1; cal 0 1 1; cal 1 2 2; leave 1; step; step")
        yield play(f"cluster 2 2 1 rendezvous {kind} 1; cal 1 2 2; cal 2 1 1; leave 1; step; del 1; step; step")
        yield play(f"cluster 2 2 1 rendezvous {kind} 1; cal 1 2 2; cal 2 1 1; leave 1; step; del 2; cal 4 7 7; step; "
                   "del 4; step; cal 4 7 7; step; get 1")
        yield play(f"cluster 3 2 1 rendezvous {kind} 2; cal 0 1 1; cal 1 1 1; cal 3 1 1; cal 4 1 1; join 2; step; "
                   "step; step; cal 12 1 1; cal 8 1 1; step; del 0; cal 8 1 1; step; step; step")
        # 12 before 4, and what was there stays
        yield play(f"cluster 2 1 1 jump {kind} 1; cal 5 1 1; cal 6 4294967296 1; cal 6 4294967295 1; cal 6 1 0; "
                   "cal 6 1 1000001; read 6 1 missing; read 6 0 missing; cal 5 4294967296 1; get 5; "
                   "cal 5 4294967295 1000000; get 5; cal 5 0 1; get 5; read 5 1 missing; get 5; read 5 0 missing; "
                   "get 5; read 5 18446744073709551615 saturated; get 5; read 5 0 valid; get 5")
    # 12 at each limit of each part
    firmwares = [0, 1, 2**31, 2**32 - 1, 2**32, 2**32 + 1, 2**33, TOP]
    factors = [0, 1, 999999, 1000000, 1000001, 2**32, 2**32 + 1, TOP]
    yield script("cluster 2 1 1 jump table 4", *[f"cal 1 {f} {p}" for f in firmwares for p in factors], "get 1")
    for state in ["valid", "saturated", "missing"]:
        amounts = [0, 1, 2, 256, 2**32, 2**63, TOP]
        yield script("cluster 2 1 1 jump log 4", *[f"{verb} {rest}" for ml in amounts
                                                   for verb, rest in (("read", f"1 {ml} {state}"), ("get", "1"))])
    # 5 for each reason, 7 before 5 and 11, 5 before 11
    yield play("cluster 4 2 1 rendezvous table 4; join 0; join 1; join 4; join 5; join 16; join 17; join 256; "
               "join 4294967298; join 18446744073709551615; leave 2; leave 3; leave 4; leave 16; leave 17; leave 256; "
               "leave 4294967296; leave 18446744073709551615; join 2; join 3; join 2; join 0; join 9; leave 0; "
               "leave 2; leave 9; step; step; leave 0; step; leave 1; step; leave 2; leave 0; leave 3; join 0; step; leave 2; "
               "step; leave 0")
    # 11 under jump, with a roster whose last is not the greatest
    yield play("cluster 4 3 1 jump log 4; leave 0; leave 1; leave 3; leave 4; leave 2; leave 1; step; leave 0; "
               "leave 2; leave 1; step; leave 0; leave 1; join 2; step; join 0; join 3; step; leave 0; leave 2; "
               "leave 3; step; leave 0; leave 2; step; leave 0; step")
    yield play("cluster 4 2 1 jump mixed 4; cal 1 1 1; cal 4 1 1; join 3; step; step; step; join 2; step; step; step; "
               "leave 3; leave 2; step; step; step; leave 2; leave 3; step; step; step; leave 0; leave 1")
    yield play("cluster 1 1 1 jump table 4; leave 0; leave 1; join 0; join 1; step; get 0; del 0; step")
    yield play("cluster 1 1 4 rendezvous table 4; leave 0; leave 1; join 0; join 1; step; cal 0 1 1; step")


# ---------------------------------------------------------------- moves

LISTS = [(policy, copies) for policy, most in (("rendezvous", 4), ("jump", 1)) for copies in range(1, most + 1)]


def lives():
    """A life of a service for each policy, kind and number of copies: writes, a store that joins, one that leaves."""
    keys = [0, 1, 5, 2**31, 2**62, 2**63, TOP - 1, TOP]
    for policy, copies in LISTS:
        for kind in ["table", "log", "mixed"]:
            lines = [f"cluster 5 3 {copies} {policy} {kind} 9"]
            lines += [f"cal {key} {n} {n + 100}" for n, key in enumerate(keys)] + ["join 4"]
            for n in range(len(keys) + 1):
                lines += ["step", f"read {keys[(n * 3) % 8]} {n} saturated", f"get {keys[(n * 5) % 8]}"]
            lines += ["step", "step", "join 3"] + ["step"] * 9 + ["leave 3" if policy == "jump" else "leave 0"]
            for n in range(len(keys)):
                lines += ["step", f"del {keys[(n * 3) % 8]}" if n % 2 else f"cal {keys[(n * 3) % 8]} 70 {n + 1}"]
            lines += ["step", "step", "step"] + [f"get {key}" for key in keys]
            yield script(*lines)


def moments():
    """One write, of each sort, of each key, at each moment of a move; then the rest of the move, and every key read."""
    keys = [0, 3, 6, TOP]
    acts = [f"cal {key} 99 999" for key in keys + [1, 4, TOP - 1]] + [f"del {key}" for key in keys]
    stored = [f"cal {key} 1 {n + 1}" for n, key in enumerate(keys)]
    looked = [f"get {key}" for key in keys]
    for first, change in [("4 3 2 rendezvous mixed 8", "join 3"), ("3 3 2 rendezvous mixed 4", "leave 0")]:
        for moment in range(len(keys) + 1):
            for act in acts:
                before, after = ["step"] * moment, ["step"] * (len(keys) + 1 - moment)
                written = [act, f"get {act.split(' ')[1]}"]
                yield script(f"cluster {first}", *stored, change, *before, *written, *after, *looked, "step")


def at_the_cursor():
    """Writes just below, at and just above the cursor, which a step must pass over or take."""
    for policy in ["rendezvous", "jump"]:
        for new in [9, 10, 11, 12]:
            begun = f"cluster 4 3 1 {policy} mixed 8; cal 10 1 1; cal 30 1 1; join 3; step; cal {new} 2 2"
            yield play(f"{begun}; get {new}; step; step; step; get {new}")
            yield play(f"{begun}; del {new}; step; step; get {new}")


def ends():
    """Where a script may stop: before the first step, between, past every key, and after the last."""
    for kind in ["table", "log", "mixed"]:
        begun = f"cluster 4 3 2 rendezvous {kind} 4; cal {TOP} 1 1; cal 0 2 2; read {TOP - 1} 3 valid; join 3"
        for steps in range(5):
            yield play(begun + "; step" * steps)
        past = begun + "; step; step; step"
        yield play(f"{past}; cal {TOP} 7 7; get {TOP}; get 0; join 3; leave 3")
        yield play(f"{past}; del {TOP}; get {TOP}; step; step")
        yield play(f"{past}; del {TOP}; cal {TOP} 8 8; cal 0 9 9; cal 5 5 5; step; get {TOP}; get 5")
    yield play(f"cluster 2 1 1 jump table 1; cal {TOP} 1 1; join 1; step; cal 4 1 1; cal 5 1 1; del 4; cal 0 1 1")
    yield play(f"cluster 2 1 1 rendezvous log 1; cal {TOP} 1 1; join 1; step; cal 0 1 1; cal 2 1 1; step; cal 2 1 1")
    yield play(f"cluster 2 2 2 rendezvous log 1; cal {TOP} 1 1; leave 0; cal {TOP - 1} 1 1; step; step; get 0; step")
    yield play("cluster 3 1 1 rendezvous mixed 4; join 2; step; join 1; step; leave 0; step; cal 0 1 1; cal 1 1 1")
    yield play("cluster 3 1 1 rendezvous mixed 4; cal 5 1 1; del 5; join 2; step; step; join 1")


def worn():
    """Stores written so often that a log runs out of slots, and a table of cells that were never used."""
    for kind in ["table", "log", "mixed"]:
        for cap in [1, 2, 5]:
            lines = [f"cluster 3 2 2 rendezvous {kind} {cap}"]
            for n in range(40):
                key = (n * 7) % (cap + 2) * (cap + 8)
                lines += [f"cal {key} {n} {n + 1}"] if n % 3 else [f"del {key}", f"read {key} {n} valid"]
                lines += ["join 2"] if n == 12 else ["step"] if n % 5 == 4 else []
            lines += ["step"] * 4 + [f"get {key * (cap + 8)}" for key in range(cap + 2)]
            yield script(*lines)
    for cap in [63, 64]:
        filled = "; ".join(f"cal {key} 1 1" for key in range(cap + 1))
        turned = f"del 3; cal {cap} 1 1; cal 3 1 1; join 1" + "; step" * (cap + 1)
        yield play(f"cluster 2 1 1 jump log {cap}; {filled}; {turned}")


def drawn():
    """Random scripts."""
    index = found = 0
    while found < 80:
        text = generate.script(1, index)
        index += 1
        if 100 <= len(text) <= 1100 and SEPARATOR not in text:
            found += 1
            yield text


GROUPS = [told, shapes, sixteen_full_stores, broken_commands, broken_words, broken_first_lines, limits, refusals, lives,
          moments, at_the_cursor, ends, worn, drawn]


def main():
    scripts = [text for group in GROUPS for text in group()]
    assert not any(SEPARATOR in text for text in scripts)
    printed = [b"script %d\n" % number + simulate.transcript(text) for number, text in enumerate(scripts, 1)]
    for name, data in (("stdin", SEPARATOR.join(scripts)), ("stdout", b"".join(printed))):
        with open(os.path.join(ROOT, "crates", "simulate_cases", name), "wb") as out:
            out.write(data)
        print(f"{name}: {len(scripts)} scripts, {len(data)} bytes")


if __name__ == "__main__":
    main()
