#!/usr/bin/env python3
"""What `simulate` must print, by another program: one map, a roster, perhaps a change, and a count of copies.

It follows docs/script.md, docs/machine.md, docs/placement.md and docs/service.md, shares no code or table with the
crates, and models no store: what a store holds is worked out from the map.

    reference/simulate.py < script > transcript
"""
import re
import sys
from functools import lru_cache

LONGEST_SCRIPT = 16384
PAST = 2**64  # the cursor that lies above every key


class Refused(Exception):
    """A refusal: its number, and what is printed behind it."""


# ---------------------------------------------------------------- grammar

NUMBER = re.compile(rb"0|[1-9][0-9]{0,19}")
CLUSTER = [
    [{b"cluster"}, NUMBER, NUMBER, NUMBER, {b"rendezvous", b"jump"}, {b"table", b"log", b"mixed"}, NUMBER],
]
COMMANDS = [
    [{b"cal"}, NUMBER, NUMBER, NUMBER],
    [{b"read"}, NUMBER, NUMBER, {b"valid", b"saturated", b"missing"}],
    [{b"get", b"del", b"join", b"leave"}, NUMBER],
    [{b"step"}],
]


def whole(word, part):
    """Whether the bytes are a word of this part."""
    if part is NUMBER:
        return NUMBER.fullmatch(word) is not None and int(word) < 2**64
    return word in part


def opens(word, part):
    """Whether the bytes, perhaps none, are the beginning of a word of this part, or all of it."""
    if part is NUMBER:
        return word == b"" or whole(word, part)
    return any(full.startswith(word) for full in part)


def begins(start, forms):
    """Whether some legal line begins with these bytes."""
    *before, last = start.split(b" ")
    return any(
        len(before) < len(form) and all(map(whole, before, form)) and opens(last, form[len(before)])
        for form in forms
    )


def column(line, forms):
    """The first byte, from 1, with which the line stops beginning a legal one, or one past its end."""
    return next((n for n in range(1, len(line) + 1) if not begins(line[:n], forms)), len(line) + 1)


def read(line, forms):
    """The words of a legal line: numbers as numbers, the others as text."""
    words = line.split(b" ")
    for form in forms:
        if len(words) == len(form) and all(map(whole, words, form)):
            return [int(w) if part is NUMBER else w.decode() for w, part in zip(words, form)]
    raise Refused(1, column(line, forms))


# ---------------------------------------------------------------- placement


def rendezvous(key, roster, copies):
    digest = (key ^ (key >> 31) ^ (key >> 62)) % 2**31
    weights = {}
    for store in roster:
        seed = (1103515245 * store + 12345) % 2**31
        weights[store] = (1103515245 * (seed ^ digest) + 12345) % 2**31
    return sorted(sorted(roster), key=weights.get, reverse=True)[:copies]


def jump(key, roster, copies):
    position, following, state = 0, 0, key
    while following < len(roster):
        position = following
        state = (state * 2862933555777941757 + 1) % 2**64
        following = ((position + 1) * 2**31) // ((state >> 33) + 1)
    return [roster[position]]


POLICIES = {"rendezvous": rendezvous, "jump": jump}
MOST_COPIES = {"rendezvous": 4, "jump": 1}


@lru_cache(maxsize=1 << 16)
def listed(policy, key, roster, copies):
    return tuple(POLICIES[policy](key, roster, copies))


# ---------------------------------------------------------------- the machine


class Machine:
    def __init__(self, stores, members, copies, policy, cap):
        if not (1 <= stores <= 16 and 1 <= members <= stores and 1 <= copies <= MOST_COPIES[policy] and 1 <= cap <= 64):
            raise Refused(2)
        self.stores, self.copies, self.policy, self.cap = stores, copies, policy, cap
        self.map = {}  # what `get` prints, by key
        self.roster = tuple(range(members))
        self.target = None  # the roster to come, in a change
        self.cursor = 0  # keys below it have moved, in a change
        self.changing = None  # the store that joins or leaves
        self.copied = 0

    def under(self, roster, key):
        return listed(self.policy, key, roster, self.copies)

    def place(self, key):
        moved = self.target is not None and key < self.cursor
        return self.under(self.target if moved else self.roster, key)

    def load(self, store):
        return sum(store in self.place(key) for key in self.map)

    def put(self, key, entry):
        if key in self.map:
            self.map[key] = entry
            return "replaced"
        for store in self.place(key):
            if self.load(store) >= self.cap:
                raise Refused(4, store)
        self.map[key] = entry
        return "new"

    def cal(self, key, firmware, factor):
        if firmware >= 2**32 or not 1 <= factor <= 1000000:
            raise Refused(12)
        return self.put(key, f"cal {firmware} {factor}")

    def read(self, key, millilitres, state):
        if state == "missing" and millilitres != 0:
            raise Refused(12)
        return self.put(key, f"read {millilitres} {state}")

    def get(self, key):
        return self.map.get(key, "none")

    def delete(self, key):
        return "none" if self.map.pop(key, None) is None else "gone"

    def join(self, store):
        if self.target is not None:
            raise Refused(7)
        if store >= self.stores or store in self.roster:
            raise Refused(5)
        return self.open(self.roster + (store,), store)

    def leave(self, store):
        if self.target is not None:
            raise Refused(7)
        if store not in self.roster:
            raise Refused(5)
        if len(self.roster) == 1 or (self.policy == "jump" and store != self.roster[-1]):
            raise Refused(11)
        return self.open(tuple(s for s in self.roster if s != store), store)

    def open(self, target, store):
        self.target, self.cursor, self.changing = target, 0, store
        return f"open {store}"

    def step(self):
        if self.target is None:
            raise Refused(8)
        key = min((k for k in self.map if k >= self.cursor), default=None)
        if key is None:
            self.roster, self.target, self.changing = self.target, None, None
            return "done"
        old, new = self.under(self.roster, key), self.under(self.target, key)
        gained, lost = set(new) - set(old), set(old) - set(new)
        assert len(gained) <= 1 and len(lost) <= 1
        for store in gained:
            if self.load(store) >= self.cap:
                raise Refused(4, store)
        self.cursor = key + 1
        self.copied = (self.copied + len(gained)) % 2**64
        names = [str(*some) if some else "-" for some in (gained, lost)]
        return f"step {key} {names[0]} {names[1]}"

    def ending(self):
        lines = [f"store {s} {self.load(s)}" for s in range(self.stores)] + [f"copies {self.copied}"]
        if self.target is None:
            return lines + ["settled"]
        return lines + [f"moving {self.changing} {'past' if self.cursor == PAST else self.cursor}"]


# ---------------------------------------------------------------- the run


def opened(line):
    """The machine that line 1 opens."""
    _, stores, members, copies, policy, _, cap = read(line, CLUSTER)
    return Machine(stores, members, copies, policy, cap)


def command(machine, line):
    """What a later line prints behind its number."""
    try:
        verb, *operands = read(line, COMMANDS)
        return getattr(machine, "delete" if verb == "del" else verb)(*operands)
    except Refused as refusal:
        return shown(refusal)


def shown(refusal):
    return " ".join(["no", *map(str, refusal.args)])


def lines(script):
    """The lines of a script, without their LF."""
    rows = script.split(b"\n")
    return rows[:-1] if len(rows) > 1 and rows[-1] == b"" else rows


def transcript(script):
    """What `simulate` prints for a script: bytes to bytes."""
    if len(script) > LONGEST_SCRIPT:
        return b"0 no 2\n"
    first, *rest = lines(script)
    try:
        machine = opened(first)
    except Refused as refusal:
        return f"1 {shown(refusal)}\n".encode()
    printed = ["1 ok"]
    printed += [f"{number} {command(machine, line)}" for number, line in enumerate(rest, 2)]
    return "\n".join(printed + machine.ending() + [""]).encode()


if __name__ == "__main__":
    sys.stdout.buffer.write(transcript(sys.stdin.buffer.read()))
