#!/usr/bin/env python3
"""Random scripts, by seed and index, for comparing `simulate` with reference/simulate.py.

    reference/generate.py SEED INDEX    prints one script

The same seed and index give the same script on every machine. The writer runs what it writes on the reference machine
as it goes, only to know where the cursor stands, which keys are stored and whether a store is full, so that it can
write below, at and above the cursor, fill stores exactly, and step a change to its end.
"""
import sys

sys.dont_write_bytecode = True
import simulate

TOP = 2**64 - 1
EDGES = [0, 1, 2, 2**31 - 1, 2**31, 2**31 + 1, 2**32, 2**62, 2**63 - 1, 2**63, TOP - 2, TOP - 1, TOP]


class Dice:
    """SplitMix64: a stream of words that depends on nothing but its seed and index."""

    def __init__(self, seed, index):
        self.state = seed % 2**64
        self.state = (self.word() + index) % 2**64
        self.state = self.word()

    def word(self):
        self.state = (self.state + 0x9E3779B97F4A7C15) % 2**64
        z = self.state
        z = ((z ^ (z >> 30)) * 0xBF58476D1CE4E5B9) % 2**64
        z = ((z ^ (z >> 27)) * 0x94D049BB133111EB) % 2**64
        return z ^ (z >> 31)

    def below(self, n):
        return self.word() % n

    def between(self, low, high):
        return low + self.below(high - low + 1)

    def pick(self, choices):
        return choices[self.below(len(choices))]

    def chance(self, percent):
        return self.below(100) < percent

    def weighted(self, pairs):
        at = self.below(sum(weight for weight, _ in pairs))
        for weight, choice in pairs:
            if at < weight:
                return choice
            at -= weight


# ---------------------------------------------------------------- broken lines

BIG = ["18446744073709551616", "18446744073709551620", "18446744073709552000", "20000000000000000000",
       "99999999999999999999", "184467440737095516150", "100000000000000000000", "9" * 40]
ODD = ["+7", "-7", "-0", "7.0", "1e3", "0x7", "1_0", "1,000", "7x", "x7", "seven", "\u0667", "\uff17", "''"]
VERBS = ["put", "set", "gets", "Get", "GET", "gett", "delete", "dell", "reads", "calx", "stepp", "steps", "join2",
         "leaves", "cluster", "clust", "x", "#", "//", "7", "settled", "no", "ok"]
WRONG_BYTES = [0, 1, 9, 11, 13, 27, 30, 33, 43, 45, 46, 47, 48, 57, 58, 64, 65, 90, 95, 97, 122, 127, 128, 160, 255]


def broken(dice, line):
    """A legal line, spoilt in one way or another; once in a while it is legal still."""
    words = line.decode().split(" ")
    numbers = [i for i, w in enumerate(words) if w.isdigit()]
    place = dice.below(len(line) + 1)
    sort = dice.below(22)
    if sort < 4 and numbers:
        i = dice.pick(numbers)
        wrong = ["0" + words[i], "00" + words[i], dice.pick(BIG), dice.pick(BIG), dice.pick(ODD), dice.pick(ODD), ""]
        words[i] = dice.pick(wrong)
        return " ".join(words).encode()
    if sort == 4:
        return line.replace(b" ", b"  ", 1) if dice.chance(50) else b"  ".join(line.rsplit(b" ", 1))
    if sort == 5:
        return line + b" "
    if sort == 6:
        return b" " + line
    if sort == 7:
        return b" ".join(line.split(b" ")[:-1])
    if sort == 8:
        return line[:place]
    if sort == 9:
        return line + b" " + dice.pick([b"1", b"0", b"valid", b"step", b"x"])
    if sort == 10:
        words[0] = dice.pick(VERBS)
        return " ".join(words).encode()
    if sort == 11:
        words[0] = words[0][: dice.below(len(words[0]))]
        return " ".join(words).encode()
    if sort == 12:
        return words[0][: dice.between(0, len(words[0]))].encode()
    if sort == 13:
        return line.replace(b" ", b"\t", 1) if dice.chance(50) else line + b"\t"
    if sort == 14:
        return line + b"\r"
    if sort == 15:
        return b""
    if sort == 16:
        return line.upper() if dice.chance(30) else line[:place] + line[place : place + 1].upper() + line[place + 1 :]
    if sort == 17:
        return line[:place] + bytes([dice.pick(WRONG_BYTES)]) + line[place:]
    if sort == 18:
        return line[:place] + bytes([dice.pick(WRONG_BYTES)]) + line[place + 1 :]
    if sort == 19:
        return line[:place] + line[place + 1 :]
    if sort == 20:
        return line[:place] + "\u00e9\u2028\U0001f4a7".encode()[: dice.between(1, 9)] + line[place:]
    return bytes(b for b in (dice.below(256) for _ in range(dice.between(1, 30))) if b != 10)


# ---------------------------------------------------------------- line 1


def sizes(dice):
    """The words of a legal line 1 within its limits."""
    stores = dice.between(*dice.weighted([(12, (1, 2)), (60, (3, 6)), (20, (7, 12)), (8, (13, 16))]))
    members = max(1, stores - dice.weighted([(25, 0), (50, dice.between(1, 2)), (25, dice.below(stores))]))
    policy = dice.pick(["rendezvous", "rendezvous", "rendezvous", "jump"])
    copies = 1 if policy == "jump" else dice.weighted([(25, 1), (35, 2), (25, 3), (15, 4)])
    cap = dice.between(*dice.weighted([(20, (1, 1)), (50, (2, 4)), (22, (5, 12)), (6, (13, 63)), (2, (64, 64))]))
    return [stores, members, copies, policy, dice.pick(["table", "log", "mixed"]), cap]


def cluster(words):
    return " ".join(map(str, ["cluster", *words])).encode()


def beyond(dice, words):
    """A legal line 1 of which one number, or more, is beyond its limits."""
    words = list(words)
    far = [2**8, 2**8 + 1, 2**16 + 1, 2**32, 2**32 + 1, 2**63, TOP, TOP - 1]
    for _ in range(dice.pick([1, 1, 1, 2, 3])):
        at = dice.pick([0, 1, 2, 5])
        near = {0: 17, 1: words[0] + 1, 2: 5 if words[3] == "rendezvous" else 2, 5: 65}[at]
        words[at] = dice.weighted([(35, 0), (35, min(near, TOP)), (30, dice.pick(far))])
    return cluster(words)


# ---------------------------------------------------------------- the other lines


class Writer:
    def __init__(self, dice):
        self.dice = dice
        self.words = sizes(dice)
        stores, members, copies, policy, _, cap = self.words
        self.rows = [cluster(self.words)]
        self.size = len(self.rows[0]) + 1
        self.machine = simulate.opened(self.rows[0])
        self.keys = self.pool(cap)

    def pool(self, cap):
        """The keys that the script is about."""
        dice = self.dice
        small = list(range(dice.between(2, 12)))
        spaced = [dice.below(3) + i * (cap + 8) for i in range(dice.between(3, 10))]  # one cell of a table
        alike = [1, 2**31, 2**62, 2**32 | 3, 0, 2**31 | 2**62]  # few digests
        wide = [dice.word() for _ in range(dice.between(2, 8))]
        keys = dice.weighted([(40, small), (15, spaced), (10, alike), (10, wide), (25, small + wide)])
        if dice.chance(60):
            keys = keys + [dice.pick(EDGES) for _ in range(dice.between(1, 5))]
        return keys

    # writing

    def say(self, line):
        """Writes a line; what the machine answers to it."""
        self.rows.append(line)
        self.size += len(line) + 1
        return simulate.command(self.machine, line)

    def tell(self, *words):
        return self.say(" ".join(map(str, words)).encode())

    # picking

    def key(self):
        machine, dice = self.machine, self.dice
        if machine.target is not None and dice.chance(60):
            cursor = machine.cursor
            below = [k for k in machine.map if k < cursor]
            above = sorted(k for k in machine.map if k >= cursor)
            near = [cursor - 2, cursor - 1, cursor, cursor + 1]
            near += [dice.pick(below)] if below else []
            near += above[:1] + ([dice.pick(above)] if above else [])
            return min(max(dice.pick(near), 0), TOP)
        return dice.pick(self.keys)

    def stored(self):
        """A key that, more often than not, has an entry."""
        if self.machine.map and self.dice.chance(60):
            return self.dice.pick(sorted(self.machine.map))
        return self.key()

    def store(self):
        dice = self.dice
        if dice.chance(20):
            return dice.pick([self.machine.stores, self.machine.stores, self.machine.stores + 1, 16, 17, 2**32, TOP])
        return dice.below(self.machine.stores)

    def operands(self):
        """The words of a legal line other than `step`."""
        dice, key = self.dice, self.key()
        verb = dice.weighted([(30, "cal"), (25, "read"), (15, "get"), (10, "del"), (10, "join"), (10, "leave")])
        if verb in ("join", "leave"):
            return [verb, self.store()]
        return self.entry(key, verb) if verb in ("cal", "read") else [verb, key]

    def entry(self, key, verb=None):
        dice = self.dice
        if (verb or dice.pick(["cal", "cal", "read"])) == "cal":
            firmware = dice.weighted([(7, dice.below(30)), (2, dice.below(2**32)), (1, dice.pick([0, 2**32 - 1]))])
            factor = dice.weighted([(7, dice.between(1, 500)), (3, dice.pick([1, 999999, 1000000]))])
            return ["cal", key, firmware, factor]
        state = dice.pick(["valid", "valid", "saturated", "missing"])
        millilitres = dice.weighted([(6, dice.below(5000)), (2, dice.word()), (2, dice.pick([0, 1, 2**32, TOP]))])
        return ["read", key, 0 if state == "missing" else millilitres, state]

    # what happens in a script

    def put(self):
        self.tell(*self.entry(self.key()))

    def look(self):
        self.tell("get", self.stored())

    def remove(self):
        self.tell("del", self.stored())

    def illegal_entry(self):
        dice, key = self.dice, self.key()
        far = [2**32, 2**32 + 1, 2**33 - 1, 2**63, TOP]
        which = dice.below(4)
        if which == 0:
            self.tell("cal", key, dice.pick(far), dice.pick([0, 1, 250, 1000001]))
        elif which == 1:
            self.tell("cal", key, dice.below(20), dice.pick([0, 1000001, 2**20, 2**32, 2**32 + 1, TOP]))
        else:
            self.tell("read", key, dice.pick([1, 2, 256, 2**32, TOP]), "missing")

    def fill(self):
        """New keys until a store is full."""
        dice = self.dice
        at = dice.pick([dice.below(50), dice.below(2**40), TOP - 300])
        stride = dice.pick([1, 1, 2, self.machine.cap + 8])
        for i in range(dice.between(3, 80)):
            answer = self.tell(*self.entry(min(at + i * stride, TOP)))
            if answer.startswith("no 4") and dice.chance(50):
                return

    def churn(self):
        """One key again and again, so that a log runs out of slots and a table of empty cells."""
        keys = [self.key() for _ in range(self.dice.between(1, 3))]
        for _ in range(self.dice.between(4, 24)):
            key = self.dice.pick(keys)
            self.tell(*(["del", key] if self.dice.chance(45) else self.entry(key)))

    def change(self):
        """A join or a leave that is likely to be accepted."""
        machine, dice = self.machine, self.dice
        spare = [s for s in range(machine.stores) if s not in machine.roster]
        if spare and dice.chance(55):
            return self.tell("join", dice.pick(spare))
        last = machine.policy == "jump" and dice.chance(80)
        return self.tell("leave", machine.roster[-1] if last else dice.pick(machine.roster))

    def any_change(self):
        return self.tell(self.dice.pick(["join", "leave"]), self.store())

    def steps(self):
        if self.machine.target is None and self.dice.chance(75):
            self.change()
        for _ in range(self.dice.between(1, 3)):
            self.make_room(self.tell("step"))

    def make_room(self, answer):
        """After a step that met a full store: perhaps takes a key off that store."""
        if answer.startswith("no 4") and self.dice.chance(60):
            full = int(answer.split()[2])
            held = sorted(k for k in self.machine.map if full in self.machine.place(k))
            self.tell("del", self.dice.pick(held))

    def migrate(self):
        """Steps to the end of a change, most often with writes between them."""
        if self.machine.target is None:
            self.change()
        busy = self.dice.pick([0, 20, 50])
        for _ in range(self.dice.between(10, 60)):
            answer = self.tell("step")
            if answer in ("done", "no 8"):
                return
            self.make_room(answer)
            if self.dice.chance(busy):
                self.dice.pick([self.put, self.put, self.look, self.remove])()

    def brink(self):
        """A change with the largest key there, stepped until the cursor is past every key."""
        self.tell(*self.entry(TOP))
        if self.machine.target is None:
            self.change()
        for _ in range(40):
            if self.machine.target is None or self.machine.cursor == simulate.PAST:
                return
            self.make_room(self.tell("step"))

    def spoil(self):
        line = b"step" if self.dice.chance(15) else " ".join(map(str, self.operands())).encode()
        self.say(broken(self.dice, line))

    def act(self):
        self.dice.weighted([
            (26, self.put), (12, self.look), (8, self.remove), (4, self.illegal_entry), (9, self.spoil),
            (5, self.fill), (3, self.churn), (9, self.change), (5, self.any_change),
            (14, self.steps), (6, self.migrate), (2, self.brink),
        ])()

    def text(self):
        return b"\n".join(self.rows) + b"\n"


def large(dice):
    """A script about as long as a script may be, or a little longer."""
    target = dice.pick([16383, 16384, 16384, 16384, 16385, 16385, 16386, 20000])
    writer = Writer(dice)
    if dice.chance(40):  # very many lines
        filler = dice.pick([b"", b"step", b"get 0", b"del 1", b"join 1"])
        while writer.size + len(filler) + 1 < target - 40:
            writer.say(filler)
    else:
        while writer.size < target - 3000:
            writer.act()
    text = writer.text()
    if len(text) < target:
        end = dice.pick([b"", b"\n", b"\nstep", b"\nget 0\n"])
        text += (b"x" * target + end)[-(target - len(text)):]
    return text


def small(dice):
    """A script of next to nothing."""
    first = cluster(sizes(dice))
    bare = [b"", b"\n", b"\n\n", b" ", b"\0", b"\r\n", b"step\n", b"\n" + first + b"\n", b"\xef\xbb\xbf" + first]
    return dice.pick(bare + [first + end for end in (b"", b"\n", b"\n\n", b"\n\n\n", b"\r\n", b"\n" + first + b"\n")])


def script(seed, index):
    dice = Dice(seed, index)
    sort = dice.below(1000)
    if sort < 4:
        return large(dice)
    if sort < 14:
        return small(dice)
    writer = Writer(dice)
    for _ in range(dice.weighted([(50, dice.between(4, 15)), (40, dice.between(16, 40)), (10, dice.between(41, 100))])):
        if writer.size > 12000:
            break
        writer.act()
    if dice.chance(20) and writer.machine.target is not None:
        writer.migrate()
    elif dice.chance(5):
        writer.brink()
    text = writer.text()
    if 14 <= sort < 74:  # a first line that is refused, and lines behind it
        first = broken(dice, writer.rows[0]) if sort < 44 else beyond(dice, writer.words)
        text = b"\n".join([first] + writer.rows[1:5]) + b"\n"
    ending = dice.below(20)
    return text[:-1] if ending < 6 else text + b"\n" if ending == 6 else text + b" " if ending == 7 else text


if __name__ == "__main__":
    if len(sys.argv) != 3:
        sys.exit("generate.py SEED INDEX")
    sys.stdout.buffer.write(script(int(sys.argv[1]), int(sys.argv[2])))
