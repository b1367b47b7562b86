#!/usr/bin/env python3
"""Where keys live, by another program: the reference that `locate` is compared with.

Written from docs/placement.md alone; it shares no code or table with the crates.

    reference/locate.py rendezvous 5 2 0      prints what `locate rendezvous 5 2 0` must print
    reference/locate.py --cases < questions   answers a question for each line
"""
import sys


def digest(key):
    return (key ^ (key >> 31) ^ (key >> 62)) & 0x7FFFFFFF


def rendezvous(key, roster, copies):
    d = digest(key)

    def weight(store):
        start = (1103515245 * store + 12345) & 0x7FFFFFFF
        return (1103515245 * (start ^ d) + 12345) & 0x7FFFFFFF

    return sorted(roster, key=lambda s: (-weight(s), s))[: max(1, min(copies, 4))]


def jump(key, roster, copies):
    state, at = key, 0
    while True:
        state = (state * 2862933555777941757 + 1) % 2**64
        leap = (at + 1) * 2**31 // ((state >> 33) + 1)
        if leap >= len(roster):
            return [roster[at]]
        at = leap


def line(policy, members, copies, key):
    roster = list(range(members))
    shown = []
    for names in (roster, roster[:-1]):
        shown.append(",".join(map(str, policy(key, names, copies))) if names else "-")
    return f"{key} {shown[0]} {shown[1]}"


def number(word):
    """The number that a word writes, below 2^64 and without leading zeros, or none."""
    if not word or any(c not in "0123456789" for c in word) or (len(word) > 1 and word[0] == "0"):
        return None
    return int(word) if int(word) < 2**64 else None


def answer(words):
    """The lines for a question, or the refusal of its first wrong word."""
    parts = ["POLICY", "MEMBERS", "COPIES", "KEY"]
    numbers = []
    for place in range(max(len(words), 4)):
        part = parts[min(place, 3)]
        if place >= len(words):
            return [f"{part} is missing"]
        if place == 0:
            if words[0] not in ("rendezvous", "jump"):
                return [f"{part} is neither rendezvous nor jump"]
            continue
        n = number(words[place])
        if n is None:
            return [f"{part} is not a number of 64 bits"]
        if place == 1 and not 1 <= n <= 16:
            return [f"{part} is not from 1 to 16"]
        numbers.append(n)
    policy = {"rendezvous": rendezvous, "jump": jump}[words[0]]
    return [line(policy, numbers[0], numbers[1], key) for key in numbers[2:]]


if __name__ == "__main__":
    if sys.argv[1:] == ["--cases"]:
        for question in sys.stdin.read().splitlines():
            print("\n".join(answer(question.split(" "))))
    else:
        print("\n".join(answer(sys.argv[1:])))
