#!/usr/bin/env python3
"""What `retire` must print, by another program: one map, a roster, and where each key lies.

Written from docs/machine.md and docs/placement.md alone; it shares no code with the crates.

    reference/retire.py > crates/retire/stdout
"""
from locate import rendezvous

STORES, COPIES, CAP = 3, 2, 8


class Machine:
    def __init__(self):
        self.map, self.roster, self.change, self.copied = {}, [0, 1, 2], None, 0

    def place(self, key):
        if self.change and key < self.change["cursor"]:
            return rendezvous(key, self.change["target"], COPIES)
        return rendezvous(key, self.roster, COPIES)

    def load(self, store):
        return sum(store in self.place(key) for key in self.map)

    def put(self, key, entry):
        if key not in self.map and any(self.load(s) >= CAP for s in self.place(key)):
            return "refused 4"
        answer = "replaced" if key in self.map else "new"
        self.map[key] = entry
        return answer

    def get(self, key):
        return self.map.get(key, "none")

    def leave(self, store):
        self.change = {"target": [s for s in self.roster if s != store], "cursor": 0}
        return f"open {store}"

    def step(self):
        left = [k for k in sorted(self.map) if k >= self.change["cursor"]]
        if not left:
            self.roster, self.change = self.change["target"], None
            return "done"
        key = left[0]
        old = rendezvous(key, self.roster, COPIES)
        new = rendezvous(key, self.change["target"], COPIES)
        gained = [s for s in new if s not in old]
        lost = [s for s in old if s not in new]
        if gained and self.load(gained[0]) >= CAP:
            return "refused 4"
        self.change["cursor"] = key + 1
        self.copied += len(gained)
        return f"moved {key} {gained[0] if gained else '-'} {lost[0] if lost else '-'}"


if __name__ == "__main__":
    m = Machine()
    print(m.put(1, "calibration 12 250"))
    print(m.put(2, "calibration 12 500"))
    print(m.put(3, "reading 1500"))
    print(m.put(4, "reading 0"))
    print(m.leave(0))
    print(m.step())
    print(m.put(1, "calibration 13 251"))
    for _ in range(3):
        print(m.step())
    print(m.get(1))
    print(m.step())
    print(m.get(3))
    for store in range(STORES):
        print("store", store, m.load(store))
    print("copies", m.copied)
    print("members", len(m.roster))
