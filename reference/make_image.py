#!/usr/bin/env python3
"""Writes an image of a log and what `inspect` must print of it, by the format's rules alone.

    python3 reference/make_image.py crates/inspect

writes crates/inspect/data/meters.image and crates/inspect/stdout. Nothing here is shared with the
crates: words are packed by struct, and the pairs are worked out in a dict.
"""

import struct
import sys

PUT, REMOVAL = 1, 2

# key, a, b, kind: oldest first
RECORDS = [
    (7, 70, 71, PUT),
    (1099511627776, 5, 258, PUT),
    (0, 1073741824012, 1, PUT),
    (7, 72, 73, PUT),
    (18446744073709551615, 18446744073709551615, 0, PUT),
    (12, 120, 121, PUT),
    (0, 0, 0, REMOVAL),
    (12, 0, 0, REMOVAL),
    (12, 122, 123, PUT),
]
CAP = 5


def image(records, cap):
    body = b"".join(struct.pack("<4Q", *r) for r in records)
    return body + struct.pack("<2Q", len(body), cap)


def report(records, cap):
    live, superseded = {}, 0
    for i, (key, a, b, kind) in enumerate(records):
        if any(later[0] == key for later in records[i + 1 :]):
            superseded += 1
        if kind == PUT:
            live[key] = (a, b)
        else:
            live.pop(key, None)
    lines = [f"cap {cap}"]
    lines += [f"pair {key} {live[key][0]} {live[key][1]}" for key in sorted(live)]
    lines.append(f"superseded {superseded}")
    return "\n".join(lines) + "\n"


def main():
    base = sys.argv[1]
    with open(f"{base}/data/meters.image", "wb") as out:
        out.write(image(RECORDS, CAP))
    with open(f"{base}/stdout", "w") as out:
        out.write(report(RECORDS, CAP))


if __name__ == "__main__":
    main()
