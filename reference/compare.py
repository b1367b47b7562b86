#!/usr/bin/env python3
"""Runs `simulate` and reference/simulate.py on random scripts, and prints where their transcripts differ.

    reference/compare.py COUNT [SEED] [--program PATH]

compares the scripts 0 to COUNT - 1 of the seed (1 where none is given), as reference/generate.py makes them. The
program is crates/simulate/out/simulate of this repository, or what --program or the environment variable SIMULATE names.
Each of the first differences is printed, with a file that holds the script; then `N scripts, D differences`. The
status is 0 if there is none, 1 if there are some, 2 if the program cannot be run at all.
"""
import argparse
import multiprocessing
import os
import subprocess
import sys
import tempfile

sys.dont_write_bytecode = True
import generate
import simulate

BUILT = os.path.join(os.path.dirname(os.path.abspath(__file__)), "..", "crates", "simulate", "out", "simulate")
SHOWN = 5  # differences that are printed in full
PATIENCE = 20  # seconds for one script


def run(program, script):
    """What the program prints for a script, and why that cannot count, or none."""
    try:
        pipes = {"stdout": subprocess.PIPE, "stderr": subprocess.DEVNULL}
        ended = subprocess.run([program], input=script, timeout=PATIENCE, **pipes)
    except subprocess.TimeoutExpired:
        return b"", f"no end after {PATIENCE} seconds"
    return ended.stdout, f"killed by signal {-ended.returncode}" if ended.returncode < 0 else None


def compared(task):
    """None if both agree on one script, else the script, what was wanted, what was printed, and a remark."""
    program, seed, index = task
    script = generate.script(seed, index)
    wanted = simulate.transcript(script)
    printed, remark = run(program, script)
    return None if printed == wanted and remark is None else (index, script, wanted, printed, remark)


def show(seed, index, script, wanted, printed, remark):
    with tempfile.NamedTemporaryFile(prefix=f"simulate-{seed}-{index}-", suffix=".script", delete=False) as kept:
        kept.write(script)
    print(f"script {index} of seed {seed} differs: {kept.name}")
    if remark:
        print(f"  {remark}")
    want, got = wanted.split(b"\n"), printed.split(b"\n")
    at = next((i for i, pair in enumerate(zip(want, got)) if pair[0] != pair[1]), min(len(want), len(got)))
    rows = simulate.lines(script)
    if at < len(rows):
        print(f"  line {at + 1}:    {rows[at]!r:.200}")
    for name, side in (("reference", want), ("simulate ", got)):
        print(f"  {name} {side[at]!r:.200}" if at < len(side) else f"  {name} ended before")


def main():
    options = argparse.ArgumentParser(description="Compares simulate with reference/simulate.py on random scripts.")
    options.add_argument("count", type=int, metavar="COUNT")
    options.add_argument("seed", type=int, nargs="?", default=1, metavar="SEED")
    options.add_argument("--program", default=os.environ.get("SIMULATE", BUILT))
    options.add_argument("--workers", type=int, default=os.cpu_count() or 1)
    asked = options.parse_args()
    program = os.path.abspath(asked.program)
    if not os.access(program, os.X_OK):
        print(f"{program} cannot be run", file=sys.stderr)
        return 2
    tasks = ((program, asked.seed, index) for index in range(asked.count))
    differences = 0
    with multiprocessing.Pool(asked.workers) as pool:
        for found in pool.imap(compared, tasks, chunksize=20):
            if found is not None:
                differences += 1
                if differences <= SHOWN:
                    show(asked.seed, *found)
    print(f"{asked.count} scripts, {differences} differences")
    return 1 if differences else 0


if __name__ == "__main__":
    sys.exit(main())
