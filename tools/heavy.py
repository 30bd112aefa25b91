#!/usr/bin/env python3
"""What makes a crate slow to check: the functions with the longest steps, or the goals that were hardest to find.

    tools/heavy.py CRATE [COUNT]
    tools/heavy.py --goals CRATE [COUNT]

A check goes through each function's steps one by one, and names at each what every value holds, so what it keeps of them grows with the square
of the function, and a function takes some two to four seconds a megabyte. The first form lists the functions with the most kilobytes. Then come the
goals: those that nobody answered are searched for, and the second form lists those that took the most of the prover's own counts, in thousands; a
thousand of these take about a second. Both read what the last `rt check` (or `rt check --test`) left in crates/CRATE/out, the second form of a check
from nothing, and list the COUNT heaviest, 20 unless another number is given.
"""
import os
import re
import sys

STEPS = re.compile(r"Rattle-\w+?-proofs\.(?P<function>.+)\.Lts(-\w+)?\.oantt")
PROOF = re.compile(r"Rattle-\w+?-proofs\.(?P<function>.+)\.Proof\.decls\.oantt")
GOAL = re.compile(rb'"name":"(?P<goal>[^"]*)","notes":.{0,4000}?"steps":\[(?P<steps>[\d,]+)\]', re.S)


def files_below(out):
    """The paths of the prover's files."""
    return [os.path.join(folder, name) for folder, _, names in os.walk(out) for name in names]


def path_of(found):
    """The path of the function that a file is about."""
    return found["function"].replace(".", "::")


def kilobytes(files):
    """The size of what is kept of each function's steps, by its path."""
    sizes = {}
    for file in files:
        found = STEPS.fullmatch(os.path.basename(file))
        if found and os.path.basename(os.path.dirname(file)) != "records":
            sizes[path_of(found)] = sizes.get(path_of(found), 0) + os.path.getsize(file) // 1024
    return sizes


def thousands(files):
    """The thousands of counts that it took to find each goal that nobody answered, by its function's path and its name."""
    took = {}
    for file in files:
        found = PROOF.fullmatch(os.path.basename(file))
        if found and os.path.basename(os.path.dirname(file)) == "records":
            with open(file, "rb") as records:
                for goal in GOAL.finditer(records.read()):
                    took[f"{path_of(found)} {goal['goal'].decode()}"] = sum(map(int, goal["steps"].split(b","))) // 1000
    return took


def main():
    words = sys.argv[1:]
    weigh, unit, what = (thousands, "thousand counts", "goals") if words[:1] == ["--goals"] else (kilobytes, "kB", "functions")
    words = [it for it in words if it != "--goals"]
    if not 1 <= len(words) <= 2:
        sys.exit(__doc__.strip())
    crate, count = words[0], int(words[1]) if len(words) == 2 else 20
    weights = weigh(files_below(os.path.join(os.path.dirname(os.path.abspath(__file__)), "..", "crates", crate, "out")))
    if not weights:
        sys.exit(f"heavy: {crate} was not checked here: run rt check in crates/{crate} first")
    print(f"{sum(weights.values()):8} {unit} in {len(weights)} {what}")
    for name, weight in sorted(weights.items(), key=lambda it: -it[1])[:count]:
        print(f"{weight:8} {name}")


main()
