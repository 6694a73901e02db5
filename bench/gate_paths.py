#!/usr/bin/env python3
"""Counts in how many ways crates.txt leads from each crate down to the crates below it, and how many files that makes the gate read.

  bench/gate_paths.py [MOST]

Before and after it proves a crate, a gate sums up the files of the crate and, for each crate that its line of crates.txt names, those of that crate, and so on
down: a crate that is reached in a hundred ways is read a hundred times. Prints the ten crates with the most such reads, and the sums over all crates. With a
number, the status is 1 where all crates together make more reads than that.
"""
import functools
import os
import sys

TOP = os.path.dirname(os.path.dirname(os.path.abspath(__file__)))
PARTS = ("src", "specs", "proofs")


def uses():
    """For each crate of crates.txt, those of them that its line names."""
    named = {}
    with open(f"{TOP}/crates.txt", encoding="utf-8") as it:
        for line in it:
            name, colon, below = line.partition("#")[0].partition(":")
            if colon:
                named[name.split()[0]] = below.split()
    return {name: [it for it in below if it in named] for name, below in named.items()}


def files(name):
    """How many files of a crate a gate reads."""
    return sum(len(found) for part in PARTS for _, _, found in os.walk(f"{TOP}/crates/{name}/{part}"))


def main(most):
    below = uses()

    @functools.lru_cache(maxsize=None)
    def ways(name):
        return 1 + sum(map(ways, below[name]))

    @functools.lru_cache(maxsize=None)
    def reads(name):
        return files(name) + sum(map(reads, below[name]))

    print(f"{'crate':<20} {'ways':>10} {'reads of files':>16}")
    for name in sorted(below, key=reads, reverse=True)[:10]:
        print(f"{name:<20} {ways(name):>10} {reads(name):>16}")
    total = sum(map(reads, below))
    print(f"{'all ' + str(len(below)):<20} {sum(map(ways, below)):>10} {total:>16}")
    if most is not None and total > most:
        print(f"more than {most} reads: see \"Names in crates.txt\" in docs/ARCHITECTURE.md")
        return 1
    return 0


if __name__ == "__main__":
    if len(sys.argv) > 2 or len(sys.argv) == 2 and not sys.argv[1].isdigit():
        sys.exit(__doc__)
    sys.exit(main(int(sys.argv[1]) if len(sys.argv) == 2 else None))
