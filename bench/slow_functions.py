#!/usr/bin/env python3
"""Prints which functions of a crate took the prover longest.

  rt check --jobs 1 [--test]            in the crate's folder, from nothing: remove its out/incremental first
  bench/slow_functions.py CRATE [COUNT]

A check keeps what it proved in crates/CRATE/out/incremental, a file for each part of a function's proof, written when that part is proved. With one job the time
between two files is that of the second, so what a function took is the sum over its parts. A row has the seconds by the clock and the function, the longest
first; behind these stand the longest single parts: `Lts` is the steps that a function can take, which grows faster than the function's length, and `Proof` the
goals of its contract. COUNT is how many rows of each are printed, 25 if nothing is said.
"""
import collections
import os
import re
import sys

TOP = os.path.dirname(os.path.dirname(os.path.abspath(__file__)))


def parts_of(crate):
    """When each part was written, and its name without the crate's, the oldest first."""
    found = []
    for folder, _, names in os.walk(f"{TOP}/crates/{crate}/out/incremental"):
        if os.path.basename(folder) not in ("records", "long"):
            found += [(os.stat(f"{folder}/{name}").st_mtime, name) for name in names if name.endswith(".oantt")]
    return [(time, re.sub(rf"^Rattle-{crate}(-proofs\.|-specs\.)?|\.oantt$", "", name)) for time, name in sorted(found)]


def function_of(part):
    """The function that a part belongs to: its name without the capital words behind it."""
    words = part.split(".")
    while len(words) > 1 and re.fullmatch(r"[A-Z][A-Za-z0-9]*", words[-1]):
        words.pop()
    return ".".join(words)


def main(crate, count):
    parts = parts_of(crate)
    if not parts:
        sys.exit(f"crates/{crate}/out/incremental has no proved part")
    functions, single, before = collections.Counter(), collections.Counter(), parts[0][0]
    for time, part in parts:
        functions[function_of(part)] += time - before
        single[part] += time - before
        before = time
    print(f"{crate}: {parts[-1][0] - parts[0][0]:.0f} seconds in {len(parts)} parts")
    for rows in (functions, single):
        print()
        for name, seconds in rows.most_common(count):
            print(f"{seconds:8.1f} {name}")


if __name__ == "__main__":
    if len(sys.argv) not in (2, 3):
        sys.exit(__doc__)
    main(sys.argv[1], int(sys.argv[2]) if len(sys.argv) == 3 else 25)
