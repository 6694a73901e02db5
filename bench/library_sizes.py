#!/usr/bin/env python3
"""Prints what each library of the repository carries for the crates above it, as the gate built it.

  bench/library_sizes.py [CRATE..]        in a checkout in which `rt ci` has passed; all crates if none is named

A built library holds the statements of its own, and once more those of each library below that a public type or function of it mentions, however deep: a type's
private fields count too. Writing them takes processor time, the more the larger they are, and a program or a test writes none. A row has the megabytes (of 10^6
bytes) of a crate, its own among them, and the five libraries of which it carries most. The largest crate stands first, and the sum in the last line.
"""
import collections
import os
import re
import sys

TOP = os.path.dirname(os.path.dirname(os.path.abspath(__file__)))


def members(archive):
    """The names of an archive's members, and their sizes in bytes."""
    with open(archive, "rb") as it:
        it.read(8)
        names = b""
        while len(head := it.read(60)) == 60:
            name, size = head[:16].decode().strip(), int(head[48:58])
            if name == "//":
                names = it.read(size)
            else:
                if name[1:].isdigit():
                    start = int(name[1:])
                    name = names[start : names.index(b"\n", start)].decode()
                yield name, size
                it.seek(size, 1)
            it.seek(size % 2, 1)


def carried(crate):
    """How many bytes a built crate carries of each library, or None if it isn't built as one."""
    archive = f"{TOP}/crates/{crate}/out/rlib/{crate}.rlib/toolchain/checked.a"
    if not os.path.isfile(archive):
        return None
    of = collections.Counter()
    for name, size in members(archive):
        if found := re.match(r"(?:part/)?Rattle-(\w+)", name):
            of[found[1]] += size
    return of


def main(crates):
    rows = [(crate, of) for crate in crates if (of := carried(crate))]
    rows.sort(key=lambda row: -sum(row[1].values()))
    for crate, of in rows:
        most = ", ".join(f"{name} {size / 1e6:.1f}" for name, size in of.most_common(5))
        print(f"{sum(of.values()) / 1e6:8.1f} {crate} (own {of[crate] / 1e6:.1f}): {most}")
    print(f"{sum(sum(of.values()) for _, of in rows) / 1e6:8.1f} in {len(rows)} libraries")


if __name__ == "__main__":
    main(sys.argv[1:] or sorted(os.listdir(f"{TOP}/crates")))
