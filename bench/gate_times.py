#!/usr/bin/env python3
"""Runs the whole gate in this checkout, with what it prints in the file that is named, and prints how many processor seconds each crate took.

  bench/gate_times.py gate.log [WORD..]

The gate is `rt ci` with these words. A kit that keeps what an earlier run on this machine passed spends no time on that: there the word `--anew` has it prove and
try all. Other kits keep nothing, and take no word. While the gate runs, each check of it is looked at once a second: which crate it checks, and whether that is
the crate's proof, the proof of its tests, or its must-fail edits with the check that they begin with. The table stands behind the gate's last lines; the status
is the gate's.
"""
import os
import subprocess
import sys
import time

TICKS = os.sysconf("SC_CLK_TCK")
PARTS = ("proof", "tests", "edits")


def checks(parent):
    """The running checks below this process: their process number, crate, part and processor seconds."""
    tree = {}
    for pid in filter(str.isdigit, os.listdir("/proc")):
        try:
            with open(f"/proc/{pid}/stat", encoding="utf-8", errors="replace") as it:
                stat = it.read().rsplit(")", 1)[1].split()
            with open(f"/proc/{pid}/cmdline", "rb") as it:
                words = it.read().decode(errors="replace").split("\0")
            tree[int(pid)] = int(stat[1]), words, (int(stat[11]) + int(stat[12])) / TICKS, os.readlink(f"/proc/{pid}/cwd")
        except (OSError, IndexError, ValueError):
            continue
    for pid, (above, words, seconds, folder) in tree.items():
        if "--crate-name" not in words or not words[0].endswith("/rattle"):
            continue
        while above in tree and above != parent:
            above = tree[above][0]
        if above != parent:
            continue
        part = "edits" if "rt-edit-" in folder else "tests" if "--test" in words else "proof"
        yield pid, words[words.index("--crate-name") + 1], part, seconds


def table(spent):
    """The rows of the table, the longest first."""
    crates = {}
    for name, part, seconds in spent.values():
        crates.setdefault(name, dict.fromkeys(PARTS, 0.0))[part] += seconds
    rows = sorted(crates.items(), key=lambda it: -sum(it[1].values()))
    print("| crate | proof | tests | edits | in all, processor seconds |")
    print("|---|---|---|---|---|")
    for name, of in rows:
        print(f"| {name} | {of['proof']:.0f} | {of['tests']:.0f} | {of['edits']:.0f} | {sum(of.values()):.0f} |")
    sums = [sum(of[part] for _, of in rows) for part in PARTS]
    print(f"| all | {sums[0]:.0f} | {sums[1]:.0f} | {sums[2]:.0f} | {sum(sums):.0f} |")


def last_lines(log):
    """What the gate says at its end: what was done in it or what failed, and how many passed."""
    with open(log, encoding="utf-8", errors="replace") as it:
        lines = it.read().rstrip().splitlines()
    return [line for line in lines[-20:-1] if line.startswith(("rt: ok", "rt: FAILED"))] + lines[-1:]


def main(log, words):
    began, spent = time.time(), {}
    with open(log, "w", encoding="utf-8") as out:
        gate = subprocess.Popen(["rt", "ci", *words], stdout=out, stderr=subprocess.STDOUT)
        while gate.poll() is None:
            for pid, name, part, seconds in checks(gate.pid):
                spent[pid, name, part] = name, part, seconds
            time.sleep(1)
    print("\n".join(last_lines(log)))
    print(f"{(time.time() - began) / 60:.0f} minutes on {len(os.sched_getaffinity(0))} processors")
    table(spent)
    return gate.returncode


if __name__ == "__main__":
    if len(sys.argv) < 2:
        sys.exit(__doc__)
    sys.exit(main(sys.argv[1], sys.argv[2:]))
