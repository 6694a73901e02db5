#!/usr/bin/env python3
"""Tries the must-fail edits that the gate doesn't try, those of crates/NAME/more-must-fail, of the crates that are named, or of all.

  bench/edits.py [CRATE..]     tries each: the prover must refuse the crate with it. The last line is 'N refused, M not'
  bench/edits.py --look        looks only whether each can be applied: each old text stands once in its file. Takes no time

An edit is a file as the gate's own: a line 'file: PATH', then pairs of lines 'old: TEXT' and 'new: TEXT'. They are tried in a copy of
the checkout by `rt must-fail`, which first builds the libraries below that aren't built yet.
"""
import glob
import os
import shutil
import subprocess
import sys
import tempfile

TOP = os.path.dirname(os.path.dirname(os.path.realpath(__file__)))


def edits_of(crate):
    return sorted(glob.glob(f"{TOP}/crates/{crate}/more-must-fail/*.edit"))


def fault_of(edit, folder):
    """Why an edit can't be applied to the crate in this folder, if it can't."""
    with open(edit, encoding="utf-8") as it:
        lines = it.read().split("\n")
    path = next((line[len("file: "):].strip() for line in lines if line.startswith("file: ")), None)
    if path is None or not os.path.isfile(f"{folder}/{path}"):
        return "it names no file of its crate"
    with open(f"{folder}/{path}", encoding="utf-8") as it:
        text = it.read()
    for line in lines:
        if line.startswith("old: ") and text.count(line[len("old: "):]) != 1:
            return f"an old text is in {path} {text.count(line[len('old: '):])} times"
    return None


def look(crates):
    """Prints each edit that can't be applied. Answers how many there are."""
    edits = [(crate, edit) for crate in crates for edit in edits_of(crate)]
    faults = [(crate, edit, fault_of(edit, f"{TOP}/crates/{crate}")) for crate, edit in edits]
    for crate, edit, fault in faults:
        if fault:
            print(f"{crate}/{os.path.basename(edit)}: {fault}")
    bad = sum(1 for _, _, fault in faults if fault)
    print(f"{len(edits) - bad} edits can be applied, {bad} can't")
    return bad


def copy_to(room, crates):
    """Copies the checkout, with the edits of these crates in place of the gate's."""
    shutil.copy(f"{TOP}/crates.txt", room)
    shutil.copy(f"{TOP}/HANDLES", room)
    subprocess.run(["git", "init", "-q", room], check=True)
    for crate in os.listdir(f"{TOP}/crates"):
        at = f"{TOP}/crates/{crate}"
        shutil.copytree(at, f"{room}/crates/{crate}", ignore=shutil.ignore_patterns("out", "must-fail", "more-must-fail"))
        if os.path.isdir(f"{at}/out/rlib"):
            shutil.copytree(f"{at}/out/rlib", f"{room}/crates/{crate}/out/rlib")
        if crate in crates and edits_of(crate):
            shutil.copytree(f"{at}/more-must-fail", f"{room}/crates/{crate}/must-fail")


def main(words):
    looks = words[:1] == ["--look"]
    named = words[1:] if looks else words
    crates = named or sorted(os.listdir(f"{TOP}/crates"))
    unknown = [it for it in crates if not os.path.isdir(f"{TOP}/crates/{it}")]
    if unknown:
        print(f"no crate is named {unknown[0]}")
        return 2
    bad = look(crates)
    if looks or bad:
        return bad != 0
    with tempfile.TemporaryDirectory() as room:
        copy_to(room, crates)
        names = [it for it in crates if edits_of(it)]
        ran = subprocess.run(["rt", "must-fail", *names], cwd=room, stdout=subprocess.PIPE, text=True, check=False)
    print(ran.stdout, end="")
    refused = ran.stdout.count(": refused, as it must be")
    tried = sum(len(edits_of(it)) for it in names)
    print(f"{refused} refused, {tried - refused} not")
    return refused != tried


if __name__ == "__main__":
    sys.exit(main(sys.argv[1:]))
