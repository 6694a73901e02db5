#!/usr/bin/env python3
"""Looks whether the examples of README.md and docs/*.md say what is so, to the letter.

  docs/check_examples.py PROGRAM     A gate leaves the program in crates/gateway_cli/out/gateway_cli

An example is a fenced block. The first word behind its fence says what it is, and a second word names a file of the repository or of the run:

  script [FILE]     a whole script; with FILE the lines of that file but for comments and empty lines
  report            what the script above prints, with each of some numbers of schedulers and workers
  saved FILE        a file that the script above leaves
  journal [FILE]    the text of a journal, which a replay finds legal; with FILE the one that the script of this name leaves
  summary           what the load of the number in its first line prints
  rust FILE         lines of this file of code, one after another
  text FILE         the text of this file

Other blocks aren't looked at. What differs is printed, and the last line is 'examples: N looked at, M wrong'.
"""
import glob
import os
import re
import shutil
import subprocess
import sys
import tempfile
import textwrap

TOP = os.path.dirname(os.path.dirname(os.path.realpath(__file__)))
KINDS = ["script", "report", "saved", "journal", "summary", "rust", "text"]
THREADS = ["", "1 1", "2 1", "16 8"]
SECONDS = 120


def text_of(path):
    with open(path, encoding="utf-8") as it:
        return it.read()


def blocks_of(text):
    """The fenced blocks of a document: the number of the line of the fence, the words behind it, and the text."""
    found, words, lines, at = [], None, [], 0
    for number, line in enumerate(text.split("\n"), 1):
        if words is None and line.lstrip().startswith("```"):
            words, lines, at = line.strip("` ").split(), [], number
        elif words is not None and line.strip() == "```":
            found.append((at, words, textwrap.dedent("".join(one + "\n" for one in lines))))
            words = None
        elif words is not None:
            lines.append(line)
    return found


class Room:
    """A folder in which the program runs, with the files of the repository that the scripts send, and the last script."""

    def __init__(self, program, folder):
        self.program = program
        self.folder = folder
        self.script = None
        os.makedirs(f"{folder}/crates/gateway_cli/out")
        shutil.copy(f"{TOP}/LICENSE", folder)

    def printed(self, *words):
        """What the program prints with these words; of one that doesn't end with status 0 its status and its error."""
        try:
            ran = subprocess.run([self.program, *words], cwd=self.folder, capture_output=True, text=True, timeout=SECONDS)
        except subprocess.TimeoutExpired:
            return f"no end in {SECONDS} seconds"
        return ran.stdout if ran.returncode == 0 else f"status {ran.returncode}: {ran.stderr}"

    def run_script(self, threads=""):
        """What a run of the last script prints."""
        return self.printed("run", "script", *threads.split())

    def take(self, script):
        """Keeps this script as the last one."""
        self.script = script
        with open(f"{self.folder}/script", "w", encoding="utf-8") as it:
            it.write(script)

    def left(self, name):
        """The text of a file that a run left."""
        path = f"{self.folder}/{name}"
        return text_of(path) if os.path.exists(path) else "no such file"


def said(script):
    """The lines of a script that aren't comments or empty."""
    return [line for line in script.split("\n") if line and not line.startswith("#")]


def script_fault(room, text, name):
    room.take(text)
    if name and said(text) != said(text_of(f"{TOP}/{name}")):
        return f"{name} has other lines"
    counted = room.printed("check", "script")
    return None if counted.startswith("ok ") else counted


def report_fault(room, text):
    if room.script is None:
        return "there is no script above it"
    for threads in THREADS:
        printed = room.run_script(threads)
        if printed != text:
            return f"with {threads or 'no numbers'} it prints\n{printed}"
    return None


def saved_fault(room, text, name):
    left = room.left(name)
    return None if left == text else f"the run leaves\n{left}"


def journal_fault(room, text, name):
    with open(f"{room.folder}/journal", "w", encoding="utf-8") as it:
        it.write(text)
    ports = sum(line.startswith("port ") for line in text.split("\n"))
    rows = len(re.findall(r"^[hlsrm] ", text, re.MULTILINE))
    judged = room.printed("replay", "journal")
    if judged != f"legal ports={ports} rows={rows}\n":
        return f"a replay says {judged}"
    if name is None:
        return None
    script = text_of(f"{TOP}/{name}")
    room.take(script)
    room.run_script()
    left = room.left(re.search(r'^journal "(.*)"$', script, re.MULTILINE).group(1))
    return None if left == text else f"the run leaves\n{left}"


def summary_fault(room, text):
    printed = room.printed("load", re.match(r"load number=(\d+) ", text).group(1))
    return None if printed == text else f"it prints\n{printed}"


def code_fault(text, name):
    """Whether the lines stand in the code, all as far to the right of where they stand here."""
    wanted = text.rstrip("\n").split("\n")
    lines = text_of(f"{TOP}/{name}").split("\n")
    for at in range(len(lines) - len(wanted) + 1):
        if textwrap.dedent("\n".join(lines[at:at + len(wanted)])) == "\n".join(wanted):
            return None
    return f"{name} has no such lines"


def fault_of(room, words, text):
    """What is wrong with a block, if something is."""
    name = words[1] if len(words) > 1 else None
    if words[0] == "script":
        return script_fault(room, text, name)
    if words[0] == "report":
        return report_fault(room, text)
    if words[0] == "saved":
        return saved_fault(room, text, name)
    if words[0] == "journal":
        return journal_fault(room, text, name)
    if words[0] == "summary":
        return summary_fault(room, text)
    if words[0] == "text":
        return None if text == text_of(f"{TOP}/{name}") else f"{name} has another text"
    return code_fault(text, name)


def main():
    if len(sys.argv) != 2:
        sys.exit("docs/check_examples.py: name the program")
    program = os.path.realpath(sys.argv[1])
    looked, wrong = 0, 0
    for document in [f"{TOP}/README.md", *sorted(glob.glob(f"{TOP}/docs/*.md"))]:
        with tempfile.TemporaryDirectory() as folder:
            room = Room(program, folder)
            for at, words, text in blocks_of(text_of(document)):
                if not words or words[0] not in KINDS:
                    continue
                looked += 1
                fault = fault_of(room, words, text)
                if fault:
                    wrong += 1
                    print(f"{os.path.relpath(document, TOP)}:{at}: {words[0]}: {fault}")
    print(f"examples: {looked} looked at, {wrong} wrong")
    sys.exit(1 if wrong else 0)


main()
