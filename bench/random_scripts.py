#!/usr/bin/env python3
"""Runs random scripts with the program, compares each report and journal with a plain reference, and has the program judge the journal.

  bench/random_scripts.py COUNT [SEED]

Each script has up to six processes and six ports, and all steps but those that wait for data and those that send files. It is run once, with 1, 2, 4
or 16 schedulers by turns. The reference follows the rows of the journal: docs/PORT_RULES.md has the rules that it knows, docs/JOURNAL.md the text, docs/SCRIPT.md
the report. Each journal has to be legal by `gateway replay`. Then one of its rows is left out, and the replay has to end with status 0, 9 or 11. The first difference is
printed with its script, and the status is then 1.
"""
import hashlib
import os
import random
import subprocess
import sys
import tempfile

HERE = os.path.dirname(os.path.dirname(os.path.abspath(__file__)))
DRIVERS = ("echo", "tally", "store", "valve", "valve_soft", "digest")
REASONS = ("normal", "crash", "kill", "shutdown")
SCHEDULERS = (1, 2, 4, 16)


def random_data(rng, driver):
    """The bytes of a command, mostly such as the driver takes."""
    size = rng.choice((0, 1, 3, 20, 300))
    body = bytes(rng.choice(b"abcdefgh XYZ09") for _ in range(size))
    if driver == "digest" and rng.random() < 0.95:
        return bytes((rng.randrange(4), rng.randrange(1, 4))) + body
    return body


def text(data):
    return '"' + "".join(chr(b) if 32 <= b < 127 and b not in b'"\\' else f"\\x{b:02x}" for b in data) + '"'


def io_list(rng, data):
    """A spelling of these bytes."""
    if rng.random() < 0.5 or not data:
        return text(data)
    at = rng.randrange(len(data))
    return f"[{text(data[:at])}, {data[at]}, [{text(data[at + 1:])}]]"


class Script:
    """A random script: its lines, and for each process and port the signals that it asks for, as the journal writes them."""

    def __init__(self, rng):
        self.rng = rng
        self.processes = rng.randrange(1, 7)
        self.ports = [rng.choice(DRIVERS) for _ in range(rng.randrange(1, 7))]
        self.owners = [rng.randrange(self.processes) for _ in self.ports]
        self.lines = [f"process p{p}" for p in range(self.processes)]
        for q, driver in enumerate(self.ports):
            limits = rng.choice(("", "", " msgq off", " msgq 8 16", " msgq 1 1"))
            self.lines.append(f"port q{q} p{self.owners[q]} {driver}{limits}")
        self.lines.append('journal "journal"')
        self.asked = {(p, q): [] for p in range(self.processes) for q in range(len(self.ports))}
        self.monitors = [0] * self.processes
        self.open_monitors = {pair: [] for pair in self.asked}
        self.ended = {}
        for _ in range(rng.randrange(60)):
            process = rng.randrange(self.processes)
            if process not in self.ended:
                self.add_step(process)
        for process in range(self.processes):
            for port in range(len(self.ports)):
                self.asked[process, port].append(f"gone {self.ended.get(process, 'normal')}")

    def step(self, process, port, line, signal):
        self.lines.append(f"p{process} {line}")
        self.asked[process, port].append(signal)

    def add_step(self, process):
        rng = self.rng
        port = rng.randrange(len(self.ports))
        driver = self.ports[port]
        name = f"q{port}"
        kind = rng.choices(
            ("command", "send", "control", "call", "close", "sendclose", "connect", "sendconnect", "link", "unlink", "monitor", "demonitor", "exit", "die"),
            (40, 8, 14, 4, 1, 1, 4, 2, 4, 2, 4, 2, 2, 1))[0]
        if kind in ("command", "send"):
            data = random_data(rng, driver)
            how = rng.choice(("", "", "", " nosuspend", " force", " force nosuspend")) if kind == "command" else ""
            self.step(process, port, f"{kind} {name} {io_list(rng, data)}{how}", f"{kind} {data.hex() or '-'}")
        elif kind == "control" and driver in ("valve", "valve_soft"):
            # A valve that is set busy is freed at once, since nobody else does.
            if process == self.owners[port]:
                self.step(process, port, f'control {name} 1 ""', "control 1 -")
                self.step(process, port, f'control {name} 2 ""', "control 2 -")
        elif kind == "control":
            data = bytes(rng.choice((0, 0, 0, 2)) for _ in range(rng.choice((0, 4, 6))))
            operation = rng.randrange(6)
            self.step(process, port, f"control {name} {operation} {text(data)}", f"control {operation} {data.hex() or '-'}")
        elif kind == "call":
            self.step(process, port, f"call {name} 1 {{x, 1}}", "call 1")
        elif kind in ("connect", "sendconnect"):
            other = rng.randrange(self.processes)
            self.step(process, port, f"{kind} {name} p{other}", f"{'connect' if kind == 'connect' else 'ownerconnect'} {other}")
        elif kind == "monitor":
            number = self.monitors[process]
            self.monitors[process] += 1
            self.open_monitors[process, port].append(number)
            self.step(process, port, f"monitor {name}", f"monitor {number}")
        elif kind == "demonitor":
            if self.open_monitors[process, port]:
                number = self.open_monitors[process, port].pop(0)
                self.step(process, port, f"demonitor {name}", f"demonitor {number}")
        elif kind == "exit":
            reason = rng.choice(REASONS)
            self.step(process, port, f"exit {name} {reason}", f"exit {reason}")
        elif kind == "die":
            self.ended[process] = rng.choice(REASONS)
            self.lines.append(f"p{process} die {self.ended[process]}")
        else:
            self.step(process, port, f"{kind} {name}", {"sendclose": "ownerclose"}.get(kind, kind))

    def text(self):
        return "".join(line + "\n" for line in self.lines)


def signal_of(words):
    """A signal without the word that tells whether it suspends, and of a call without its bytes."""
    if words[0] in ("command", "send"):
        return f"{words[0]} {words[2]}"
    return " ".join(words[:2] if words[0] == "call" else words)


def effects_of(words):
    """The lists of a handled row: the signal's words, and the effects, each as its words."""
    signal, _, rest = " ".join(words).partition(" ;")
    _, _, effects = rest.partition(" ;")
    return signal.split(), [one.split() for one in effects.split(",") if one.strip()]


def bytes_of(word):
    return b"" if word == "-" else bytes.fromhex(word)


class Port:
    """A port as the rows of its history make it."""

    def __init__(self, number, driver, owner):
        self.number, self.driver, self.owner = number, driver, owner
        self.next, self.signals, self.gone = {}, {}, set()
        self.commands = self.late = self.bytes = 0
        self.by_process, self.listed, self.resumed, self.data = {}, {}, {}, {}
        self.closed, self.reason, self.closing = False, None, None
        self.jobs, self.answers, self.counted = [], [], [0, 0]
        self.linked = {f"p{owner}"}

    def task(self, sender, seq, signal):
        assert self.next.get(sender, 0) == seq, f"task {seq} of {sender} where {self.next.get(sender, 0)} was due"
        self.next[sender] = seq + 1
        self.signals.setdefault(sender, []).append(signal_of(signal))
        if signal[0] in ("command", "send"):
            self.by_process[sender] = self.by_process.get(sender, 0) + 1

    def row(self, words):
        kind = words[0]
        if kind == "h":
            self.handled(words[1], int(words[2]), *effects_of(words[3:]))
        elif kind == "l":
            self.take_late(words[1], int(words[2]), words[3:])
        elif kind == "s":
            self.listed.setdefault(words[1], []).append(words[2])
        elif kind == "r":
            self.resumed.setdefault(words[1], []).append(words[2])
        elif kind == "m" and words[1] == "closed":
            assert self.reason is None, "closed twice"
            self.reason = self.closing
            assert self.reason is not None, "closed without a cause"

    def take_late(self, sender, seq, signal):
        self.task(sender, seq, signal)
        assert self.closed, "a late task of an open port"
        self.late += signal[0] in ("command", "send")
        if signal[0] == "gone":
            self.gone.add(sender)
        if signal[0] == "done":
            self.answer(int(signal[1]), bytes_of(signal[2]))

    def handled(self, sender, seq, signal, effects):
        from_owner = sender == f"p{self.owner}"
        self.task(sender, seq, signal)
        assert sender[0] != "p" or not self.closed, "a task handled after the close"
        called = signal[0] == "command" or (signal[0] == "send" and from_owner)
        if called:
            self.commands += 1
            self.bytes += len(bytes_of(signal[2]))
        if signal[0] == "gone":
            self.gone.add(sender)
        self.check_effects(signal, effects, called)
        for one in effects:
            if one[0] == "data" and f"p{self.owner}" not in self.gone:
                self.data.setdefault(f"p{self.owner}", []).append(bytes_of(one[2]))
        failed = next((one[1] for one in effects if one[0] == "fail"), None)
        self.close_by(sender, from_owner, signal, failed)
        self.tie(sender, from_owner, signal)

    def tie(self, sender, from_owner, signal):
        """Follows the owner and the linked processes."""
        if signal[0] == "link":
            self.linked.add(sender)
        elif signal[0] in ("unlink", "gone"):
            self.linked.discard(sender)
        elif (signal[0] == "connect" or (signal[0] == "ownerconnect" and from_owner)) and f"p{signal[1]}" not in self.gone:
            self.owner = int(signal[1])
            self.linked.add(f"p{signal[1]}")

    def close_by(self, sender, from_owner, signal, failed):
        """Notes that a port closes, and for which reason."""
        if self.closing is not None:
            return
        if failed is not None:
            self.closing = failed
        elif signal[0] == "close" or (signal[0] == "ownerclose" and from_owner):
            self.closing = "normal"
        elif signal[0] == "exit" and (signal[1] != "normal" or from_owner):
            self.closing = "killed" if signal[1] == "kill" else signal[1]
        elif signal[0] == "gone" and (from_owner or (signal[1] != "normal" and sender in self.linked)):
            self.closing = "killed" if signal[1] == "kill" else signal[1]
        self.closed = self.closing is not None

    def check_effects(self, signal, effects, called):
        """What the drivers do with commands and jobs."""
        data = [one[2] for one in effects if one[0] == "data"]
        if called and self.driver in ("echo", "valve", "valve_soft"):
            assert data == [signal[2]], f"{signal} is answered by {effects}"
        if called and self.driver == "tally":
            self.counted = [self.counted[0] + 1, self.counted[1] + len(bytes_of(signal[2]))]
        if self.driver == "tally" and signal[:2] == ["control", "1"] and signal[2] == "-":
            reply = b"".join(n.to_bytes(8, "big") for n in self.counted).hex()
            assert ["reply", reply] in effects, f"{signal} is answered by {effects}, and not by {reply}"
        if self.driver == "digest":
            if called:
                self.submit(bytes_of(signal[2]), effects)
            if signal[0] == "done":
                self.answer(int(signal[1]), bytes_of(signal[2]))

    def submit(self, data, effects):
        jobs = [one for one in effects if one[0] == "async"]
        if len(data) < 2 or data[1] not in (1, 2, 3):
            assert ["fail", "einval"] in effects and not jobs, f"{data} makes {effects}"
            return
        job = ["async", str(len(self.jobs)), str(data[0]), str(data[1]), data[2:].hex() or "-"]
        assert jobs == [job], f"{data} makes {effects}"
        self.jobs.append((data[0], data[1], data[2:]))

    def answer(self, number, output):
        key, work, data = self.jobs[number]
        want = {1: data[::-1], 2: (sum(data) % 2**64).to_bytes(8, "big"), 3: hashlib.sha256(data).digest()}[work]
        assert output == want, f"job {number} is answered by {output}"
        assert all(n < number for k, n in self.answers if k == key), f"job {number} is told too late"
        assert (key, number) not in self.answers, f"job {number} is told twice"
        self.answers.append((key, number))


def is_part(part, whole):
    """Whether the one list is got of the other by leaving items out."""
    rest = iter(whole)
    return all(any(one == other for other in rest) for one in part)


def check_journal(script, journal):
    """The ports that the journal tells of, each checked row by row."""
    lines = journal.decode().split("\n")
    assert lines[0] == "journal 1" and lines[-1] == "" and lines[-2] == "end", "no journal"
    assert lines[1] == "processes " + " ".join(f"p{p}" for p in range(script.processes)), lines[1]
    ports = []
    for line in lines[2:-2]:
        words = line.split(" ")
        if words[0] == "port":
            number = len(ports)
            assert words[1:4] == [f"q{number}", str(script.owners[number]), script.ports[number]], line
            ports.append(Port(number, script.ports[number], script.owners[number]))
        elif words != ["end"]:
            try:
                ports[-1].row(words)
            except AssertionError as fault:
                raise AssertionError(f"port q{len(ports) - 1}, row {line}: {fault}") from None
    for port in ports:
        check_port(script, port)
    return ports


def check_port(script, port):
    assert port.reason is not None, f"q{port.number} never closed"
    assert port.listed == port.resumed, f"q{port.number} lists {port.listed} and resumes {port.resumed}"
    assert len(port.answers) == len(port.jobs), f"q{port.number} has {len(port.jobs)} jobs and {len(port.answers)} answers"
    for process in range(script.processes):
        rows = port.signals.get(f"p{process}", [])
        asked = script.asked[process, port.number]
        assert is_part(rows, asked), f"q{port.number} has {rows} of p{process}, which asked {asked}"


def check_report(script, ports, report):
    lines = report.decode().split("\n")
    want = [f"report processes={script.processes} ports={len(ports)}"]
    for port in ports:
        want.append(f"port q{port.number} driver={port.driver} commands={port.commands} late={port.late} bytes={port.bytes} end={port.reason}")
    for process in range(script.processes):
        name = f"p{process}"
        data = [one for port in ports for one in port.data.get(name, [])]
        commands = sum(port.by_process.get(name, 0) for port in ports)
        line = lines[len(want)].split()
        dropped = int(line[3].partition("=")[2])
        asked = sum(one.startswith(("command", "send ")) for q in range(len(ports)) for one in script.asked[process, q])
        assert commands + dropped <= asked, f"{line} of {asked} commands"
        listed = sum(len(port.listed.get(name, [])) for port in ports)
        want.append(f"process {name} commands={commands} dropped={dropped} suspended={listed} data={len(data)} "
                    f"sha256={hashlib.sha256(b''.join(data)).hexdigest()}")
    assert lines == want + [""], "\n".join(["the report", *lines, "isn't", *want])


def gateway(folder, *words):
    """How the program ends with these words."""
    command = [os.environ.get("GATEWAY", os.path.join(HERE, "gateway")), *words]
    return subprocess.run(command, cwd=folder, capture_output=True, timeout=60, check=False)


def judge(folder, journal, rng):
    """Has the program judge the journal, and again without one of its rows."""
    lines = journal.split(b"\n")[:-1]
    rows = [at for at, line in enumerate(lines) if line[:2] in (b"h ", b"l ", b"s ", b"r ", b"m ")]
    legal = f"legal ports={lines.count(b'end')} rows={len(rows)}\n".encode()
    done = gateway(folder, "replay", "journal")
    assert (done.returncode, done.stdout) == (0, legal), f"replay: status {done.returncode}: {done.stdout} {done.stderr}"
    if rows:
        left_out = rng.choice(rows)
        with open(os.path.join(folder, "changed"), "wb") as it:
            it.write(b"\n".join(lines[:left_out] + lines[left_out + 1:]) + b"\n")
        done = gateway(folder, "replay", "changed")
        assert done.returncode in (0, 9, 11), f"replay without line {left_out + 1}: status {done.returncode}: {done.stderr}"


def run_script(script, schedulers, folder):
    path = os.path.join(folder, "script.txt")
    with open(path, "w", encoding="utf-8") as it:
        it.write(script.text())
    done = gateway(folder, "run", "script.txt", str(schedulers), str(script.rng.randrange(1, 4)))
    assert done.returncode == 0, f"status {done.returncode}: {done.stderr.decode()}"
    with open(os.path.join(folder, "journal"), "rb") as it:
        journal = it.read()
    check_report(script, check_journal(script, journal), done.stdout)
    judge(folder, journal, script.rng)


def main():
    count = int(sys.argv[1])
    seed = int(sys.argv[2]) if len(sys.argv) > 2 else 1
    with tempfile.TemporaryDirectory() as folder:
        for number in range(count):
            script = Script(random.Random(seed * 1_000_003 + number))
            schedulers = SCHEDULERS[number % len(SCHEDULERS)]
            try:
                run_script(script, schedulers, folder)
            except (AssertionError, subprocess.TimeoutExpired) as fault:
                print(script.text())
                print(f"script {number} of seed {seed} with {schedulers} schedulers: {fault}")
                return 1
    print(f"{count} scripts of seed {seed}: each report and journal is as the reference says, and each journal is legal")
    return 0


if __name__ == "__main__":
    sys.exit(main())
