#!/usr/bin/env python3
"""Times whole runs of the program, and the same work by Erlang/OTP where `erl` is there, in one run.

  bench/beside_erlang.py PROGRAM [RUNS]

PROGRAM is the built program; a gate leaves one in crates/gateway_cli/out/gateway_cli. Each figure is the median of RUNS runs, 15 if nothing is said, made by turns. A row
has a name, the project's figure, that of Erlang/OTP, and the project's in percent of it. Nothing checks a figure.

  load_1, load_4       16,000 commands of 8 processes at 4 echo ports, with 1 and 4 schedulers, in microseconds: of `load 7` the time for which it has threads, from
                       the first that is made to the end of the last, so a little more than from the first command to the last data; by Erlang/OTP from the first
                       command to the last data, with a linked-in driver in C
  load_floor           the puts, takes, copies and lists of these commands in C on one thread, with records as large as the project's, in microseconds
  load_floor_4         the same dealt to four threads, each of which has two processes and one port for itself, so that none waits for another or shares a word with it
  load_process         `load 7`, the whole process, with the 4 schedulers that it has where nothing is said, in microseconds; and that of `erl` with 4
  load_process_1       the same with 1 scheduler each
  growth               131,072 commands of 8 bytes at an echo port in percent of 16,384
  memory               bytes that a run keeps a command of 8 bytes at an echo port with the limits that it has where nothing is said, from the difference of runs of
                       131,072 and 16,384
  memory_off           the same without limits, so that commands may lie in the lane before they are handled: the two of `growth`
  replay               the journal of 16,000 commands replayed, the whole process, in microseconds
  cat_stream, cat_line 33,554,432 bytes in lines through `cat` in stream mode and as lines, and saved, in microseconds, from the start of `cat` until what came back is
                       written to a file that wasn't there, on both sides
  cat_stream_run, cat_line_run
                       of these the time for which the project has threads, from the start of `cat` to the end of the run: without the write of the file
  cat_stream_process, cat_line_process
                       the project's whole processes, with the reading of the file, and the report with its SHA-256, which Erlang/OTP's side doesn't make
  cat_floor            the same bytes through `cat` by two pipes in C
  cat_stream_floor, cat_stream_floor_run
                       the two of cat_stream by a program in C with the same threads and copies
  cat_memory           the most memory of the run in stream mode, in percent of the file
  wait                 processor time of a run that waits five seconds for a slow program, in microseconds
  read_33, read_1000   how many megabytes of a script `check` reads in a second, of 16,000 commands of 33 bytes and of 1,000 commands of 1,000 bytes: behind the time that
                       an empty script takes
  read_script          how many megabytes of a script of commands of 33 bytes `read_script` reads in a second, where the script lies in memory: the work `commands_read` of
                       the program crates/bench, where a gate or bench/run.sh left that built, or where the variable BENCH names it
"""
import os
import shutil
import statistics
import subprocess
import sys
import tempfile
import time

HERE = os.path.dirname(os.path.abspath(__file__))
SIZE = 33_554_432


def run(words, **how):
    """Runs a process: its microseconds, and its microseconds of processor time."""
    began = time.perf_counter()
    child = subprocess.Popen(words, stdout=subprocess.DEVNULL, **how)
    _, status, used = os.wait4(child.pid, 0)
    child.returncode = os.waitstatus_to_exitcode(status)
    took = (time.perf_counter() - began) * 1e6
    if child.returncode:
        sys.exit(f"{' '.join(words)} ended with status {child.returncode}")
    return took, (used.ru_utime + used.ru_stime) * 1e6


def most_memory(words):
    """The most memory of a process, in bytes, as GNU time tells it: what the kernel tells of a child of this script has the script's own memory in it."""
    told = subprocess.run(["/usr/bin/time", "-f", "%M", *words], stdout=subprocess.DEVNULL, stderr=subprocess.PIPE, check=True, text=True)
    return int(told.stderr.split()[-1]) * 1024


def median(runs, words, part=0, **how):
    return statistics.median(run(words, **how)[part] for _ in range(runs))


class Span:
    """For how long a run of the program has threads, and how long after their start it closes its last file, by a library that is built in the folder of this bench. One thread,
    which serves programs, is made before a run."""

    def __init__(self):
        subprocess.run(["gcc", "-O2", "-shared", "-fPIC", "-o", "thread_span.so", f"{HERE}/thread_span.c"], check=True)
        self.environment = dict(os.environ, LD_PRELOAD=os.path.realpath("thread_span.so"), SPAN=os.path.realpath("span"), BEHIND="1")

    def both(self, words):
        """The microseconds to the end of the last thread, and to the last close of a file."""
        with open("span", "wb") as it:
            it.write(bytes(16))
        run(words, env=self.environment)
        with open("span", "rb") as it:
            told = it.read()
        return int.from_bytes(told[:8], sys.byteorder), int.from_bytes(told[8:], sys.byteorder)

    def once(self, words):
        return self.both(words)[0]


def row(name, ours, theirs=None):
    ratio = f" {ours * 100 / theirs:.0f}" if theirs else ""
    print(f"{name} {ours:.0f} {f'{theirs:.0f}' if theirs else '-'}{ratio}", flush=True)


def write(name, text):
    with open(name, "w", encoding="ascii") as it:
        it.write(text)
    return name


def commands(count, journal="", limits=" msgq off"):
    """A script of one process that sends so many commands of 8 bytes, the pieces of a file, to an echo port, and waits for what comes back."""
    write(f"bytes{count}", "abcdefgh" * count)
    lines = [journal] * bool(journal) + ["process a", f"port p a echo{limits}", f'a file p 8 "bytes{count}"', f"a expect p {count}"]
    return "\n".join(lines) + "\n"


def lines_of(size):
    """So many bytes in lines of 0 to 80 bytes, the same each time."""
    x, parts, left = 20, [], size
    text = bytes(32 + at % 95 for at in range(400))
    while left:
        x = (x * 6364136223846793005 + 1442695040888963407) % 2**64
        length, at = min((x >> 33) % 81, left - 1), (x >> 45) % 95
        parts.append(text[at : at + length] + b"\n")
        left -= length + 1
    return b"".join(parts)


class Erlang:
    """The same work by Erlang/OTP, built in the folder of this run; without `erl` it tells nothing."""

    def __init__(self):
        self.found = all(map(shutil.which, ("erl", "erlc", "gcc")))
        if self.found:
            root = os.path.dirname(os.path.dirname(os.path.realpath(shutil.which("erl"))))
            build = ["gcc", "-O2", "-fPIC", "-shared", f"-I{root}/usr/include", "-o", "echo.so", f"{HERE}/erlang/echo.c"]
            subprocess.run(build, check=True)
            subprocess.run(["erlc", f"{HERE}/erlang/load.erl", f"{HERE}/erlang/filter.erl"], check=True)

    def words(self, schedulers, module, *words):
        return ["erl", "-noshell", "+S", f"{schedulers}:{schedulers}", "-s", module, "main", "-extra", *map(str, words)]

    def told(self, schedulers, module, *words):
        """The figure that a module prints."""
        if not self.found:
            return None
        return float(subprocess.run(self.words(schedulers, module, *words), check=True, capture_output=True, text=True).stdout)


def time_load(program, runs, erlang):
    """Makes all works of a round one after another, since the machine may be faster in one minute than in the next."""
    subprocess.run(["gcc", "-O2", "-pthread", "-o", "floor", f"{HERE}/floor.c"], check=True)
    span, rounds = Span(), []
    for _ in range(runs):
        times = {name: float(subprocess.run(["./floor", "7", threads], check=True, capture_output=True).stdout) for name, threads in (("load_floor", "1"), ("load_floor_4", "4"))}
        for schedulers in ("1", "4"):
            name, words = f"load_{schedulers}", [program, "load", "7", schedulers, "1"]
            times[name], times[f"{name}_erlang"] = span.once(words), erlang.told(schedulers, "load", 7, 3)
        for name, schedulers, words in (("load_process", 4, []), ("load_process_1", 1, ["1", "1"])):
            times[name] = run([program, "load", "7", *words])[0]
            times[f"{name}_erlang"] = run(erlang.words(schedulers, "load", 7, 1))[0] if erlang.found else None
        rounds.append(times)
    middle = {name: time and statistics.median(it[name] for it in rounds) for name, time in rounds[0].items()}
    for name in ("load_1", "load_4", "load_process", "load_process_1", "load_floor", "load_floor_4"):
        row(name, middle[name], middle.get(f"{name}_erlang"))


def kept(program, limits):
    """The bytes that a run keeps a command."""
    scripts = [write(f"kept{count}.txt", commands(count, limits=limits)) for count in (131_072, 16_384)]
    most = [statistics.median(most_memory([program, "run", script, "1", "1"]) for _ in range(3)) for script in scripts]
    return (most[0] - most[1]) / (131_072 - 16_384)


def time_growth(program, runs):
    few, many = write("few.txt", commands(16_384)), write("many.txt", commands(131_072))
    row("growth", median(runs, [program, "run", many, "1", "1"]) * 100 / median(runs, [program, "run", few, "1", "1"]))
    row("memory", kept(program, ""))
    row("memory_off", kept(program, " msgq off"))


def time_replay(program, runs):
    run([program, "run", write("journal.txt", commands(16_000, 'journal "journal"'))])
    row("replay", median(runs, [program, "replay", "journal"]))


def time_cat(program, runs, erlang):
    span = Span()
    with open("in.txt", "wb") as it:
        it.write(lines_of(SIZE))
    for name, option in (("stream", "stream"), ("line", "line 80")):
        port = f'process a\nport p a spawn run "cat" {option} msgq off busy 65536 131072\nsave a p "out.txt"\n'
        wait = f"bytes p {SIZE}" if name == "stream" else f"bytes p {SIZE - open('in.txt', 'rb').read().count(10)}"
        script = write(f"{name}.txt", f'{port}a file p 65536 "in.txt"\na {wait}\na close p\n')
        whole, threads, written = zip(*[(run(anew(program, script))[0], *span.both(anew(program, script))) for _ in range(runs)])
        theirs = erlang.told(1, "filter", name, "in.txt", min(runs, 5))
        row(f"cat_{name}", statistics.median(written), theirs)
        row(f"cat_{name}_run", statistics.median(threads))
        row(f"cat_{name}_process", statistics.median(whole), theirs)
        if open("in.txt", "rb").read() != open("out.txt", "rb").read():
            sys.exit(f"the file that came back as {name} isn't the same")
    row("cat_memory", statistics.median(most_memory([program, "run", "stream.txt"]) for _ in range(3)) * 100 / SIZE)
    subprocess.run(["gcc", "-O2", "-o", "pump", f"{HERE}/erlang/pump.c"], check=True)
    row("cat_floor", median(runs, ["./pump", "in.txt", "floor.txt"]))
    subprocess.run(["gcc", "-O2", "-pthread", "-o", "relay", f"{HERE}/erlang/relay.c"], check=True)
    threads, written = zip(*[relayed() for _ in range(runs)])
    row("cat_stream_floor", statistics.median(written))
    row("cat_stream_floor_run", statistics.median(threads))


def relayed():
    """The microseconds of a run of `cat` by relay.c until the run ends, and until what came is written."""
    if os.path.exists("relayed.txt"):
        os.remove("relayed.txt")
    told = subprocess.run(["./relay", "in.txt", "relayed.txt"], check=True, capture_output=True, text=True).stdout
    return tuple(map(float, told.split()))


def anew(program, script):
    """The words of a run that saves in a file that isn't there, since to empty one of this size takes longer than to write it."""
    if os.path.exists("out.txt"):
        os.remove("out.txt")
    return [program, "run", script]


def time_wait(program):
    slow = 'process a\nport p a spawn run "sh slow.sh"\na command p "abc"\na bytes p 3\na close p\n'
    write("slow.sh", "sleep 5\ncat\n")
    row("wait", median(3, [program, "run", write("wait.txt", slow)], 1))


def time_reading(program, runs):
    """The rate at which scripts are read: the file is read, and the script is dropped, in this time."""
    names = [f"process p{at}" for at in range(8)] + [f"port q{at} p{at} echo" for at in range(4)]
    empty = [program, "check", write("empty.txt", "")]
    for count, length in ((16_000, 33), (1_000, 1_000)):
        steps = [f'p{at % 8} command q{at % 4} "{"abcdefghijk"[at % 11] * length}"' for at in range(count)]
        text = "\n".join(names + steps) + "\n"
        script = [program, "check", write(f"read{length}.txt", text)]
        took = [run(script)[0] - run(empty)[0] for _ in range(runs)]
        row(f"read_{length}", len(text) / statistics.median(took))
    timer = os.environ.get("BENCH", f"{HERE}/../crates/bench/out/bench")
    if os.access(timer, os.X_OK):
        told = [subprocess.run([timer, "commands_read", "800000"], check=True, capture_output=True, text=True).stdout for _ in range(runs)]
        row("read_script", 800_000 / statistics.median(int(it.split()[2]) for it in told))


def main(program, runs):
    program = os.path.realpath(program)
    with tempfile.TemporaryDirectory() as folder:
        os.chdir(folder)
        erlang = Erlang()
        time_load(program, runs, erlang)
        time_growth(program, runs)
        time_replay(program, runs)
        time_cat(program, runs, erlang)
        time_wait(program)
        time_reading(program, runs)
        os.chdir("/")


if __name__ == "__main__":
    if len(sys.argv) < 2:
        sys.exit(__doc__)
    main(sys.argv[1], int(sys.argv[2]) if len(sys.argv) > 2 else 15)
