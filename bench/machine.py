#!/usr/bin/env python3
"""Measures how fast the built program runs programs, beside `java -Xint` on the same class files, and how the times grow
where the work doubles.

Run it by hand from the top of the repository, after `./run --proved examples/A.class`, with a JDK on the path:

    python3 bench/machine.py [--program PATH] [name..]

With names, only those programs. Each line is of one program of bench/programs: first the six by which the loop of
instructions was formed, then ten others, then one that holds two hundred locks. Times are
processor time, of the user and of the system, and the least of several rounds, in each of which both machines run one
after the other; the least time of a program that does nothing, on the same machine, is taken off. A time is told for
one instruction, by the instructions that the report counts, and the ratio is that of solero's time to the other's.
`doubled` is how the least times grow where the work of the program is doubled.

`machine` is how many instructions of the processor one instruction of the class file takes: what `perf stat` counts, or else
callgrind, between a run that ends after 500,000 instructions and one that ends after 1,500,000. Where neither counts, the
column is left out.

The last lines are of 8 workers that take turns by an order of 100,000 digits, and round by round after it. Each instruction
of theirs is one event.
"""
import argparse
import math
import os
import random
import re
import shutil
import statistics
import subprocess
import tempfile

import measure

ROUNDS = 5
SOURCES = os.path.join(measure.TOP, "bench", "programs")
HARNESS = os.path.join(measure.TOP, "examples", "programs", "Hotspot.java")
LISTS = (
    ("by which the loop was formed", ("Arithmetic", "Calls", "Fields", "Sieve", "Locks", "Reads")),
    ("others", ("Matrix", "Tree", "Chain", "Transfers", "Automaton", "Failures")),
    ("others that came later", ("Bits", "Life", "Queens", "Sort")),
    ("many locks held", ("Nested",)),
)
MOST_STEPS = 2**32 - 1
SOME_STEPS = (500_000, 1_500_000)
WORKERS = 8
DIGITS = 100000


def compiled(folder, name, times=1):
    """The class file of a program of `times` the work, in a folder of its own; that folder, and the file."""
    own = os.path.join(folder, f"{name}-{times}")
    os.makedirs(own)
    with open(os.path.join(SOURCES, name + ".java"), encoding="utf-8") as source:
        text = source.read()
    text = re.sub(r"(SIZE = )(\d+)", lambda found: found[1] + str(int(found[2]) * times), text)
    with open(os.path.join(own, name + ".java"), "w", encoding="utf-8") as copy:
        copy.write(text)
    subprocess.run(
        [os.path.join(measure.TOP, "compile"), "-d", own, os.path.join(own, name + ".java")],
        check=True,
        stdout=subprocess.DEVNULL,
    )
    return own, os.path.join(own, name + ".class")


def timed(words):
    """How much processor time a command takes, in seconds, and what it says."""
    with subprocess.Popen(words, stdout=subprocess.PIPE) as child:
        said = child.stdout.read().decode()
        _, status, usage = os.wait4(child.pid, 0)
        child.returncode = os.waitstatus_to_exitcode(status)
    return usage.ru_utime + usage.ru_stime, said


def solero(program, file, *options, steps=MOST_STEPS):
    return [program, "--steps", str(steps), *options, file]


def java(harness, folder, name):
    return ["java", "-Xint", "-cp", f"{harness}:{folder}", "Hotspot", "0", name]


def instructions(report):
    counted = re.findall(r"^counts \d+ instructions (\d+) ", report, re.MULTILINE)
    if not counted:
        raise SystemExit(f"no report of a run, but: {report.strip()}")
    return sum(int(count) for count in counted)


def without_counts(report):
    return [line for line in report.splitlines() if not line.startswith("counts ")]


def counted_by_perf(words):
    """How many instructions of the processor a command takes, as `perf stat` counts them, and what it says."""
    done = subprocess.run(
        ["perf", "stat", "-x", ",", "-e", "instructions:u", *words], capture_output=True, check=False
    )
    found = re.search(r"^(\d+),,instructions", done.stderr.decode(), re.MULTILINE)
    return (int(found[1]), done.stdout.decode()) if found else None


def counted_by_callgrind(words):
    """The same, as callgrind counts them."""
    done = subprocess.run(
        ["valgrind", "--tool=callgrind", "--callgrind-out-file=/dev/null", *words], capture_output=True, check=False
    )
    found = re.search(r"Collected : (\d+)", done.stderr.decode())
    return (int(found[1]), done.stdout.decode()) if found else None


def counter():
    """What counts instructions of the processor here, or None."""
    for word, counted in (("perf", counted_by_perf), ("valgrind", counted_by_callgrind)):
        if shutil.which(word) is not None and counted(["true"]) is not None:
            return counted
    return None


class Sides:
    """Both machines, each with what it takes to start."""

    def __init__(self, program, folder):
        self.program = program
        self.folder = folder
        self.counted = counter()
        self.harness = os.path.join(folder, "harness")
        subprocess.run(["javac", "-d", self.harness, HARNESS], check=True)
        own, file = compiled(folder, "Nothing")
        self.start = self.least(own, file, "Nothing")[0]

    def both(self, own, file, name):
        """The times of one round, and solero's report."""
        first, report = timed(solero(self.program, file))
        second, said = timed(java(self.harness, own, name))
        if without_counts(report) != said.splitlines():
            raise SystemExit(f"{name}: the machines differ:\n{report}{said}")
        return (first, second), report

    def least(self, own, file, name):
        """The least time of some rounds of each machine, and solero's report."""
        rounds = [self.both(own, file, name) for _ in range(ROUNDS)]
        return [min(side) for side in zip(*[times for times, _ in rounds])], rounds[0][1]

    def work(self, name, times=1):
        """The class file of a program, the seconds that each machine takes for the work, and the instructions of it."""
        own, file = compiled(self.folder, name, times)
        least, report = self.least(own, file, name)
        net = [time - start for time, start in zip(least, self.start)]
        if min(net) <= 0:
            raise SystemExit(f"{name}: too short to tell from the start")
        return file, net, instructions(report)

    def machine_instructions(self, file):
        """How many instructions of the processor an instruction of this class takes, or None."""
        if self.counted is None:
            return None
        ends = [self.counted(solero(self.program, file, steps=steps)) for steps in SOME_STEPS]
        if None in ends:
            return None
        (first, before), (second, after) = ends
        return (second - first) / (instructions(after) - instructions(before))


def header(counts):
    machine = f" {'machine':>8}" if counts else ""
    return f"{'program':<11} {'instructions':>15} {'solero':>10} {'java -Xint':>12} {'ratio':>6}{machine}   doubled"


def line(sides, name):
    """Prints the line of a program; answers its ratio."""
    file, (ours, theirs), count = sides.work(name)
    _, (ours_doubled, theirs_doubled), _ = sides.work(name, 2)
    machine = sides.machine_instructions(file)
    print(
        f"{name:<11} {count / 1e6:7.1f} million {ours / count * 1e9:7.2f} ns {theirs / count * 1e9:9.2f} ns"
        f" {ours / theirs:6.2f}{'' if machine is None else f' {machine:8.1f}'}"
        f"   {ours_doubled / ours:.2f}, {theirs_doubled / theirs:.2f}",
        flush=True,
    )
    return ours / theirs


def events(sides):
    """Prints the lines of many workers."""
    chosen = random.Random(1)
    order = "".join(str(chosen.randint(1, WORKERS)) for _ in range(DIGITS))
    each = []
    for times in (1, 2):
        _, file = compiled(sides.folder, "Workers", times)
        words = solero(sides.program, file, "--threads", str(WORKERS), "--order", order)
        rounds = [timed(words) for _ in range(ROUNDS)]
        count = instructions(rounds[0][1])
        net = min(taken for taken, _ in rounds) - sides.start[0]
        each.append(net / count)
        print(
            f"{WORKERS} workers, {count / 1e6:.1f} million events: {count / net / 1e6:.1f} million a second,"
            f" {net / count * 1e9:.1f} ns an event",
            flush=True,
        )
    print(f"an event of the doubled work takes {each[1] / each[0]:.2f} times as long")


def asked():
    """The words of the command; help is answered before anything is measured."""
    names = [name for _, programs in LISTS for name in programs]
    words = argparse.ArgumentParser(description=__doc__, formatter_class=argparse.RawDescriptionHelpFormatter)
    words.add_argument("--program", default=measure.PROGRAM, help="the built program")
    words.add_argument("names", nargs="*", metavar="name", help="programs of bench/programs")
    given = words.parse_args()
    for name in given.names:
        if name not in names:
            words.error(f"no program {name}: there are {', '.join(names)}")
    return given


def main():
    given = asked()
    if not os.access(given.program, os.X_OK):
        raise SystemExit("no built program: run ./run --proved examples/A.class first")
    for word in ("java", "javac"):
        if shutil.which(word) is None:
            raise SystemExit(f"there is no {word} on the path")
    with tempfile.TemporaryDirectory() as folder:
        sides = Sides(given.program, folder)
        ours, theirs = sides.start
        print(f"start: solero {ours * 1000:.1f} ms, java -Xint {theirs * 1000:.1f} ms, taken off below")
        for title, programs in LISTS:
            programs = [name for name in programs if not given.names or name in given.names]
            if not programs:
                continue
            print(f"{title}:\n{header(sides.counted)}")
            ratios = [line(sides, name) for name in programs]
            mean = math.exp(statistics.fmean(map(math.log, ratios)))
            print(f"mean of the ratios {mean:.2f} (geometric), greatest {max(ratios):.2f}", flush=True)
        if not given.names:
            events(sides)


if __name__ == "__main__":
    main()
