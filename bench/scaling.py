#!/usr/bin/env python3
"""Measures how runs on threads of the system grow with the number of workers, beside `java -Xint` and `java` on the same
class files.

Run it by hand from the top of the repository, on a computer with four processors and nothing else to do, after
`./run --proved examples/A.class`, with a JDK on the path:

    python3 bench/scaling.py [--program PATH] [--rounds N] [--memory table|locked]

Each worker does the same work, so the work grows with the workers. Of each program of bench/programs that has workers
there is a line for each number of them: how many million instructions a second all of them make together, the most of N
rounds (unless said 5), and how many times that of the fewest workers it is; with elision on, with it off, and of both Java
machines, whose instructions are counted as those of solero. What each machine takes to start is taken off. The column
`apart` has the same work in processes of the fewest workers, side by side: they share nothing, so it is what the computer
itself has to give, and what the workers of one run can be held against.
"""
import argparse
import math
import os
import re
import subprocess
import sys
import tempfile
import time

import measure

SOURCES = os.path.join(measure.TOP, "bench", "programs")
HARNESS = os.path.join(measure.TOP, "examples", "programs", "Hotspot.java")
# Each program, and the numbers of its workers; those of a queue come in pairs.
PROGRAMS = [
    ("Readers", [1, 2, 3, 4]),
    ("Mixed", [1, 2, 3, 4]),
    ("Bank", [1, 2, 3, 4]),
    ("Table", [1, 2, 3, 4]),
    ("Queue", [2, 4]),
]
MOST_STEPS = str(2**32 - 1)


def compiled(folder, name):
    subprocess.run(
        [os.path.join(measure.TOP, "compile"), "-d", folder, os.path.join(SOURCES, name + ".java")],
        check=True,
        stdout=subprocess.DEVNULL,
    )
    return os.path.join(folder, name + ".class")


def timed(words, processes):
    """How long a command takes, in so many processes side by side, and what one of them says."""
    start = time.perf_counter()
    begun = [subprocess.Popen(words, stdout=subprocess.PIPE) for _ in range(processes)]
    said = [process.communicate()[0] for process in begun]
    return time.perf_counter() - start, said[0].decode()


def instructions(report):
    counted = re.findall(r"^counts \d+ instructions (\d+) ", report, re.MULTILINE)
    if not counted:
        raise SystemExit(f"no report of a run, but: {report.strip()}")
    return sum(int(count) for count in counted)


def without_counts(report):
    return sorted(line for line in report.splitlines() if not line.startswith("counts "))


class Machine:
    """One way to run a program with some workers, and what it takes to start."""

    def __init__(self, name, words, apart=False):
        self.name = name
        self.words = words
        self.apart = apart
        self.start = 0.0

    def run(self, program, workers, fewest):
        """The seconds of one run, and what it said. Apart, each process has the fewest workers."""
        if self.apart:
            return timed(self.words(program, fewest), workers // max(fewest, 1))
        return timed(self.words(program, workers), 1)


def best(ways, program, workers, fewest, rounds):
    """The least seconds of some rounds for each way, and what it said; the ways take turns."""
    least = [math.inf] * len(ways)
    said = [""] * len(ways)
    for _ in range(rounds):
        for i, way in enumerate(ways):
            taken, said[i] = way.run(program, workers, fewest)
            least[i] = min(least[i], taken)
    return least, said


def machines(options, folder, harness):
    def solero(elide):
        return lambda program, workers: [
            options.program, "--mode", "run", "--memory", options.memory, "--threads", str(workers),
            "--steps", MOST_STEPS, "--elide", elide, os.path.join(folder, program + ".class"),
        ]

    def java(*flags):
        return lambda program, workers: [
            "java", *flags, "-cp", f"{harness}:{folder}", "Hotspot", str(workers), program,
        ]

    return [
        Machine("elision on", solero("on")),
        Machine("apart", solero("on"), apart=True),
        Machine("elision off", solero("off")),
        Machine("java -Xint", java("-Xint")),
        Machine("java", java()),
    ]


def read_options():
    parser = argparse.ArgumentParser(description=__doc__, formatter_class=argparse.RawDescriptionHelpFormatter)
    parser.add_argument("--program", default=measure.PROGRAM)
    parser.add_argument("--rounds", type=int, default=5)
    parser.add_argument("--memory", choices=["table", "locked"], default="table")
    return parser.parse_args()


def main():
    options = read_options()
    with tempfile.TemporaryDirectory() as folder:
        harness = os.path.join(folder, "harness")
        subprocess.run(["javac", "-d", harness, HARNESS], check=True)
        compiled(folder, "Nothing")
        ways = machines(options, folder, harness)
        starts, _ = best(ways[:1] + ways[2:], "Nothing", 0, 0, 2 * options.rounds)
        for way, start in zip(ways, starts[:1] + starts):
            way.start = start
        print(f"{'':<9} {'workers':>7}" + "".join(f" {way.name + ' (ratio)':>20}" for way in ways))
        for name, numbers in PROGRAMS:
            compiled(folder, name)
            first = {}
            for workers in numbers:
                seconds, said = best(ways, name, workers, numbers[0], options.rounds)
                count, wanted = instructions(said[0]), without_counts(said[0])
                cells = []
                for way, least, text in zip(ways, seconds, said):
                    if not way.apart and without_counts(text) != wanted:
                        raise SystemExit(f"{name}: {way.name} says otherwise:\n{text}")
                    rate = count / max(least - way.start, 1e-9) / 1e6
                    first.setdefault(way.name, rate)
                    cells.append(f"{rate:10.1f} ({rate / first[way.name]:.2f})")
                print(f"{name:<9} {workers:>7}" + "".join(f" {cell:>20}" for cell in cells), flush=True)


if __name__ == "__main__":
    sys.exit(main())
