#!/usr/bin/env python3
"""Compares two builds of the program on random programs with random limits: whatever words both are
given, they say the same, to the byte, and end with the same status.

Run it by hand from the top of the repository, with a JDK on the path:

    python3 bench/random_programs.py --first PATH --second PATH [--programs N] [--seed S] [--jobs N]

Of so many programs (unless said 100) some three of five are Java sources (`random_sources.py`), and
the others class files made by bytes (`random_code.py`). A program is made of its seed: the first of
S, the next of S + 1, and so on; `--programs 1 --seed S` makes one of them again. Its marks and its
listing are told, it is run as a whole by each machine, and then with random words (unless said 30,
`--runs`): in turns, in an order, on threads where only one order can come, recorded, without
elision, and up to limits of instructions, failed turns, prints and words of the heap. Most limits
of instructions are small, or near to the number that a whole run makes.

A run that does not end within 20 seconds is one that was stopped; where one build alone was
stopped, both are run again, with three times as long. Each difference has a line with the seed and
the words, and below it where the outputs part; with `--keep FOLDER` the class file of such a
program is kept, with its source or its listing. A program that is refused has a line too. The last
line has how many there were of each; the status is 1 where there was a difference.
"""
import argparse
import concurrent.futures
import os
import random
import re
import shutil
import subprocess
import sys
import tempfile

import measure
import random_code
import random_sources

IN_JAVA = 0.6
AT_ONCE = 40
SECONDS = 20
WHOLE = 200000
LIMITED = f"--steps {WHOLE} --turns 1000"
ALWAYS = ("--mode mark", "--mode list", f"--mode run --threads 1 {LIMITED}",
          f"--mode run --workers 1 --threads 3 {LIMITED}")
COUNTS = re.compile(rb"^counts \d+ instructions (\d+)", re.MULTILINE)
STOPPED = ("stopped", b"", b"")


class Program:
    """A program that is made of its seed: a source, or at once a class file."""

    def __init__(self, seed, folder):
        self.seed = seed
        self.chosen = random.Random(seed)
        self.name = f"Program{seed}"
        self.source = None
        self.file = os.path.join(folder, self.name + ".class")
        if self.chosen.random() < IN_JAVA:
            self.source = os.path.join(folder, self.name + ".java")
            with open(self.source, "w", encoding="utf-8") as out:
                out.write(random_sources.Source(self.chosen, self.name).text())
        else:
            with open(self.file, "wb") as out:
                out.write(random_code.RandomClass(self.chosen).content())

    def keep(self, folder, program):
        """Keeps the class file, with its source or its listing."""
        os.makedirs(folder, exist_ok=True)
        shutil.copy(self.file, folder)
        if self.source:
            shutil.copy(self.source, folder)
        else:
            listing = run(program, ["--mode", "list", self.file])[1]
            with open(os.path.join(folder, self.name + ".txt"), "wb") as out:
                out.write(listing)


def made(seeds, folder):
    """The programs of these seeds, whose sources are compiled in one call."""
    programs = [Program(seed, folder) for seed in seeds]
    sources = [program.source for program in programs if program.source]
    if sources:
        compiler = [os.path.join(measure.TOP, "compile"), "-d", folder, *sources]
        done = subprocess.run(compiler, capture_output=True, text=True, check=False)
        if done.returncode != 0:
            raise SystemExit(done.stderr)
    return programs


# ---- words


def workers(chosen):
    """How many workers there are, and in which mode they run: one in which one order can come."""
    many = chosen.choice((0, 0, 0, 0, 1, 1, 2, 2, 2, 3, 4, 8))
    words = ["--threads", str(many)]
    mode = chosen.random()
    if many > 0 and mode < 0.25:
        order = "".join(str(chosen.randint(1, many)) * chosen.choice((1, 2, 3, 5, 20))
                        for _ in range(chosen.choice((1, 10, 100))))
        return [*words, "--order", order]
    if mode < 0.45:
        return words
    if mode < 0.75 and many < 2:
        return [*words, "--mode", "run", "--memory", chosen.choice(("table", "locked"))]
    if mode < 0.82 and many < 2:
        return [*words, "--mode", "record", "--events", str(chosen.choice((1, 50, 100000)))]
    turn = str(chosen.choice((1, 2, 3, 7, 64, 1000)))
    return [*words, "--mode", "run", "--workers", "1", "--turn", turn]


def steps(chosen, whole):
    """How many instructions a thread may make; `whole` has how many those of a whole run made."""
    share = chosen.random()
    if share < 0.5:
        return chosen.randint(1, 200)
    if share < 0.7:
        return max(1, chosen.choice(whole) + chosen.randint(-9, 2))
    if share < 0.9:
        return chosen.randint(1, max(1, *whole))
    return chosen.choice((0, WHOLE, WHOLE, WHOLE))


def limits(chosen, whole):
    """Limits, of which that of failed turns is always there: other threads may wait for ever."""
    words = ["--steps", str(steps(chosen, whole))]
    words += ["--turns", str(chosen.choice((1, 2, 63, 64, 65, 100, 1000)))]
    for share, option, values in (
        (0.25, "--elide", ("off",)),
        (0.15, "--heap", (4096, 4100, 4200, 5000, 65536)),
        (0.15, "--prints", (1, 2, 3, 5, 10, 20)),
        (0.1, "--range", (1, 2, 3, 10)),
    ):
        if chosen.random() < share:
            words += [option, str(chosen.choice(values))]
    return words


def load(chosen):
    """A load of one worker, which no file is named beside."""
    size, seed = str(chosen.randint(1, 30)), str(chosen.randint(0, 1000))
    return ["--mode", "load", "--threads", "1", "--size", size, "--seed", seed]


# ---- runs


def run(program, words, seconds=SECONDS):
    """How a run ended, and what it said."""
    try:
        done = subprocess.run([program, *words], capture_output=True, check=False, timeout=seconds,
                              stdin=subprocess.DEVNULL)
    except subprocess.TimeoutExpired:
        return STOPPED
    return done.returncode, done.stdout, done.stderr


def both(builds, words):
    """What both builds make of these words; once more where one alone was stopped."""
    ran = [run(build, words) for build in builds]
    if ran.count(STOPPED) == 1:
        ran = [run(build, words, 3 * SECONDS) for build in builds]
    return ran


def parting(first, second):
    """Where two runs part, in a line."""
    for what, one, other in zip(("status", "output", "errors"), first, second):
        if one != other and what == "status":
            return f"status {one}, {other}"
        if one != other:
            lines = one.split(b"\n"), other.split(b"\n")
            at = next((at for at, pair in enumerate(zip(*lines)) if pair[0] != pair[1]),
                      min(map(len, lines)))
            said = ["".join(repr(line.decode(errors="replace")) for line in some[at:at + 1])
                    for some in lines]
            return f"{what}, line {at + 1}: {said[0]}, {said[1]}"
    return ""


class Compared:
    """Both builds on one program: how many runs there were, and what is told of them."""

    def __init__(self, builds, program, runs):
        self.builds = builds
        self.program = program
        self.runs = 0
        self.differences = 0
        self.told = []
        chosen = program.chosen
        whole = self.counts()
        for words in ALWAYS:
            self.compare([*words.split(), program.file])
        for _ in range(runs):
            self.compare([*workers(chosen), *limits(chosen, whole), program.file])
        if chosen.random() < 0.1:
            self.compare(load(chosen))

    def counts(self):
        """How many instructions the threads of a whole run make."""
        words = f"--threads 2 {LIMITED}".split()
        status, said, _ = self.compare([*words, self.program.file])
        if status not in (0, 1, 7, STOPPED[0]):
            self.told.append(f"program {self.program.seed}: status {status} {said[:60].decode()}")
        return [int(count) for count in COUNTS.findall(said)] or [1]

    def compare(self, words):
        """Runs both, and tells where they differ; what the first came to."""
        first, second = both(self.builds, words)
        self.runs += 1
        if first != second:
            self.differences += 1
            self.told.append(f"program {self.program.seed}: {' '.join(words)}")
            self.told.append(f"  {parting(first, second)}")
        return first


def all_compared(builds, programs, runs, jobs):
    """Each program compared, in their order, so many at once."""
    with concurrent.futures.ThreadPoolExecutor(jobs) as pool:
        yield from pool.map(lambda program: Compared(builds, program, runs), programs)


def asked():
    words = argparse.ArgumentParser(
        description=__doc__, formatter_class=argparse.RawDescriptionHelpFormatter)
    words.add_argument("--first", required=True, help="a build of the program")
    words.add_argument("--second", required=True, help="another one")
    words.add_argument("--programs", type=int, default=100, help="how many programs (100)")
    words.add_argument("--seed", type=int, default=1, help="that of the first program (1)")
    words.add_argument("--runs", type=int, default=30, help="random words for each (30)")
    words.add_argument("--jobs", type=int, default=1, help="how many are run at once (1)")
    words.add_argument("--keep", metavar="FOLDER", help="where programs that differ are kept")
    given = words.parse_args()
    for build in (given.first, given.second):
        if not os.access(build, os.X_OK):
            words.error(f"there is no program {build}")
    return given


def main():
    given = asked()
    builds = [os.path.abspath(build) for build in (given.first, given.second)]
    runs = differences = 0
    seeds = range(given.seed, given.seed + given.programs)
    for start in range(0, len(seeds), AT_ONCE):
        with tempfile.TemporaryDirectory() as folder:
            programs = made(seeds[start:start + AT_ONCE], folder)
            for compared in all_compared(builds, programs, given.runs, given.jobs):
                runs += compared.runs
                differences += compared.differences
                for line in compared.told:
                    print(line.replace(folder + os.sep, ""), flush=True)
                if compared.differences and given.keep:
                    compared.program.keep(given.keep, builds[0])
    print(f"{given.programs} programs, {runs} runs, {differences} differences")
    return 1 if differences else 0


if __name__ == "__main__":
    sys.exit(main())
