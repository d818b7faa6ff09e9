#!/usr/bin/env python3
"""Counts how many runs on threads overlap: those in which an attempt failed, or a lock became fat.

Run it by hand from the top of the repository, after `./run examples/A.class`:

    python3 bench/overlaps.py [--runs N] [--threads N] [--program PATH] [CLASS..]

Each class, unless said `Pair`, `Span` and `Total` of examples/locks, is run N times (unless said
200) over each memory. A line has the class, the memory, in how many runs a section failed, in how
many a lock became fat, and the median milliseconds of a run. Nothing is promised of the numbers:
they are what the system makes of it, and smaller on a computer with other work.
"""
import argparse
import os
import re
import statistics
import subprocess
import time

from measure import PROGRAM, TOP

CLASSES = ["examples/locks/Pair.class", "examples/locks/Span.class", "examples/locks/Total.class"]
COUNTS = re.compile(r"^counts \d+ .* failed (\d+) locked \d+ inflated (\d+)$", re.MULTILINE)


def run(program, memory, threads, path):
    """Whether a section failed, whether a lock became fat, and the milliseconds."""
    words = [program, "--mode", "run", "--memory", memory, "--threads", str(threads), path]
    begin = time.monotonic()
    done = subprocess.run(words, stdout=subprocess.PIPE, check=True, timeout=600)
    took = (time.monotonic() - begin) * 1000
    counts = COUNTS.findall(done.stdout.decode())
    failed = any(int(failed) > 0 for failed, _ in counts)
    inflated = any(int(inflated) > 0 for _, inflated in counts)
    return failed, inflated, took


def main():
    parser = argparse.ArgumentParser(description=__doc__.split("\n", maxsplit=1)[0])
    parser.add_argument("--runs", type=int, default=200)
    parser.add_argument("--threads", type=int, default=4)
    parser.add_argument("--program", default=PROGRAM)
    parser.add_argument("classes", nargs="*", default=CLASSES, metavar="CLASS")
    words = parser.parse_args()
    for path in words.classes:
        for memory in ("table", "locked"):
            runs = [run(words.program, memory, words.threads, os.path.join(TOP, path))
                    for _ in range(words.runs)]
            failed = sum(failed for failed, _, _ in runs)
            inflated = sum(inflated for _, inflated, _ in runs)
            took = statistics.median(took for _, _, took in runs)
            print(f"{path} {memory}: of {words.runs} runs a section failed in {failed}, "
                  f"a lock became fat in {inflated}; {took:.1f} ms", flush=True)


if __name__ == "__main__":
    main()
