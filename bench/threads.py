#!/usr/bin/env python3
"""Runs the worked classes of examples/ on threads of the system, many times, and counts wrong runs.

Run it by hand from the top of the repository, after `./run --proved examples/A.class`:

    python3 bench/threads.py [--runs N] [--program PATH]

Each class is run N times (unless said 10) over each memory, with elision on and off, and once in
mode replay. The order of a run on threads is not known, so what is compared with the replay is what
holds in every order: the status, the printed numbers, whose order each of these classes fixes, how
each part ended, and of each thread how many sections it elided or locked, together; without
elision, that none was elided and none failed. The first wrong run of a class is shown whole. The
last line has how many runs there were and how many were wrong; the status is 1 where one was.
"""
import argparse
import os
import re
import subprocess
import sys

from measure import PROGRAM, TOP

LOCKS = os.path.join(TOP, "examples", "locks")
PROGRAMS = os.path.join(TOP, "examples", "programs")
COUNTS = re.compile(r"counts \d+ instructions \d+ elided (\d+) failed (\d+) locked (\d+)")

# Words of the classes of examples/locks whose prints are the same in every order.
ON_LOCKS = [
    ["Span.class", "--threads", "3"],
    ["Share.class", "--threads", "8"],
    ["Steps.class", "--threads", "8"],
    ["Rail.class", "--threads", "8"],
    ["Total.class", "--threads", "8"],
    ["Stock.class"],
]


def placed(folder, word):
    """The word, with its folder before it where it names a class."""
    return os.path.join(folder, word) if word.endswith(".class") else word


def cases():
    """The words of each class: those above, and those of the list of examples/programs."""
    for words in ON_LOCKS:
        yield [placed(LOCKS, word) for word in words]
    with open(os.path.join(PROGRAMS, "list"), encoding="utf-8") as lines:
        for line in lines:
            if not line.startswith("#"):
                yield [placed(PROGRAMS, word) for word in line.split(":")[1].split()]


def run(program, words):
    """The status and the text of a run."""
    done = subprocess.run([program, *words], stdout=subprocess.PIPE, check=False, timeout=600)
    return done.returncode, done.stdout.decode()


def seen(status, text):
    """What holds in every order: the status, the prints and ends, the entries of each thread."""
    head, _, _ = text.partition("counts ")
    entries = [int(found[1]) + int(found[3]) for found in COUNTS.finditer(text)]
    return status, head, entries


def has_elided(text):
    """Whether a section was run without its lock, or tried so."""
    return any(int(found[1]) + int(found[2]) > 0 for found in COUNTS.finditer(text))


def is_right(words, wanted, status, text):
    """Whether a run comes to what is wanted, and elides nothing where it may not."""
    return seen(status, text) == wanted and not ("off" in words and has_elided(text))


def on_threads(words):
    """The words of a run on threads, over each memory, with elision on and off."""
    for memory in ("table", "locked"):
        for elide in ("on", "off"):
            yield ["--mode", "run", "--memory", memory, "--elide", elide, *words]


def wrong_runs(program, words, runs):
    """How many of so many runs of each kind are wrong."""
    wanted = seen(*run(program, words))
    wrong = 0
    for all_words in on_threads(words):
        for _ in range(runs):
            status, text = run(program, all_words)
            if not is_right(all_words, wanted, status, text):
                wrong += 1
                if wrong == 1:
                    print(*all_words, f"ended with status {status} and said:\n{text}")
    return wrong


def main():
    options = argparse.ArgumentParser(description=__doc__.partition("\n")[0])
    options.add_argument("--runs", type=int, default=10, help="how often each kind is run")
    options.add_argument("--program", default=PROGRAM, help="the program that is run")
    options = options.parse_args()
    runs = wrong = 0
    for words in cases():
        of_class = wrong_runs(options.program, words, options.runs)
        runs += options.runs * len(list(on_threads(words)))
        wrong += of_class
        name = next(word for word in words if word.endswith(".class"))
        print(os.path.relpath(name, TOP), f"wrong {of_class}", flush=True)
    print(f"{runs} runs, {wrong} wrong")
    return 1 if wrong else 0


if __name__ == "__main__":
    sys.exit(main())
