#!/usr/bin/env python3
"""Refuses the built program memory, and counts what it answers.

Run it by hand from the top of the repository, after `./run --proved examples/A.class`. It needs a
C compiler (`$CC`, or `cc`):

    python3 bench/memory.py [--program PATH]

Each row is a run of a worked class: one that adds, one with two fields under a lock, torn reads
that are tried again, marks, a file that is refused, words that are not read, and runs on threads of
the system. A row is run once with all its memory, which tells its status and text, and how often it
asks for memory. Then it is run twice for each of these times: the memory that is asked for at that
time is refused, or that and all behind it. Each answer has to be the row, or status 6 with its
line. Of runs on threads the counts are not compared. The last line has how many runs there were and
how many were wrong; the status is 1 where one was.
"""
import argparse
import os
import subprocess
import sys
import tempfile

from measure import PROGRAM
from worked import worked

# Refuses memory the time that is REFUSE, counted from 1, and with REFUSE_ALL each time behind it.
# At its end it writes how often memory was asked for into the file COUNT, where that is given.
SHIM = r"""
#include <errno.h>
#include <fcntl.h>
#include <stdatomic.h>
#include <stdio.h>
#include <stdlib.h>
#include <sys/syscall.h>
#include <unistd.h>

static atomic_ulong asked;

static int refused(void) {
    static unsigned long number, all, known;
    if (!known) {
        const char *text = getenv("REFUSE");
        number = text ? strtoul(text, 0, 10) : 0;
        all = getenv("REFUSE_ALL") != 0;
        known = 1;
    }
    unsigned long now = atomic_fetch_add(&asked, 1) + 1;
    return number && (now == number || (all && now > number));
}

static void tell(void) {
    const char *path = getenv("COUNT");
    char text[32];
    int file = path ? open(path, O_WRONLY | O_CREAT | O_TRUNC, 0600) : -1;
    if (file >= 0) {
        int length = snprintf(text, sizeof text, "%lu", (unsigned long)asked);
        if (write(file, text, length) != length) abort();
        close(file);
    }
}

void *__libc_malloc(size_t size);
void *__libc_realloc(void *old, size_t size);

void *malloc(size_t size) {
    if (refused()) {
        errno = ENOMEM;
        return 0;
    }
    return __libc_malloc(size);
}

void *realloc(void *old, size_t size) {
    if (refused()) {
        errno = ENOMEM;
        return 0;
    }
    return __libc_realloc(old, size);
}

// The program ends by this call.
void _exit(int status) {
    tell();
    syscall(SYS_exit_group, status);
    __builtin_unreachable();
}
"""
OUT_OF_MEMORY = (6, b"out of memory\n")
TORN_TWICE = "1" * 13 + "2" * 19 + "1" * 8 + "3" * 19
TORN = ["--threads", "2", "--order", "1" * 13 + "2" * 12 + "1" * 3 + "2" * 7]

RUN = ["--mode", "run", "--threads", "2"]

# The words of each row, and its class.
ROWS = (
    ("adds", [], "ADDS"),
    ("two fields", [], "PAIR"),
    ("torn read", TORN, "SHARED"),
    ("torn twice", ["--threads", "3", "--order", TORN_TWICE], "SHARED"),
    ("locked", ["--elide", "off", *TORN], "SHARED"),
    ("marks", ["--mode", "mark"], "PAIR"),
    ("refused", ["--threads", "1"], "ADDS"),
    ("not read", ["--threads", "9"], "ADDS"),
    ("on a table", RUN, "BANK"),
    ("under one lock", [*RUN, "--memory", "locked"], "BANK"),
)


class Memory:
    """Runs of a program that is refused memory, in a folder of their own."""

    def __init__(self, program, folder):
        self.program = program
        self.shim = os.path.join(folder, "shim.so")
        self.count = os.path.join(folder, "count")
        source = os.path.join(folder, "shim.c")
        with open(source, "w", encoding="ascii") as out:
            out.write(SHIM)
        compiler = os.environ.get("CC", "cc")
        subprocess.run([compiler, "-shared", "-fPIC", "-O1", "-o", self.shim, source], check=True)

    def run(self, words, **settings):
        """The status and the text."""
        done = subprocess.run(
            [self.program, *words], env={"LD_PRELOAD": self.shim, **settings},
            stdout=subprocess.PIPE, stderr=subprocess.DEVNULL, check=False, timeout=120
        )
        return done.returncode, done.stdout

    def whole(self, words):
        """The row with all its memory, and how often it asks for some."""
        row = self.run(words, COUNT=self.count)
        with open(self.count, encoding="ascii") as count:
            return row, int(count.read())


def compared(words, row):
    """What is compared of an answer."""
    status, text = row
    return (status, text.partition(b"counts ")[0]) if "run" in words else row


def tried(memory, name, words):
    """Refuses a row memory each time that it asks for some; tells how many answers were the row,
    want of memory, and neither."""
    row, times = memory.whole(words)
    due = compared(words, row)
    same = wanting = wrong = 0
    for number in range(1, times + 1):
        for settings in ({}, {"REFUSE_ALL": "1"}):
            answer = memory.run(words, REFUSE=str(number), **settings)
            if answer == OUT_OF_MEMORY:
                wanting += 1
            elif compared(words, answer) == due:
                same += 1
            else:
                wrong += 1
                print(f"{name}: refused {number} {settings}: {answer}")
    told = f"status 6 in {wanting} runs, the row in {same}, wrong {wrong}"
    print(f"{name:>16}: asks {times} times; {told}", flush=True)
    return same, wanting, wrong


def main():
    options = argparse.ArgumentParser(description=__doc__.partition("\n")[0])
    options.add_argument("--program", default=PROGRAM, help="the program that is run")
    options = options.parse_args()
    if not os.access(options.program, os.X_OK):
        raise SystemExit("no built program: run ./run --proved examples/A.class first")
    runs = wrong = 0
    with tempfile.TemporaryDirectory() as folder:
        memory = Memory(os.path.abspath(options.program), folder)
        for name, words, class_name in ROWS:
            path = os.path.join(folder, f"{class_name}.class")
            with open(path, "wb") as out:
                out.write(worked(class_name))
            counts = tried(memory, name, [*words, path])
            runs += sum(counts)
            wrong += counts[2]
    print(f"{runs} runs, {wrong} wrong")
    return 1 if wrong else 0


if __name__ == "__main__":
    sys.exit(main())
