#!/usr/bin/env python3
"""Measures what files that are made to be dear cost the built program: seconds, and how many times those of a plain file
of their size up to 1 MB, peak megabytes and status.

Run it by hand from the top of the repository, after `./run --proved examples/A.class`:

    python3 bench/hostile.py [word..]

With words, only the files whose names have one of them. A run is cut off after LIMIT seconds, or where the system
refuses it memory beyond MOST bytes (as `ulimit -v` does; the program then answers with status 6).

Each file has an empty `init` and is marked, so that what is measured is all of loading; the first line that the
program wrote stands beside the numbers.
"""
import os
import resource
import signal
import sys
import tempfile

from measure import PROGRAM, answer_help
import dear_classes as dears
from class_builder import STATIC, ClassFile, handler_row, opcodes, u1

LIMIT = 120
MOST = 40 * 1024**3
# A plain file has as many instructions as bytes, of which some 1.2 million can be loaded.
MOST_PLAIN = 1_100_000

ICONST_0, ACONST_NULL, NOP = opcodes("iconst_0 aconst_null nop")
POP, RETURN, ATHROW = opcodes("pop return athrow")


def one_method(code, stack, local):
    """A class whose method `m` has this code, and whose `init` is empty."""
    file = ClassFile("A")
    file.method(STATIC, "m", "()V", code, stack, local)
    file.method(STATIC, "init", "()V", RETURN, 0, 0)
    return [file.content()]


def padded(size):
    """`iconst_0, pop` over and over, and a return."""
    return (ICONST_0 + POP) * ((size - 1) // 2) + RETURN


def many_locals(size):
    """Code of this size in a method that has 65,535 locals and uses none."""
    return one_method(padded(size), 1, 65535)


def locals_written(size):
    """Code of this size in a method that writes its first 256 locals."""
    writes = b"".join(ICONST_0 + b"\x36" + u1(i) for i in range(256))
    return one_method(writes + padded(size - len(writes)), 1, 65535)


def pushes_and_pops(size):
    """Pushes to half of the code, and as many pops."""
    half = (size - 1) // 2
    return one_method(ICONST_0 * half + POP * half + RETURN, 65535, 0)


def mixed_pushes(size):
    """The same, with ints and nulls in turn."""
    half = (size - 1) // 4 * 2
    return one_method((ICONST_0 + ACONST_NULL) * (half // 2) + POP * half + RETURN, 65535, 0)


def one_descriptor(methods):
    """Methods that share one descriptor of 65,003 bytes."""
    file = ClassFile("A")
    descriptor = "(" + "I" * 65000 + ")V"
    for number in range(methods):
        file.method(STATIC, f"m{number}", descriptor, RETURN, 0, 65000)
    file.method(STATIC, "init", "()V", RETURN, 0, 0)
    return [file.content()]


def switch_back(arms):
    return [dears.switch_back(arms, 3200)]


def handler_rows(rows, instructions=2000):
    """Rows that all cover the whole of the code, with the same handler."""
    file = ClassFile("A")
    code = NOP * instructions + RETURN + ATHROW
    handlers = [handler_row(0, instructions, instructions + 1)] * rows
    file.method(STATIC, "m", "()V", code, 1, 0, handlers)
    file.method(STATIC, "init", "()V", RETURN, 0, 0)
    return [file.content()]


def deep_stack(depth):
    """A stack of that depth under 65,000 instructions."""
    return [dears.deep_stack(depth, 65000)]


def coloured_stack(depth):
    """The same in a class with an array of its own."""
    return [dears.deep_stack(depth, 65000, coloured=True)]


def loops(methods):
    """Loops of 32,000 instructions, in which no frame shares what the one before it has."""
    return [dears.rejoined(3, 32000, methods)]


def nothing(methods):
    """Methods of 65,000 instructions that do nothing, 16 a file."""
    return dears.plain_files((methods + 15) // 16, min(methods, 16), 65000)


def empty_methods(files):
    """Files with 29,000 methods that return."""
    return dears.plain_files(files, 29000, 1)


def fields(files):
    """Files with 40,000 fields, each of which has an attribute."""
    return dears.fields(files, 40000, 1)


def attributes(files):
    """Files with two fields of 65,535 attributes."""
    return dears.fields(files, 2, 65535)


def names(files):
    """Files with 65,000 names of one letter."""
    return dears.names(files, 65000)


def owned_rows(rows):
    """So many rows over the divisions of a class with an array of its own."""
    return [dears.owned_rows(dears.divisions(12000 if rows < 10000 else 29000), rows, 2)]


def block_rows(rows):
    """So many rows over the divisions of a block."""
    return [dears.block_rows(12000 if rows < 10000 else 16000, rows)]


def ruled_rows(rows):
    """So many rows over a block that breaks each rule of marking."""
    return [dears.ruled_rows(29000, rows)]


def entered_rows(rows):
    """So many rows over the entries of blocks."""
    return [dears.entered_rows(2800, rows)]


def hidden_rows(rows):
    """So many rows that cover no instruction of a loop between them."""
    return [dears.hidden_rows(20, 16000, rows)]


def near_bounds(places):
    """A constructor that comes near to all bounds of loading, with so many locals."""
    return [dears.near_bounds(19600, 500, 30, 255, places)]


def constructor_rows(rows):
    """A constructor of 14,000 divisions in so many rows, or of 30,000 where they are many."""
    return [dears.init_rows(14000 if rows < 10000 else 30000, rows, 1000, 1)]


def constructor_locals(places):
    """A constructor that does nothing for a while, with so many locals."""
    return [dears.init_locals(60000, places)]


def divided_rows(rows):
    """14,000 divisions in so many rows, or 29,000 where they are many."""
    return [dears.divided_rows(14000 if rows < 10000 else 29000, rows, 1000)]


def measured(paths):
    """Seconds of the processor, peak megabytes, status and the first line that was written."""
    out_read, out_write = os.pipe()
    child = os.fork()
    if child == 0:
        os.dup2(out_write, 1)
        os.dup2(out_write, 2)
        resource.setrlimit(resource.RLIMIT_CPU, (LIMIT, LIMIT))
        resource.setrlimit(resource.RLIMIT_AS, (MOST, MOST))
        resource.setrlimit(resource.RLIMIT_CORE, (0, 0))
        os.execv(PROGRAM, [PROGRAM, "--mode=mark", *paths])
    os.close(out_write)
    with os.fdopen(out_read, "rb") as out:
        written = out.read(65536)
    _, status, usage = os.wait4(child, 0)
    took = usage.ru_utime + usage.ru_stime
    if os.WIFSIGNALED(status):
        ended = signal.Signals(os.WTERMSIG(status)).name
    else:
        ended = f"status {os.WEXITSTATUS(status)}"
    first = written.decode(errors="replace").split("\n")[0][:60]
    return took, usage.ru_maxrss / 1024, ended, first


FILES = (
    (many_locals, 4096),
    (many_locals, 65535),
    (locals_written, 65535),
    (pushes_and_pops, 32768),
    (pushes_and_pops, 65535),
    (mixed_pushes, 32768),
    (one_descriptor, 4000),
    (switch_back, 400),
    (switch_back, 800),
    (handler_rows, 1000),
    (handler_rows, 4000),
    (deep_stack, 60),
    (deep_stack, 61),
    (coloured_stack, 60),
    (loops, 2),
    (loops, 30),
    (nothing, 16),
    (nothing, 256),
    (empty_methods, 9),
    (empty_methods, 16),
    (fields, 15),
    (fields, 16),
    (attributes, 16),
    (names, 64),
    (owned_rows, 3900),
    (owned_rows, 65000),
    (block_rows, 3900),
    (block_rows, 65000),
    (ruled_rows, 3900),
    (ruled_rows, 65000),
    (entered_rows, 3900),
    (hidden_rows, 5000),
    (near_bounds, 2550),
    (constructor_rows, 3500),
    (constructor_rows, 65000),
    (constructor_locals, 65535),
    (divided_rows, 3500),
    (divided_rows, 65000),
)


def written(folder, contents):
    """The paths of files with these contents."""
    paths = []
    for number, content in enumerate(contents):
        paths.append(os.path.join(folder, f"{number}.class"))
        with open(paths[-1], "wb") as out:
            out.write(content)
    return paths


def plain_time(folder, size):
    """The seconds of a plain file of about this size, the middle of three runs."""
    paths = written(folder, [dears.plain_methods(size)])
    return sorted(measured(paths)[0] for _ in range(3))[1]


def main():
    answer_help(__doc__)
    if not os.access(PROGRAM, os.X_OK):
        raise SystemExit("no built program: run ./run --proved examples/A.class first")
    words = sys.argv[1:]
    with tempfile.TemporaryDirectory() as folder:
        for shape, size in FILES:
            name = f"{shape.__name__} {size}"
            if words and not any(word in name for word in words):
                continue
            contents = shape(size)
            paths = written(folder, contents)
            took, megabytes, ended, first = measured(paths)
            whole = sum(len(content) for content in contents)
            times = f"{took / plain_time(folder, whole):6.1f}" if whole <= MOST_PLAIN else f"{'-':>6}"
            print(
                f"{name:>24}: {whole:>8} bytes {took:8.2f} s {times} times {megabytes:8.1f} MB  {ended}  {first}",
                flush=True,
            )


if __name__ == "__main__":
    main()
