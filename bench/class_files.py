#!/usr/bin/env python3
"""Measures how fast the built program reads class files of three shapes: many constants, many attributes, many members.
4, 16 and 64 files of 1 MiB each are read, which is as much as a program may have, so that one sees how the time grows.

Run it by hand from the top of the repository, after `./run --proved examples/A.class`:

    python3 bench/class_files.py

A byte stands behind the last class, so that the program refuses that file (C8) once it has read all files whole, and does
nothing else with them. Each line has the median of the runs, less the start of the program, and the quartiles,
between which half of the runs lie.
"""
import os

import measure
from class_builder import ClassFile

RUNS = 9
FILES = (4, 16, 64)
SIZE = 1024 * 1024


def many(size):
    return (size - 200) // 16


def constants(size):
    file = ClassFile("A")
    for number in range(many(size) - 10):
        file.text(f"{number:013d}")
    return file.content()


def attributes(size):
    file = ClassFile("A")
    file.attributes = [file.attribute("f", b"0123456789")] * many(size)
    return file.content()


def members(size):
    file = ClassFile("A")
    value = file.attribute("f", b"01")
    for _ in range(many(size)):
        file.field(2, "f", "I", [value])
    return file.content()


def copying():
    source = bytearray(os.urandom(64 * 1024 * 1024))
    median, first, third = measure.repeated(lambda: bytes(source), 15)
    speed = len(source) / median / 1e6
    print(f"copying 64 MiB: {median * 1000:.1f} ms, from {first * 1000:.1f} to {third * 1000:.1f} {speed:8.1f} MB/s")


def lines(over):
    copying()
    for shape in (constants, attributes, members):
        content = shape(SIZE)
        for files in FILES:
            print(over.line(f"{shape.__name__} {files} files", [content] * (files - 1) + [content + b"\0"]), flush=True)


if __name__ == "__main__":
    measure.answer_help(__doc__)
    measure.measured(RUNS, lines)
