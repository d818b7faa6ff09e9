#!/usr/bin/env python3
"""Measures how fast the built program decodes, links, verifies, tags and marks, and how the time grows where the input doubles.

Run it by hand from the top of the repository, after `./run --proved examples/A.class`:

    python3 bench/loading.py

Each program is made so that the stage that is measured is the last to be done: its last method, or its first class, breaks
a rule of that stage, and the line of the refusal is printed beside the time. Programs that are marked pass all rules and
have no method that would be run; beside each stands the same one without marks, which a rule of tagging refuses. `small`
and `loops` are loaded whole: files with 422 methods each, of constants that are pushed and dropped (50 KB a file), and of loops
with calls (37 KB). `covered` is a method of 2,000 instructions that all its handler rows cover, and `blocks` one of many
synchronized blocks; both are loaded whole. Each line has the median of the runs, less the start of the program, the quartiles, between which half of
the runs lie, and the most memory that a run had at a time.
"""
import measure
from class_builder import STATIC, SYNCHRONIZED, ClassFile, handler_row, u1, u2

RUNS = 5


def files_of(codes, stack=2, local=1):
    """Files with a static method of each code, 15 a file."""
    contents = []
    for first in range(0, len(codes), 15):
        file = ClassFile(f"A{first // 15}")
        for number, code in enumerate(codes[first : first + 15]):
            file.method(STATIC, f"m{number}", "()V", code, stack, local)
        contents.append(file.content())
    return contents


def decoding(methods):
    """Methods of 65,535 bytes, `iconst_0, pop` over and over; the last has an unknown opcode at its end."""
    code = b"\x03\x57" * 32767
    return files_of([code + b"\xb1"] * (methods - 1) + [code + b"\xfe"])


def straight(methods):
    """The same, of which the last falls off its end."""
    code = b"\x03\x57" * 32767
    return files_of([code + b"\xb1"] * (methods - 1) + [code])


def branching():
    """`iconst_0, ifeq` to the start, of four bytes each, 10,000 of them."""
    code = bytearray()
    while len(code) + 6 <= 40000:
        way = -(len(code) + 1)
        if way < -32768:
            way = 4 - 1
        code += b"\x03\x99" + (way & 0xFFFF).to_bytes(2, "big")
    return bytes(code)


def branches(methods):
    """Methods of 10,000 branches, of which the last falls off its end."""
    code = branching()
    return files_of([code + b"\xb1"] * (methods - 1) + [code + b"\x03\x57"])


def joining():
    """Locals that are null on one way and an int on the other, so that each join changes its frame."""
    code = bytearray()
    local = 0
    while len(code) + 12 <= 40000:
        # iconst_0, ifeq +6; aconst_null, astore; nop
        code += b"\x03\x99\x00\x06\x01\x3a" + u1(local % 200)
        local += 1
    return bytes(code)


def joins(methods):
    """Methods of such joins over 200 locals, of which the last falls off its end."""
    code = joining()
    return files_of([code + b"\xb1"] * (methods - 1) + [code + b"\x03\x57"], 2, 200)


def member_names(count):
    return [f"member{i}" for i in range(count)]


LOCKS_NULL = b"\x01\xc2\xb1"


def tagging(methods):
    """Methods of 65,533 bytes, `aconst_null, dup, pop, pop` over and over; the last enters a monitor that has no tag."""
    code = b"\x01\x59\x57\x57" * 16383
    return files_of([code + b"\xb1"] * (methods - 1) + [LOCKS_NULL])


def calling(files, refused):
    """Files with 10,000 static methods each, of which each calls the next one of the next file and of its own, and 100
    synchronized ones, which call one each. Where they are to be refused, the last method enters a monitor without a tag."""
    contents = []
    for number in range(files):
        file = ClassFile(f"C{number}")
        names = [f"m{i}" for i in range(10000)]
        own = [file.member(10, f"C{number}", name, "()V") for name in names]
        other = [file.member(10, f"C{(number + 1) % files}", name, "()V") for name in names]
        for i, name in enumerate(names):
            code = b"\xb1"
            if i + 1 < len(names):
                code = b"\xb8" + u2(own[i + 1]) + b"\xb8" + u2(other[i + 1]) + code
            file.method(STATIC, name, "()V", code, 0, 0)
        for i in range(100):
            file.method(SYNCHRONIZED, f"s{i}", "()V", b"\xb8" + u2(own[i * 100]) + b"\xb1", 0, 1)
        if refused and number + 1 == files:
            file.method(STATIC, "last", "()V", LOCKS_NULL)
        contents.append(file.content())
    return contents


def marking(files):
    """Such files that pass all rules."""
    return calling(files, False)


def unmarked(files):
    """The same, refused in tagging."""
    return calling(files, True)


def linking(files):
    """Files of nearly 1 MiB with many members, which use one another's; the first one's `init` is not static."""
    contents = []
    for number in range(files):
        file = ClassFile(f"pack/Class{number}")
        other = f"pack/Class{(number + 1) % files}"
        names = member_names(8500)
        for name in names:
            file.field(STATIC, name, "I")
        fields = [file.member(9, other, name, "I") for name in names]
        methods = [file.member(10, other, name, "()V") for name in names]
        for start in range(8500):
            code = b"".join(b"\xb2" + u2(fields[(start + k) % 8500]) + b"\x57" for k in range(12))
            file.method(STATIC, names[start], "()V", code + b"\xb8" + u2(methods[start]) + b"\xb1")
        if number == 0:
            file.method(0, "init", "()V", b"\xb1")
        contents.append(file.content())
    return contents


def shared(constants):
    """One file whose constants all have one name of 65,535 bytes, each used by an instruction."""
    file = ClassFile("A")
    name = "n" * 65535
    file.field(STATIC, name, "I")
    file.member(9, "A", name, "I")
    pair = file.add(u1(12) + u2(file.text(name)) + u2(file.text("I")))
    first = len(file.entries) + 1
    for _ in range(constants):
        file.entries.append(u1(9) + u2(file.this) + u2(pair))
    done = 0
    while done < constants:
        part = range(done, min(done + 12000, constants))
        code = b"".join(b"\xb2" + u2(first + k) + b"\x57" for k in part) + b"\xb1"
        file.method(STATIC, f"m{done}", "()V", code)
        done = part.stop
    file.method(0, "init", "()V", b"\xb1")
    return [file.content()]


def small(files):
    """Files of 50 KB, with 422 methods each of 81 instructions of one byte."""
    contents = []
    for number in range(files):
        file = ClassFile(f"S{number}")
        for i in range(422):
            file.method(STATIC, f"method{i}", "()V", b"\x03\x57" * 40 + b"\xb1")
        contents.append(file.content())
    return contents


def jump(code, at, to):
    """Writes where a branch leads that stands at a pc."""
    code[at + 1 : at + 3] = (to - at & 0xFFFF).to_bytes(2, "big")


def loop(called):
    """A loop over locals 2 and 3, with arithmetic, a branch and a call, of an `(II)I`."""
    # iconst_0, istore_2, iconst_0, istore_3; iload_3, iload_0, if_icmpge to the end
    code = bytearray(b"\x03\x3d\x03\x3e\x1d\x1a\xa2\0\0")
    # iload_2, iload_1, iadd, iload_3, iconst_2, imul, isub, istore_2
    code += b"\x1c\x1b\x60\x1d\x05\x68\x64\x3d"
    # iload_2, iconst_3, iand, ifne over the next; iinc 2 1
    code += b"\x1c\x06\x7e\x9a\0\6\x84\2\1"
    # iload_2, iload_3, invokestatic, istore_2; iinc 3 1, goto the test
    code += b"\x1c\x1d\xb8" + u2(called) + b"\x3d\x84\3\1\xa7\0\0"
    jump(code, len(code) - 3, 4)
    jump(code, 6, len(code))
    # iload_2, ireturn
    return bytes(code + b"\x1c\xac")


def loops(files):
    """Files with 422 methods of such loops, each of which calls the next."""
    contents = []
    for number in range(files):
        file = ClassFile(f"L{number}")
        for i in range(422):
            called = file.member(10, f"L{number}", f"method{(i + 1) % 422}", "(II)I")
            file.method(STATIC, f"method{i}", "(II)I", loop(called), 4, 4)
        contents.append(file.content())
    return contents


def covered(rows):
    """A method of 2,000 instructions, `iconst_0, pop` over and over, which all rows cover, each with a handler of its own."""
    code = b"\x03\x57" * 1000
    end = len(code)
    first = end + 1
    code += b"\xb1" + b"\x57\xb1" * rows
    file = ClassFile("A")
    file.method(STATIC, "m", "()V", code, 1, 0, [handler_row(0, end, first + 2 * i) for i in range(rows)])
    return [file.content()]


def blocks(count):
    """A method of so many synchronized blocks on `this` one after the other, as javac writes them."""
    code = bytearray()
    rows = []
    for _ in range(count):
        # aload_0, dup, astore_1, monitorenter; aload_1, monitorexit; goto the next block
        code += b"\x2a\x59\x4c\xc2"
        inside = len(code)
        code += b"\x2b\xc3"
        out = len(code)
        code += b"\xa7\0\x08"
        # astore_2, aload_1, monitorexit; aload_2, athrow
        handler = len(code)
        code += b"\x4d\x2b\xc3"
        rows.append(handler_row(inside, out, handler))
        rows.append(handler_row(handler, len(code), handler))
        code += b"\x2c\xbf"
    file = ClassFile("A")
    file.method(0, "m", "()V", bytes(code + b"\xb1"), 2, 3, rows)
    return [file.content()]


SHAPES = (
    (decoding, "methods", (4, 8, 16)),
    (straight, "methods", (4, 8, 16)),
    (branches, "methods", (15, 30, 60)),
    (joins, "methods", (8, 16, 32)),
    (tagging, "methods", (4, 8, 16)),
    (linking, "files", (1, 2, 4)),
    (unmarked, "files", (4, 8, 16)),
    (marking, "files", (4, 8, 16)),
    (shared, "constants", (15000, 30000, 60000)),
    (small, "files", (8, 16, 32)),
    (loops, "files", (16, 32, 64)),
    (covered, "rows", (2500, 5000, 10000)),
    (blocks, "blocks", (1000, 2000, 4000)),
)


def lines(over):
    for shape, of, sizes in SHAPES:
        for size in sizes:
            print(over.line(f"{shape.__name__} {size} {of}", shape(size)), flush=True)


if __name__ == "__main__":
    measure.answer_help(__doc__)
    measure.measured(RUNS, lines)
