"""Class files that come up to a limit, for `.ci/limits` and `.ci/explained`."""
from class_builder import (
    OBJECT, STATIC, SYNCHRONIZED, Blocks, ClassFile, Code, handler_row, opcodes, u1, u2, u4,
)
from worked import worked

PRIVATE = 2
NOP, POP, IADD, ICONST_M1, ICONST_0, ICONST_1 = opcodes("nop pop iadd iconst_m1 iconst_0 iconst_1")
ILOAD_0, ILOAD_1, ISTORE_0, ISTORE_1 = opcodes("iload_0 iload_1 istore_0 istore_1")
ALOAD_0, ASTORE, IINC, IALOAD = opcodes("aload_0 astore iinc iaload")
ISTORE, ACONST_NULL, IDIV = opcodes("istore aconst_null idiv")
IFEQ, IFNE, IF_ICMPNE, GOTO = opcodes("ifeq ifne if_icmpne goto")
GETFIELD, PUTFIELD, NEWARRAY, VIRTUAL = opcodes("getfield putfield newarray invokevirtual")
(MONITORENTER,) = opcodes("monitorenter")
IRETURN, RETURN, ATHROW = opcodes("ireturn return athrow")


def counts(instructions, name="init"):
    """A method makes so many instructions, a multiple of 3."""
    code = Code()
    code.number(instructions // 3 - 1)
    code.put(ISTORE_0)
    code.place("again")
    code.put(IINC, u1(0), u1(255), ILOAD_0)
    code.branch(IFNE, "again")
    code.put(RETURN)
    return code.method(name=name)


def throws(thrown):
    """`init` throws a new object of a class of java/lang."""
    code = Code()
    code.new(f"java/lang/{thrown}")
    code.put(ATHROW)
    return code.method()


def waits_done():
    """`done` waits on a new object, which nobody notifies."""
    code = Code()
    code.new()
    code.put(ASTORE, u1(0))
    blocks = Blocks(code)
    blocks.enter_local(0)
    code.put(ALOAD_0, VIRTUAL, u2(code.file.member(10, OBJECT, "wait", "()V")))
    return code.method(rows=blocks.rows(), name="done")


def sections(number, methods):
    """Class A0, A1, .. of that number with so many synchronized methods, each of which answers 1."""
    file = ClassFile(f"A{number}")
    for method in range(methods):
        file.method(SYNCHRONIZED, f"m{method}", "()I", ICONST_1 + IRETURN)
    return file.content()


def array_fields(count, size):
    """Class A with so many private fields of arrays, which its constructor makes, and for each a
    synchronized method that reads an element of its array. One more, of code of so many bytes at
    most, reads elements of all in turn."""
    file = ClassFile("A")
    fields = [file.member(9, "A", f"v{number}", "[I") for number in range(count)]
    code = Code(file)
    code.put(ALOAD_0)
    code.initialize()
    for number, field in enumerate(fields):
        file.field(PRIVATE, f"v{number}", "[I")
        code.put(ALOAD_0, ICONST_1, NEWARRAY, u1(10), PUTFIELD, u2(field))
    code.put(RETURN)
    code.method(flags=0, name="<init>")
    reads = [ALOAD_0 + GETFIELD + u2(field) + ICONST_0 + IALOAD for field in fields]
    for number, read in enumerate(reads):
        file.method(SYNCHRONIZED, f"m{number}", "()I", read + IRETURN)
    code = Code(file)
    for number in range((size - 2) // 7):
        code.put(reads[number % count], POP)
    code.put(ICONST_0, IRETURN)
    return code.method(flags=SYNCHRONIZED, name="all", descriptor="()I")


def refused_last(number, methods):
    """Class A0, A1, .. of that number with so many methods that return, and one more, whose code
    takes a value from an empty stack."""
    file = ClassFile(f"A{number}")
    for method in range(methods):
        file.method(STATIC, f"m{method}", "()V", RETURN)
    file.method(STATIC, f"m{methods}", "()V", POP + RETURN)
    return file.content()


def calls_on(count, last, synchronized=1):
    """A synchronized `m0` calls m1, that calls the next, and so on up to the last of so many: it calls
    the method of that name, or makes an array where there is none. The first few are synchronized."""
    code = Code()
    for number in range(count):
        code.call(f"m{number + 1}", "()V")
        code.put(RETURN)
        static = STATIC if number or synchronized > 1 else 0
        code.method(flags=static | (SYNCHRONIZED if number < synchronized else 0), name=f"m{number}")
        code = Code(code.file)
    if last:
        code.call(last, "()V")
    else:
        code.put(ICONST_1, NEWARRAY, u1(10), POP)
    code.put(RETURN)
    return code.method(name=f"m{count}")


def prints(count, name="init", descriptor="()V"):
    """A method prints the numbers from `count` to 1."""
    code = Code()
    code.number(count)
    code.put(ISTORE_0)
    code.place("again")
    code.out()
    code.put(ILOAD_0)
    code.println()
    code.put(IINC, u1(0), u1(255), ILOAD_0)
    code.branch(IFNE, "again")
    code.put(RETURN)
    return code.method(name=name, descriptor=descriptor)


def prints_late():
    """Worker 1 prints in its 99,994th step, and each other worker in its 7th."""
    code = Code()
    code.put(ILOAD_0, ICONST_1)
    code.branch(IF_ICMPNE, "print")
    code.number(24996)
    code.put(ISTORE_1)
    code.place("again")
    code.put(IINC, u1(1), u1(255), NOP, ILOAD_1)
    code.branch(IFNE, "again")
    code.put(NOP)
    code.place("print")
    code.out()
    code.put(ILOAD_0)
    code.println()
    code.put(RETURN)
    return code.method(local=2, name="run", descriptor="(I)V")


def adds(size):
    """`init` has code of so many bytes, an odd number, and prints as many ones as it adds."""
    code = Code()
    code.out()
    code.put(ICONST_0, (ICONST_1 + IADD) * ((size - 9) // 2), NOP)
    code.println()
    code.put(RETURN)
    return code.method(3, 0)


def pushes(ones, stack):
    """`init` has a local and so many places on its stack. It prints the sum of so many ones."""
    code = Code()
    code.out()
    code.put(ICONST_1 * ones, IADD * (ones - 1))
    code.println()
    code.put(RETURN)
    return code.method(stack, 1)


def chain(number, methods, classes):
    """Class A0, A1, .. of that number with so many methods, each of which adds 1. `init` of A0
    prints what those of so many classes make of 0, one behind the other."""
    file = ClassFile(f"A{number}")
    for method in range(methods):
        code = Code(file)
        code.put(ILOAD_0, ICONST_1, IADD, IRETURN)
        code.method(name=f"m{method}", descriptor="(I)I")
    if number > 0:
        return file.content()
    code = Code(file)
    code.out()
    code.put(ICONST_0)
    for owner in range(classes):
        for method in range(methods):
            code.call(f"m{method}", "(I)I", f"A{owner}")
    code.println()
    code.put(RETURN)
    return code.method()


def nested(depth):
    """`init` enters so many new objects, one within the other, and prints the depth."""
    code = Code()
    for number in range(depth):
        code.new()
        code.put(ASTORE, u1(number))
    blocks = Blocks(code)
    for number in range(depth):
        blocks.enter_local(number)
    code.out()
    code.number(depth)
    code.println()
    return code.method(2, depth, blocks.rows())


def nested_on_this(depth):
    """`init` calls a method that enters its own object so many times, and prints the depth."""
    file = ClassFile("A")
    code = Code(file)
    code.put(ALOAD_0)
    code.initialize()
    code.put(RETURN)
    code.method(flags=0, name="<init>")
    code = Code(file)
    blocks = Blocks(code)
    for _ in range(depth):
        blocks.enter(ALOAD_0)
    code.out()
    code.number(depth)
    code.println()
    code.method(rows=blocks.rows(), flags=0, name="nest")
    code = Code(file)
    code.new("A")
    code.put(VIRTUAL, u2(file.member(10, "A", "nest", "()V")), RETURN)
    return code.method()


def deep_blocks(blocks, throwing, plain, more=0):
    """A method that enters its own object so many times, then makes reads that can throw and
    instructions that cannot, and does not end. The first handler of each entry, and of the reads,
    does not end either; so many more rows before that one catch one class of what the reads throw."""
    file = ClassFile("A")
    file.field(0, "x", "I")
    read = ALOAD_0 + GETFIELD + u2(file.member(9, "A", "x", "I"))
    code = (ALOAD_0 + MONITORENTER) * blocks
    start = len(code)
    code += (read + POP) * throwing + NOP * plain
    end = len(code)
    forever = GOTO + u2(0)
    code += forever
    rows = []
    for entry in range(1, blocks):
        rows.append(handler_row(2 * entry + 1, 2 * entry + 2, len(code)))
        code += forever
    caught = file.of_class("java/lang/ArithmeticException")
    rows += [handler_row(start, end, len(code), caught)] * more
    rows.append(handler_row(start, end, len(code)))
    file.method(0, "m", "()V", code + forever, 2, 1, rows)
    file.method(STATIC, "init", "()V", RETURN, 0, 0)
    return file.content()


def covered_code(body, rows, handlers, numbers=0):
    """A method that gives numbers to so many locals; then comes code that so many rows cover, with so
    many handlers in all. The rows catch one class."""
    file = ClassFile("A")
    file.method(STATIC, "init", "()V", RETURN, 0, 0)
    caught = file.of_class("java/lang/ArithmeticException")
    code = b"".join(ICONST_0 + ISTORE + u1(local) for local in range(numbers))
    start = len(code)
    code += body
    end = len(code)
    code += RETURN
    first = len(code)
    covering = [
        handler_row(start, end, first + 2 * (row % handlers), caught) for row in range(rows)
    ]
    code += (POP + RETURN) * handlers
    file.method(STATIC, "m", "()V", code, 2, max(1, numbers), covering)
    return file.content()


def plain_code(size):
    """A class of so many bytes that pushes and drops constants."""
    file = ClassFile("A")
    file.method(STATIC, "init", "()V", RETURN, 0, 0)
    pairs = (size - len(file.content()) - 40) // 2
    file.method(STATIC, "m", "()V", (ICONST_0 + POP) * pairs + RETURN)
    return file.content()


def held_in_frames(frames, depth):
    """`init` calls a method that calls itself until there are so many frames of it, each of which
    holds so many new objects meanwhile; the last one prints 7."""
    file = ClassFile("A")
    code = Code(file)
    for number in range(1, depth + 1):
        code.new()
        code.put(ASTORE, u1(number))
    blocks = Blocks(code)
    for number in range(1, depth + 1):
        blocks.enter_local(number)
    code.put(ILOAD_0)
    code.branch(IFEQ, "last")
    code.put(ILOAD_0, ICONST_M1, IADD)
    code.call("descend", "(I)V")
    code.branch(GOTO, "out")
    code.place("last")
    code.out()
    code.number(7)
    code.println()
    code.place("out")
    code.method(2, depth + 1, blocks.rows(), name="descend", descriptor="(I)V")
    code = Code(file)
    code.number(frames - 1)
    code.call("descend", "(I)V")
    code.put(RETURN)
    return code.method()


def fills_heap():
    """`init` makes objects until there is no room for one, and prints how many it made."""
    code = Code()
    code.put(ICONST_0, ISTORE_0)
    code.place("again")
    start = len(code.bytes)
    code.new()
    end = len(code.bytes)
    code.put(POP, IINC, u1(0), u1(1))
    code.branch(GOTO, "again")
    handler = len(code.bytes)
    code.put(POP)
    code.out()
    code.put(ILOAD_0)
    code.println()
    code.put(RETURN)
    thrown = code.file.of_class("java/lang/OutOfMemoryError")
    return code.method(rows=[(start, end, handler, thrown)])


def with_code(shape, code, rows=()):
    """A method of this shape (flags, descriptor, places on the stack, locals) has this code, two
    digits for each byte."""
    file = ClassFile("A")
    flags, descriptor, stack, local = shape
    code = bytes.fromhex(code.replace("OWN", f"{file.this:04x}"))
    rows = [b"".join(map(u2, row)) for row in rows]
    file.method(flags, "m", descriptor, code, stack, local, rows)
    return file.content()


def array_of(length):
    """The worked class whose `init` prints the length of an array, with that length."""
    content = bytearray(worked("MAKES_ARRAY"))
    content[122:126] = u4(length)
    return bytes(content)


def with_attribute(content, name, body):
    """A class without attributes, given one whose name is that constant."""
    return content[:-2] + u2(1) + u2(name) + u4(len(body)) + body


def adds_in(size):
    """The worked class that adds, with an attribute by which its file has so many bytes."""
    return with_attribute(worked("ADDS"), 1, bytes(size - 223 - 6))
