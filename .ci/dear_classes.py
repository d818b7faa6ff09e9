"""Class files that are dear to load for their size, for `.ci/limits` and `bench/hostile.py`."""
from class_builder import STATIC, SYNCHRONIZED, ClassFile, Code, handler_row, opcodes, u1, u2, u4
from limit_classes import PRIVATE

NOP, POP, RETURN = opcodes("nop pop return")
ICONST_0, ICONST_1, ACONST_NULL = opcodes("iconst_0 iconst_1 aconst_null")
ALOAD, ALOAD_0, ISTORE, ISTORE_1 = opcodes("aload aload_0 istore istore_1")
ASTORE, ASTORE_1 = opcodes("astore astore_1")
MONITORENTER, MONITOREXIT, STATIC_CALL = opcodes("monitorenter monitorexit invokestatic")
NEWARRAY, IFEQ, IDIV = opcodes("newarray ifeq idiv")
DUP, GOTO = opcodes("dup goto")
GETSTATIC, GETFIELD, PUTFIELD = opcodes("getstatic getfield putfield")
TABLESWITCH = b"\xaa"


def with_init(file):
    """The class, with an `init` that does nothing."""
    file.method(STATIC, "init", "()V", RETURN, 0, 0)
    return file.content()


def with_array(file):
    """A private field of an array, which the constructor makes: the stacks of all methods are then
    coloured."""
    file.field(PRIVATE, "v", "[I")
    code = Code(file)
    code.put(ALOAD_0)
    code.initialize()
    field = file.member(9, "A", "v", "[I")
    code.put(ALOAD_0, ICONST_1, NEWARRAY, u1(10), PUTFIELD, u2(field), RETURN)
    code.method(flags=0, name="<init>")
    return field


def deep_stack(depth, size, coloured=False):
    """A method of so many instructions that pushes so many numbers, does nothing for a while, and
    takes them off."""
    file = ClassFile("A")
    if coloured:
        with_array(file)
    code = ICONST_0 * depth + NOP * (size - 1 - 2 * depth) + POP * depth + RETURN
    file.method(STATIC, "m", "()V", code, depth, 0)
    return with_init(file)


def deep_stacks(methods, depth, size):
    """The same, so many methods of it."""
    file = ClassFile("A")
    code = ICONST_0 * depth + NOP * (size - 1 - 2 * depth) + POP * depth + RETURN
    for method in range(methods):
        file.method(STATIC, f"m{method}", "()V", code, depth, 0)
    return with_init(file)


def plain_files(files, methods, size):
    """Files with so many methods, each of so many bytes, that do nothing."""
    contents = []
    for number in range(files):
        file = ClassFile(f"A{number}")
        for method in range(methods):
            file.method(STATIC, f"m{method}", "()V", NOP * (size - 1) + RETURN, 0, 0)
        contents.append(file.content())
    return contents


def fields(files, count, attributes):
    """Files with so many fields, which have so many empty attributes each."""
    contents = []
    for number in range(files):
        file = ClassFile(f"A{number}")
        attribute = file.attribute("X", b"")
        for field in range(count):
            file.field(0, f"f{field}", "I", [attribute] * attributes)
        contents.append(file.content())
    return contents


def names(files, count):
    """Files with so many names of one letter, all the same."""
    contents = []
    for number in range(files):
        file = ClassFile(f"A{number}")
        file.entries += [u1(1) + u2(1) + b"a"] * count
        contents.append(file.content())
    return contents


def rejoined(depth, count, methods):
    """Methods of a loop of so many instructions under a stack of that depth and in a monitor, in
    which nothing is known of two locals from the second round on, so that no frame shares what the
    one before it has."""
    file = ClassFile("A")
    for method in range(methods):
        code = (ALOAD_0 + ASTORE_1) + ALOAD_0 + MONITORENTER
        start = len(code)
        code += ALOAD_0 * depth + NOP * count + POP * depth + ICONST_0 + ISTORE_1 + ICONST_0
        code += IFEQ + u2(start - len(code) & 0xFFFF)
        code += ALOAD_0 + MONITOREXIT + RETURN
        file.method(0, f"m{method}", "()V", code, depth + 1, 2)
    return with_init(file)


def joins(count, locals_):
    """Branches over a store, so that a local is null on one way and a number, or unknown, on the
    other."""
    code = b""
    for number in range(count):
        code += ICONST_0 + IFEQ + u2(6) + ACONST_NULL + ASTORE + u1(number % locals_)
    file = ClassFile("A")
    file.method(STATIC, "m", "()V", code + RETURN, 2, locals_)
    return with_init(file)


def written_locals(count, written):
    """A method of so many constants that are pushed and dropped, behind writes of its first
    locals."""
    code = b"".join(ICONST_0 + ISTORE + u1(local) for local in range(written))
    file = ClassFile("A")
    file.method(STATIC, "m", "()V", code + (ICONST_0 + POP) * count + RETURN, 1, 65535)
    return with_init(file)


def shared_descriptor(methods, arguments):
    """Methods that share a descriptor of so many arguments."""
    file = ClassFile("A")
    for number in range(methods):
        file.method(STATIC, f"m{number}", f"({'I' * arguments})V", RETURN, 0, arguments)
    return with_init(file)


def shared_name(constants, length):
    """Constants of one field, whose name is so long, each used by an instruction."""
    file = ClassFile("A")
    name = "n" * length
    file.field(STATIC, name, "I")
    file.member(9, "A", name, "I")
    pair = file.add(u1(12) + u2(file.text(name)) + u2(file.text("I")))
    first = len(file.entries) + 1
    file.entries += [u1(9) + u2(file.this) + u2(pair)] * constants
    code = b"".join(GETSTATIC + u2(first + number) + POP for number in range(constants))
    file.method(STATIC, "m", "()V", code + RETURN)
    return with_init(file)


def calls(methods):
    """Methods of which each calls the next two."""
    file = ClassFile("A")
    members = [file.member(10, "A", f"m{number}", "()V") for number in range(methods)]
    for number in range(methods):
        code = b"".join(STATIC_CALL + u2(member) for member in members[number + 1 : number + 3])
        file.method(STATIC, f"m{number}", "()V", code + RETURN, 0, 0)
    return with_init(file)


def wide_switch(arms):
    """A switch with so many arms, which all lead to one place."""
    pad = bytes(2)
    size = 1 + 3 + 12 + 4 * arms
    way = u4(size - 1)
    code = ICONST_0 + TABLESWITCH + pad + way + u4(0) + u4(arms - 1) + way * arms + RETURN
    file = ClassFile("A")
    file.method(STATIC, "m", "()V", code, 1, 0)
    return with_init(file)


def divisions(count):
    """So many divisions, of which each can throw, in twice as many bytes and two."""
    return ICONST_1 + (ICONST_1 + IDIV) * count + POP


def owned_rows(body, rows, handlers):
    """A class with a private array field, and a method whose code so many rows cover, with so many
    handlers in all; the first handler is also reached with the array on the stack."""
    file = ClassFile("A")
    field = with_array(file)
    caught = file.of_class("java/lang/ArithmeticException")
    end = len(body)
    code = body + ALOAD_0 + GETFIELD + u2(field)
    first = len(code)
    code += (POP + RETURN) * handlers
    covering = [handler_row(0, end, first + 2 * (row % handlers), caught) for row in range(rows)]
    file.method(0, "m", "()V", code, 2, 1, covering)
    return with_init(file)


def cut_rows(throws, cuts, rows, handlers, parts):
    """A method with so many divisions, which so many rows cover that catch one class, with so many
    handlers. Every second division has a row of its own that catches all, up to so many of these;
    they stand in so many parts before the other rows, so that what an exception may go to ends at
    another row from one division to the next."""
    file = ClassFile("A")
    caught = file.of_class("java/lang/ArithmeticException")
    code = divisions(throws)
    end = len(code)
    code += RETURN
    first = len(code)
    code += (POP + RETURN) * handlers
    wide = [handler_row(0, end, first + 2 * (row % handlers), caught) for row in range(rows)]
    ends = [handler_row(4 * number + 2, 4 * number + 3, first) for number in range(cuts)]
    table = []
    for part in range(parts):
        table += ends[part::parts] + wide[part::parts]
    file.method(STATIC, "m", "()V", code, 2, 1, table)
    return with_init(file)


def covered(file, start, body, rows, handlers, flags, name, places):
    """A method whose code begins with `start`, and goes on with a body that so many rows cover, with
    so many handlers. The rows catch one class."""
    caught = file.of_class("java/lang/ArithmeticException")
    begin = len(start)
    end = begin + len(body)
    first = end + 1
    covering = [
        handler_row(begin, end, first + 2 * (row % handlers), caught) for row in range(rows)
    ]
    code = start + body + RETURN + (POP + RETURN) * handlers
    file.method(flags, name, "()V", code, 2, places, covering)
    return with_init(file)


def killed_locals(count, rows, handlers):
    """Code that gives numbers to so many locals and then null to one after the other, which so many
    rows cover."""
    start = b"".join(ICONST_0 + ISTORE + u1(local) for local in range(count))
    body = b"".join(
        ACONST_NULL + ASTORE + u1(local) + ICONST_1 * 2 + IDIV + POP for local in range(count)
    )
    return covered(ClassFile("A"), start, body, rows, handlers, STATIC, "m", count)


def swapped_locals(count, rounds, rows, handlers):
    """Code whose locals are numbers or null, others before each instruction: as the bits of a count
    that changes one at a time."""
    start = b"".join(ICONST_0 + ISTORE + u1(local) for local in range(count))
    body = b""
    is_null = [False] * count
    for number in range(1, rounds + 1):
        bit = ((number & -number).bit_length() - 1) % count
        is_null[bit] = not is_null[bit]
        body += (ACONST_NULL + ASTORE if is_null[bit] else ICONST_0 + ISTORE) + u1(bit)
    return covered(ClassFile("A"), start, body, rows, handlers, STATIC, "m", count)


def switch_back(arms, instructions):
    """A switch whose arms lead back over a body, in which each local takes the value of the next
    one, so that a type goes from local to local by one more with each time that the switch is
    visited."""
    start = b"".join(ACONST_NULL + ASTORE + u1(local) for local in range(1, 256))
    shift = ALOAD_0 + ASTORE + u1(255)
    shift += b"".join(ALOAD + u1(local + 1) + ASTORE + u1(local) for local in range(1, 255))
    code = start + shift + NOP * (instructions - 512) + ICONST_0
    at = len(code)
    # the arms lead to places that begin instructions: the loads of the shift, then what does nothing
    places = [len(start) + 3 + 4 * local for local in range(254)]
    places += range(len(start) + len(shift), at - 1)
    ways = [u4(place - at & 0xFFFFFFFF) for place in places[:arms]]
    code += TABLESWITCH + bytes(-(at + 1) % 4) + ways[0] + u4(0) + u4(len(ways) - 1)
    file = ClassFile("A")
    file.method(STATIC, "m", "(LA;)V", code + b"".join(ways), 1, 256)
    return with_init(file)


# Handler rows in marking, rows that hide, and long names.

GOTO = b"\xa7"


def jump(code, start):
    """A jump back from the end of some code."""
    return GOTO + u2(start - len(code) & 0xFFFF)


def one_block(file, body, rows):
    """A method that enters its own object and goes over and over through a body, all of which so
    many rows cover that catch one class, and behind them one that catches all; their handler leads
    back to the body."""
    code = ALOAD_0 + MONITORENTER
    start = len(code)
    code += body
    end = len(code)
    code += jump(code, start)
    handler = len(code)
    code += POP
    code += jump(code, start)
    caught = file.of_class("java/lang/ArithmeticException")
    table = [handler_row(start, end, handler, caught)] * rows + [handler_row(start, end, handler)]
    file.method(0, "m", "()V", code, 2, 1, table)
    return with_init(file)


def block_rows(throws, rows):
    """A block with so many divisions, which so many rows cover."""
    return one_block(ClassFile("A"), divisions(throws), rows)


def ruled_rows(plain, rows):
    """A block that breaks every rule of marking and does nothing for a while, which so many rows
    cover."""
    file = ClassFile("A")
    file.field(0, "x", "I")
    field = u2(file.member(9, "A", "x", "I"))
    methods = [file.member(10, "A", name, "()V") for name in ("again", "makes")]
    file.method(STATIC, "again", "()V", STATIC_CALL + u2(methods[0]) + RETURN, 0, 0)
    make = ICONST_1 + NEWARRAY + u1(10) + POP
    file.method(STATIC, "makes", "()V", make + RETURN, 1, 0)
    code = Code(file)
    code.put(ALOAD_0, ICONST_1, PUTFIELD, field, make, ALOAD_0, GETFIELD, field, POP)
    code.put(*(STATIC_CALL + u2(method) for method in methods))
    code.out()
    code.put(ICONST_1)
    code.println()
    return one_block(file, code.content() + NOP * plain, rows)


def entered_rows(blocks, rows):
    """So many blocks that a branch leads to or not, whose entries so many rows cover; all leave at
    one place, which no row covers."""
    leave = 9 * blocks + 1
    code = b""
    for _ in range(blocks):
        code += ICONST_0 + IFEQ + u2(8) + ALOAD_0 + MONITORENTER
        code += GOTO + u2(leave - len(code))
    code += RETURN + ALOAD_0 + MONITOREXIT + RETURN
    handler = len(code)
    file = ClassFile("A")
    caught = file.of_class("java/lang/ArithmeticException")
    table = [handler_row(0, leave - 1, handler, caught)] * rows
    file.method(0, "m", "()V", code + POP + RETURN, 2, 1, table)
    return with_init(file)


def hidden_rows(locals_, plain, rows):
    """A loop in which a type goes from local to local, by one more in each round, with so many rows
    of which one by turns covers what stands before it and what stands behind it, and none covers
    the loop."""
    start = ICONST_0 + POP
    start += b"".join(ACONST_NULL + ASTORE + u1(local) for local in range(1, locals_ + 1))
    shift = b"".join(
        ALOAD + u1(local + 1) + ASTORE + u1(local) for local in range(1, locals_)
    )
    code = start + shift + ALOAD_0 + ASTORE + u1(locals_) + NOP * plain
    code += jump(code, len(start))
    end = len(code)
    file = ClassFile("A")
    caught = file.of_class("java/lang/ArithmeticException")
    table = [handler_row(0, 1, end, caught), handler_row(end, end + 1, end, caught)]
    file.method(
        STATIC, "m", "(LA;)V", code + POP + RETURN, 1, locals_ + 1, table * (rows // 2)
    )
    return with_init(file)


def long_names(blocks, length):
    """So many blocks of a method whose name is so long."""
    file = ClassFile("A")
    code = (ALOAD_0 + MONITORENTER + ALOAD_0 + MONITOREXIT) * blocks + RETURN
    file.method(0, "n" * length, "()V", code, 2, 1)
    return with_init(file)


def locked_classes(count, calls):
    """So many classes of a synchronized static method with so many calls of the next one's."""
    contents = []
    for number in range(count):
        file = ClassFile(f"A{number}")
        called = file.member(10, f"A{(number + 1) % count}", "m", "()V")
        code = (STATIC_CALL + u2(called)) * calls + RETURN
        file.method(STATIC | SYNCHRONIZED, "m", "()V", code, 0, 0)
        contents.append(file.content() if number else with_init(file))
    return contents


def plain_methods(size):
    """A class of about so many bytes, whose methods push and drop constants."""
    file = ClassFile("A")
    for number in range(size // 60000 + 1):
        pairs = min(size - 60000 * number, 60000) // 2
        file.method(STATIC, f"m{number}", "()V", (ICONST_0 + POP) * pairs + RETURN)
    return with_init(file)


# ---- what an `<init>` lets out, and tags at handlers


def init_start(file):
    """The code that a constructor begins with."""
    code = Code(file)
    code.put(ALOAD_0)
    code.initialize()
    return bytes(code.bytes)


def init_rows(throws, rows, handlers, places):
    """A constructor of so many divisions, which so many rows cover, with so many handlers. It has so
    many locals, of which one has `this`."""
    file = ClassFile("A")
    return covered(
        file, init_start(file), divisions(throws), rows, handlers, 0, "<init>", places
    )


def init_locals(count, places, methods=1):
    """So many constructors of so many instructions that do nothing, with so many locals."""
    file = ClassFile("A")
    code = init_start(file) + NOP * count + RETURN
    for number in range(methods):
        file.method(0, "<init>", f"({'I' * number})V", code, 1, places)
    return with_init(file)


def init_switch(arms, depth):
    """A constructor with `this` on its stack so many times, under a switch of so many arms, which all
    lead to one place."""
    file = ClassFile("A")
    code = init_start(file) + ALOAD_0 * depth + ICONST_0
    at = len(code)
    pad = bytes(-(at + 1) % 4)
    way = u4(1 + len(pad) + 12 + 4 * arms)
    code += TABLESWITCH + pad + way + u4(0) + u4(arms - 1) + way * arms + RETURN
    file.method(0, "<init>", "()V", code, depth + 1, 1)
    return with_init(file)


def tagged_rows(monitors, rounds, written, rows, handlers):
    """A method that enters its own object so many times; then it divides, and before each division
    gives a tag of its own to a local, the next of so many, which no other division finds there. So
    many rows cover that, with so many handlers, and one more that catches all. None of it ends."""
    file = ClassFile("A")
    caught = file.of_class("java/lang/ArithmeticException")
    forever = GOTO + u2(0)
    code = (ALOAD_0 + MONITORENTER) * monitors + ICONST_1
    start = len(code)
    for number in range(rounds):
        code += ACONST_NULL + DUP + ASTORE + u1(1 + number % written) + POP + ICONST_1 + IDIV
    end = len(code)
    code += forever
    table = []
    for entry in range(1, monitors):
        table.append(handler_row(2 * entry + 1, 2 * entry + 2, len(code)))
        code += forever
    first = len(code)
    code += forever * (handlers + 1)
    table += [handler_row(start, end, first + 3 * (row % handlers), caught) for row in range(rows)]
    table.append(handler_row(start, end, first + 3 * handlers))
    file.method(0, "m", "()V", code, 3, 1 + written, table)
    return with_init(file)


def far_rows(rows, count):
    """A method of so many divisions, and so many rows, which cover its first instruction and its last
    in turn, and none of what stands between."""
    file = ClassFile("A")
    code = NOP + divisions(count)[:-1] + NOP
    end = len(code)
    code += POP + RETURN
    handler = len(code)
    code += POP + RETURN
    ends = [handler_row(0, 1, handler), handler_row(end - 1, end, handler)]
    file.method(STATIC, "m", "()V", code, 2, 0, (ends * rows)[:rows])
    return with_init(file)


def near_bounds(throws, far, rows, handlers, places):
    """A constructor of so many divisions, which so many rows cover, with so many handlers; among
    these stand rows that cover what is before the divisions or behind them, in turn. It has so many
    locals. Verifying it, tagging it, and looking for where `this` goes each come near to what they
    may do."""
    file = ClassFile("A")
    caught = file.of_class("java/lang/ArithmeticException")
    code = init_start(file)
    before = len(code)
    code += NOP
    begin = len(code)
    code += divisions(throws)
    end = len(code)
    code += NOP + RETURN
    first = len(code)
    code += (POP + RETURN) * handlers
    ends = [handler_row(at, at + 1, first, caught) for at in (before, end)]
    table = []
    for row in range(far + rows):
        covering = row * rows // (far + rows)
        if covering < (row + 1) * rows // (far + rows):
            table.append(handler_row(begin, end, first + 2 * (covering % handlers), caught))
        else:
            table.append(ends[row % 2])
    file.method(0, "<init>", "()V", code, 3, places, table)
    return with_init(file)


def divided_rows(throws, rows, handlers):
    """A method of so many divisions, which so many rows cover, with so many handlers."""
    return covered(ClassFile("A"), b"", divisions(throws), rows, handlers, STATIC, "m", 0)
