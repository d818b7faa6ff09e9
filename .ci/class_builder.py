"""Class files, made of their parts: for the scripts of the gate and of `bench/`."""

STATIC, SYNCHRONIZED = 0x08, 0x20
OBJECT = "java/lang/Object"
STREAM = "java/io/PrintStream"
FIELD, METHOD = 9, 10

OPCODES = {
    "nop": 0x00, "aconst_null": 0x01, "iconst_m1": 0x02, "iconst_0": 0x03, "iconst_1": 0x04,
    "iconst_2": 0x05, "iconst_3": 0x06, "iconst_4": 0x07, "ldc_w": 0x13, "aload": 0x19,
    "iload_0": 0x1a, "iload_1": 0x1b, "aload_0": 0x2a, "aload_1": 0x2b, "aload_2": 0x2c,
    "aload_3": 0x2d, "iaload": 0x2e, "istore": 0x36, "astore": 0x3a, "istore_0": 0x3b,
    "istore_1": 0x3c,
    "astore_1": 0x4c, "astore_2": 0x4d, "astore_3": 0x4e, "iastore": 0x4f, "pop": 0x57,
    "pop2": 0x58, "dup": 0x59, "dup_x1": 0x5a, "dup_x2": 0x5b, "dup2": 0x5c, "swap": 0x5f,
    "iadd": 0x60, "idiv": 0x6c, "iinc": 0x84, "ifeq": 0x99, "ifne": 0x9a, "if_icmpne": 0xa0,
    "if_acmpeq": 0xa5,
    "if_acmpne": 0xa6, "goto": 0xa7, "lookupswitch": 0xab, "ireturn": 0xac, "areturn": 0xb0,
    "return": 0xb1, "getstatic": 0xb2, "putstatic": 0xb3, "getfield": 0xb4, "putfield": 0xb5,
    "invokevirtual": 0xb6, "invokespecial": 0xb7, "invokestatic": 0xb8, "new": 0xbb,
    "newarray": 0xbc, "arraylength": 0xbe, "athrow": 0xbf, "monitorenter": 0xc2,
    "monitorexit": 0xc3, "ifnull": 0xc6, "ifnonnull": 0xc7,
}
BRANCHES = (
    "ifeq", "ifne", "if_icmpne", "if_acmpeq", "if_acmpne", "goto", "ifnull", "ifnonnull",
)
FIELDS = ("getstatic", "putstatic", "getfield", "putfield")
# How a text names calls, and instructions whose operand is always the same.
CALLS = {"virtual": "invokevirtual", "special": "invokespecial", "static": "invokestatic"}
WITH_OPERANDS = {"newarray": b"\xbc\x0a", "count": b"\x84\x01\xff"}


def u1(n):
    return n.to_bytes(1, "big")


def u2(n):
    return n.to_bytes(2, "big")


def u4(n):
    return n.to_bytes(4, "big")


def opcodes(names):
    """The bytes of these instructions, each without its operands."""
    return [u1(OPCODES[name]) for name in names.split()]


def handler_row(start, end, handler, caught=0):
    """A row of a method; it catches all, unless a class is named."""
    return u2(start) + u2(end) + u2(handler) + u2(caught)


class ClassFile:
    """A class file whose constants are added as they are needed."""

    def __init__(self, name, constants=()):
        self.entries = list(constants)
        self.places = {}
        self.fields = []
        self.methods = []
        self.attributes = []
        self.this = self.of_class(name)
        self.super = self.of_class(OBJECT)
        self.code_name = self.text("Code")

    def add(self, entry):
        if entry not in self.places:
            self.entries.append(entry)
            self.places[entry] = len(self.entries)
        return self.places[entry]

    def text(self, text):
        data = text.encode()
        return self.add(u1(1) + u2(len(data)) + data)

    def of_class(self, name):
        return self.add(u1(7) + u2(self.text(name)))

    def member(self, tag, owner, name, descriptor):
        pair = self.add(u1(12) + u2(self.text(name)) + u2(self.text(descriptor)))
        return self.add(u1(tag) + u2(self.of_class(owner)) + u2(pair))

    def attribute(self, name, body):
        """An attribute, for `field`, `method` or `attributes`."""
        return u2(self.text(name)) + u4(len(body)) + body

    def field(self, flags, name, descriptor, attributes=()):
        head = u2(flags) + u2(self.text(name)) + u2(self.text(descriptor))
        self.fields.append(head + u2(len(attributes)) + b"".join(attributes))

    def method(self, flags, name, descriptor, code, stack=2, local=1, rows=(), attributes=()):
        """A method of this code, which has these rows and attributes."""
        body = u2(stack) + u2(local) + u4(len(code)) + code
        body += u2(len(rows)) + b"".join(rows) + u2(len(attributes)) + b"".join(attributes)
        head = u2(flags) + u2(self.text(name)) + u2(self.text(descriptor)) + u2(1)
        self.methods.append(head + u2(self.code_name) + u4(len(body)) + body)

    def content(self):
        return (
            b"\xca\xfe\xba\xbe" + u2(0) + u2(50)
            + u2(len(self.entries) + 1) + b"".join(self.entries)
            + u2(0x21) + u2(self.this) + u2(self.super) + u2(0)
            + u2(len(self.fields)) + b"".join(self.fields)
            + u2(len(self.methods)) + b"".join(self.methods)
            + u2(len(self.attributes)) + b"".join(self.attributes)
        )


class Code:
    """The code of a method, with names for the places that its branches lead to."""

    def __init__(self, file=None):
        self.file = file or ClassFile("A")
        self.bytes = bytearray()
        self.places = {}
        # Of each branch where it begins, how far behind that its way stands, in how many bytes, and
        # the name of the place.
        self.ways = []

    def put(self, *parts):
        for part in parts:
            self.bytes += part

    def place(self, name):
        self.places[name] = len(self.bytes)

    def branch(self, opcode, name):
        self.ways.append((len(self.bytes), 1, 2, name))
        self.put(opcode, u2(0))

    def switch(self, name):
        """A `lookupswitch` without pairs."""
        start = len(self.bytes)
        self.ways.append((start, 4 - start % 4, 4, name))
        self.put(u1(OPCODES["lookupswitch"]), bytes(11 - start % 4))

    def number(self, number):
        self.put(u1(OPCODES["ldc_w"]), u2(self.file.add(u1(3) + u4(number))))

    def of_field(self, opcode, owner, name, descriptor):
        self.put(opcode, u2(self.file.member(FIELD, owner, name, descriptor)))

    def of_method(self, opcode, owner, name, descriptor):
        self.put(opcode, u2(self.file.member(METHOD, owner, name, descriptor)))

    def out(self):
        self.of_field(u1(OPCODES["getstatic"]), "java/lang/System", "out", f"L{STREAM};")

    def println(self):
        self.of_method(u1(OPCODES["invokevirtual"]), STREAM, "println", "(I)V")

    def call(self, name, descriptor, owner="A"):
        self.of_method(u1(OPCODES["invokestatic"]), owner, name, descriptor)

    def initialize(self, owner=OBJECT):
        self.of_method(u1(OPCODES["invokespecial"]), owner, "<init>", "()V")

    def new(self, owner=OBJECT):
        self.put(u1(OPCODES["new"]), u2(self.file.of_class(owner)), u1(OPCODES["dup"]))
        self.initialize(owner)

    def read(self, text, owner, descriptors):
        """Puts what a text says. A word of it is an instruction, one with what it names of `owner`
        behind a colon, or, with a colon at its end, a place; fields have these descriptors."""
        for word in text.split():
            name, colon, named = word.partition(":")
            if name in BRANCHES:
                self.branch(u1(OPCODES[name]), named)
            elif name == "switch":
                self.switch(named)
            elif name in FIELDS:
                self.of_field(u1(OPCODES[name]), owner, named, descriptors[named])
            elif name in CALLS:
                method, _, rest = named.partition("(")
                self.of_method(u1(OPCODES[CALLS[name]]), owner, method, f"({rest}")
            elif name == "new":
                self.put(u1(OPCODES[name]), u2(self.file.of_class(owner)))
            elif name == "above":
                self.initialize()
            elif name == "out":
                self.out()
            elif name == "println":
                self.println()
            elif name in WITH_OPERANDS:
                self.put(WITH_OPERANDS[name])
            elif colon and not named:
                self.place(name)
            elif not colon and name in OPCODES:
                self.put(u1(OPCODES[name]))
            else:
                raise ValueError(word)

    def content(self):
        for start, behind, size, name in self.ways:
            way = (self.places[name] - start) % 256**size
            self.bytes[start + behind : start + behind + size] = way.to_bytes(size, "big")
        return bytes(self.bytes)

    def method(self, stack=2, local=1, rows=(), flags=STATIC, name="init", descriptor="()V"):
        """Gives its file a method of this code."""
        rows = [handler_row(*row) for row in rows]
        self.file.method(flags, name, descriptor, self.content(), stack, local, rows)
        return self.file.content()


class Blocks:
    """Blocks within each other. Each has a row and a handler, which leaves it and throws on."""

    def __init__(self, code):
        self.code = code
        self.loads = []
        self.starts = []

    def enter(self, load, tag=b""):
        """Enters one more. `load` loads its monitor; `tag` comes between that and the entry."""
        self.code.put(load, tag, u1(OPCODES["monitorenter"]))
        self.loads.append(load)
        self.starts.append(len(self.code.bytes))

    def enter_local(self, number):
        """The same on a local, which a `dup` gives its tag."""
        load, copy, store = opcodes("aload dup astore")
        self.enter(load + u1(number), copy + store + u1(number))

    def leave(self, number):
        """Leaves a block, and tells where its row ends."""
        end = len(self.code.bytes)
        self.code.put(self.loads[number], u1(OPCODES["monitorexit"]))
        return end

    def rows(self):
        """Leaves all of them, and returns; tells the rows, the innermost first."""
        inwards = list(reversed(range(len(self.loads))))
        ends = {number: self.leave(number) for number in inwards}
        self.code.put(u1(OPCODES["return"]))
        handlers, throws = {}, {}
        for number in inwards:
            handlers[number] = self.leave(number)
            throws[number] = len(self.code.bytes)
            self.code.put(u1(OPCODES["athrow"]))
        rows = []
        for number in inwards:
            rows.append((self.starts[number], ends[number], handlers[number], 0))
            if number > 0:
                rows.append((throws[number], throws[number] + 1, handlers[number - 1], 0))
        return rows
