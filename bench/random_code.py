"""Class files of one class each, whose code is made by chance, for `random_programs.py`.

The code is made of sequences of instructions, and of parts of them, and branches may lead to
anywhere between two instructions. It is accepted, since the types of the stack are kept beside it,
and doesn't ask what is computed: an index may be out of bounds, a reference null, a divisor zero,
and a loop may never end.
"""
import measure  # noqa: F401  (where the gate's modules stand)
from class_builder import (
    OBJECT, STATIC, SYNCHRONIZED, WITH_OPERANDS, ClassFile, Code, u1, u2, u4,
)
from random_sources import BOUNDS, CAUGHT, HELPERS, MANY, NUMBERS, ROUNDS, UNCHECKED

PRIVATE = 0x02
SIZES = (3, 4, 4, 5, 5, 6, 6, 7, 8, 9, 128, 128, 0, 1, 2, -1)
# What catches in the parts that the machine begins with, mostly all.
ROOTS = (None, None, None, None, "Throwable", "RuntimeException")
ACONST_NULL, ICONST_0, BIPUSH, SIPUSH, LDC_W = bytes.fromhex("01 03 10 11 13")
ILOAD, ALOAD, ALOAD_0, ISTORE, ASTORE, POP, DUP, IINC = bytes.fromhex("15 19 2a 36 3a 57 59 84")
IFEQ, IFGT, IF_ICMPLT, IF_ICMPGE, IF_ICMPGT, IF_ICMPLE = bytes.fromhex("99 9d a1 a2 a3 a4")
GOTO, TABLESWITCH, LOOKUPSWITCH, IRETURN, RETURN = bytes.fromhex("a7 aa ab ac b1")
GETSTATIC, GETFIELD, INVOKEVIRTUAL, INVOKESPECIAL, INVOKESTATIC = bytes.fromhex("b2 b4 b6 b7 b8")
ATHROW, MONITORENTER, MONITOREXIT = bytes.fromhex("bf c2 c3")
# The conditional branches, by how many there are of each from the first one on.
BRANCHES = {"if1": (IFEQ, 6), "if2": (0x9f, 6), "same": (0xa5, 2), "null": (0xc6, 2)}
# Instructions without operands by what they take from the stack and leave there: an int, an array,
# an object or the stream, of which the last one is on the top.
PLAIN = {
    "op": ("60 64 68 6c 70 78 7a 7c 7e 80 82", "II", "I"), "one": ("74 91 92 93", "I", "I"),
    "[]": ("2e", "AI", "I"), "[]=": ("4f", "AII", ""), "length": ("be", "A", "I"),
    "nop": ("00", "", ""),
}
# Moves of the stack by how many values they take, and which of them they leave, from below.
MOVES = {
    "pop": (POP, 1, ""), "pop2": (0x58, 2, ""), "dup": (DUP, 1, "00"), "dup_x1": (0x5a, 2, "101"),
    "dup_x2": (0x5b, 3, "2012"), "dup2": (0x5c, 2, "0101"), "swap": (0x5f, 2, "10"),
}
# Of each kind of local its load and its store, and those that name the local themselves.
LOADS = {"I": (ILOAD, 0x1a, ISTORE, 0x3b), "A": (ALOAD, ALOAD_0, ASTORE, 0x4b),
         "O": (ALOAD, ALOAD_0, ASTORE, 0x4b)}
# Fields with their types; those in capitals are static. A section may read the guarded ones.
FIELDS = {"i": "I", "j": "I", "z": "Z", "v": "[I", "n": "LA;", "S": "I", "T": "I", "V": "[I",
          "N": "LA;", "low": "I", "high": "I"}
GUARDED = ("low", "high")
KINDS = {"I": "I", "Z": "I", "[I": "A", "LA;": "O"}
TYPES = {"I": "I", "A": "[I", "O": "LA;"}
# Sequences, mostly such as may be made in one: loads of an int, an array or an object, and, with
# `=` behind, stores; a number, operators, tests, fields, elements.
SEQUENCES = [text.split() for line in (
    "I I op I=; I op I=; op I=; I # op I=; # op I=; I I op; I # op; # op; op; I one; +; I I I",
    "I I if2; I # if2; # if2; I if1; if1; I if2; A null; O null; O O same; I dup if2; I dup op if1",
    "A I []; A I [] I=; A # []; A I I op []; A I I []=; A I # []=; A # I []=; A # # []=; V I []",
    "V # I []=; A # dup2 [] # op []=; A I dup_x2 []=; A length; A length I=; size array A=",
    "I I=; # I=; A A=; O O=; O dup O=; I dup I=; nop; go; switch; I I swap op I=; I I pop I=",
    "O i; O i I=; O n i; O v I []; O dup i # op i=; O dup j I op j=; O I i=; O # j=; O I z=",
    "O z if1; O A v=; O O n=; O I dup_x1 i=; new O=; new N=; size array V=; V A=; A V=; N O=; O N=",
    "S # op S=; S # op T=; T I=; I S=; out I println; out # I if1 pop # println; I I pop2",
    "out # I dup if2 pop # println; out # I I if2 pop # println; out # O null pop # println",
    "-2147483648 -1 op; -2147483648 I= # I= I I op I=; -2147483648 I -1 op; I -1 op I=; I 0 op",
    "out # O dup same pop # println; I leave; throw; call; call; call",
) for text in line.split("; ")]
READING = set("I O I= # op if1 if2 + one go switch dup swap pop nop low high".split())
IN_READING = ["O low I=".split(), "O high I op I=".split()]
ENDS = ("out I println", "out I println", "out S println", "out T println", "out N i println",
        "out N v 0 [] println", "out V 1 [] println")
# What other words take: `r` is any reference, `?` any value.
TAKES = {
    "if1": "I", "if2": "II", "array": "I", "leave": "I", "println": "PI", "null": "r", "same": "rr",
    **{word: takes for word, (_, takes, _) in PLAIN.items()},
    **{word: "?" * many for word, (_, many, _) in MOVES.items()},
}
# How many locals of a kind there are at least; how deep loops and blocks stand within each other.
LEAST = {"I": 4, "A": 2, "O": 2}
LOOPS, BLOCKS = 3, 2
MOST_STACK = 48


class RandomCode:
    """The code of one method, made by chance beside the types of its stack. Branches lead on, or
    back by a count, to any place where the stack has the same types, also within a sequence. Its
    arguments are of the kinds `given`; each local keeps its kind, and some are for loops and
    blocks. In a section that only reads, what is there may be read without its lock."""

    def __init__(self, chosen, file, calls, given, reading=False, root=False):
        self.chosen = chosen
        self.file = file
        self.code = Code(file)
        self.calls = calls
        self.given = given
        self.reading = reading
        self.root = root
        self.stack = ""
        self.reached = True
        self.rows = []
        self.names = self.blocks = self.loops = 0
        self.begin_scope()
        self.start_locals()

    def start_locals(self):
        """Every local that is no argument gets a value, but those for blocks."""
        self.locals = {kind: [] for kind in LEAST}
        for number, kind in enumerate(self.given):
            self.locals[kind].append(number)
        self.size = len(self.given)
        for kind, least in LEAST.items():
            while len(self.locals[kind]) < least:
                self.locals[kind].append(self.new_local())
                self.start_value(kind)
                self.store(kind, self.size - 1)
        self.fuel, *loops = [self.new_local() for _ in range(1 + 2 * LOOPS)]
        for number in (self.fuel, *loops):
            self.number(self.chosen.choice(ROUNDS))
            self.store("I", number)
        self.counters, self.bounds = loops[:LOOPS], loops[LOOPS:]
        self.monitors = [self.new_local() for _ in range(BLOCKS)]

    def new_local(self):
        self.size += 1
        return self.size - 1

    def start_value(self, kind):
        if kind == "I":
            self.number()
        elif self.reading or self.chance(0.05):
            self.put(u1(ACONST_NULL), "", kind)
        elif kind == "A":
            self.number(self.chosen.choice(SIZES[:-1]))
            self.word("array")
        else:
            self.word(self.chosen.choice(("new", "N")))

    def store(self, kind, number):
        self.put(bytes((LOADS[kind][2], number)), kind)

    def begin_scope(self):
        """Branches stay within a scope: `ahead` has the places to come with the stack there."""
        self.ahead, self.heads = [], []

    def chance(self, share):
        return self.chosen.random() < share

    def put(self, data, takes="", gives=""):
        if takes:
            assert self.stack.endswith(takes), (self.stack, takes)
            self.stack = self.stack[: -len(takes)]
        self.stack += gives
        assert len(self.stack) < MOST_STACK
        self.code.put(data)

    def new_place(self):
        self.names += 1
        return f"place{self.names}"

    # ---- places

    def meet(self, share=0.25):
        """Here some places come to stand that fit, or are where a branch back leads."""
        for place in [place for place in self.ahead if place[1] == self.stack]:
            if self.chance(share):
                self.ahead.remove(place)
                self.code.place(place[0])
        if self.chance(0.05):
            name = self.new_place()
            self.code.place(name)
            self.heads.append((name, self.stack))

    def go_on_at(self, place):
        """Where nothing comes from above, a place comes to stand; else the stack is made to fit."""
        self.ahead.remove(place)
        if self.reached and "T" in place[1]:
            over = self.to_come()
            self.jump(GOTO, over[0])
            self.reached = False
        if self.reached:
            self.adjust(place[1])
        self.code.place(place[0])
        self.stack, self.reached = place[1], True
        if "T" in self.stack:
            self.put(u1(POP), "T")

    def to_come(self):
        place = (self.new_place(), self.stack)
        self.ahead.append(place)
        return place

    def jump(self, opcode, name):
        self.code.branch(u1(opcode), name)

    def ended(self):
        """Behind a jump that nothing passes some place of those ahead comes to stand."""
        self.reached = False
        self.go_on_at(self.chosen.choice(self.ahead))

    def adjust(self, stack):
        """Makes the stack fit by dropping and pushing values."""
        while not stack.startswith(self.stack):
            self.put(u1(POP), self.stack[-1])
        for kind in stack[len(self.stack):]:
            self.push(kind)

    # ---- one instruction

    def push(self, kind):
        if kind == "P":
            self.code.out()
            self.stack += "P"
        elif kind == "I" and self.chance(0.3):
            self.number()
        elif kind == "O" and self.reading:
            self.put(u1(ALOAD_0), "", "O")
        elif kind != "I" and self.chance(0.05):
            self.put(u1(ACONST_NULL), "", kind)
        else:
            self.local(kind, 0)

    def local(self, kind, store):
        """A load of a local of that kind, or a store."""
        number = self.chosen.choice(self.locals[kind][store and kind == "O":])
        long, short = LOADS[kind][2 * store: 2 * store + 2]
        data = u1(short + number) if number < 4 and self.chance(0.5) else u1(long) + u1(number)
        self.put(data, *((kind, "") if store else ("", kind)))

    def number(self, number=None):
        if number is None:
            number = self.chosen.choice(NUMBERS)
        if -1 <= number <= 5 and self.chance(0.8):
            data = u1(ICONST_0 + number)
        elif -128 <= number < 128:
            data = u1(BIPUSH) + u1(number % 256)
        elif -32768 <= number < 32768 and self.chance(0.8):
            data = u1(SIPUSH) + u2(number % 65536)
        else:
            data = u1(LDC_W) + u2(self.file.add(u1(3) + u4(number % 2**32)))
        self.put(data, "", "I")

    def field(self, name, store):
        kind, on = KINDS[FIELDS[name]], "" if name.isupper() else "O"
        self.put(b"", on + kind if store else on, "" if store else kind)
        opcode = (GETFIELD if on else GETSTATIC) + store
        self.code.of_field(u1(opcode), "A", name, FIELDS[name])

    def branch(self, word):
        self.put(b"", self.stack[-len(TAKES[word]):])
        first, many = BRANCHES[word]
        fitting = [place for place in self.ahead if place[1] == self.stack]
        place = self.chosen.choice(fitting) if fitting and self.chance(0.5) else self.to_come()
        self.jump(first + self.chosen.randrange(many), place[0])

    def switch(self):
        self.put(b"", "I")
        start = len(self.code.bytes)
        pad, many = 3 - start % 4, self.chosen.randint(0, 4)
        low = self.chosen.choice((-1, 0, 1, 5))
        keys = sorted(self.chosen.sample(sorted(set(NUMBERS)), many))
        table = self.chance(0.5) and many > 0
        head = u4(low % 2**32) + u4((low + many - 1) % 2**32) if table else u4(many)
        self.code.put(u1(TABLESWITCH if table else LOOKUPSWITCH), bytes(pad), bytes(4), head)
        places = [self.to_come()[0] for _ in range(min(many, 2) + 1)]
        self.code.ways.append((start, 1 + pad, 4, places[0]))
        for number in range(many):
            self.code.put(b"" if table else u4(keys[number] % 2**32))
            behind = len(self.code.bytes) - start
            self.code.ways.append((start, behind, 4, self.chosen.choice(places)))
            self.code.put(bytes(4))
        self.ended()

    def call(self):
        opcode, name, takes, signed = self.chosen.choice(self.calls)
        for kind in takes:
            self.push(kind)
        self.put(b"", takes, "I")
        self.code.of_method(u1(opcode), "A", name, signed)

    def move(self, word):
        opcode, many, gives = MOVES[word]
        taken = self.stack[-many:]
        self.put(u1(opcode), taken, "".join(taken[int(number)] for number in gives))

    def word(self, word):
        """One instruction of a sequence."""
        name, stores = word.rstrip("="), word.endswith("=")
        if word in PLAIN:
            opcodes, takes, gives = PLAIN[word]
            self.put(u1(self.chosen.choice(bytes.fromhex(opcodes))), takes, gives)
        elif word in LOADS and self.reading:
            self.push(word)
        elif name in LOADS:
            self.local(name, stores)
        elif name in FIELDS:
            self.field(name, stores)
        elif word in BRANCHES:
            self.branch(word)
        elif word in MOVES:
            self.move(word)
        else:
            self.other(word)

    def other(self, word):
        if word == "#":
            self.number()
        elif word.lstrip("-").isdigit():
            self.number(int(word))
        elif word == "size":
            self.number(self.chosen.choice(SIZES))
        elif word == "+":
            local = self.chosen.choice(self.locals["I"])
            self.put(bytes((IINC, local, self.chosen.choice((1, 1, 2, 127, 128, 255)))))
        elif word == "array":
            self.put(WITH_OPERANDS["newarray"], "I", "A")
        elif word == "new":
            self.code.new("A")
            self.stack += "O"
        elif word == "out":
            self.push("P")
        elif word == "println":
            self.put(b"", "PI")
            self.code.println()
        elif word == "go":
            self.jump(GOTO, self.to_come()[0])
            self.ended()
        elif word in ("leave", "throw"):
            self.leave(word)
        elif word == "switch":
            self.push("I")
            self.switch()
        else:
            self.call()

    def leave(self, word):
        """Returns, or throws, unless nothing would stand behind it or a monitor is held."""
        if not self.ahead or (word == "leave" and self.blocks):
            return
        if word == "leave":
            self.code.put(u1(RETURN if self.root else IRETURN))
        elif self.chance(0.2):
            self.code.put(u1(ACONST_NULL), u1(ATHROW))
        else:
            self.code.new("java/lang/" + self.chosen.choice(UNCHECKED))
            self.code.put(u1(ATHROW))
        self.ended()

    # ---- more than one

    def fits(self, word):
        """What this word takes is on the stack."""
        name, stores = word.rstrip("="), word.endswith("=")
        taken = TAKES.get(word, "")
        if name in LOADS and stores:
            taken = name
        elif name in FIELDS:
            taken = ("" if name.isupper() else "O") + KINDS[FIELDS[name]] * stores
        under = self.stack[len(self.stack) - len(taken):]
        return len(taken) <= len(self.stack) and all(
            wanted in ("?", kind) or (wanted == "r" and kind in "AO")
            for wanted, kind in zip(taken, under))

    def sequence(self):
        """A sequence, or a part of it, as far as its words fit."""
        words = self.chosen.choice(SEQUENCES)
        if self.reading:
            words = self.chosen.choice((words, *IN_READING))
        first = self.chosen.randrange(len(words)) if self.chance(0.2) else 0
        for word in words[first:]:
            if self.reading and word not in READING:
                return
            while not self.fits(word) and word in ("op", "one", "if1", "if2", "I="):
                self.push("I")
            if not self.fits(word) or len(self.stack) > 12:
                return
            self.word(word)
            self.meet()

    def back(self):
        """Back to a place, as long as there is fuel."""
        if self.heads:
            name, stack = self.chosen.choice(self.heads[-3:])
            self.adjust(stack)
            self.code.put(bytes((IINC, self.fuel, 255, ILOAD, self.fuel)))
            self.jump(IFGT, name)

    def test(self, bound, up, on):
        """Tests a counter, and goes on in the loop where `on` says so, or out of it."""
        less, more = (IF_ICMPLT, IF_ICMPLE), (IF_ICMPGT, IF_ICMPGE)
        opcode = self.chosen.choice(less if up == on else more)
        self.code.put(bytes((ILOAD, self.counters[self.loops - 1])))
        if bound == 0 and self.chance(0.7):
            return opcode - 6
        if self.chance(0.3):
            self.code.put(bytes((ILOAD, self.bounds[self.loops - 1])))
        else:
            self.number(bound)
            self.stack = self.stack[:-1]
        return opcode

    def loop(self):
        """A loop with its test at its head, or at its end."""
        counter, bound = self.counters[self.loops], self.chosen.choice(BOUNDS)
        by, rounds = self.chosen.choice((1, 1, 2, -1)), self.chosen.choice(ROUNDS)
        self.number(bound)
        self.store("I", self.bounds[self.loops])
        self.number(bound - by * rounds)
        self.store("I", counter)
        self.loops += 1
        self.meet(0.1)
        head, out, stack = self.new_place(), None, self.stack
        self.code.place(head)
        if self.chance(0.6):
            opcode, out = self.test(bound, by > 0, False), self.to_come()
            self.jump(opcode, out[0])
        self.some(self.chosen.randint(0, 6))
        self.adjust(stack)
        self.code.put(bytes((IINC, counter, by % 256)))
        self.meet(0.03)
        if out and self.ahead:
            self.jump(GOTO, head)
            self.reached = False
            self.go_on_at(out if out in self.ahead else self.chosen.choice(self.ahead))
        else:
            self.jump(self.test(bound, by > 0, True), head)
        self.loops -= 1

    def covered(self, most=4, kinds=(None, None, *CAUGHT)):
        """A row that covers some instructions, or parts of sequences."""
        start = len(self.code.bytes)
        self.some(self.chosen.randint(1, most))
        if len(self.code.bytes) > start:
            name, caught = self.new_place(), self.chosen.choice(kinds)
            number = self.file.of_class("java/lang/" + caught) if caught else 0
            self.rows.append((start, len(self.code.bytes), name, number))
            self.ahead.append((name, "T"))

    def lock(self):
        """What a block locks. It is no local but `this`: one that was stored at two places may have
        no lock tag (S1)."""
        if self.given[:1] == "O" and self.chance(0.4):
            self.put(u1(ALOAD_0), "", "O")
        else:
            self.word("N")
            if self.chance(0.3):
                self.word("n")

    def monitor(self):
        """A block on an object, whose places are its own; its handler leaves it, and throws on."""
        kept = self.ahead, self.heads
        own, stack, self.blocks = self.monitors[self.blocks], self.stack, self.blocks + 1
        leave = bytes((ALOAD, own, MONITOREXIT))
        self.begin_scope()
        self.lock()
        self.put(bytes((DUP, ASTORE, own, MONITORENTER)), "O")
        start = len(self.code.bytes)
        self.some(self.chosen.randint(1, 4))
        self.finish(stack)
        if self.chance(0.3):
            named = self.chosen.choice(("notify", "notifyAll", "wait"))
            self.code.put(bytes((ALOAD, own)))
            self.code.of_method(u1(INVOKEVIRTUAL), OBJECT, named, "()V")
        self.code.put(leave)
        end = len(self.code.bytes)
        self.ahead, self.heads = kept
        self.blocks -= 1
        behind, handler = self.to_come(), self.new_place()
        self.jump(GOTO, behind[0])
        self.code.place(handler)
        at = len(self.code.bytes)
        self.code.put(leave, u1(ATHROW))
        self.rows += [(start, end, handler, 0), (at, at + len(leave), handler, 0)]
        self.reached = False
        self.go_on_at(behind)

    def some(self, many):
        for _ in range(many):
            self.meet()
            if self.chance(0.12) and self.loops < LOOPS:
                self.loop()
            elif self.chance(0.1):
                self.covered()
            elif self.chance(0.04):
                self.back()
            elif self.chance(0.05) and not self.reading and self.blocks < BLOCKS:
                self.monitor()
            else:
                self.sequence()

    def finish(self, stack):
        """All places ahead come to stand, and the stack is as it is asked for."""
        while self.ahead:
            self.go_on_at(self.chosen.choice(self.ahead))
        self.adjust(stack)


def descriptor(given, gives):
    """Of arguments of these kinds, the object that is called left out."""
    return f"({''.join(TYPES[kind] for kind in given)}){gives}"


class RandomClass:
    """The class file of class `A`, whose methods have code made by chance."""

    def __init__(self, chosen):
        self.chosen = chosen
        self.file = ClassFile("A")
        for name, kind in FIELDS.items():
            flags = PRIVATE if name in GUARDED else STATIC if name.isupper() else 0
            self.file.field(flags, name, kind)
        # Of each call its instruction, the name, the kinds that it takes, and the descriptor.
        self.calls = [
            (INVOKESTATIC, "deep", "I", "(I)I"), (INVOKEVIRTUAL, "set", "OI", "(I)I"),
            (INVOKEVIRTUAL, "get", "OI", "(I)I"),
            (INVOKESTATIC, "many", "I" * MANY, descriptor("I" * MANY, "I")),
        ]

    def written(self, flags, name, descriptor, text):
        """A method of these instructions."""
        code = Code(self.file)
        code.read(text, "A", FIELDS)
        code.method(6, 2, (), flags, name, descriptor)

    def add(self, made, flags, name, signed):
        rows = [(start, end, made.code.places[place], caught)
                for start, end, place, caught in made.rows]
        made.code.method(MOST_STACK + 6, made.size, rows, flags, name, signed)

    def random_method(self, flags, name, given, calls, reading=False):
        """A method of arguments of these kinds that answers an int."""
        made = RandomCode(self.chosen, self.file, calls, given, reading)
        for _ in range(self.chosen.randint(1, 3)):
            made.covered(4, ROOTS if made.chance(0.7) else CAUGHT)
            made.some(self.chosen.randint(0, 2))
        made.finish("")
        made.word("I")
        made.code.put(u1(IRETURN))
        self.add(made, flags, name, descriptor(given[0 if flags & STATIC else 1:], "I"))

    def helpers(self):
        """Each calls those that are made before it."""
        for number in range(HELPERS):
            opcode, flags = self.chosen.choice(
                ((INVOKESTATIC, STATIC), (INVOKEVIRTUAL, 0), (INVOKESPECIAL, PRIVATE)))
            flags |= self.chosen.choice((0, 0, SYNCHRONIZED))
            given = "".join(self.chosen.choices("IAO", (4, 1, 1), k=self.chosen.randint(0, 4)))
            taken = given if flags & STATIC else "O" + given
            name = f"helper{number}"
            self.random_method(flags, name, taken, list(self.calls))
            self.calls.append((opcode, name, taken, descriptor(given, "I")))

    def root(self, name, given=""):
        """What the machine begins with; at its end it prints some of what there is. The others
        run where `init` returns, so that catches what it can."""
        made = RandomCode(self.chosen, self.file, self.calls, given, root=True)
        for word in "5 array V= new N=".split():
            made.word(word)
        caught = name == "init" or made.chance(0.6)
        for _ in range(self.chosen.randint(2, 5)):
            if caught:
                made.covered(9, ROOTS)
            else:
                made.some(9)
        made.finish("")
        for word in " ".join(ENDS[:4] if name == "init" else ENDS).split():
            made.word(word)
        made.code.put(u1(RETURN))
        self.add(made, STATIC, name, descriptor(given, "V"))

    def content(self):
        self.written(0, "<init>", "()V", "aload_0 above aload_0 iconst_4 newarray putfield:v "
                     "aload_0 getstatic:N putfield:n return")
        self.written(SYNCHRONIZED, "set", "(I)I", "aload_0 iload_1 putfield:low aload_0 aload_0 "
                     "getfield:high iload_1 iadd putfield:high aload_0 getfield:low ireturn")
        self.written(STATIC, "deep", "(I)I", "iload_0 ifeq:end iload_0 iconst_m1 iadd "
                     "static:deep(I)I iload_0 iadd ireturn end: iload_0 ireturn")
        self.random_method(STATIC, "many", "I" * MANY, self.calls[:1])
        self.random_method(SYNCHRONIZED, "get", "OI", [], True)
        self.helpers()
        for name, given in (("init", ""), ("run", "I"), ("done", "")):
            self.root(name, given)
        return self.file.content()
