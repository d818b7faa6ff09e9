"""Java sources of one class each, made by chance, for `random_programs.py`.

A source goes over the accepted subset: int operators with operands of every kind, loops of every
shape, fields and elements, calls, exceptions, monitors. It doesn't ask what is computed: an index
may be out of bounds, a reference null, a divisor zero, and a loop may never end.
"""
NUMBERS = (
    -1, 0, 0, 1, 1, 2, 3, 4, 5, 6, 7, 31, 32, 127, 128, -128, -129, 255, 256, 32767, 32768, -32768,
    -32769, 65535, 65536, 100000, 1431655765, 2**31 - 1, -(2**31),
)
# What loops count to, and how often they go round.
BOUNDS = (-1, 0, 5, 5, 6, 7, 127, 128, 32767, 32768, 100000)
ROUNDS = (0, 1, 2, 3, 4, 6, 9, 20)
OPERATORS = ("+", "-", "*", "&", "|", "^", "<<", ">>", ">>>", "/", "%")
TESTS = ("==", "!=", "<", ">=", ">", "<=")
# How often a method calls itself; there is room for 256 frames.
DEPTHS = (3, 20, 100, 250, 254, 255, 300)
UNCHECKED = (
    "ArithmeticException", "ArrayIndexOutOfBoundsException", "NullPointerException",
    "NegativeArraySizeException", "IllegalMonitorStateException", "RuntimeException",
    "OutOfMemoryError", "StackOverflowError", "Error",
)
CAUGHT = (*UNCHECKED, "RuntimeException", "Exception", "Throwable", "Throwable")
HELPERS = 5
# The arguments of the method that has many.
MANY = 14


class Source:
    """A Java source of one class. The ints, arrays and objects are the locals at hand; `counters`
    may be read, and are mostly not written; in a section that only reads, `reads` has the other
    places that it may read."""

    def __init__(self, chosen, name):
        self.chosen = chosen
        self.name = name
        self.lines = []
        self.deep = 0
        self.names = 0
        self.helpers = []
        self.calling = False
        self.begin()

    def begin(self, static=True, first=0, reads=None):
        """A method begins, which may call the helpers from that number on."""
        self.static = static
        self.first = first
        self.reads = reads
        self.ints, self.counters, self.arrays, self.objects = [], [], [], []
        self.loops = 0
        self.left = self.chosen.randint(8, 22)

    def chance(self, share):
        return self.chosen.random() < share

    def pick(self, *ways):
        return self.chosen.choice(ways)

    def line(self, text):
        self.lines.append("    " * self.deep + text)

    def open(self, text):
        self.line(text + " {")
        self.deep += 1

    def close(self):
        self.deep -= 1
        self.line("}")

    def local(self):
        self.names += 1
        return f"v{self.names}"

    # ---- expressions

    def number(self):
        return str(self.chosen.choice(NUMBERS))

    def object(self):
        """A reference that is not written as null, though it may be."""
        ways = [*self.objects, *self.objects, "one", "two", "two.next"]
        if not self.static:
            ways += ["this", "this", "next"]
        return self.chosen.choice(ways)

    def array(self):
        return self.chosen.choice([*self.arrays, *self.arrays, "all", f"{self.object()}.items"])

    def index(self):
        if self.chance(0.95):
            return self.pick(self.number_below(4), self.number_below(4), f"{self.variable()} & 3")
        return self.pick(self.variable(), "-1", "4", "9")

    def number_below(self, bound):
        return str(self.chosen.randrange(bound))

    def variable(self):
        return self.chosen.choice([*self.ints, *self.counters, "sum"] if self.reads is None else
                                  [*self.ints, *self.counters, *self.reads])

    def place(self):
        """A place besides locals that holds an int; `order` is the one that is not private."""
        if self.reads is not None:
            return self.chosen.choice(self.reads)
        return self.pick("sum", "order", f"{self.object()}.low", f"{self.object()}.high",
                         f"{self.array()}[{self.index()}]", f"{self.array()}[{self.index()}]")

    def leaf(self):
        share = self.chosen.random()
        if share < 0.5:
            return self.variable()
        if share < 0.7:
            return self.number()
        if share < 0.93 or self.reads is not None:
            return self.place()
        if self.calling or self.chance(0.4):
            return self.pick(f"{self.array()}.length", "limit")
        return self.call()

    def integer(self, depth=2):
        share = self.chosen.random()
        if depth == 0 or share < 0.25:
            return self.leaf()
        if share < 0.8:
            return self.operation(depth)
        if share < 0.88:
            part = self.integer(depth - 1)
            return self.pick(f"-({part})", f"(byte) ({part})", f"(char) ({part})",
                             f"(short) ({part})", f"~({part})")
        if share < 0.93:
            test, left, right = self.test(0), self.integer(0), self.integer(0)
            return f"({test} ? {left} : {right})"
        return self.changed()

    def operation(self, depth):
        operator = self.chosen.choice(OPERATORS)
        right = self.integer(depth - 1)
        if operator in "/%" and self.chance(0.15):
            same = f"{self.variable()} * 0"
            return f"(({same} + {-2**31}) {operator} {self.pick('-1', f'({same} - 1)')})"
        if operator in "/%":
            right = self.pick("3", "10", "-7", f"({right} | 1)", f"({right} & 7)", right)
        return f"({self.integer(depth - 1)} {operator} {right})"

    def changed(self):
        """A place that is changed where it is read."""
        if self.reads is not None or self.chance(0.4):
            if not self.ints:
                return self.number()
            place = self.chosen.choice(self.ints)
        else:
            place = self.place()
        return self.pick(f"{place}++", f"--{place}", f"({place} = {self.leaf()})",
                         f"({place} ^= {self.leaf()})")

    def test(self, depth=1):
        share = self.chosen.random()
        if depth > 0 and share < 0.2:
            return f"({self.test(0)} {self.pick('&&', '||')} {self.test(0)})"
        if share < 0.35 and self.reads is None:
            first, second = self.object(), self.pick("null", "null", self.object())
            return self.pick(f"{first} {self.pick('==', '!=')} {second}", f"{first}.full",
                             f"{self.array()} {self.pick('==', '!=')} null", "!ready")
        test, left = self.chosen.choice(TESTS), self.pick(self.variable(), self.integer(1))
        if self.chance(0.3):
            left = self.variable()
            return self.pick(f"{left} {test} {left}", f"{left} - {left} {test} 0",
                             f"({left} & 1) {test} {self.pick(0, 1)}")
        right = self.pick("0", self.integer(1), self.number(), self.variable())
        return f"{left} {test} {right}"

    def call(self):
        """A call, in whose arguments there is no other one."""
        self.calling = True
        calls = [self.section(), f"deep({self.chosen.choice(DEPTHS)}, {self.variable()})"]
        for number, (static, arguments) in enumerate(self.helpers):
            if number >= self.first:
                given = ", ".join(self.argument(kind) for kind in arguments)
                on = "" if static or (not self.static and self.chance(0.5)) else f"{self.object()}."
                calls.append(f"{on}helper{number}({given})")
        many = ", ".join(self.pick(self.variable(), self.number()) for _ in range(MANY))
        self.calling = False
        return self.chosen.choice([*calls, *calls, f"many({many})"])

    def section(self):
        name = self.pick("glance", "glance", "look", "move", "shift")
        return self.pick(f"{self.object()}.{name}({self.leaf_without_call()})",
                         f"{self.pick('total', 'add')}({self.leaf_without_call()})")

    def leaf_without_call(self):
        return self.pick(self.variable(), self.number())

    def argument(self, kind):
        if kind == "int":
            return self.pick(self.integer(1), self.leaf_without_call())
        return self.array() if kind == "int[]" else self.pick(self.object(), self.object(), "null")

    # ---- statements

    def body(self, most=3, begins=None):
        """Some statements in a block that is open; its locals end with it."""
        kept = [len(some) for some in (self.ints, self.counters, self.arrays, self.objects)]
        if begins:
            begins()
        for _ in range(self.chosen.randint(1, most)):
            self.statement()
        for some, many in zip((self.ints, self.counters, self.arrays, self.objects), kept):
            del some[many:]

    def block(self, head, most=3):
        self.open(head)
        self.body(most)
        self.close()

    def statement(self):
        self.left -= 1
        simple = [self.assign, self.assign, self.declare, self.compound]
        if self.reads is None:
            simple += [self.assign_place, self.assign_place, self.assign_other, self.say,
                       lambda: self.line(f"{self.variable_kept()} = {self.call()};")]
        nested = [self.choose, self.loop, self.loop, self.switch, self.leave]
        if self.reads is None:
            nested += [self.attempt, self.attempt, self.lock, self.throw]
        nest = self.left > 0 and self.deep < 6 and self.chance(0.45)
        self.chosen.choice(nested if nest else simple)()

    def variable_kept(self):
        return self.chosen.choice(self.ints) if self.ints else "sum"

    def assign(self):
        if self.ints:
            self.line(f"{self.chosen.choice(self.ints)} = {self.integer()};")
        else:
            self.declare()

    def declare(self):
        kind = self.chosen.random() if self.reads is None else 0
        name = self.local()
        if kind < 0.6:
            self.line(f"int {name} = {self.integer()};")
            self.ints.append(name)
        elif kind < 0.8:
            made = self.pick(f"new int[{self.pick('4', '5', self.index())}]", self.array())
            self.line(f"int[] {name} = {made};")
            self.arrays.append(name)
        else:
            made = self.pick(f"new {self.name}({self.variable()})", self.object(), "null")
            self.line(f"{self.name} {name} = {made};")
            self.objects.append(name)

    def compound(self):
        """`+=` and the like; what `iinc` adds stays within a byte, since there is no `wide`."""
        if not self.ints:
            return self.declare()
        name = self.chosen.choice(self.ints)
        if self.chance(0.5):
            by = self.pick(1, 1, 2, 127, self.chosen.randint(-127, 127))
            return self.line(self.pick(f"{name} += {by};", f"{name} -= {by};", f"{name}++;"))
        return self.line(f"{name} {self.chosen.choice(OPERATORS)}= {self.variable()};")

    def assign_place(self):
        place, operator = self.place(), self.pick("", *OPERATORS)
        self.line(self.pick(f"{place} {operator}= {self.integer()};", f"{place}++;",
                            f"{place} {operator}= {self.leaf_without_call()};"))

    def assign_other(self):
        self.line(self.pick(
            f"{self.object()}.full = {self.test()};", f"ready = {self.test()};",
            f"{self.object()}.next = {self.pick(self.object(), self.object(), 'null')};",
            f"two = new {self.name}({self.variable()});", f"all = {self.array()};",
            f"{self.object()}.items = {self.array()};",
            f"{self.object()}.{self.pick('notify', 'notifyAll')}();"))

    def say(self):
        said = self.pick(self.variable(), self.place(), self.operation(1),
                         f"{self.test(0)} ? 1 : 0", f"{self.test(0)} ? 2 : 3")
        self.line(f"System.out.println({said});")

    def choose(self):
        self.block(f"if ({self.test()})")
        if self.chance(0.4):
            self.block("else")

    def bound(self, name):
        """What a counter begins with, the test by which its loop goes on, and its change."""
        rounds, by = self.chosen.choice(ROUNDS), self.pick(1, 1, 1, 2, 5)
        end = self.chosen.choice(BOUNDS)
        if self.chance(0.4) and self.ints:
            other = self.chosen.choice(self.ints)
            if self.chance(0.5):
                return f"{other} - {rounds * by}", f"{name} {self.pick('<', '<=')} {other}", by
            return f"{other} + {rounds * by}", f"{name} {self.pick('>', '>=')} {other}", -by
        if self.chance(0.1) and self.reads is None:
            return self.pick("0", "-3"), f"{name} < limit", by
        if self.chance(0.2) and self.reads is None:
            return "0", f"{name} < {self.array()}.length", by
        if self.chance(0.6):
            return str(end - rounds * by), f"{name} {self.pick('<', '<=', '<')} {end}", by
        if self.chance(0.3):
            return str(end - rounds), f"{name} != {end}", 1
        return str(end + rounds * by), f"{name} {self.pick('>', '>=', '>')} {end}", -by

    def loop(self):
        name = self.local()
        start, test, by = self.bound(name)
        step = self.pick(f"{name} += {by}", f"{name}++" if by == 1 else f"{name} -= {-by}")
        if self.chance(0.15):
            test = f"{test} && {self.test(0)}"
        shape = self.pick("for", "for", "while", "do", "for outside")
        self.loops += 1
        if shape != "for":
            self.line(f"int {name} = {start};")
        if shape == "for":
            self.open(f"for (int {name} = {start}; {test}; {step})")
        elif shape == "for outside":
            self.open(f"for (; {test}; {step})")
        else:
            self.open(f"while ({test})" if shape == "while" else "do")
            self.line(f"{step};")
        (self.ints if self.chance(0.03) else self.counters).append(name)
        self.body()
        self.deep -= 1
        self.line(f"}} while ({test});" if shape == "do" else "}")
        self.loops -= 1
        if shape == "for":
            for some in (self.ints, self.counters):
                if name in some:
                    some.remove(name)

    def plain_loop(self):
        """A loop of plain statements, and then some that are not."""
        self.left = 0
        self.loop()
        self.left = 8

    def leave(self):
        """Leaves a loop, its round, or the method, in some cases."""
        ways = ["break;", "continue;"] * 2 if self.loops else []
        self.block_of(f"if ({self.test()})", self.pick(*ways, f"return {self.variable()};"))

    def block_of(self, head, text):
        self.open(head)
        self.line(text)
        self.close()

    def throw(self):
        thrown = self.pick("null", *(f"new {name}()" for name in UNCHECKED))
        self.block_of(f"if ({self.test()})", f"throw {thrown};")

    def switch(self):
        labels = self.chosen.sample(self.pick(range(-1, 7), sorted(set(NUMBERS))), 4)
        self.open(f"switch ({self.pick(self.operation(1), f'{self.variable()} & 7')})")
        for label in labels:
            self.line(f"case {label}:")
            self.deep += 1
            self.assign_some()
            if self.chance(0.7):
                self.line("break;")
            self.deep -= 1
        if self.chance(0.6):
            self.line("default:")
            self.deep += 1
            self.assign_some()
            self.deep -= 1
        self.close()

    def assign_some(self):
        if self.ints:
            self.assign()
        if self.reads is None:
            self.assign_place()

    def attempt(self):
        self.block("try", 4)
        name = self.chosen.choice(CAUGHT)
        last = self.chance(0.25)
        if not last or self.chance(0.5):
            self.block(f"catch ({name} {self.local()})")
            if name not in ("Throwable", "Exception", "Error", "RuntimeException"):
                self.block(f"catch (Throwable {self.local()})", 1)
        if last:
            self.block("finally")

    def lock(self):
        on = self.object()
        self.open(f"synchronized ({on})")
        self.body()
        if self.chance(0.3):
            self.line(f"{on}.{self.pick('notify', 'notifyAll')}();")
        if self.chance(0.06):
            self.line(f"{on}.wait();")
        self.close()

    # ---- methods

    def method(self, head, last=None, most=6):
        self.open(f"{head} throws Throwable")
        self.body(most)
        self.line(last or f"return {self.pick(*self.ints, self.number())};")
        self.close()

    def helper(self, number):
        static, arguments = self.helpers[number]
        self.begin(static, number + 1)
        names = []
        for kind in arguments:
            names.append(f"{kind} {self.local()}")
            some = {"int": self.ints, "int[]": self.arrays}.get(kind, self.objects)
            some.append(names[-1].split()[1])
        flags = ("static " if static else "") + self.pick("", "", "private ", "synchronized ")
        self.method(f"{flags}int helper{number}({', '.join(names)})")

    def sections(self):
        """Methods that may run without their lock, and those that write what these read."""
        for head, static, reads in (
            ("synchronized int glance(int n)", False, ["left", "right", "fixed", "own[n & 3]"]),
            ("private static synchronized int total(int n)", True, ["kept", "other"]),
        ):
            self.begin(static, HELPERS, reads)
            self.ints.append("n")
            self.method(head, f"return n + {reads[0]} - {reads[1]};", 3)
        self.begin(False, HELPERS, ["left", "right", "own.length", "own[n & 1]"])
        self.ints.append("n")
        self.open("int look(int n) throws Throwable")
        self.block("synchronized (this)")
        self.line("return n;")
        self.close()
        by = self.integer(1)
        self.line("synchronized int move(int n) { left += n; right += n; return own[n & 3]++; }")
        self.line(f"synchronized int shift(int n) {{ own[n & 3] = {by}; return right - left; }}")
        self.line("private static synchronized int add(int n) { kept += n; return other--; }")

    def roots(self):
        for head, last in (
            ("public static void init()", "System.out.println(sum);"),
            ("public static void run(int number)", "System.out.println(number + sum);"),
            ("public static void done()", "System.out.println(order + one.low + all[0]);"),
        ):
            self.open(f"{head} throws Throwable")
            call = "root(0)" if "int number" not in head else "work(number)"
            self.line(f"System.out.println({call});")
            self.line(last)
            self.close()
        self.work("root", True)
        self.work("work", self.chance(0.5))

    def work(self, name, caught):
        """Some parts, each of which begins with a loop of plain statements."""
        self.begin()
        self.open(f"private static int {name}(int number) throws Throwable")
        self.ints.append("number")
        for _ in range(self.chosen.randint(2, 5)):
            self.open("try" if caught else "if (true)")
            self.body(5, self.plain_loop)
            self.close()
            if caught:
                self.block_of("catch (Throwable e)", "sum += 7;")
        self.line("return number;")
        self.close()

    def rest(self):
        self.begin(True, HELPERS)
        self.ints += ["n", "m"]
        self.open("private static int deep(int n, int m) throws Throwable")
        self.line("if (n <= 0) { return m; }")
        self.line(f"m = {self.integer(1)};")
        self.line(self.pick("return deep(n - 1, m + n);", "return n + deep(n - 1, m);"))
        self.close()
        names = [f"n{number}" for number in range(MANY)]
        self.line(f"static int many({', '.join('int ' + name for name in names)}) {{")
        self.line("    return " + "".join(
            name + self.chosen.choice((" + ", " ^ ", " - ")) for name in names) + "1;")
        self.line("}")

    def text(self):
        self.open(f"public class {self.name}")
        self.line(f"static {self.name} one = new {self.name}(1), two = new {self.name}(2);")
        self.line("static int[] all = new int[6];")
        self.line(f"static int sum, order = 1, limit = {self.chosen.choice((5, 7, 12, 128))};")
        self.line("static boolean ready;")
        self.line("private static int kept, other;")
        self.line(f"int low, high; boolean full; int[] items; {self.name} next;")
        self.line("private int left, right; private final int fixed; private int[] own;")
        self.open(f"{self.name}(int n)")
        self.line("own = new int[4]; fixed = n; left = n; right = n + 10; low = n;")
        self.line("items = new int[5]; next = one;")
        self.close()
        for _ in range(HELPERS):
            kinds = self.chosen.choices(("int", "int[]", self.name), (6, 1, 1),
                                        k=self.chosen.randint(0, 5))
            self.helpers.append((self.chance(0.5), kinds))
        for number in range(HELPERS):
            self.helper(number)
        self.sections()
        self.rest()
        self.roots()
        self.close()
        return "\n".join(self.lines) + "\n"
