"""The class V with an array that never leaves its object, with one thing changed in each row, and
the marks of its sections, for `.ci/refused`: `set` writes both elements, `sum` reads them, and
`init` prints their sum."""
from class_builder import STATIC, SYNCHRONIZED, ClassFile, Code, handler_row

PUBLIC, PRIVATE, FINAL = 1, 2, 16

# The fields of V, its constructor, and its other methods. A method has flags, a name with its
# descriptor, and its code; behind it stand rows: from a place to a place, and the place of the
# handler, which catches all.
LAST_ONE = (STATIC, "p", "LV;")
FINAL_ARRAY = ((PRIVATE | FINAL, "v", "[I"), LAST_ONE)
ARRAY = ((PRIVATE, "v", "[I"), LAST_ONE)
MAKES = "aload_0 above aload_0 iconst_2 newarray putfield:v return"
METHODS = (
    (
        SYNCHRONIZED, "set(I)V",
        "aload_0 getfield:v iconst_0 iload_1 iastore "
        "aload_0 getfield:v iconst_1 iload_1 iastore return",
    ),
    (
        SYNCHRONIZED, "sum()I",
        "aload_0 getfield:v iconst_0 iaload aload_0 getfield:v iconst_1 iaload iadd ireturn",
    ),
    (
        STATIC, "init()V",
        "new dup special:<init>()V putstatic:p getstatic:p iconst_4 virtual:set(I)V "
        "out getstatic:p virtual:sum()I println return",
    ),
)


def array_class(*others, fields=FINAL_ARRAY, more=(), makes=MAKES, methods=METHODS):
    """The bytes of V with these methods besides."""
    file = ClassFile("V")
    descriptors = {named: descriptor for _, named, descriptor in (*fields, *more)}
    for field in (*fields, *more):
        file.field(*field)
    for flags, signed, text, *rows in ((0, "<init>()V", makes), *methods, *others):
        code = Code(file)
        code.read(text, "V", descriptors)
        named, _, rest = signed.partition("(")
        rows = [handler_row(*(code.places[place] for place in row)) for row in rows]
        file.method(flags, named, f"({rest}", code.content(), 6, 4, rows)
    return file.content()


def in_block(text, last="return"):
    """A code in a block on `this`, which local 3 keeps, and its rows."""
    code = (
        f"aload_0 dup astore_3 monitorenter from: {text} aload_3 monitorexit to: {last} "
        "handler: aload_3 monitorexit end: athrow"
    )
    return code, ("from", "to", "handler"), ("handler", "end", "handler")


NEW = "aload_0 iconst_1 newarray putfield:v"
FILLED = "aload_0 iconst_1 newarray dup iconst_0 iconst_1 iastore putfield:v"
READ = "aload_0 getfield:v iconst_0 iaload"
WRITE = "aload_0 getfield:v iconst_0 iconst_1 iastore"

# What a plain method does with the array, by which no element counts any more.
LETS_OUT = (
    # it is returned, kept in a local, stored elsewhere, passed, tested, or compared
    ("leak()[I", "aload_0 getfield:v areturn"),
    ("keep()V", "aload_0 getfield:v astore_1 return"),
    ("store()V", "aload_0 aload_0 getfield:v putfield:w return"),
    ("share()V", "aload_0 getfield:v putstatic:s return"),
    ("pass()V", "aload_0 aload_0 getfield:v virtual:take([I)V return"),
    ("passOn()V", "aload_0 getfield:v static:first([I)I pop return"),
    ("test()V", "aload_0 getfield:v ifnull:to to: return"),
    ("testNot()V", "aload_0 getfield:v ifnonnull:to to: return"),
    ("compare()V", "aload_0 getfield:v aconst_null if_acmpeq:to to: return"),
    ("compareNot()V", "aconst_null aload_0 getfield:v if_acmpne:to to: return"),
    # it meets another array, or none, also where nothing takes it
    (
        "meet([I)I",
        "aload_1 ifnull:to aload_0 getfield:v goto:at to: aload_1 at: iconst_0 iaload ireturn",
    ),
    ("meetNull(I)V", "iload_1 ifeq:to aload_0 getfield:v goto:at to: aconst_null at: pop return"),
    ("meetAgain([I)V", "aload_1 at: pop aload_0 getfield:v goto:at"),
    # it is read of another object, also for its length, or for nothing
    ("ofOther(LV;)I", "aload_1 getfield:v iconst_0 iaload ireturn"),
    ("lengthOfOther(LV;)I", "aload_1 getfield:v arraylength ireturn"),
    ("dropOther(LV;)V", "aload_1 getfield:v pop return"),
    # an element is written without the lock
    ("write()V", f"{WRITE} return"),
    ("writeByCopy()V", "aload_0 getfield:v dup iconst_0 iconst_1 iastore pop return"),
)
# What it may do with it.
KEEPS_IN = (
    ("glance()I", f"{READ} ireturn"),
    ("length()I", "aload_0 getfield:v arraylength ireturn"),
    ("byLocal()I", "aload_0 astore_2 aload_2 getfield:v iconst_0 iaload ireturn"),
    ("swapped()I", "iconst_0 aload_0 getfield:v swap iaload ireturn"),
    ("copied()I", "aload_0 getfield:v dup iconst_0 iaload pop iconst_1 iaload ireturn"),
    (
        "copiedBelow()I",
        "iconst_0 aload_0 getfield:v dup_x1 swap iaload pop arraylength ireturn",
    ),
    (
        "copiedBelowTwo()I",
        "iconst_0 iconst_1 aload_0 getfield:v dup_x2 pop pop2 iconst_1 iaload ireturn",
    ),
    ("copiedWithIndex()I", "aload_0 getfield:v iconst_0 dup2 iaload pop iaload ireturn"),
    ("dropped()V", "aload_0 getfield:v aload_0 getfield:v pop2 return"),
    (
        "either(I)I",
        "aload_0 getfield:v iload_1 ifeq:to iconst_0 goto:at to: iconst_1 at: iaload ireturn",
    ),
    (
        "both(I)I",
        "iload_1 ifeq:to aload_0 getfield:v goto:at to: aload_0 getfield:v "
        "at: iconst_0 iaload ireturn",
    ),
    ("again(I)I", "aload_0 getfield:v at: count iload_1 ifne:at iconst_0 iaload ireturn"),
)
# The same behind a return, so that no path reaches it, and with the array of another object.
UNREACHED = (
    ("leak()[I", "aconst_null areturn aload_0 getfield:v areturn"),
    ("ofOther(LV;)V", "return aload_1 getfield:v pop return"),
    ("write()V", f"return {WRITE} return"),
    ("put()V", "return aload_0 aconst_null putfield:v return"),
)
# A synchronized method stores an array: one that it didn't just make, or that of another object, or
# where control comes from elsewhere too.
STORES_OTHER = (
    ("put()V", "aload_0 aconst_null putfield:v return"),
    ("put([I)V", "aload_0 aload_1 putfield:v return"),
    ("put()V", "aload_0 iconst_1 newarray nop putfield:v return"),
    ("put()V", f"{FILLED} return"),
    ("put(LV;)V", "aload_1 iconst_1 newarray putfield:v return"),
    (
        "put(I)V",
        "iload_1 ifeq:to aload_0 iconst_1 newarray goto:at "
        "to: aload_0 iconst_2 newarray at: putfield:v return",
    ),
    # from code that no path reaches
    ("put()V", "aload_0 iconst_1 newarray at: putfield:v return goto:at"),
    ("put(I)V", "aload_0 iconst_1 newarray at: putfield:v return iload_1 switch:at"),
    (
        "put()V",
        "aload_0 iconst_1 newarray at: putfield:v return from: nop to: return",
        ("from", "to", "at"),
    ),
)
SET = "V.set(I)V method M1\n"
COUNTS, COUNTS_NOT = f"{SET}V.sum()I method M0\n", f"{SET}V.sum()I method M5\n"
# Fields and methods that some of these name.
MORE = ((0, "w", "[I"), (STATIC, "s", "[I"))
TAKE = (0, "take([I)V", "return")
FIRST = (STATIC, "first([I)I", "aload_0 iconst_0 iaload ireturn")
LAST = (0, "last()I", f"{READ} ireturn")


def owned_rows():
    """Whether the array is its object's own, by what else the class does."""
    yield array_class(), COUNTS
    yield array_class(fields=ARRAY), COUNTS
    for method in LETS_OUT:
        yield array_class((0, *method), TAKE, FIRST, more=MORE), COUNTS_NOT
    for method in (*KEEPS_IN, *UNREACHED):
        yield array_class((0, *method), fields=ARRAY), COUNTS
    for method in STORES_OTHER:
        marks = f"{COUNTS_NOT}V.{method[0]} method M1\n"
        yield array_class((SYNCHRONIZED, *method), fields=ARRAY), marks
    new = (SYNCHRONIZED, "put()V", f"{NEW} return")
    yield array_class(new, fields=ARRAY), f"{COUNTS}V.put()V method M1\n"
    # the field is not private
    for flags in (0, PUBLIC | FINAL):
        yield array_class(fields=((flags, "v", "[I"), LAST_ONE)), COUNTS_NOT


def constructor_rows():
    """The same by what its constructor does."""
    for text, marks in (
        ("aload_0 aconst_null putfield:v", COUNTS_NOT),
        (FILLED, COUNTS_NOT),
        (f"{NEW} aload_0 getfield:v putstatic:s", COUNTS_NOT),
        (f"{NEW} {WRITE}", COUNTS),
        # it shows its object
        (f"{NEW} aload_0 putstatic:p", COUNTS_NOT),
    ):
        yield array_class(makes=f"aload_0 above {text} return", more=MORE), marks


def lock_rows():
    """The same where the array, or an element, is written with the lock or without it."""
    for text in (NEW, WRITE):
        alone = (0, "put()V", f"{text} return")
        inside = (0, "put()V", *in_block(text))
        behind = (0, "put()V", *in_block("nop", f"{text} return"))
        called = (SYNCHRONIZED, "call()V", "aload_0 special:put()V return")
        helper = (PRIVATE, "put()V", f"{text} return")
        yield array_class(alone, fields=ARRAY), COUNTS_NOT
        yield array_class(inside, fields=ARRAY), f"{COUNTS}V.put()V block 3 M1\n"
        yield array_class(behind, fields=ARRAY), f"{COUNTS_NOT}V.put()V block 3 M0\n"
        yield array_class(called, helper, fields=ARRAY), f"{COUNTS_NOT}V.call()V method M6\n"
    # the array itself is a lock
    text = "aload_0 getfield:v dup astore_3 monitorenter aload_3 monitorexit return"
    yield array_class((0, "lock()V", text)), f"{COUNTS_NOT}V.lock()V block 6 M8\n"


def two_rows():
    """Two fields: one counts where the other doesn't, and both count no more where they meet."""
    makes = f"aload_0 above {NEW} aload_0 iconst_1 newarray putfield:w return"
    one = (SYNCHRONIZED, "one()I", "aload_0 getfield:w iconst_0 iaload ireturn")
    leak = (0, "leak()[I", "aload_0 getfield:v areturn")
    meet = (
        0, "meet(I)I",
        "iload_1 ifeq:to aload_0 getfield:v goto:at to: aload_0 getfield:w at: arraylength ireturn",
    )
    for others, marks in (
        ((), f"{COUNTS}V.one()I method M0\n"),
        ((leak,), f"{COUNTS_NOT}V.one()I method M0\n"),
        ((meet,), f"{COUNTS_NOT}V.one()I method M5\n"),
    ):
        yield array_class(one, *others, makes=makes, more=((PRIVATE, "w", "[I"),)), marks


def section_rows():
    """The mark of one section more, and the methods that it calls."""
    on_class = STATIC | SYNCHRONIZED
    calls = "aload_0 virtual:last()I ireturn"
    over = (PRIVATE, "over()I", calls)
    of = (STATIC, "of(LV;)I", calls)
    size = (0, "size()I", "aload_0 getfield:v arraylength ireturn")
    caught = f"from: {READ} to: ireturn handler: pop iconst_0 ireturn"
    for mark, flags, signed, text, *others in (
        # an exception that is thrown on; of an array that it is given the length, and an element
        ("M0", SYNCHRONIZED, "toss(Ljava/lang/Error;)V", "aload_1 athrow"),
        ("M0", SYNCHRONIZED, "length([I)I", "aload_1 arraylength ireturn"),
        ("M5", SYNCHRONIZED, "first([I)I", "aload_1 iconst_0 iaload ireturn"),
        # on `this`, through another method too; off it, of another object and of its own
        ("M0", SYNCHRONIZED, "call()I", calls, LAST),
        ("M0", SYNCHRONIZED, "call()I", "aload_0 special:over()I ireturn", LAST, over),
        ("M6", SYNCHRONIZED, "call(LV;)I", "aload_1 virtual:last()I ireturn", LAST),
        ("M6", SYNCHRONIZED, "call()I", "aload_0 static:of(LV;)I ireturn", LAST, of),
        ("M0", SYNCHRONIZED, "call(LV;)I", "aload_1 virtual:size()I ireturn", size),
        # a section on the class reads lengths, and no element
        ("M0", on_class, "whole([I)I", "aload_0 arraylength ireturn"),
        ("M5", on_class, "whole([I)I", "aload_0 iconst_0 iaload ireturn"),
        ("M6", on_class, "whole(LV;)I", calls, LAST),
        ("M0", on_class, "whole(LV;)I", "aload_0 virtual:size()I ireturn", size),
        ("M3", on_class, "whole(LV;)I", "aload_0 virtual:sum()I ireturn"),
    ):
        marks = f"{COUNTS}V.{signed} method {mark}\n"
        yield array_class((flags, signed, text), *others), marks
    for signed, text in KEEPS_IN:
        yield array_class((SYNCHRONIZED, signed, text)), f"{COUNTS}V.{signed} method M0\n"
    catches = (SYNCHRONIZED, "catch()I", caught, ("from", "to", "handler"))
    yield array_class(catches), f"{COUNTS}V.catch()I method M0\n"
    block = (0, "read()I", *in_block(f"{READ} istore_1", "iload_1 ireturn"))
    yield array_class(block), f"{COUNTS}V.read()I block 3 M0\n"
    # an array of a static field
    static = ((PRIVATE | STATIC, "v", "[I"),)
    for flags in (SYNCHRONIZED, on_class):
        method = (flags, "first()I", "getstatic:v iconst_0 iaload ireturn")
        only = array_class(method, fields=static, makes="aload_0 above return", methods=())
        yield only, "V.first()I method M5\n"


def rows():
    for some in (owned_rows, constructor_rows, lock_rows, two_rows, section_rows):
        yield from some()
