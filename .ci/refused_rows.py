"""Bytes of worked classes that are changed, each at its place, and the line of the rule that refuses what they make:
none where it is loaded."""
# What is no class file: changes of the class that adds.
UNREADABLE = (
    # the magic number
    (((0, 0),), "refused C1 file 0 at 0"),
    # the version
    (((7, 51),), "refused C2 file 0 at 6"),
    (((7, 44),), "refused C2 file 0 at 6"),
    # the tag of a constant
    (((10, 2),), "refused C4 file 0 at 10"),
    # an index past the constants
    (((15, 0), (16, 20)), "refused C5 file 0 at 15"),
    # a zero in a text
    (((13, 0),), "refused C6 file 0 at 13"),
    # the length of an attribute
    (((198, 21),), "refused C7 file 0 at 195"),
    # a native method with code
    (((185, 1), (186, 9)), "refused C9 file 0 at 185"),
    # more constants than there are, more methods, a longer attribute, longer code, more rows
    (((8, 0xff), (9, 0xff)), "refused C4 file 0 at 173"),
    (((183, 0xff), (184, 0xff)), "refused C3 file 0 at 223"),
    (((195, 0xff), (196, 0xff), (197, 0xff), (198, 0xff)), "refused C3 file 0 at 199"),
    (((203, 0xff), (204, 0xff), (205, 0xff), (206, 0xff)), "refused C7 file 0 at 195"),
    (((217, 0xff), (218, 0xff)), "refused C7 file 0 at 195"),
)
# The versions that are read.
VERSIONS = (
    (((7, 45),), ""),
    (((7, 46),), ""),
    (((7, 47),), ""),
    (((7, 48),), ""),
    (((7, 49),), ""),
    (((7, 50),), ""),
)
# Wide constants, values and handlers: changes of the class with constants of four types.
WIDE = (
    # the Long is last
    (((9, 18),), "refused C5 file 0 at 136"),
    # a field starts with the second index of the Long
    (((269, 18),), "refused C5 file 0 at 268"),
    # a field starts with three bytes
    (((267, 3),), "refused C7 file 0 at 264"),
    # the catch type is a text, or that of a row which is not there
    (((375, 8),), "refused C5 file 0 at 374"),
    (((367, 3),), "refused C5 file 0 at 382"),
    # the code is longer than its body
    (((356, 200),), "refused C7 file 0 at 345"),
)
# What is no code: changes of the class that adds.
UNDECODABLE = (
    # no opcode
    (((207, 0xff),), "refused K1 file 0 method 0 at 0"),
    # the last instruction wants a byte more
    (((216, 0x10),), "refused K2 file 0 method 0 at 9"),
    # a branch into an instruction
    (((207, 0xa7), (208, 0), (209, 1)), "refused K3 file 0 method 0 at 0"),
    # code of no bytes, behind which an attribute of four bytes stands
    (
        (
            (206, 0), (207, 0), (208, 0), (209, 0), (210, 1), (211, 0), (212, 1), (213, 0),
            (214, 0), (215, 0), (216, 4),
        ),
        "refused K5 file 0 method 0 at 0",
    ),
)
# Handlers and switches: changes of the class with two private fields.
UNDECODABLE_ROWS = (
    # a row begins inside an instruction
    (((437, 6),), "refused K4 file 0 method 2 at 0"),
    # a switch whose least key is above the greatest
    (
        (
            (476, 0xaa), (478, 0), (479, 0), (480, 0), (482, 0), (483, 15), (485, 0), (486, 0),
            (487, 1), (488, 0), (489, 0), (490, 0),
        ),
        "refused K6 file 0 method 3 at 0",
    ),
)
# Names that name nothing: changes of the class that adds.
UNLINKED = (
    # `out` is of a class that is not there
    (((77, ord("n")),), "refused L1 file 0 method 0 at 0"),
    # the constant 19 is a Float, which the instruction at 3 loads
    (
        (
            (168, 4), (169, 0x3f), (170, 0x80), (171, 0), (172, 0), (210, 0x12), (211, 19),
            (212, 0x57), (213, 0x57), (214, 0), (215, 0),
        ),
        "refused L1 file 0 method 0 at 3",
    ),
    # `println` has the descriptor `()V`
    (((167, 6),), "refused L2 file 0 method 0 at 6"),
    # `init` is synchronized too
    (((186, 0x29),), "refused L9 file 0 method 0 at 0"),
)
# Static synchronized methods that begin a part: changes of the class that sets and sums.
SYNCHRONIZED_PARTS = (
    # `init`
    (((341, 0x28),), "refused L9 file 0 method 2 at 0"),
    # the same with the name `done`
    (
        ((233, ord("d")), (234, ord("o")), (235, ord("n")), (236, ord("e")), (341, 0x28)),
        "refused L9 file 0 method 2 at 0",
    ),
    # `set` has the name `run`
    (((81, ord("r")), (82, ord("u")), (83, ord("n"))), "refused L9 file 0 method 0 at 0"),
)
# A static synchronized `<clinit>`: a change of the class with all parts.
SYNCHRONIZED_CLINIT = (
    (((259, 0x28),), "refused L9 file 0 method 0 at 0"),
)
# Static synchronized methods that begin nothing: changes of the class that sets and sums.
SYNCHRONIZED_OTHERS = (
    ((), ""),
    # `set` has the name `init`, and its own descriptor
    (((105, 32), (274, 32)), ""),
)
# In the class with two private fields, the first of them is final.
FINAL_FIELD = (
    (((298, 0x12),), "refused L7 file 0 method 1 at 2"),
)
# A class that is loaded.
LOADED = (
    ((), ""),
)
# A class right below `java/lang/Exception`.
OTHER_SUPER = (
    ((), "refused L6 file 0 at 0"),
)
# Methods whose locking is not structured: changes of the class that adds. Each begins with
# `aconst_null`.
UNTAGGED = (
    # null has no tag where it is entered
    (
        (
            (207, 1), (208, 0xc2), (209, 0), (210, 0), (211, 0), (212, 0), (213, 0), (214, 0),
            (215, 0),
        ),
        "refused S1 file 0 method 0 at 1",
    ),
    # nothing was entered that could be left
    (
        (
            (207, 1), (208, 0xc3), (209, 0), (210, 0), (211, 0), (212, 0), (213, 0), (214, 0),
            (215, 0),
        ),
        "refused S2 file 0 method 0 at 1",
    ),
    # `dup, iconst_0, ifeq` to 8, `monitorenter, aconst_null`: at 8 one way has entered, the
    # other has not
    (
        (
            (207, 1), (208, 0x59), (209, 3), (210, 0x99), (211, 0), (212, 5), (213, 0xc2),
            (214, 1), (215, 0),
        ),
        "refused S3 file 0 method 0 at 8",
    ),
    # `dup, monitorenter, pop`, and then the return
    (
        (
            (207, 1), (208, 0x59), (209, 0xc2), (210, 0x57), (211, 0), (212, 0), (213, 0),
            (214, 0), (215, 0),
        ),
        "refused S4 file 0 method 0 at 9",
    ),
)
# Methods that have no typing: changes of the class that adds.
UNTYPED = (
    # a value is taken from the stack, and the sum finds one
    (((210, 0x57),), "refused V1 file 0 method 0 at 5"),
    # the stack has two places
    (((200, 2),), "refused V2 file 0 method 0 at 4"),
    # there is no local 0
    (((210, 0x1a),), "refused V3 file 0 method 0 at 3"),
    # null is added
    (((210, 1),), "refused V4 file 0 method 0 at 5"),
    # two ways lead to pc 5, one with a value on the stack
    (
        (
            (207, 3), (208, 0x99), (209, 0), (210, 4), (211, 3), (212, 0xb1), (213, 0xb1),
            (214, 0xb1), (215, 0xb1),
        ),
        "refused V5 file 0 method 0 at 5",
    ),
    # the code has no end
    (((216, 0),), "refused V6 file 0 method 0 at 9"),
    # the monitor of a new object is entered
    (
        ((207, 0xbb), (208, 0), (209, 2), (210, 0xc2), (211, 0xb1)),
        "refused V7 file 0 method 0 at 3",
    ),
    # a branch back with a new object
    (
        ((207, 0xbb), (208, 0), (209, 2), (210, 0xa7), (211, 0xff), (212, 0xfd)),
        "refused V7 file 0 method 0 at 3",
    ),
    # an int is returned
    (((207, 3), (208, 0xac), (209, 0xb1)), "refused V8 file 0 method 0 at 1"),
)
# Misused objects: changes of the class with two private fields.
MISUSED = (
    # a constructor that never calls the one above it
    (((345, 0), (346, 0), (348, 0)), "refused V7 file 0 method 0 at 4"),
    # one of `Object` is called on an object that is initialized
    (((377, 0xb7), (378, 0), (379, 0x13), (380, 0xb1)), "refused V7 file 0 method 1 at 1"),
    # a new object in a local where a row covers
    (((413, 0xbb), (414, 0), (415, 2), (416, 0x4c)), "refused V7 file 0 method 2 at 4"),
)
# Two files: the stages go one after another, and each goes over all files.
TWO_FILES = (
    # the second has no typing, the first enters a value without a tag
    (
        (
            (207, 1), (208, 0xc2), (209, 0), (210, 0), (211, 0), (212, 0), (213, 0), (214, 0),
            (215, 0),
        ),
        ((13, ord("B")), (210, 0x57)),
        "refused V1 file 1 method 0 at 5",
    ),
    # both classes have one name
    ((), (), "refused L5 file 1 at 0"),
    # two classes that are loaded
    ((), ((13, ord("B")),), ""),
    # the second is no class file, the first has no code
    (((207, 0xff),), ((13, ord("B")), (0, 0)), "refused C1 file 1 at 0"),
    # the second has no code, the first names nothing
    (((77, ord("n")),), ((13, ord("B")), (207, 0xff)), "refused K1 file 1 method 0 at 0"),
    # the second names nothing, the first has no typing
    (((210, 0x57),), ((13, ord("B")), (77, ord("n"))), "refused L1 file 1 method 0 at 0"),
)
# The lengths of the items of the class that adds: its numbers, and the runs of bytes whose length stands before them.
ITEMS_OF_ADDS = (
    4, 2, 2, 2, 1, 2, 1, 1, 2, 1, 2, 16, 1, 2, 1, 2, 4, 1, 2, 3, 1, 2, 4, 1, 2, 16, 1, 2, 1, 2, 3, 1, 2, 21,
    1, 2, 2, 1, 2, 2, 1, 2, 19, 1, 2, 1, 2, 7, 1, 2, 4, 1, 2, 2, 1, 2, 2, 2, 2, 2, 2, 2, 2, 2, 2, 2, 2, 2,
    4, 22, 2,
)
# Those of the class with two private fields.
ITEMS_OF_PAIR = (
    4, 2, 2, 2, 1, 2, 1, 1, 2, 1, 2, 16, 1, 2, 1, 2, 1, 1, 2, 1, 1, 2, 1, 1, 2, 1, 1, 2, 3, 1, 2, 6, 1, 2,
    3, 1, 2, 4, 1, 2, 3, 1, 2, 4, 1, 2, 3, 1, 2, 3, 1, 2, 4, 1, 2, 2, 1, 2, 2, 1, 2, 2, 1, 2, 2, 1, 2, 2, 1,
    2, 2, 1, 2, 2, 1, 2, 2, 1, 2, 2, 1, 2, 2, 1, 2, 2, 1, 2, 2, 1, 2, 2, 1, 2, 16, 1, 2, 1, 2, 3, 1, 2, 21,
    1, 2, 2, 1, 2, 2, 1, 2, 19, 1, 2, 1, 2, 7, 1, 2, 2, 1, 2, 2, 2, 2, 2, 2, 2, 2, 2, 2, 2, 2, 2, 2, 2, 2,
    2, 2, 2, 2, 2, 2, 2, 2, 2, 4, 17, 2, 2, 2, 2, 2, 4, 23, 2, 2, 2, 2, 2, 4, 49, 2, 2, 2, 2, 2, 4, 66, 2,
)
