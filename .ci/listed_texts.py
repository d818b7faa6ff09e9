"""Listings of worked classes, changed lines of one, and what assembling the text then answers."""

# The listing of the class with each kind of constant and part.
KINDS = """\
file 3 45 33 2 2
utf8 41
class 1
utf8 436f6e7374616e7456616c7565
utf8 436f6465
integer -2
float 1065353216
long 4294967298
gap
double 4607182418800017408
gap
string 1
nametype 1 1
field 2 12
method 2 12
imethod 2 12
utf8 42
utf8 43
utf8 44
utf8 45
utf8 46
interface 2
fmember 8 16 17
value 3 7
attr 18 09
end
mmember 1 19 20
code 4 1 2
return
row 0 1 0 2
attr 18 07
end
end
attr 18 -
"""

# Bytes of the class that adds that are changed, each at its place, and the line of that number,
# counted from 1, in its listing then: instructions at pc 3, and codes of other bytes.
LINES = (
    # the forms of a local
    (((210, 21), (211, 0)), 24, "iload 0"),
    (((210, 26),), 24, "iload_0"),
    (((210, 25), (211, 3)), 24, "aload 3"),
    (((210, 45),), 24, "aload_3"),
    (((210, 54), (211, 255)), 24, "istore 255"),
    (((210, 59),), 24, "istore_0"),
    (((210, 58), (211, 0)), 24, "astore 0"),
    (((210, 78),), 24, "astore_3"),
    # constants, and the two forms of a constant of the pool
    (((210, 2),), 24, "iconst_m1"),
    (((210, 16), (211, 128)), 24, "bipush -128"),
    (((210, 17), (211, 128), (212, 0)), 24, "sipush -32768"),
    (((210, 18), (211, 4)), 24, "ldc 4"),
    (((210, 19), (211, 0), (212, 4)), 24, "ldc_w 4"),
    # two operands, and a type
    (((210, 132), (211, 255), (212, 128)), 24, "iinc 255 -128"),
    (((210, 188), (211, 10)), 24, "newarray 10"),
    # the target of a branch
    (((210, 167), (211, 255), (212, 253)), 24, "goto 0"),
    # no code: an opcode, a target, a type and an operand that is cut
    (((210, 186),), 23, "bytes b2000dba0660b60013b1"),
    (((210, 167), (211, 255), (212, 254)), 23, "bytes b2000da7fffeb60013b1"),
    (((210, 188), (211, 11)), 23, "bytes b2000dbc0b60b60013b1"),
    (((216, 16),), 23, "bytes b2000d050660b6001310"),
    # the numbers of the class
    (((4, 255), (5, 255), (173, 255), (174, 255)), 1, "file 65535 50 65535 2 4"),
    # a byte of a text
    (((13, 239),), 2, "utf8 ef"),
)

# The same of the class of switches, the first of them with a byte of padding that is not 0 too.
SWITCH_LINES = (
    ((), 76, "tableswitch 38 -1 2 32 34 38 36"),
    ((), 90, "tableswitch 30 2147483646 2147483647 24 26"),
    ((), 104, "tableswitch 30 -2147483648 -2147483647 24 26"),
    ((), 118, "tableswitch 26 7 7 24"),
    ((), 132, "lookupswitch 50 -2147483648 44 -1 46 7 48 2147483647 44"),
    ((), 146, "lookupswitch 18"),
    (((519, 1),), 75, "bytes 1aaa010000000025ffffffff000000020000001f00000021000000250000002304ac05ac06ac07ac"),
)

# A line of the listing of the class that adds, by its number, counted from 1, another text in its
# place, and the rule that refuses the text, with its place; None: it lists a class.
EDITS = (
    # the first line
    (1, "file 0 51 33 2 4", "A2 0"),
    (1, "file 0 50 33 2", "A1 1"),
    (1, "file 0 50 33 2 4 0", "A1 1"),
    (1, "file 0 50 33 2 65536", "A1 1"),
    (1, "file 00 50 33 2 4", "A1 1"),
    (1, "file -0 50 33 2 4", "A1 1"),
    (1, "file +0 50 33 2 4", "A1 1"),
    (1, "file  0 50 33 2 4", "A1 1"),
    (1, " file 0 50 33 2 4", "A1 1"),
    (1, "file 0 50 33 2 4 ", "A1 1"),
    (1, "file 0 50 33 2 4\r", "A1 1"),
    (1, "FILE 0 50 33 2 4", "A1 1"),
    (1, "", "A1 1"),
    (1, "utf8 41", "A1 1"),
    # digits of bytes
    (2, "utf8 -", None),
    (2, "utf8 EF", "A1 2"),
    (2, "utf8 4", "A1 2"),
    (2, "utf8", "A1 2"),
    (2, "utf8 00", "A2 0"),
    # numbers at the edges of their fields
    (2, "integer -2147483648", "A2 0"),
    (2, "integer 2147483647", "A2 0"),
    (2, "integer 2147483648", "A1 2"),
    (2, "integer -2147483649", "A1 2"),
    (2, "integer -0", "A1 2"),
    (2, "integer -01", "A1 2"),
    (2, "float 4294967295", "A2 0"),
    (2, "float 4294967296", "A1 2"),
    (2, "long 18446744073709551615", "A2 0"),
    (2, "long 18446744073709551616", "A1 2"),
    (2, "double 184467440737095516160", "A1 2"),
    (3, "class 65535", "A2 0"),
    (3, "class 65536", "A1 3"),
    # places
    (2, "attr 1 00", "A1 3"),
    (2, "end", "A1 2"),
    (21, "fmember 9 5 6", "A2 0"),
    (22, "value 7 3", "A1 23"),
    (24, "row 0 1 0 0", "A1 25"),
    (24, "bytes 05", "A1 24"),
    (28, "bytes b1", "A1 28"),
    (30, "end\nfmember 9 5 6\nend", "A1 31"),
    # instructions
    (24, "isum", "A1 24"),
    (26, "isum", "A1 26"),
    (24, "iconst_2 0", "A1 24"),
    (24, "bipush -128", None),
    (24, "bipush -129", "A1 24"),
    (24, "bipush 128", "A1 24"),
    (24, "sipush 32768", "A1 24"),
    (24, "iload 255", None),
    (24, "iload 256", "A1 24"),
    (24, "iload_0 0", "A1 24"),
    (24, "ldc 4", None),
    (24, "ldc 256", "A1 24"),
    (24, "ldc_w 65535", None),
    (24, "iinc 255 -128", None),
    (24, "newarray 10", None),
    (24, "newarray 11", "A2 0"),
    (24, "newarray 256", "A1 24"),
    # targets
    (24, "goto 0", None),
    (24, "goto 1", "A2 0"),
    (24, "goto 40000", "A2 0"),
    (24, "goto 4294967295", "A2 0"),
    (24, "goto 4294967296", "A1 24"),
    (24, "goto -1", "A1 24"),
    (24, "goto_w 0", None),
    (24, "goto_w 4294967295", "A2 0"),
    # switches
    (24, "tableswitch 0 5 5 0", None),
    (24, "tableswitch 0 5 6 0", "A2 0"),
    (24, "tableswitch 0 5 4", "A2 0"),
    (24, "tableswitch 0 5", "A1 24"),
    (24, "tableswitch 0 2147483648 2147483648 0", "A1 24"),
    (24, "lookupswitch 0", None),
    (24, "lookupswitch 0 -1 0 1 0", None),
    (24, "lookupswitch 0 1 0 -1 0", "A2 0"),
    (24, "lookupswitch 0 1", "A1 24"),
    (24, "lookupswitch", "A1 24"),
)

# So many bytes of that listing, and the same.
CUTS = (
    (0, "A1 1"),
    (17, "A2 0"),
    (16, "A1 1"),
    (366, None),
    (363, "A1 20"),
    (380, "A1 22"),
    (391, "A1 23"),
    (451, "A1 29"),
    (455, "A1 30"),
    (458, "A1 30"),
    (459, None),
)

# Classes that are listed and assembled again.
CLASSES = ("ADDS", "PAIR", "kinds", "SWITCHES", "BRANCHES", "LOADS_CONSTANTS", "LOCALS", "ARRAYS", "THROWS")

# The class that adds with a code of no byte.
EMPTY_CODE = """
    cafebabe000000320014010001410700010100106a6176612f6c616e672f4f626a656374070003010004696e
    6974010003282956010004436f64650100106a6176612f6c616e672f53797374656d0700080100036f757401
    00154c6a6176612f696f2f5072696e7453747265616d3b0c000a000b090009000c0100136a6176612f696f2f
    5072696e7453747265616d07000e0100077072696e746c6e010004284929560c001000110a000f0012002100
    020004000000000001000900050006000100070000000c0003000000000000000000000000
"""
