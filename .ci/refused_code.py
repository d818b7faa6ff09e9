"""Code of one method that a rule refuses, with the rule and its place, for `.ci/limits`."""

STATIC, INSTANCE = 8, 0

# Flags, descriptor, places on the stack, locals.
PLAIN = (STATIC, "()V", 1, 0)
ON_THIS = (INSTANCE, "()V", 1, 1)
ON_ARGUMENT = (STATIC, "(Ljava/lang/Object;)V", 1, 1)

# The shape, the code, where OWN is the constant of the class, and the rule with its place.
REFUSED = (
    (PLAIN, "", "K5 0"),
    (PLAIN, "c4 15 00 00 b1", "K1 0"),
    (PLAIN, "10", "K2 0"),
    # switches that state more targets, or pairs, than there are bytes
    (PLAIN, "03 aa 00 00 00 00 00 00 80 00 00 00 7f ff ff ff b1", "K2 1"),
    (PLAIN, "03 ab 00 00 00 00 00 00 7f ff ff ff b1", "K2 1"),
    (PLAIN, "03 ab 00 00 00 00 00 00 ff ff ff ff b1", "K6 1"),
    (PLAIN, "03 aa 00 00 00 00 00 0f 00 00 00 01 00 00 00 00 b1", "K6 1"),
    (PLAIN, "a7 00 01 b1", "K3 0"),
    (PLAIN, "57 b1", "V1 0"),
    (PLAIN, "03 03 57 57 b1", "V2 1"),
    (PLAIN, "1a 57 b1", "V3 0"),
    (PLAIN, "01 74 57 b1", "V4 1"),
    (PLAIN, "03 99 00 04 03 b1", "V5 5"),
    (PLAIN, "00", "V6 0"),
    (PLAIN, "bb OWN c2 b1", "V7 3"),
    (PLAIN, "03 ac", "V8 1"),
    (ON_ARGUMENT, "2a c2 b1", "S1 1"),
    (ON_THIS, "2a c3 b1", "S2 1"),
    ((INSTANCE, "()V", 2, 2), "2a 59 4c 03 99 00 05 2b c2 b1", "S3 9"),
    (ON_THIS, "2a c2 b1", "S4 2"),
)
