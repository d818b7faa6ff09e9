"""The class files that the tests of the crates have as texts, by the names that they have there."""
import glob
import os
import re

from built import TOP

TEXT = r'pub (?:const {0}: &str = |fn {0}\(\) -> &\'static str {{\n    )"\\\n(.*?)"'


def worked(name):
    """The bytes of the class file of that name in `crates/test_classes`."""
    for path in glob.glob(os.path.join(TOP, "crates", "test_classes", "src", "*.rt")):
        with open(path, encoding="utf-8") as source:
            found = re.search(TEXT.format(name), source.read(), re.DOTALL)
        if found:
            return bytes.fromhex(re.sub(r"[\s\\]", "", found[1]))
    raise KeyError(name)
