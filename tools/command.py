"""The words of ./run, of which its tools take some out and put others in."""
import os
import sys

# What a tool ends with: where the output failed, where a build stopped without an answer, where a
# page is not written, where somebody ends it by Ctrl-C, or by a signal.
OUTPUT_FAILED, FAULT, NOT_WRITTEN, INTERRUPTED, TERMINATED = 5, 8, 9, 130, 143
# How a run of a program ends that has a report or a trace: whole, by an exception, by a limit.
WHOLE, UNCAUGHT, LIMITED = 0, 1, 7
ENDED = (WHOLE, UNCAUGHT, LIMITED)


def say(text):
    """As ./run says what is no text of a program."""
    print(f"solero: {text}", file=sys.stderr, flush=True)


class NotRead(Exception):
    """Words that are not read. The program says so itself, and ./run why, by its table of words."""


def call(main, about):
    """Ends with what `main` answers, which is given a program and the words for it."""
    if len(sys.argv) < 2 or sys.argv[1] in ("-h", "--help"):
        print(about)
        sys.exit(0)
    try:
        status = main(sys.argv[1], sys.argv[2:])
        sys.stdout.flush()
    except NotRead:
        os.execv(sys.argv[1], sys.argv[1:])
    except BrokenPipeError:
        os.dup2(os.open(os.devnull, os.O_WRONLY), 1)
        status = OUTPUT_FAILED
    sys.exit(status)


class Words:
    """Options with their values, and files."""

    def __init__(self, words):
        self.options, self.files = [], []
        rest = list(words)
        while rest:
            word = rest.pop(0)
            if word == "--":
                self.files += rest
                break
            name, equals, value = word.partition("=")
            if not word.startswith("--"):
                self.files.append(word)
            elif equals or word == "--json":
                self.options.append((name, value if equals else None))
            else:
                self.options.append((name, rest.pop(0) if rest else None))

    def values(self, name):
        return [value for each, value in self.options if each == name]

    def value(self, name, unless_said=None):
        """The value of an option; of one that is given twice none is read."""
        values = self.values(name)
        if len(values) > 1 or None in values:
            raise NotRead
        return values[0] if values else unless_said

    def number(self, name, least, most, unless_said=None):
        value = self.value(name)
        if value is None:
            return unless_said
        digits = value.removeprefix("+")
        if not digits.isascii() or not digits.isdigit() or not least <= int(digits) <= most:
            raise NotRead
        return int(digits)

    def without(self, *names):
        """A copy that has none of these options."""
        left = Words([])
        left.options = [(name, value) for name, value in self.options if name not in names]
        left.files = list(self.files)
        return left

    def put(self, name, value):
        """Gives an option its value."""
        kept = self.without(name)
        kept.options.append((name, str(value)))
        return kept

    def with_json(self):
        """As JSON."""
        kept = self.without("--json")
        kept.options.append(("--json", None))
        return kept

    def listed(self):
        """As a program is given them."""
        options = [word for option in self.options for word in option if word is not None]
        return [*options, "--", *self.files]
