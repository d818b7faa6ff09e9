"""Pages for a browser that show runs: each is one file, and fetches nothing."""
import html
import json
import os
import subprocess
import tempfile

VIEW = os.path.join(os.path.dirname(os.path.abspath(__file__)), "view")
RUNS = "<!-- THE RUNS -->\n"


class Shown:
    """A run as the second program tells it: its objects, and the lines of its events."""

    def __init__(self, program, words):
        """The words ask for a run, as lines, and each event has one. What is no run has no lines."""
        words = words.put("--fold", "off")
        self.status, self.objects = call(program, words.with_json())
        _, lines = call(program, words) if self.status >= 0 else (None, "")
        self.lines = [line for line in lines.splitlines(True) if is_of_event(line)]

    def pieces(self):
        yield told('class="lines"', "".join(self.lines))
        # the same objects: a string of JSON may have each sign by its number
        yield as_json('class="objects"', self.objects)


def call(program, words):
    """The status of a program, and what it said."""
    ran = subprocess.run([program, *words.listed()], stdin=subprocess.DEVNULL,
                         stdout=subprocess.PIPE, stderr=subprocess.DEVNULL)
    return ran.returncode, ran.stdout.decode("utf-8", "replace")


def is_of_event(line):
    """Whether a line of a run is that of an event or of the begin of a part, by its number."""
    number, _, rest = line.partition(" ")
    return number.isdigit() and rest != ""


def part(name):
    with open(os.path.join(VIEW, name), encoding="utf-8") as file:
        return file.read()


def frame():
    """The page without a run, in two pieces."""
    text = part("frame.html").replace("<!-- style.css -->\n", part("style.css"))
    for name in ("keys.js", "model.js", "draw.js"):
        text = text.replace(f"/* {name} */\n", part(name))
    return text.split(RUNS)


def told(name, text):
    """A text of the page, which is not shown as it is."""
    return f"<pre hidden {name}>\n{html.escape(text)}</pre>\n"


def as_json(name, text):
    plain = text.replace("<", "\\u003c")
    return f'<script type="application/json" {name}>\n{plain}</script>\n'


def source_of(file):
    """The Java source of a class file, by its name: beside it, or in the current folder, also below
    a folder of classes."""
    name = os.path.splitext(file)[0].split("$")[0] + ".java"
    for path in (name, os.path.join(*name.split(os.sep)[1:] or [name]), os.path.basename(name)):
        if os.path.isfile(path):
            return path
    return None


def pieces_of(title, files, runs, outcomes):
    """What stands in a page, one after the other."""
    before, behind = frame()
    yield before
    yield f'<p hidden id="told">{html.escape(title)}</p>\n'
    for path in sorted(set(filter(None, map(source_of, files)))):
        with open(path, encoding="utf-8", errors="replace") as file:
            yield told(f'data-file="{html.escape(os.path.basename(path))}"', file.read())
    for run in runs:
        yield from run.pieces()
    if outcomes:
        yield as_json('id="outcomes"', json.dumps(outcomes))
    yield behind


def write(path, title, files, runs, outcomes=()):
    """Writes a page of runs whole, or leaves what was there. The sources of the class files stand
    in it where they are found. An outcome is a row of a table that comes first."""
    folder = os.path.dirname(os.path.abspath(path))
    with tempfile.NamedTemporaryFile("w", dir=folder, suffix=".html", delete=False,
                                     encoding="utf-8", newline="\n") as file:
        try:
            file.writelines(pieces_of(title, files, runs, outcomes))
            file.close()
            mask = os.umask(0)
            os.umask(mask)
            os.chmod(file.name, 0o666 & ~mask)
            os.replace(file.name, path)
        except BaseException:
            os.unlink(file.name)
            raise
