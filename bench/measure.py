"""Times runs of the built program: medians of repeated runs, with their spread, less the time that starting takes, and the
most memory that the last of them had at a time."""
import os
import statistics
import subprocess
import sys
import tempfile
import time

# Where the gate's modules stand: `built`, `class_builder`, and `worked`. Scripts import them behind
# this one.
sys.path.append(os.path.join(os.path.dirname(os.path.dirname(os.path.abspath(__file__))), ".ci"))

from built import SOLERO as PROGRAM, TOP  # noqa: E402


def answer_help(text):
    """Where a word asks for help, prints the text, and ends before anything is measured."""
    if any(word in ("-h", "--help") for word in sys.argv[1:]):
        print(text.strip())
        raise SystemExit(0)


def median_and_spread(times):
    """The median, and the quartiles: half of the times lie between them."""
    first, median, third = statistics.quantiles(times, n=4, method="inclusive")
    return median, first, third


def repeated(work, runs):
    times = []
    for _ in range(runs):
        start = time.perf_counter()
        work()
        times.append(time.perf_counter() - start)
    return median_and_spread(times)


class Runs:
    """Runs over files in a folder of their own. Each is repeated, and the start of the program, as measured on a file of
    one byte, is taken off."""

    def __init__(self, folder, runs):
        self.folder = folder
        self.runs = runs
        self.answer = ""
        self.megabytes = 0
        self.start = self.times([b"\xca"], 3 * runs)

    def times(self, contents, runs):
        paths = []
        for number, content in enumerate(contents):
            paths.append(os.path.join(self.folder, f"{number}.class"))
            with open(paths[-1], "wb") as out:
                out.write(content)

        def run():
            with subprocess.Popen([PROGRAM, *paths], stdout=subprocess.PIPE) as child:
                self.answer = child.stdout.read().decode().split("\n")[0]
                _, status, usage = os.wait4(child.pid, 0)
                child.returncode = os.waitstatus_to_exitcode(status)
            self.megabytes = usage.ru_maxrss / 1024

        run()
        return repeated(run, runs)

    def line(self, name, contents):
        """A line for these files, and how long they took, or None where that drowns in the start's spread."""
        size = sum(len(content) for content in contents)
        median, first, third = self.times(contents, self.runs)
        start, start_first, start_third = self.start
        net = median - start
        told = f"{name:<22} {size:>10} bytes"
        if net < 5 * (start_third - start_first):
            return f"{told}   too short to tell from the start of the program  ({self.answer})"
        return (
            f"{told} {net * 1000:9.1f} ms, from {(first - start) * 1000:.1f} to {(third - start) * 1000:.1f}"
            f" {size / net / 1e6:8.1f} MB/s {self.megabytes:7.0f} MB of memory  ({self.answer})"
        )


def measured(runs, measure):
    """Calls `measure` with runs over the built program, and tells the start of the program first."""
    if not os.access(PROGRAM, os.X_OK):
        raise SystemExit("no built program: run ./run --proved examples/A.class first")
    with tempfile.TemporaryDirectory() as folder:
        over = Runs(folder, runs)
        median, first, third = over.start
        print(f"start of the program: {median * 1000:.2f} ms, from {first * 1000:.2f} to {third * 1000:.2f}", flush=True)
        measure(over)


if __name__ == "__main__":
    answer_help(__doc__)
