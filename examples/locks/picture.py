#!/usr/bin/env python3
"""Draws a run as SVG: a column for each thread, and in it the thread's events, one below the other.

    ./run --what run --json [options] FILE... | examples/locks/picture.py > run.svg

Instructions that access no word stand together on one line. A section that is tried without its lock has a
green field where it finishes and a red one where it fails, and one that has its lock a yellow field. A thin
line joins a write and a read of one word by different threads, where no other write comes between.
"""
import json
import sys
from xml.sax.saxutils import escape

ROW = 17
LETTER = 6.3
LEFT = 70
COLORS = {"fails": "#f6c9c9", "finishes": "#cfeccf", "open": "#e4e4e4", "lock": "#f7ecc4"}


def monitor_of(told):
    """A monitor by its object, or by its class."""
    if "monitor_class" in told:
        return f"class {told['monitor_class']}"
    return str(told["monitor"]) if "monitor" in told else ""


def verb_of(told):
    if "throws" in told:
        return f"throws {told['throws']}"
    return f"ends: {told['ends']}" if "ends" in told else told.get("does")


def does_of(told):
    """What an event does, in words."""
    woken = f"thread {told['woken']} from" if "woken" in told else ""
    return " ".join(filter(None, (verb_of(told), woken, monitor_of(told), told.get("made"))))


def word_of(access):
    """The name of a word that threads share."""
    kind = access["word"]
    if kind == "field":
        return f"{access['class']}@{access['object']}.{access['field']}"
    if kind == "static field":
        return f"{access['class']}.{access['field']}"
    if kind == "element":
        return f"[I@{access['object']}[{access['index']}]"
    record = f"record {access['record']} for " if "record" in access else ""
    whose = record + (monitor_of(access) or str(access.get("object", "")))
    return f"{kind} of {whose}" if whose else kind


class Event:
    """An event by the members of its object."""

    def __init__(self, told):
        self.told = told
        self.thread, self.number = told["thread"], told["number"]
        self.verb, self.monitor, self.does = verb_of(told), monitor_of(told), does_of(told)
        access = told.get("access", {})
        self.word, self.writes = word_of(access) if access else None, "left" in access

    def place(self):
        told = self.told
        return f"{told['class']}.{told['method']} at {told['pc']} {told['instruction']}" if "pc" in told else ""

    def notes(self):
        told = self.told
        access = told.get("access", {})
        left = f" -> {access['left']}" if self.writes else ""
        return [
            self.does,
            f"{self.word} {access['found']}{left}" if access else "",
            f"attempt {told['attempt_begins']} begins by Free({told['noted']})" if "attempt_begins" in told else "",
            f"attempt {told['attempt_fails']} fails: not Free({told['noted']})" if "attempt_fails" in told else "",
            f"attempt {told['attempt_finishes']} finishes" if "attempt_finishes" in told else "",
            told.get("lock", ""),
            f"comes to its end: {told['comes_to_its_end']}" if "comes_to_its_end" in told else "",
        ]

    def is_plain(self):
        return bool(self.place()) and not any(self.notes())

    def text(self):
        return ", ".join(part for part in [self.place(), *self.notes()] if part)


def read(lines):
    """The events; what else is told of the run is left out."""
    for line in lines:
        told = json.loads(line)
        if told["what"] == "event":
            yield Event(told)


class Row:
    def __init__(self, event):
        self.events = [event]
        self.thread = event.thread

    def takes(self, event):
        return self.thread == event.thread and self.events[-1].is_plain() and event.is_plain()

    def numbers(self):
        first, last = self.events[0].number, self.events[-1].number
        return str(first) if first == last else f"{first}-{last}"

    def text(self):
        if len(self.events) == 1:
            return self.events[0].text()
        methods = [event.place().split(" at ")[0] for event in self.events]
        names = [event.place().split()[-1] for event in self.events]
        return f"{methods[0]}: {' '.join(names)}"


def rows_of(events):
    rows = []
    for event in events:
        if rows and rows[-1].takes(event):
            rows[-1].events.append(event)
        else:
            rows.append(Row(event))
    return rows


def fields_of(rows):
    """Of each attempt, and of each lock that is held: thread, first and last row, and its colour."""
    fields, attempts, locks = [], {}, {}
    for at, row in enumerate(rows):
        event = row.events[0]
        ended = next((end for end in ("fails", "finishes") if f"attempt_{end}" in event.told), None)
        if ended and row.thread in attempts:
            fields.append((row.thread, attempts.pop(row.thread), at, COLORS[ended]))
        if "attempt_begins" in event.told:
            attempts[row.thread] = at
        held = row.thread, event.monitor
        if event.verb == "takes the lock of":
            locks[held] = at
        if event.verb == "leaves" and held in locks:
            fields.append((row.thread, locks.pop(held), at, COLORS["lock"]))
    last = len(rows) - 1
    fields += [(thread, first, last, COLORS["open"]) for thread, first in attempts.items()]
    return fields + [(thread, first, last, COLORS["lock"]) for (thread, _), first in locks.items()]


def joins_of(rows):
    """Pairs of rows: a write and a read of one word by different threads, with no other write between."""
    writes, reads = {}, {}
    for at, row in enumerate(rows):
        word = row.events[0].word
        others = reads.get(word, []) if row.events[0].writes else [writes[word]] if word in writes else []
        yield from ((one, at) for one in others if rows[one].thread != row.thread)
        if word and row.events[0].writes:
            writes[word], reads[word] = at, []
        elif word:
            reads.setdefault(word, []).append(at)


def picture(events):
    rows = rows_of(events)
    threads = sorted({row.thread for row in rows})
    widths = [max(len(row.text()) for row in rows if row.thread == one) * LETTER + 24 for one in threads]
    lefts = {one: LEFT + sum(widths[:at]) for at, one in enumerate(threads)}
    wide = dict(zip(threads, widths))
    height = (len(rows) + 2) * ROW + 10
    out = [f'<svg xmlns="http://www.w3.org/2000/svg" width="{LEFT + sum(widths):.0f}" height="{height}"'
           ' font-family="monospace" font-size="10.5">', '<rect width="100%" height="100%" fill="white"/>']
    top = [2 * ROW + at * ROW for at in range(len(rows))]
    for thread, first, last, color in fields_of(rows):
        out.append(f'<rect x="{lefts[thread]:.0f}" y="{top[first]}" width="{wide[thread] - 12:.0f}" '
                   f'height="{top[last] - top[first] + ROW}" fill="{color}"/>')
    for one, other in joins_of(rows):
        ends = sorted((one, other), key=lambda at: lefts[rows[at].thread])
        left, right = (rows[at] for at in ends)
        begin = lefts[left.thread] + 8 + len(left.text()) * LETTER
        out.append(f'<line x1="{begin:.0f}" y1="{top[ends[0]] + ROW / 2}" x2="{lefts[right.thread]:.0f}" '
                   f'y2="{top[ends[1]] + ROW / 2}" stroke="#5577bb" stroke-width="1"/>')
    for thread in threads:
        out.append(f'<text x="{lefts[thread] + 4:.0f}" y="{ROW}" font-weight="bold">thread {thread}</text>')
    for at, row in enumerate(rows):
        base = top[at] + ROW - 5
        out.append(f'<text x="4" y="{base}" fill="#888888">{row.numbers()}</text>')
        weight = "" if row.events[0].is_plain() else ' font-weight="bold"'
        out.append(f'<text x="{lefts[row.thread] + 4:.0f}" y="{base}"{weight}>{escape(row.text())}</text>')
    return "\n".join(out) + "\n</svg>\n"


def main():
    events = list(read(sys.stdin))
    if not events:
        print("picture.py: no event of a run came", file=sys.stderr)
        return 1
    sys.stdout.write(picture(events))
    return 0


if __name__ == "__main__":
    sys.exit(main())
