#!/usr/bin/env python3
"""Runs a program, and damages what it answers: damaged.py KIND PROGRAM WORDS..

KIND says what is done to the output, once, at the first place where it can be done:

    cell       the last cell of the first row of a table has another last character
    row        the first row of a table is left out
    order      the first two rows of a table, where they differ, change places
    title      a table tells of one row more
    field      a line with a comma has another last character
    same       `same` becomes `differs v`
    ok         `ok` becomes `C3`
    fault      a fault on standard error has another number
    status     the exit status is another one
    signal     the program ends by a signal
    complaint  something stands on standard error
    nothing    nothing is done

A test over such a program has to fail: self_test.py sees to it.
"""

import os
import re
import signal
import subprocess
import sys

TITLE = re.compile(rb"(.*) \((\d+) x (\d+)\)\n")


def other(line):
    """The line with another last character, blanks behind it left as they are."""
    text = line.rstrip()
    return text[:-1] + (b"8" if text[-1:] == b"7" else b"7") + line[len(text) :]


class Damage:
    def __init__(self, kind):
        self.kind, self.done = kind, False
        # How many lines stand between a table's title and its next row, or none where no table is read; its first row.
        self.behind, self.rows, self.kept = None, 0, None

    def lines(self, line):
        """What is written in the place of a line."""
        title = TITLE.fullmatch(line)
        if self.done:
            return [line]
        if self.kind == "title" and title:
            self.done = True
            return [b"%s (%d x %s)\n" % (title[1], int(title[2]) + 1, title[3])]
        if self.kind == "field" and b"," in line:
            self.done = True
            return [other(line)]
        if self.kind in ("same", "ok") and line == self.kind.encode() + b"\n":
            self.done = True
            return [b"differs v\n" if self.kind == "same" else b"C3\n"]
        if title:
            self.behind, self.rows = 0, int(title[2])
            return [line]
        return self.row(line)

    def row(self, line):
        if self.behind is None:
            return [line]
        self.behind += 1
        if self.behind == 2 and self.rows >= 1 and self.kind in ("cell", "row"):
            self.done = True
            return [other(line)] if self.kind == "cell" else []
        if self.behind == 2 and self.rows >= 2 and self.kind == "order":
            self.kept = line
            return []
        if self.behind == 3 and self.kept is not None:
            kept, self.kept = self.kept, None
            self.done = kept != line
            return [line, kept]
        return [line]


def main(kind, *words):
    damage = Damage(kind)
    # The program has the signals that this one ignores: a test may ignore one.
    faults = subprocess.PIPE if kind == "fault" else None
    program = subprocess.Popen(words, stdout=subprocess.PIPE, stderr=faults, restore_signals=False)
    for line in program.stdout:
        sys.stdout.buffer.write(b"".join(damage.lines(line)))
        sys.stdout.buffer.flush()
    if kind == "fault":
        sys.stderr.buffer.write(re.sub(rb"([VFPLSH])(\d)", lambda m: m[1] + (b"%d" % ((int(m[2]) + 1) % 10)), program.stderr.read()))
    status = program.wait()
    if kind == "complaint":
        sys.stderr.write("something\n")
    if kind == "signal":
        os.kill(os.getpid(), signal.SIGSEGV)
    return (status + 1) % 3 if kind == "status" else status


if __name__ == "__main__":
    sys.exit(main(*sys.argv[1:]))
