#!/usr/bin/env python3
"""Random changes of frames against a plain model: random_sessions.py PROGRAM [SEED [SESSIONS]]

A session appends, deletes and replaces random rows of two frames, also with numbers that are refused, and asks for
frames and views. The model keeps each frame as a dictionary from number to row and recomputes each view from it, as
model.py does. Every second session has frames of several thousand rows, which stand in several blocks, and no views.
Before these, frames of SIZES rows are asked for all of them. Prints what differs, and ends with a count.
"""

import random
import subprocess
import sys
import tempfile

import model

# No row, one, a block, one more, and two blocks and one more; a leaf of eight blocks, one more, and two leaves and one more.
SIZES = [0, 1, 128, 129, 257, 1024, 1025, 2049]
COLUMNS = [("k", "Text"), ("v", "Int"), ("o", "Bool")]
DOCUMENT = """
[[frame]]
name = "left"
columns = [["k", "Text"], ["v", "Int"], ["o", "Bool"]]
text = "k,v,o\\n"
[[frame]]
name = "right"
columns = [["k", "Text"], ["w", "Int"]]
text = "k,w\\n"
"""
VIEWS = [
    ("large", "left", [["filter", [">", ["col", "v"], 3]]]),
    ("keys", "left", [["group_by", ["k", "o"], ["n", "len"], ["total", "sum", "v"]]]),
    ("both", "left", [["join", "left", ["k"], "right"]]),
    ("windows", "left", [["rolling_sum", "s", "v", 3, 2], ["rolling_max", "m", "v", 2, 1]]),
    ("sums", "left", [["filter", [">", ["col", "v"], -5]], ["cum_sum", "s", "v"]]),
    ("ranks", "left", [["rank", "d", "dense", "k"], ["rank", "m", "min", "v"]]),
    ("totals", "left", [["join", "left", ["k"], "right", "nulls_equal"], ["group_by", ["w"], ["n", "len"]], ["rank", "r", "dense", "n"]]),
]


def toml(value):
    if isinstance(value, list):
        return "[" + ", ".join(map(toml, value)) + "]"
    return {True: "true", False: "false"}[value] if isinstance(value, bool) else repr(value) if isinstance(value, int) else f'"{value}"'


def field(cell):
    return {None: "", True: "true", False: "false"}[cell] if cell is None or isinstance(cell, bool) else str(cell)


class Frame:
    """Rows by number, and the numbers that were accepted."""

    def __init__(self, name, columns):
        self.name, self.columns, self.rows, self.accepted = name, columns, {}, set()

    def row(self, source):
        cells = []
        for _, kind in self.columns:
            cell = {"Text": source.choice("abcdefg"), "Int": source.randrange(-9, 10), "Bool": source.random() < 0.5}[kind]
            cells.append(None if source.random() < 0.2 else cell)
        return cells

    def table(self):
        rows = [self.rows[number] for number in sorted(self.rows)]
        return {name: (kind, [row[n] for row in rows]) for n, (name, kind) in enumerate(self.columns)}

    def csv(self, rows):
        return "".join(",".join(map(field, row)) + "\n" for row in rows)

    def first(self, source):
        """The number of the first row of an append."""
        return source.choice([max(self.accepted, default=-1) + 1, source.randrange(max(self.accepted, default=0) + 5)])

    def append(self, source, most):
        first = self.first(source)
        rows = [self.row(source) for _ in range(source.randrange(most))]
        command = f"append {self.name} {first} {len(rows)}\n" + self.csv(rows)
        taken = [n for n in range(first, first + len(rows)) if n in self.accepted]
        if taken:
            return command, f"C2 {taken[0]}: {self.name} accepted number {taken[0]} before\n"
        self.rows |= {first + n: row for n, row in enumerate(rows)}
        self.accepted |= set(range(first, first + len(rows)))
        return command, "ok\n"

    def some(self, source):
        """Numbers of rows, now and then with one that stands twice or has no row."""
        numbers = source.sample(sorted(self.rows), min(len(self.rows), source.randrange(9)))
        if source.random() < 0.1:
            numbers.append(source.choice([*numbers, 999999]))
        return numbers

    def refusal(self, numbers):
        for at, number in enumerate(numbers):
            if number in numbers[:at]:
                return f"C4 {number}: number {number} appears twice\n"
        for number in numbers:
            if number not in self.rows:
                return f"C5 {number}: {self.name} has no row {number}\n"
        return None

    def delete(self, source):
        numbers = self.some(source)
        refused = self.refusal(numbers)
        if not refused:
            for number in numbers:
                del self.rows[number]
        return " ".join(["delete", self.name, *map(str, numbers)]) + "\n", refused or "ok\n"

    def replace(self, source):
        numbers = self.some(source)
        rows = [self.row(source) for _ in numbers]
        refused = self.refusal(numbers)
        if not refused:
            self.rows |= dict(zip(numbers, rows))
        return " ".join(["replace", self.name, *map(str, numbers)]) + "\n" + self.csv(rows), refused or "ok\n"

    def show(self):
        numbers = "".join(f" {number}" for number in sorted(self.rows))
        return f"rows {self.name}\n", model.printed(self.name, self.table()) + f"numbers{numbers}\n"


def shown(view, frames):
    name, start, steps = view
    table = model.viewed(start, steps, {frame.name: frame.table() for frame in frames})
    return f"show {name}\n", model.printed(name, table)


def session(source, views, changes, most):
    """What is typed, and what is answered, command by command."""
    frames = [Frame("left", COLUMNS), Frame("right", [("k", "Text"), ("w", "Int")])]
    turns = []
    for _ in range(changes):
        frame = source.choice([frames[0], frames[0], frames[1]])
        change = source.choice([lambda: frame.append(source, most), lambda: frame.delete(source), lambda: frame.replace(source)])
        turns.append(change())
        if source.random() < 0.3:
            turns.append(source.choice([frame.show, *(lambda view=view: shown(view, frames) for view in views)])())
    turns += [frame.show() for frame in frames] + [shown(view, frames) for view in views]
    return turns


def sized(size):
    """A session of one chunk of so many rows: the texts a, b, a in turn, and every third cell null."""
    frame = Frame("left", COLUMNS)
    frame.rows = {n: ["aba"[n % 3], None if n % 3 == 2 else n, None if n % 3 == 1 else n % 2 == 0] for n in range(size)}
    turns = [(f"append left 0 {size}\n" + frame.csv(frame.rows.values()), "ok\n"), frame.show()]
    if size:
        last = size - 1
        turns += [(f"append left {last} 1\na,1,true\n", f"C2 {last}: left accepted number {last} before\n"), frame.show()]
    return turns


def document(views):
    parts = [f'[[view]]\nname = "{name}"\nfrom = "{start}"\nsteps = {toml(steps)}\n' for name, start, steps in views]
    return DOCUMENT + "".join(parts)


def run(words, text, turns):
    """Whether the shell, started by these words, answers as the model does, over the document of this text."""
    with tempfile.NamedTemporaryFile("w", suffix=".toml") as file:
        file.write(text)
        file.flush()
        typed = "".join(command for command, _ in turns)
        ended = subprocess.run([*words, file.name], input=typed, capture_output=True, text=True, check=False, timeout=120)
    want = "".join(answer for _, answer in turns)
    if ended.returncode == 0 and not ended.stderr and ended.stdout == want:
        return True
    got, wanted = ended.stdout.splitlines(), want.splitlines()
    at = next((n for n, (a, b) in enumerate(zip(got, wanted)) if a != b), min(len(got), len(wanted)))
    print(f"status {ended.returncode}, {ended.stderr!r}; line {at + 1}: {got[at : at + 1]}, not {wanted[at : at + 1]}")
    return False


def main():
    program = sys.argv[1]
    seed = int(sys.argv[2]) if len(sys.argv) > 2 else 20261123
    sessions = int(sys.argv[3]) if len(sys.argv) > 3 else 100
    wrong = 0
    for size in SIZES:
        if not run([program], document([]), sized(size)):
            print(f"a frame of {size} rows differs")
            wrong += 1
    for n in range(sessions):
        source = random.Random(seed + n)
        views, changes, most = (VIEWS, 60, 12) if n % 2 == 0 else ([], 40, 700)
        if not run([program], document(views), session(source, views, changes, most)):
            print(f"session of seed {seed + n} differs")
            wrong += 1
    print(f"{len(SIZES)} sizes, {sessions} sessions, {wrong} differ")
    return 1 if wrong else 0


if __name__ == "__main__":
    sys.exit(main())
