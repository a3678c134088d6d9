#!/usr/bin/env python3
"""Random documents, sessions and damaged bytes for a while: siege.py DFVIEWS DFSHELL [SECONDS [SEED]]

A document has frames of up to some thousand rows in files, with quotes, marks, blank lines and line ends of each kind, now
and then with bad cells, and views of every step; its output, by a random number of workers and size of chunks, has to be
model.py's. A session changes such frames in dfshell, also through a hall, and its tables have to be the model's. Damaged
bytes of documents, files and commands have to lead to an answer or to a named fault: to no signal, within ten seconds and
within two gigabytes of address space. Prints the seed of each round that went otherwise, and ends with a count.
"""

import os
import random
import re
import resource
import subprocess
import sys
import tempfile
import time

import live
import model
import random_sessions

ROWS = [0, 1, 2, 30, 127, 128, 129, 300, 1024, 1025, 2500]
MOST_ROWS = 8_000
MOST_CHUNKS = 500
# The most rows of a block.
BLOCK = 128
TEXTS = ["a", "b", "c", "north", "south", "null", "true", "7", " x", 'say "so"', "x,y", "two\nlines", "caf\u00e9", "\u65e5\u672c", "back\\slash", "tab\there"]
GIGABYTE = 2**30


# Documents.


def cell(source, kind):
    if source.random() < 0.15:
        return None
    if kind == "Text":
        return source.choice(TEXTS)
    if kind == "Bool":
        return source.random() < 0.5
    return source.choice([source.randrange(-9, 10), source.randrange(-9, 10), source.randrange(-1000, 1000), 2**63 - 1, -(2**63)])


def field(source, kind, value):
    """One of the ways to write a cell."""
    if value is None:
        return source.choice(["", '""'])
    if kind == "Bool":
        return source.choice([str.lower, str.upper, str.title])(str(value))
    if kind == "Int":
        return source.choice(["", "+", "00"] if value >= 0 else [""]) + str(value)
    if any(c in value for c in '",\n') or source.random() < 0.2:
        return '"' + value.replace('"', '""') + '"'
    return value


class File:
    """The CSV of a frame, and the fields of its records as they are read."""

    def __init__(self, source, columns):
        self.records = []
        extra = source.choice([[], [], ["extra"]])
        order = source.sample([name for name, _ in columns] + extra, len(columns) + len(extra))
        kinds, end = dict(columns), source.choice(["\n", "\n", "\r\n"])
        lines = [",".join(order)]
        bad = source.random() < 0.3
        for _ in range(source.choice(ROWS)):
            cells = {name: cell(source, kind) for name, kind in columns}
            fields = {name: field(source, kinds[name], value) for name, value in cells.items()}
            texts = {name: "" if value is None else str(value) for name, value in cells.items()}
            if bad and source.random() < 0.002:
                name = source.choice(columns)[0]
                if kinds[name] != "Text":
                    fields[name] = texts[name] = source.choice(["12x", "maybe", " 7", "9223372036854775808", "-"])
            self.records.append([texts[name] for name, _ in columns])
            lines.append(",".join(fields.get(name, "q") for name in order))
            lines += [""] * (source.random() < 0.01)
        # A line of one empty field would be blank: there the null is in quotes.
        lines = ['""' if not line and len(order) == 1 else line for line in lines]
        marks = b"\xef\xbb\xbf" * source.choice([0, 0, 1, 2])
        self.bytes = marks + end.join(lines).encode() + end.encode() * source.randrange(2)


def small_table(start, steps, frames):
    """The table of a view, or nothing where one on the way has many rows."""
    table = frames[start]
    for step in steps:
        if step[0] == "join" and isinstance(step[3], tuple):
            right = small_table(*step[3], frames)
            if right is None:
                return None
            step, frames = [*step[:3], "right", *step[4:]], frames | {"right": right}
        table = model.stepped(table, step, frames)
        if model.height(table) > MOST_ROWS:
            return None
    return table


def document(views):
    parts = [f'[[frame]]\nname = "{name}"\ncolumns = {random_sessions.toml([list(c) for c in columns])}\npath = "{name}.csv"\n' for name, columns in live.FRAMES]
    parts += [f'[[view]]\nname = "{name}"\nfrom = "{start}"\nsteps = {live.written(steps)}\n' for name, start, steps in views]
    return "".join(parts)


def written(folder, name, contents):
    with open(os.path.join(folder, name), "wb") as file:
        file.write(contents)


def limited():
    resource.setrlimit(resource.RLIMIT_AS, (2 * GIGABYTE, 2 * GIGABYTE))


def answered(words, folder, typed=b""):
    """Status, output and complaint of a run, or nothing where it takes too long."""
    try:
        run = subprocess.run(words, input=typed, capture_output=True, cwd=folder, check=False, timeout=10, preexec_fn=limited)
    except subprocess.TimeoutExpired:
        return None
    return run.returncode, run.stdout, run.stderr


def loads(source, folder, dfviews):
    """Whether a random document is answered as the model answers it."""
    files = {name: File(source, columns) for name, columns in live.FRAMES}
    rows = sum(len(file.records) for file in files.values())
    # Every view follows each chunk: thousands of them take half a minute.
    chunk = source.choice([size for size in [1, 7, 100, 1000, 1000, 65536] if rows <= MOST_CHUNKS * size])
    frames, refused = {}, []
    for name, columns in live.FRAMES:
        written(folder, f"{name}.csv", files[name].bytes)
        frames[name], lines = model.loaded({"name": name, "columns": columns}, files[name].records, chunk)
        refused += lines
    views = [(view, small_table(view[1], view[2], frames)) for view in live.views_of(source)]
    views = [(view, table) for view, table in views if table is not None]
    written(folder, "views.toml", document([view for view, _ in views]).encode())
    output = model.output([(view[0], table) for view, table in views], refused)
    want = (1 if refused else 0), output.encode(), b""
    workers = source.choice([1, 2, 3, 4, 16])
    return answered([dfviews, "views.toml", "--workers", str(workers), "--chunk", str(chunk)], folder) == want


# Sessions.


class LargeFrame(random_sessions.Frame):
    """A frame in several blocks, whose changes begin and end beside the ends of blocks and of what was accepted."""

    def first(self, source):
        """Of an append: behind all rows, with or without a gap, within one, or at a number that was accepted before."""
        end = max(self.accepted, default=-1) + 1
        free = [n for n in range(end) if n not in self.accepted]
        gone = sorted(self.accepted - self.rows.keys())
        return source.choice([end, end, end, end + source.randrange(1, 300), *free[:1], *free[-1:], *gone[:1], *gone[-1:], max(end - 1, 0)])

    def some(self, source):
        """Also a run of rows."""
        numbers = sorted(self.rows)
        if source.random() < 0.5 or not numbers:
            return super().some(source)
        begin = source.choice([0, source.randrange(0, len(numbers) + 1, BLOCK), source.randrange(len(numbers))])
        begin = max(begin + source.choice([-1, 0, 0, 1]), 0)
        return numbers[begin : begin + source.choice([1, 2, BLOCK - 1, BLOCK, BLOCK + 1, len(numbers)])]


def changes(source, dfshell):
    """Whether a random session over large frames is answered as the model answers it."""
    views = live.views_of(source)[:3]
    # Joins make so many rows that `check`, whose evaluator looks at each right row for each left one, takes minutes.
    rows = [1500, 300, 40][min(2, max(str(view).count("join") for view in views))]
    turns = live.session(source, views, 12, rows, LargeFrame)
    words = [dfshell] + ["--hall"] * source.randrange(2)
    return random_sessions.run(words, live.document(views), turns)


# Damage.


def damaged(source, contents, most=1000):
    """The bytes with some turned, cut, put in, or repeated at most so often."""
    contents = bytearray(contents)
    for _ in range(source.randrange(1, 4)):
        at = source.randrange(len(contents) + 1)
        end = min(len(contents), at + source.randrange(1, 40))
        kind = source.randrange(4)
        if kind == 0 and at < len(contents):
            contents[at] ^= 1 << source.randrange(8)
        elif kind == 1:
            del contents[at:end]
        elif kind == 2:
            contents[at:at] = contents[at:end] * source.choice([1, 2, most])
        else:
            contents[at:at] = source.choice([b'"', b"\n", b"[", b"]", b"\x00", b"\xff", b"''''", b"99999999999999999999"])
    return bytes(contents)


# By its code, or in words with the code in brackets.
FAULT = re.compile(rb"(dfviews|dfshell): (memory|.*[VFPLSH][0-9]+.*)\n|.* \[.*[VFP][0-9]+.*\]\n")


def is_named(answer):
    """Whether a run ended in an answer or in a named fault."""
    if answer is None:
        return False
    status, output, complaint = answer
    if status == 2:
        return not output and bool(FAULT.fullmatch(complaint))
    return status in (0, 1) and not complaint


def survives(source, folder, dfviews, dfshell):
    """Whether damaged bytes of a document, a file or commands lead to an answer or a named fault."""
    views = live.views_of(source)
    text = document(views).encode()
    # A join of a thousand like rows with themselves has a million, which take longer than a round may.
    most = 20 if b"join" in text else 1000
    for name, columns in live.FRAMES:
        contents = File(source, columns).bytes[:2000]
        written(folder, f"{name}.csv", damaged(source, contents, most) if source.random() < 0.4 else contents)
    written(folder, "views.toml", damaged(source, text) if source.random() < 0.6 else text)
    if source.random() < 0.5:
        return is_named(answered([dfviews, "views.toml", "--workers", "3"], folder))
    typed = "".join(command for command, _ in live.session(source, views, 8, 9)).encode()
    return is_named(answered([dfshell] + ["--hall"] * source.randrange(2) + ["views.toml"], folder, damaged(source, typed, most)))


def main():
    dfviews, dfshell = (os.path.realpath(path) for path in sys.argv[1:3])
    seconds = float(sys.argv[3]) if len(sys.argv) > 3 else 60
    seed = int(sys.argv[4]) if len(sys.argv) > 4 else 20261128
    counts, wrong, until = [0, 0, 0], 0, time.monotonic() + seconds
    while time.monotonic() < until:
        source = random.Random(seed)
        kind = source.choice([0, 0, 0, 1, 2, 2])
        with tempfile.TemporaryDirectory() as folder:
            well = [lambda: loads(source, folder, dfviews), lambda: changes(source, dfshell), lambda: survives(source, folder, dfviews, dfshell)][kind]()
        counts[kind] += 1
        if not well:
            print(f"the round of seed {seed} went otherwise ({['a document', 'a session', 'damaged bytes'][kind]})")
            wrong += 1
        seed += 1
    print(f"{counts[0]} documents, {counts[1]} sessions, {counts[2]} damaged; {wrong} otherwise")
    return 1 if wrong or not all(counts) else 0


if __name__ == "__main__":
    sys.exit(main())
