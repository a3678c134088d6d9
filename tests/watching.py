#!/usr/bin/env python3
"""A client that watches views: watching.py PROGRAM [SEED [SESSIONS [WORD..]]]

PROGRAM is dfshell, and WORD.. are words of its command line, as --hall and --framed; without them the sessions run with neither,
with each and with both in turn. A session has the frames and the random views of live.py, and texts with quotes, commas and line
ends. It appends, deletes, replaces and loads rows, is refused, registers and drops views, and begins and ends to watch them.

The client knows CSV, and nothing of views: it reads a view once, where its watch begins, and from then on takes out and puts in what
it is told. Behind each change every watched view is shown, and the client has to have that table. Each row that goes has to be the
one at its place, places have to rise, each change has to have the next number, and `changes` has to answer what was told last. Prints
what differs, and ends with a count; sessions in which no row was told, or only whole tables, are wrong themselves.
"""

import csv
import io
import os
import random
import re
import subprocess
import sys
import tempfile

import live
import random_sessions

TEXTS = ["a", "b", "c", 'q"r', "s,t", " u ", "+,1", "change view0 3 1", "é", "ok"]
LONG = ["two\nlines", 'a "quoted"\nline', "\n"]
# A wrong command behind each table: without frames its answer is the end of the table.
END = '? no command "end": help lists them\n'
NO_CHANGE = "? the last change was none of rows, or came before the watch\n"


def not_watched(view):
    return f'? the view "{view}" is not watched: watch begins it\n'


class Frame(random_sessions.Frame):
    """A frame whose texts need quotes."""

    def row(self, source, texts=TEXTS):
        kinds = (kind for _, kind in self.columns)
        return [source.choice(texts) if kind == "Text" and cell is not None else cell for kind, cell in zip(kinds, super().row(source))]

    def csv(self, rows):
        text = io.StringIO()
        csv.writer(text, lineterminator="\n").writerows([random_sessions.field(cell) for cell in row] for row in rows)
        return text.getvalue()

    def load(self, source, path, sizes):
        """A file of so many rows as one of these sizes, of which one may have a bad cell; its command, and how many chunks enter."""
        rows = [self.row(source, TEXTS + LONG) for _ in range(source.choice(sizes))]
        lines = [self.csv([row]) for row in rows]
        bad = source.randrange(len(rows)) if rows and source.random() < 0.3 else None
        chunks, behind = 0, max(self.accepted, default=-1) + 1
        for first in range(0, len(rows), 1000):
            chunk = rows[first : first + 1000]
            if bad is not None and first <= bad < first + 1000:
                place = [kind for _, kind in self.columns].index("Int")
                fields = [random_sessions.field(cell) for cell in rows[bad]]
                fields[place] = "many"
                text = io.StringIO()
                csv.writer(text, lineterminator="\n").writerow(fields)
                lines[bad] = text.getvalue()
                continue
            self.rows |= {behind + n: row for n, row in enumerate(chunk)}
            self.accepted |= set(range(behind, behind + len(chunk)))
            behind += len(chunk)
            chunks += 1
        with open(path, "w", newline="") as file:
            file.write(",".join(name for name, _ in self.columns) + "\n" + "".join(lines))
        return f"load {self.name} {os.path.basename(path)}\n", chunks


class Session:
    """What is typed: each command with what the client does with its answer."""

    def __init__(self, source, folder):
        self.source, self.folder = source, folder
        self.views = live.views_of(source)
        self.frames = [Frame(name, columns) for name, columns in live.FRAMES]
        self.registered = [view[0] for view in self.views]
        self.watched, self.files, self.turns = [], 0, []
        # A join of many rows with few keys is large.
        joins = any(step[0] == "join" for _, _, steps in self.views for step in steps)
        self.sizes = [0, 1, 7, 40] if joins else [0, 7, 1000, 1001, 2300]
        # Behind a change of rows its number of changes: then `changes` has an answer.
        self.last_of_rows = False

    def type(self, command, *what):
        self.turns.append((command, what))

    def made(self, chunks=1):
        """Changes of rows were made, so many: each is told of each watched view, and then the views are shown."""
        for _ in range(chunks):
            self.turns += [("", ("told", view)) for view in self.watched]
        self.turns += [("", ("counted", 0 if self.watched else chunks))]
        self.last_of_rows = self.last_of_rows or (chunks > 0 and bool(self.watched))
        for view in self.watched:
            self.type(f"show {view} csv\n", "shown", view)

    def frame(self):
        """A frame, more often one that a watched view begins with."""
        starts = [start for view, start, _ in self.views if view in self.watched]
        if starts and self.source.random() < 0.7:
            name = self.source.choice(starts)
            return next(frame for frame in self.frames if frame.name == name)
        return self.source.choice(self.frames)

    def change(self):
        frame = self.frame()
        change = self.source.choice([lambda: frame.append(self.source, 9), lambda: frame.append(self.source, 9), lambda: frame.delete(self.source), lambda: frame.replace(self.source)])
        command, answer = change()
        self.type(command, "said", answer)
        if answer == "ok\n":
            self.made()

    def load(self):
        self.files += 1
        path = os.path.join(self.folder, f"rows{self.files}.csv")
        command, chunks = self.frame().load(self.source, path, self.sizes)
        self.type(command, "loaded")
        self.made(chunks)

    def watch(self):
        view = self.source.choice(self.views)[0]
        there = view in self.registered
        self.type(f"watch {view}\n", "said", "ok\n" if there else live.no_view(view))
        if there and view not in self.watched:
            if not self.watched:
                self.last_of_rows = False
            self.watched.append(view)
            self.type(f"show {view} csv\n", "begun", view)

    def unwatch(self):
        view = self.source.choice(self.views)[0]
        self.type(f"unwatch {view}\n", "said", "ok\n")
        if view in self.watched:
            self.watched.remove(view)

    def views_changed(self):
        view = self.source.choice(self.views)[0]
        there = view in self.registered
        word = self.source.choice(["register", "drop"])
        wrong = {"register": there and live.exists(view), "drop": not there and live.no_view(view)}[word]
        self.type(f"{word} {view}\n", "said", wrong or "ok\n")
        if wrong:
            return
        self.turns.append(("", ("counted", 1)))
        self.last_of_rows = False
        if word == "drop":
            self.registered.remove(view)
            self.watched = [other for other in self.watched if other != view]
        else:
            self.registered.append(view)

    def ask(self):
        view = self.source.choice(self.views)[0]
        if view not in self.watched:
            self.type(f"changes {view}\n", "said", not_watched(view) if view in self.registered else live.no_view(view))
        elif not self.last_of_rows:
            self.type(f"changes {view}\n", "said", NO_CHANGE)
        else:
            self.type(f"changes {view}\n", "asked", view)

    def written(self, changes):
        for _ in range(self.source.randrange(1, 3)):
            self.watch()
        for _ in range(changes):
            step = self.source.choices([self.change, self.load, self.watch, self.unwatch, self.views_changed, self.ask], [20, 1, 3, 1, 2, 4])[0]
            step()
        return self.turns


class Answers:
    """The lines that the shell wrote."""

    def __init__(self, text, framed):
        self.text, self.framed, self.at = text, framed, 0

    def line(self):
        end = self.text.index("\n", self.at) + 1
        line, self.at = self.text[self.at : end], end
        return line

    def lines(self, count):
        return "".join(self.line() for _ in range(count))

    def frame(self):
        head = re.fullmatch(r"(?:(?:ready|ok) (\d+)|error (\d+) .+)\n", self.line())
        return self.lines(int(head[1] or head[2]))

    def short(self):
        """An answer of one line."""
        return self.frame() if self.framed else self.line()

    def table(self):
        if self.framed:
            text = self.frame()
            return text if self.frame() == END else None
        end = self.text.index(END, self.at)
        text, self.at = self.text[self.at : end], end + len(END)
        return text

    def load(self):
        if self.framed:
            return self.frame()
        while self.line().startswith("refused "):
            pass
        return None

    def change(self):
        """A change that is told: its view, its number and its lines."""
        view, number, count = re.fullmatch(r"change (.*) (\d+) (\d+)\n", self.line()).groups()
        return view, int(number), self.lines(int(count))

    def asked(self):
        if self.framed:
            self.line()
        return self.change()


def records(text):
    return list(csv.reader(io.StringIO(text, newline=""), strict=True))


class Client:
    """The tables that are watched, by what is told of them."""

    def __init__(self, changes):
        self.tables, self.names, self.last, self.changes = {}, {}, {}, changes
        # Changes that were told, the rows in them, and changes of some rows of a table that has others.
        self.told = self.rows = self.partial = 0

    def take(self, view, wanted, number, text):
        if view != wanted:
            raise ValueError(f"{view} is told, not {wanted}")
        lines = records(text)
        goes = [(int(line[1]), line[2:]) for line in lines if line[0] == "-"]
        comes = [(int(line[1]), line[2:]) for line in lines if line[0] == "+"]
        if [line[0] for line in lines] != ["-"] * len(goes) + ["+"] * len(comes):
            raise ValueError("rows come before others go")
        for places in ([place for place, _ in goes], [place for place, _ in comes]):
            if places != sorted(set(places)):
                raise ValueError(f"places do not rise: {places}")
        table = self.tables[view]
        self.partial += 0 < len(goes) < len(table)
        for place, row in reversed(goes):
            if table[place] != row:
                raise ValueError(f"row {place} of {view} is {table[place]}, not {row}")
            del table[place]
        for place, row in comes:
            if place > len(table):
                raise ValueError(f"{view} has no place {place}")
            table.insert(place, row)
        self.last[view] = (view, number, text)
        self.told += 1
        self.rows += len(lines)

    def do(self, answers, what, wanted):
        """What the client does with an answer."""
        if what == "said":
            said = answers.short()
            if said != wanted:
                raise ValueError(f"said {said!r}, not {wanted!r}")
        elif what == "loaded":
            answers.load()
        elif what == "begun":
            self.names[wanted], *self.tables[wanted] = records(answers.table())
        elif what == "shown":
            names, *shown = records(answers.table())
            if (names, shown) != (self.names[wanted], self.tables[wanted]):
                raise ValueError(f"{wanted} is {names} {shown}, not {self.names[wanted]} {self.tables[wanted]}")
        elif what == "told":
            self.tell(*answers.change(), wanted)
        elif what == "asked":
            answer = answers.asked()
            if wanted in self.last and answer[1] == self.last[wanted][1] and answer != self.last[wanted]:
                raise ValueError(f"{answer} was told otherwise: {self.last[wanted]}")
            if answer[:2] != (wanted, self.changes):
                raise ValueError(f"{answer[:2]} is asked of change {self.changes} of {wanted}")
        elif what == "counted":
            self.changes += wanted

    def tell(self, view, number, text, wanted):
        # The first view of each change has the next number, and the others have the same.
        if number != self.changes:
            self.changes += 1
        if number != self.changes:
            raise ValueError(f"change {number} is told as the one behind {self.changes - 1}")
        if self.last.get(view, ("", 0, ""))[1] >= number:
            raise ValueError(f"change {number} of {view} is told twice")
        self.take(view, wanted, number, text)


def fault_of(program, words, source):
    """What differs in a session, or None; and its client."""
    with tempfile.TemporaryDirectory() as folder:
        session = Session(source, folder)
        turns = session.written(25)
        with open(os.path.join(folder, "d.toml"), "w") as file:
            file.write(live.document(session.views))
        typed = "".join(command + ("end\n" if what[0] in ("shown", "begun") else "") for command, what in turns)
        run = subprocess.run([program, *words, "d.toml"], input=typed.encode(), capture_output=True, cwd=folder, timeout=120, check=False)
        answers = Answers(run.stdout.decode(), "--framed" in words)
        # The document's frames are empty: each view was one change.
        client = Client(len(session.views))
        try:
            if answers.framed:
                answers.frame()
            for command, what in turns:
                at = command
                client.do(answers, *what, *[None] * (2 - len(what)))
            if answers.at != len(answers.text):
                return f"more is said than is asked: {answers.text[answers.at:][:200]!r}", client
        except (ValueError, TypeError, IndexError) as error:
            return f"at {at[:60]!r}: {error}; behind {answers.text[max(0, answers.at - 300) : answers.at]!r}", client
        if (run.returncode, run.stderr) != (0, b""):
            return f"ended with {run.returncode}, {run.stderr}", client
        return None, client


def main():
    program = os.path.abspath(sys.argv[1])
    seed = int(sys.argv[2]) if len(sys.argv) > 2 else 20261129
    sessions = int(sys.argv[3]) if len(sys.argv) > 3 else 52
    ways = [sys.argv[4:]] if len(sys.argv) > 4 else [[], ["--hall"], ["--framed"], ["--hall", "--framed"]]
    wrong = told = rows = partial = 0
    for n in range(sessions):
        fault, client = fault_of(program, ways[n % len(ways)], random.Random(seed + n))
        told, rows, partial = told + client.told, rows + client.rows, partial + client.partial
        if fault:
            wrong += 1
            if wrong <= 5:
                print(f"session of seed {seed + n}, {' '.join(ways[n % len(ways)]) or 'no words'}: {fault}")
    print(f"{sessions} sessions, {told} changes told with {rows} rows, {partial} of some rows among others, {wrong} differ")
    return 1 if wrong or not rows or not partial else 0


if __name__ == "__main__":
    sys.exit(main())
