#!/usr/bin/env python3
"""Random views over random changes, each change followed by `check`: live.py PROGRAM [SEED [SESSIONS]]

PROGRAM is dfshell. A session has a random document: four frames, one of them wide, and views of random steps of every
kind, with joins of up to three scans, also of a frame with itself. It appends, deletes and replaces rows of the frames,
registers views and drops them. Behind each change `check` has to answer that each view has the rows which its plan gives.
Now and then a view is shown: the answer is model.py's. Prints what differs, and ends with a count.
"""

import random
import sys

import model
import random_sessions
from random_sessions import Frame, toml

FRAMES = [
    ("sales", [("k", "Text"), ("v", "Int"), ("o", "Bool")]),
    ("cities", [("k", "Text"), ("w", "Int")]),
    ("prices", [("v", "Int"), ("p", "Int")]),
    ("orders", [("k", "Text"), ("v", "Int"), ("o", "Bool"), ("a", "Int"), ("b", "Text"), ("c", "Int"), ("d", "Bool")]),
]
BASE = ("Int", "Text", "Bool")
KEYS = (*BASE, "Wide")


def exists(view):
    return f'C6: view "{view}" is registered; drop takes it out\n'


def no_view(view):
    return f'C8: no view "{view}"; views lists them\n'


class Views:
    """Random steps, each over a table of these columns: pairs of a name and a type."""

    def __init__(self, source):
        self.source, self.names = source, 0

    def fresh(self):
        self.names += 1
        return f"c{self.names}"

    def of(self, columns, *kinds):
        return [name for name, kind in columns if kind in kinds]

    def literal(self, kind):
        return {"Int": self.source.randrange(-9, 10), "Text": self.source.choice("abcdefg"), "Bool": self.source.random() < 0.5}[kind]

    def value(self, columns, kind, depth=2):
        """An expression of this type that names a column, if there is one of a type that allows it."""
        named = self.of(columns, kind)
        if depth == 0 or self.source.random() < 0.3:
            return ["col", self.source.choice(named)] if named else [["null", kind], self.literal(kind)][self.source.random() < 0.9]
        if kind == "Int" and self.source.random() < 0.7:
            return [self.source.choice("+-*"), self.value(columns, kind, depth - 1), self.value(columns, kind, depth - 1)]
        if kind == "Bool" and self.source.random() < 0.8:
            return self.truth(columns, depth)
        return ["fill_null", self.value(columns, kind, depth - 1), self.value(columns, kind, depth - 1)]

    def truth(self, columns, depth):
        kind = self.source.choice(BASE)
        pair = [self.value(columns, kind, depth - 1), self.value(columns, kind, depth - 1)]
        both = [self.value(columns, "Bool", depth - 1), self.value(columns, "Bool", depth - 1)]
        return self.source.choice(
            [
                [self.source.choice(["==", "!=", "<", "<=", ">", ">=", "eq_missing"]), *pair],
                [self.source.choice(["&", "|"]), *both],
                ["~", both[0]],
                [self.source.choice(["is_null", "is_not_null"]), ["col", self.source.choice(columns)[0]]],
            ]
        )

    def filter(self, columns):
        named = self.of(columns, "Int")
        if named and self.source.random() < 0.5:
            return ["filter", [">", ["col", self.source.choice(named)], self.source.randrange(-9, 9)]], columns
        return ["filter", self.truth(columns, 2)], columns

    def select(self, columns):
        chosen = self.source.sample(columns, self.source.randrange(1, len(columns) + 1))
        items = [(self.fresh() if self.source.random() < 0.3 else name, kind, ["col", name]) for name, kind in chosen]
        return ["select", *([name, value] for name, _, value in items)], [(name, kind) for name, kind, _ in items]

    def with_columns(self, columns):
        kind = self.source.choice(BASE)
        name = self.source.choice(columns)[0] if self.source.random() < 0.3 else self.fresh()
        return ["with_columns", [name, self.value(columns, kind)]], self.put(columns, name, kind)

    def put(self, columns, name, kind):
        if name in dict(columns):
            return [(other, kind if other == name else was) for other, was in columns]
        return [*columns, (name, kind)]

    def group_by(self, columns):
        allowed = self.of(columns, *KEYS)
        if not allowed:
            return None
        keys = self.source.sample(allowed, self.source.randrange(1, min(2, len(allowed)) + 1))
        aggregates, result = [], [(name, kind) for name, kind in columns if name in keys]
        result.sort(key=lambda column: keys.index(column[0]))
        for _ in range(self.source.randrange(1, 5)):
            aggregate, kind = self.aggregate(columns)
            name = self.fresh()
            aggregates.append([name, *aggregate])
            result.append((name, kind))
        return ["group_by", keys, *aggregates], result

    def aggregate(self, columns):
        name, kind = self.source.choice(columns)
        words = [(["len"], "Int"), (["count", name], "Int"), (["first", name], kind), (["last", name], kind)]
        if kind != "Frac":
            words += [(["min", name], kind), (["max", name], kind), (["n_unique", name], "Int")]
        if kind in ("Int", "Bool"):
            words.append((["sum", name], "Wide"))
        if kind == "Int":
            words.append((["mean", name], "Frac"))
        return self.source.choice(words)

    def rolling(self, columns):
        named = self.of(columns, "Int")
        if not named:
            return None
        word = self.source.choice(["rolling_sum", "rolling_min", "rolling_max"])
        window, name = self.source.choice([self.source.randrange(1, 6), 50, 1000]), self.fresh()
        least = [self.source.randrange(1, window + 1)] if self.source.random() < 0.7 else []
        step = [word, name, self.source.choice(named), window, *least]
        return step, self.put(columns, name, "Wide" if word == "rolling_sum" else "Int")

    def cum_sum(self, columns):
        named = self.of(columns, "Int")
        name = self.fresh()
        return (["cum_sum", name, self.source.choice(named)], self.put(columns, name, "Wide")) if named else None

    def rank(self, columns):
        named = self.of(columns, *KEYS)
        name = self.fresh()
        return (["rank", name, self.source.choice(["dense", "min"]), self.source.choice(named)], self.put(columns, name, "Int")) if named else None

    def join(self, columns, scans):
        """A join with a frame, with or without steps of its own; scans is how many scans may still come."""
        right, right_columns = self.source.choice(FRAMES)
        steps = []
        if self.source.random() < 0.4:
            steps, right_columns, used = self.steps(right_columns, self.source.randrange(1, 3), scans - 1)
            scans -= used
            right = (right, steps)
        kinds = dict(columns)
        keys = [name for name, kind in right_columns if kinds.get(name) == kind and kind in KEYS]
        if not keys:
            return None
        keys = self.source.sample(keys, self.source.randrange(1, len(keys) + 1))
        result = list(columns)
        for name, kind in right_columns:
            if name not in keys:
                name = f"{name}_right" if name in kinds else name
                if name in dict(result):
                    return None
                result.append((name, kind))
        equal = ["nulls_equal"] if self.source.random() < 0.4 else []
        return ["join", self.source.choice(["inner", "left"]), keys, right, *equal], result, scans - 1

    def steps(self, columns, most, scans):
        """Steps over these columns, the columns behind them, and how many scans their joins have."""
        steps, left = [], scans
        for _ in range(most):
            kind = self.source.choice(["filter", "select", "with_columns", "group_by", "rolling", "cum_sum", "rank", "join", "join"])
            if kind == "join":
                made = self.join(columns, left) if left else None
                if made:
                    left = made[2]
            else:
                made = getattr(self, kind)(columns)
            if made and len(made[1]) <= 32:
                steps.append(made[0])
                columns = made[1]
        return steps, columns, scans - left


def written(value):
    """A step in TOML: the right side of a join may have steps of its own."""
    if isinstance(value, tuple):
        return f'{{ from = "{value[0]}", steps = {written(value[1])} }}'
    if isinstance(value, list):
        return "[" + ", ".join(map(written, value)) + "]"
    return toml(value)


def document(views):
    parts = [f'[[frame]]\nname = "{name}"\ncolumns = {toml([list(c) for c in columns])}\ntext = "{",".join(n for n, _ in columns)}\\n"\n' for name, columns in FRAMES]
    parts += [f'[[view]]\nname = "{name}"\nfrom = "{start}"\nsteps = {written(steps)}\n' for name, start, steps in views]
    return "".join(parts)


def shown(view, frames):
    """What the model prints of a view."""
    name, start, steps = view
    return model.printed(name, model.viewed(start, steps, {frame.name: frame.table() for frame in frames}))


def session(source, views, changes, most=9, kind=Frame):
    """What is typed, and what is answered, command by command, over frames of a kind. A chunk has fewer than `most` rows.
    At the end all frames and views are shown."""
    frames = [kind(name, columns) for name, columns in FRAMES]
    registered = {view[0] for view in views}
    turns = []
    for _ in range(changes):
        frame = source.choice(frames)
        change = source.choice([lambda: frame.append(source, most), lambda: frame.append(source, most), lambda: frame.delete(source), lambda: frame.replace(source)])
        if source.random() < 0.15:
            view = source.choice(views)[0]
            there = view in registered
            word = source.choice(["register", "drop"])
            wrong = {"register": there and exists(view), "drop": not there and no_view(view)}[word]
            change = lambda: (f"{word} {view}\n", wrong or "ok\n")
            if not wrong:
                registered ^= {view}
        turns += [change(), ("check\n", "same\n")]
        view = source.choice(views)
        if source.random() < 0.4:
            turns.append((f"show {view[0]}\n", shown(view, frames) if view[0] in registered else no_view(view[0])))
    turns += [frame.show() for frame in frames]
    return turns + [(f"show {view[0]}\n", shown(view, frames)) for view in views if view[0] in registered]


def views_of(source):
    views = []
    for n in range(source.randrange(2, 7)):
        start, columns = source.choice(FRAMES)
        steps, _, _ = Views(source).steps(columns, source.randrange(1, 6), 2)
        views.append((f"view{n}", start, steps))
    return views


def main():
    program = sys.argv[1]
    seed = int(sys.argv[2]) if len(sys.argv) > 2 else 20261124
    sessions = int(sys.argv[3]) if len(sys.argv) > 3 else 300
    wrong = shows = 0
    for n in range(sessions):
        source = random.Random(seed + n)
        views = views_of(source)
        turns = session(source, views, 25)
        shows += sum(command.startswith("show") for command, _ in turns)
        if not random_sessions.run([program], document(views), turns):
            print(f"session of seed {seed + n} differs")
            wrong += 1
    print(f"{sessions} sessions, {shows} tables shown, {wrong} differ")
    return 1 if wrong or not shows else 0


if __name__ == "__main__":
    sys.exit(main())
