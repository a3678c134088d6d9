#!/usr/bin/env python3
"""Whether the tests can fail: self_test.py DFVIEWS DFSHELL

Each test runs over a program whose answers damaged.py damages in one place, and has to tell of it; over the program as it
is, it has to pass. Then a mistake is planted in model.py, one of each step and of some of its parts, and random documents
have to meet it. Prints what was not told of, and ends with a count.
"""

import concurrent.futures
import contextlib
import io
import os
import pathlib
import random
import re
import shlex
import subprocess
import sys
import tempfile

import model
import siege

# Small frames are enough here.
siege.ROWS[:] = [0, 1, 2, 30]
HERE = pathlib.Path(__file__).resolve().parent
ROOT = HERE.parent
SEED = 20261128
# Which test is run over which program, with which words behind it, and what is damaged. A test tells of it by status 1; the
# line that it prints has to match, so that it is the damage that it tells of. A transcript waits for a row that does not
# come, so none is left out there.
ENDS = ["status", "signal", "complaint"]
TESTS = [
    ("cases.py", "dfviews", ["tests/cases/joins.toml"], ["nothing", "cell", "row", "order", "title", *ENDS], r"differs: "),
    ("cases.py", "dfviews", ["tests/cases/faults_of_views.toml"], ["nothing", "fault", *ENDS], r"differs: "),
    ("sessions.py", "dfshell", ["tests/sessions/self_join.session"], ["nothing", "cell", "order", "title", "ok", *ENDS], r"session at "),
    ("sessions.py", "dfshell", ["--hall", "tests/sessions/self_join.session"], ["nothing", "cell", "ok"], r"session at "),
    ("random_sessions.py", "dfshell", ["20261123", "1"], ["cell", "row", "order", "title", "ok"], r"differs$"),
    ("live.py", "dfshell", ["20261124", "2"], ["nothing", "cell", "row", "order", "title", "same", "ok", *ENDS], r"differs$"),
    ("explanations.py", "dfshell", [], ["fault"], r"want "),
    ("shell_words.py", "dfshell", [], ["status", "complaint"], r""),
    ("tables.py", "dfshell", ["20261129"], ["nothing", "field", *ENDS], r""),
    ("pages.py", "dfshell", ["20261129"], ["field", *ENDS], r""),
    ("framed.py", "dfshell", ["1", "100"], ["status"], r"otherwise: "),
    ("watching.py", "dfshell", ["20261129", "4"], ["nothing", "field", "ok", *ENDS], r"^session of seed "),
]
# Those that a siege is to tell of.
SIEGE = ["cell", "row", "title", *ENDS]


def wrapped(folder, kind, program):
    """A program whose answers are damaged."""
    path = pathlib.Path(folder, f"{kind}_{os.path.basename(program)}")
    words = [sys.executable, str(HERE / "damaged.py"), kind, program]
    path.write_text(f'#!/bin/sh\nexec {shlex.join(words)} "$@"\n')
    path.chmod(0o755)
    return str(path)


def ran(script, program, words):
    run = subprocess.run([sys.executable, str(HERE / script), program, *words], cwd=ROOT, capture_output=True, text=True, timeout=300)
    return run.returncode, run.stdout + run.stderr


def damaged_programs(folder, programs):
    """The damaged programs by kind and name. All are written before any runs: a program that is being written does not start."""
    kinds = {kind for test in TESTS for kind in test[3]} | set(SIEGE)
    return {(kind, name): wrapped(folder, kind, program) for kind in sorted(kinds) for name, program in programs.items()}


def told(test, kind, damaged):
    """What is wrong with a test over a damaged program, or nothing."""
    script, name, words, _, line = test
    status, said = ran(script, damaged[kind, name], words)
    wanted = status == 0 if kind == "nothing" else status == 1 and re.search(line, said, re.MULTILINE)
    return None if wanted else f"{script} {' '.join(words)} over {kind}: status {status}, {said[-300:]!r}"


def besieged(kind, damaged):
    """What is wrong with the rounds of a siege over damaged programs, or nothing."""
    dfviews, dfshell = (damaged[kind, name] for name in ("dfviews", "dfshell"))
    seeds = range(SEED, SEED + 8)
    with tempfile.TemporaryDirectory() as room:
        rounds = {
            "documents": lambda source: siege.loads(source, room, dfviews),
            "sessions": lambda source: siege.changes(source, dfshell),
            "damage": lambda source: siege.survives(source, room, dfviews, dfshell),
        }
        for name, well in rounds.items():
            # Damaged bytes are answered by any table, any status of an answer and any named fault.
            if name == "damage" and kind not in ("signal", "complaint"):
                continue
            if all(well(random.Random(seed)) for seed in seeds):
                return f"siege.py tells of no {kind} in {name}"
    return None


# Mistakes of the model's functions: each takes the function as it was, and gives another.


def filter_of_null(_):
    return lambda table, predicate: model.taken(table, [n for n, holds in enumerate(model.column_of(table, predicate)[1]) if holds is not False])


def new_column_upside_down(was):
    def mistaken(table, *items):
        result = was(table, *items)
        name = items[0][0]
        kind, cells = result[name]
        return result | {name: (kind, cells[::-1])}

    return mistaken


def last_group_first(was):
    def mistaken(table, *words):
        result = was(table, *words)
        return model.taken(result, range(model.height(result))[::-1])

    return mistaken


def wider_window(was):
    return lambda table, word, output, column, window, wanted=None: was(table, word, output, column, window + 1, wanted or window)


def sum_from_each_null(_):
    def mistaken(table, output, column):
        sums, total = [], 0
        for cell in table[column][1]:
            total = 0 if cell is None else total + cell
            sums.append(None if cell is None else total)
        return table | {output: ("Wide", sums)}

    return mistaken


def kinds_without_null(was):
    def mistaken(table, groups, word, *column):
        kind, cells = was(table, groups, word, *column)
        if word == "n_unique":
            cells = [len({table[column[0]][1][n] for n in rows} - {None}) for rows in groups]
        return kind, cells

    return mistaken


def word_for(place, word, other):
    """The function takes one word for another, at this place of its words."""

    def of(was):
        def mistaken(*words):
            words = list(words)
            words[place] = other if words[place] == word else words[place]
            return was(*words)

        return mistaken

    return of


MISTAKES = {
    "a filter keeps null": ("filtered", filter_of_null),
    "a select in the other order": ("selected", lambda was: lambda table, *items: was(table, *items[::-1])),
    "a new column upside down": ("with_columns", new_column_upside_down),
    "the last group first": ("grouped", last_group_first),
    "null keys match": ("joined", lambda was: lambda table, kind, keys, right, _=None: was(table, kind, keys, right, "nulls_equal")),
    "null keys never match": ("joined", lambda was: lambda table, kind, keys, right, _=None: was(table, kind, keys, right)),
    "a left join for an inner one": ("joined", word_for(1, "inner", "left")),
    "an inner join for a left one": ("joined", word_for(1, "left", "inner")),
    "a window of one row more": ("rolled", wider_window),
    "a rolling greatest for a least": ("rolled", word_for(1, "rolling_min", "rolling_max")),
    "a sum that begins again at null": ("summed_up", sum_from_each_null),
    "a dense rank for a min one": ("ranked", word_for(2, "min", "dense")),
    "a min rank for a dense one": ("ranked", word_for(2, "dense", "min")),
    "a len for a count": ("aggregate", word_for(2, "count", "len")),
    "a first for a last": ("aggregate", word_for(2, "last", "first")),
    "a max for a min": ("aggregate", word_for(2, "min", "max")),
    "kinds without null": ("aggregate", kinds_without_null),
    "a mean that is rounded": ("mean_of", lambda _: lambda cells: (sum(cells) // len(cells), 1) if cells else None),
    "arithmetic that does not wrap": ("wrapped", lambda _: lambda number: number),
    "null and false is null": ("conjunction", lambda _: lambda a, b: None if None in (a, b) else a and b),
    "a null that prints as a blank": ("shown", lambda was: lambda cell: "" if cell is None else was(cell)),
}


def met(name, dfviews):
    """What is wrong with a planted mistake: nothing where some document of few shows it, and is as wanted without it."""
    place, mistaken = MISTAKES[name]
    was, operations = getattr(model, place), dict(model.OPERATIONS)
    setattr(model, place, mistaken(was))
    # The table of operations has the function itself.
    model.OPERATIONS.update({word: getattr(model, place) for word, it in operations.items() if it is was})
    with tempfile.TemporaryDirectory() as room:
        try:
            shown = next((seed for seed in range(SEED, SEED + 200) if not siege.loads(random.Random(seed), room, dfviews)), None)
        finally:
            setattr(model, place, was)
            model.OPERATIONS.update(operations)
        if shown is None or not siege.loads(random.Random(shown), room, dfviews):
            return f"{name}: no document meets it, or seed {shown} differs without it too"
    return None


def main():
    programs = {"dfviews": os.path.realpath(sys.argv[1]), "dfshell": os.path.realpath(sys.argv[2])}
    with tempfile.TemporaryDirectory() as folder, concurrent.futures.ThreadPoolExecutor(os.cpu_count()) as pool:
        damaged = damaged_programs(folder, programs)
        runs = [(test, kind) for test in TESTS for kind in test[3]]
        answers = list(pool.map(lambda run: told(*run, damaged), runs))
        with contextlib.redirect_stdout(io.StringIO()):  # what differs there is what is wanted here
            answers += [besieged(kind, damaged) for kind in SIEGE]
    answers += [met(name, programs["dfviews"]) for name in MISTAKES]
    wrong = [answer for answer in answers if answer]
    for answer in wrong:
        print(answer)
    print(f"{len(answers)} mistakes, {len(wrong)} not told of")
    return 1 if wrong else 0


if __name__ == "__main__":
    sys.exit(main())
