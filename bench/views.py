#!/usr/bin/env python3
"""views.py PROGRAM [ROWS ..]: what a change of one row costs under a view, behind so many rows.

PROGRAM is dfshell. Each kind of view stands alone over a frame of a group, a key of its own in each row, and a whole
number. The rows come in chunks of 1,000; then single rows are appended, replaced and deleted. Each session runs a
second time with changes that are refused, which is what reading them costs, and that is taken off. Prints the
microseconds that a row of the chunks and each kind of change take, and how often an appended row asks for memory; for a
group-by also the microseconds in SQLite: in memory, with triggers that keep the sums, through Python's own library.
"""

import os
import pathlib
import random
import sqlite3
import subprocess
import sys
import tempfile
import time

from appends import library, requests_of

CHUNK = 1000
GROUPS = 64
STEPS = {
    "none": None,
    "filter": '["filter", [">", ["col", "v"], 0]]',
    "select": '["select", ["v", ["col", "v"]], ["double", ["*", ["col", "v"], 2]]]',
    "with columns": '["with_columns", ["double", ["*", ["col", "v"], 2]]]',
    "group-by": '["group_by", ["g"], ["n", "len"], ["total", "sum", "v"]]',
    "four totals": '["group_by", ["g"], ["n", "len"], ["total", "sum", "v"], ["least", "min", "v"], ["most", "max", "v"]]',
    "unique groups": '["group_by", ["k"], ["n", "len"], ["total", "sum", "v"]]',
    "least and most": '["group_by", ["g"], ["least", "min", "v"], ["most", "max", "v"]]',
    "distinct values": '["group_by", ["g"], ["kinds", "n_unique", "v"], ["f", "first", "v"], ["l", "last", "v"]]',
    "one group": '["select", ["g", ["*", ["col", "g"], 0]], ["v", ["col", "v"]]], '
    '["group_by", ["g"], ["total", "sum", "v"], ["least", "min", "v"], ["kinds", "n_unique", "v"]]',
    "self-join": '["join", "left", ["k"], "rows"]',
    "rolling sum": '["rolling_sum", "s", "v", 8, 1]',
    "cumulative sum": '["cum_sum", "s", "v"]',
    "dense rank": '["rank", "r", "dense", "g"]',
    "minimum rank": '["rank", "r", "min", "k"]',
}
# Where a row is replaced or deleted, these change in each row behind it or above it: only appends are measured.
APPENDS_ALONE = ("cumulative sum", "minimum rank")
DOCUMENT = """[[frame]]
name = "rows"
columns = [["g", "Int"], ["k", "Int"], ["v", "Int"]]
text = "g,k,v\\n"
"""
VIEW = """[[view]]
name = "view"
from = "rows"
steps = [STEP]
"""


def singles(rows):
    """So many single changes that they weigh as much as the noise of the load before them, or more."""
    return max(1000, rows // 50)


def row(source, number):
    return f"{source.randrange(GROUPS)},{number},{source.randrange(-1000, 1000)}\n"


def chunks(source, rows, refused):
    for first in range(0, rows, CHUNK):
        lines = "".join(row(source, number) for number in range(first, first + CHUNK))
        yield f"append rows {0 if refused else first} {CHUNK}\n{lines}"


def changes(kind, source, rows, refused):
    """Single changes behind so many rows. A refused one is of a number that was accepted, or that is not there."""
    many = singles(rows)
    places = random.Random(rows).sample(range(rows), many)
    for at in range(many):
        if kind == "append":
            yield f"append rows {0 if refused else rows + at} 1\n{row(source, rows + at)}"
        number = 4294967295 if refused else places[at]
        if kind == "replace":
            yield f"replace rows {number}\n{row(source, number)}"
        if kind == "delete":
            yield f"delete rows {number}\n"


def write(folder, parts):
    with open(folder / "typed", "w", encoding="ascii") as file:
        file.writelines(parts)


def seconds(program, folder, parts, rounds=1):
    """The processor seconds of a session of these commands, the least of so many rounds."""
    write(folder, parts)
    found = []
    for _ in range(rounds):
        with open(folder / "typed", "rb") as file:
            shell = subprocess.Popen([program, "rows.toml"], cwd=folder, stdin=file, stdout=subprocess.DEVNULL)
            _, status, used = os.wait4(shell.pid, 0)
        if status != 0:
            sys.exit("a session failed")
        found.append(used.ru_utime + used.ru_stime)
    return min(found)


def measured(program, folder, rows, preloaded, kinds, rounds=1):
    """Microseconds: of a row of the chunks, and of these kinds of single changes, or none; a session takes the least of
    so many rounds. Last, the requests of an appended row."""
    source = random.Random(20260101)
    loaded = list(chunks(source, rows, False))
    made = [loaded[0], *chunks(random.Random(20260101), rows, True)]
    load = seconds(program, folder, loaded, rounds)
    result = [(load - seconds(program, folder, made, rounds)) / rows * 1e6]
    for kind in ("append", "replace", "delete"):
        if kind not in kinds:
            result.append(None)
            continue
        each = seconds(program, folder, [*loaded, *changes(kind, source, rows, False)], rounds)
        read = seconds(program, folder, [*loaded, *changes(kind, source, rows, True)], rounds)
        result.append((each - read) / singles(rows) * 1e6)
    asked = []
    for refused in (False, True):
        write(folder, [*loaded, *changes("append", random.Random(1), rows, refused)])
        asked.append(requests_of(program, folder, "typed", preloaded))
    result.append((asked[0] - asked[1]) / singles(rows))
    return result


TRIGGERS = """
create table rows (id integer primary key, g integer, v integer);
create table totals (g integer primary key, n integer, total integer);
create trigger come after insert on rows begin
  insert into totals values (new.g, 1, new.v) on conflict (g) do update set n = n + 1, total = total + new.v; end;
create trigger go after delete on rows begin
  update totals set n = n - 1, total = total - old.v where g = old.g; end;
create trigger become after update on rows begin
  update totals set n = n - 1, total = total - old.v where g = old.g;
  insert into totals values (new.g, 1, new.v) on conflict (g) do update set n = n + 1, total = total + new.v; end;
"""


def in_sqlite(rows):
    """The same of the group-by in SQLite."""
    source, base = random.Random(20260101), sqlite3.connect(":memory:", isolation_level=None)
    base.executescript(TRIGGERS)

    def timed(statement, many):
        start = time.process_time()
        for values in many:
            base.execute(statement, values)
        return (time.process_time() - start) / len(many) * 1e6

    def cells(number):
        return number, source.randrange(GROUPS), source.randrange(-1000, 1000)

    many = singles(rows)
    places = random.Random(rows).sample(range(rows), 2 * many)
    base.execute("begin")
    load = timed("insert into rows values (?, ?, ?)", [cells(number) for number in range(rows)])
    base.execute("commit")
    append = timed("insert into rows values (?, ?, ?)", [cells(rows + at) for at in range(many)])
    replace = timed("update rows set g = ?2, v = ?3 where id = ?1", [cells(number) for number in places[:many]])
    delete = timed("delete from rows where id = ?", [(number,) for number in places[many:]])
    return [load, append, replace, delete]


def main():
    program = os.path.abspath(sys.argv[1])
    sizes = [int(word) for word in sys.argv[2:]] or [10_000, 100_000]
    print(f"{'view':16}{'rows':>9}{'row':>9}{'append':>9}{'replace':>9}{'delete':>9} microseconds{'requests':>10}")
    with tempfile.TemporaryDirectory() as name:
        folder = pathlib.Path(name)
        preloaded = library(folder)
        for kind, steps in STEPS.items():
            view = VIEW.replace("STEP", steps) if steps else ""
            (folder / "rows.toml").write_text(DOCUMENT + view)
            kinds = ("append",) if kind in APPENDS_ALONE else ("append", "replace", "delete")
            for rows in sizes:
                report(kind, rows, measured(program, folder, rows, preloaded, kinds))
    for rows in sizes:
        report("SQLite", rows, in_sqlite(rows))


def report(kind, rows, numbers):
    requests = "".join(f"{number:23.1f}" for number in numbers[4:])
    shown = "".join(f"{'-':>9}" if number is None else f"{number:9.1f}" for number in numbers[:4])
    print(f"{kind:16}{rows:9}" + shown + requests, flush=True)


if __name__ == "__main__":
    main()
