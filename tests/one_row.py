#!/usr/bin/env python3
"""What one more row asks of memory behind a chunk of 65,536: one_row.py PROGRAM

PROGRAM is dfshell. Under one view each, a filter, a group-by, a left join of the frame with itself and a rolling sum,
each row of the chunk has a key of its own, and so has the row behind it. That row takes some hundred allocations, and is
accepted although one is refused at twice that number behind the chunk: a view that is computed anew, beside the meter or
on it, asks for more. Prints how many allocations the row takes under each view, what differs, and a count.
"""

import os
import pathlib
import sys
import tempfile

import sessions

ROWS = 65536
# The step of each view, and how many allocations the row takes under it, as counted.
VIEWS = {
    "filter": ('["filter", [">", ["col", "v"], 0]]', 67),
    "group-by": ('["group_by", ["key"], ["n", "len"], ["total", "sum", "v"]]', 100),
    "self-join": ('["join", "left", ["key"], "rows"]', 101),
    "rolling sum": ('["rolling_sum", "s", "v", 2, 1]', 100),
}
DOCUMENT = """[[frame]]
name = "rows"
columns = [["key", "Int"], ["v", "Int"]]
text = "key,v\\n"
[[view]]
name = "view"
from = "rows"
steps = [STEP]
"""


def transcript(more):
    """The session, with or without the row behind the chunk."""
    chunk = "".join(f"| {key},{key % 7 + 1}\n" for key in range(ROWS))
    row = f"> append rows {ROWS} 1\n| {ROWS},1\nok\n" if more else ""
    return f"> append rows 0 {ROWS}\n{chunk}ok\n{row}"


def allocations(runner, typed, library, counts):
    runner.whole(typed, LD_PRELOAD=library, COUNTS=counts)
    return int(pathlib.Path(counts).read_text().split()[0])


def tried(program, folder, library, name):
    """The allocations of the one row, and what differs."""
    made = pathlib.Path(folder, name.replace(" ", "_"))
    step, counted = VIEWS[name]
    made.with_suffix(".toml").write_text(DOCUMENT.replace("STEP", step))
    made.with_suffix(".session").write_text(transcript(True))
    runner = sessions.Runner(program, [], sessions.Session(str(made.with_suffix(".session"))))
    whole, short = (b"".join(part) for part in (runner.session.typed, runner.session.typed[:-1]))
    counts = str(made.with_suffix(".counts"))
    before = allocations(runner, short, library, counts)
    taken = allocations(runner, whole, library, counts) - before
    output, error, status = runner.whole(whole, LD_PRELOAD=library, FAIL_ALLOC=str(before + 2 * counted))
    if (output, error, status) != (b"ok\nok\n", b"", 0):
        runner.differs("with that allocation refused", b"ok\nok\n", output + error)
    return taken, runner.wrong


def main():
    program = os.path.abspath(sys.argv[1])
    wrong = 0
    with tempfile.TemporaryDirectory() as folder:
        library = sessions.failing_library(folder)
        for name in VIEWS:
            taken, reports = tried(program, folder, library, name)
            print(f"{name}: {taken} allocations")
            for report in reports:
                print(report)
            wrong += len(reports)
    print(f"{len(VIEWS)} views, {wrong} otherwise")
    return 1 if wrong else 0


if __name__ == "__main__":
    sys.exit(main())
