#!/usr/bin/env python3
"""Each step alone, by one worker and by four, beside pandas: steps.py PROGRAM [ROWS [ROUNDS]]

PROGRAM is dfviews. Prints the least seconds of so many rounds of whole runs, which begin with the reading of the file.
The rows come from a fixed seed. pandas is asked where /usr/bin/python3 has it; it reads the same file and prints as many
rows.
"""

import random
import subprocess
import sys
import tempfile
import time

COLUMNS = '[["k", "Text"], ["g", "Text"], ["v", "Int"], ["w", "Int"]]'
GROUPED = 'g = f.groupby("k", sort=False)["v"].agg(n="size", total="sum").reset_index(); r = f.merge(g, on="k", how="left")'
STEPS = {
    "filter": ('["filter", [">", ["col", "v"], 0]]', 'r = f[f["v"] > 0]'),
    "with_columns": ('["with_columns", ["d", ["*", ["col", "v"], 2]]]', 'r = f.assign(d=f["v"] * 2)'),
    "rolling_sum 7": ('["rolling_sum", "s", "v", 7]', 'r = f.assign(s=f["v"].rolling(7).sum())'),
    "rolling_max 50": ('["rolling_max", "s", "v", 50]', 'r = f.assign(s=f["v"].rolling(50).max())'),
    "rolling_max 1000": ('["rolling_max", "s", "v", 1000]', 'r = f.assign(s=f["v"].rolling(1000).max())'),
    "cum_sum": ('["cum_sum", "s", "v"]', 'r = f.assign(s=f["v"].cumsum())'),
    "rank dense": ('["rank", "r", "dense", "v"]', 'r = f.assign(r=f["v"].rank(method="dense"))'),
    "rank min of texts": ('["rank", "r", "min", "k"]', 'r = f.assign(r=f["k"].rank(method="min"))'),
    "n_unique by 64 groups": ('["group_by", ["g"], ["n", "n_unique", "k"]]', 'r = f.groupby("g", sort=False)["k"].nunique().reset_index()'),
    "group_by of two keys": ('["group_by", ["g", "k"], ["n", "len"], ["t", "sum", "v"]]', 'r = f.groupby(["g", "k"], sort=False)["v"].agg(n="size", t="sum").reset_index()'),
    "join with a group_by": ('["join", "left", ["k"], { from = "rows", steps = [["group_by", ["k"], ["n", "len"], ["total", "sum", "v"]]] }]', GROUPED),
}
PANDAS = """
import pandas as pd
f = pd.read_csv("rows.csv")
{0}
r.to_csv("/dev/null", index=False)
"""


def least(rounds, command, folder, given=None):
    seconds = []
    for _ in range(rounds):
        start = time.monotonic()
        ended = subprocess.run(command, cwd=folder, input=given, text=True, stdout=subprocess.DEVNULL, stderr=subprocess.DEVNULL, check=False)
        seconds.append(time.monotonic() - start)
        if ended.returncode:
            return None
    return min(seconds)


def measured(program, count, rounds, names):
    """The least seconds by one worker, by four and of pandas, of each of these steps over so many rows."""
    program = subprocess.run(["realpath", program], capture_output=True, text=True, check=True).stdout.strip()
    source = random.Random(20261128)
    with tempfile.TemporaryDirectory() as folder:
        with open(f"{folder}/rows.csv", "w", encoding="ascii") as rows:
            rows.write("k,g,v,w\n")
            for n in range(count):
                rows.write(f"key-{source.randrange(5000):04},g{source.randrange(64)},{source.randrange(-50000, 50000)},{n}\n")
        for name in names:
            step, asked = STEPS[name]
            with open(f"{folder}/views.toml", "w", encoding="ascii") as document:
                document.write(f'[[frame]]\nname = "rows"\ncolumns = {COLUMNS}\npath = "rows.csv"\n[[view]]\nname = "view"\nfrom = "rows"\nsteps = [{step}]\n')
            one, four = (least(rounds, [program, "views.toml", "--workers", workers], folder) for workers in ("1", "4"))
            peer = least(rounds, ["/usr/bin/python3", "-"], folder, PANDAS.format(asked))
            yield name, (one, four, peer)


def shown(seconds):
    return "     -" if seconds is None else f"{seconds:6.2f}"


def main():
    count = int(sys.argv[2]) if len(sys.argv) > 2 else 131_072
    rounds = int(sys.argv[3]) if len(sys.argv) > 3 else 3
    print(f"{count} rows           1 worker  4 workers  pandas")
    for name, (one, four, peer) in measured(sys.argv[1], count, rounds, STEPS):
        print(f"{name:24}{shown(one)}     {shown(four)}  {shown(peer)}")


if __name__ == "__main__":
    main()
