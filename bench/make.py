#!/usr/bin/env python3
"""Writes rows.csv and regions.csv, of so many rows, and the view documents over them: make.py N FOLDER. The rows come
from a fixed seed, so that each run has the same. Eight more files, part0.csv to part7.csv, share as many rows: the first
has ten times those of each other."""

import random
import sys
from pathlib import Path

FRAME = """[[frame]]
name = "rows"
columns = [["key", "Text"], ["amount", "Int"], ["open", "Bool"]]
path = "rows.csv"

"""

# Reading, and a view whose work is linear in the rows.
FILTERED = """[[view]]
name = "filtered"
from = "rows"
steps = [
  ["filter", ["&", ["col", "open"], [">", ["col", "amount"], 999000]]],
  ["with_columns", ["double", ["*", ["col", "amount"], 2]]],
]
"""

# One group for each key.
GROUPED = """[[view]]
name = "grouped"
from = "rows"
steps = [["group_by", ["key"], ["n", "len"], ["total", "sum", "amount"]]]
"""

SALES = """[[frame]]
name = "sales"
columns = [["region", "Text"], ["qty", "Int"], ["ref", "Int"]]
path = "regions.csv"

"""

BY_REGION = """[[view]]
name = "by_region"
from = "sales"
steps = [["group_by", ["region"], ["n", "len"], ["total", "sum", "qty"], ["least", "min", "qty"], ["most", "max", "qty"]]]
"""

PART = """[[frame]]
name = "part{0}"
columns = [["region", "Text"], ["qty", "Int"], ["ref", "Int"]]
path = "part{0}.csv"
"""


def write_sales(path, source, count):
    with open(path, "w", encoding="ascii", newline="") as rows:
        rows.write("region,qty,ref\n")
        for ref in range(count):
            rows.write(f"region-{source.randrange(64):02},{source.randrange(-99999, 99999)},{1000000 + ref}\n")


def main():
    count, folder = int(sys.argv[1]), Path(sys.argv[2])
    source = random.Random(20260101)
    with open(folder / "rows.csv", "w", encoding="ascii", newline="") as rows:
        rows.write("key,amount,open\n")
        for _ in range(count):
            key, amount = source.randrange(1000), source.randrange(-1000000, 1000000)
            rows.write(f"key{key:04},{amount},{'true' if source.random() < 0.5 else 'false'}\n")
    (folder / "filtered.toml").write_text(FRAME + FILTERED)
    (folder / "grouped.toml").write_text(FRAME + GROUPED)
    write_sales(folder / "regions.csv", source, count)
    (folder / "regions.toml").write_text(SALES + BY_REGION)
    (folder / "sales.toml").write_text(SALES)
    for part in range(8):
        write_sales(folder / f"part{part}.csv", source, count * (10 if part == 0 else 1) // 17)
    (folder / "parts.toml").write_text("".join(PART.format(part) for part in range(8)))


main()
