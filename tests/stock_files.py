#!/usr/bin/env python3
"""Runs `stocklist`, by 1, 4 and 16 loaders, over CSV files that they share and over moves of a seed: stock_files.py PROGRAM [SEED]

What it prints are the books and totals that Python's csv module reads in these files, whoever loads them, also of one with more
records than a change may have. Of a file that is not there, that lacks a column or that has a bad cell no row enters, and of a longer
one none from the part with that cell on, or from the part that the frame has no room for: the program names it, loads the others, and ends
with status 1. Without files books and totals are those of the moves that the seed makes, of which each round appends two, replaces one
and deletes one."""

import collections
import csv
import os
import random
import subprocess
import sys
import tempfile

# A file enters in parts of so many rows, and a frame accepts no more than these.
PART = 65_536
MOST = 1_048_576
# So many rows of late.csv come in parts before that with its bad cell.
LATE = 2 * PART
MASK = 2**64 - 1
MADE = ["apples", "bread", "cheese", "dates"]
# The program knows nothing of these; the last is null.
GOODS = [*MADE, "eggs", "épices", "a b", ""]


def write(path, rows, columns):
    with open(path, "w", newline="", encoding="utf-8") as file:
        writer = csv.DictWriter(file, columns, quoting=random.choice([csv.QUOTE_MINIMAL, csv.QUOTE_ALL]))
        writer.writeheader()
        writer.writerows(rows)


def moves(count):
    return [
        {"good": random.choice(GOODS), "count": random.randint(-50, 50), "note": random.choice(["", "a,b", 'say "x"'])}
        for _ in range(count)
    ]


def make_good(folder):
    """Files, with their columns in any order."""
    paths = []
    for number, count in enumerate([0, 1, 3, 200, 65_536, 140_000] + [random.randint(1, 40) for _ in range(20)]):
        columns = random.sample(["good", "count", "note"], 3)
        paths.append(os.path.join(folder, f"{number}.csv"))
        write(paths[-1], moves(count), columns)
    return paths


def make_bad(folder):
    bad = {
        "lacks.csv": "good,number\napples,1\n",
        "doubled.csv": "good,count,good\napples,1,apples\n",
        "cell.csv": "good,count\napples,1\nbread,two\n",
        "short.csv": "good,count\napples,1\nbread\n",
        "text.csv": "good,count\n\udcff,1\n",
        "late.csv": "good,count\n" + "dates,1\n" * (LATE + 5_000) + "dates,two\n",
    }
    for name, text in bad.items():
        with open(os.path.join(folder, name), "w", errors="surrogateescape") as file:
            file.write(text)
    return [os.path.join(folder, name) for name in [*bad, "absent.csv"]]


def make_full(folder):
    """A file with a row, and one for whose last part the frame has no room behind that."""
    texts = {"one.csv": "good,count\napples,1\n", "full.csv": "good,count\n" + "dates,1\n" * MOST}
    for name, text in texts.items():
        with open(os.path.join(folder, name), "w") as file:
            file.write(text)
    return [os.path.join(folder, name) for name in texts]


def printed(accepted, deleted, rows):
    """What is printed of books, and of the rows that there are."""
    totals = collections.Counter()
    for good, count in rows:
        totals[good] += count
    books = f"accepted {accepted}, deleted {deleted}, live {accepted - deleted}\n"
    return books + "".join(f"{good} {total}\n" for good, total in sorted(totals.items()))


def expected(paths, dates=0):
    """What is printed of these files, and of so many further rows of a date each."""
    rows = [("dates", 1)] * dates
    for path in paths:
        with open(path, newline="", encoding="utf-8") as file:
            rows += [(row["good"], int(row["count"])) for row in csv.DictReader(file)]
    return printed(len(rows), 0, rows)


def numbers(seed):
    """xoshiro256++, whose state are four numbers of SplitMix64."""
    state = []
    for _ in range(4):
        seed = seed + 0x9E3779B97F4A7C15 & MASK
        z = (seed ^ seed >> 30) * 0xBF58476D1CE4E5B9 & MASK
        z = (z ^ z >> 27) * 0x94D049BB133111EB & MASK
        state.append(z ^ z >> 31)
    a, b, c, d = state
    while True:
        yield turned(a + d & MASK, 23) + a & MASK
        a, b, c, d = a ^ b ^ d, a ^ b ^ c, a ^ c ^ b << 17 & MASK, turned(b ^ d, 45)


def turned(number, bits):
    return number << bits & MASK | number >> 64 - bits


def expected_of_seed(loaders, seconds, seed):
    """What is printed where each loader makes 20 rounds a second: of the three moves of a round the last one stays."""
    rows = []
    for loader in range(loaders):
        drawn = numbers(seed + loader)
        for _ in range(20 * seconds):
            rows.append([(MADE[next(drawn) % 4], next(drawn) % 20 - 5) for _ in range(3)][2])
    return printed(2 * len(rows), len(rows), rows)


def run(program, loaders, paths, *words):
    words = [*words, *(word for path in paths for word in ("--file", path))]
    return subprocess.run(
        [program, "--loaders", str(loaders), *words], stdin=subprocess.DEVNULL, capture_output=True, text=True, timeout=120
    )


def said(ran, folder):
    """What a run says of the files in the folder, and of loaders that counted other rows than the books."""
    return [line for line in ran.stderr.splitlines() if line.startswith((folder, "the loaders counted"))]


def main():
    program = os.path.abspath(sys.argv[1])
    random.seed(int(sys.argv[2]) if len(sys.argv) > 2 else 64)
    faults = []
    for loaders, seconds in [(1, 2), (4, 1), (16, 2)]:
        seed = random.randrange(1, 2**63)
        ran = run(program, loaders, [], "--seconds", str(seconds), "--seed", str(seed))
        wanted = expected_of_seed(loaders, seconds, seed)
        if (ran.returncode, ran.stdout) != (0, wanted):
            faults.append(f"{loaders} loaders, seed {seed}: {ran.returncode} {ran.stdout}, and not {wanted}")
    with tempfile.TemporaryDirectory() as folder:
        good, bad = make_good(folder), make_bad(folder)
        mixed = random.sample(good + bad, len(good + bad))
        # Where files are fewer than loaders, some load none.
        for loaders, paths in [(1, good), (4, good), (16, good), (16, good[:4])]:
            ran = run(program, loaders, paths)
            if (ran.returncode, ran.stdout) != (0, expected(paths)):
                faults.append(f"{loaders} loaders: {ran.returncode} {ran.stdout}, and not {expected(paths)}")
        for loaders in (1, 4, 16):
            ran = run(program, loaders, mixed)
            if (ran.returncode, ran.stdout) != (1, expected(good, LATE)):
                faults.append(f"{loaders} loaders, bad files: {ran.returncode} {ran.stdout}, and not {expected(good, LATE)}")
            named = {line.split(": ")[0] for line in said(ran, folder)}
            if named != set(bad):
                faults.append(f"{loaders} loaders: named are {sorted(named)}")
        one, full = make_full(folder)
        ran = run(program, 1, [one, full])
        wanted = expected([one], MOST - PART)
        if (ran.returncode, ran.stdout, said(ran, folder)) != (1, wanted, [f"{full}: C3 more than {MOST} rows accepted"]):
            faults.append(f"a full frame: {ran.returncode} {ran.stdout} {said(ran, folder)}, and not {wanted}")
    for fault in faults:
        print(fault)
    print(f"3 runs over moves and 8 over files, {len(faults)} otherwise")
    return 1 if faults else 0


if __name__ == "__main__":
    sys.exit(main())
