#!/usr/bin/env python3
"""pages.py PROGRAM: how long dfshell takes for a page of 32 views of 1,000 rows, over 8 frames, and how large it is: the least of five
sessions with eleven pages less the least of five with one."""

import pathlib
import random
import subprocess
import sys
import tempfile
import time

PLACES = ["north", "south", "east", "west"]


def session():
    """The commands of a session with 8 frames of 1,000 rows and four views of each."""
    chosen = random.Random(1)
    lines = [f"frame f{at} place Text qty Int change Int" for at in range(8)]
    for at in range(8):
        rows = [f"{chosen.choice(PLACES)} {row},{chosen.randrange(1000)},{chosen.randrange(-500, 500)}" for row in range(1000)]
        lines += [f"append f{at}", *rows, "."]
    doubled = '[["with_columns", ["doubled", ["+", ["col", "qty"], ["col", "qty"]]]]]'
    return [*lines, *(f"define v{at} f{at % 8} {doubled}" for at in range(32))]


def seconds(program, folder, lines):
    begun = time.monotonic()
    subprocess.run([program], cwd=folder, input="".join(f"{line}\n" for line in lines).encode(), stdout=subprocess.DEVNULL, check=True)
    return time.monotonic() - begun


def main():
    program = str(pathlib.Path(sys.argv[1]).resolve())
    lines = session()
    with tempfile.TemporaryDirectory() as folder:
        few, many = (min(seconds(program, folder, lines + ["report page.html"] * pages) for _ in range(5)) for pages in (1, 11))
        size = pathlib.Path(folder, "page.html").stat().st_size
    print(f"a page of 32 views of 1,000 rows and 4 columns: {(many - few) * 100:.0f} ms, {size:,} bytes")


if __name__ == "__main__":
    main()
