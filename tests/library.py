#!/usr/bin/env python3
"""library.py: the code of docs/LIBRARY.md is code that the gate proves and runs. Run it at the top of the repository.

The first block of Rust is crates/first/src/main.rt, byte for byte, and what the page says that it prints is what it must print. Each
other block stands in crates/stocklist/src/main.rt, line for line."""

import pathlib
import re
import sys
import textwrap

PAGE = pathlib.Path("docs/LIBRARY.md").read_text()
SOURCE = [line.strip() for line in pathlib.Path("crates/stocklist/src/main.rt").read_text().split("\n")]
wrong = 0


def blocks(kind):
    return re.findall(rf"^```{kind}\n(.*?)^```$", PAGE, re.M | re.S)


for block in blocks("rust"):
    lines = [line.strip() for line in textwrap.dedent(block).strip("\n").split("\n")]
    if not any(SOURCE[at : at + len(lines)] == lines for at in range(len(SOURCE))):
        wrong += 1
        print(f"not in stocklist: {lines[0]}")

if blocks("rust first") != [pathlib.Path("crates/first/src/main.rt").read_text()]:
    wrong += 1
    print("the first program is not that of crates/first")
if re.findall(r"^It prints `(.*?)`", PAGE, re.M) != pathlib.Path("crates/first/stdout").read_text().split("\n")[:-1]:
    wrong += 1
    print("the first program has to print something else")

print(f"{wrong} pieces of code that do not run")
sys.exit(1 if wrong else 0)
