#!/usr/bin/env python3
"""appends.py PROGRAM [CHUNKS]: what appends to a frame without views cost, as ratios in one run.

PROGRAM is dfshell. A chunk has 1,000 rows of a text of 64 values, a text of 5,000, a whole number and a Boolean. Each
session runs twice: once its chunks are appended, once the shell makes and refuses them, since their first number was
accepted before. So the second is what reading and making the chunks costs. Prints

- how long appending all chunks takes, in terms of making them;
- what one more row costs after them: microseconds, and requests for memory;
- what the rows take in memory, beside the shell that has made one chunk.
"""

import os
import pathlib
import random
import shutil
import subprocess
import sys
import tempfile

HERE = pathlib.Path(__file__).resolve().parent
ROWS_OF_CHUNK = 1000
SINGLES = 20000
DOCUMENT = """[[frame]]
name = "rows"
columns = [["key", "Text"], ["city", "Text"], ["amount", "Int"], ["open", "Bool"]]
text = "key,city,amount,open\\nk0,c0,0,true\\n"
"""


def row(source):
    amount = source.randrange(-(10**6), 10**6)
    return f"k{source.randrange(64)},c{source.randrange(5000)},{amount},{source.choice(('true', 'false'))}\n"


def chunk(source, first, count):
    return f"append rows {first} {count}\n" + "".join(row(source) for _ in range(count))


def session(path, sizes, refused):
    """Appends of so many rows each. The row of number 0 is there from the start."""
    source, first = random.Random(20260101), 1
    with open(path, "w", encoding="ascii", newline="") as file:
        for size in sizes:
            file.write(chunk(source, 0 if refused else first, size))
            first += size


def library(folder):
    """The library that counts requests for memory."""
    toolchain = subprocess.run(["rt", "doc"], capture_output=True, text=True, check=True).stdout.strip()
    compiler = shutil.which("cc") or str(pathlib.Path(toolchain).parent / "toolchain/bin/clang")
    made = folder / "failing.so"
    source = HERE.parent / "tests/failing.c"
    subprocess.run([compiler, "-O1", "-shared", "-fPIC", "-nostdlib", "-o", made, source], check=True)
    return made


def seconds_of(program, folder, name):
    """The processor seconds of the session, and the most megabytes that the shell had."""
    with open(folder / name, "rb") as typed:
        shell = subprocess.Popen([program, "rows.toml"], cwd=folder, stdin=typed, stdout=subprocess.DEVNULL)
        _, status, used = os.wait4(shell.pid, 0)
    if status != 0:
        sys.exit(f"the session {name} failed")
    return used.ru_utime + used.ru_stime, used.ru_maxrss / 1024


def requests_of(program, folder, name, preloaded):
    counts = folder / "counts"
    environment = {**os.environ, "LD_PRELOAD": str(preloaded), "COUNTS": str(counts)}
    with open(folder / name, "rb") as typed:
        subprocess.run([program, "rows.toml"], cwd=folder, stdin=typed, stdout=subprocess.DEVNULL, env=environment, check=True)
    return int(counts.read_text().split()[0])


def main():
    program = os.path.abspath(sys.argv[1])
    chunks = int(sys.argv[2]) if len(sys.argv) > 2 else 1000
    many = [ROWS_OF_CHUNK] * chunks
    more = [*many, *[1] * SINGLES]
    with tempfile.TemporaryDirectory() as name:
        folder = pathlib.Path(name)
        (folder / "rows.toml").write_text(DOCUMENT)
        preloaded = library(folder)
        seconds, megabytes, requests = {}, {}, {}
        for kind, sizes, refused in (
            ("appended", many, False), ("made", many, True), ("more", more, False), ("more made", more, True),
        ):
            session(folder / kind, sizes, refused)
            seconds[kind], megabytes[kind] = seconds_of(program, folder, kind)
            requests[kind] = requests_of(program, folder, kind, preloaded)
        print(f"{chunks} chunks of {ROWS_OF_CHUNK} rows: appended {seconds['appended']:.2f} s, "
              f"made {seconds['made']:.2f} s, {seconds['appended'] / seconds['made']:.2f} times as long")
        each = (seconds["more"] - seconds["appended"]) / SINGLES
        made = (seconds["more made"] - seconds["made"]) / SINGLES
        asked = (requests["more"] - requests["appended"]) / SINGLES
        print(f"one more row: {each * 1e6:.1f} microseconds, of which making it {made * 1e6:.1f}; {asked:.0f} requests")
        rows = chunks * ROWS_OF_CHUNK
        print(f"{rows} rows: {megabytes['appended'] - megabytes['made']:.0f} MB beside one chunk")


if __name__ == "__main__":
    main()
