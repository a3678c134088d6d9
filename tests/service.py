#!/usr/bin/env python3
"""Runs `stocklist` with its allocations refused in turn, every second time with the one behind it: service.py PROGRAM

Of the allocations, most of which repeat in each of its rounds, the first 400 are tried, and every fifth behind them. A run in which
nothing is left out ends with status 0 and prints what one prints in which nothing is refused. Where the service was not opened or not
closed it ends with status 2 and prints nothing. Where a round was refused memory, or the last totals were, it says so, goes on with the
next round and ends with status 1: then its books are what the loader counted, an append has entered whole, the rows are those accepted
less those deleted, and no other round is left out. At least half of the runs have to end otherwise than one in which nothing is refused:
else nothing is refused here. Where no thread can be started all is as where one can. Prints what went otherwise, and ends with a count."""

import concurrent.futures
import os
import pathlib
import re
import subprocess
import sys
import tempfile

from sessions import failing_library

WORDS = ["--loaders", "1", "--seconds", "1", "--seed", "7"]
ROUNDS = 20
# They sleep for most of their time.
AT_ONCE = 32
SECONDS = 60


def run(program, library, **refused):
    """A run, or None where it does not end."""
    environment = {**os.environ, "LD_PRELOAD": library, **{name: str(value) for name, value in refused.items()}}
    try:
        return subprocess.run(
            [program, *WORDS], env=environment, stdin=subprocess.DEVNULL, capture_output=True, text=True, timeout=SECONDS
        )
    except subprocess.TimeoutExpired:
        return None


def fault_of(ran, whole):
    """What is wrong with a run, beside one in which nothing is refused, if anything is."""
    if ran is None:
        return f"no end in {SECONDS} seconds"
    if ran.returncode == 2:
        return "something is printed beside a refusal" if ran.stdout else None
    if ran.returncode == 0:
        return None if ran.stdout == whole.stdout else f"nothing is left out, and yet: {ran.stdout[:200]}"
    said = re.findall(r"^(a round|totals): out of memory$", ran.stderr, re.M)
    if ran.returncode != 1 or not said or "the loaders counted" in ran.stderr:
        return f"status {ran.returncode}: {ran.stderr[-200:]}"
    books = re.match(r"accepted (\d+), deleted (\d+), live (\d+)\n", ran.stdout)
    if not books:
        return f"no books: {ran.stdout[:200]}"
    accepted, deleted, live = map(int, books.groups())
    least = ROUNDS - said.count("a round")
    if live != accepted - deleted or accepted % 2 or not least <= deleted <= accepted // 2 <= ROUNDS:
        return f"these books cannot be, where {said} were refused: {books[0]}"
    return None


def main():
    program = os.path.abspath(sys.argv[1])
    with tempfile.TemporaryDirectory() as folder:
        library = failing_library(folder)
        whole = run(program, library, COUNTS=f"{folder}/counts")
        if whole is None or whole.returncode or not whole.stdout.startswith(f"accepted {2 * ROUNDS}, deleted {ROUNDS}, "):
            sys.exit(f"nothing is refused, and yet: {whole}")
        allocations = int(pathlib.Path(folder, "counts").read_text().split()[0])
        tried = [at for at in range(1, allocations + 1) if at <= 400 or at % 5 == 0]
        alone = run(program, library, FAIL_EVERY_THREAD=1)
        with concurrent.futures.ThreadPoolExecutor(AT_ONCE) as pool:
            runs = list(pool.map(lambda at: run(program, library, FAIL_ALLOC=at, FAIL_ALLOCS=1 + at % 2), tried))
    faults = [f"allocation {at}: {fault}" for at, ran in zip(tried, runs) if (fault := fault_of(ran, whole))]
    if alone is None or (alone.returncode, alone.stdout) != (0, whole.stdout):
        faults.append(f"no thread can be started: {alone}")
    refused = sum(ran is not None and ran.stdout != whole.stdout for ran in runs)
    if 2 * refused < len(runs):
        faults.append(f"only {refused} runs end otherwise than without a refusal")
    for fault in faults:
        print(fault)
    print(f"{len(runs)} allocations of a service refused in turn, {refused} of which show, {len(faults)} otherwise")
    return 1 if faults else 0


if __name__ == "__main__":
    sys.exit(main())
