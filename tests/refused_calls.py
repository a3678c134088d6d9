#!/usr/bin/env python3
"""Runs tests of `df_load_tests` with each of their allocations refused in turn: refused_calls.py TESTS

TESTS is the program of these tests. One opens a hall with a reader and calls all that changes it; another loads halls by 1, 2 and 4
workers. What is refused memory they do again, and they compare themselves: until a call is accepted the reader's version and the desk
are as before; then the rows, the views and the version are those that it makes, and at the end the totals; a load that is refused leaves
whole chunks, under books and a view that follow, and then a fresh one is accepted. So a run passes, or ends where memory is refused to what
the test itself makes. An allocation is refused alone, with one and with two behind it, and with the one that stands in its place where what
was refused is made again: a call that takes a view, an opening or a load is made of what the test makes anew, so that two that follow one
another seldom refuse it twice. Each opening, call and load has to be refused in some runs, in some of them more than once in a row: else
nothing is refused here. A third test makes claims, and nothing else that takes memory: it ends with their refusal. Prints what went
otherwise, and ends with a count."""

import collections
import concurrent.futures
import os
import pathlib
import re
import subprocess
import sys
import tempfile

from sessions import failing_library

# Each test, and what memory has to be refused to in it: 0 is an opening, another number a call by its place, or a load by its workers.
TESTS = {
    "refusals::calls_are_made_again": range(7),
    "refused_loads::loads_are_made_again": [0, 1, 2, 4],
}
CLAIMS = "claims::two_seats_draw_each_number_once"
# In how many runs, and in how many more than once in a row.
LEAST = 5
# How many allocations of a place are refused twice, and how far behind the first the place may begin again.
MOST_TWICE = 100
MOST_BETWEEN = 100
SECONDS = 60


def run(program, test, library, **refused):
    """A run, or None where it does not end."""
    environment = {**os.environ, "LD_PRELOAD": library, **{name: str(value) for name, value in refused.items()}}
    try:
        return subprocess.run(
            [program, test], env=environment, stdin=subprocess.DEVNULL, capture_output=True, text=True, timeout=SECONDS
        )
    except subprocess.TimeoutExpired:
        return None


def told_of(ran):
    """How often memory was refused in a run that passes, and to what last; None of a run in which it was refused to the test itself;
    a text of any other."""
    if ran is None:
        return f"no end in {SECONDS} seconds"
    told = re.fullmatch(r"refused (\d+) times, to (\d+) last\n\ntest result: ok\n", ran.stdout)
    if ran.returncode == 0 and told and not ran.stderr:
        return int(told[1]), int(told[2])
    if ran.returncode == 101 and ran.stderr.startswith("error: AllocError\n") and not ran.stdout:
        return None
    return f"status {ran.returncode}: {ran.stdout[:200]}{ran.stderr[:200]}"


class Trial:
    """A test, and what its runs told: by the allocation that is refused, how many are from it on, and one more that is."""

    def __init__(self, program, test, library, folder):
        self.program, self.test, self.library, self.told = program, test, library, {}
        counts = pathlib.Path(folder, "counts")
        whole = told_of(run(program, test, library, COUNTS=counts))
        if whole != (0, 0):
            sys.exit(f"{test}: nothing is refused, and yet: {whole}")
        self.allocations = int(counts.read_text().split()[0])

    def tell(self, refused):
        first, several, again = refused
        return told_of(run(self.program, self.test, self.library, FAIL_ALLOC=first, FAIL_ALLOCS=several, FAIL_ALLOC_AGAIN=again))

    def try_all(self, refused):
        with concurrent.futures.ThreadPoolExecutor(os.cpu_count()) as pool:
            self.told.update(zip(refused, pool.map(self.tell, refused)))

    def twice(self, place):
        """Allocations that are refused to this place, each with the one that stands in its place where it is made again."""
        firsts = [first for (first, several, _), answer in self.told.items() if several == 1 and answer == (1, place)]
        begin = min(firsts, default=0)
        between = next((n for n in range(1, MOST_BETWEEN) if self.tell((begin, 1, begin + n)) == (2, place)), 0)
        step = 1 + len(firsts) // MOST_TWICE
        return [(first, 1, first + between + (first - begin)) for first in firsts[::step] if between]

    def faults(self, places):
        """What went otherwise, and the places to which memory was refused too seldom."""
        found = [f"{self.test}, allocations {at}: {answer}" for at, answer in self.told.items() if isinstance(answer, str)]
        refused = collections.Counter(answer for answer in self.told.values() if isinstance(answer, tuple))
        for place in places:
            once, again = refused[1, place], sum(refused[times, place] for times in range(2, 5))
            if min(once, again) < LEAST:
                found.append(f"{self.test}, {place}: refused once in {once} runs, more than once in a row in {again}")
        return found

    def refusals(self):
        return sum(isinstance(answer, tuple) and answer != (0, 0) for answer in self.told.values())


def claims_faults(program, library, folder):
    """What went otherwise where memory is refused to claims, and in how many runs it was."""
    counts = pathlib.Path(folder, "counts")
    whole = run(program, CLAIMS, library, COUNTS=counts)
    allocations = int(counts.read_text().split()[0])
    told = [told_of(run(program, CLAIMS, library, FAIL_ALLOC=at)) for at in range(1, allocations + 1)]
    faults = [f"{CLAIMS}, allocation {at}: {answer}" for at, answer in enumerate(told, 1) if answer is not None]
    if whole is None or whole.returncode or allocations < 2:
        faults.append(f"{CLAIMS}: {allocations} allocations, {whole}")
    return faults, allocations


def main():
    program = os.path.abspath(sys.argv[1])
    with tempfile.TemporaryDirectory() as folder:
        library = failing_library(folder)
        faults, runs = claims_faults(program, library, folder)
        refusals = runs
        for test, places in TESTS.items():
            trial = Trial(program, test, library, folder)
            trial.try_all([(first, several, 0) for first in range(1, trial.allocations + 1) for several in (1, 2, 3)])
            trial.try_all([refused for place in places for refused in trial.twice(place)])
            faults, runs, refusals = faults + trial.faults(places), runs + len(trial.told), refusals + trial.refusals()
    for fault in faults:
        print(fault)
    print(f"{runs} runs with allocations refused, in {refusals} of them to a call or a load, {len(faults)} otherwise")
    return 1 if faults else 0


if __name__ == "__main__":
    sys.exit(main())
