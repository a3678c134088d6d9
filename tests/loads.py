#!/usr/bin/env python3
"""Loads a file in the shell with allocations refused in turn, every second time with the one behind it: loads.py SHELL

The file has 2,500 rows, so three chunks. Where memory is refused to a chunk that chunk is left out, or those from there on are; each of
the others enters whole. So the rows that the answer tells are those of whole chunks, and as many as the books count; they have the numbers
behind those before; the file loads whole when it is loaded again, and every view has the rows of its plan. Of some 2,500 rows that are made
alike every thirty-first allocation is tried, and each of the first 400. At least 50 of the loads have to be refused in part: else nothing
is refused here. Runs without and with --hall, prints what went otherwise, and ends with a count."""

import concurrent.futures
import os
import pathlib
import re
import subprocess
import sys
import tempfile

from sessions import failing_library

DOCUMENT = """
[[frame]]
name = "t"
columns = [["k", "Int"], ["v", "Int"]]
text = '''
k,v
1,1
2,2
'''
[[view]]
name = "by_k"
from = "t"
steps = [["group_by", ["k"], ["n", "len"], ["total", "sum", "v"]]]
"""
ROWS = 2500
WHOLE = {0, 500, 1000, 1500, 2000, 2500}
COMMANDS = "load t rows.csv\nbooks t\nload t rows.csv\nbooks t\ncheck\n"


def run(shell, words, folder, library, **refused):
    environment = {**os.environ, "LD_PRELOAD": library, **{name: str(value) for name, value in refused.items()}}
    return subprocess.run(
        [shell, *words, "view.toml"], cwd=folder, env=environment, input=COMMANDS, capture_output=True, text=True, timeout=60
    )


def answers_of(text):
    """The lines that answer each command. A load has a line for each chunk that is left out, then `memory` where it ended early, then
    what entered; or `memory` alone."""
    lines, at, answers = text.split("\n")[:-1], 0, []
    for command in COMMANDS.split("\n")[:-1]:
        begin = at
        if command.startswith("load "):
            while at < len(lines) and lines[at].startswith("refused t "):
                at += 1
            if lines[at : at + 1] == ["memory"] and "".join(lines[at + 1 : at + 2]).startswith("ok "):
                at += 1
        at += 1
        answers.append(lines[begin:at])
    return answers if at == len(lines) else []


def fault_of(ran):
    """What is wrong with a run, if anything is, and whether its first load was refused in part or whole."""
    if ran.returncode == 2 and not ran.stdout:
        return None, False
    if ran.returncode:
        return f"status {ran.returncode}: {ran.stderr[:200]}", False
    answers = answers_of(ran.stdout)
    if not answers:
        return f"not an answer for each command: {ran.stdout[:300]}", False
    accepted, counts = 2, []
    for load, books in (answers[0:2], answers[2:4]):
        told = re.fullmatch(r"ok (\d+) rows?(?:, (\d+)\.\.(\d+))?", load[-1])
        count = int(told[1]) if told else 0
        if not told and load != ["memory"]:
            return f"no answer of a load: {load}", False
        if count not in WHOLE or (told and told[2] and (int(told[2]), int(told[3])) != (accepted, accepted + count - 1)):
            return f"not the rows of whole chunks: {load}", False
        accepted += count
        counts.append(count)
        if books != ["memory"] and books != [f"accepted {accepted}, deleted 0, live {accepted}"]:
            return f"{load[-1]}, and the books have {books}", False
    if counts[0] != ROWS and counts[1] != ROWS:
        return f"loaded again, the file has {counts[1]} rows", False
    if answers[4] not in (["same"], ["memory"]):
        return f"check: {answers[4]}", False
    return None, counts[0] != ROWS


def try_all(shell, words, folder, library):
    """The faults of the runs, and how many loads were refused."""
    whole = run(shell, words, folder, library, COUNTS=f"{folder}/counts")
    if fault_of(whole) != (None, False) or f"ok {ROWS} rows" not in whole.stdout:
        sys.exit(f"nothing is refused, and yet: {whole.stdout}{whole.stderr}")
    allocations = int(pathlib.Path(folder, "counts").read_text().split()[0])
    tried = [at for at in range(1, allocations + 1) if at <= 400 or at % 31 == 0]
    with concurrent.futures.ThreadPoolExecutor(os.cpu_count()) as pool:
        runs = pool.map(lambda at: run(shell, words, folder, library, FAIL_ALLOC=at, FAIL_ALLOCS=1 + at % 2), tried)
        found = [(at, *fault_of(ran)) for at, ran in zip(tried, runs)]
    faults = [f"{' '.join(words)} allocation {at}: {fault}" for at, fault, _ in found if fault]
    return faults, sum(is_refused for _, _, is_refused in found), len(tried)


def main():
    shell = os.path.abspath(sys.argv[1])
    faults, refused, tried = [], 0, 0
    with tempfile.TemporaryDirectory() as folder:
        library = failing_library(folder)
        pathlib.Path(folder, "view.toml").write_text(DOCUMENT)
        rows = "".join(f"{at % 7},{at}\n" for at in range(ROWS))
        pathlib.Path(folder, "rows.csv").write_text(f"k,v\n{rows}")
        for words in ([], ["--hall"]):
            more, loads, runs = try_all(shell, words, folder, library)
            faults, refused, tried = faults + more, refused + loads, tried + runs
    if refused < 50:
        faults.append(f"only {refused} loads are refused in part")
    for fault in faults:
        print(fault)
    print(f"{tried} allocations of sessions that load refused in turn, {refused} of their loads not whole, {len(faults)} otherwise")
    return 1 if faults else 0


if __name__ == "__main__":
    sys.exit(main())
