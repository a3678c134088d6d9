#!/usr/bin/env python3
"""snapshots.py PROGRAM [ROUNDS]: what taking snapshots costs the reader, the loaders and the memory.

PROGRAM is what snapshots.sh builds. Runs each mode in turn, ROUNDS times, and prints of each mode its quickest run,
and the seconds of its slowest and the rates of all; then how the modes compare, and what a kept version takes beside
the table that it shares.
"""

import os
import re
import subprocess
import sys
import time

MODES = ("alone", "free", "locked", "kept")
SAID = re.compile(rb"(\d+) snapshots of (\d+) versions, (\d+) rows\n")


def run(program, mode):
    """The seconds of one run, the most megabytes that it had, its snapshots, versions and rows."""
    start = time.monotonic()
    with subprocess.Popen([program, mode], stdout=subprocess.PIPE) as running:
        said = SAID.fullmatch(running.stdout.read())
        _, status, used = os.wait4(running.pid, 0)
        seconds = time.monotonic() - start
        running.returncode = os.waitstatus_to_exitcode(status)
    if running.returncode or not said:
        sys.exit(f"{mode}: the program ended with status {running.returncode}")
    return (seconds, used.ru_maxrss / 1024, *map(int, said.groups()))


def main():
    program = os.path.abspath(sys.argv[1])
    rounds = int(sys.argv[2]) if len(sys.argv) > 2 else 3
    runs = [{mode: run(program, mode) for mode in MODES} for _ in range(rounds)]
    best = {mode: min(each[mode] for each in runs) for mode in MODES}
    print(f"{'mode':8}  seconds  slowest  megabytes     rows  versions  snapshots a second, least and most")
    for mode, (seconds, megabytes, snapshots, versions, rows) in best.items():
        slowest = max(each[mode][0] for each in runs)
        rates = [each[mode][2] / each[mode][0] for each in runs]
        print(
            f"{mode:8}{seconds:9.2f}{slowest:9.2f}{megabytes:11.0f}{rows:9}{versions:10}"
            f"{snapshots / seconds:20.0f}{min(rates):14.0f}{max(rates):14.0f}"
        )
    for mode in ("free", "locked"):
        print(f"{mode}: the loaders take {best[mode][0] / best['alone'][0]:.2f} times as long as alone")
    more = best["kept"][1] - min(each["free"][1] for each in runs)
    print(f"kept: {more * 1024 / best['kept'][3]:.0f} kB a version")


if __name__ == "__main__":
    main()
