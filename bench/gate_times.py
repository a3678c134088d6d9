#!/usr/bin/env python3
"""gate_times.py COMMAND..: runs the gate, say `rt ci --anew`, and prints a table, of which docs/GATE.md has the dearest crates:
what each crate's proof, tests and edits cost, which crate it waits for longest, and the sum of the proofs up to its own; last, in what
time four idle processors would do all this.

It looks at the processes of `rattle` every half second and keeps the processor time of each, so a process that ends
within that time is missed. Ends with the command's status. Linux, Python 3.11 or later."""

import collections
import os
import pathlib
import subprocess
import sys
import time

HERE = pathlib.Path(__file__).resolve().parent.parent
TICKS = os.sysconf("SC_CLK_TCK")


def below(pid):
    """The process and all that it started, but those that end meanwhile."""
    found = [pid]
    try:
        for children in pathlib.Path(f"/proc/{pid}/task").glob("*/children"):
            for child in children.read_text().split():
                found += below(int(child))
    except OSError:
        pass
    return found


def look(pid, seconds):
    """Keeps the processor seconds of a process under its crate and what is done there."""
    process = pathlib.Path(f"/proc/{pid}")
    try:
        words = (process / "cmdline").read_text().split("\0")
        folder = os.readlink(process / "cwd")
        fields = (process / "stat").read_text().rsplit(")", 1)[1].split()
    except OSError:
        return  # it has ended
    if "--crate-name" in words:
        crate = words[words.index("--crate-name") + 1]
        part = "edits" if "edit-" in folder else "tests" if "--test" in words else words[1]
        seconds[crate, part, pid] = (int(fields[11]) + int(fields[12])) / TICKS


def libraries():
    """The libraries of this repository that each of its crates uses, by crates.txt."""
    lines = (HERE / "crates.txt").read_text().split("\n")
    used = dict(line.split(":") for line in lines if line and not line.startswith("#"))
    return {crate: [name for name in names.split() if name in used] for crate, names in used.items()}


def chains(used, proofs):
    """Of each crate the library that is proved last of those that it waits for, and the seconds until its own proof ends."""
    ends, waits = {}, {}
    while len(ends) < len(used):
        for crate, names in used.items():
            if crate not in ends and all(name in ends for name in names):
                waits[crate] = max(names, key=ends.get, default=None)
                ends[crate] = proofs[crate] + ends.get(waits[crate], 0)
    return waits, ends


def clock(used, sums, processors):
    """The seconds in which so many idle processors do it all: a crate's proof once those of the crates that it uses are done, then its tests
    and its edits, first what has most waiting behind it, and edits last."""
    tasks = {key: seconds for key, seconds in sums.items() if key[0] in used}
    needs = {(crate, part): [(name, "proof") for name in used[crate]] if part == "proof" else [(crate, "proof")] for crate, part in tasks}
    behind = {}

    def length(task):
        if task not in behind:
            behind[task] = tasks[task] + max((length(other) for other in tasks if task in needs[other]), default=0)
        return behind[task]

    now, done, running, left = 0, set(), [], sorted(tasks, key=lambda task: (task[1] == "edits", -length(task)))
    while left or running:
        for task in [it for it in left if done.issuperset(needs[it])][: processors - len(running)]:
            left.remove(task)
            running.append((now + tasks[task], task))
        if not running:  # what is left waits for a crate that was not proved
            break
        now, task = min(running)
        running.remove((now, task))
        done.add(task)
    return now


def table(seconds):
    sums = collections.Counter()
    for (crate, part, _), spent in seconds.items():
        sums[crate, part if part in ("edits", "tests") else "proof"] += spent
    used = libraries()
    waits, ends = chains(used, {crate: sums[crate, "proof"] for crate in used})
    yield "| Crate | Proof | Tests | Edits | Waits for | Proved after |"
    yield "|---|---|---|---|---|---|"
    for crate in sorted(used, key=ends.get):
        costs = [f"{sums[crate, part]:.0f}" if sums[crate, part] else "" for part in ("proof", "tests", "edits")]
        waited = f"`{waits[crate]}`" if waits[crate] else ""
        yield f"| `{crate}` | {' | '.join(costs)} | {waited} | {ends[crate] / 60:.0f} |"
    minutes = [sum(sums.values()) / 60, max(ends.values()) / 60, clock(used, sums, 4) / 60]
    yield "in all {:.0f} processor minutes, the longest chain {:.0f}; four idle processors need {:.0f}".format(*minutes)


def main():
    begin, seconds = time.time(), {}
    gate = subprocess.Popen(sys.argv[1:])
    while gate.poll() is None:
        for pid in below(gate.pid):
            look(pid, seconds)
        time.sleep(0.5)
    for line in table(seconds):
        print(line)
    print(f"{(time.time() - begin) / 60:.0f} minutes by the clock")
    return gate.returncode


if __name__ == "__main__":
    sys.exit(main())
