#!/usr/bin/env python3
"""Sees `check` of the shell fail: flipped.py PROGRAM

That no view differs is proved, so nothing that is typed makes `check` answer otherwise. So this reaches into the memory of
a running dfshell: wherever a certain number stands there, one bit of it is turned over, `check` is asked, and the bit is
turned back. One of these places is the number's cell in the frame or in the view: there `check` has to answer `differs`,
and `same` again behind it. Prints how many places there were, and how many of them `check` told of.
"""

import os
import re
import subprocess
import sys
import tempfile

NUMBER = 0x1D2C3B4A59687786
DOCUMENT = """[[frame]]
name = "t"
columns = [["k", "Text"], ["v", "Int"]]
text = "k,v\\n"
[[view]]
name = "kept"
from = "t"
steps = [["filter", [">", ["col", "v"], 0]]]
"""
# Mappings larger than this are no heap of so small a session.
MOST_BYTES = 1 << 26


def places(process):
    """Where the number stands in memory that the process may write."""
    found = []
    with open(f"/proc/{process}/maps") as maps, open(f"/proc/{process}/mem", "rb") as memory:
        for line in maps:
            start, end = (int(part, 16) for part in line.split()[0].split("-"))
            if not re.match(r"\S+ rw", line) or end - start > MOST_BYTES:
                continue
            try:
                memory.seek(start)
                contents = memory.read(end - start)
            except (OSError, ValueError):
                continue
            wanted = NUMBER.to_bytes(8, "little")
            found += [start + match.start() for match in re.finditer(re.escape(wanted), contents)]
    return found


def flip(process, place):
    with open(f"/proc/{process}/mem", "r+b", buffering=0) as memory:
        memory.seek(place)
        byte = memory.read(1)
        memory.seek(place)
        memory.write(bytes([byte[0] ^ 1]))


def asked(shell, typed):
    shell.stdin.write(typed)
    shell.stdin.flush()
    return shell.stdout.readline()


def told(words):
    """How many places there are, at how many of them `check` tells of the bit, and what went otherwise."""
    shell = subprocess.Popen(words, stdin=subprocess.PIPE, stdout=subprocess.PIPE, text=True)
    wrong = []
    if asked(shell, f"append t 0 2\na,{NUMBER}\nb,1\n") != "ok\n" or asked(shell, "check\n") != "same\n":
        wrong.append("the session does not begin well")
    found, differing = places(shell.pid), 0
    for place in found:
        flip(shell.pid, place)
        answer = asked(shell, "check\n")
        flip(shell.pid, place)
        differing += answer == "differs kept\n"
        if answer not in ("same\n", "differs kept\n") or asked(shell, "check\n") != "same\n":
            wrong.append(f"a bit at {place:#x} is answered {answer!r}")
    shell.stdin.close()
    if shell.wait(60) != 0:
        wrong.append(f"status {shell.returncode}")
    return found, differing, wrong


def main():
    program, failed = os.path.realpath(sys.argv[1]), 0
    with tempfile.NamedTemporaryFile("w", suffix=".toml") as file:
        file.write(DOCUMENT)
        file.flush()
        for hall in ([], ["--hall"]):
            found, differing, wrong = told([program, *hall, file.name])
            print(*wrong, f"{' '.join(hall) or 'no hall'}: {len(found)} places, {differing} told by check", sep="\n")
            failed += bool(wrong) or differing == 0
    return 1 if failed else 0


if __name__ == "__main__":
    sys.exit(main())
