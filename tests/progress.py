#!/usr/bin/env python3
"""Whether `dfviews` tells its progress: progress.py PROGRAM.

At a terminal, here a pseudo terminal, a run that has taken more than a second tells so on standard error; a shorter one,
and one whose standard error is no terminal, tell nothing. The output is the same. Prints what went otherwise, and ends
with a count.
"""
import os
import re
import subprocess
import sys
import time

DOCUMENT = b"frame = [{name='t', columns=[['x', 'Int']], text=\"\"\"\nx\n1\n2\n3\n\"\"\"}]\nview = [{name='v', from='t'}]\n"
OUTPUT = b"v (3 x 1)\nx\n1\n2\n3\n"
LINES = rb"(dfviews: loading, \d chunks so far\r?\n)+"


def run(program, seconds, at_terminal):
    """The output, and what came on standard error, of a run whose document comes so many seconds late."""
    terminal, error = os.openpty() if at_terminal else os.pipe()
    words = [program, "--chunk", "1"]
    child = subprocess.Popen(words, stdin=subprocess.PIPE, stdout=subprocess.PIPE, stderr=error)
    os.close(error)
    time.sleep(seconds)
    output, _ = child.communicate(DOCUMENT)
    told = b""
    try:
        while block := os.read(terminal, 4096):
            told += block
    except OSError:  # how Linux ends the reading of a pseudo terminal that nobody writes to
        pass
    os.close(terminal)
    return output, told


def main():
    program = sys.argv[1]
    wrong = 0
    for seconds, at_terminal, wanted in [(1.2, True, LINES), (0, True, b""), (1.2, False, b"")]:
        output, told = run(program, seconds, at_terminal)
        if output != OUTPUT or not re.fullmatch(wanted, told):
            print(f"otherwise: {seconds} s late, at a terminal: {at_terminal}: {output!r}, {told!r}")
            wrong += 1
    print(f"progress: 3 runs, {wrong} otherwise")
    return wrong > 0


sys.exit(main())
