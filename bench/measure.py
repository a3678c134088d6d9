#!/usr/bin/env python3
"""Runs a command and prints how long it took and the most memory that it had: measure.py NAME COMMAND.."""

import os
import resource
import subprocess
import sys
import tempfile
import time

TIME = "/usr/bin/time"
name, command = sys.argv[1], sys.argv[2:]
with tempfile.NamedTemporaryFile("r") as report:
    # Without it the number has what Python's own start takes as its least.
    if os.path.exists(TIME):
        command = [TIME, "-f", "%M", "-o", report.name, *command]
    start = time.monotonic()
    ended = subprocess.run(command, stdout=subprocess.DEVNULL, check=False)
    seconds = time.monotonic() - start
    lines = report.read().split()
peak = int(lines[-1]) if lines else resource.getrusage(resource.RUSAGE_CHILDREN).ru_maxrss
print(f"{name:24} {seconds:8.2f} s {peak / 1024:8.0f} MB   status {ended.returncode}")
