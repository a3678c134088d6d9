#!/usr/bin/env python3
"""proof_times.py CRATE [MOST]: what the parts of a crate's proof cost, the dearest first.

Proves the crate from nothing with one job, so that the time between two files that the prover keeps is what the
later one took: a function's logic (`Lts`: each path to each exit with what is dropped on it), its goals, its answers,
or a file of lemmas. Ends with the sum by function. Python 3.11 or later."""

import collections
import pathlib
import shutil
import subprocess
import sys

HERE = pathlib.Path(__file__).resolve().parent.parent


def kept_files(crate):
    """The kept files in the order in which they were written: (second, part)."""
    files = (HERE / "crates" / crate / "out/incremental").glob("*/*.oantt")
    return sorted((file.stat().st_mtime, file.stem.removeprefix(f"Rattle-{crate}")) for file in files)


def main():
    crate, most = sys.argv[1], int(sys.argv[2]) if len(sys.argv) > 2 else 40
    folder = HERE / "crates" / crate
    shutil.rmtree(folder / "out", ignore_errors=True)
    checked = subprocess.run(["rt", "check", "--jobs", "1"], cwd=folder).returncode
    files = kept_files(crate)
    parts = sorted(((end - begin, name) for (begin, _), (end, name) in zip(files, files[1:])), reverse=True)
    functions = collections.Counter()
    for seconds, name in parts:
        functions[name.lstrip("-.").rpartition(".")[0]] += seconds
    for seconds, name in parts[:most]:
        print(f"{seconds:7.1f} s  {name}")
    print("by function")
    for name, seconds in functions.most_common(most):
        print(f"{seconds:7.1f} s  {name}")
    return checked


if __name__ == "__main__":
    sys.exit(main())
