#!/usr/bin/env python3
"""What the program answers to each prefix of a document, or of a frame's file, compared with model.py.

    prefixes.py PROGRAM DOCUMENT         runs PROGRAM over each prefix of DOCUMENT; the files of its frames are whole
    prefixes.py PROGRAM DOCUMENT FILE    runs PROGRAM over DOCUMENT and each prefix of FILE, a frame's path; the files of
                                         other frames are whole

DOCUMENT.stdout, where it is there, has to be the model's own output for the whole. Prints what went otherwise,
and ends with a line of two numbers: the runs, and those that went otherwise.
"""

import os
import shutil
import subprocess
import sys
import tempfile
import tomllib

import model


def contents(path):
    with open(path, "rb") as file:
        return file.read()


def main(program, document_path, file_path=None):
    program = os.path.realpath(program)
    document = contents(document_path)
    whole = contents(file_path or document_path)
    runs = wrong = 0

    def check(case, want, got):
        nonlocal runs, wrong
        runs += 1
        if want != got:
            wrong += 1
            print(f"otherwise at {case}: {got}, not {want}")

    expected = document_path + ".stdout"
    if os.path.exists(expected):
        check("the model", contents(expected), model.answer(document, contents)[1])
    with tempfile.TemporaryDirectory() as folder:
        for frame in tomllib.loads(document.decode())["frame"]:
            if "path" in frame:
                shutil.copy(frame["path"], folder)
        for length in range(len(whole) + 1):
            prefix = whole[:length]
            if file_path:
                with open(os.path.join(folder, os.path.basename(file_path)), "wb") as file:
                    file.write(prefix)
                want = model.answer(document, lambda path: prefix if path == file_path else contents(path))
            else:
                want = model.answer(prefix, contents)
            given = document if file_path else prefix
            run = subprocess.run([program], input=given, capture_output=True, cwd=folder, check=False)
            got = (run.returncode, run.stdout, run.stderr)
            check(f"{length} bytes of {file_path or document_path}", want, got)
    print(runs, wrong)


if __name__ == "__main__":
    main(*sys.argv[1:])
