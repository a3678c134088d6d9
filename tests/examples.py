#!/usr/bin/env python3
"""Compares what documents print, as DOCUMENT.stdout and DOCUMENT.status have it, with what model.py computes of them:
examples.py DOCUMENT.. Paths of frames are taken from the working directory. No program is run."""

import pathlib
import sys

import model


def wanted(document):
    status = document.with_name(f"{document.name}.status")
    output = document.with_name(f"{document.name}.stdout")
    return int(status.read_text()) if status.exists() else 0, output.read_bytes(), b""


def main(*paths):
    wrong = 0
    for path in map(pathlib.Path, paths):
        answer = model.answer(path.read_bytes(), lambda file: pathlib.Path(file).read_bytes())
        if answer != wanted(path):
            print(f"{path}: the model answers {answer}, not {wanted(path)}")
            wrong += 1
    print(f"{len(paths)} documents, {wrong} differ")
    return 1 if wrong or not paths else 0


if __name__ == "__main__":
    sys.exit(main(*sys.argv[1:]))
