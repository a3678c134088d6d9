#!/usr/bin/env python3
"""Runs the program over documents and compares what it answers.

    cases.py PROGRAM [FILE..]             the cases of these files; without one those of tests/cases/*.toml
    cases.py PROGRAM --workers N [FILE..] the same by so many workers, where a case has no words of its own
    cases.py --export FOLDER [FILE..]     writes each document there in place of running it, with the words as
                                          NAME.args and the output as NAME.stdout, as `rt try --cases` reads
                                          them; a case with files of its own is left out

tests/README.md says how a case is written. Prints each case that differs, with what was wanted and what came, and
ends with a count. Python 3.11 or later, its own library alone.
"""

import concurrent.futures
import os
import pathlib
import re
import subprocess
import sys
import tempfile
import tomllib

# The keys that are no parts of a text.
RESERVED = {"name", "document", "words", "files", "prints", "fault", "status", "each"}
# A run that takes longer has no answer.
SECONDS = 60


class Case:
    """A document with its words and files, and what the program answers to it."""

    def __init__(self, name, keys):
        self.name, self.keys, self.used = name, keys, set()
        self.document = self.text(keys["document"]).encode()
        self.words = keys.get("words", [])
        self.files = {path: self.text(text).encode() for path, text in keys.get("files", {}).items()}
        if "fault" in keys:
            wanted = (2, "", f"dfviews: {self.text(keys['fault'])}\n")
        else:
            wanted = (keys.get("status", 0), self.text(keys["prints"]), "")
        self.wanted = (wanted[0], wanted[1].encode(), wanted[2].encode())

    def text(self, text):
        """The text, in which each <key> stands for the text of that key."""
        if isinstance(text, dict):
            parts = [text["repeat"].replace("#", str(number)) for number in range(1, text["times"] + 1)]
            text = text.get("between", "").join(parts)

        def part(match):
            self.used.add(match[1])
            return self.text(self.keys[match[1]])

        return re.sub(r"<(\w+)>", part, text)

    def run(self, program, words):
        """What differs, or None. The words are for a case that has none."""
        with tempfile.TemporaryDirectory() as folder:
            for path, contents in self.files.items():
                file = pathlib.Path(folder, path)
                file.parent.mkdir(parents=True, exist_ok=True)
                file.write_bytes(contents)
            line = [program, *(self.words or words)]
            try:
                run = subprocess.run(
                    line, input=self.document, capture_output=True, cwd=folder, timeout=SECONDS, check=False
                )
            except subprocess.TimeoutExpired:
                return f"differs: {self.name}\n  no answer within {SECONDS} seconds\n"
        came = (run.returncode, run.stdout, run.stderr)
        if came == self.wanted:
            return None
        return f"differs: {self.name}\n{shown('wanted', self.wanted)}{shown('came', came)}"


def shown(title, answer):
    status, output, error = answer
    lines = (output + error).decode(errors="replace").splitlines()
    return f"  {title}, status {status}:\n" + "".join(f"    {line}\n" for line in lines)


def cases_of(path):
    """The cases of a file. A case takes from the head of its file each key that it does not have itself."""
    head = tomllib.loads(path.read_text())
    written = head.pop("case")
    for case in written:
        used, own = set(), set(case) - RESERVED
        key, values = next(iter(case.get("each", {"name": [case["name"]]}).items()))
        for value in values:
            name = f"{path.name}: {case['name']}" + (f": {value}" if "each" in case else "")
            try:
                made = Case(name, head | case | {key: value})
            except KeyError as error:
                sys.exit(f"{name}: nothing says what {error} is")
            used |= made.used
            yield made
        if own - used:
            sys.exit(f"{path.name}: {case['name']}: nothing uses {own - used}")


def export(folder, cases):
    folder.mkdir(parents=True, exist_ok=True)
    for number, case in enumerate(case for case in cases if not case.files):
        name = folder / f"{number:03d}"
        name.write_bytes(case.document)
        name.with_suffix(".stdout").write_bytes(case.wanted[1])
        if case.words:
            name.with_suffix(".args").write_text("".join(f"{word}\n" for word in case.words))


def cases_of_files(paths):
    folder = pathlib.Path(__file__).parent / "cases"
    files = [pathlib.Path(path) for path in paths] or sorted(folder.glob("*.toml"))
    return [case for file in files for case in cases_of(file)]


def main(first, *rest):
    if first == "--export":
        export(pathlib.Path(rest[0]), cases_of_files(rest[1:]))
        return 0
    program, words = os.path.realpath(first), []
    if rest[:1] == ("--workers",):
        words, rest = [*rest[:2]], rest[2:]
    cases = cases_of_files(rest)
    with concurrent.futures.ThreadPoolExecutor(os.cpu_count()) as pool:
        differences = [text for text in pool.map(lambda case: case.run(program, words), cases) if text]
    print("".join(differences) + f"cases: {len(cases)} runs, {len(differences)} differ")
    return 1 if differences else 0


if __name__ == "__main__":
    sys.exit(main(*sys.argv[1:]))
