#!/usr/bin/env python3
"""tables.py PROGRAM [SEED]: what dfshell writes as CSV and as JSON, read by Python's readers and by dfshell itself.

Random rows with commas, quotes, line ends, empty texts and nulls stand in a frame. A view of them is shown as CSV, which Python's
csv reads as the same texts, and as JSON, whose lines Python's json reads as the same values. The rows of the frame, exported as CSV
and loaded by a session without a document, are written as the same bytes again.

An export that is refused leaves what stands under its path, and nothing beside it: where there is no folder, a folder stands there, a
file of another stands beside it, or the disk takes only a part of it."""

import csv
import io
import json
import pathlib
import random
import resource
import signal
import subprocess
import sys
import tempfile

PIECES = ["a", "null", ",", '"', '""', "\n", "\r", "\r\n", " ", "\\", "\t", "\u0007", "ö", "\U0001f600", "0", "true"]
COLUMNS = [("who", "Text"), ("text, or not", "Text"), ("n", "Int"), ("done", "Bool"), ('"', "Text")]
LIMIT = 2**63


def text(random):
    return "".join(random.choice(PIECES) for _ in range(random.randrange(1, 5)))


def cell(random, dtype):
    if random.random() < 0.3:
        return None
    if dtype == "Int":
        return random.choice([0, 1, -1, LIMIT - 1, -LIMIT, random.randrange(-LIMIT, LIMIT)])
    return random.random() < 0.5 if dtype == "Bool" else text(random)


def field(value):
    """A cell as it is read of CSV, where null and the empty text are alike."""
    return "" if value is None else str(value).lower() if isinstance(value, bool) else str(value)


def written(names, rows):
    """A table as Python writes it, each field in quotes."""
    out = io.StringIO()
    writer = csv.writer(out, quoting=csv.QUOTE_ALL, lineterminator="\n")
    writer.writerows([names, *[[field(value) for value in row] for row in rows]])
    return out.getvalue()


def read(table):
    return list(csv.reader(io.StringIO(table, newline=""), strict=True))


def answers(program, folder, words, typed):
    run = subprocess.run([program, *words], cwd=folder, input=typed.encode(), capture_output=True, check=True)
    if run.stderr:
        sys.exit(f"standard error: {run.stderr!r}")
    return run.stdout.decode()


def document(columns):
    """A document with one frame, whose rows are in a file, and a view of it in which no text is null."""
    filled = [[name, ["fill_null", ["col", name], ""]] for name, dtype in columns if dtype == "Text"]
    listed = json.dumps([list(column) for column in columns], ensure_ascii=False)
    return (
        f'[[frame]]\nname = "t"\ncolumns = {listed}\npath = "t.csv"\n'
        f'[[view]]\nname = "filled"\nfrom = "t"\nsteps = [["with_columns", {", ".join(map(json.dumps, filled))}]]\n'
        '[[view]]\nname = "t"\nfrom = "t"\n'
    )


def check(what, got, wanted):
    if got != wanted:
        sys.exit(f"{what}: {got!r} in place of {wanted!r}")


def one(program, folder, random):
    columns = random.sample(COLUMNS, random.randrange(1, len(COLUMNS) + 1))
    if not any(dtype == "Text" for _, dtype in columns):
        columns.append(("other", "Text"))
    names = [name for name, _ in columns]
    rows = [[cell(random, dtype) for _, dtype in columns] for _ in range(random.randrange(8))]
    filled = [["" if value is None and dtype == "Text" else value for value, (_, dtype) in zip(row, columns)] for row in rows]
    (folder / "t.toml").write_text(document(columns))
    (folder / "t.csv").write_text(written(names, rows), newline="")

    def shown(command):
        return answers(program, folder, ["t.toml"], f"{command}\n")

    for view, wanted in [("t", rows), ("filled", filled)]:
        check("CSV", read(shown(f"show {view} csv")), [names, *[[field(value) for value in row] for row in wanted]])
        objects = [json.loads(line, object_pairs_hook=list) for line in shown(f"show {view} json").split("\n")[:-1]]
        check("JSON", objects, [list(zip(names, row)) for row in wanted])
    numbered = shown("rows t csv")
    check("numbers", read(numbered), [["number", *names], *[[str(at), *map(field, row)] for at, row in enumerate(rows)]])
    # Null and the empty text are told apart by the bytes, but in a table of one column.
    if len(columns) > 1:
        empty = sum(value == "" for row in filled for value in row)
        check("empty texts", count_empty(shown("show filled csv")), empty)
        check("empty texts", count_empty(shown("show t csv")), 0)

    # What is written is loaded again.
    (folder / "again.csv").write_text("an older file")
    rows_told = f"{len(rows)} row{'' if len(rows) == 1 else 's'}"
    check("exported", shown("export t again.csv"), f"ok {rows_told}\n")
    check("the file", (folder / "again.csv").read_bytes(), shown("show t csv").encode())
    check("files", sorted(file.name for file in folder.iterdir()), ["again.csv", "t.csv", "t.toml"])
    declared = " ".join(f'"{name.replace(chr(34), chr(34) * 2)}" {dtype}' for name, dtype in columns)
    again = answers(program, folder, [], f"frame t {declared}\nload t again.csv\nrows t csv\n")
    loaded = f"ok {rows_told}" + (f", 0..{len(rows) - 1}" if rows else "")
    check("loaded", again, f"ok\n{loaded}\n{numbered}")


def small_files():
    """No file may have more than 100 bytes, and a write beyond fails."""
    signal.signal(signal.SIGXFSZ, signal.SIG_IGN)
    resource.setrlimit(resource.RLIMIT_FSIZE, (100, 100))


def refused(program, folder):
    """Exports that are refused, with all that the folder has afterwards."""
    files = {"d.toml": document(COLUMNS[:1]), "t.csv": "who\n" + "a name of some length\n" * 10, "old.csv": "older", "held.csv": "older", "held.csv.part": "theirs"}
    for name, text in files.items():
        (folder / name).write_text(text)
    (folder / "folder").mkdir()
    for path, code in [("old.csv", "W2"), ("new.csv", "W2"), ("held.csv", "W1"), ("none/new.csv", "W1"), ("folder", "W3")]:
        limit = small_files if code == "W2" else None
        run = subprocess.run([program, "d.toml"], cwd=folder, input=f"export t {path}\nviews\n".encode(), capture_output=True, preexec_fn=limit, check=True)
        lines = run.stdout.decode().split("\n")
        check(path, (lines[0].split(":")[0], lines[1:]), (code, ["filled", "t", ""]))
        check(path, {file.name: file.read_text() for file in folder.iterdir() if file.is_file()}, files)
        check(path, list((folder / "folder").iterdir()), [])
    check("written", answers(program, folder, ["d.toml"], "export t old.csv\n"), "ok 10 rows\n")
    check("written", (folder / "old.csv").read_text(), files["t.csv"])


def count_empty(table):
    """How many fields of a table are two quotes."""
    count, at, quoted = 0, 0, False
    for at, character in enumerate(table):
        if character == '"':
            starts = not quoted and (at == 0 or table[at - 1] in ",\n")
            ends = table[at + 1 : at + 2] == '"' and table[at + 2 : at + 3] in (",", "\n")
            count += starts and ends
            quoted = not quoted
    return count


def main():
    program = str(pathlib.Path(sys.argv[1]).resolve())
    seed = int(sys.argv[2]) if len(sys.argv) > 2 else 1
    with tempfile.TemporaryDirectory() as name:
        for at in range(50):
            one(program, pathlib.Path(name), random.Random(seed * 1000 + at))
    with tempfile.TemporaryDirectory() as name:
        refused(program, pathlib.Path(name))
    print("50 tables, written and read; 5 exports refused")


if __name__ == "__main__":
    main()
