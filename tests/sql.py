#!/usr/bin/env python3
"""Views in a real PostgreSQL: sql.py DFSHELL [DOCUMENTS [SEED]]

Starts a PostgreSQL of its own on a socket. There the script of `dfshell --sql` makes the frames and views of each case of
tests/cases, of tests/sessions/sql_names.toml and of so many random documents, and fills the frames by what `rows FRAME csv` answers. Each
view has to be what `show VIEW` prints: the same columns and rows in the same order. `sql VIEW` has to answer statements of the
script. A script that says that it is not exact has to be of a document with a name or a text that PostgreSQL does not take, and
the other way round; such ones are counted, and not tried. Where no PostgreSQL from 15 on is installed, one line says so. Prints what went
otherwise, and ends with counts.
"""

import concurrent.futures
import contextlib
import glob
import os
import pathlib
import pwd
import queue
import random
import re
import subprocess
import sys
import tempfile
import tomllib

import cases
import live
import model
import siege

HERE = pathlib.Path(__file__).resolve().parent
# So many of the cases are to be tried at least.
LEAST = 150
NOT_EXACT = "-- Not exact: "
ESCAPES = {"b": "\b", "f": "\f", "n": "\n", "r": "\r", "t": "\t", "v": "\v"}


# The server.


def tools():
    """The folder of the programs of the newest PostgreSQL from 15 on, or None."""
    folders = {float(path.split("/")[-2]): path for path in glob.glob("/usr/lib/postgresql/*/bin")}
    programs = ["initdb", "pg_ctl", "psql"]
    whole = [number for number, path in folders.items() if number >= 15 and all(os.path.exists(f"{path}/{program}") for program in programs)]
    return folders[max(whole)] if whole else None


def as_server(words):
    """The words that run a command as one who may run a server: root may not."""
    if os.geteuid() != 0:
        return words
    names = {user.pw_name for user in pwd.getpwall()}
    user = "postgres" if "postgres" in names else "nobody"
    return ["setpriv", f"--reuid={user}", f"--regid={pwd.getpwnam(user).pw_gid}", "--clear-groups", *words]


@contextlib.contextmanager
def server(bin_folder):
    """A server in a folder of its own, which is its socket's too."""
    with tempfile.TemporaryDirectory(dir="/tmp") as folder:
        os.chmod(folder, 0o777)
        data, quiet = f"{folder}/data", dict(cwd="/tmp", stdout=subprocess.DEVNULL, stdin=subprocess.DEVNULL)
        # Texts are in an order of words, where a statement does not say otherwise.
        made = [f"{bin_folder}/initdb", "-D", data, "--no-sync", "-E", "UTF8", "--locale=C.UTF-8", "--locale-provider=icu", "--icu-locale=en"]
        made += ["-A", "trust", "-U", "tester"]
        subprocess.run(as_server(made), check=True, **quiet)
        options = f"-c listen_addresses='' -c fsync=off -c autovacuum=off -k {folder}"
        control = [f"{bin_folder}/pg_ctl", "-D", data, "-w", "-l", f"{folder}/log"]
        subprocess.run(as_server([*control, "-o", options, "start"]), check=True, **quiet)
        try:
            yield [f"{bin_folder}/psql", "-h", folder, "-U", "tester", "-X", "-q", "-v", "ON_ERROR_STOP=1"]
        finally:
            subprocess.run(as_server([*control, "-m", "immediate", "stop"]), check=True, **quiet)


# What the shell answers.


def quoted(name):
    return '"' + name.replace('"', '""') + '"'


def answers(dfshell, folder, commands):
    """The texts that the shell answers to commands over the document of the folder."""
    words = [dfshell, "--framed", "views.toml"]
    run = subprocess.run(words, input="".join(commands).encode(), capture_output=True, cwd=folder, check=False, timeout=60)
    if (run.returncode, run.stderr) != (0, b""):
        raise ValueError(f"the shell ended with {run.returncode}, {run.stderr}")
    # A line ends at a line feed alone.
    lines, texts = re.findall(r"[^\n]*\n", run.stdout.decode()), []
    while lines:
        word, count = re.fullmatch(r"(ready|ok|error) (\d+).*\n", lines[0]).groups()
        if word == "error":
            raise ValueError(f"the shell refuses: {lines[:3]}")
        texts.append("".join(lines[1 : int(count) + 1]))
        lines = lines[int(count) + 1 :]
    return texts[1:]


# What PostgreSQL has.


def cell(field):
    """The text of a field that COPY wrote, or None."""
    return None if field == r"\N" else re.sub(r"\\(.)", lambda match: ESCAPES.get(match[1], match[1]), field)


def value(kind, text):
    if text is None or kind == "Text":
        return text
    if kind == "Frac":
        return tuple(map(int, text.split("/")))
    return text == "t" if kind == "Bool" else int(text)


def printed(name, kinds, copied):
    """The table that COPY wrote with its names, as the programs print it."""
    header, *rows = [[cell(field) for field in line.split("\t")] for line in copied.split("\n")[:-1]]
    columns = zip(header, kinds, zip(*rows) if rows else [[] for _ in header])
    return model.printed(name, {column: (kind, [value(kind, text) for text in texts]) for column, kind, texts in columns})


def is_taken(text):
    """Whether PostgreSQL takes a name."""
    return 0 < len(text.encode()) <= 63 and "\0" not in text


def in_expression(expression):
    """The names and the texts of an expression."""
    if not isinstance(expression, list):
        return [], [expression] if isinstance(expression, str) else []
    word, *operands = expression
    if word in ("col", "null"):
        return operands if word == "col" else [], []
    parts = [in_expression(operand) for operand in operands]
    return [name for names, _ in parts for name in names], [text for _, texts in parts for text in texts]


def in_step(step):
    """The names and the texts of a step."""
    word, *items = step
    if word == "filter":
        return in_expression(items[0])
    if word in ("select", "with_columns"):
        parts = [in_expression(expression) for _, expression in items]
        names = [name for name, _ in items] + [name for names, _ in parts for name in names]
        return names, [text for _, texts in parts for text in texts]
    if word == "group_by":
        return items[0] + [name for aggregate in items[1:] for name in aggregate], []
    if word == "join":
        right = items[2] if isinstance(items[2], dict) else {"from": items[2]}
        names, texts = in_steps(right)
        return items[1] + names, texts
    return [name for name in items if isinstance(name, str)], []


def in_steps(view):
    """The names and the texts of a view, or of the right side of a join."""
    parts = [in_step(step) for step in view.get("steps", [])]
    return [view["from"]] + [name for names, _ in parts for name in names], [text for _, texts in parts for text in texts]


def is_exact(document):
    """Whether PostgreSQL takes all names and texts of a document."""
    names = [name for frame in document.get("frame", []) for name in [frame["name"]] + [name for name, _ in frame["columns"]]]
    texts = []
    for view in document.get("view", []):
        within = in_steps(view)
        names += [view["name"], *within[0]]
        texts += within[1]
    return all(map(is_taken, names)) and not any("\0" in text for text in texts)


# A document.


def otherwise(document, folder, dfshell, psql):
    """What went otherwise over the document in a folder: "" where nothing did, "not exact" where the script says that it is not, or
    None where the shell cannot be asked for it."""
    names = [frame["name"] for frame in document.get("frame", [])]
    views = [view["name"] for view in document.get("view", [])]
    if any(set(name) & set("\n\r\0") for name in names + views) or any("/" in name for name in names):
        return None
    run = subprocess.run([dfshell, "--sql", "views.toml"], capture_output=True, cwd=folder, check=False, timeout=60)
    if (run.returncode, run.stderr) != (0, b""):
        return f"--sql ended with {run.returncode}, {run.stderr}"
    script = run.stdout.decode()
    if (NOT_EXACT in script) == is_exact(document):
        return f"exact or not:\n{script}"
    if NOT_EXACT in script:
        return "not exact"
    commands = [f"rows {quoted(name)} csv\n" for name in names]
    commands += [f"{word} {quoted(view)}\n" for view in views for word in ("show", "sql")]
    told = answers(dfshell, folder, commands)
    for name in names:
        pathlib.Path(folder, f"{name}.csv").write_text(told.pop(0), newline="")
    statements = [text for text in told[1::2] if not all(block in script for block in text.split("\n\n"))]
    if statements:
        return f"no statements of the script: {statements[0]}"
    return differing(script, list(zip(views, kinds_of(document), told[0::2])), folder, psql)


def kinds_of(document):
    """The types of the columns of each view, as the model has them over frames without rows."""
    frames = {frame["name"]: {name: (kind, []) for name, kind in frame["columns"]} for frame in document.get("frame", [])}
    tables = [model.viewed(view["from"], view.get("steps", []), frames) for view in document.get("view", [])]
    return [[kind for kind, _ in table.values()] for table in tables]


def differing(script, views, folder, psql):
    """What differs between the views that a script makes and what the shell told of them: each a name, the types of its columns, and
    a table."""
    asked = [f"COPY (SELECT * FROM views.{quoted(name)}) TO STDOUT WITH (HEADER);\n\\echo ====\n" for name, _, _ in views]
    begin = "SET client_min_messages = warning;\nDROP SCHEMA IF EXISTS frames, views CASCADE;\n"
    run = subprocess.run(psql, input=(begin + script + "".join(asked)).encode(), capture_output=True, cwd=folder, check=False, timeout=120)
    if (run.returncode, run.stderr) != (0, b""):
        return f"psql ended with {run.returncode}, {run.stderr.decode()}\n{script}"
    for (name, kinds, shown), copied in zip(views, run.stdout.decode().split("====\n")):
        table = printed(name, kinds, copied)
        if table != shown:
            return f"view {name}:\n{table[:2000]}in place of\n{shown[:2000]}of\n{script}"
    return ""


def of_case(case, folder):
    """The document of a case, which is written there with its files, or None where Python does not read it."""
    try:
        document = tomllib.loads(case.document.decode("utf-8-sig"))
    except tomllib.TOMLDecodeError:
        return None
    for path, contents in case.files.items():
        file = pathlib.Path(folder, path)
        file.parent.mkdir(parents=True, exist_ok=True)
        file.write_bytes(contents)
    # Where the words name the document, it is one of these files; any other was standard input.
    pathlib.Path(folder, "views.toml").write_bytes(case.document)
    return document


def of_seed(seed, folder):
    """A random document, which is written there with its files."""
    source, frames = random.Random(seed), {}
    for name, columns in live.FRAMES:
        file = siege.File(source, columns)
        siege.written(folder, f"{name}.csv", file.bytes)
        frames[name], _ = model.loaded({"name": name, "columns": columns}, file.records)
    views = [view for view in live.views_of(source) if siege.small_table(view[1], view[2], frames) is not None]
    text = siege.document(views)
    siege.written(folder, "views.toml", text.encode())
    return tomllib.loads(text)


def main(dfshell, documents="100", seed="20261129"):
    dfshell, bin_folder = os.path.realpath(dfshell), tools()
    if bin_folder is None:
        print("sql: no PostgreSQL from 15 on is installed: skipped")
        return 0
    wanted = [case for case in cases.cases_of_files([]) if case.wanted[0] != 2]
    named = (HERE / "sessions/sql_names.toml").read_bytes()
    with server(bin_folder) as psql, concurrent.futures.ThreadPoolExecutor(os.cpu_count()) as pool:
        databases = queue.Queue()
        for number in range(os.cpu_count()):
            subprocess.run([*psql, "-d", "postgres", "-c", f"CREATE DATABASE d{number}"], check=True)
            databases.put(f"d{number}")

        def tried(made):
            database = databases.get()
            try:
                with tempfile.TemporaryDirectory() as folder:
                    document = made(folder)
                    return None if document is None else otherwise(document, folder, dfshell, [*psql, "-d", database])
            finally:
                databases.put(database)

        def named_document(folder):
            siege.written(folder, "views.toml", named)
            return tomllib.loads(named.decode())

        kinds = [(case.name, lambda folder, case=case: of_case(case, folder)) for case in wanted]
        kinds += [("tests/sessions/sql_names.toml", named_document)]
        kinds += [(f"seed {at}", lambda folder, at=at: of_seed(at, folder)) for at in range(int(seed), int(seed) + int(documents))]
        told = list(pool.map(lambda kind: tried(kind[1]), kinds))
    wrong = [f"{name}: {fault}" for (name, _), fault in zip(kinds, told) if fault not in (None, "", "not exact")]
    equal = sum(fault == "" for fault in told[: len(wanted)])
    if equal < LEAST and not wrong:
        wrong.append(f"only {equal} cases were tried")
    print("".join(f"otherwise: {fault}\n" for fault in wrong) + f"sql: {equal} cases of {len(wanted)} and {told[len(wanted):].count('')} documents are the same, {told.count('not exact')} are said not to be exact, {len(wrong)} otherwise")
    return 1 if wrong else 0


if __name__ == "__main__":
    sys.exit(main(*sys.argv[1:]))
