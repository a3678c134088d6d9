#!/usr/bin/env python3
"""Plans as documents: plans.py DFVIEWS DFSHELL.

Of each case of tests/cases that prints views, `dfshell` is asked for the `plan` of each view. A document of the same frames with
these answers in place of its views prints what the case prints. Left out are documents that Python's reader of TOML 1.0 does not
read, and names that no line of a session can have. Prints what went otherwise, and ends with a count.
"""
import concurrent.futures
import json
import os
import pathlib
import subprocess
import sys
import tempfile
import tomllib

import cases

# So many of the cases are to be tried at least.
LEAST = 100


def toml(text):
    """A text of TOML."""
    return json.dumps(text, ensure_ascii=False).replace("\x7f", "\\u007f")


def frames_of(document):
    """The frames of a document, as TOML."""
    written = []
    for frame in document.get("frame", []):
        columns = ", ".join(f"[{toml(name)}, {toml(kind)}]" for name, kind in frame["columns"])
        source = "path" if "path" in frame else "text"
        written.append(f"[[frame]]\nname = {toml(frame['name'])}\ncolumns = [{columns}]\n{source} = {toml(frame[source])}\n")
    return "".join(written)


def asked(names):
    """The commands for the plans of these views, or None where a name does not stand in a line."""
    if any("\n" in name or "\r" in name or "\0" in name for name in names):
        return None
    return "".join('plan "{}"\n'.format(name.replace('"', '""')) for name in names)


def run(words, typed, folder):
    ran = subprocess.run(words, input=typed, capture_output=True, cwd=folder, timeout=60, check=False)
    return ran.returncode, ran.stdout, ran.stderr


def fault_of(case, programs, folder):
    """What went otherwise, "" where nothing did, or None where the case is left out."""
    dfviews, dfshell = programs
    try:
        document = tomllib.loads(case.document.decode("utf-8-sig"))
    except tomllib.TOMLDecodeError:
        return None
    typed = asked([view["name"] for view in document.get("view", [])])
    if not typed:
        return None
    for path, contents in case.files.items():
        file = pathlib.Path(folder, path)
        file.parent.mkdir(parents=True, exist_ok=True)
        file.write_bytes(contents)
    pathlib.Path(folder, "the document.toml").write_bytes(case.document)
    status, told, error = run([dfshell, "the document.toml"], typed.encode(), folder)
    if (status, error) != (0, b""):
        return f"{case.name}: the shell ended with {status}, {error}"
    # The lines of refused chunks come first.
    views = told[told.index(b"[[view]]") :].decode() if b"[[view]]" in told else ""
    if views.count("[[view]]\n") != len(document["view"]):
        return f"{case.name}: not each view was written: {told}"
    came = run([dfviews, *case.words], (frames_of(document) + views).encode(), folder)
    return "" if came == case.wanted else f"{case.name}: with\n{views}\n{came}"


def tried(case, programs):
    with tempfile.TemporaryDirectory() as folder:
        return fault_of(case, programs, folder)


def main(*programs):
    programs = [os.path.realpath(program) for program in programs]
    chosen = [case for case in cases.cases_of_files([]) if case.wanted[0] != 2]
    with concurrent.futures.ThreadPoolExecutor(os.cpu_count()) as pool:
        told = [fault for fault in pool.map(lambda case: tried(case, programs), chosen) if fault is not None]
    wrong = [fault for fault in told if fault]
    if len(told) < LEAST:
        wrong.append(f"only {len(told)} cases were tried")
    print("".join(f"otherwise: {fault}\n" for fault in wrong) + f"plans: {len(told)} documents of {len(chosen)}, {len(wrong)} otherwise")
    return 1 if wrong else 0


if __name__ == "__main__":
    sys.exit(main(*sys.argv[1:]))
