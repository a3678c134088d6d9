#!/usr/bin/env python3
"""Tries edits of the code that the prover must refuse:

    edits.py FOLDER [--proved | --beside LOG] [CRATE ..]      those of FOLDER/CRATE/*.edit, of these crates or of all
    edits.py FOLDER [--proved | --beside LOG] --since COMMIT  those of the crates that changed since then, and their edits

FOLDER is tests/must-fail, which ./test tries, or tests/wrong-bodies. An edit has lines `file: src/F.rt`, and pairs of
lines `old: TEXT`, which stands once in that file, and `new: TEXT`. It is refused where the function that it changes is
not proved with it; a line `proof: FUNCTION` names another function whose proof it must break. Only these proofs are
tried, with those of what it calls, over what the edits of the crate before it kept. Edits of different functions are
tried at once, since a function is proved by its own body and the contracts of what it calls; one that is not refused so
is tried again alone. Last the same proofs are tried without an edit: where one fails there, no edit of its crate counts
as refused. `--proved` leaves that out: `rt ci` has just proved the crates as they are. `--beside` does so too, while
`rt ci` runs and writes LOG: the edits of a crate are tried once LOG says that it is proved.

The libraries below a crate are taken as `rt ci` left them, or built by `rt lib`. Prints each edit with what refuses it,
and ends with a count of those that are refused. Python 3.11 or later."""

import argparse
import concurrent.futures
import dataclasses
import os
import pathlib
import re
import shutil
import subprocess
import sys
import tempfile
import time

HERE = pathlib.Path(__file__).resolve().parent.parent
PARTS = ("src", "specs", "proofs")


def kit():
    """The folder of the toolchain: `rt doc` prints the path of a page in it."""
    page = subprocess.run(["rt", "doc"], capture_output=True, text=True, check=True).stdout.strip()
    return pathlib.Path(page).parent


KIT = kit()


def used_libraries():
    """The libraries that each crate names, by crates.txt."""
    lines = (HERE / "crates.txt").read_text().split("\n")
    named = (line.split(":") for line in lines if line and not line.startswith("#"))
    return {crate: libraries.split() for crate, libraries in named}


USED = used_libraries()
# Where libraries stand that were linked aside.
ASIDE = {}


def built(crate):
    return ASIDE.get(crate, HERE / "crates" / crate / "out/rlib" / f"{crate}.rlib")


def below(crate):
    """The libraries of this repository under a crate."""
    found = []
    for name in USED[crate]:
        if name in USED:
            found += [it for it in [*below(name), name] if it not in found]
    return found


def words_of(crate):
    """The words by which the prover checks a crate."""
    root = "src/main.rt" if (HERE / "crates" / crate / "src/main.rt").exists() else "src/lib.rt"
    words = [f"{KIT}/bin/rattle", "check", "--crate-name", crate, root, "--jobs", "1", "--links", f"{crate}="]
    for name in ["std", *USED[crate]]:
        words += ["--extern", f"{name}={built(name) if name in USED else KIT / 'rlibs' / f'{name}.rlib'}"]
    words += ["-L", f"dependency={KIT}/rlibs"]
    for name in below(crate):
        words += ["-L", f"dependency={built(name).parent}"]
    return words + ["--antt-project", f"{KIT}/rattle/logic/antt-project.json", "--logic-built", f"{KIT}/logic_built"]


class BadEdit(Exception):
    """An edit that says nothing of a contract."""


def function_at(file, text, at):
    """The path of the function in which a place of a source file stands, if it stands in one."""
    module = [part for part in pathlib.PurePath(file).with_suffix("").parts[1:] if part not in ("lib", "main")]
    lines = text[:at].split("\n")
    lines[-1] = text[text.rfind("\n", 0, at) + 1 :].split("\n")[0]
    inner = len(lines[-1]) - len(lines[-1].lstrip()) + 1
    for line in reversed(lines):
        function = re.match(r"( *)(?:pub(?:\(\w+\))? )?(?:(?:const|unsafe|final) )*fn (\w+)", line)
        if function and len(function[1]) < inner:
            break
    else:
        return None
    if not function[1]:
        return "::".join([*module, function[2]])
    heads = (re.match(r"(?:impl|trait)\b(?:<[^>]*>)? ?(?:(\w+)[^{]*? for )?(\w+)", line) for line in reversed(lines))
    head = next(it for it in heads if it)
    # A method is named by its type, which may stand in another module.
    return f"{head[2]}{head[1] or ''}::{function[2]}"


@dataclasses.dataclass
class Edit:
    """An edit: its label, its changes (path, old text, new text), and the functions whose proofs it must break."""

    label: str
    changes: list
    functions: list
    # Whether these are just the functions that it changes.
    is_local: bool


def changed(text, path, old, new):
    if text.count(old) != 1:
        raise BadEdit(f"its text stands in {path} {text.count(old)} times, and not once")
    return text.replace(old, new)


def read_edit(file, crate):
    """The edit that a file has."""
    path, old, texts, changes, found, named = "", None, {}, [], [], []
    for line in file.read_text().split("\n"):
        word, _, rest = line.partition(": ")
        if word == "file":
            path = rest.strip()
            texts.setdefault(path, (HERE / "crates" / crate / path).read_text())
        elif word == "proof":
            named.append(rest.strip())
        elif word == "old":
            old = rest
        elif line.startswith("new:"):
            after = changed(texts[path], path, old, rest)
            found.append(function_at(path, texts[path], texts[path].index(old)))
            changes.append((path, old, rest))
            texts[path] = after
    functions = list(dict.fromkeys(named or filter(None, found)))
    if not functions:
        raise BadEdit("it changes no function: name one by a line 'proof: FUNCTION'")
    return Edit(f"{crate}/{file.name}", changes, functions, not named and None not in found)


def texts_with(crate, edits):
    """The files that these edits change, as they make them, by path."""
    texts = {}
    for path, old, new in (change for edit in edits for change in edit.changes):
        text = texts.get(path) or (HERE / "crates" / crate / path).read_text()
        texts[path] = changed(text, path, old, new)
    return texts


def checked(crate, texts, functions, kept):
    """What the prover says of these functions, or of the whole crate, with these texts in place of its own."""
    with tempfile.TemporaryDirectory(prefix="edit-") as room:
        for part in PARTS:
            if (HERE / "crates" / crate / part).is_dir():
                shutil.copytree(HERE / "crates" / crate / part, f"{room}/{part}")
        for path, text in texts.items():
            pathlib.Path(room, path).write_text(text)
        only = [word for function in functions for word in ("--only", function)]
        ran = subprocess.run(
            [*words_of(crate), *only, "--incremental", kept],
            cwd=room, stdin=subprocess.DEVNULL, stdout=subprocess.PIPE, stderr=subprocess.STDOUT, text=True, errors="replace",
        )
    return ran.returncode, ran.stdout


# Where a record or a module lacks a name, the prover may end its line behind the record or the module.
GONE = r"is not in scope|has no field|has no `|is no name|was not admitted|(record|module) `[^`]*`( \(nearest: .*\))?$"
TOLD = r"(\S+:\d+:\d+: error|note: \S+:\d+:\d+: )"
UNPROVED = r"fn (\S+): (no proof|not proved)"
UNCOVERED = r"fn \S+: no proof: .*the borrow checker does not cover.*"


def told_by(status, said):
    """The lines that tell what is not proved; raises where the prover did not come to a contract."""
    lines = said.rstrip("\n").split("\n")
    if status != 1 or not re.match(r"only=|logic=not-proved", lines[-1]):
        raise BadEdit(f"it did not come to the prover: {' | '.join(lines[:3])[:300]}")
    told = [line for line in lines if re.match(TOLD, line)]
    gone = [line for line in told if re.search(GONE, line)]
    if any(not line.startswith(("proofs/", "./proofs/")) for line in gone) or gone and gone == told:
        raise BadEdit(f"a name is gone: {gone[0][:300]}")
    if not any(re.match(UNPROVED, line) for line in lines):
        raise BadEdit(f"no function is refused: {lines[-1][:300]}")
    return [line for line in told if line not in gone]


def refusal(status, said):
    """Why the prover refuses, or None where it proves all; raises where the prover did not come to a contract."""
    if not status:
        return None
    told, uncovered = told_by(status, said), re.search(UNCOVERED, said)
    if uncovered and not told:
        raise BadEdit(f"no proof of it is begun: {uncovered[0][:300]}")
    return next(iter(told), "a goal is open")


def is_about(line, function, texts):
    """Whether what is told is of this function: of its body, or of its answers."""
    path, number, _ = re.match(r"(?:note: )?(?:\./)?(\S+?):(\d+):(\d+): ", line).groups()
    if path not in texts:
        return f"/{function.replace('::', '/')}/" in path
    return function_at(path, texts[path], len("\n".join(texts[path].split("\n")[: int(number)]))) == function


def refused_at_once(crate, edits, kept):
    """Why the prover refuses each of these edits, by label, tried all at once: those that it clearly refuses."""
    try:
        texts = texts_with(crate, edits)
        status, said = checked(crate, texts, [it for edit in edits for it in edit.functions], kept)
        told = told_by(status, said)
    except BadEdit:
        return {}
    unproved = [found[1] for found in map(re.compile(UNPROVED).match, said.split("\n")) if found]
    whys = {}
    for edit in edits:
        for function in edit.functions:
            why = next((line for line in told if is_about(line, function, texts)), None)
            if why and any(name.endswith(f"::{function}") for name in unproved):
                whys[edit.label] = why
    return whys


def try_edit(crate, edit, kept):
    """Whether the prover refuses an edit, tried alone, and what it says."""
    try:
        texts = texts_with(crate, [edit])
        why = refusal(*checked(crate, texts, edit.functions, kept))
        if why is None:
            why = refusal(*checked(crate, texts, [], kept))
            if why:
                return False, f"{edit.label}: refused only by {why[:200]}: name that function by a line 'proof: FUNCTION'"
    except (BadEdit, OSError) as fault:
        return False, f"{edit.label}: BAD EDIT: {fault}"
    if why is None:
        return False, f"{edit.label}: NOT REFUSED"
    return True, f"{edit.label}: refused: {why[:200]}"


def at_once(edits):
    """Groups of edits that change different functions. One that must break the proof of another function is alone."""
    groups = []
    for edit in edits:
        apart = (it for it in groups if it[0].is_local and not any({*edit.functions} & {*other.functions} for other in it))
        group = next(apart, None) if edit.is_local else None
        if group is None:
            groups.append([edit])
        else:
            group.append(edit)
    return groups


def build_below(crate):
    """Has `rt lib` build the libraries that a crate names, but for those that `rt ci` left: these have no stamp."""
    for name in USED[crate]:
        if name in USED and ((built(name).parent / "stamp").exists() or not built(name).exists()):
            subprocess.run(["rt", "lib", "--jobs", "1"], cwd=HERE / "crates" / name, stdout=subprocess.DEVNULL, check=True)


def link(file, to):
    try:
        os.link(file, to)
    except OSError:  # on another disk
        shutil.copy2(file, to)


def link_below(crate, folder):
    """Links the libraries under a crate into a folder: once `rt ci` ends, it puts back what stood there before it."""
    for name in below(crate):
        if name not in ASIDE:
            ASIDE[name] = shutil.copytree(built(name), folder / f"{name}.rlib", copy_function=link)


def proved_in(log, crates):
    """Those of these crates that an `rt ci` proves, each once its log says so. Ends when that run does."""
    waiting, line = {*crates}, ""
    with open(log) as lines:
        while waiting:
            line += lines.readline()
            if not line.endswith("\n"):
                time.sleep(1)
                continue
            told, line = line, ""
            if re.match(r"\d+ passed, \d+ failed", told):
                return
            proved = re.match(r"rt: (\w+) (proved$|is kept: )", told)
            if proved and proved[1] in waiting:
                waiting.remove(proved[1])
                yield proved[1]


def try_crate(crate, files, is_proved):
    """The answers of a crate's edits."""
    edits, answers = [], []
    for file in files:
        try:
            edits.append(read_edit(file, crate))
        except (BadEdit, OSError) as fault:
            answers.append((False, f"{crate}/{file.name}: BAD EDIT: {fault}"))
    functions = list(dict.fromkeys(it for edit in edits for it in edit.functions))
    with tempfile.TemporaryDirectory(prefix="edits-") as kept:
        for group in at_once(edits):
            whys = refused_at_once(crate, group, kept) if len(group) > 1 else {}
            for edit in group:
                why = whys.get(edit.label)
                answers.append((True, f"{edit.label}: refused: {why[:200]}") if why else try_edit(crate, edit, kept))
        status, said = checked(crate, {}, functions, kept) if functions and not is_proved else (0, "")
    if status == 0:
        return answers
    return [(False, f"{crate}: not proved without an edit: {said[-300:]}"), *((False, text) for _, text in answers)]


def changed_since(commit, folder):
    """The crates that changed since a commit, and those whose edits did."""
    names = subprocess.run(
        ["git", "diff", "--name-only", commit, "--", "crates", folder], cwd=HERE, capture_output=True, text=True, check=True
    ).stdout.split()
    return {pathlib.PurePath(name).relative_to("crates" if name.startswith("crates") else folder).parts[0] for name in names}


def main():
    words = argparse.ArgumentParser()
    words.add_argument("folder", type=pathlib.Path)
    words.add_argument("crates", nargs="*")
    words.add_argument("--since")
    words.add_argument("--proved", action="store_true")
    words.add_argument("--beside", metavar="LOG")
    asked = words.parse_intermixed_args()
    wanted = changed_since(asked.since, str(asked.folder)) if asked.since else asked.crates
    is_wanted = lambda crate: crate in wanted or not (asked.since or asked.crates)
    crates = {it.name: sorted(it.glob("*.edit")) for it in sorted((HERE / asked.folder).iterdir())}
    crates = {crate: files for crate, files in crates.items() if files and is_wanted(crate)}
    # The crates with the most below them take longest.
    order = sorted(crates, key=lambda crate: -len(below(crate)) * len(crates[crate]))
    lanes = int(os.environ.get("RT_JOBS", "") or os.cpu_count())
    tried = {}
    with tempfile.TemporaryDirectory(prefix="libraries-") as room, concurrent.futures.ThreadPoolExecutor(lanes) as pool:
        for crate in proved_in(asked.beside, crates) if asked.beside else order:
            if asked.beside:
                link_below(crate, pathlib.Path(room))
            else:
                build_below(crate)
            tried[crate] = pool.submit(try_crate, crate, crates[crate], asked.proved or asked.beside)
    answers = [it for found in tried.values() for it in found.result()]
    answers += [(False, f"{crate}: rt ci did not prove it") for crate in crates if crate not in tried]
    for _, text in answers:
        print(text)
    refused, edits = sum(is_refused for is_refused, _ in answers), sum(map(len, crates.values()))
    print(f"{refused} of {edits} edits refused")
    return 0 if refused == edits and edits else 1


if __name__ == "__main__":
    sys.exit(main())
