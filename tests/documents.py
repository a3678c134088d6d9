#!/usr/bin/env python3
"""documents.py: what the documents cite is there. Run it at the top of the repository.

1. Each name in backticks is a word of the crates, of tests, bench or examples, or a file of the repository (GUIDE's
   Polars names excepted).
2. Each path is a file or a folder.
3. The clauses that docs/PROMISES.md names of a call are that call's, and the edits that it names are those of the gate.

Prints what is not so, and ends with status 1 then."""

import pathlib
import re
import subprocess
import sys



def files():
    """The files of the repository; without git, all but what was built."""
    listed = subprocess.run(["git", "ls-files"], capture_output=True, text=True)
    if listed.returncode == 0:
        return [f for f in listed.stdout.split("\n") if f and pathlib.Path(f).exists()]
    found = (str(f) for f in pathlib.Path(".").rglob("*") if f.is_file())
    return sorted(f for f in found if "/out/" not in f and not f.startswith(".git/"))


FILES = files()
DOCS = ["README.md", *sorted(f for f in FILES if re.fullmatch(r"docs/\w+\.md", f)), "tests/README.md"]
# Words of the field, of the toolchain and of examples that stand for any name.
KNOWN = set("rt ci sqlite3 mlr clang cc Box sort NAME document toml stdout session sh py c md txt out main".split())
found = 0


def tell(where, text):
    global found
    found += 1
    print(f"{where}: {text}")


def known_words():
    words = set(KNOWN)
    for f in FILES:
        words.update(re.findall(r"\w+", f))
        if f.endswith((".rt", ".antt", ".sh", ".toml", ".py", ".c", ".session", ".txt")) or f == "test":
            words.update(re.findall(r"[A-Za-z_]\w*", pathlib.Path(f).read_text(errors="replace")))
    return words


def prose(path):
    fenced = False
    for number, line in enumerate(pathlib.Path(path).read_text().split("\n"), 1):
        if line.startswith("```"):
            fenced = not fenced
        elif not fenced:
            yield number, line


def check_names(path, words):
    for number, line in prose(path):
        for span in re.findall(r"`([^`]+)`", line):
            if re.fullmatch(r"[A-Za-z_][\w:.]*( [a-z]+)*(\(.*\))?", span):
                for name in re.findall(r"[A-Za-z_]\w*", span):
                    if name not in words:
                        tell(f"{path}:{number}", f"`{span}`: no {name}")


def check_paths(path):
    for number, line in prose(path):
        for cited in re.findall(r"(?<![\w/+.])[\w+./-]+\.(?:rt|antt|toml|sh|py|md|session|edit)\b", line):
            cited = re.sub(r"^(\.\./|\./)+", "", cited)
            if not any(f == cited or f.endswith("/" + cited) for f in FILES) and not re.search(r"NAME|document\.toml|^data/", cited):
                tell(f"{path}:{number}", f"no file {cited}")
        for cited in re.findall(r"(?:\w+/)?(?:proofs|specs|src|tests|examples|crates)/[\w+./-]*[\w+]", line):
            folder = cited.rstrip("/")
            if not re.search(r"\.\w+$|/out/|[A-Z]{4}", folder) and not any(f"/{folder}/" in f"/{f}" for f in FILES):
                tell(f"{path}:{number}", f"no folder {folder}")


def clauses():
    """Of each function name the names of the clauses of each function of that name."""
    all_clauses, name = {}, None
    for f in FILES:
        if re.fullmatch(r"crates/\w+/src/.*\.rt", f):
            for line in pathlib.Path(f).read_text().split("\n"):
                if m := re.match(r"\s*(?:pub(?:\(\w+\))? )?fn (\w+)", line):
                    name = m.group(1)
                    all_clauses.setdefault(name, []).append(set())
                elif (m := re.match(r"\s*ensures\s*(\w*)", line)) and name:
                    all_clauses[name][-1].add(m.group(1))
    return all_clauses


def check_promises():
    """Clauses that are named of calls are theirs, and the edits that are named are those of the gate."""
    have, text = clauses(), re.sub(r"\s+", " ", pathlib.Path("docs/PROMISES.md").read_text())
    names = r"(?:`[\w:]+`(?:, | and |(?=[ ;.,])))+"
    for said, calls in re.findall(rf"(?:by|[;.,]) ({names}) of ({names})", text):
        calls = [c.split("::")[-1] for c in re.findall(r"`([\w:]+)`", calls)]
        for call in calls:
            if call not in have:
                tell("docs/PROMISES.md", f"no function {call}")
        named = set().union(*(s for call in calls for s in have.get(call, [])))
        for clause in set(re.findall(r"`(\w+)`", said)) - named:
            tell("docs/PROMISES.md", f"no clause {clause} of {', '.join(calls)}")
    refused = " ".join(re.findall(r"- \*\*Refused\*\*: (.*?)(?: ## | - \*\*|$)", text))
    told = set(re.findall(r"`(\w+)`", refused))
    edits = {pathlib.Path(f).stem for f in FILES if f.startswith("tests/must-fail/")}
    for name in sorted(told ^ edits):
        tell("docs/PROMISES.md", f"the edit {name} is " + ("not in the gate" if name in told else "not told of"))


words = known_words()
for doc in DOCS:
    if doc != "docs/GUIDE.md":
        check_names(doc, words)
    check_paths(doc)
check_promises()
print(f"{found} citations of what is not there")
sys.exit(1 if found else 0)
