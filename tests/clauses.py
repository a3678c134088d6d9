#!/usr/bin/env python3
"""clauses.py [--write]: docs/CLAUSES.md, the index of clauses, says what the crates say. Run it at the top of the repository.

The index has each public call of each library whose clauses have names, with these names, and then those that have no clause.
With --write it is made anew; else it is compared, and the status is 1 where it differs."""

import pathlib
import re
import sys

PAGE = pathlib.Path("docs/CLAUSES.md")
HEAD = """# Clauses

What is proved of each public call: the names of its clauses, as they stand in the code above its body. `requires` is what a caller
must show, `ensures` what the call promises; `-` is a clause without a name. A call that is not listed has one `ensures`, without a name.
[PROMISES.md](PROMISES.md) says in words what the most important ones mean together. Made by `tests/clauses.py --write`.
"""
TESTS = {"df_tests", "df_load_tests"}


def libraries():
    """The libraries in the order of crates.txt, those with the tests left out."""
    names = [line.split(":")[0] for line in pathlib.Path("crates.txt").read_text().split("\n") if ":" in line and line[0] != "#"]
    return [name for name in names if name not in TESTS and pathlib.Path("crates", name, "src/lib.rt").exists()]


def offered(crate):
    """Of each module the names that the library offers."""
    names = {}
    text = pathlib.Path("crates", crate, "src/lib.rt").read_text()
    for module, several, one in re.findall(r"^pub use (?:crate::)?(\w+)::(?:\{([^}]*)\}|(\w+));", text, re.M):
        names.setdefault(module, set()).update(re.findall(r"\w+", several or one))
    return names


def calls(path, public):
    """The public calls of a file, each with its clauses: (name, requires, ensures)."""
    within, name = None, None
    for line in path.read_text().split("\n"):
        if m := re.match(r"(?:pub )?trait (\w+)", line):
            within, is_trait = m.group(1), True
        elif m := re.match(r"impl(?:<.*?>)? (?:.* for )?(\w+)", line):
            within, is_trait = (None if " for " in line else m.group(1)), False
        elif line.startswith("}"):
            within = None
        if m := re.match(r"( *)(pub )?(?:pub\(crate\) )?(?:unsafe )?fn (\w+)", line):
            owner = within if m.group(1) else None
            shown = owner in public if m.group(1) else m.group(3) in public
            is_public = m.group(2) or (owner and is_trait)
            name = (f"{owner}::{m.group(3)}" if owner else m.group(3)) if shown and is_public else None
            if name:
                yield name, None, None
        elif name and (m := re.match(r" +(requires|ensures)\*? (\w*) ?\{", line)):
            yield name, m.group(1), m.group(2) or "-"


def found(crate):
    """The calls of a library, each with its clauses."""
    calls_found = {}
    for module, public in offered(crate).items():
        path = pathlib.Path("crates", crate, "src", f"{module}.rt")
        if path.exists():
            for name, kind, clause in calls(path, public):
                clauses = calls_found.setdefault(name, {"requires": [], "ensures": []})
                if kind:
                    clauses[kind].append(clause)
    return sorted(calls_found.items())


def section(crate):
    """The part of the page on a library: a table, and the calls without a clause."""
    rows, bare = [], []
    for name, clauses in found(crate):
        if clauses["requires"] or set(clauses["ensures"]) - {"-"}:
            rows.append(f"| `{name}` | {', '.join(clauses['requires'])} | {', '.join(clauses['ensures'])} |")
        elif not clauses["ensures"]:
            bare.append(f"`{name}`")
    lines = [f"## {crate}", ""]
    if rows:
        lines += ["| Call | Requires | Ensures |", "|---|---|---|", *rows, ""]
    if bare:
        lines += ["Without a clause: " + ", ".join(bare) + ".", ""]
    return "\n".join(lines) if rows or bare else ""


def page():
    return "\n".join([HEAD, *filter(None, map(section, libraries()))])


def main():
    made = page()
    if sys.argv[1:] == ["--write"]:
        PAGE.write_text(made)
    elif PAGE.read_text() != made:
        print("docs/CLAUSES.md differs from the crates: tests/clauses.py --write makes it anew")
        return 1
    print(f"{made.count('`') // 2} names in the index of clauses")
    return 0


if __name__ == "__main__":
    sys.exit(main())
