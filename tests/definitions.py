#!/usr/bin/env python3
"""definitions.py [--write]: what docs/DEFINITIONS.md prints of the specs folders stands there. Run it at the top of the repository.

A line `<!-- CRATE/FILE: NAME, NAME -->` is followed by a block with these definitions, each with the comment above it. Behind the
line `<!-- index -->` stands by crate each file on which the printed definitions rest, with its opening sentence. With --write both are
made anew; else they are compared, and the status is 1 where they differ."""

import pathlib
import re
import sys

PAGE = pathlib.Path("docs/DEFINITIONS.md")
INDEX = "<!-- index -->\n"
MARK = re.compile(r"<!-- (\w+)/(\w+): ")


def blocks(path):
    """The parts of a file between empty lines."""
    return re.split(r"\n{2,}", path.read_text().strip())


def name_of(block):
    """The name that a part defines for other files, if it does."""
    for line in block.split("\n"):
        if not line.strip().startswith("--") and line not in ("mutual", "abbrev mutual"):
            m = re.match(r" *(?:abbrev |unfoldable )*pub (?:record |data )?([\w-]+)", line)
            return m.group(1) if m else None
    return None


def definitions(crate, file, names):
    path = pathlib.Path("crates", crate, "specs", f"{file}.antt")
    found = {name_of(block): block for block in blocks(path)}
    return "\n\n".join(found[name] for name in names)


def printed(page):
    """The page with the blocks below its marks as the files have them."""
    def one(m):
        names = [name.strip() for name in m.group(3).split(",")]
        return f"<!-- {m.group(1)}/{m.group(2)}: {m.group(3)} -->\n```\n{definitions(m.group(1), m.group(2), names)}\n```\n"

    return re.sub(r"<!-- (\w+)/(\w+): ([\w, -]+) -->\n(?:```\n.*?\n```\n)?", one, page, flags=re.S)


def opening(path):
    """The first sentence of a file."""
    lines = []
    for line in path.read_text().split("\n"):
        if not line.startswith("--"):
            break
        lines.append(line.removeprefix("--").strip())
    sentence = re.match(r".*?[^.]\.(?= [A-Z]|$)", " ".join(lines))
    return sentence.group(0) if sentence else " ".join(lines)


def defines_for_others(path):
    return any(name and name != "mod" for name in map(name_of, blocks(path)))


def used_by(path):
    """The files of definitions that a file names."""
    named = re.findall(r"^use Rattle\.(\w+)\.specs\.(\w+)\b", path.read_text(), re.M)
    return {used for used in (pathlib.Path("crates", crate, "specs", f"{file}.antt") for crate, file in named) if used.exists()}


def rested_on(page):
    """The files with the printed definitions, those that they use, those that these use, and so on."""
    found, next_ones = set(), {pathlib.Path("crates", crate, "specs", f"{file}.antt") for crate, file in MARK.findall(page)}
    while next_ones:
        found |= next_ones
        next_ones = set().union(*map(used_by, next_ones)) - found
    return found


def index(page):
    lines, first = [], rested_on(page)
    for line in pathlib.Path("crates.txt").read_text().split("\n"):
        crate = line.split(":")[0]
        files = [path for path in sorted(pathlib.Path("crates", crate, "specs").glob("*.antt")) if path in first and defines_for_others(path)]
        if files:
            lines += [f"### {crate}", "", *(f"- **{path.stem}**: {opening(path)}" for path in files), ""]
    return "\n".join(lines)


def made(page):
    by_hand = printed(page.split(INDEX)[0])
    return f"{by_hand}{INDEX}\n{index(by_hand)}"


def main():
    page = PAGE.read_text()
    if sys.argv[1:] == ["--write"]:
        PAGE.write_text(made(page))
    elif page != made(page):
        print("docs/DEFINITIONS.md differs from the specs folders: tests/definitions.py --write makes it anew")
        return 1
    print("the printed definitions are those of the specs folders")
    return 0


if __name__ == "__main__":
    sys.exit(main())
