#!/usr/bin/env python3
"""pages.py PROGRAM [SEED]: the pages of `report`, of `--report` and of `follow`, read by Python's html.parser.

Random tables, whose texts and names have tags, entities, quotes and line ends in them, stand in a page. Its cells are those that
`show VIEW csv` and `show VIEW json` tell, its decimals and bars those of Python's exact fractions, and every tag is closed. A page
has the views in the order that is asked for, and 1,000 rows of each.

A page that is refused leaves what stands under its path, and nothing beside it: where a view is unknown, there is no folder, a folder
stands there, a file of another stands beside it, the disk takes only a part of it, or an allocation is refused.

A page that follows the store is whole whenever it is read, while 1,000 changes come. It is written about once a second, and the last
change of a burst is in it once the session has ended, in each way to end, and behind the next command that makes no change. A write
that is refused behind a change is told, and the next change tries again. Through random changes the rows that are new or changed since
the page before are marked, with their old cells, and those that went are counted. All of that without and with --hall."""

import csv
import fractions
import html.parser
import io
import json
import os
import pathlib
import random
import re
import subprocess
import sys
import tempfile
import time

import sessions
import tables

HOSTILE = ["</td>", "</table><script>alert(1)</script>", "<!--", "&", "&amp;", "&lt;b&gt;", '"', "'", "\u202e", "\u200f", "\ue000", "x" * 10000, "null"]
VOID = {"meta"}
COLUMNS = [("who", "Text"), ("<b>&amp;\u202e", "Text"), ("n", "Int"), ("done", "Bool"), ('"', "Int")]


class Section:
    """A view: its name, the lines of text beside its table, and the table. A cell is None or a text; `marks` has of each its classes
    and style, and the decimal of a mean; `changes` of each row its class and its title."""

    def __init__(self):
        self.name, self.lines, self.caption, self.columns, self.rows, self.marks, self.changes = "", [], "", [], [], [], []


class Page(html.parser.HTMLParser):
    """A page with its title, the lines above its sections, and these."""

    def __init__(self, text):
        super().__init__(convert_charrefs=True)
        self.open, self.title, self.lines, self.sections, self.is_closed = [], "", [], [], False
        self.attributes, self.reload = {}, None
        if not text.startswith("<!doctype html>\n<html"):
            sys.exit(f"the page begins {text[:40]!r}")
        self.feed(text)
        self.close()
        if self.open or not self.is_closed:
            sys.exit(f"tags that are not closed: {self.open}")

    def handle_starttag(self, tag, attributes):
        self.attributes = dict(attributes)
        if tag in ("script", "link", "img", "iframe") or any(name in ("src", "href") or name.startswith("on") for name in self.attributes):
            sys.exit(f"the page has <{tag} {attributes}>")
        if tag == "meta" and self.attributes.get("http-equiv") == "refresh":
            self.reload = self.attributes["content"]
        if tag in VOID:
            return
        self.open.append(tag)
        if tag == "section":
            self.sections.append(Section())
        elif tag == "p":
            (self.sections[-1] if "section" in self.open else self).lines.append("")
        elif tag == "th":
            self.sections[-1].columns.append("")
        elif tag == "tr" and "tbody" in self.open:
            self.sections[-1].rows.append([])
            self.sections[-1].marks.append([])
            self.sections[-1].changes.append((self.attributes.get("class"), self.attributes.get("title")))
        elif tag == "td":
            self.sections[-1].rows[-1].append("")
            self.sections[-1].marks[-1].append({**self.attributes, "decimal": ""})
        elif tag == "span" and "td" in self.open and "null" in self.attributes.get("class", "").split():
            self.sections[-1].rows[-1][-1] = None

    def handle_endtag(self, tag):
        if not self.open or self.open.pop() != tag:
            sys.exit(f"</{tag}> closes another tag")
        self.is_closed = tag == "html"

    def handle_data(self, text):
        tag = self.open[-1] if self.open else ""
        section = self.sections[-1] if "section" in self.open else None
        if "td" in self.open:
            if tag == "span" and "decimal" in self.attributes.get("class", "").split():
                section.marks[-1][-1]["decimal"] += text
            elif section.rows[-1][-1] is not None:
                section.rows[-1][-1] += text
        elif "th" in self.open:
            section.columns[-1] += text
        elif tag == "p":
            (section or self).lines[-1] += text
        elif "h2" in self.open:
            section.name += text
        elif "caption" in self.open:
            section.caption += text
        elif tag == "title":
            self.title += text


def hostile_text(random):
    return "".join(random.choice(HOSTILE + tables.PIECES) for _ in range(random.randrange(1, 4)))


def cell(random, dtype):
    value = tables.cell(random, dtype)
    return hostile_text(random) if dtype == "Text" and value is not None else value


def document(columns, names):
    """A document of one frame, whose rows are in a file, with a view of it, and one of its sums and means."""
    listed = json.dumps([list(column) for column in columns], ensure_ascii=False)
    sums = [[f"{word} {name}", word, name] for name, dtype in columns if dtype == "Int" for word in ("sum", "mean", "max")]
    grouped = json.dumps([["group_by", [columns[0][0]], ["rows", "len"], *sums]], ensure_ascii=False)
    whole, sums_name = (json.dumps(name, ensure_ascii=False) for name in names)
    return (
        f'[[frame]]\nname = "t"\ncolumns = {listed}\npath = "t.csv"\n'
        f'[[view]]\nname = {whole}\nfrom = "t"\n[[view]]\nname = {sums_name}\nfrom = "t"\nsteps = {grouped}\n'
    )


def quoted(name):
    return '"' + name.replace('"', '""') + '"'


def fields(table):
    return list(csv.reader(io.StringIO(table, newline=""), strict=True))


def check(what, got, wanted):
    if got != wanted:
        sys.exit(f"{what}: {got!r} in place of {wanted!r}")


def check_bars(what, section, types):
    """The bar of each whole number: how many thousandths of the widest it has, and on which side it stands."""
    for at, dtype in enumerate(types):
        if dtype not in ("Int", "Wide"):
            continue
        numbers = [None if row[at] is None else int(row[at]) for row in section.rows]
        greatest = max((abs(n) for n in numbers if n is not None), default=0)
        below = any(n is not None and n < 0 for n in numbers)
        for n, marks in zip(numbers, section.marks):
            if n is None:
                continue
            unit = 1 if greatest < 2**118 else 1024
            width = 1000 * (abs(n) // unit) // max(1, greatest // unit)
            side = f"bar {'negative' if n < 0 else 'positive'}" if below else "bar"
            check(what, (marks[at].get("class"), marks[at].get("style")), (side, f"--w:{width}"))


def check_means(what, section, types):
    """Behind each mean its decimal, rounded half to even."""
    for at, dtype in enumerate(types):
        for row, marks in zip(section.rows, section.marks):
            wanted = ""
            if dtype == "Frac" and row[at] is not None:
                rounded = round(fractions.Fraction(row[at]), 3)
                sign, thousandths = "-" if rounded < 0 else "", abs(int(rounded * 1000))
                wanted = f"{sign}{thousandths // 1000}.{thousandths % 1000:03}"
            check(what, marks[at]["decimal"], wanted)


def compare(what, section, name, total, table, objects, types):
    """A section with what is shown of its view: as CSV, and as JSON, which tells null from a text."""
    header, *rows = fields(table)
    lines = [f"{total} row{'s' * (total != 1)} x {len(header)} column{'s' * (len(header) != 1)}"]
    more = total - len(rows)
    lines += [f".. {more} more row{'s' * (more != 1)}"] * (more > 0)
    check(what, (section.name, section.caption, section.lines, section.columns), (name, name, lines, header))
    for row in section.rows:
        for at, dtype in enumerate(types):
            if dtype == "Frac" and row[at] is not None:
                row[at] = row[at].removesuffix(" ")
    check(what, [["" if value is None else value for value in row] for row in section.rows], rows)
    nulls = [[value is None for _, value in json.loads(line, object_pairs_hook=list)] for line in objects.split("\n")[:-1]]
    check(what, [[value is None for value in row] for row in section.rows], nulls)
    check_bars(what, section, types)
    check_means(what, section, types)
    check(what, set(section.changes) - {(None, None)}, set())


def one(program, folder, random):
    columns = random.sample(COLUMNS, random.randrange(1, len(COLUMNS) + 1))
    names = ["whole" + hostile_text(random).replace("\n", " ").replace("\r", " "), "sums"]
    rows = [[cell(random, dtype) for _, dtype in columns] for _ in range(random.randrange(8))]
    title = "<t> & \u202e.toml"
    (folder / title).write_text(document(columns, names))
    (folder / "t.csv").write_text(tables.written([name for name, _ in columns], rows), newline="")

    def asked(*commands):
        return tables.answers(program, folder, [title], "".join(f"{command}\n" for command in commands))

    check("written", asked("report p.html"), "ok 2 views\n")
    page = Page((folder / "p.html").read_bytes().decode())
    check("a page", (page.title, page.lines, page.reload, len(page.sections)), (title, ["change 3" if rows else "change 2"], None, 2))
    for section, name in zip(page.sections, names):
        types = [line.split(" ")[-1] for line in asked(f"schema {quoted(name)}").split("\n")[:-1]]
        table, objects = (asked(f"show {quoted(name)} {word}") for word in ("csv", "json"))
        compare("a section", section, name, len(fields(table)) - 1, table, objects, types)
    # The last view alone, which a session shows the same of.
    check("one view", asked(f"report one.html {names[1]}"), "ok 1 view\n")
    one_page = (folder / "one.html").read_bytes().decode()
    check("one view", [section.name for section in Page(one_page).sections], names[1:])
    shown = asked(f"show {names[1]} 1000 html")
    check("show html", shown in one_page and shown.startswith("<section") and shown.endswith("</section>\n"), True)
    check("files", sorted(file.name for file in folder.iterdir()), sorted([title, "t.csv", "p.html", "one.html"]))


def orders(program, folder):
    """Which views a page has, in which order, how many rows, and the number of the change."""
    typed = "frame t x Int\nappend t\n" + "".join(f"{n}\n" for n in range(1200)) + ".\n"
    defined = [f'define {view} t [["filter", ["<", ["col", "x"], {most}]]]' for view, most in [("a", 1200), ("b", 1000), ("c", 1001)]]
    commands = [*defined, "drop a", "report all.html", "register a", "report again.html", "report two.html c b", "watch a", "append t\n7\n.", "report last.html a b"]
    said = tables.answers(program, folder, [], typed + "\n".join(commands) + "\n")
    check("orders", re.findall(r"ok \d+ views?", said), ["ok 2 views", "ok 3 views", "ok 2 views", "ok 2 views"])
    number = re.search(r"(?m)^change a (\d+) ", said)[1]
    wanted = {"all": ("bc", 5), "again": ("bca", 6), "two": ("cb", 6), "last": ("ab", int(number))}
    for name, (views, change) in wanted.items():
        page = Page((folder / f"{name}.html").read_text())
        got = page.title, page.lines, "".join(section.name for section in page.sections)
        check(name, got, ("dfshell", [f"change {change}"], views))
    last = Page((folder / "last.html").read_text()).sections[0]
    check("rows", [row for row in last.rows], [[str(n)] for n in range(1000)])
    check("rows", last.lines, ["1201 rows x 1 column", ".. 201 more rows"])


def refused(program, folder):
    """Pages that are refused, with all that the folder has afterwards, and those of which an allocation is."""
    files = {"d.toml": document(COLUMNS[:1], ["v", "w"]), "t.csv": "who\na\n", "old.html": "older", "held.html": "older", "held.html.part": "theirs"}
    for name, text in files.items():
        (folder / name).write_text(text)
    (folder / "folder").mkdir()
    cases = [("old.html v none w", "C8"), ("old.html", "W2"), ("new.html", "W2"), ("held.html", "W1"), ("none/new.html", "W1"), ("folder", "W3")]
    for words, code in cases:
        limit = tables.small_files if code == "W2" else None
        typed = f"report {words}\nviews\n".encode()
        run = subprocess.run([program, "d.toml"], cwd=folder, input=typed, capture_output=True, preexec_fn=limit)
        check(words, (run.stdout.decode().split(":")[0], run.returncode), (code, 0))
        check(words, run.stdout.decode().split("\n")[1:], ["v", "w", ""])
        check(words, {file.name: file.read_text() for file in folder.iterdir() if file.is_file()}, files)
        check(words, list((folder / "folder").iterdir()), [])
    for path, code in [("old.html", "W2"), ("held.html", "W1"), ("none/new.html", "W1"), ("folder", "W3")]:
        limit = tables.small_files if code == "W2" else None
        run = subprocess.run([program, "--report", path, "d.toml"], cwd=folder, input=b"", capture_output=True, preexec_fn=limit)
        check(path, (run.stdout, run.stderr.decode().split(": ")[:2], run.returncode), (b"", ["dfshell", code], 2))
        check(path, {file.name: file.read_text() for file in folder.iterdir() if file.is_file()}, files)
    with tempfile.TemporaryDirectory() as name:
        count = allocations(program, folder, files, sessions.failing_library(name), os.path.join(name, "counts"))
    return len(cases), count


def allocations(program, folder, files, library, counts):
    """Refuses each allocation of a page in turn, and gives of how many memory was told."""
    check("written", tables.answers(program, folder, ["d.toml"], "report whole.html\n"), "ok 2 views\n")
    whole, count = (folder / "whole.html").read_text(), 0
    check("--report", tables.answers(program, folder, ["--report", "whole.html", "d.toml"], ""), "")
    check("--report", (folder / "whole.html").read_text(), whole)
    (folder / "whole.html").unlink()
    for words, typed, ends in [(["d.toml"], b"report old.html\n", b"ok 2 views\n"), (["--report", "old.html", "d.toml"], b"", b"")]:
        variables = {**os.environ, "LD_PRELOAD": library}
        subprocess.run([program, *words], cwd=folder, input=typed, capture_output=True, env={**variables, "COUNTS": counts}, check=True)
        for number in range(1, int(pathlib.Path(counts).read_text().split()[0]) + 1):
            (folder / "old.html").write_text(files["old.html"])
            refused = {**variables, "FAIL_ALLOC": str(number)}
            run = subprocess.run([program, *words], cwd=folder, input=typed, capture_output=True, env=refused)
            is_written = (run.stdout, run.stderr, run.returncode) == (ends, b"", 0)
            check(f"allocation {number}", is_written or b"memory" in run.stdout + run.stderr, True)
            check(f"allocation {number}", (folder / "old.html").read_text(), whole if is_written else files["old.html"])
            check(f"allocation {number}", sorted(file.name for file in folder.iterdir()), sorted([*files, "folder"]))
            count += not is_written
    return count


class Shell:
    """A framed session. An answer is its head, its lines, and the frames of pages that are not written behind it."""

    def __init__(self, program, folder, *words):
        pipe = subprocess.PIPE
        self.process = subprocess.Popen([program, "--framed", *words], cwd=folder, stdin=pipe, stdout=pipe)
        check("ready", self.frame(), ("ready", []))

    def frame(self):
        head = re.fullmatch(r"(ready|ok|error|unwritten .*) (\d+)( .+)?\n", self.process.stdout.readline().decode())
        return head[1], [self.process.stdout.readline().decode() for _ in range(int(head[2]))]

    def tell(self, *lines):
        self.process.stdin.write("".join(f"{line}\n" for line in lines).encode())
        self.process.stdin.flush()

    def ask(self, *lines):
        """The frame of the answer, which is there before what is written behind it."""
        self.tell(*lines)
        return self.frame()

    def settled(self, *lines):
        """The answer, and what is told behind it: a second command is answered once all of that is done."""
        answer, told = self.ask(*lines), []
        self.tell("frames")
        while (frame := self.frame())[0] != "ok":
            told.append(frame)
        return answer, told

    def close(self):
        self.process.stdin.close()
        check("status", self.process.wait(), 0)


def change_of(path, reload="2"):
    """The number of the last change in a page that follows the store, or did, which is read whole."""
    page = Page(path.read_text())
    check("a page that follows", page.reload, reload)
    return int(page.lines[0].removeprefix("change "))


def burst(program, folder, words):
    """1,000 changes in some seconds, while the page is read: the numbers of the changes at which it was written."""
    shell, path, numbers = Shell(program, folder, *words), folder / "live.html", []
    check("frame", shell.ask("frame t x Int"), ("ok", ["ok\n"]))
    check("define", shell.ask("define v t []"), ("ok", ["ok\n"]))
    check("follow", shell.ask("follow live.html"), ("ok", ["ok 1 view\n"]))
    start = time.monotonic()
    for at in range(1000):
        check("append", shell.ask("append t", at, "."), ("ok", [f"ok {at}..{at}\n"]))
        number = change_of(path)
        numbers += [number] * (numbers[-1:] != [number])
        time.sleep(0.0025)
    seconds = time.monotonic() - start
    shell.tell("quit")
    shell.close()
    page = Page(path.read_text())
    check("rows", [row for row in page.sections[0].rows], [[str(at)] for at in range(1000)])
    check("the last change", page.lines, ["change 1001"])
    check("numbers", numbers, sorted(set(numbers)))
    if not 2 <= len(numbers) <= seconds + 2:
        sys.exit(f"written {len(numbers)} times in {seconds:.1f} seconds")
    check("files", [file.name for file in folder.iterdir()], ["live.html"])
    return len(numbers)


def endings(program, folder, words):
    """The last of three changes at once is in the page, however the session ends, and behind a command that makes no change."""
    begin = "frame t x Int\ndefine v t []\nfollow p.html\n" + "append t\n1\n.\n" * 3
    (folder / "c.commands").write_text("append t\n2\n.\n" * 2)
    (folder / "quit.commands").write_text("append t\n2\n.\nquit\n")
    endings = [("", [], 4), ("quit\n", [], 4), ("nosuch\n", ["--bail"], 4), ("source c.commands\n", [], 6), ("source quit.commands\n", [], 5), ("unfollow p.html\nappend t\n1\n.\n", [], 4)]
    for typed, further, number in endings:
        run = subprocess.run([program, *words, *further], cwd=folder, input=(begin + typed).encode(), capture_output=True)
        check(typed, (run.stderr, run.returncode), (b"", 1 if further else 0))
        check(typed, change_of(folder / "p.html", None if typed.startswith("unfollow") else "2"), number)
    for question in ["views", "nosuch", "delete t 9"]:
        shell = Shell(program, folder, *words)
        for lines in [["frame t x Int"], ["define v t []"], ["follow p.html"], *[["append t", "1", "."]] * 3, [question]]:
            shell.ask(*lines)
        end = time.monotonic() + 10
        while change_of(folder / "p.html") != 4 and time.monotonic() < end:
            time.sleep(0.01)
        check(question, change_of(folder / "p.html"), 4)
        shell.close()


def unwritten(program, folder, words):
    """Writes that are refused behind changes: told, and tried again behind the next change."""
    shell, page, gone = Shell(program, folder, *words), folder / "p.html", folder / "gone"
    gone.mkdir()
    for lines in [["frame t x Int"], ["define v t []"], ["define w t []"], ["follow p.html v"], ["follow gone/q.html"]]:
        check(lines[0], shell.ask(*lines)[0], "ok")
    (folder / "p.html.part").write_text("theirs")
    (gone / "q.html").unlink()
    gone.rmdir()
    time.sleep(1.1)
    answer, told = shell.settled("append t", "1", ".")
    check("answer", answer, ("ok", ["ok 0..0\n"]))
    check("told", [(head, [line.split(":")[0] for line in lines]) for head, lines in told], [(f"unwritten {path} 3", ["W1"]) for path in ("p.html", "gone/q.html")])
    check("the page before", change_of(page), 2)
    # no command without a change tries again
    check("no change", shell.settled("views"), (("ok", ["v\n", "w\n"]), []))
    (folder / "p.html.part").unlink()
    gone.mkdir()
    time.sleep(1.1)
    check("again", shell.settled("append t", "2", "."), (("ok", ["ok 1..1\n"]), []))
    check("again", (change_of(page), change_of(gone / "q.html")), (4, 4))
    # a view that goes
    time.sleep(1.1)
    answer, told = shell.settled("drop v")
    check("a view that goes", (answer, [(head, [line.split(":")[0] for line in lines]) for head, lines in told]), (("ok", ["ok\n"]), [("unwritten p.html 5", ["C8"])]))
    check("a view that goes", (change_of(page), change_of(gone / "q.html")), (4, 5))
    answer, told = shell.settled("unfollow p.html")
    check("unfollow", (answer, [(head, lines[0][:3]) for head, lines in told]), (("ok", ["ok\n"]), [("unwritten p.html 5", "C8:")]))
    check("unfollow", shell.settled("unfollow gone/q.html"), (("ok", ["ok\n"]), []))
    check("unfollow", (change_of(page), change_of(gone / "q.html", None)), (4, 5))
    check("unfollow", shell.ask("unfollow p.html")[0], "error")
    shell.close()
    check("files", sorted(file.name for file in folder.iterdir()), ["gone", "p.html"])


def in_words(value):
    """A cell as a table is printed."""
    if value is None:
        return "null"
    return "".join("\\\\" if c == "\\" else f"\\x{ord(c):02x}" if ord(c) < 32 or ord(c) == 127 else c for c in str(value))


def marked(before, rows):
    """The class and the title of each row that is shown, and the line that counts those that went. Rows stand under their numbers."""
    shown = list(rows.items())[:1000]
    if before is None:
        return [(None, None)] * len(shown), []
    titles = [("new", None) if n not in before else (None, None) if before[n] == row else ("changed", ", ".join(map(in_words, before[n]))) for n, row in shown]
    gone = sum(n not in rows for n in list(before)[:1000])
    return titles, [f"{gone} of the rows shown before went"] * (gone > 0)


class Followed:
    """A page that follows two views of a frame: all of its rows, and those with a number above 0. `states` has the rows of the frame behind
    each change, and each view of the page that was last seen stands in `before`."""

    def __init__(self, path, views, states, number, begun):
        self.path, self.views, self.states, self.number, self.begun, self.counts = path, views, states, number, begun, [0, 0, 0]
        self.check_against([None], Page(path.read_text()))

    def rows(self, view, number):
        return {n: row for n, row in self.states[number].items() if view == "all" or (row[0] is not None and row[0] > 0)}

    def got(self, page):
        return [(section.changes, [line for line in section.lines if line.endswith("went")]) for section in page.sections]

    def check_against(self, befores, page):
        """The marks are those against one of these pages before, by their numbers."""
        number = int(page.lines[0].removeprefix("change "))
        check("the views", [section.name for section in page.sections], self.views)
        for section in page.sections:
            shown = [[None if value is None else str(value) for value in row] for row in list(self.rows(section.name, number).values())[:1000]]
            check("rows", section.rows, shown)
        wanted = [[marked(None if before is None else self.rows(view, before), self.rows(view, number)) for view in self.views] for before in befores]
        got = self.got(page)
        if got not in wanted:
            sys.exit(f"the marks of {self.path} at change {number}: {got!r} in place of {wanted[0]!r}")
        for changes, lines in got:
            self.counts = [count + more for count, more in zip(self.counts, [changes.count(("new", None)), sum(c == "changed" for c, _ in changes), len(lines)])]
        self.number = number

    def look(self, number, begun, reload="2"):
        """The page has this change, once a command was settled that was begun then. Where a second went by since the one before was begun,
        pages that were not seen may stand between."""
        page = Page(self.path.read_text())
        check("the page", (page.lines, page.reload), ([f"change {number}"], reload))
        slow = time.monotonic() - self.begun > 0.9
        if number != self.number or reload is None:
            self.check_against([self.number, *(range(self.number + 1, number + 1) if slow else [])], page)
        self.begun = begun


def marks(program, folder, words, random):
    """The marks of two pages that follow random changes, some of whose writes are refused: how many rows were new, changed and gone."""
    shell, states, rows, count = Shell(program, folder, *words), {}, {}, 0
    lines = lambda made: [",".join("" if value is None else quoted(str(value)) for value in row) for row in made]
    some = lambda: [random.choice([None, 0, -3, 1, 2, 9]), random.choice(["a", "b", 'x"y', "<b>", "&amp;", "\\", "a\tb", "\u007f\u0007", "null", "1, 2"])]
    for command in [["frame t x Int who Text"], ["define all t []"], ['define some t [["filter", [">", ["col", "x"], 0]]]']]:
        check(command[0], shell.ask(*command)[0], "ok")
    number = 2

    def change(*command):
        nonlocal number
        check(command[0], shell.ask(*command)[0], "ok")
        number += 1
        states[number] = {n: list(row) for n, row in sorted(rows.items())}

    def add(made):
        nonlocal count
        for row in made:
            rows[count] = row
            count += 1
        change("append t", *lines(made), ".")

    add([some() for _ in range(random.choice([3, 1003]))])
    pages = []
    for views in (["all", "some"], ["some"]):
        path = folder / f"{len(pages)}.html"
        begun = time.monotonic()
        check("follow", shell.ask(f"follow {path.name} {' '.join(views)}")[0], "ok")
        pages.append(Followed(path, views, states, number, begun))
    tried, settled = number, begun
    for _ in range(12):
        for _ in range(random.randrange(3)):
            chosen = sorted(random.sample(sorted(rows), min(len(rows), random.randrange(1, 4))))
            kind = random.choice(["append", "replace", "delete", "same"])
            if kind == "append" or not chosen:
                add([some() for _ in range(random.randrange(1, 3))])
            elif kind == "delete":
                for n in chosen:
                    del rows[n]
                change(f"delete t {' '.join(map(str, chosen))}")
            else:
                for n in chosen:
                    rows[n] = rows[n] if kind == "same" else some()
                change(f"replace t {' '.join(map(str, chosen))}", *lines([rows[n] for n in chosen]))
        is_blocked = random.random() < 0.3
        if is_blocked:
            (folder / "0.html.part").write_text("theirs")
        begun = time.monotonic()
        told = [head for head, _ in shell.settled("views")[1]]
        if is_blocked:
            (folder / "0.html.part").unlink()
        if time.monotonic() - settled < 0.9:
            check("told", told, [f"unwritten 0.html {number}"] * (is_blocked and number != tried))
        for page in pages[is_blocked:] if number != tried else []:
            page.look(number, begun)
        tried, settled = number, begun
    add([some()])
    check("unfollow", shell.settled("unfollow 0.html"), (("ok", ["ok\n"]), []))
    pages[0].look(number, begun, None)
    shell.close()
    return [sum(counts) for counts in zip(*(page.counts for page in pages))]


BEFORE_ROWS = (
    '<div class="table" tabindex="0">\n<table>\n<caption>v</caption>\n<thead>\n'
    '<tr><th scope="col"><bdi>who</bdi></th><th scope="col" class="number"><bdi>n</bdi></th></tr>\n</thead>\n<tbody>\n'
)
# Commands, each with the lines behind it, and the page then: its change, how many rows it tells, these, and what stands behind the table.
STEPS = [
    (
        [["follow p.html"]], 2, "2 rows",
        '<tr><td><bdi>ann</bdi></td><td class="bar" style="--w:500">1</td></tr>\n<tr><td><bdi>bob</bdi></td><td class="bar" style="--w:1000">2</td></tr>\n', "",
    ),
    (
        [["append t", '"<c>, ""d""",3', "."], ["replace t 1", "bob,"], ["views"]], 4, "3 rows",
        '<tr><td><bdi>ann</bdi></td><td class="bar" style="--w:333">1</td></tr>\n'
        '<tr class="changed" title="bob, 2"><td><bdi>bob</bdi></td><td class="number"><span class="null">null</span></td></tr>\n'
        '<tr class="new"><td><bdi>&lt;c&gt;, &quot;d&quot;</bdi></td><td class="bar" style="--w:1000">3</td></tr>\n', "",
    ),
    (
        [["delete t 0"], ["replace t 2", "x,6"], ["views"]], 6, "2 rows",
        '<tr><td><bdi>bob</bdi></td><td class="number"><span class="null">null</span></td></tr>\n'
        '<tr class="changed" title="&lt;c&gt;, &quot;d&quot;, 3"><td><bdi>x</bdi></td><td class="bar" style="--w:1000">6</td></tr>\n',
        "<p>1 of the rows shown before went</p>\n",
    ),
    (
        [["replace t 1", "c\\,-3"], ["replace t 1", "bob,"], ["replace t 2", "\\,6"], ["unfollow p.html"]], 9, "2 rows",
        '<tr><td><bdi>bob</bdi></td><td class="number"><span class="null">null</span></td></tr>\n'
        '<tr class="changed" title="x, 6"><td><bdi>\\</bdi></td><td class="bar" style="--w:1000">6</td></tr>\n', "",
    ),
]


def written_marks(program, folder, words):
    """The pages of a few changes, byte by byte behind their heads, and whether no page was written that is not here: behind a change, since a
    second was over."""
    shell, start = Shell(program, folder, *words), time.monotonic()
    for lines in [["frame t who Text n Int"], ["define v t []"], ["append t", "ann,1", "bob,2", "."]]:
        check(lines[0], shell.ask(*lines)[0], "ok")
    for commands, number, size, rows, rest in STEPS:
        for lines in commands[:-1]:
            check(lines[0], shell.ask(*lines)[0], "ok")
        check("told", shell.settled(*commands[-1])[1], [])
        page = (folder / "p.html").read_text()
        wanted = f"<section>\n<h2>v</h2>\n<p>{size} x 2 columns</p>\n{BEFORE_ROWS}{rows}</tbody>\n</table>\n</div>\n{rest}</section>\n</main>\n</body>\n</html>\n"
        if time.monotonic() - start < 0.9:
            check(f"the page at change {number}", (page.partition("<main>\n")[2], Page(page).lines), (wanted, [f"change {number}"]))
    shell.close()
    return time.monotonic() - start < 0.9


def follow_allocations(program, folder, words):
    """Refuses each allocation of a session with a page that follows it in turn: what stands there is whole, and nothing is beside it. A
    row is marked that came since the page was written."""
    typed = b"frame t x Int\ndefine v t []\nfollow p.html\nappend t\n1\n.\nviews\nappend t\n2\n.\nviews\n"
    with tempfile.TemporaryDirectory() as name:
        variables = {**os.environ, "LD_PRELOAD": sessions.failing_library(name)}
        counts = os.path.join(name, "counts")
        subprocess.run([program, *words], cwd=folder, input=typed, capture_output=True, env={**variables, "COUNTS": counts}, check=True)
        check("the last change", change_of(folder / "p.html"), 3)
        told = 0
        for number in range(1, int(pathlib.Path(counts).read_text().split()[0]) + 1):
            (folder / "p.html").unlink(missing_ok=True)
            refused = {**variables, "FAIL_ALLOC": str(number)}
            run = subprocess.run([program, *words], cwd=folder, input=typed, capture_output=True, env=refused)
            lines = run.stdout.decode().splitlines()
            check(f"allocation {number}", lines.count("memory") + run.stderr.count(b"memory") <= 1, True)
            if "unwritten p.html 3 1" in lines:
                check(f"allocation {number}", change_of(folder / "p.html"), 2)
            elif "unwritten p.html 2 1" in lines:
                told += 1
                check(f"allocation {number}", Page((folder / "p.html").read_text()).sections[0].changes, [("new", None)] * 2)
            elif "memory" not in lines and run.returncode == 0:
                check(f"allocation {number}", Page((folder / "p.html").read_text()).sections[0].changes, [(None, None), ("new", None)])
            check(f"allocation {number}", [file.name for file in folder.iterdir() if file.name != "p.html"], [])
        check("told of a page that is not written", told > 0, True)
    return told


def in_folder(part, program, words):
    with tempfile.TemporaryDirectory() as name:
        return part(program, pathlib.Path(name), words)


def followed(program, seed):
    """The parts about pages that follow the store, without and with --hall."""
    times = memory = 0
    counts = [0, 0, 0]
    for words in ([], ["--hall"]):
        for part in (burst, endings, unwritten, follow_allocations):
            with tempfile.TemporaryDirectory() as name:
                got = part(program, pathlib.Path(name), words)
                times += got if part is burst else 0
                memory += got if part is follow_allocations else 0
        if not any(in_folder(written_marks, program, words) for _ in range(20)):
            sys.exit("20 sessions took a second each")
        for at in range(4):
            with tempfile.TemporaryDirectory() as name:
                got = marks(program, pathlib.Path(name), words, random.Random(seed * 1000 + at))
                counts = [count + more for count, more in zip(counts, got)]
    check("rows that are marked, and lines of those that went", all(counts), True)
    print(f"pages that follow 2,000 changes were written {times} times; {memory} of which an allocation was refused")
    print(f"through random changes {counts[0]} rows were marked as new and {counts[1]} as changed, and {counts[2]} lines counted those that went")


def main():
    program = str(pathlib.Path(sys.argv[1]).resolve())
    seed = int(sys.argv[2]) if len(sys.argv) > 2 else 1
    for at in range(50):
        with tempfile.TemporaryDirectory() as name:
            one(program, pathlib.Path(name), random.Random(seed * 1000 + at))
    with tempfile.TemporaryDirectory() as name:
        orders(program, pathlib.Path(name))
    with tempfile.TemporaryDirectory() as name:
        count, memory = refused(program, pathlib.Path(name))
    print(f"50 pages, read; {count} refused, and {memory} of which an allocation was")
    followed(program, seed)


if __name__ == "__main__":
    main()
