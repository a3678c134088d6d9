#!/usr/bin/env python3
"""browser.py PROGRAM [DOCUMENTS [SEED]]: pages that dfshell writes, opened in Chromium without a window.

Each document of examples/ and random ones, whose names and texts have tags, entities, quotes, line ends and control characters, are
written as pages. The tables that Chromium has of a page are, cell by cell, those that `show VIEW csv` tells, and null where `show VIEW
json` tells null. No element stands in a page but those of a table, no page is wider than a window as wide as a phone's, and the bars
of a column are as wide in proportion as its numbers.

A page that follows 300 changes is open meanwhile, and Chromium loads it again by itself. Each page that it has is whole: the rows of a
view behind one change, with the marks of those that differ from the page that was written before.

browser.py --shots FOLDER PAGE: takes pictures of a page, light, dark and narrow."""

import base64
import contextlib
import csv
import fcntl
import io
import json
import os
import pathlib
import random
import shutil
import subprocess
import sys
import tempfile
import time

import pages
import tables

EXAMPLES = pathlib.Path(__file__).resolve().parent.parent / "examples"
HOSTILE = [
    "</td>", "</table><script>document.title = 'x'</script>", "<!--", "]]>", "&", "&amp;", "&#13;", "&lt", "<", ">", '"', "'", "\0", "\x01", "\x7f", "\x85", "\xa0",
    "\u2028", "\u202e", "\u200f", "\ufeff", "\ufffe", "\ue000", "\f", "x" * 10_000, "null",
]
COLUMNS = [("who", "Text"), ("<b>&amp;\u202e", "Text"), ("n", "Int"), ("done", "Bool"), ('"', "Int")]
NAMES = ["w </h2></caption><script>&amp;\u202e\"", "sums"]
ELEMENTS = set("html head meta title style body header main h1 h2 p section div table caption thead tbody tr th td bdi span".split())

# What a page has, read from the document that the browser made of it.
READ = """(() => {
  const texts = (of, query) => [...of.querySelectorAll(query)].map(it => it.textContent);
  const shown = cell => {
    const style = getComputedStyle(cell), decimal = cell.querySelector('.decimal');
    return {
      text: decimal ? cell.firstChild.data : cell.textContent, decimal: decimal && decimal.textContent,
      isNull: cell.querySelector('.null') !== null, align: style.textAlign,
      bar: cell.classList.contains('bar') ? [...cell.classList, style.getPropertyValue('--w').trim()] : null,
    };
  };
  return JSON.stringify({
    title: document.title, head: texts(document, 'header *'), elements: [...new Set([...document.querySelectorAll('*')].map(it => it.localName))],
    tooWide: document.documentElement.scrollWidth - innerWidth,
    sections: [...document.querySelectorAll('section')].map(it => ({
      name: it.querySelector('h2').textContent, caption: it.querySelector('caption').textContent, columns: texts(it, 'thead th'),
      rows: [...it.querySelectorAll('tbody tr')].map(row => [...row.children].map(shown)),
    })),
  });
})()"""

# What a page that follows has, once it is loaded.
READ_FOLLOWED = """(() => JSON.stringify(document.readyState !== 'complete' || !document.querySelector('header p') ? null : {
  change: Number(document.querySelector('header p').textContent.replace('change ', '')),
  rows: [...document.querySelectorAll('tbody tr')].map(row => [...row.children].map(cell => cell.querySelector('.null') ? null : cell.textContent)),
  marks: [...document.querySelectorAll('tbody tr')].map(row => [row.getAttribute('class'), row.getAttribute('title')]),
  colours: [...new Set([...document.querySelectorAll('tbody tr')].map(row => row.className + getComputedStyle(row.firstChild).backgroundColor))],
  lines: [...document.querySelectorAll('section > p')].map(it => it.textContent).filter(it => it.endsWith('went')),
}))()"""


class Browser:
    """Chromium, which is told through a pipe what to open."""

    def __init__(self, folder):
        told, said = os.pipe(), os.pipe()
        # Both ends get numbers above those that Chromium reads and writes.
        read, write = (fcntl.fcntl(end, fcntl.F_DUPFD, 10) for end in (told[0], said[1]))

        def place():
            os.dup2(read, 3)
            os.dup2(write, 4)

        words = ["--headless=new", "--no-sandbox", "--disable-gpu", "--hide-scrollbars", "--remote-debugging-pipe", f"--user-data-dir={folder}"]
        self.process = subprocess.Popen(
            ["chromium", *words], stdin=subprocess.DEVNULL, stdout=subprocess.DEVNULL, stderr=subprocess.DEVNULL, preexec_fn=place, pass_fds=(3, 4)
        )
        self.to, self.source = os.fdopen(told[1], "wb", buffering=0), os.fdopen(said[0], "rb")
        for end in (told[0], said[1], read, write):
            os.close(end)
        self.number, self.left, self.session = 0, b"", None
        target = self.ask("Target.createTarget", url="about:blank")["targetId"]
        self.session = self.ask("Target.attachToTarget", targetId=target, flatten=True)["sessionId"]
        self.ask("Page.enable")

    def message(self):
        while b"\0" not in self.left:
            more = os.read(self.source.fileno(), 1 << 20)
            if not more:
                sys.exit("chromium ended")
            self.left += more
        message, _, self.left = self.left.partition(b"\0")
        return json.loads(message)

    def ask(self, method, **parameters):
        self.number += 1
        message = {"id": self.number, "method": method, "params": parameters}
        self.to.write(json.dumps({**message, "sessionId": self.session} if self.session else message).encode() + b"\0")
        while (answer := self.message()).get("id") != self.number:
            pass
        if "error" in answer:
            sys.exit(f"{method}: {answer['error']}")
        return answer["result"]

    def open(self, path, width=390, height=844, scheme="light"):
        self.ask("Emulation.setDeviceMetricsOverride", width=width, height=height, deviceScaleFactor=1, mobile=False)
        self.ask("Emulation.setEmulatedMedia", features=[{"name": "prefers-color-scheme", "value": scheme}])
        self.ask("Page.navigate", url=pathlib.Path(path).resolve().as_uri())
        while self.ask("Runtime.evaluate", expression="document.readyState + location.protocol")["result"].get("value") != "completefile:":
            pass

    def read(self, path):
        """What a page has."""
        self.open(path)
        return json.loads(self.ask("Runtime.evaluate", expression=READ, returnByValue=True)["result"]["value"])

    def read_again(self):
        """What the page has that is open, which may be loaded again meanwhile. None: it is not loaded yet."""
        self.number += 1
        message = {"id": self.number, "method": "Runtime.evaluate", "params": {"expression": READ_FOLLOWED, "returnByValue": True}, "sessionId": self.session}
        self.to.write(json.dumps(message).encode() + b"\0")
        while (answer := self.message()).get("id") != self.number:
            pass
        value = answer.get("result", {}).get("result", {}).get("value")
        return value and json.loads(value)

    def picture(self, path):
        pathlib.Path(path).write_bytes(base64.b64decode(self.ask("Page.captureScreenshot")["data"]))

    def close(self):
        self.to.write(b'{"id": 0, "method": "Browser.close"}\0')
        self.process.wait(60)


@contextlib.contextmanager
def browser():
    with tempfile.TemporaryDirectory() as folder:
        opened = Browser(folder)
        try:
            yield opened
        finally:
            opened.close()


def check(what, got, wanted):
    if got != wanted:
        sys.exit(f"{what}: {got!r} in place of {wanted!r}")


def readable(text):
    """A text as HTML can say it: it has no zero byte."""
    return text.replace("\0", "\ufffd")


def as_field(cell):
    """A cell as a reader of CSV finds it, where null and the empty text are alike."""
    return "" if cell["isNull"] else cell["text"].removesuffix(" ") if cell["decimal"] else cell["text"]


def check_bars(what, rows, at):
    """The bars of a column of whole numbers, if it is one: the widest has a thousand parts, and each as many as its number."""
    cells = [row[at] for row in rows if row[at]["bar"]]
    numbers = [int(cell["text"]) for cell in cells]
    greatest = max([1, *map(abs, numbers)])
    for cell, number in zip(cells, numbers):
        side = [] if min(numbers) >= 0 else ["negative"] if number < 0 else ["positive"]
        check(what, (cell["bar"][1:-1], cell["align"]), (side, "right"))
        check(what, abs(int(cell["bar"][-1]) - 1000 * abs(number) / greatest) <= 1, True)


def compare(program, folder, document, opened):
    """Compares each view of a document's page with what is shown of it, and gives how many cells it has."""

    def asked(*commands):
        return tables.answers(program, folder, [document], "".join(f"{command}\n" for command in commands))

    count = 0
    names = asked("views").split("\n")[:-1]
    asked("report p.html")
    page = opened.read(folder / "p.html")
    title = pathlib.PurePath(document).name
    check("the title", (page["title"], page["head"][0]), (title, title))
    check("the elements", {*page["elements"]} - ELEMENTS, set())
    check("too wide by", max(page["tooWide"], 0), 0)
    check("the views", [section["name"] for section in page["sections"]], names)
    for name, section in zip(names, page["sections"]):
        what, quoted = f"{document}: {name}", '"' + name.replace('"', '""') + '"'
        header, *rows = csv.reader(io.StringIO(asked(f"show {quoted} csv"), newline=""), strict=True)
        objects = [json.loads(line, object_pairs_hook=list) for line in asked(f"show {quoted} json").split("\n")[:-1]]
        check(what, (section["caption"], section["columns"]), (name, [readable(column) for column in header]))
        check(what, [[as_field(cell) for cell in row] for row in section["rows"]], [[readable(field) for field in row] for row in rows])
        check(what, [[cell["isNull"] for cell in row] for row in section["rows"]], [[value is None for _, value in row] for row in objects])
        for at in range(len(header)):
            check_bars(what, section["rows"], at)
        count += sum(map(len, section["rows"]))
    return count


def random_document(folder, random):
    """A document of one frame with a view of all its rows and one of sums and means."""

    def cell(dtype):
        value = tables.cell(random, dtype)
        return "".join(random.choice(HOSTILE + tables.PIECES) for _ in range(random.randrange(1, 4))) if dtype == "Text" and value is not None else value

    columns = random.sample(COLUMNS, random.randrange(1, len(COLUMNS) + 1))
    rows = [[cell(dtype) for _, dtype in columns] for _ in range(random.randrange(12))]
    sums = [[f"{word} {name}", word, name] for name, dtype in columns if dtype == "Int" for word in ("sum", "mean", "min")]
    grouped = json.dumps([["group_by", [columns[0][0]], ["rows", "len"], *sums]], ensure_ascii=False)
    listed = json.dumps([list(column) for column in columns], ensure_ascii=False)
    whole, sums_name = (json.dumps(name, ensure_ascii=False) for name in NAMES)
    (folder / "r.toml").write_text(
        f'[[frame]]\nname = "t"\ncolumns = {listed}\npath = "t.csv"\n[[view]]\nname = {whole}\nfrom = "t"\n'
        f'[[view]]\nname = {sums_name}\nfrom = "t"\nsteps = {grouped}\n'
    )
    (folder / "t.csv").write_text(tables.written([name for name, _ in columns], rows), newline="")


def followed(program, folder, opened, random, count=300):
    """A page that follows changes, as the browser has it meanwhile: how many different ones it had, and how many of their rows were marked."""
    shell, path, states, rows, number = pages.Shell(program, folder), folder / "p.html", {}, {}, 2
    for command in ["frame t x Int who Text", "define v t []", "append t\n0,a\n.", "follow p.html"]:
        check(command, shell.ask(command)[0], "ok")
    rows[0], states[number], written, seen, marks, colours = [0, "a"], {0: [0, "a"]}, [number], set(), 0, set()
    opened.open(path)
    end, looked, unseen = None, time.monotonic(), {}

    def stands(change):
        """The page has this change. Where a second went by since the last look at it, pages that were not seen may stand between."""
        nonlocal looked
        if change not in written:
            is_late = time.monotonic() - looked > 0.9 or change < written[-1]
            unseen[change] = range(max(it for it in written if it < change) + 1, change) if is_late else []
            written.append(change)
            written.sort()
        looked = time.monotonic()

    for at in range(10_000):
        if at < count:
            made, kind = [random.randrange(100), random.choice(HOSTILE[:12])], random.choice(["append", "append", "replace", "delete"])
            line = f'{made[0]},"{made[1].replace(chr(34), chr(34) * 2)}"'
            chosen = random.choice(sorted(rows) or [None])
            if kind == "append" or chosen is None:
                added = shell.ask(f"append t\n{line}\n.")[1][0]
                rows[int(added.split("..")[1])] = made
            elif kind == "replace":
                check("replace", shell.ask(f"replace t {chosen}\n{line}")[0], "ok")
                rows[chosen] = made
            else:
                check("delete", shell.ask(f"delete t {chosen}")[0], "ok")
                del rows[chosen]
            number += 1
            states[number] = dict(sorted(rows.items()))
        elif end is None:
            check("views", shell.ask("views")[0], "ok")
            end = time.monotonic() + 60
        stands(pages.change_of(path))
        page = opened.read_again()
        if page and page["change"] not in seen:
            change = page["change"]
            stands(change)
            check("the rows", page["rows"], [[str(x), who] for x, who in states[change].values()])
            befores = [written[written.index(change) - 1], *unseen[change]] if change != written[0] else [None]
            wanted = [pages.marked(None if before is None else states[before], states[change]) for before in befores]
            got = [tuple(mark) for mark in page["marks"]], page["lines"]
            check(f"the marks at {change}", got, got if got in wanted else wanted[0])
            seen.add(change)
            marks += sum(mark is not None for mark, _ in page["marks"])
            colours |= set(page["colours"])
        if end and (number in seen or time.monotonic() > end):
            break
        time.sleep(0.02)
    check("the last change", number in seen, True)
    check("colours of rows that are new, changed and neither", len(colours) >= 3, True)
    shell.close()
    return len(seen), marks


def main():
    if sys.argv[1] == "--shots":
        with browser() as opened:
            for name, width, height, scheme in [("light", 1000, 800, "light"), ("dark", 1000, 800, "dark"), ("narrow", 390, 800, "light")]:
                opened.open(sys.argv[3], width, height, scheme)
                opened.picture(f"{sys.argv[2]}/{name}.png")
        return
    program = str(pathlib.Path(sys.argv[1]).resolve())
    documents, seed = map(int, sys.argv[2:] + ["50", "1"][len(sys.argv) - 2 :])
    cells = 0
    with browser() as opened, tempfile.TemporaryDirectory() as name:
        folder = pathlib.Path(name)
        shutil.copytree(EXAMPLES, folder / "examples")
        examples = sorted(f"examples/{file.name}" for file in EXAMPLES.glob("*.toml") if file.name != "bad_cell.toml")
        for document in examples:
            cells += compare(program, folder, document, opened)
        for at in range(documents):
            random_document(folder, random.Random(seed * 1000 + at))
            cells += compare(program, folder, "r.toml", opened)
        (folder / "followed").mkdir()
        loaded, marks = followed(program, folder / "followed", opened, random.Random(seed))
    print(f"{len(examples)} examples and {documents} random documents as pages: {cells} cells are what is shown")
    print(f"a page that followed 300 changes was loaded at {loaded} of them, with {marks} marks")


if __name__ == "__main__":
    main()
