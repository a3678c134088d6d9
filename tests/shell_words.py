#!/usr/bin/env python3
"""The words of `dfshell`, and what `--check`, `--sql` and `--report` tell: shell_words.py PROGRAM.

Help and the version go to standard output with status 0, words that are refused to standard error with status 2. A
document is checked as it is opened: its counts and status 0, the lines of refused chunks and status 1, its fault in
words and status 2. Prints what went otherwise, and ends with a count.
"""
import os
import re
import subprocess
import sys
import tempfile

FRAME = "frame = [{{name='t', columns=[['x', 'Int']], text=\"\"\"\nx\n1\n{cell}\n\"\"\"}}]\n"
FILES = {
    "good.toml": FRAME.format(cell="2") + "view = [{name='v', from='t'}]\n",
    "two.toml": "frame = [{name='t', columns=[['x', 'Int']], path='t.csv'}, {name='u', columns=[['y', 'Text']], text='y'}]\nview = []\n",
    "t.csv": "x\n7\n",
    "refused.toml": FRAME.format(cell="many") + "view = [{name='v', from='t'}]\n",
    "fault.toml": FRAME.format(cell="2") + "view = [{name='v', from='u'}]\n",
    "text.toml": "frame = ",
    "c.commands": "books t\n# a comment\nshow none\nbooks t\n",
    "bad.csv": "x\nmany\n",
    "no_file.toml": "frame = [{name='t', columns=[['x', 'Int']], path='none.csv'}]\nview = []\n",
}
HELP = r"(?s).*Usage: .*VIEWS.*--hall.*--check.*--bail.*--framed.*--sql.*--report.*Commands.*append FRAME FIRST COUNT.*quit .*Exit status.*"
VERSION = r"dfshell \d+\.\d+\.\d+\n"
ANY = r"(?s).+"
# The words, what is typed, and of the output, the error and the status what they are to be.
RUNS = [
    (["--help"], "", HELP, "", 0),
    (["-h"], "", HELP, "", 0),
    (["--version"], "", VERSION, "", 0),
    ([], "", "", "", 0),
    ([], "frames\nframe t x Int\nframes\n", "ok\nt: 0 rows, x Int\n", "", 0),
    (["--"], "frame t x Int\nquit\nframe u x Int\n", "ok\n", "", 0),
    (["--bad"], "", "", r"(?s).*--bad.*", 2),
    (["--hall", "--hall", "good.toml"], "", "", ANY, 2),
    (["good.toml", "two.toml"], "", "", ANY, 2),
    (["--hall"], "", "", "", 0),
    (["--hall"], "frame t x Int\nappend t\n7\n.\nversion\n", "ok\nok 0..0\nversion 1\n", "", 0),
    (["--check"], "frame t x Int\n", "", r"(?s)error: .*--check.*Usage: .*", 2),
    (["--check", "--hall"], "", "", r"(?s)error: .*--check.*Usage: .*", 2),
    (["good.toml"], "books t\n", "accepted 2, deleted 0, live 2\n", "", 0),
    (["good.toml", "--hall"], "version\n", "version 2\n", "", 0),
    (["--", "good.toml"], "views\n", "v\n", "", 0),
    (["refused.toml"], "books t\n", "refused t 0: record 2, column x\naccepted 0, deleted 0, live 0\n", "", 0),
    (["none.toml"], "", "", r"none.toml: .* \[V10\]\n", 2),
    (["--bail", "good.toml"], "books t\n", "accepted 2, deleted 0, live 2\n", "", 0),
    (["--bail", "good.toml"], "views\nbook t\nviews\n", r'v\n\? no command "book": help lists them\n', "", 1),
    (["good.toml", "--hall", "--bail"], "delete t 7\nversion\n", r"C5 7: t has no row 7\n", "", 1),
    (["--bail", "good.toml"], "append t 2 1\nmany\nviews\n", "record 1, column x: the cell is no value of the column's type\n", "", 1),
    (["--bail", "good.toml"], "append t 2 2\n3\n", r"\? the input ends before the lines of the command\n", "", 1),
    (["--bail", "good.toml"], "source c.commands\nviews\n", r"accepted 2, deleted 0, live 2\nC8: no view .*\n", "", 1),
    (["--bail", "good.toml"], "source none\nviews\n", r'\? the file "none" cannot be opened or read\n', "", 1),
    (["--bail", "good.toml"], "load t none.csv\nviews\n", r"F1: .*\n", "", 1),
    (["--bail", "good.toml"], "load t bad.csv\nviews\n", r"refused t 0: record 1, column x\nok 0 rows\nv\n", "", 0),
    (["--bail", "good.toml"], "x" * 1048577 + "\nviews\n", r"\? a line has more than 1048576 bytes\n", "", 1),
    (["--bail", "refused.toml"], "views\n", "refused t 0: record 2, column x\nv\n", "", 0),
    (["--bail"], "frame t x Int\nframe t x Int\nframes\n", r"ok\nV4 frame 1: .*\n", "", 1),
    (["--bail"], "show v\nframe t x Int\n", r"C8: .*\n", "", 1),
    (["--bail", "--hall"], "frame t x Int\nappend t\n1\n.\nquit now\nviews\n", r"ok\nok 0..0\n\? a word too many: .*\n", "", 1),
    (["--bail", "--bail"], "", "", ANY, 2),
    (["--framed", "refused.toml"], "\nbooks t\n# no answer\nbook t\nquit\n",
     r'ready 1\nrefused t 0: record 2, column x\nok 1\naccepted 0, deleted 0, live 0\nerror 1 \?\n\? no command "book": .*\n', "", 0),
    (["--framed", "--bail"], "frame t x Int\nshow v\nhelp\n", r"ready 0\nok 1\nok\nerror 1 C8\nC8: .*\n", "", 1),
    (["--framed"], "frame t x Int\nappend t\n7\n8\n.\nrows t\n",
     r"ready 0\nok 1\nok\nok 1\nok 0..1\nok 5\nt \(2 x 1\)\nx\n7\n8\nnumbers 0 1\n", "", 0),
    (["--sql"], "", "", r"(?s)error: .*--sql.*Usage: .*", 2),
    (["--sql", "--sql", "good.toml"], "", "", ANY, 2),
    (["--sql", "good.toml"], "books t\n",
     r"""(?s)-- .*CREATE TABLE IF NOT EXISTS frames\."t" \(.*\n\\copy frames\."t" FROM 't\.csv' .*\nCREATE VIEW views\."v" AS\n.*;\n""", "", 0),
    (["fault.toml", "--sql"], "", "", r"fault.toml: view 1 `v`: no frame `u`; the frames are t \[V6 view 0\]\n", 2),
    (["--sql", "none.toml"], "", "", r"none.toml: .* \[V10\]\n", 2),
    (["--report", "p.html"], "", "", r"(?s)error: .*--report.*Usage: .*", 2),
    (["good.toml", "--report"], "", "", r"(?s)error: .*--report.*", 2),
    (["--report", "p.html", "--report", "p.html", "good.toml"], "", "", ANY, 2),
    (["--report", "p.html", "good.toml"], "books t\n", "", "", 0),
    (["--report", "p.html", "refused.toml"], "", "refused t 0: record 2, column x\n", "", 0),
    (["--report", "none/p.html", "good.toml"], "", "", r"dfshell: W1: PATH.part .*\n", 2),
    (["--report", ".", "good.toml"], "", "", r"dfshell: W3: .*\n", 2),
    (["--report", "p.html", "fault.toml"], "", "", r"fault.toml: view 1 `v`: no frame `u`; the frames are t \[V6 view 0\]\n", 2),
    (["--report", "p.html", "none.toml"], "", "", r"none.toml: .* \[V10\]\n", 2),
    (["--check", "good.toml"], "books t\n", "ok: 1 frame, 1 view\n", "", 0),
    (["two.toml", "--check"], "", "ok: 2 frames, 0 views\n", "", 0),
    (["--check", "--hall", "two.toml"], "", "ok: 2 frames, 0 views\n", "", 0),
    (["--check", "refused.toml"], "", "refused t 0: record 2, column x\n", "", 1),
    (["--check", "fault.toml"], "", "", r"fault.toml: view 1 `v`: no frame `u`; the frames are t \[V6 view 0\]\n", 2),
    # a document that can be read only once
    (["--check", "/dev/stdin"], FRAME.format(cell="2") + "view = [{name='w', from='t'}, {name='v', from='t', steps=[['filter', ['col', 'y']]]}]\n",
     "", r"/dev/stdin: view 2 `v`, step 1 `filter`: no column `y`; the columns there are x \[v: P2 E1 y\]\n", 2),
    (["--check", "text.toml"], "", "", r"text.toml, line 1: .* \[V1\]\n", 2),
    (["--check", "no_file.toml"], "", "", r"t: none.csv cannot be .* \[t: F1\]\n", 2),
    (["--check", "none.toml"], "", "", r"none.toml: .* \[V10\]\n", 2),
]


def lists_differ(program, folder):
    """Whether `--help` has other lines of commands than `help` answers."""
    said = [
        subprocess.run([program, *words], input=typed, capture_output=True, text=True, cwd=folder, timeout=60).stdout
        for words, typed in [(["good.toml"], "help\n"), (["--help"], "")]
    ]
    listed, told = said[0].splitlines(), re.findall(r"(?m)^  ([a-z]+ .*)$", said[1].split("Commands")[1].split("Exit status")[0])
    if not listed or listed != told:
        print(f"otherwise: help: {listed}, --help: {told}")
        return 1
    return 0


def main():
    program = os.path.abspath(sys.argv[1])
    wrong = 0
    with tempfile.TemporaryDirectory() as folder:
        for name, text in FILES.items():
            with open(os.path.join(folder, name), "w") as file:
                file.write(text)
        wrong += lists_differ(program, folder)
        for words, typed, output, error, status in RUNS:
            ran = subprocess.run([program, *words], input=typed, capture_output=True, text=True, cwd=folder, timeout=60)
            if not (re.fullmatch(output, ran.stdout) and re.fullmatch(error, ran.stderr) and ran.returncode == status):
                print(f"otherwise: {words}: {ran.stdout!r}, {ran.stderr!r}, {ran.returncode}")
                wrong += 1
    print(f"words of the shell: {len(RUNS)} runs, {wrong} otherwise")
    return wrong > 0


sys.exit(main())
