#!/usr/bin/env python3
"""Frames: framed.py PROGRAM [SEED [COMMANDS]].

Random commands, also wrong ones, empty lines and comments, without and with --hall: with --framed the bodies one behind
another are what the plain session prints, each frame has as many lines as its head says, an `error` has one line, which begins with the code that
its head says, an `ok` begins as no refusal does, and each command has its own frame, one of `source` one for each command of its file. Then
the clients of the guide, which stand in examples/shell, in Python and in POSIX sh, ask and are refused. Last a session runs with each tenth allocation refused: it
has as many frames, of which one says `error 1 memory` and `memory`, or fewer where a file was not read to its end. Prints what went otherwise, and ends with a
count.
"""
import os
import pathlib
import random
import re
import shutil
import subprocess
import sys
import tempfile

HERE = pathlib.Path(__file__).resolve().parent.parent
sys.path.insert(0, str(HERE / "examples/shell"))
from client import Refused, Shell  # noqa: E402
from sessions import failing_library  # noqa: E402

DOCUMENT = """
[[frame]]
name = "t"
columns = [["k", "Text"], ["v", "Int"]]
text = '''
k,v
a,1
b,many
'''
[[frame]]
name = "u"
columns = [["k", "Text"]]
text = "k\\na\\n"
[[view]]
name = "by_k"
from = "t"
steps = [["group_by", ["k"], ["s", "sum", "v"]]]
"""
FILES = {
    "d.toml": DOCUMENT,
    "few.commands": "views\n\n# two more\nbooks t\nappend t\nq,9\n.\nnosuch\n",
    "none.commands": "# nothing\n",
    "ends.commands": "append t\nx,1\n",
    "more.csv": "k,v\nx,1\ny,2\n",
    "bad.csv": "k,v\nx,1\ny,many\n",
    "wrong.csv": "k\nx\n",
}
# The commands, and how many frames each has.
PLAIN = [
    ("views", 1), ("frames", 1), ("show by_k", 1), ("show by_k 1", 1), ("show by_k from 1 1", 1), ("rows t", 1), ("books u", 1),
    ("schema t", 1), ("plan by_k", 1), ("plan other", 1), ("check", 1), ("work", 1), ("version", 1), ("help", 1), ("help plan", 1),
    ("append t\nx,1\ny,2\n.", 1), ("append t\n.", 1), ("append t\nx,many\n.", 1), ("append u 3 2\nb\nc", 1), ("append u 3000000000 1\nb", 1),
    ("append nosuch\nx\n.", 1), ("replace t 0\nz,5", 1), ("replace t 0 0\nz,5\nz,6", 1), ("delete t 0", 1), ("delete u 0 1", 1),
    ("define few t [[\"filter\", [\">\", [\"col\", \"v\"], 1]]]", 1), ("define bad t [[\"filtre\"]]", 1), ("drop few", 1), ("register few", 1),
    ("load t more.csv", 1), ("load t bad.csv", 1), ("load t wrong.csv", 1), ("load t none.csv", 1), ("source few.commands", 4),
    ("export by_k out.csv", 1), ("export nosuch out.csv", 1), ("export by_k nosuch/out.csv", 1), ("source none.commands", 0), ("source ends.commands", 1), ("source nosuch", 1), ("nosuch", 1), ("show", 1), ("show by_k x y z", 1), ("frame f x Int", 1),
    ("", 0), ("   ", 0), ("# a comment", 0), ("  # one more", 0), ("\"no end", 1), ("x" * 1048577, 1),
]
REFUSAL = re.compile(r"(\? |[VPCFSHW]\d|record |memory$)")


def code_of(line):
    """What the line of a refusal begins with."""
    return "?" if line.startswith("? ") else line.split(": ")[0]


def frames_of(text):
    """The frames of a text: the word and the lines of each. What the head of a refusal says its line says too."""
    frames, lines = [], text.split("\n")
    if lines.pop() != "":
        raise ValueError("a line without an end")
    while lines:
        word, count, code = re.fullmatch(r"(ready|ok|error(?= \d+ .)) (\d+)(?: (.+))?", lines.pop(0)).groups()
        body, lines = lines[: int(count)], lines[int(count) :]
        if len(body) != int(count):
            raise ValueError("lines are missing")
        if code != (code_of(body[0]) if word == "error" else None):
            raise ValueError(f"another code: {code}, {body}")
        frames.append((word, body))
    return frames


def fault_of(program, words, typed, count, folder):
    """What is wrong with the frames of a session, or None."""
    plain, framed = (
        subprocess.run([program, *more, *words], input=typed, capture_output=True, text=True, cwd=folder, timeout=120, check=False)
        for more in ([], ["--framed"])
    )
    if (plain.returncode, plain.stderr) != (framed.returncode, framed.stderr):
        return f"ended otherwise: {framed.returncode}, {framed.stderr}"
    try:
        frames = frames_of(framed.stdout)
    except (AttributeError, ValueError) as error:
        return f"no frames: {error}"
    if "".join(f"{line}\n" for _, body in frames for line in body) != plain.stdout:
        return "other lines than without frames"
    if [word for word, _ in frames].count("ready") != 1 or frames[0][0] != "ready":
        return "not ready once, at the start"
    if len(frames) != count + 1:
        return f"{len(frames) - 1} frames, not {count}"
    for word, body in frames[1:]:
        refused = len(body) == 1 and REFUSAL.match(body[0])
        if bool(refused) != (word == "error"):
            return f"{word}: {body}"
    return None


def client_fault(program, folder):
    """What the client is answered otherwise than wanted."""
    guide = (HERE / "docs/GUIDE.md").read_text()
    if (HERE / "examples/shell/client.py").read_text() not in guide:
        return "the guide has another client"
    shell = Shell(program, os.path.join(folder, "d.toml"))
    asked = [shell.start, shell.ask("append t", "x,1", "x,2", "."), shell.ask("show by_k"), shell.ask("# nothing", "views")]
    try:
        shell.ask("delete t 7")
    except Refused as refused:
        asked.append((refused.code, str(refused)))
    asked.append(shell.close())
    wanted = [
        ["refused t 0: record 2, column v\n"],
        ["ok 0..1\n"],
        ["by_k (1 x 2)\n", "k  s\n", "x  3\n"],
        ["by_k\n"],
        ("C5 7", "C5 7: t has no row 7"),
        0,
    ]
    return None if asked == wanted else f"the client: {asked}"


# What a script asks that reads the client in sh, and the statuses.
SCRIPT = """
. "$1"
shell_open "$2" d.toml; echo "status $?"
shell_ask 'append t' x,1 '"x\\",2' .; echo "status $?"
table=$(shell_ask 'show by_k'); echo "status $?"
printf '%s\\n' "$table"
shell_ask '# nothing' views
shell_ask 'delete t 7'; echo "status $?"
shell_ask 'define indented t [["select", ["k", ["col", "k"]]]]'
shell_ask 'rows t csv'
shell_close; echo "status $?"
shell_ask views; echo "status $?"
"""
SAID = """refused t 0: record 2, column v
status 0
ok 0..1
status 0
status 0
by_k (2 x 2)
k    s
x    1
x\\\\  2
by_k
C5 7: t has no row 7
status 1
ok
number,k,v
0,x,1
1,x\\,2
status 0
status 2
"""


def script_fault(program, folder, shell):
    """What a script is answered otherwise than wanted."""
    client = HERE / "examples/shell/client.sh"
    words = [shell, "-u", "-c", SCRIPT, shell, str(client), program]
    run = subprocess.run(words, capture_output=True, text=True, cwd=folder, timeout=120, check=False)
    if (run.stdout, run.returncode) != (SAID, 0):
        return f"{shell}: {run.stdout}{run.stderr}"
    return None


SHORT = "views\nappend t\nx,1\ny,2\n.\nshow by_k\nplan by_k\nload t more.csv\nload t bad.csv\nnosuch\nbooks t\ncheck\n"


def memory_faults(program, folder):
    """What is wrong where allocations are refused in turn; and how often memory was answered."""
    library, wrong, answered, quiet = failing_library(folder), [], 0, 0
    for number in range(1, 20000, 10):
        run = subprocess.run(
            [program, "--framed", "d.toml"],
            input=SHORT,
            capture_output=True,
            text=True,
            cwd=folder,
            timeout=120,
            check=False,
            env={**os.environ, "LD_PRELOAD": library, "FAIL_ALLOC": str(number)},
        )
        if run.returncode == 2 and not run.stdout:
            continue
        try:
            frames = frames_of(run.stdout)
        except (AttributeError, ValueError) as error:
            wrong.append(f"allocation {number}: {error}")
            continue
        refused = [body for word, body in frames if word == "error"]
        said = refused.count(["memory"]) or any("memory" in body for _, body in frames)
        if run.returncode or len(frames) != 10 or any(len(body) != 1 for body in refused):
            wrong.append(f"allocation {number}: {frames}")
        # Behind the last allocation none is refused.
        answered, quiet = (answered + 1, 0) if said else (answered, quiet + 1)
        if quiet == 50:
            break
    return wrong, answered


def main(program, seed="1", commands="1000"):
    program, rng, wrong, runs = os.path.abspath(program), random.Random(int(seed)), 0, 0
    with tempfile.TemporaryDirectory() as folder:
        for name, text in FILES.items():
            pathlib.Path(folder, name).write_text(text)
        for words in (["d.toml"], ["--hall", "d.toml"], [], ["--hall"]):
            drawn = [rng.choice(PLAIN) for _ in range(int(commands) // 4)]
            typed, count = "".join(f"{command}\n" for command, _ in drawn), sum(frames for _, frames in drawn)
            if not words[-1:] == ["d.toml"]:
                typed, count = "frame t k Text v Int\nframe u k Text\n" + typed, count + 2
            fault = fault_of(program, words, typed, count, folder)
            runs += 1
            if fault:
                print(f"otherwise: {words}: {fault[:2000]}")
                wrong += 1
        scripts = [script_fault(program, folder, name) for name in ("sh", "dash", "bash") if shutil.which(name)]
        for fault in [client_fault(program, folder), *scripts]:
            if fault:
                print(f"otherwise: {fault}")
                wrong += 1
        faults, answered = memory_faults(program, folder)
        if answered < 10:
            faults.append(f"memory was answered {answered} times")
        print("".join(f"otherwise: {fault}\n" for fault in faults[:5]), end="")
        wrong += len(faults)
    print(f"frames: {runs + 1} runs, {wrong} otherwise")
    return wrong > 0


sys.exit(main(*sys.argv[1:]))
