#!/usr/bin/env python3
"""Runs sessions of the shell.

    sessions.py PROGRAM [--hall] [--refuse] SESSION..
    sessions.py --export FOLDER [--hall] SESSION..     writes in place of running them what is typed, the words as
                                                       NAME.args and the answers as NAME.stdout, as `rt try --cases`
                                                       reads them

Each session runs in a folder of its own, with copies of the files that it reads. NAME.session is a transcript over the document NAME.toml; where there is none, of a session without a document. A line `> COMMAND` is what is typed, `| LINE` a line of CSV
behind an append, and `N| LINE` the same line N times; the lines below are the answer, and those above the first
command are what the shell writes at its start. A command is sent only when the answer to the one before it is there.

With --hall the program runs each with that word. A transcript has the answers of both: of `work` those without the word,
and of `version` those with it. The other way round each of the two is refused.

With --refuse each session runs again with each of its allocations refused in turn, every second time with the one
behind it too. A refusal at the start ends in a fault of memory and status 2. One later is answered `memory`: frames,
books, views and the version are then those from before the command, and the same command typed again is answered as in
the session without a refusal, and so is all that comes behind it. A session in which an accepted append of rows was never
refused is wrong itself: then nothing is refused here. A session that sources or loads a file, has pages follow
the store, or has a command that is no text, runs once. Where views are watched, one allocation is refused at a time; one behind an accepted change, at what it did to
them, has it told of each that this is missed. One in which the words of an append or a replace are refused has one allocation refused at a time:
at two, the lines behind such a command are guessed. Prints what differs, and ends with a count.
"""

import concurrent.futures
import os
import re
import shutil
import subprocess
import sys
import tempfile
import threading
import tomllib

HERE = os.path.dirname(os.path.abspath(__file__))
SECONDS = 120
MEMORY = b"memory\n"
CUT = b"? the input ends before the lines of the command\n"
# What is refused with --hall, and what is without it.
WITH_HALL = {b"work\n": b"? not with --hall\n"}
WITHOUT_HALL = {b"version\n": b"? only with --hall\n"}


class Session:
    """What is typed and what is answered, in turn. The first answer is the shell's start."""

    def __init__(self, path, hall=False):
        self.path = path
        self.typed = [b""]
        self.answers = [b""]
        with open(path, "rb") as file:
            for line in file:
                self.read(line)
        refused = WITH_HALL if hall else WITHOUT_HALL
        self.answers = [refused.get(typed, answer) for typed, answer in zip(self.typed, self.answers)]

    def read(self, line):
        command = re.match(rb"> ?(.*\n)", line)
        csv = re.match(rb"(\d*)\| ?(.*\n)", line)
        if command:
            self.typed.append(command[1])
            self.answers.append(b"")
        elif csv:
            self.typed[-1] += csv[2] * int(csv[1] or 1)
        else:
            self.answers[-1] += line

    def runs_once(self):
        """Whether it sources a file, of which one command has the answers of many, loads one, of which some chunks enter where
        memory is refused to others, has pages follow the store, which are written behind commands by a clock, or has a command that is
        no text, behind which lines are guessed where memory is refused."""
        return any(typed.startswith((b"source ", b"load ", b"follow ")) or b"\xff" in typed for typed in self.typed)

    def names(self):
        """The names of the frames that it declares, and of the views that it defines: those that are no words in quotes."""
        accepted = [typed.decode().split() for typed, answer in zip(self.typed, self.answers) if answer == b"ok\n" and b'"' not in typed.split(b"\n")[0]]
        return [[words[1] for words in accepted if words[:1] == [word]] for word in ("frame", "define")]

    def is_cut(self, at):
        """Whether the end of input cuts the lines of an append that is refused all the same."""
        words, *lines = self.typed[at].split(b"\n")
        count = words.split()[-1:] or [b""]
        return at == len(self.typed) - 1 and words.startswith(b"append") and count[0].isdigit() and int(count[0]) > len(lines) - 1

    def watches(self):
        """Whether it is told what changes did to views."""
        return any(typed.startswith(b"watch ") for typed in self.typed)

    def guesses(self):
        """Whether memory that is refused twice to the words of a command may have lines behind it taken for its own."""
        turns = zip(self.typed, self.answers)
        return any(typed.startswith((b"append", b"replace")) and answer.startswith(b"? ") for typed, answer in turns)


class Runner:
    """Runs one session, and keeps what differs."""

    def __init__(self, program, words, session, folder=None):
        document = document_of(session.path)
        self.command = [os.path.abspath(program), *words, *document]
        self.folder = folder or os.path.dirname(os.path.abspath(session.path))
        self.session = session
        self.frames, self.views = session.names()
        # What a start without enough memory tells: by itself, or of the document.
        self.starts = [b"dfshell: memory\n"]
        for name in document:
            self.starts.append(f"{name}: takes more memory than there is [memory]\n".encode())
            with open(os.path.join(self.folder, name), "rb") as file:
                tables = tomllib.load(file)
            self.frames += [frame["name"] for frame in tables.get("frame", [])]
            self.views += [view["name"] for view in tables.get("view", [])]
        self.wrong = []
        self.cache = {}

    def start(self, **variables):
        pipe = subprocess.PIPE
        return subprocess.Popen(
            self.command, cwd=self.folder, stdin=pipe, stdout=pipe, stderr=pipe, env={**os.environ, **variables}
        )

    def whole(self, typed, **variables):
        """The output, the error and the status of a run that gets all of its input at once."""
        shell = self.start(**variables)
        try:
            output, error = shell.communicate(typed, SECONDS)
        except subprocess.TimeoutExpired:
            shell.kill()
            output, error = shell.communicate()
        return output, error, shell.returncode

    def converse(self):
        """Sends each command when the answer to the one before it is there."""
        shell = self.start()
        watch = threading.Timer(SECONDS, shell.kill)
        watch.start()
        last = len(self.session.typed) - 1
        for at, (typed, answer) in enumerate(zip(self.session.typed, self.session.answers)):
            send(shell, typed, at == last)
            said = shell.stdout.read(len(answer))
            if said != answer:
                shell.kill()
                self.differs(f"at {first_line(typed)}", answer, said)
                break
        rest, error = shell.communicate()
        watch.cancel()
        if not self.wrong and (rest, error, shell.returncode) != (b"", b"", 0):
            self.differs("at the end", b"", rest + error)

    def differs(self, where, wanted, said):
        self.wrong.append(f"{self.session.path} {where}:\nwanted\n{text(wanted)}said\n{text(said)}")

    def refuse_each(self, library, counts):
        """Refuses each allocation in turn, and gives how many there are."""
        plain = b"".join(self.session.typed)
        self.whole(plain, LD_PRELOAD=library, COUNTS=counts)
        with open(counts) as file:
            allocations = int(file.read().split()[0])
        at, missing, refused = 0, 0, set()
        for n in range(1, allocations + 1):
            several = 1 if self.session.guesses() or self.session.watches() else 2 - n % 2
            variables = {"LD_PRELOAD": library, "FAIL_ALLOC": str(n), "FAIL_ALLOCS": str(several)}
            if self.session.watches() and (missed := self.missing(self.whole(plain, **variables)[0], at)) is not None:
                at = missed
                missing += 1
                continue
            came = self.again(at, n % 2 == 1, variables)
            # Where these are not the answers, the refusal may have come to a later command.
            later = iter([] if came is not None else self.places(self.whole(plain, **variables)[0], at))
            while came is None and (place := next(later, None)) is not None:
                at, came = place, self.again(place, n % 2 == 1, variables)
            if came:
                refused.add(at)
            elif came is None:
                self.differs(f"with allocation {n} refused", b"".join(self.session.answers), self.whole(plain, **variables)[0])
        for at in sorted(self.growing() - refused):
            self.wrong.append(f"{self.session.path}: no allocation was refused at {first_line(self.session.typed[at])}")
        if self.session.watches() and not missing:
            self.wrong.append(f"{self.session.path}: no allocation was refused behind a change")
        return allocations

    def missing(self, output, at):
        """The command at this place, or behind it, that was accepted, and of which is told that it is missed what it did."""
        answers = self.session.answers
        for place in range(at, len(answers)):
            told = missed(answers[place])
            if told != answers[place] and output == b"".join([*answers[:place], told, *answers[place + 1 :]]):
                return place
        return None

    def growing(self):
        """The commands that cannot do without memory: appends of rows that are accepted."""
        turns = enumerate(zip(self.session.typed, self.session.answers))
        return {at for at, (typed, answer) in turns if typed.startswith(b"append") and typed.count(b"\n") > 1 and answer == b"ok\n"}

    def places(self, output, at):
        """The commands behind this one to which a run without a second try may have answered `memory`: several, where
        commands have no answer."""
        said = b"".join(self.session.answers[: at + 1])
        for place in range(at + 1, len(self.session.typed)):
            if output.startswith(said + MEMORY):
                yield place
            said += self.session.answers[place]

    def again(self, at, probed, variables):
        """Types the command at this place again behind its refusal: True where it was refused and then answered, False
        where nothing was refused, None where the answers are others. In between the state is asked for, or, where two
        allocations are refused, the command is typed once more."""
        typed, answers = self.session.typed, self.session.answers
        before, said, rest = b"".join(typed[:at]), b"".join(answers[:at]), b"".join(typed[at:])
        between = b"" if at == 0 else self.probes() if probed else typed[at]
        everything = before + typed[at] + between + rest
        if answers[at] == CUT or self.session.is_cut(at):
            # What is typed behind it would be its lines.
            everything = before + typed[at]
        output, error, status = self.whole(everything, **variables)
        if (output, status) == (b"", 2) and error in self.starts:
            return True
        if error or status != 0:
            return None
        if output == self.unrefused(everything):
            return False
        behind = b"".join(answers[at:])
        if answers[at] == CUT or self.session.is_cut(at):
            lawful = [b""]
        elif at and probed:
            lawful = [self.state(at) + behind]
        elif at:
            # Both allocations were of one try, or each of its own.
            lawful = [self.unrefused(before + typed[at] + rest)[len(said) :], MEMORY + behind]
        else:
            lawful = []
        return True if output in [said + MEMORY + answer for answer in lawful] else None

    def probes(self):
        """Questions for all that a command may change."""
        asked = ["check", "views"]
        asked += [f"{word} {quoted(frame)}" for frame in self.frames for word in ("rows", "books")]
        asked += [f"show {quoted(view)}" for view in self.views]
        asked += ["version"] * ("--hall" in self.command)
        return "".join(f"{question}\n" for question in asked).encode()

    def state(self, at):
        """The answers to these questions before the command at this place."""
        typed, said = b"".join(self.session.typed[:at]), b"".join(self.session.answers[:at])
        return self.unrefused(typed + self.probes())[len(said) :]

    def unrefused(self, typed):
        if typed not in self.cache:
            self.cache[typed] = self.whole(typed)[0]
        return self.cache[typed]


def document_of(path):
    """The name of a session's document, in a list of at most one."""
    name = os.path.basename(path)[: -len("session")] + "toml"
    return [name] if os.path.exists(os.path.join(os.path.dirname(path), name)) else []


def missed(answer):
    """An answer to an accepted change, where what it did to the views that are watched could not be told."""
    accepted, *lines = answer.splitlines(keepends=True) or [b""]
    if not accepted.startswith(b"ok"):
        return answer
    told = [accepted]
    while lines:
        head = re.fullmatch(rb"change (.* \d+) (\d+)\n", lines.pop(0))
        if not head:
            return answer
        told.append(b"missed " + head[1] + b" 0\n")
        del lines[: int(head[2])]
    return b"".join(told)


def quoted(name):
    return '"' + name.replace('"', '""') + '"'


def send(shell, typed, last):
    """Sends a command, and at the last one the end of input."""
    try:
        shell.stdin.write(typed)
        shell.stdin.flush()
        if last:
            shell.stdin.close()
    except BrokenPipeError:
        pass
    if last:
        shell.stdin = None


def first_line(typed):
    return text(typed.split(b"\n")[0]) or "the start"


def text(said):
    return said.decode("utf-8", "backslashreplace")


def failing_library(folder):
    """The library that makes allocations fail, built from failing.c."""
    compiler = os.environ.get("CC") or shutil.which("cc")
    if not compiler:
        page = subprocess.run(["rt", "doc"], capture_output=True, text=True, check=True).stdout.strip()
        compiler = os.path.join(os.path.dirname(page), "toolchain/bin/clang")
    library = os.path.join(folder, "failing.so")
    source = os.path.join(HERE, "failing.c")
    subprocess.run([compiler, "-O1", "-shared", "-fPIC", "-nostdlib", "-o", library, source], check=True)
    return library


def run(program, words, path, library, folder):
    session = Session(path, "--hall" in words)
    runner = Runner(program, words, session, own_folder(path, folder))
    runner.converse()
    refused = 0
    if library and not runner.wrong and not session.runs_once():
        counts = os.path.join(folder, path.replace("/", "_") + ".counts")
        refused = runner.refuse_each(library, counts)
    return runner.wrong, refused


def own_folder(path, folder):
    """A folder with the document of a session and the files that it may read, in which it may write others."""
    own, beside = os.path.join(folder, path.replace("/", "_")), os.path.dirname(os.path.abspath(path))
    os.mkdir(own)
    for name in os.listdir(beside):
        if name in document_of(path) or name.endswith((".csv", ".commands")):
            shutil.copy(os.path.join(beside, name), own)
    return own


def export(folder, hall, paths):
    os.makedirs(folder, exist_ok=True)
    for path in paths:
        session = Session(path, bool(hall))
        name = os.path.join(folder, os.path.basename(path)[: -len(".session")])
        with open(name, "wb") as file:
            file.write(b"".join(session.typed))
        with open(name + ".stdout", "wb") as file:
            file.write(b"".join(session.answers))
        with open(name + ".args", "w") as file:
            file.write("".join(f"{word}\n" for word in [*hall, *document_of(path)]))


def main(words):
    refuse = "--refuse" in words
    hall = [word for word in words if word == "--hall"]
    program, *paths = [word for word in words if word not in ("--hall", "--refuse")]
    if program == "--export":
        export(paths[0], hall, paths[1:])
        return 0
    with tempfile.TemporaryDirectory() as folder, concurrent.futures.ThreadPoolExecutor(4) as pool:
        library = failing_library(folder) if refuse else None
        results = list(pool.map(lambda path: run(program, hall, path, library, folder), paths))
    wrong = [report for reports, _ in results for report in reports]
    for report in wrong[:20]:
        print(report)
    refused = sum(count for _, count in results)
    print(f"{len(paths)} sessions, {refused} allocations refused in turn, {len(wrong)} otherwise")
    return 1 if wrong else 0


if __name__ == "__main__":
    sys.exit(main(sys.argv[1:]))
