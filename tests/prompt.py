#!/usr/bin/env python3
"""What `dfshell` writes at a terminal: prompt.py PROGRAM.

At a pseudo terminal, whose own echo is off, a session begins with a line about its document; `> ` stands before each
command and `| ` before each line of CSV. Where standard input or standard output is no terminal nothing of it is written.
Prints what went otherwise, and ends with a count.
"""
import os
import subprocess
import sys
import tempfile
import termios

DOCUMENT = "frame = [{name='t', columns=[['x', 'Int']], text=\"\"\"\nx\n1\n2\n\"\"\"}]\nview = [{name='v', from='t'}, {name='w', from='t'}]\n"
FIRST = b"1 frame, 2 views; help lists the commands, quit ends\n"
TABLE = b"v (2 x 1)\nx\n1\n2\n"
BOOKS = b"accepted 4, deleted 0, live 4\n"
REFUSED = b"C2 3: t accepted number 3 before\n"
TYPED = b"show v\n\n# a comment\nappend t 2 2\n3\n4\nappend t 3 1\n9\nbooks t\n"
SAID = FIRST + b"> " + TABLE + b"> > > | | ok\n> | " + REFUSED + b"> " + BOOKS + b"> "
BARE = TABLE + b"ok\n" + REFUSED + BOOKS
# Without a document.
DECLARED = b"frames\nframe t x Int\n\nframe t\nframes\nappend t\n7\n.\nframe u x Int\nshow v\n"
MISSING = b"V7 frame 1 S3: no column\n"
LATE = b"? a frame is declared before all changes: begin a session with it, or put it into the document\n"
UNKNOWN = b'C8: no view "v"; views lists them\n'
FRAMES = b"t: 0 rows, x Int\n"
SAID_OF_DECLARED = (
    b"0 frames, 0 views; help lists the commands, quit ends\n> > ok\n> > " + MISSING + b"> " + FRAMES + b"> | | ok 0..0\n> " + LATE + b"> " + UNKNOWN + b"> "
)
BARE_OF_DECLARED = b"ok\n" + MISSING + FRAMES + b"ok 0..0\n" + LATE + UNKNOWN
END_OF_INPUT = b"\x04"


def terminal():
    """Both ends of a pseudo terminal that passes on what is written, and echoes nothing."""
    ours, theirs = os.openpty()
    mode = termios.tcgetattr(theirs)
    mode[1] &= ~termios.OPOST
    mode[3] &= ~termios.ECHO
    termios.tcsetattr(theirs, termios.TCSANOW, mode)
    return ours, theirs


def read_all(source):
    said = b""
    try:
        while block := os.read(source, 4096):
            said += block
    except OSError:  # how Linux ends the reading of a pseudo terminal that nobody writes to
        pass
    return said


def run(words, typed, at_input, at_output):
    """The output, the error and the status of a session, with a terminal at its input, at its output, or at both."""
    ours, theirs = terminal()
    pipe = subprocess.PIPE
    child = subprocess.Popen(
        words, stdin=theirs if at_input else pipe, stdout=theirs if at_output else pipe, stderr=pipe
    )
    os.close(theirs)
    if at_input:
        os.write(ours, typed)
    else:
        child.stdin.write(typed)
        child.stdin.close()
    said = read_all(ours if at_output else child.stdout.fileno())
    error = child.stderr.read()
    status = child.wait()
    os.close(ours)
    return said, error, status


def main():
    program = os.path.abspath(sys.argv[1])
    wrong = runs = 0
    with tempfile.TemporaryDirectory() as folder:
        document = os.path.join(folder, "views.toml")
        with open(document, "w") as file:
            file.write(DOCUMENT)
        for words, asked, said_of, bare_of in [
            ([program, document], TYPED, SAID, BARE),
            ([program, "--hall", document], TYPED, SAID, BARE),
            ([program], DECLARED, SAID_OF_DECLARED, BARE_OF_DECLARED),
            ([program, "--hall"], DECLARED, SAID_OF_DECLARED, BARE_OF_DECLARED),
            ([program], b"frame t x Int\n", b"0 frames, 0 views; help lists the commands, quit ends\n> ok\n> ", b"ok\n"),
        ]:
            for name, typed, at_input, at_output, wanted in [
                ("quit", asked + b"quit\n", True, True, said_of),
                ("the end of input", asked + END_OF_INPUT, True, True, said_of + b"\n"),
                ("output in a pipe", asked + b"quit\n", True, False, bare_of),
                ("input from a pipe", asked, False, True, bare_of),
            ]:
                runs += 1
                said, error, status = run(words, typed, at_input, at_output)
                if (said, error, status) != (wanted, b"", 0):
                    print(f"otherwise: {name}: {words[1:]}: {said!r}, {error!r}, {status}")
                    wrong += 1
    print(f"prompt: {runs} sessions, {wrong} otherwise")
    return wrong > 0


sys.exit(main())
