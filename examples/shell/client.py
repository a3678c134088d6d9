"""Asks dfshell through a pipe."""
import subprocess


class Refused(Exception):
    """A command was refused: its text is the refusal's line, its code what that begins with, as `C5 99`."""

    def __init__(self, code, line):
        super().__init__(line)
        self.code = code


class Shell:
    def __init__(self, program, *words):
        line = [program, "--framed", *words]
        self.process = subprocess.Popen(line, stdin=subprocess.PIPE, stdout=subprocess.PIPE)
        self.start = self.answer()[1]  # the lines of refused chunks

    def answer(self):
        head = self.process.stdout.readline().decode().rstrip("\n").split(" ", 2)
        if len(head) < 2:
            raise EOFError("the shell has ended")
        return head, [self.process.stdout.readline().decode() for _ in range(int(head[1]))]

    def ask(self, *lines):
        """The lines of the answer to a command, behind which lines of CSV may follow."""
        self.process.stdin.write("".join(f"{line}\n" for line in lines).encode())
        self.process.stdin.flush()
        head, answer = self.answer()
        if head[0] == "error":
            raise Refused(head[2], answer[0].rstrip("\n"))
        return answer

    def close(self):
        self.process.stdin.close()
        return self.process.wait()
