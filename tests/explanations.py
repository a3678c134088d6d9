#!/usr/bin/env python3
"""explanations.py PROGRAM: dfshell explains each mistake of explanations/mistakes.toml, planted in report.toml or in a file beside
it, with --check and at the start of a session, on standard error and with status 2. Without a mistake the document opens."""

import pathlib
import shutil
import subprocess
import sys
import tempfile
import tomllib

HERE = pathlib.Path(__file__).resolve().parent / "explanations"
FILES = ["report.toml", "sales.csv", "customers.csv"]


def planted(folder, mistake):
    """Lays the document and its files into a folder, with a mistake in one of them."""
    for name in FILES:
        laid = folder / name
        if laid.is_dir():
            laid.rmdir()
        shutil.copy(HERE / name, laid)
    if not mistake:
        return
    path = folder / mistake.get("file", "report.toml")
    if "stands" in mistake:
        path.unlink()
        if mistake["stands"] == "folder":
            path.mkdir()
        return
    text = path.read_text()
    count = text.count(mistake["old"])
    if count != 1:
        sys.exit(f"{mistake['old']!r} stands {count} times in {path.name}")
    new = mistake["new"].replace("<repeat>", repeated(mistake))
    path.write_text(text.replace(mistake["old"], new), encoding=mistake.get("encoding", "utf-8"))


def repeated(mistake):
    """What stands for <repeat>."""
    repeat = mistake.get("repeat", {"text": "", "times": 0})
    return repeat.get("between", "").join(repeat["text"].replace("#", str(at + 1)) for at in range(repeat["times"]))


def answer(program, folder, words):
    """What a run says: its status, its output and its errors."""
    run = subprocess.run([program, *words, "report.toml"], cwd=folder, input="", capture_output=True, text=True)
    return run.returncode, run.stdout, run.stderr


def main():
    program = str(pathlib.Path(sys.argv[1]).resolve())
    mistakes = tomllib.loads((HERE / "mistakes.toml").read_text())["mistake"]
    failed = 0
    with tempfile.TemporaryDirectory() as name:
        folder = pathlib.Path(name)
        planted(folder, None)
        if answer(program, folder, ["--check"]) != (0, "ok: 3 frames, 5 views\n", ""):
            print("the document without a mistake does not open")
            failed += 1
        for mistake in mistakes:
            planted(folder, mistake)
            want = (2, "", mistake["says"] + "\n")
            for words in [["--check"], [], ["--hall"]]:
                got = answer(program, folder, words)
                if got != want:
                    print(f"{words}: want {want}\n      got {got}")
                    failed += 1
                    break
    print(f"{len(mistakes)} mistakes, {failed} explained otherwise")
    return 1 if failed else 0


if __name__ == "__main__":
    sys.exit(main())
