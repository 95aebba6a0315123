#!/usr/bin/env python3
r"""Runs the program as the transcripts of this folder specify, and compares the results.

  tests/transcripts/run.py PROGRAM [NAME..]      runs only the given NAME.txt; without a name, all

A transcript consists of these lines:

  # a remark
  file NAME                  a file, whose lines follow
  | text                     a line of the file, or of standard output after a command
  $ pmpmon WORDS             a command, with words as in a shell, run in a folder with the files before it. `< NAME` after the words
                             is standard input, which is empty otherwise
  ! text                     a line of standard error
  status N                   the status, if it is not 0
  made NAME                  a file that the command has created, whose lines follow; it is a file from then on

In the text of a line `\t`, `\r`, `\\` and `\xHH` mean the same as in Python, and a `\` at its end means that no LF follows. A command
must leave each file unchanged and create no other. Each command is a test, named by the remark before it. The last line is
'N passed, M failed'; any failure makes the status 1.
"""
import os
import shlex
import subprocess
import sys
import tempfile
from dataclasses import dataclass, field
from pathlib import Path

sys.path.insert(0, str(Path(__file__).resolve().parents[1]))
sys.dont_write_bytecode = True
from counting import Count  # noqa: E402

HERE = Path(__file__).resolve().parent
# No command of a transcript takes this long.
SECONDS = 60


@dataclass
class Command:
    """One command of a transcript, with its expected results."""

    name: str
    place: str
    words: list
    files: dict
    input: bytes
    out: bytes = b""
    err: bytes = b""
    status: int = 0
    made: dict = field(default_factory=dict)


def bytes_of(text, place):
    """Returns the bytes that a line of text stands for."""
    ends = not text.endswith("\\") or text.endswith("\\\\")
    text = text if ends else text[:-1]
    try:
        found = text.encode("latin-1").decode("unicode_escape").encode("latin-1")
    except UnicodeError:
        sys.exit(f"{place}: the text can't be read")
    return found + b"\n" * ends


def commands_of(path):
    """Returns the commands of a transcript."""
    files, remark, found, into = {}, "", [], None
    for number, line in enumerate(path.read_text(encoding="latin-1").split("\n"), 1):
        place = f"{path.name}:{number}"
        kind, _, text = line.partition(" ")
        if kind == "|" and into is not None:
            into(bytes_of(text, place))
        elif kind == "!" and found:
            found[-1].err += bytes_of(text, place)
        elif kind == "#":
            remark, into = text, None
        elif kind == "file":
            files = {**files, text: b""}

            def into(more, name=text):
                files[name] += more

        elif kind == "$":
            words, _, name = text.partition(" < ")
            words = shlex.split(words)
            if words[:1] != ["pmpmon"] or name and name not in files:
                sys.exit(f"{place}: no command of the program, or an input that is no file")
            found.append(Command(remark, place, words[1:], dict(files), files.get(name, b"")))

            def into(more, of=found[-1]):
                of.out += more

        elif kind == "status" and found:
            found[-1].status = int(text)
        elif kind == "made" and found:
            files = {**files, text: b""}

            def into(more, name=text, of=found[-1]):
                files[name] += more
                of.made[name] = files[name]

        elif line:
            sys.exit(f"{place}: no line of a transcript")
    return found


def differs(program, command):
    """Returns how the results differ from the transcript, or None."""
    with tempfile.TemporaryDirectory() as room:
        for name, content in command.files.items():
            (Path(room) / name).write_bytes(content)
        try:
            ran = subprocess.run(["pmpmon", *command.words], executable=program, cwd=room, input=command.input, capture_output=True, timeout=SECONDS)
        except subprocess.TimeoutExpired:
            return f"it did not end within {SECONDS} seconds"
        left = {it.name: it.read_bytes() for it in Path(room).iterdir()}
    for what, got, want in (("status", ran.returncode, command.status), ("standard output", ran.stdout, command.out), ("standard error", ran.stderr, command.err)):
        if got != want:
            return f"{what} is {got!r}, and should be {want!r}"
    if left != {**command.files, **command.made}:
        return f"the files are {sorted(left)}, or have other bytes"
    return None


def main():
    program = os.path.realpath(sys.argv[1])
    paths = [HERE / f"{it}.txt" for it in sys.argv[2:]] or sorted(HERE.glob("*.txt"))
    count = Count()
    for path in paths:
        for command in commands_of(path):
            wrong = differs(program, command)
            count.note(wrong is None, f"{command.place} {command.name}: pmpmon {shlex.join(command.words)}", wrong)
    if not count.passed:
        count.note(False, "some row is there")
    return count.end()


if __name__ == "__main__":
    sys.exit(main())
