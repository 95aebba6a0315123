#!/usr/bin/env python3
"""Tests the man page and the completions that tools/manual writes: each shell must offer what the program's help lists.

  tests/completions/run.py PROGRAM

The test calls bash's completion function, types at zsh in a terminal with the tab key, as a user would, and runs fish's
`complete -C`. mandoc checks the man page, which must have the usual sections, each status and each error of a call. The test
reports missing tools and skips them (on Debian: apt-get install zsh fish mandoc). The last line printed is 'N passed, M failed'.
"""
import os
import pty
import re
import select
import shutil
import subprocess
import sys
import tempfile
import time
from pathlib import Path

sys.path.insert(0, str(Path(__file__).resolve().parents[1]))
sys.dont_write_bytecode = True
from counting import Count  # noqa: E402

TOP = Path(__file__).resolve().parents[2]


def help_of(program, *words):
    return subprocess.run([program, *words, "--help"], capture_output=True, text=True, check=True).stdout


def wanted(program):
    """Returns words that a user has typed, and the words that may follow."""
    commands = re.findall(r"(?m)^  (\w+) ", help_of(program).split("Commands:")[1].split("\n\n")[0])
    yield "pmpmon ", commands
    yield "pmpmon --", ["--help", "--version"]
    commands.remove("help")
    yield "pmpmon help ", commands
    for command in commands:
        options = re.findall(r"(?m)^\s+(?:-\w, )?(--[\w-]+)(?: <(\S+?)>)?", help_of(program, command).split("Options:")[1])
        yield f"pmpmon {command} --", [option for option, _ in options]
        for option, values in options:
            if "|" in values:
                yield f"pmpmon {command} {option} ", values.split("|")
                yield f"pmpmon {command} {option}=", values.split("|")


def of_bash(folder, typed):
    words = typed.replace("=", " =").split(" ")
    quoted = " ".join(f"'{word}'" for word in words)
    script = f"source {folder}/pmpmon.bash; COMP_WORDS=({quoted}); COMP_CWORD={len(words) - 1}; _pmpmon; printf '%s\\n' \"${{COMPREPLY[@]}}\""
    return subprocess.run(["bash", "-c", script], capture_output=True, text=True).stdout.split()


def of_fish(folder, typed):
    script = f"source {folder}/pmpmon.fish; complete -C '{typed}'"
    told = subprocess.run(["fish", "-N", "-c", script], capture_output=True, text=True, env=os.environ | {"HOME": str(folder)})
    return [line.split("\t")[0].split("=")[-1] for line in told.stdout.splitlines()]


def lacking(page):
    """Returns the sections, statuses and errors of calls that a man page lacks."""
    sections = ("NAME", "SYNOPSIS", "DESCRIPTION", "COMMANDS", "FILES", "EXIT STATUS", "ERRORS OF CALLS", "EXAMPLES", "NOTES", "SEE ALSO")
    lines = page.read_text().splitlines()
    words = [f".SH {it}" for it in sections] + [f".B {it}" for it in range(5)] + [f".B \\-{it}" for it in (2, *range(101, 113))]
    return [it for it in words if it not in lines]


class Zsh:
    """A zsh in its own terminal, with the completions of a folder."""

    def __init__(self, folder):
        self.pid, self.terminal = pty.fork()
        if self.pid == 0:
            os.execvpe("zsh", ["zsh", "-f", "-i"], os.environ | {"HOME": str(folder), "TERM": "dumb"})
        self.send(f"PS1=; stty columns 300; fpath=({folder} $fpath); autoload -Uz compinit; compinit -u -D; LISTMAX=0\n")
        self.send("bindkey '^I' list-choices; bindkey '^X' kill-whole-line; pmpmon() {}; print rea''dy\n")
        self.until(["ready"])

    def send(self, text):
        os.write(self.terminal, text.encode())

    def until(self, words):
        """Returns the output until it contains all of these words, or after twenty seconds."""
        text, ends = "", time.monotonic() + 20
        while time.monotonic() < ends and not all(word in text.split() for word in words):
            if select.select([self.terminal], [], [], 0.2)[0]:
                text += re.sub(r"\x1b\[[0-9;?]*[A-Za-z]", " ", os.read(self.terminal, 65536).decode(errors="replace"))
        return text.split()

    def offers(self, typed, words):
        self.send(typed + "\t")
        told = self.until(words)
        self.send("\x18print do''ne\n")
        self.until(["done"])
        return told

    def close(self):
        self.send("exit\n")
        os.close(self.terminal)
        os.waitpid(self.pid, 0)


def main():
    program, count = Path(sys.argv[1]).resolve(), Count()
    with tempfile.TemporaryDirectory() as made:
        folder = Path(made)
        subprocess.run([TOP / "tools" / "manual", program, folder], check=True)
        cases = list(wanted(program))
        missing = " ".join(lacking(folder / "pmpmon.1"))
        count.note(not missing, "the man page has its sections, each status and each error", missing)
        for shell in ("bash", "zsh", "fish", "mandoc"):
            if not shutil.which(shell):
                print(f"left out: {shell}, which is not installed")
                continue
            if shell == "mandoc":
                told = subprocess.run(["mandoc", "-T", "lint", "-W", "error", folder / "pmpmon.1"], capture_output=True, text=True)
                count.note(not told.stdout.strip(), "the man page, by mandoc", told.stdout.strip())
                continue
            zsh = Zsh(folder) if shell == "zsh" else None
            offers = {"bash": lambda typed, _: of_bash(folder, typed), "fish": lambda typed, _: of_fish(folder, typed), "zsh": zsh and zsh.offers}[shell]
            missing = [f"{word} behind `{typed}`" for typed, words in cases for offered in [offers(typed, words)] for word in words if word not in offered]
            if zsh:
                zsh.close()
            count.note(not missing, f"{shell} offers the words of the help at {len(cases)} places", "; ".join(missing))
    return count.end()


if __name__ == "__main__":
    sys.exit(main())
