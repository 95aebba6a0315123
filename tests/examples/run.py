#!/usr/bin/env python3
"""Runs the program on examples/: traces with --expect, because their comments contain the expected answers; maps, against the stored
output of `show`; and listings of registers and boot logs of OpenSBI, against the stored output of `show --registers` and `map`. If
QEMU and its firmware are installed, the log of the `virt` board is read from a fresh boot.

  tests/examples/run.py PROGRAM

A comment of a trace names the command, such as `./pmpmon judge examples/A.map examples/B.trace` or one with `--registers` and a
listing, or the platform, such as `examples/A.toml`. The expected answer follows each event. Each trace is run again with one answer
changed, which must be reported, and with --explain, which must print each answer with a comment, and after `run` a summary.
A.show is the output of `./pmpmon show` for A.map, with --entries 64 if the list is longer than sixteen. For A.log, A.map is the
output of `./pmpmon map`, with comments. For A.registers, A.table is the output of `show --registers`, and A.map that of `map`; both
with --xlen 32 if the comments mention RV32. The last line printed is 'N passed, M failed'.
"""
import re
import shutil
import subprocess
import sys
import tempfile
import time
from itertools import zip_longest
from pathlib import Path

sys.path.insert(0, str(Path(__file__).resolve().parents[1]))
sys.dont_write_bytecode = True
from counting import Count  # noqa: E402

TOP = Path(__file__).resolve().parents[2]
ANSWER = re.compile(r"#\s*(?:\d+ )?(call -?\d+|irq|ok|fault \d)")

QEMU, BOARD = "qemu-system-riscv64", ["-machine", "virt", "-bios", "default", "-display", "none", "-monitor", "none"]
# The text after the last region.
LAST = b"Domain0 Next Address"
# The version of OpenSBI that the stored map is made from.
VERSION = b"OpenSBI v1.1\r"


def command(program, path, text):
    remarks = "\n".join(line for line in text.split("\n") if line.startswith("#"))
    trace = f"examples/{path.name}"
    if judged := re.search(r"\./pmpmon judge ((?:--registers )?)(examples/\S+) \S+((?: --entries \d+)?)", remarks):
        return [program, "judge", *judged.group(1).split(), judged.group(2), trace, *judged.group(3).split(), "--expect"]
    if platform := re.search(r"examples/[\w-]+\.toml", remarks):
        return [program, "run", platform.group(0), trace, "--expect"]
    return None


def shown(program, path):
    """Returns the output of `show` for the map of a stored file, and its difference from the file."""
    words = [program, "show", str(path.with_suffix(".map").relative_to(TOP))]
    if "fits 64" in (text := path.read_text()):
        words += ["--entries", "64"]
    told = subprocess.run(words, cwd=TOP, capture_output=True, text=True)
    pairs = zip_longest(text.split("\n"), told.stdout.split("\n"))
    return told.stderr.strip() or "; ".join(f"line {n}: {got}" for n, (want, got) in enumerate(pairs, 1) if want != got)


def tabled(program, path):
    """Compares the output of `show --registers` for the listing of a stored file with the file, and that of `map` with its map."""
    listing = path.with_suffix(".registers")
    options = ["--xlen", "32"] if "RV32" in listing.read_text() else []
    told = subprocess.run([program, "show", "--registers", str(listing), *options], capture_output=True, text=True)
    pairs = zip_longest(path.read_text().split("\n"), told.stdout.split("\n"))
    wrong = told.stderr.strip() or "; ".join(f"line {n}: {got}" for n, (want, got) in enumerate(pairs, 1) if want != got)
    return wrong or mapped(program, listing.read_bytes(), path.with_suffix(".map"), options)


def mapped(program, log, path, options=()):
    """Compares the output of `map` for a boot log or a listing with a stored map, ignoring the comments of the latter."""
    told = subprocess.run([program, "map", "-", *options], input=log, capture_output=True)
    want = [line for line in path.read_text().split("\n") if not line.startswith("#")]
    pairs = zip_longest(want, told.stdout.decode().split("\n"))
    return told.stderr.decode().strip() or "; ".join(f"line {n}: {got}" for n, (line, got) in enumerate(pairs, 1) if line != got)


def booted():
    """Returns the output of OpenSBI on QEMU's `virt` board, or the reason why there is none."""
    if not shutil.which(QEMU):
        return None, f"{QEMU} is not installed"
    with tempfile.TemporaryDirectory() as folder:
        serial = Path(folder) / "serial"
        board = subprocess.Popen([QEMU, *BOARD, "-serial", f"file:{serial}"], stdin=subprocess.DEVNULL, stderr=subprocess.DEVNULL)
        for _ in range(200):
            time.sleep(0.1)
            if board.poll() is not None or serial.exists() and LAST in serial.read_bytes():
                break
        board.kill()
        board.wait()
        log = serial.read_bytes() if serial.exists() else b""
    if LAST not in log:
        return None, f"{QEMU} has no firmware that prints its regions"
    return (log, "") if VERSION in log else (None, "the firmware is not of the version whose map is stored")


def expected(words, path, text):
    """Returns what is wrong with the answers to a trace, or with the report on a changed answer."""
    told = subprocess.run(words, cwd=TOP, capture_output=True, text=True)
    if told.returncode or told.stderr:
        return told.stderr.strip() or told.stdout.rstrip("\n").split("\n")[-1]
    said = [n for n, line in enumerate(text.split("\n"), 1) if line.split("#")[0].strip() and ANSWER.search(line)]
    if not said:
        return ""
    lines = text.split("\n")
    lines[said[-1] - 1] = ANSWER.sub("# fault 9", lines[said[-1] - 1])
    trace = f"examples/{path.name}"
    other = subprocess.run(["-" if word == trace else word for word in words], cwd=TOP, capture_output=True, text=True, input="\n".join(lines))
    last = other.stdout[len(told.stdout):]
    good = other.returncode == 1 and other.stdout.startswith(told.stdout) and last.startswith(f"line {said[-1]}: answered '") and "', expected # fault 9" in last
    return "" if good else f"a changed answer in line {said[-1]} is told as {last.strip()!r}, with status {other.returncode}"


def explained(words):
    """Returns what is wrong with explained answers: without their comments they must be the plain ones, and a summary follows those of
    `run`."""
    plain, told = (subprocess.run([*words[:-1], *more], cwd=TOP, capture_output=True, text=True) for more in ([], ["--explain"]))
    if told.returncode or told.stderr:
        return told.stderr.strip() or f"status {told.returncode}"
    answers, said = (it.stdout.split("\n")[:-1] for it in (plain, told))
    summary = said[len(answers) :]
    if "run" in words and not (summary and summary[-1].startswith("# at the end: ") and all(line.startswith("# ") for line in summary)):
        return f"no summary behind line {len(answers)}"
    pairs = zip_longest(answers, said if "run" not in words else said[: len(answers)], fillvalue="")
    return "; ".join(f"line {n}: {got}" for n, (want, got) in enumerate(pairs, 1) if not got.startswith(f"{want} # "))


def tried():
    """Returns the commands of examples/README.md, each with its words."""
    for line in re.findall(r"(?m)\| `\./pmpmon ([^`]*)` \|$", (TOP / "examples" / "README.md").read_text()):
        yield line.split()


def compared(count, name, wrong):
    """Counts a comparison, given what is wrong with it."""
    count.note(not wrong, name, wrong)


def main():
    program = str(Path(sys.argv[1]).resolve())
    count = Count()
    for path in sorted((TOP / "examples").rglob("*.show")):
        compared(count, path.relative_to(TOP), shown(program, path))
    for path in sorted((TOP / "examples").rglob("*.table")):
        compared(count, path.relative_to(TOP), tabled(program, path))
    for path in sorted((TOP / "examples").rglob("*.log")):
        compared(count, path.relative_to(TOP), mapped(program, path.read_bytes(), path.with_suffix(".map")))
    for words in tried():
        told = subprocess.run([program, *words], cwd=TOP, capture_output=True, text=True)
        compared(count, f"examples/README.md: {' '.join(words)}", told.stderr.strip() or (f"status {told.returncode}" if told.returncode else ""))
    log, missing = booted()
    if log is None:
        print(f"left out: the boot log of QEMU's virt: {missing}")
    else:
        compared(count, "the boot log of QEMU's virt, as it is printed here", mapped(program, log, TOP / "examples/boards/qemu-virt-opensbi.map"))
    for path in sorted((TOP / "examples").glob("*.trace")):
        text = path.read_text()
        words = command(program, path, text)
        compared(count, f"examples/{path.name}", expected(words, path, text) if words else "no comment names its command")
        if words:
            compared(count, f"examples/{path.name}, explained", explained(words))
    return count.end()


if __name__ == "__main__":
    sys.exit(main())
