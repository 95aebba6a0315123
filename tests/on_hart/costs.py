"""Counts the instructions of the monitor at each trap of a host (costs.c), from the trap to the `mret` after it, as QEMU executes them."""
import os
import re
import subprocess
import tempfile
from pathlib import Path

GCC = "riscv64-unknown-elf-gcc"
# The traps of costs.c and its enclave in their order. Those without a name are counted elsewhere (pause.c).
TRAPS = ["", "run", "stop", "resume", "stop", "measure", "base", "set timer", "resume", "timer", "", "resume", "exit", ""]


def addresses_of(image):
    """Where the monitor comes at a trap, and the `mret` by which it leaves."""
    text = subprocess.run([GCC.replace("gcc", "objdump"), "-d", "--no-show-raw-insn", image], capture_output=True, text=True, check=True).stdout
    left = text[text.index(" <enter_world>:"):]
    return int(re.search(r"(?m)^([0-9a-f]+) <trap>:", text)[1], 16), int(re.search(r"(?m)^ *([0-9a-f]+):\tmret", left)[1], 16)


def counts_of(log, trap, left):
    """The counts of a log with a line for each instruction, which has its address after the first slash. Where QEMU stops before one it
    has a line more, and the same one again."""
    counts, count, last = [], None, 0
    for line in log:
        place = line.find(b"/") + 1
        address = int(line[place : place + 16], 16) if place and line.startswith(b"Trace") else last
        if address == trap and address != last:
            count = 0
        if count is not None and address != last:
            count += 1
            if address == left:
                counts.append(count)
                count = None
        last = address
    return counts


def one_each(qemu):
    """The words by which QEMU translates each instruction alone: they are others from 8.1 on."""
    told = subprocess.run([qemu, "--version"], capture_output=True, text=True, check=True).stdout
    is_old = tuple(map(int, re.search(r"version (\d+)\.(\d+)", told).groups())) < (8, 1)
    return ["-singlestep"] if is_old else ["-accel", "tcg,one-insn-per-tb=on"]


def costs(board, image):
    """The most that a trap of each name takes, or nothing where the traps are others. A tick of the time is 100 instructions."""
    with tempfile.TemporaryDirectory() as place:
        log = Path(place) / "log"
        os.mkfifo(log)
        words = [*board, "-icount", "shift=0", *one_each(board[0]), "-d", "exec,nochain", "-D", log]
        with subprocess.Popen(words, stdin=subprocess.DEVNULL, stdout=subprocess.DEVNULL) as running:
            with open(log, "rb") as lines:
                counts = counts_of(lines, *addresses_of(image))
            running.wait(60)
    if len(counts) != len(TRAPS):
        return {}
    return {name: max(n for it, n in zip(TRAPS, counts) if it == name) for name in dict.fromkeys(TRAPS) if name}
