#!/usr/bin/env python3
"""Mutates valid listings of registers and boot logs, and checks that none is silently misread: `map` must answer as before, or refuse
the text and name the line.

  tests/misread/run.py PROGRAM

Each text is mutated in each of these ways, with a fixed seed: a line is deleted, two lines are swapped, a line is duplicated, the text
is truncated, a letter of a name is deleted or changed, a byte of noise is inserted into a line, and the first word of a line gets a
terminal colour. A digit is deleted or changed in gdb's output, and deleted in OpenOCD's; a line of another hart is inserted into
these; and an entry of a plan gets the number of another. Some mutations give another valid listing, and so another answer, which must
be one that the mutated text means:

- a register's line is deleted, so that its register is zero: a listing does not show what it lacks, unless it counts its entries, as
  `plan` does;
- the last region of a log is deleted, or the log ends before it: no line of a log states how many there are;
- two lines that set one register are swapped.

The last line printed is 'N passed, M failed'.
"""
import random
import re
import subprocess
import sys
from concurrent.futures import ThreadPoolExecutor
from pathlib import Path

sys.path.insert(0, str(Path(__file__).resolve().parents[1]))
sys.dont_write_bytecode = True
from counting import Count  # noqa: E402

TOP = Path(__file__).resolve().parents[2]
LOG = """OpenSBI v1.2

Platform Name             : riscv-virtio,qemu
Platform HART Count       : 1
Domain0 Name              : root
Domain0 Boot HART         : 0
Domain0 HARTs             : 0*
Domain0 Region00          : 0x0000000002000000-0x000000000200ffff M: (I,R,W) S/U: ()
Domain0 Region01          : 0x0000000080000000-0x000000008003ffff M: (R,W,X) S/U: ()
Domain0 Region02          : 0x0000000000000000-0xffffffffffffffff M: (R,W,X) S/U: (R,W,X)
Domain0 Next Address      : 0x0000000080200000

Boot HART ID              : 0
Boot HART Domain          : root
Boot HART Base ISA        : rv64imafdch
Boot HART PMP Count       : 16
"""
GDB = """pc             0x80200000       0x80200000
mstatus        0xa00000000      SD:0 VM:00 MPRV:0
pmpcfg0        0x1f1b0818       521865240
pmpaddr0       0x200fff 2101247
pmpaddr1       0x20080000       537395200
pmpaddr2       0x200801ff       537395711
pmpaddr3       0x3fffffffffffff 18014398509481983
"""
OPENOCD = """===== RISC-V Registers
(32) pc (/64): 0x0000000080200000
(833) mstatus (/64): 0x0000000a00000000
(993) pmpcfg0 (/64): 0x000000001f1b0818
(1009) pmpaddr0 (/64): 0x0000000000200fff
(1010) pmpaddr1 (/64): 0x0000000020080000 (dirty)
(1011) pmpaddr2 (/64): 0x00000000200801ff
(1012) pmpaddr3 (/64): 0x003fffffffffffff
"""
# Bytes that may be inserted between the letters of a name, or replace one.
NOISE = [b"\xfe", b"\x00", b"\x1b", b"\x80", b"\x7f"]
COLOUR = b"\x1b[32m"
# The first letters of a name.
NAME = re.compile(rb"(?<![0-9A-Za-z(,])[A-Za-z]{3}")


def plan_of(program):
    """Returns the listing that `plan` prints for a map."""
    return subprocess.run([program, "plan", TOP / "examples/qemu-virt.map"], check=True, capture_output=True).stdout


def left_out(lines, made):
    at = made.randrange(len(lines))
    return at, lines[:at] + lines[at + 1 :]


def swapped(lines, made):
    at, other = sorted(made.sample(range(len(lines)), 2))
    return at, [lines[other] if i == at else lines[at] if i == other else line for i, line in enumerate(lines)]


def twice(lines, made):
    at = made.randrange(len(lines))
    return at, lines[: at + 1] + lines[at:]


def cut(lines, made):
    at = made.randrange(len(lines))
    return at, lines[:at]


def spoilt(lines, made, change):
    """Returns a line with one letter changed."""
    at = made.choice([i for i, line in enumerate(lines) if NAME.search(line)])
    place = made.choice([it.start() + made.randrange(3) for it in NAME.finditer(lines[at])])
    return at, [change(it, place) if i == at else it for i, it in enumerate(lines)]


def lost(lines, made):
    return spoilt(lines, made, lambda line, at: line[:at] + line[at + 1 :])


def another(lines, made):
    return spoilt(lines, made, lambda line, at: line[:at] + made.choice([b"q", b"Z", b"7", b"_"]) + line[at + 1 :])


def noisy(lines, made):
    return spoilt(lines, made, lambda line, at: line[:at] + made.choice(NOISE) + line[at:])


def coloured(lines, made):
    at = made.randrange(len(lines))
    return at, [COLOUR + line if i == at else line for i, line in enumerate(lines)]


def digits_of(lines, made):
    """Picks a line of a PMP register, and the position of a digit of its value."""
    at = made.choice([i for i, line in enumerate(lines) if b"pmp" in line])
    value = lines[at].index(b"0x") + 2
    return at, value + made.randrange(len(re.match(rb"[0-9a-f]+", lines[at][value:])[0]))


def digit_lost(lines, made):
    at, place = digits_of(lines, made)
    return at, [it[:place] + it[place + 1 :] if i == at else it for i, it in enumerate(lines)]


def digit_changed(lines, made):
    at, place = digits_of(lines, made)
    return at, [it[:place] + b"%x" % made.randrange(16) + it[place + 1 :] if i == at else it for i, it in enumerate(lines)]


def renumbered(lines, made):
    """Gives an entry of a list the number of another."""
    entries = [i for i, line in enumerate(lines) if re.match(rb"\d", line)]
    at, number = made.choice(entries), made.randrange(len(entries) + 1)
    return at, [b"%d%s" % (number, it[it.index(b" ") :]) if i == at else it for i, it in enumerate(lines)]


def second_hart(lines, made):
    """Inserts a line that names another hart, and one of its registers."""
    at = made.randrange(1, len(lines))
    line = made.choice([b"hart1=1", b"hart1: 0x0", b"cpu1 = 0", b"core1=0", b"thread 1", b"===== RISC-V Registers", b"mhartid 0x1"])
    return at, [line if line.startswith(b"=") else b"mhartid 0x0", *lines[:at], line, b"pmpcfg0 0x18", *lines[at:]]


CHANGES = [left_out, swapped, twice, cut, lost, another, noisy, coloured]
# The mutations of one kind of text, each of which must be refused or leave the answer unchanged.
OWN_CHANGES = {"log": [], "gdb": [digit_lost, digit_changed, second_hart], "openocd": [digit_lost, second_hart], "plan": [renumbered]}


def answer(program, lines):
    """Returns the output of `map` for a text without comments, its status, and its messages."""
    told = subprocess.run([program, "map", "-"], input=b"".join(line + b"\n" for line in lines), capture_output=True)
    return [line for line in told.stdout.split(b"\n") if not line.startswith(b"#")], told.returncode, told.stderr


def name_of(line):
    """Returns the name of the register that a line of a listing sets, or the number of its entry."""
    words = [word for word in line.split() if not re.fullmatch(rb"\(\d+\)", word)]
    return words[0] if words else b""


def may_differ(kind, change, before, after):
    """Returns whether the mutated text is another valid one, by the rules in the header."""
    if kind == "log":
        regions = [line for line in before if b" Region" in line]
        kept = [line for line in after if b" Region" in line]
        return change in (left_out, cut) and kept == regions[: len(kept)]
    if kind == "plan":
        # the words after the pairs repeat them
        return False
    set_by = {name_of(line) for line in before if b"pmp" in line}
    return change in (left_out, cut) and set(after) < set(before) and bool(set_by)


def tried(program, kind, lines, right, change, seed):
    """Returns what is wrong with the answer to one mutated text, if anything."""
    made = random.Random(seed)
    at, changed = change(lines, made)
    got = answer(program, changed)
    if got[1] in (1, 2):
        return "" if got[2] or got[0] != [b""] else "no reason is given"
    if got[1] != 0:
        return f"status {got[1]}"
    if got[0] == right[0] or may_differ(kind, change, lines, changed):
        return ""
    return f"line {at + 1}: " + b" | ".join(changed[max(0, at - 1) : at + 2]).decode("latin-1")


def main():
    program = Path(sys.argv[1]).resolve()
    count = Count()
    texts = {"log": LOG.encode(), "gdb": GDB.encode(), "openocd": OPENOCD.encode(), "plan": plan_of(program)}
    with ThreadPoolExecutor() as pool:
        for kind, text in texts.items():
            lines = text.split(b"\n")[:-1]
            right = answer(program, lines)
            count.note(right[1] == 0 and right[0] != [b""], f"{kind}: the right text is taken", right[2].decode())
            for change in CHANGES + OWN_CHANGES[kind]:
                seeds = [f"{kind} {change.__name__} {n}" for n in range(16)]
                wrong = [it for it in pool.map(lambda seed: tried(program, kind, lines, right, change, seed), seeds) if it]
                count.note(not wrong, f"{kind}: {change.__name__}", "; ".join(wrong[:3]))
    return count.end()


if __name__ == "__main__":
    sys.exit(main())
