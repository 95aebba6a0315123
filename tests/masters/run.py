#!/usr/bin/env python3
"""Compares the DMA-capable devices that `lint` warns of with the device trees of QEMU's boards.

  tests/masters/run.py PROGRAM

`lint` names each DMA-capable device that it knows in a platform whose devices cover the whole space except one page. For each board
these must be exactly the pages of the DMA-capable nodes of its device tree: on `virt` fw_cfg, virtio and PCIe with its windows; on
`sifive_u`, which is an FU540, the DMA controller and Ethernet. QEMU has no FU740, so that one is not compared. The test requires
qemu-system-riscv64 and fdtget; on Debian:

  apt-get install --no-install-recommends qemu-system-misc device-tree-compiler

It reports which of them is missing. The last line printed is 'N passed, M failed'.
"""
import re
import shutil
import subprocess
import sys
import tempfile
from pathlib import Path

sys.path.insert(0, str(Path(__file__).resolve().parents[1]))
sys.dont_write_bytecode = True
from counting import Count  # noqa: E402

PAGE = 4096
MIDDLE = 1 << 55
SPACE = 1 << 56
LINE = re.compile(r"[^:]+:\d+:\d+: warning: device \d+: on (.+) it has (.+), (0x[0-9a-f]+) to (0x[0-9a-f]+), which reads and writes "
                  r"any memory by itself; leave these pages out")
BOARDS = {"virt": "QEMU's virt board", "sifive_u": "SiFive's FU540 and FU740"}
KINDS = {
    "qemu,fw-cfg-mmio": "fw_cfg",
    "virtio,mmio": "virtio",
    "pci-host-ecam-generic": "PCIe",
    "sifive,fu540-c000-pdma": "the DMA controller",
    "sifive,fu540-c000-gem": "Ethernet",
}


def platform():
    """Returns a platform whose memory is one page and whose devices cover all others."""
    rest = MIDDLE + PAGE
    ranges = f"monitor = {{ base = {MIDDLE}, size = {PAGE} }}\nram = [{{ base = {MIDDLE}, size = {PAGE} }}]\n"
    for base, end in ((0, MIDDLE), (rest, SPACE)):
        ranges += f'[[device]]\nbase = {base}\nsize = {end - base}\nperm = "rw"\n'
    return ranges


def joined(ranges):
    """Rounds ranges, given by their first byte and their end, to whole pages, and joins those that touch."""
    whole = []
    for first, end in sorted((first // PAGE * PAGE, -(-end // PAGE) * PAGE) for first, end in ranges):
        if whole and first <= whole[-1][1]:
            whole[-1] = (whole[-1][0], max(end, whole[-1][1]))
        else:
            whole.append((first, end))
    return whole


def fdtget(*words):
    """Returns the words that fdtget prints, if any."""
    return subprocess.run(["fdtget", *words], capture_output=True, text=True).stdout.split()


def cells(tree, node, key):
    """Returns the cells of a property, if it exists."""
    return [int(cell, 16) for cell in fdtget("-t", "x", tree, node, key)]


def wide(pair):
    """Returns the number in two cells."""
    return pair[0] << 32 | pair[1]


def masters_of(board, folder):
    """Returns the kinds of DMA-capable devices in the device tree of a board, each with its ranges."""
    tree = folder / f"{board}.dtb"
    subprocess.run(["qemu-system-riscv64", "-machine", f"{board},dumpdtb={tree}", "-m", "128"], check=True, capture_output=True)
    found = {}
    for parent in ("/", "/soc"):
        for name in fdtget("-l", tree, parent):
            node = f"{parent.rstrip('/')}/{name}"
            kinds = [KINDS[word] for word in fdtget(tree, node, "compatible") if word in KINDS]
            if not kinds:
                continue
            reg, windows = cells(tree, node, "reg"), cells(tree, node, "ranges")
            ranges = found.setdefault(kinds[0], [])
            ranges.append((wide(reg), wide(reg) + wide(reg[2:])))
            for window in (windows[at:at + 7] for at in range(0, len(windows), 7)):
                ranges.append((wide(window[3:]), wide(window[3:]) + wide(window[5:])))
    return {kind: joined(ranges) for kind, ranges in found.items()}


def main():
    program = str(Path(sys.argv[1]).resolve())
    missing = [it for it in ("qemu-system-riscv64", "fdtget") if shutil.which(it) is None]
    count = Count()
    with tempfile.TemporaryDirectory() as made:
        folder = Path(made)
        (folder / "all.toml").write_text(platform())
        lint = subprocess.run([program, "lint", "all.toml"], cwd=folder, capture_output=True, text=True)
        lines = [LINE.fullmatch(line) for line in lint.stdout.splitlines()]
        count.note(lint.returncode == 0 and lines and all(lines), "each line is on a master of memory, and the status is 0", lint.stdout)
        if missing:
            print(f"not compared: no {' and no '.join(missing)} is installed")
            return count.end()
        for board, name in BOARDS.items():
            known = {}
            for line in filter(None, lines):
                if line[1] == name:
                    known.setdefault(line[2], []).append((int(line[3], 16), int(line[4], 16) + 1))
            known = {kind: joined(ranges) for kind, ranges in known.items()}
            there = masters_of(board, folder)
            count.note(known == there and there, f"the masters of {board} are those of its device tree", f"{known} for {there}")
    return count.end()


if __name__ == "__main__":
    sys.exit(main())
