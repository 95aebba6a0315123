#!/usr/bin/env python3
"""Checks the maps and platforms that the program makes from device trees: of QEMU's boards, of trees written for this test, and of
trees that were mutated or truncated.

  tests/board_trees/run.py PROGRAM

The trees written for this test (trees.py) cover each case in which a tree lacks information that a map needs, and state the expected
output; see docs/DECISIONS.md, "Platforms and device trees". For random nested buses, with a fixed seed, this script translates every
kilobyte bus by bus. For QEMU's trees it asks fdtget for the registers of each node and rounds them itself. Both commands read 5,000
copies, or COPIES, of one tree per board with up to four bytes mutated, and must print a text that parses again, or a reason. The
printed texts are used unchanged: maps by plan, platforms by lint and by run with the trace of an example. The test requires dtc and
fdtget, and QEMU for the boards; on Debian:

  apt-get install --no-install-recommends qemu-system-misc device-tree-compiler

It reports which of them is missing. The last line printed is 'N passed, M failed'.
"""
import os
import random
import re
import shutil
import subprocess
import sys
import tempfile
from collections import Counter
from concurrent.futures import ThreadPoolExecutor
from pathlib import Path

HERE = Path(__file__).resolve().parent
TOP = HERE.parents[1]
sys.path.insert(0, str(HERE.parent))
sys.dont_write_bytecode = True
from counting import Count  # noqa: E402
from trees import DEEP, TREES  # noqa: E402

PAGE = 4096
MONITOR = ["0x80000000", "0x80000"]
COPIES = int(os.environ.get("COPIES", "5000"))


def pmpmon(*words, given=None):
    """Runs the program and returns its status, its output and its messages."""
    done = subprocess.run([sys.argv[1], *words], input=given, capture_output=True, timeout=60)
    return done.returncode, done.stdout.decode(), done.stderr.decode()


def map_of(tree):
    return pmpmon("map", tree)


def platform_of(tree, monitor):
    return pmpmon("platform", tree, *(["--monitor", *monitor] if monitor else []))


def compiled(source, folder):
    """Compiles a source with dtc."""
    (folder / "tree.dts").write_text(source)
    subprocess.run(["dtc", "-q", "-I", "dts", "-O", "dtb", "-o", folder / "tree.dtb", folder / "tree.dts"], check=True)
    return folder / "tree.dtb"


def reason(tree, said):
    """Returns the reason after the name of the tree in a message, if it is one."""
    before = f"pmpmon: {tree}: "
    return said[len(before):-1] if said.startswith(before) and said.endswith("\n") else None


def written(count, folder):
    """Checks the trees of trees.py: the expected lines, in their order, and no others of the same kind."""
    for name, (source, given, wanted) in TREES.items():
        tree = compiled(source, folder)
        is_platform = wanted[0].startswith("harts") or not wanted[0].startswith(("0x", "#"))
        status, text, said = platform_of(tree, given) if is_platform else map_of(tree)
        lines = [line for line in text.splitlines() if line and not line.startswith(("# The ", "# not in use", "# /reserved", "# A dev", "# table"))]
        right = lines == wanted and status == 0 if text else [reason(tree, said)] == wanted and status == 2
        count.note(right, name, text + said)


UNIT = 0x400
CELLS = "#address-cells = <1>; #size-cells = <1>;"


def windows_of_bus(made):
    """Makes up to three windows of a bus, in units: an address on the bus, one on its parent, and a size."""
    return [(made.randrange(24), made.randrange(24), made.randrange(1, 12)) for _ in range(made.randrange(1, 4))]


def at_parent(windows, unit):
    """Translates a unit of a bus to its parent, by the first window that contains it."""
    for child, parent, size in windows:
        if child <= unit < child + size:
            return parent + unit - child
    return None


def at_root(buses, unit):
    """Translates a unit to the root, bus by bus from the innermost on."""
    for windows in buses:
        unit = None if unit is None else at_parent(windows, unit)
    return unit


def nested(made):
    """Makes nested buses with devices on each: the source, and each device with its buses."""
    devices, body = [], ""
    buses = [windows_of_bus(made) for _ in range(made.randrange(1, 4))]
    for depth in range(len(buses), 0, -1):
        inside = ""
        for number in range(made.randrange(1, 4)):
            name, base, size = f"d{depth}-{number}", made.randrange(30), made.randrange(1, 10)
            kind = made.choice(["vendor,uart", "vendor,uart", "riscv,clint0"])
            devices.append((name, kind, base, size, buses[depth - 1::-1]))
            inside += f'{name} {{ compatible = "{kind}"; reg = <{base * UNIT:#x} {size * UNIT:#x}>; }};'
        rows = ", ".join(f"<{' '.join(hex(it * UNIT) for it in row)}>" for row in buses[depth - 1])
        body = f"bus{depth} {{ {CELLS} ranges = {rows}; {inside} {body} }};"
    return f"/dts-v1/;\n/ {{ {CELLS} {body} }};\n", devices


def runs_of(units):
    """Groups units into sorted runs: a base and a size in bytes each."""
    runs = []
    for unit in sorted(units):
        if runs and runs[-1][1] == unit:
            runs[-1][1] = unit + 1
        else:
            runs.append([unit, unit + 1])
    return [(first * UNIT, (end - first) * UNIT) for first, end in runs]


def buses(count, folder):
    """Checks random nested buses: the pages of the map, and the untranslatable registers, unit by unit."""
    wrong = []
    for seed in range(300):
        source, devices = nested(random.Random(f"buses {seed}"))
        given, denied, lost = set(), set(), []
        for name, kind, base, size, around in devices:
            roots = {unit: at_root(around, unit) for unit in range(base, base + size)}
            pages = {root * UNIT // PAGE for root in roots.values() if root is not None}
            (denied if kind == "riscv,clint0" else given).update(pages)
            lost += [f"# left out: {name}: on its bus {first:#x} {bytes_of:#x}; no bus translates it to an address of the root"
                     for first, bytes_of in runs_of(unit for unit, root in roots.items() if root is None)]
        lines = map_of(compiled(source, folder))[1].splitlines()
        pages = [line[:-3] for line in lines if line.startswith("0x")]
        told = [line for line in lines if " on its bus " in line]
        if pages != joined(given - denied) or sorted(told) != sorted(lost):
            wrong.append(f"{source}: {lines}")
    count.note(not wrong, "300 trees with buses inside one another", "\n".join(wrong[:2]))


def numbers(tree, node, name):
    """Returns the words of a property, by fdtget, or no words if the node lacks it."""
    done = subprocess.run(["fdtget", "-t", "x", tree, node, name], capture_output=True, text=True)
    return [int(word, 16) for word in done.stdout.split()] if done.returncode == 0 else []


def nodes(tree, node):
    done = subprocess.run(["fdtget", "-l", tree, node], capture_output=True, text=True, check=True)
    return [f"{node.rstrip('/')}/{it}" for it in done.stdout.split()]


def joined(pages):
    """Groups pages into sorted ranges."""
    found = []
    for page in sorted(pages):
        if found and found[-1][1] == page:
            found[-1][1] = page + 1
        else:
            found.append([page, page + 1])
    return [f"{hex(PAGE * first)} {hex(PAGE * (end - first))}" for first, end in found]


def expected(tree):
    """Returns the expected ranges of devices on a QEMU board whose root and bus have two address cells and two size cells."""
    pages = set()
    for node in nodes(tree, "/") + nodes(tree, "/soc"):
        if re.match(r"/(memory|cpus|soc/clint)", node):
            continue
        words = numbers(tree, node, "reg")
        for at in range(0, len(words) - 3, 4):
            base, size = words[at] << 32 | words[at + 1], words[at + 2] << 32 | words[at + 3]
            pages |= set(range(base // PAGE, -(-(base + size) // PAGE)))
    return joined(pages)


def board(count, machine, harts, folder):
    """Checks the texts of one QEMU board against its tree."""
    tree = folder / f"{machine}.dtb"
    command = ["qemu-system-riscv64", "-machine", f"{machine},dumpdtb={tree}", "-smp", str(harts), "-display", "none"]
    subprocess.run(command, check=True, capture_output=True)
    name = f"{machine}, {harts} harts"
    lines = map_of(tree)[1].splitlines()
    devices = [line[:-3] for line in lines if line.startswith("0x") and line.endswith(" rw")]
    memory = [line for line in lines if line.endswith(" rwx")]
    count.note(devices == expected(tree), f"{name}: each device in whole pages", str(devices))
    count.note(memory == ["0x80000000 0x8000000 rwx"], f"{name}: memory", str(memory))
    text = platform_of(tree, MONITOR)[1]
    count.note(f"harts = {min(harts, 4)} # the tree has {harts} in use" in text.splitlines(), f"{name}: harts")
    ranges = re.findall(r"\[\[device\]\]\nbase = (\S+)\nsize = (\S+)\nperm = \"rw\"", text)
    count.note([" ".join(it) for it in ranges] == devices, f"{name}: the platform has the same devices")
    return tree


def taken(count, machine, tree, folder):
    """Checks that the printed texts of a board are accepted: the map by plan, the platform by lint and run."""
    text = map_of(tree)[1]
    status, out, said = pmpmon("plan", "-", given=text.encode())
    count.note(status == 0 and re.match(r"entries \d+\n", out), f"{machine}: plan takes the map", out + said)
    status, out, said = pmpmon("lint", "-", given=text.encode())
    count.note(status == 0 and not said, f"{machine}: lint finds no fault in the map", out + said)
    file = folder / f"{machine}.toml"
    file.write_text(platform_of(tree, MONITOR)[1])
    status, out, said = pmpmon("lint", file)
    count.note(status == 0 and not said, f"{machine}: lint finds no fault in the platform", out + said)
    status, out, said = pmpmon("run", file, TOP / "examples/first-run.trace")
    count.note(status == 0 and out.startswith("1 ") and not said, f"{machine}: run takes the platform", out + said)


def came_of(done):
    """Classifies the result of a command: a text, a reason, or an unexpected result."""
    status, text, said = done
    if status == 0 and text and not said:
        return "text"
    fits = re.fullmatch(r"pmpmon: [^:]+: [^:\n]+\n", said) and "not read back" not in said
    return "reason" if status == 2 and not text and fits else f"{status} {text[:200]} {said}"


def changed(count, machine, whole, folder):
    """Checks copies of a tree with up to four bytes mutated. The magic number stays intact."""
    random.seed(2026)

    def one(number):
        copy = bytearray(whole)
        for at in places[number]:
            copy[at[0]] = copy[at[0]] ^ 1 << at[1] if at[2] else at[3]
        tree = folder / f"copy-{machine}-{number}.dtb"
        tree.write_bytes(copy)
        came = came_of(map_of(tree)), came_of(platform_of(tree, MONITOR))
        tree.unlink()
        return came

    places = [[(random.randrange(4, len(whole)), random.randrange(8), random.randrange(3), random.randrange(256))
               for _ in range(1 + number % 4)] for number in range(COPIES)]
    with ThreadPoolExecutor(os.cpu_count()) as pool:
        came = list(pool.map(one, range(COPIES)))
    maps, platforms = (Counter(it) for it in zip(*came))
    right = set(maps) | set(platforms) <= {"text", "reason"}
    count.note(right, f"{machine}: {COPIES} changed copies: {maps['text']} maps, {platforms['text']} platforms", f"{maps} {platforms}"[:2000])


def boards(count, folder):
    """Checks QEMU's boards with one to five harts, their texts, and mutated copies of one tree per board."""
    for machine in ("virt", "sifive_u"):
        for harts in range(1 + (machine == "sifive_u"), 6):
            tree = board(count, machine, harts, folder)
        taken(count, machine, tree, folder)
        bytes_of = tree.read_bytes()
        changed(count, machine, bytes_of[:int.from_bytes(bytes_of[4:8], "big")], folder)


def spoilt(count, folder):
    """Checks truncations of a tree at each byte, and a tree that is nested too deeply."""
    whole = compiled(list(TREES.values())[-1][0], folder).read_bytes()
    cut, wrong = folder / "cut.dtb", []
    for size in range(len(whole)):
        cut.write_bytes(whole[:size])
        status, text, said = platform_of(cut, MONITOR)
        found = re.fullmatch(r"pmpmon: [^:]+: [a-z0-9 ]+, at byte (\d+)\n", said)
        if status != 2 or text or not found or int(found[1]) > max(size, 40):
            wrong.append((size, said))
    count.note(not wrong, f"a tree cut at each of its {len(whole)} bytes: a reason, and a byte", str(wrong[:2]))
    for levels, wanted in ((63, False), (64, True)):
        tree = compiled(DEEP(levels), folder)
        deep = (reason(tree, map_of(tree)[2]) or "").startswith("more than 64 nodes are inside one another, at byte ")
        count.note(deep == wanted, f"{levels} nodes inside one another below the root")


def seconds(work):
    """Returns the processor seconds that some work takes, here and in programs that it runs."""
    before = os.times()
    work()
    return sum(os.times()[:4]) - sum(before[:4])


def idle(steps):
    for _ in range(steps):
        pass


def long(count, folder):
    """Tests a device with 120,000 ranges in 4,000 pages, whose map may take as long as two loops of Python with 10^8 steps."""
    rows = " ".join(f"{i % 4000 * 8192:#x} 0x1000" for i in range(120_000))
    tree = compiled(f"/dts-v1/; / {{ #address-cells = <1>; #size-cells = <1>; d@0 {{ reg = <{rows}>; }}; }};", folder)
    made = []
    took = seconds(lambda: made.append(map_of(tree)))
    loop = seconds(lambda: idle(10**8))
    status, text, _ = made[0]
    count.note(status == 0 and text.count("\n0x") == 4000 and took < 2 * loop, "a device with 120,000 ranges", f"{took} of {loop} seconds, status {status}")


def main():
    count = Count()
    missing = [it for it in ("dtc", "fdtget") if not shutil.which(it)]
    if missing:
        print(f"left out: {' and '.join(missing)} is not installed")
        return count.end()
    with tempfile.TemporaryDirectory() as temporary:
        folder = Path(temporary)
        written(count, folder)
        buses(count, folder)
        long(count, folder)
        spoilt(count, folder)
        if shutil.which("qemu-system-riscv64"):
            boards(count, folder)
        else:
            print("left out: qemu-system-riscv64 is not installed")
    return count.end()


if __name__ == "__main__":
    sys.exit(main())
