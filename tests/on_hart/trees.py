"""Device trees with the monitor's range: what tests/on_hart/run.py tries of the proved module, on Linux."""
import shutil
import struct
import subprocess
from pathlib import Path

TOP = Path(__file__).resolve().parents[2]
HERE = Path(__file__).resolve().parent
CLANG = Path(shutil.which("rt") or "rt").resolve().parents[1] / "toolchain/bin/clang"
MODULE = TOP / "firmware/out/monitor.bc"
FLAGS = ["-std=gnu11", "-O1", "-g", "-Wall", "-Wextra", "-Werror", "-fsanitize=address,undefined", "-fno-sanitize-recover=all"]
BASE, SIZE, RANDOM = 0x80000000, 0x80000, 4000
WITHOUT = "/dts-v1/; / {{ {cells} model = \"a\"; chosen {{ }}; memory@80000000 {{ device_type = \"memory\"; reg = <{reg}>; }}; {more} }};"
RANGE = "monitor@80000000 {{ reg = <{range}>; no-map; }};"
PARENT = "reserved-memory {{ {cells} ranges; {nodes} }};"
TWO = {"cells": "#address-cells = <2>; #size-cells = <2>;", "reg": "0 0x80000000 0 0x8000000", "range": "0 0x80000000 0 0x80000"}
ONE = {"cells": "#address-cells = <1>; #size-cells = <1>;", "reg": "0x80000000 0x8000000", "range": "0x80000000 0x80000"}
# Cells that are not given are two and one (Devicetree Specification v0.4, section 2.3.5).
NONE = {"cells": "", "reg": "0 0x80000000 0x8000000", "range": "0 0x80000000 0x80000"}
OTHER = "other@87000000 {{ reg = <{other}>; inner {{ }}; }};"


def compiled(folder, name, text, *more):
    path = folder / f"{name}.dtb"
    path.write_bytes(subprocess.run(["dtc", "-q", "-I", "dts", "-O", "dtb", *more], input=text.encode(), stdout=subprocess.PIPE, check=True).stdout)
    return path


def listed(path):
    """A tree as its source, with nodes and properties in order of their names."""
    return subprocess.run(["dtc", "-q", "-s", "-I", "dtb", "-O", "dts", path], capture_output=True, text=True).stdout


def boots(path):
    """The number of the hart that boots, in the header (Devicetree Specification v0.4, section 5.2)."""
    return path.read_bytes()[28:32]


def pairs():
    """Trees, each with what it has to become."""
    for name, its in (("two cells", TWO), ("one cell", ONE)):
        yield name, WITHOUT.format(more="", **its), WITHOUT.format(more=PARENT.format(nodes=RANGE.format(**its), **its), **its)
    cells = {**NONE, "cells": "#address-cells = <2>; #size-cells = <1>;"}
    yield "no cells", WITHOUT.format(more="", **NONE), WITHOUT.format(more=PARENT.format(nodes=RANGE.format(**NONE), cells=cells["cells"]), **NONE)
    other = OTHER.format(other="0 0x87000000 0 0x1000")
    has, wants = (PARENT.format(nodes=nodes, **TWO) for nodes in (other, other + RANGE.format(**TWO)))
    yield "other reserved memory", WITHOUT.format(more=has, **TWO), WITHOUT.format(more=wants, **TWO)


def trees(folder, told):
    if not shutil.which("dtc"):
        print("left out: device trees, for want of dtc (on Debian: apt-get install --no-install-recommends device-tree-compiler)")
        return
    program = folder / "trees"
    module = folder / "trees.o"
    subprocess.run([CLANG, "--no-default-config", "-O1", "-c", "-x", "ir", MODULE, "-o", module], check=True)
    subprocess.run(["gcc", *FLAGS, "-DHEAP_SIZE=0x1000000", f"-I{TOP}/firmware", "-o", program, HERE / "trees.c", TOP / "firmware/heap.c", module], check=True)

    def answer(path, room, base=BASE):
        done = subprocess.run([program, "one", path, str(room), str(base), str(SIZE), folder / "out.dtb"], capture_output=True, text=True)
        return done.stdout.strip() or done.stderr[-300:]

    for name, text, want in pairs():
        for slack in (0, 1000):
            tree = compiled(folder, "in", text, "-p", str(slack), "-b", "2")
            said = answer(tree, tree.stat().st_size + 400)
            right = said == "taken" and listed(folder / "out.dtb") == listed(compiled(folder, "want", want)) and boots(folder / "out.dtb") == boots(tree)
            told(f"a device tree with {name}, {slack} bytes free: the range is in it, and nothing else is changed", right, "" if right else said)
    refusals(folder, told, answer)
    pools(folder, told, program)
    closed(folder, told, program)
    boards(folder, told, program)
    tree = compiled(folder, "in", WITHOUT.format(more=BOARD.format(off="", on="", **SOME), **TWO))
    for room in (tree.stat().st_size, tree.stat().st_size + 700):
        done = subprocess.run([program, "random", tree, str(room), str(RANDOM)], capture_output=True, text=True)
        told(f"{RANDOM} trees with changed bytes and room of {room}: nothing beside them is touched, and no refused one",
             done.stdout.endswith(" 0\n") and (room == tree.stat().st_size or not done.stdout.startswith("0 ")), done.stdout + done.stderr[-500:])


def refusals(folder, told, answer):
    """Trees that can't be read or have no room are left as they were."""
    tree = compiled(folder, "in", next(pairs())[1])
    bytes_of = tree.read_bytes()
    size = len(bytes_of)
    grown = next(room for room in range(size, size + 400) if answer(tree, room) == "taken")
    answer(tree, grown)
    end = struct.unpack_from(">I", (folder / "out.dtb").read_bytes(), 4)[0]
    told("a tree is taken from the room on that it needs", end == grown and answer(tree, grown - 1) == "has no room", f"{grown} and {end}")
    answer(tree, size)
    told("a tree without room is left as it was", (folder / "out.dtb").read_bytes() == bytes_of)
    wrong = {"another magic number": (0, 0xD00DFEEE), "version 16": (20, 16), "a later version's layout": (24, 18), "a size above its room": (4, 1 << 20)}
    wrong |= {"nodes at the header": (8, 8), "nodes past its end": (36, size), "names past its end": (32, size)}
    for name, (at, word) in wrong.items():
        changed = bytearray(bytes_of)
        struct.pack_into(">I", changed, at, word)
        (folder / "wrong.dtb").write_bytes(changed)
        said = answer(folder / "wrong.dtb", size + 400)
        told(f"a device tree with {name} is refused", said == "cannot be read" and (folder / "out.dtb").read_bytes()[:size] == changed, said)
    three = compiled(folder, "three", WITHOUT.format(more="", **{**TWO, "cells": "#address-cells = <3>; #size-cells = <2>;"}))
    told("a device tree with three cells is refused", answer(three, 4096) == "cannot be read")
    one = compiled(folder, "one", WITHOUT.format(more="", **ONE))
    told("a range that its cells can't tell is refused", answer(one, 4096, 1 << 32) == "cannot be read")


def pools(folder, told, program):
    """The range of a pool says what it is, and after all the tree has room for a boot loader, where there is some."""
    tree = compiled(folder, "in", WITHOUT.format(more="", **TWO))
    node = 'enclaves@83000000 { compatible = "pmpmon,pool"; reg = <0 0x83000000 0 0x1000000>; no-map; };'
    want = compiled(folder, "want", WITHOUT.format(more=PARENT.format(nodes=RANGE.format(**TWO) + node, **TWO), **TWO))
    for room, slack in ((tree.stat().st_size + 500, 0), (tree.stat().st_size + 5000, 4096)):
        subprocess.run([program, "pool", tree, str(room), str(BASE), str(SIZE), folder / "out.dtb"], check=True, capture_output=True)
        size = struct.unpack_from(">I", (folder / "out.dtb").read_bytes(), 4)[0]
        right = listed(folder / "out.dtb") == listed(want) and tree.stat().st_size + 500 > size - slack > tree.stat().st_size
        told(f"a pool in a tree with room of {room}: it is in it, and {slack} bytes are free after it", right, "" if right else str(size))


# What the host has not is marked: {off} is put where a node gets the status, {on} where one keeps its own.
BOARD = """
cpus {{ #address-cells = <1>; #size-cells = <0>;
    cpu@0 {{ device_type = "cpu"; reg = <0>; {on} riscv,isa = "rv64imafdch_zicsr{closed}_sstc"; riscv,isa-extensions = "i", "m"{closed_list}, "zicsr"; intc {{ reg = <9>; }}; }}; cpu@1 {{ device_type = "cpu"; reg = <1>; }}; cpu@2 {{ device_type = "cpu"; reg = <2>; {off} intc {{ reg = <9>; }}; }}; cpu@3 {{ device_type = "cpu"; {off} reg = <3>; }}; }};
soc {{ #address-cells = <2>; #size-cells = <2>; ranges;
    rtc@101000 {{ reg = <0 0x101000 0 0x1000>; {on} }}; test@100000 {{ reg = <0 0x100000 0 0x1000>; {off} }};
    serial@10000000 {{ reg = <0 0x10000000 0 0x100>; }}; two@10000000 {{ reg = <0 0x10000000 0 0x100 0 0x10001000 0 0x100>; {off} }};
    long@10000000 {{ reg = <0 0x10000000 0 0x2000>; {off} child {{ {on} }}; }}; before@ff000 {{ reg = <0 0x100800 0 0x1000>; {off} }};
    wraps@1 {{ reg = <0 0x10000800 0xffffffff 0xfffffa00>; {off} }}; group {{ inner@5 {{ reg = <5 5>; }}; }}; }};
other {{ #address-cells = <1>; #size-cells = <1>; ranges = <0 0 0x4000000 0x1000>; at@101000 {{ reg = <0x101000 0x1000>; {off} }}; none {{ }}; }};
wire {{ #address-cells = <1>; #size-cells = <0>; chip@50 {{ reg = <0x50>; }}; }};
flash@20000000 {{ reg = <0 0x20000000 0 0x2000000>; {off} }}; poweroff {{ regmap = <6>; {off} }}; thermal {{ {on} }};
"""


# Extensions that are closed, one after another and at an end, and one whose name begins as such.
SOME = {"closed": "_svadu_zkr_zkrx_svpbmt_zihpm_ssaia_ssctr", "closed_list": ', "svadu", "svpbmt", "zkr"'}


def closed(folder, told, program):
    """Harts and devices that are not the host's are marked as disabled, and keep all else."""
    off, on = 'status = "disabled";', 'status = "okay";'
    for was in ("", on, off):
        tree = compiled(folder, "in", WITHOUT.format(more=BOARD.format(off=was, on=on, **SOME), **TWO))
        want = compiled(folder, "want", WITHOUT.format(more=BOARD.format(off=off, on=on, closed="_zkrx", closed_list="") + PARENT.format(nodes=RANGE.format(**TWO), **TWO), **TWO))
        done = subprocess.run([program, "one", tree, "8192", str(BASE), str(SIZE), folder / "out.dtb"], capture_output=True, text=True)
        right = done.stdout == "taken\n" and listed(folder / "out.dtb") == listed(want)
        told(f"what is not the host's is marked where its status was {was or 'not said'}", right, "" if right else done.stdout + done.stderr[-300:])


def boards(folder, told, program):
    """What trees say of harts and memory: in several nodes, in nodes with other cells, and beside nodes of other names."""
    cpus = "cpus { #address-cells = <%d>; #size-cells = <0>; %s };"
    harts = "cpu@%x { device_type = \"cpu\"; reg = <%s>; interrupt-controller { reg = <9>; }; };"
    four = cpus % (1, " ".join(harts % (i, i) for i in range(4)) + " cpu-map { cpu@5 { reg = <5>; }; };")
    gap = cpus % (2, harts % (0, "0 0") + harts % (1, "0 1") + harts % (70, "0 70") + harts % (3, "1 2"))
    memory = "memory@%x { device_type = \"memory\"; reg = <%s>; };"
    more = memory % (1 << 32, "1 0 0 0x40000000 2 0 0 0x1000") + " memory-controller@1 { reg = <0 1 0 1>; };"
    next_to = memory % (0x88000000, "0 0x88000000 0 0x1000")
    rows = [("four harts", WITHOUT.format(more=four, **TWO), "harts 4, 80000000 8000000")]
    rows += [("harts of two cells, of which two are the first", WITHOUT.format(more=gap, **TWO), "harts 2, 80000000 8000000")]
    rows += [("cells of one word", WITHOUT.format(more=four, **ONE), "harts 4, 80000000 8000000")]
    rows += [("memory in three ranges", WITHOUT.format(more=four + more, **TWO), "harts 4, 80000000 8000000, 100000000 40000000, 200000000 1000")]
    rows += [("memory of two ranges that are one", WITHOUT.format(more=next_to, **TWO), "harts 1, 80000000 8000800")]
    rows += [("no harts", WITHOUT.format(more="", **TWO), "harts 1, 80000000 8000000")]
    rows += [("memory that ends past the last address", WITHOUT.format(more=memory % (1, "0xffffffff 0xfffff000 0 0x2000"), **TWO), "harts 1, 80000000 8000000")]
    rows += [("three cells", WITHOUT.format(more="", **{**TWO, "cells": "#address-cells = <3>; #size-cells = <2>;"}), "cannot be read")]
    for name, text, want in rows:
        said = subprocess.run([program, "board", compiled(folder, "board", text)], capture_output=True, text=True)
        right = said.stdout == want + "\n"
        told(f"the board of a tree with {name}", right, "" if right else said.stdout + said.stderr[-300:])
