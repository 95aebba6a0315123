"""Device trees for the test, each with the program's arguments and the expected lines: of the map, of the platform if they begin with
`harts`, or the reason why there is no platform."""
import re

RAM = "memory@80000000 { device_type = \"memory\"; reg = <0 0x80000000 0 0x8000000>; };"
RAM_NAMED = "# memory@80000000: memory 0x80000000 0x8000000"
RAM_LINES = [RAM_NAMED, "0x80000000 0x8000000 rwx"]
MACHINE = "; it is the timer of harts or interrupts them"


def tree(body, harts=1, before="", ram=RAM):
    """Returns a tree with this many harts, memory, and nodes below its root."""
    cpus = " ".join(f"cpu@{n} {{ device_type = \"cpu\"; reg = <{n}>; }};" for n in range(harts))
    return (f"/dts-v1/;\n{before}\n/ {{ #address-cells = <2>; #size-cells = <2>;\n"
            f"cpus {{ #address-cells = <1>; #size-cells = <0>; {cpus} }};\n{ram}\n{body}\n}};\n")


def reserved(body):
    return f"reserved-memory {{ #address-cells = <2>; #size-cells = <2>; ranges; {body} }};"


def node(name, *ranges, more=""):
    words = " ".join(f"{base >> 32:#x} {base & 0xffffffff:#x} {size >> 32:#x} {size & 0xffffffff:#x}" for base, size in ranges)
    return f"{name} {{ {more} reg = <{words}>; }};"


def named(name, kind, base, size, rest=""):
    return f"# {name}: {kind} {base:#x} {size:#x}{rest}"


REST = ", with the rest of its pages"
WHOLE = ", of it the whole pages"
FIRMWARE = node("firmware@80000000", (0x80000000, 0x40000), more="no-map;")
SECOND = node("second@80040000", (0x80040000, 0x40000), more="no-map;")
OUT = "# left out: "


def lost(name, base, size):
    return f"{OUT}{name}: on its bus {base:#x} {size:#x}; no bus translates it to an address of the root"


def nested(outer, inner, beside, inside):
    """Returns a bus with nodes, and inside it a bus with other nodes, each with these rows of `ranges`."""
    cells = "#address-cells = <1>; #size-cells = <1>; ranges ="
    outer = re.sub(r"<(\S+) ", r"<\1 0 ", outer)
    return f"soc {{ {cells} {outer}; {beside} bus@0 {{ {cells} {inner}; {inside} }}; }};"


def DEEP(levels):
    """Returns a tree with this many nested nodes below its root."""
    return "/dts-v1/;\n/ { " + "n { " * levels + "}; " * levels + "};\n"


TREES = {
    "a device of a part of a page": (
        tree(node("uart@10000000", (0x10000000, 0x100)) + node("two@20000ff0", (0x20000ff0, 0x20))), [],
        [named("uart@10000000", "device", 0x10000000, 0x100, REST), "0x10000000 0x1000 rw",
         named("two@20000ff0", "device", 0x20000ff0, 0x20, REST), "0x20000000 0x2000 rw", *RAM_LINES]),
    "devices of machine mode, and the pages that they share": (
        tree(node("clint@2000000", (0x2000000, 0xc000), more='compatible = "vendor,x", "riscv,clint0";')
             + node("mtimer@2100000", (0x2100000, 8), (0x2104000, 0x7ff8), more='compatible = "riscv,aclint-mtimer";')
             + node("sswi@210bff8", (0x210bff8, 8), more='compatible = "riscv,aclint-sswi";')), [],
        [*RAM_LINES, OUT + named("clint@2000000", "machine mode's", 0x2000000, 0xc000, MACHINE)[2:],
         OUT + named("mtimer@2100000", "machine mode's", 0x2100000, 8, REST + MACHINE)[2:],
         OUT + named("mtimer@2100000", "machine mode's", 0x2104000, 0x7ff8, REST + MACHINE)[2:],
         OUT + named("sswi@210bff8", "device", 0x210bff8, 8, REST)[2:] + "; it has no page that is neither memory nor denied"]),
    "reserved memory that a kernel may map, and a reservation": (
        tree(reserved(node("a@80001000", (0x80001000, 0x1000))), before="/memreserve/ 0x81000000 0x1000;"), [],
        [*RAM_LINES, "# not left out: /memreserve/ 0x81000000 0x1000; a kernel keeps off it by itself"]),
    "reserved memory without a place": (tree(reserved("pool { size = <0 0x400000>; no-map; };")), [], RAM_LINES),
    "windows of PCI": (
        tree('pci@30000000 { device_type = "pci"; #address-cells = <3>; #size-cells = <2>; reg = <0 0x30000000 0 0x1000>; '
             "ranges = <0x2000000 0 0x40000000 0 0x40000000 0 0x40000000>; dev@0 { reg = <0 0 0x40000000 0 0x1000>; }; };"), [],
        [named("pci@30000000", "device", 0x30000000, 0x1000), "0x30000000 0x1000 rw", *RAM_LINES]),
    "devices that overlap, touch, and are in memory": (
        tree(node("a@1000", (0x1000, 0x3000)) + node("b@2000", (0x2000, 0x1000)) + node("c@4000", (0x4000, 0x1000))
             + node("in@80001000", (0x80001000, 0x1000))), [],
        [named("a@1000", "device", 0x1000, 0x3000), named("b@2000", "device", 0x2000, 0x1000),
         named("c@4000", "device", 0x4000, 0x1000), "0x1000 0x4000 rw", *RAM_LINES,
         OUT + named("in@80001000", "device", 0x80001000, 0x1000)[2:] + "; it has no page that is neither memory nor denied"]),
    "flash": (
        tree(node("flash@20000000", (0x20000000, 0x2000000), more='compatible = "cfi-flash";')), [],
        [named("flash@20000000", "device", 0x20000000, 0x2000000), "0x20000000 0x2000000 rw", *RAM_LINES]),
    "a monitor that the tree says": (
        tree(reserved(SECOND + FIRMWARE), harts=5), [],
        ["harts = 4 # the tree has 5 in use", "entries = 16 # a tree does not say how many: 16 or 64", "[monitor]",
         "# the no-map node in which memory begins", "base = 0x80000000", "size = 0x40000", RAM_NAMED, "[[ram]]",
         "base = 0x80000000", "size = 0x40000", RAM_NAMED, "[[ram]]", "base = 0x80080000", "size = 0x7f80000",
         OUT + named("second@80040000", "no-map", 0x80040000, 0x40000)[2:] + "; nothing else is to map it",
         OUT + named("firmware@80000000", "no-map", 0x80000000, 0x40000)[2:] + "; nothing else is to map it"]),
    "a monitor that is given": (
        tree(node("uart@10000000", (0x10000000, 0x1000))), ["2147483648", "4096"],
        ["harts = 1 # the tree has 1 in use", "entries = 16 # a tree does not say how many: 16 or 64", "[monitor]",
         "# as it was given", "base = 0x80000000", "size = 0x1000", named("uart@10000000", "device", 0x10000000, 0x1000),
         "[[device]]", "base = 0x10000000", "size = 0x1000", 'perm = "rw"', RAM_NAMED, "[[ram]]", "base = 0x80000000",
         "size = 0x8000000"]),
    "memory and devices past the space": (
        tree(node("far@f", (0xfffffffffff000, 0x2000)) + node("top@f", (0xfffffffffffff000, 0xffffffffffffffff)),
             ram=node("memory@1", (0x100000000000000, 0x1000), more='device_type = "memory";')), [],
        [named("far@f", "device", 0xfffffffffff000, 0x2000), "0xfffffffffff000 0x1000 rw",
         OUT + named("memory@1", "memory", 0x100000000000000, 0x1000)[2:] + "; no whole page of it is left",
         OUT + named("top@f", "device", 0xfffffffffffff000, 0xffffffffffffffff, REST)[2:]
         + "; it has no page that is neither memory nor denied"]),
    "nodes that are not in use, and a bus": (
        tree('off@1000 { status = "disabled"; reg = <0 0x1000 0 0x1000>; };'
             "bus { #address-cells = <1>; #size-cells = <1>; ranges = <0 0 0x40000000 0x1000>;"
             "in@800 { reg = <0x800 0x100>; }; out@2000 { reg = <0x2000 0x100>; }; };"), [],
        [named("in@800", "device", 0x40000800, 0x100, REST), "0x40000000 0x1000 rw", *RAM_LINES, lost("out@2000", 0x2000, 0x100)]),
    "a status without the zero that ends it": (
        tree('on@1000 { status = [6f 6b 61 79]; reg = <0 0x1000 0 0x1000>; }; off@2000 { status = [6e 6f]; reg = <0 0x2000 0 0x1000>; };'), [],
        [named("on@1000", "device", 0x1000, 0x1000), "0x1000 0x1000 rw", *RAM_LINES]),
    "a device behind two buses, the outer of which translates a part of the inner": (
        tree(nested("<0 0x10000000 0x1000000>", "<0 0 0x2000000>", 'syscon@0 { reg = <0 0x1000000>; };',
                    'clint@200000 { compatible = "sifive,clint0"; reg = <0x200000 0x10000>; }; uart@300000 { reg = <0x300000 0x1000>; };'
                    "edge@fff000 { reg = <0xfff000 0x3000>; }; past@1800000 { reg = <0x1800000 0x1000>; };")), [],
        [named("syscon@0", "device", 0x10000000, 0x1000000), "0x10000000 0x200000 rw",
         named("syscon@0", "device", 0x10000000, 0x1000000), named("uart@300000", "device", 0x10300000, 0x1000),
         named("edge@fff000", "device", 0x10fff000, 0x1000), "0x10210000 0xdf0000 rw", *RAM_LINES,
         OUT + named("clint@200000", "machine mode's", 0x10200000, 0x10000, MACHINE)[2:],
         lost("edge@fff000", 0x1000000, 0x2000), lost("past@1800000", 0x1800000, 0x1000)]),
    "a device in two windows, and windows that are one at the root": (
        tree(nested("<0 0x10000000 0x1000>, <0x1000 0x10001000 0x1000>, <0x3000 0x20000000 0x1000>", "<0 0 0x8000>", "",
                    "one@0 { reg = <0 0x2000>; }; two@1000 { reg = <0x1000 0x3000>; };")), [],
        [named("one@0", "device", 0x10000000, 0x2000), named("two@1000", "device", 0x10001000, 0x1000), "0x10000000 0x2000 rw",
         named("two@1000", "device", 0x20000000, 0x1000), "0x20000000 0x1000 rw", *RAM_LINES, lost("two@1000", 0x2000, 0x1000)]),
    "a bus with three address cells and an empty ranges": (
        tree("bus@0 { #address-cells = <3>; #size-cells = <1>; ranges; in@0 { reg = <0 0 0x5000 0x1000>; }; };"), [], RAM_LINES),
    "registers in more windows than are counted": (
        tree(nested(", ".join(f"<{0x1000 * n:#x} {0x20000000 - 0x2000 * n:#x} 0x1000>" for n in range(70)), "<0 0 0x80000>", "",
                    "wide@0 { reg = <0 0x46000>; };")), ["2147483648", "4096"],
        ["registers in too many ranges, in the node at byte 1504"]),
    "more devices of machine mode": (
        tree(node("plmt@1000", (0x1000, 0x1000), more='compatible = "andestech,plmt0";')
             + node("plicsw@2000", (0x2000, 0x1000), more='compatible = "vendor,x", "andestech,plicsw";')
             + node("aplic@3000", (0x3000, 0x1000), more='compatible = "riscv,aplic"; riscv,children = <1>;')
             + node("aplic@4000", (0x4000, 0x1000), more='compatible = "riscv,aplic"; interrupts-extended = <2 9 1 11>;')
             + node("imsics@5000", (0x5000, 0x1000), more='compatible = "riscv,imsics"; interrupts-extended = <1 11>;')
             + node("imsics@6000", (0x6000, 0x1000), more='compatible = "riscv,imsics"; interrupts-extended = <11 9>;')), [],
        [named("imsics@6000", "device", 0x6000, 0x1000), "0x6000 0x1000 rw", *RAM_LINES,
         *(OUT + named(name, "machine mode's", base, 0x1000, MACHINE)[2:] for name, base in (
             ("plmt@1000", 0x1000), ("plicsw@2000", 0x2000), ("aplic@3000", 0x3000), ("aplic@4000", 0x4000), ("imsics@5000", 0x5000)))]),
    "memory of no whole pages": (
        tree("", ram=node("m@1", (0x80000800, 0x2000), (0x90000800, 0x700), (0xa0000000, 0x800), (0xa0000800, 0x800),
                          more='device_type = "memory";')), [],
        [named("m@1", "memory", 0x80000800, 0x2000, WHOLE), "0x80001000 0x1000 rwx",
         *(OUT + named("m@1", "memory", base, size, WHOLE)[2:] + "; no whole page of it is left"
           for base, size in ((0x90000800, 0x700), (0xa0000000, 0x800), (0xa0000800, 0x800)))]),
    "a name that is long": (
        tree(node("a-name-of-a-device-that-has-33-by@1", (0x6000, 0x1000))), [],
        ["# a-name-of-a-device-that-has-33-b..: device 0x6000 0x1000", "0x6000 0x1000 rw", *RAM_LINES]),
    "no monitor": (tree(""), [], ["no node says where the monitor is; give --monitor"]),
    "a monitor beside memory": (tree(""), ["4096", "4096"], ["a page of the monitor is not memory"]),
    "no hart": (tree("", harts=0), ["2147483648", "4096"], ["the tree has no hart"]),
    "33 devices": (
        tree("".join(node(f"d@{n:x}", (0x2000 * n, 0x1000)) for n in range(33))), ["2147483648", "4096"],
        ["not 1 to 32 ranges of memory, at most 32 devices"]),
    "cells above four": (
        tree("bus { #address-cells = <5>; };"), ["2147483648", "4096"],
        ["cells are no number from 0 to 4, in the node at byte 264"]),
}
