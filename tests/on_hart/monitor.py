"""The proved monitor on a hart of QEMU: what tests/on_hart/run.py tries of firmware/."""
import importlib.machinery
import importlib.util
import os
import re
import shlex
import shutil
import subprocess
import sys
import tempfile
from concurrent.futures import ProcessPoolExecutor, ThreadPoolExecutor
from pathlib import Path

from builds import builds
from costs import costs
from debugged import late_hart, measured_page, memory_types, state_of_stopping_hart
from edits import edited
from interleavings import all_interleavings
from lives import Life
from resets import each_instruction, left_after, resets, symbol
from trees import trees
from wires import START, Wired, without_start

TOP = Path(__file__).resolve().parents[2]
HERE = Path(__file__).resolve().parent
FIRMWARE = TOP / "firmware"
GCC = "riscv64-unknown-elf-gcc"
FLAGS = ["-march=rv64imac_zicsr_zifencei", "-mabi=lp64", "-mcmodel=medany", "-std=gnu11", "-O2", "-ffreestanding", "-fno-builtin", "-nostdlib", "-static"]
LIVES, EVENTS = 20, 120
# Those of user, supervisor and hypervisor mode that can be written, by their numbers in the Privileged Architecture's list.
REGISTERS = {1: "fflags", 2: "frm", 3: "fcsr", 8: "vstart", 9: "vxsat", 10: "vxrm", 15: "vcsr"}
REGISTERS |= {0x100: "sstatus", 0x104: "sie", 0x105: "stvec", 0x106: "scounteren", 0x10A: "senvcfg"}
REGISTERS |= {0x140: "sscratch", 0x141: "sepc", 0x142: "scause", 0x143: "stval", 0x144: "sip", 0x14D: "stimecmp", 0x180: "satp", 0x5A8: "scontext"}
REGISTERS |= {0x200: "vsstatus", 0x204: "vsie", 0x205: "vstvec", 0x240: "vsscratch", 0x241: "vsepc", 0x242: "vscause", 0x243: "vstval", 0x244: "vsip"}
REGISTERS |= {0x24D: "vstimecmp", 0x280: "vsatp", 0x600: "hstatus", 0x602: "hedeleg", 0x603: "hideleg", 0x604: "hie", 0x605: "htimedelta"}
REGISTERS |= {0x606: "hcounteren", 0x607: "hgeie", 0x60A: "henvcfg", 0x643: "htval", 0x644: "hip", 0x645: "hvip", 0x64A: "htinst", 0x680: "hgatp", 0x6A8: "hcontext"}
# What is left behind alone in hostile.c, and what comes of it.
ALONE = ("UXL 1", "UXL 2", "UXL 3", "a guest's interrupt", "a table of pages", "an interrupt that is not let in")
# What the host of firmware/host prints. Its hart has a timer of supervisor mode (Sstc), whose interrupt is 5.
HOST = """host: a word of the monitor: fault 5
host: create: 0 1
host: its code: fault 5
host: its data: fault 5
host: run, and it stops itself: 1 0
host: resume, and the timer stops it: 1 0
host: the cause, below 2^63: 5
host: the timer came: 1
host: resume, and it exits: 0 42
host: resume what has exited: -111 0
host: destroy: 0 0
host: its code: 0
host: its data: 0
host: create, entered elsewhere: 0 1
host: run, and it loads what is the monitor's: 1 0
host: the cause: 5
host: the address is the monitor's: 1
host: destroy: 0 0
host: a call that there is not: -2 0
"""
# Without one, machine mode's comes.
HOST_WITHOUT_SSTC = HOST.replace("2^63: 5", "2^63: 7")
LIFE = """ecall 0x08454E43 0 0x80200000 1 1 0x80500000 1 0
ecall 0x08454E43 0 0x80204000 2 0 0 0 0
ecall 0x08454E43 2 1
irq
ecall 0x08454E43 4 1
ecall 0x08454E43 5 7
ecall 0x08454E43 1 1
ecall 0x08454E43 1 2
load s 8 0x80200000
"""


def on_hart_module():
    """./pmpmon-on-hart"""
    sys.dont_write_bytecode = True
    loader = importlib.machinery.SourceFileLoader("pmpmon_on_hart", str(TOP / "pmpmon-on-hart"))
    module = importlib.util.module_from_spec(importlib.util.spec_from_loader("pmpmon_on_hart", loader))
    loader.exec_module(module)
    return module


def platform_with(folder, harts):
    """A platform of so many harts, without the serial port: what a trace's worlds store goes into memory alone."""
    path = folder / f"platform-{harts}.toml"
    path.write_text(f"harts = {harts}\n[monitor]\nbase = 0x80000000\nsize = 0x200000\n[[ram]]\nbase = 0x80000000\nsize = 0x8000000\n")
    return path


def differs(on_hart, program, platform, trace):
    """How many lines a trace has, and where the hart's report is another, or ''."""
    want = subprocess.run([program, "run", platform, trace], capture_output=True, text=True)
    try:
        got, said, _ = on_hart.report_of(platform, trace)
    except subprocess.TimeoutExpired:
        return 0, "the board did not end"
    lines = want.stdout.splitlines()
    if want.returncode or said:
        return 0, want.stderr or said
    if got == lines:
        return len(lines), ""
    first = next((i for i, (a, b) in enumerate(zip(got, lines)) if a != b), min(len(got), len(lines)))
    return 0, f"line {first + 1}: `{trace.read_text().splitlines()[first]}`: the hart {got[first : first + 1]}, the program {lines[first : first + 1]}"


def lives(on_hart, program, folder, told):
    """Random lives on one, two and four harts."""
    traces = []
    for seed in range(LIVES):
        harts = (1, 2, 4)[seed % 3]
        trace = folder / f"life-{seed}.trace"
        trace.write_text(Life(seed, harts).trace(EVENTS))
        traces.append((seed, harts, platform_with(folder, harts), trace))
    with ThreadPoolExecutor(max_workers=max(1, (os.cpu_count() or 1) // 2)) as boards:
        for (seed, harts, _, _), (count, why) in zip(traces, boards.map(lambda it: differs(on_hart, program, it[2], it[3]), traces)):
            told(f"life {seed} on {harts} hart{'s' if harts > 1 else ''}: {count} lines as the program has them", not why, why)


def header_is_read(told):
    """Whether the headers of calls and of enclaves are strict C, and C++ where its compiler is there."""
    compilers = [(GCC, "c99", "c"), (GCC, "c17", "c"), (GCC.replace("gcc", "g++"), "c++11", "c++")]
    for compiler, standard, language in compilers:
        if shutil.which(compiler):
            words = [compiler, *FLAGS[:3], "-ffreestanding", f"-std={standard}", "-Wall", "-Wextra", "-Wpedantic", "-Werror", f"-I{TOP}/include", "-c", "-o", os.devnull, "-x", language, "-"]
            for header in ("pmpmon_calls.h", "pmpmon_enclave.h"):
                done = subprocess.run(words, input=f'#include "{header}"\n', capture_output=True, text=True)
                told(f"include/{header} is read as {standard}", done.returncode == 0, done.stderr)


def examples(on_hart, program, told):
    for name, platform in (("life-cycle", "example-platform"), ("no-entries", "example-platform"), ("two-harts", "two-harts")):
        count, why = differs(on_hart, program, TOP / f"examples/{platform}.toml", TOP / f"examples/{name}.trace")
        told(f"examples/{name}.trace: {count} lines on the hart", not why, why)


def early_ends(folder, told):
    """A trace whose store ends the board, or begins it anew, has a report of what was before, and a status that says so."""
    platform = folder / "finisher.toml"
    platform.write_text(platform_with(folder, 1).read_text() + '[[device]]\nbase = 0x100000\nsize = 0x1000\nperm = "rw"\n')
    trace = folder / "finisher.trace"
    for name, word in (("ends the board", 0x5555), ("begins it anew", 0x7777)):
        trace.write_text(f"load s 8 0x80200000\nstore s 4 0x100000 {word:#x}\nload s 8 0x80200000\n")
        done = subprocess.run([TOP / "pmpmon-on-hart", platform, trace], capture_output=True, text=True)
        want = (1, "1 ok 0x0000000000000000\n", "pmpmon-on-hart: the board ended after 1 of 3 events\n")
        got = (done.returncode, done.stdout, done.stderr)
        told(f"a store that {name}: the report ends, and says so", got == want, "" if got == want else str(got))


def after_refusal(line):
    """Whether a line is that of a creation or destruction for which memory was refused."""
    return " call -109 0x0000000000000000 " in line


def refused_memory(on_hart, folder, told):
    """Each allocation is refused in turn: boot says so, or a creation or destruction is answered -109, or nothing differs."""
    platform, trace = platform_with(folder, 1), folder / "refused.trace"
    trace.write_text(LIFE)
    want, notes, _ = on_hart.report_of(platform, trace, has_notes=True)
    numbers = {it.split()[1]: int(it.split()[2]) for it in notes.splitlines()}
    calls = range(1, numbers["allocations"] + 1)

    def wrong(call):
        got, said, _ = on_hart.report_of(platform, trace, refused_call=call)
        if said == "end 4 0" and not got:
            return "", "boot"
        first = next((i for i, (a, b) in enumerate(zip(got, want)) if a != b), None)
        if said or len(got) != len(want):
            return f"allocation {call}: {said or got[-1:]}", ""
        if first is None:
            return "", "same"
        return ("", "call") if after_refusal(got[first]) else (f"allocation {call}: {got[first]}", "")

    with ThreadPoolExecutor(max_workers=max(1, (os.cpu_count() or 1) // 2)) as boards:
        done = list(boards.map(wrong, calls))
    faults, kinds = [it[0] for it in done if it[0]], [it[1] for it in done]
    how = f"{kinds.count('boot')} at boot, {kinds.count('call')} answered -109, {kinds.count('same')} made up for"
    told(f"each of {len(done)} allocations refused: {how}", not faults and kinds.count("boot") and kinds.count("call"), "; ".join(faults[:3]))


def largest(folder):
    """A platform of 32 ranges of memory, 31 devices, four harts and 64 entries: as many as the host's view has room for."""
    path = folder / "largest.toml"
    text = "harts = 4\nentries = 64\n[monitor]\nbase = 0x80000000\nsize = 0x80000\n[[ram]]\nbase = 0x80000000\nsize = 0x8000000\n"
    text += "".join(f"[[ram]]\nbase = {0x100000000 * i:#x}\nsize = {0x1000 << i % 8:#x}\n" for i in range(1, 32))
    path.write_text(text + "".join(f'[[device]]\nbase = {0x100000 * i:#x}\nsize = {0x1000 << i % 8:#x}\nperm = "rw"\n' for i in range(1, 32)))
    return path


def most_taken(on_hart, folder, told):
    """What a life takes on a small platform and on the board's own, whose map is a deeper tree: less than 24 KiB of stack, 36 KiB of heap."""
    trace, most = folder / "most.trace", {}
    trace.write_text(LIFE)
    for platform in (platform_with(folder, 1), FIRMWARE / "platform.toml"):
        _, notes, _ = on_hart.report_of(platform, trace, has_notes=True)
        for it in notes.splitlines():
            most[it.split()[1]] = max(most.get(it.split()[1], 0), int(it.split()[2]))
    numbers = f"stack {most['stack']}, heap {most['heap']} bytes; instructions {most['other']} of a switch, {most['owning']} until a creation is answered"
    told(f"the monitor's most: {numbers}", most["stack"] < 24576 and most["heap"] < 36864 and most["other"] < 700)
    # (a hart of QEMU has sixteen entries, and loads the first sixteen of what a boot on 64 answers)
    trace.write_text("")
    on_hart.platform_of = lambda path: ({"harts": 4}, 128)
    _, notes, _ = on_hart.report_of(largest(folder), trace, has_notes=True)
    most = {it.split()[1]: int(it.split()[2]) for it in notes.splitlines() if it.startswith("note ")}
    told(f"a boot on the largest platform: {notes.replace(chr(10), ', ')}", most and most["stack"] < 24576 and most["heap"] < 135168)


def board_of(image, payload, harts, *more):
    board = [on_hart_module().QEMU, "-machine", "virt", "-smp", str(harts), "-m", "128", "-display", "none", "-monitor", "none", "-serial", "stdio"]
    return board + ["-bios", str(image), "-device", f"loader,file={payload}", *more]


def said_by(board, seconds):
    """What a board says in that time, and whether it ended."""
    try:
        return subprocess.run(board, stdin=subprocess.DEVNULL, capture_output=True, text=True, timeout=seconds).stdout.replace("\r", ""), True
    except subprocess.TimeoutExpired as stopped:
        return (stopped.stdout or b"").decode("latin-1").replace("\r", ""), False


def booted(image, payload, harts, *more, seconds=240):
    """What a board says after the line that its boot prints."""
    said, has_ended = said_by(board_of(image, payload, harts, *more), seconds)
    return without_start(said) if has_ended else "the board did not end"


def start_lines(told):
    """The line that the boot prints: how many harts and entries there are, and whether a host is loaded."""
    host = [FIRMWARE / "out/pmpmon-virt.elf", FIRMWARE / "out/host.elf"]
    rows = [(board_of(*host, 1), ("1", "16", "the host is", "0x0000000080200000")), (without_host(*host), ("1", "16", "no host is loaded", "0x0000000080200000"))]
    for board, want in rows:
        said, _ = said_by(board, 60 if want[2] == "the host is" else 10)
        found = START.match(said)
        told(f"the boot says that {want[2]} at {want[3]}", found is not None and found.groups() == want, said)


def without_host(image, payload, *more):
    board = board_of(image, payload, 1, *more)
    return board[: board.index("-device")]


def built(platform, out, pool=""):
    built_by(FIRMWARE, platform, out, pool)


def built_by(firmware, platform, out, pool=""):
    """The same from another copy of the firmware's sources."""
    subprocess.run([firmware / "build", platform, out], check=True, env={**os.environ, "POOL": pool, "IMAGE": "pmpmon-virt.elf"})


def worlds(folder, told):
    """The host of firmware/host; two harts that race, with the stop of the others and without; and hosts of this folder."""
    said = booted(FIRMWARE / "out/pmpmon-virt.elf", FIRMWARE / "out/host.elf", 1)
    told("a host in C makes, runs, interrupts and destroys an enclave", said == HOST, said if said != HOST else "")
    said = booted(FIRMWARE / "out/pmpmon-virt.elf", FIRMWARE / "out/host.elf", 1, "-cpu", "rv64,sstc=off")
    told("the same on a hart without Sstc", said == HOST_WITHOUT_SSTC, said if said != HOST_WITHOUT_SSTC else "")
    image = edited(FIRMWARE / "platform.toml", folder / "undelegated", ("control.c", "HOSTS_EXCEPTIONS 0xf0b5fful", "HOSTS_EXCEPTIONS 0ul"))
    said = booted(image, FIRMWARE / "out/host.elf", 1)
    told("the same where its exceptions come to machine mode first", said == HOST, said if said != HOST else "")
    builds(folder, told, lambda image: booted(image, FIRMWARE / "out/host.elf", 1) == HOST)
    wrong = folder / "three.dtb"
    if wrong.exists():
        said = booted(FIRMWARE / "out/pmpmon-virt.elf", FIRMWARE / "out/host.elf", 1, "-dtb", str(wrong))
        told("a board whose device tree can't be read stops, and says so", said == "monitor: the device tree cannot be read\n", said)
    boards(folder, told)
    two = folder / "two.toml"
    two.write_text("harts = 2\n" + (FIRMWARE / "platform.toml").read_text().replace("harts = 1\n", ""))
    race = host(folder / "race.elf", "race.S")
    built(two, folder / "with")
    edited(two, folder / "without", ("serve.c", "    stop_harts(answer->wake);\n", ""))
    for name, want in (("with", "faults\n"), ("without", "reads on\n")):
        said = booted(folder / name / "pmpmon-virt.elf", race, 2)
        told(f"{name} the stop of other harts, a page that became an enclave's {want.strip()}", said == want, said if said != want else "")
    said = booted(folder / "with/pmpmon-virt.elf", host(folder / "two_hosts.elf", "sbi_host.S", "two_hosts.S", "two_hosts.c"), 2)
    told("two harts enter two enclaves, and each host has its own words", said == TWO_HOSTS, said)
    sbi(folder / "with/pmpmon-virt.elf", folder, told)
    payloads = [host(folder / f"reset-{it}.elf", "harts.S", "reset_enclave.S", "reset.c", flags=(f"-DHARTS={it}",)) for it in (1, 2)]
    sets(folder, told)
    floats(folder, told)
    devices(folder, told)
    storm(folder, told)
    ends(folder, told)
    stages(folder, told)
    large_trees(folder, told)
    races(folder, told)
    quartet(folder, told)
    aside(folder, told)
    secrets = host(folder / "secrets.elf", "harts.S", "secrets_enclave.S", "secrets.c")
    slots = host(folder / "slots.elf", "harts.S", "reset_enclave.S", "slots.c")
    resets((FIRMWARE / "out/pmpmon-virt.elf", folder / "with/pmpmon-virt.elf"), payloads, folder / "any/pmpmon-virt.elf", secrets, slots, told)
    destroyed, left, said = left_after(edited(FIRMWARE / "platform.toml", folder / "no-zeros", but("ALL_ZERO")), secrets, 2)
    told("without the zeros at an enclave's end its registers are left, and found", destroyed and left, "" if destroyed and left else said)
    each_instruction(folder / "four/pmpmon-virt.elf", host(folder / "busy.elf", "harts.S", "reset_enclave.S", "busy.c"), told)
    hostile(folder, told)


# What a host of two harts finds that enter two enclaves.
TWO_HOSTS = "both harts were in an enclave: 1\nwrong 0\n"
# What an enclave reads of the counters, where its host lets its own programs read them.
CLOCK = "time, let in: it is now 1\ntime, let in with all: it is now 1\ntime, kept out: cause 2\ntime, kept out alone: cause 2\n"
CLOCK += "cycles, let in: cause 2\ninstructions, let in: cause 2\n"
# What a host finds that computes in floating point beside two enclaves.
FLOATS = "enclaves were on both harts 1\nstopped more than 200 times 1\nenclaves came to others 0\nhosts came to others 0\nwrong 0\n"
# A build for a try leaves out a set of the host, one of an enclave, or the zeros of an enclave that is made: 24 lives and two hosts.
KEPT = "    self->registers->fcsr = READ(fcsr);\n    if (!self->number || (status & FLOATS_DIRTY) == FLOATS_DIRTY)\n        keep(self);\n"
LEFT_OUT = {1: ("the host's set", ("floats.c", KEPT, f"    if (self->number) {{\n{KEPT}    }}\n"), "enclaves came to others 0\nhosts came to others 2\n")}
LEFT_OUT |= {2: ("an enclave's set", ("floats.c", KEPT, f"    if (!self->number) {{\n{KEPT}    }}\n"), "enclaves came to others 24\n")}
LEFT_OUT |= {3: ("the zeros of a new enclave", ("registers.c", "memset(set, 0, sizeof *set)", "memset(set, 0, 33 * 8)"), "enclaves came to others 22\n")}


def floats(folder, told):
    """A host and two enclaves compute in floating point on two harts, under a timer; with doubles and with singles, and where nothing is."""
    payloads = {it: host(folder / f"floats-{it}.elf", "harts.S", "floats.S", "floats.c", flags=(f"-DFMT={it}", f"-DFMT_ARCH={'f' if it == 's' else 'd'}")) for it in "ds"}
    for name, more in (("d", ()), ("s", ("-cpu", "rv64,d=off"))):
        said = booted(folder / "with/pmpmon-virt.elf", payloads[name], 2, *more)
        told(f"host and enclaves compute in {'doubles' if name == 'd' else 'singles'} as each does alone", said == FLOATS, said if said != FLOATS else "")
    for name, more in (("no floating point", "f=off,d=off"), ("floats in its integer registers", "f=off,d=off,zfinx=on")):
        said = booted(FIRMWARE / "out/pmpmon-virt.elf", FIRMWARE / "out/host.elf", 1, "-cpu", f"rv64,{more}")
        told(f"a host in C on a hart with {name}", said == HOST, said if said != HOST else "")
    for left, (name, edit, want) in LEFT_OUT.items():
        said = booted(edited(folder / "two.toml", folder / f"floats-{left}", edit), payloads["d"], 2)
        told(f"without {name} others come out", want in said, said if want not in said else "")


# What a host and two enclaves find that have numbers of their own in their registers.
SETS = "made 1\nmade 2\nrun 1: 1 0\nrun 2: 1 0\nresume 1: 0 256\nrun what has exited 1: -111 0\nresume 2: 0 512\ndestroy 1: 0 0\nmade 1\n"
SETS += "run 1: 1 0\ndestroy what has stopped 1: 0 0\nmade 1\nrun 1: 1 0\nresume 1: 0 256\nwrong 0\n"
# A build for a try leaves out a kind of change of a register set, all zeros, or whose set is which (firmware/registers.c).
SET_OF = "world ? MOST_HARTS - 1 + world : hart"


def but(kind):
    """The edit that leaves out a kind of change."""
    return "registers.c", "if (it->kind)", f"if (it->kind && it->kind != {kind})"


REGISTERS_LEFT_OUT = {"the way past a call": ([but("PAST_CALL")], "the board did not end"), "a0 and a1 of an answer": ([but("TWO_WORDS")], "run 1: 1 1\n")}
REGISTERS_LEFT_OUT |= {"a first entry": ([but("FIRST_ENTRY")], "resume 1: 1 0\n"), "a set of each enclave": ([("board.h", SET_OF, "world ? MOST_HARTS + 0 * world : hart")], "resume 1: 1 0\n")}
REGISTERS_LEFT_OUT |= {"the zeros of a set": ([("registers.c", "set->x[n] = 0;", ";"), ("registers.c", "memset(set, 0, sizeof *set);", ";")], "run 1: 0 7\n")}


def sets(folder, told):
    """Registers of a host and its enclaves; and builds in which something of them is left out."""
    payload = host(folder / "sets.elf", "harts.S", "sets.S", "sets.c")
    said = booted(FIRMWARE / "out/pmpmon-virt.elf", payload, 1)
    told("a host and two enclaves have registers of their own, which an enclave begins with zeros", said == SETS, said if said != SETS else "")
    for number, (name, (edits, want)) in enumerate(REGISTERS_LEFT_OUT.items()):
        said = booted(edited(FIRMWARE / "platform.toml", folder / f"sets-{number}", *edits), payload, 1, seconds=10)
        told(f"without {name} others come out", want in said, said if want not in said else "")
    image = edited(folder / "two.toml", folder / "sets-hosts", ("board.h", SET_OF, "world ? MOST_HARTS - 1 + world : 0 * hart"))
    said = booted(image, folder / "two_hosts.elf", 2, seconds=10)
    told("without a set of the host of each hart two hosts go wrong", said != TWO_HOSTS, said if said == TWO_HOSTS else "")


def boards(folder, told):
    """One image on boards of other harts and memory, of which the host gets what is there; and boards that lack what it wants."""
    payload = FIRMWARE / "out/host.elf"
    built(TOP / "examples/linux/platform.toml", folder / "any")
    built(TOP / "examples/linux/platform.toml", folder / "pool", pool="0x83000000,0x1000000")
    for harts, memory in ((1, "128"), (2, "1G"), (3, "3G"), (5, "200")):
        said = booted(folder / "pool/pmpmon-virt.elf", payload, harts, "-m", memory)
        told(f"one image on a board of {harts} harts and {memory} of memory", said == HOST, said if said != HOST else "")
    said = booted(folder / "any/pmpmon-virt.elf", payload, 1, "-m", "64")
    right = "\nhost: create: -105 0\n" in said and said.endswith("\nhost: a call that there is not: -2 0\n")
    told("memory of the platform that is not there is no memory", right, "" if right else said)
    said = booted(folder / "pool/pmpmon-virt.elf", payload, 1, "-m", "32")
    right = said == "monitor: the board has no memory for the pool of enclaves, 0x0000000083000000\n"
    told("a board without memory for the pool stops, and says so", right, "" if right else said)
    for pool in ("0x83000800,0x1000", "0x83000000", "0x83000000,0", "all,0x1000"):
        done = subprocess.run([FIRMWARE / "build"], env={**os.environ, "POOL": pool}, capture_output=True, text=True)
        right = done.returncode == 2 and done.stderr.startswith("firmware: POOL is ")
        told(f"POOL={pool} is refused", right, "" if right else done.stderr)


def own_tree(program, folder, told):
    """The platform that the program makes of the board's own device tree, and a host above the monitor with it."""
    tree = folder / "virt.dtb"
    subprocess.run([on_hart_module().QEMU, "-machine", f"virt,dumpdtb={tree}", "-m", "128", "-display", "none"], check=True, capture_output=True)
    subprocess.run([FIRMWARE / "build", tree, folder / "own"], check=True, env={**os.environ, "PMPMON": program, "IMAGE": "pmpmon-virt.elf"})
    said = booted(folder / "own/pmpmon-virt.elf", FIRMWARE / "out/host.elf", 1)
    told("the platform of the board's own device tree boots its host", said == HOST, said if said != HOST else "")
    # The guide's session goes on without the devices that reach all of memory.
    edit = re.search(r"(?m)^(sed -i .*) firmware/out/platform\.toml$", (TOP / "docs/guide/maps.md").read_text()).group(1)
    subprocess.run([*shlex.split(edit), folder / "own/platform.toml"], check=True)
    warned = subprocess.run([program, "lint", folder / "own/platform.toml"], capture_output=True, text=True).stdout
    told("the guide's edits leave no device that reaches all of memory", warned == "", warned)
    built(folder / "own/platform.toml", folder / "less")
    said = booted(folder / "less/pmpmon-virt.elf", FIRMWARE / "out/host.elf", 1)
    told("without these devices the board boots its host", said == HOST, said if said != HOST else "")


# Which devices a host does not reach, of the shipped platform and of the wide one.
CLOSED = dict.fromkeys(("finisher", "clint", "virtio", "fw_cfg", "flash", "pcie"), 5) | dict.fromkeys(("rtc", "plic", "serial"), 0)
WIDE = dict.fromkeys(CLOSED, 0) | {"finisher": 5, "clint": 5}
# The counters: the time is read, and of the others the instruction is illegal.
COUNTERS = "time 0\ncycle 2\ninstret 2\n"
OPEN_NODES = {"rtc@101000", "serial@10000000", "plic@c000000"}


def host_tree(image, payload, harts):
    """The device tree that a host gets, as its source: QEMU puts it into the last megabytes of memory."""
    with Wired(image, payload, harts, kind=5) as board:
        board.until("it waits\n")
        memory = (board.place / "memory").read_bytes()
    at = next(it for it in range(0x7E00000, 0x8000000, 4096) if memory[it : it + 4] == b"\xd0\x0d\xfe\xed")
    return subprocess.run(["dtc", "-q", "-I", "dtb", "-O", "dts"], input=memory[at : at + int.from_bytes(memory[at + 4 : at + 8], "big")], capture_output=True).stdout.decode()


def devices(folder, told):
    """A host reaches what its platform gives it alone, and its tree says so."""
    payload = host(folder / "closed.elf", "harts.S", "reset_enclave.S", "closed.c")
    built(FIRMWARE / "platform-wide.toml", folder / "wide")
    for name, image, want in (("the shipped", FIRMWARE / "out/pmpmon-virt.elf", CLOSED), ("the wide", folder / "wide/pmpmon-virt.elf", WIDE)):
        said = booted(image, payload, 1)
        found = {it.rsplit(" ", 1)[0]: int(it.rsplit(" ", 1)[1]) for it in said.splitlines()}
        right = all(found.get(it) == cause for it, cause in want.items())
        told(f"a host on {name} platform reaches {', '.join(it for it, cause in want.items() if not cause)} alone", right, "" if right else said)
        told(f"a host on {name} platform reads no counter but the time", said.endswith(COUNTERS), "" if said.endswith(COUNTERS) else said)
    said = booted(folder / "with/pmpmon-virt.elf", host(folder / "clock.elf", "harts.S", "clock_enclave.S", "clock.c"), 2)
    told("an enclave reads the time where its host's programs do, and no other counter", said == CLOCK, said if said != CLOCK else "")
    if not shutil.which("dtc"):
        return
    tree = host_tree(folder / "with/pmpmon-virt.elf", folder / "reset-2.elf", 3)
    nodes = re.findall(r"\n\t+([\w-]+@[0-9a-f]+|poweroff|reboot) \{((?:\n\t+[^\n{}]*;)*)", tree)
    open_nodes = {name for name, body in nodes if 'status = "disabled"' not in body}
    want = OPEN_NODES | {"memory@80000000", "platform-bus@4000000", "cpu@0", "cpu@1", "monitor@80000000"}
    told("the tree of a host on two of three harts names these, its memory and its devices as its own alone", open_nodes == want and "cpu@2" in dict(nodes), str(open_nodes ^ want))


def storm(folder, told):
    """Four harts of a host that do at random what may race, for STORM_SECONDS (2, or as the environment has it)."""
    four = folder / "four.toml"
    four.write_text((FIRMWARE / "platform.toml").read_text().replace("harts = 1\n", "harts = 4\n"))
    built(four, folder / "four")
    payload = host(folder / "storm.elf", "harts.S", "two_hosts.S", "storm.c", flags=("-DHARTS=4",))
    seconds = int(os.environ.get("STORM_SECONDS", "2"))
    said = booted(folder / "four/pmpmon-virt.elf", payload, 4, *kind(seconds), seconds=60 + 4 * seconds)
    turns = [int(it) for it in re.findall(r"turns (\d+)", said)]
    right = said.endswith("stood still 0\nwrong 0\nodd 0\n") and min(turns, default=0) and "made 0\n" not in said
    told(f"a storm of {seconds} seconds on four harts: {' '.join(map(str, turns))} turns", right, "" if right else said)


ENTRY, MPRV, TRIGGERS, RULES, INTERRUPTS = range(1, 6)


def earlier(folder, kind, left=0, boot=0):
    """QEMU's flash with a stage before the monitor, which leaves something behind (earlier.S)."""
    elf, flash = folder / f"earlier-{kind}-{left:x}.elf", folder / f"earlier-{kind}-{left:x}.bin"
    words = [f"-Wa,--defsym,{name}={number:#x}" for name, number in (("KIND", kind), ("LEFT", left), ("BOOT", boot))]
    subprocess.run([GCC, *FLAGS, *words, "-Wl,-Ttext=0x20000000", "-Wl,--build-id=none", "-o", elf, HERE / "earlier.S"], check=True)
    subprocess.run([GCC.replace("gcc", "objcopy"), "-O", "binary", elf, flash], check=True)
    with flash.open("r+b") as file:
        file.truncate(32 << 20)
    return "-drive", f"if=pflash,unit=0,format=raw,file={flash}"


def stages(folder, told):
    """What an earlier stage leaves behind; harts that lack what the monitor is made of."""
    payload, image = FIRMWARE / "out/host.elf", FIRMWARE / "out/pmpmon-virt.elf"
    rows = [("loads and stores of user mode", MPRV, 0, (), HOST), ("a trigger in the monitor", TRIGGERS, 0, (), HOST), ("an interrupt that comes", INTERRUPTS, 0, ("-icount", "shift=0"), HOST)]
    rules = "monitor: an earlier stage has set MML, MMWP or RLB in mseccfg: hart 0\n"
    rows += [(f"{name} in mseccfg", RULES, bits, ("-cpu", "rv64,x-epmp=true"), want) for name, bits, want in (("nothing", 0, HOST), ("MMWP", 2, rules), ("RLB", 4, rules))]
    for name, kind, left, more, want in rows:
        said = booted(image, payload, 1, *earlier(folder, kind, left, symbol(image, "boot")), *more, seconds=60)
        told(f"an earlier stage that leaves {name}: {'the host runs' if want == HOST else 'the board ends and says so'}", said == want, "" if said == want else said)
    for lacking in ("c", "a", "m"):
        said = booted(image, payload, 1, "-cpu", f"rv64,{lacking}=off", seconds=60)
        told(f"a hart without {lacking.upper()} ends the board and says so", said == "monitor: a hart lacks one of the extensions M, A and C: hart 0\n", said)


# What makes a tree as large as 256 KiB, and how often.
LARGE = {"one property": ("large {{ blob = [" + "ab " * 254000 + "]; }};", 1), "small nodes": ("n{i} {{ a = <{i}>; }};", 8000)}
LARGE |= {"devices": ('device@{i:x}000 {{ reg = <0 0x{i:x}000 0 0x1000>; compatible = "vendor,device-{i}"; status = "okay"; interrupts = <1 {i} 4>; }};', 2050)}


def large_trees(folder, told):
    """Trees of 256 KiB boot."""
    if not shutil.which("dtc"):
        return
    tree = folder / "large.dtb"
    subprocess.run([on_hart_module().QEMU, "-machine", f"virt,dumpdtb={tree}", "-m", "128", "-display", "none"], check=True, capture_output=True)
    text = subprocess.run(["dtc", "-q", "-I", "dtb", "-O", "dts", tree], capture_output=True, text=True, check=True).stdout
    for name, (node, count) in LARGE.items():
        source = text[: text.rindex("};")] + "".join(node.format(i=i) for i in range(count)) + "};"
        subprocess.run(["dtc", "-q", "-I", "dts", "-O", "dtb", "-o", tree], input=source.encode(), check=True)
        said = booted(FIRMWARE / "out/pmpmon-virt.elf", FIRMWARE / "out/host.elf", 1, "-dtb", str(tree))
        told(f"a device tree of {tree.stat().st_size} bytes with {name} boots", said == HOST and tree.stat().st_size > 255000, said[:300])


# What a host says whose other hart takes no interrupt.
LATE = "its own fence 0\nthat of the other hart -1\nmonitor: waits for a hart to stop: hart 1\n"


def ends(folder, told):
    """Boards and stages that do not fit end with their reason: other entries, a hart that does not stop, a stack that is full."""
    payload, image = FIRMWARE / "out/host.elf", FIRMWARE / "out/pmpmon-virt.elf"
    other = "monitor: the entries of a hart are not those of the platform: hart 0\n"
    wide = folder / "64.toml"
    wide.write_text("entries = 64\n" + (FIRMWARE / "platform.toml").read_text())
    built(wide, folder / "64")
    rows = [("an entry that was left open", image, earlier(folder, ENTRY, 0x1F), HOST), ("an entry that was locked", image, earlier(folder, ENTRY, 0x9F), other)]
    rows += [("a hart without entries", image, ("-cpu", "rv64,pmp=false"), other), ("sixteen entries where the platform has 64", folder / "64/pmpmon-virt.elf", (), other)]
    for name, firmware, more, want in rows:
        said = booted(firmware, payload, 1, *more)
        told(f"{name}: {'the host runs' if want == HOST else 'the board ends and says so'}", said == want, "" if said == want else said)
    late = edited(folder / "two.toml", folder / "late", ("harts.c", " ::: \"memory\");\n    software_interrupt[hart] = 1;\n}\n\n/* They", "::: \"memory\");\n    (void)hart;\n}\n\n/* They"), ("harts.c", "TEN_SECONDS 100000000ul", "TEN_SECONDS 10000000ul"))
    with Wired(late, host(folder / "late.elf", "harts.S", "two_hosts.S", "late.c"), 2) as board:
        # (the host then ends the board, which waits for the hart that does not stop)
        right = board.until("monitor: waits for a hart to stop: hart 1\n") and board.said == LATE
        told("a fence that does not come in time is an error of the call, and a board does not end before its harts stop", right, "" if right else board.said)
    with Wired(image, folder / "reset-1.elf", 1, kind=5) as board:
        board.until("it waits\n")
        board.written(symbol(image, "stack_guard"), bytes(8))
        right = board.has_ended() and board.said.endswith("monitor: the stack is full on hart 0\n")
        told("a stack that has grown into its guard ends the board", right, "" if right else board.said)
    said = subprocess.run(["riscv64-unknown-elf-readelf", "-lW", image], capture_output=True, text=True).stdout
    flags = re.findall(r"  LOAD .*0x[0-9a-f]+ ([RWE ]{3}) 0x", said)
    told("no segment of the image is both written and executed", flags == ["R E", "R  ", "RW "], str(flags))


# What four harts find of fences, of the table of pages at a start, and of interrupts: 4 is one that came after the start.
QUARTET = "to harts that are not started 0\n" + 2 * "".join(f"hart {it}: its table, and what waited 4\n" for it in (1, 2, 3)) + "a page that was closed meanwhile: fault 5\nfences that did not come 0\nown fences that did not come 0\n"
# Why enclaves stop, and the address that their host learns: a closed counter, a store to its code, a jump to its data, and so on (causes_enclave.S).
CAUSES = "".join(f"{cause} {value:#018x}\n" for cause, value in ((2, 0), (7, 0), (1, 0), (5, 0x85002008), (1, 0x10000000), (3, 0)))
VECTORS = "run 1\nwhat it exits with 0\nthe cause 2\nthe host's 6210279\nVS 3\n"


# Each interrupt that a host sends goes to hart 1 too, started or not: as if hart 1 had stopped since the core looked.
SENDS_MORE = ("traps.c", "interrupt_harts(action->subject);", "interrupt_harts(action->subject | 2);")


def quartet(folder, told):
    """What four harts ask of one another, harts that are late, and what a host learns of an enclave."""
    image, four = folder / "with/pmpmon-virt.elf", folder / "four/pmpmon-virt.elf"
    payload = host(folder / "quartet.elf", "harts.S", "two_hosts.S", "quartet.c")
    said = booted(four, payload, 4, seconds=120)
    told("each of four harts gets its fences and interrupts, and starts without a table of pages", said == QUARTET, said)
    said = booted(edited(folder / "four.toml", folder / "sends", SENDS_MORE), payload, 4, seconds=120)
    told("an interrupt that comes to a hart as it stops is gone when it starts", said == QUARTET, said)
    said = booted(image, host(folder / "zeros.elf", "harts.S", "two_hosts.S", "zeros.c"), 2, seconds=120)
    told("what another hart reads first of a destroyed enclave is zero", said == 4 * "others than zero 0\n", said)
    said = booted(image, host(folder / "causes.elf", "harts.S", "causes_enclave.S", "causes.c"), 1, seconds=60)
    told("a host learns no address or instruction of an enclave's own", said == CAUSES, said)
    said = booted(image, host(folder / "vectors.elf", "harts.S", "vectors.S", "vectors.c"), 1, "-cpu", "rv64,v=true", seconds=60)
    told("an enclave reads no vector register, and the host keeps its own", said == VECTORS, said)
    rows = [("a hart that does not run for eleven seconds is waited for", late_hart, image, folder / "race.elf")]
    rows += [("a hart that stops is at no moment one that is about to start", state_of_stopping_hart, four, payload)]
    rows += [("memory types are closed to the host", memory_types, FIRMWARE / "out/pmpmon-virt.elf", folder / "reset-1.elf")] if shutil.which("dtc") else []
    for name, look, *words in rows:
        right, why = look(*words)
        told(name, right, "" if right else why)


def kind(number):
    """What a host of harts.h finds as KIND."""
    return "-device", f"loader,addr=0x86001000,data={number},data-len=8"


def races(folder, told):
    """What other harts do while an enclave is made, and what they lose to one that calls for ever."""
    image = folder / "with/pmpmon-virt.elf"
    payload = host(folder / "aliases.elf", "harts.S", "two_hosts.S", "aliases.c")
    for number, name, fault in ((1, "as it is", 5), (2, "through Sv39 at another address", 5), (3, "as a guest", 21)):
        said = booted(image, payload, 2, *kind(number), seconds=60)
        right = said == f"reads before 1\nreads after 0\nfault {fault}\nwhat it reads in the end 0\n"
        told(f"a page that is read {name} while it is made an enclave's faults, and is zero after it", right, "" if right else said)
    said = booted(image, host(folder / "moments.elf", "harts.S", "moments_enclave.S", "moments.c"), 2, seconds=60)
    match = re.fullmatch(r"differ 1\nzeros (\d+)\nones (\d+)\nwrong 0\n", said)
    told("a page that is written while it is measured: the digest is that of the enclave's bytes", match and int(match.group(1)) + int(match.group(2)) == 40, said.replace("\n", " "))
    right, why = measured_page(image, folder / "moments.elf")
    told("while a page is measured no other hart writes it", right, "" if right else why)
    said = booted(image, host(folder / "share.elf", "harts.S", "share_enclave.S", "share.c"), 2, seconds=60)
    counts = {int(it): int(n) for it, n in re.findall(r"call (\d+): counted (\d+)\n", said)}
    right = len(counts) == 4 and "odd" not in said and min(counts.values()) > counts[255] // 4
    told("an enclave that calls for ever takes no other hart's time", right, " ".join(f"{it}: {n}" for it, n in counts.items()) if right else said)
    said = booted(FIRMWARE / "out/pmpmon-virt.elf", host(folder / "pause.elf", "harts.S", "two_hosts.S", "pause.c"), 1, *kind(16), "-icount", "shift=0")
    most = {"create": 16 * 265000, "destroy": 63000, "base": 205, "measure": 635, "resume": 1740}
    taken = {name: int(n) for name, n in re.findall(r"(\w+) (\d+)\n", said)}
    right = taken.pop("error", 1) == 0 and taken.keys() == most.keys() and all(taken[it] < most[it] for it in most)
    told("instructions of a creation of 16 pages, its destruction, calls for SBI's base and a digest, and a resume and stop", right, said.replace("\n", " "))
    image = FIRMWARE / "out/pmpmon-virt.elf"
    taken = costs(board_of(image, host(folder / "costs.elf", "harts.S", "costs_enclave.S", "costs.c"), 1), image)
    told(f"instructions from a trap to the world after it: {', '.join(f'{it} {n}' for it, n in taken.items())}", taken.keys() == MOST.keys() and all(taken[it] <= MOST[it] for it in MOST))


# The most instructions that a trap takes with its world entered after it (firmware/DESIGN.md, "Costs").
MOST = {"run": 1000, "stop": 850, "resume": 900, "measure": 620, "base": 200, "set timer": 210, "timer": 750, "exit": 950}
# The calls of a host by what they are answered, of which those that are done stop another hart; and the turn of a hart in instructions,
# 100 ms of QEMU's time, where it counts them for all harts.
ASIDE = {"no call": 0, "create": 0, "create once more": -106, "create without text": -102, "create off a page": -103, "create of a device": -105}
ASIDE |= {"measure a word that there is not": -112, "destroy none": -110, "destroy": 0, "create without entries": -108}
TURN = 97656


def aside(folder, told):
    """What another hart notices of the calls of a host, of which one makes an enclave of 1,024 pages."""
    payload = host(folder / "aside.elf", "harts.S", "aside_enclave.S", "aside.c")
    said = booted(folder / "four/pmpmon-virt.elf", payload, 4, *kind(1024), "-icount", "shift=10")
    rows = re.findall(r"(.+): (-?\d+), (not )?stopped, still (\d+)\n", said)
    stopped = {name for name, _, left_alone, _ in rows if not left_alone}
    right = {name: int(error) for name, error, _, _ in rows} == ASIDE and stopped == {"create", "destroy"}
    told("a creation and a destruction that are done stop another hart, and no other call does", right, "" if right else said)
    # (its own turn, in which it is stopped, and two of the hart that stops it)
    most = max((int(still) - TURN * (1 if left_alone else 3) for _, _, left_alone, still in rows), default=-1)
    right = len(rows) == len(ASIDE) and most < 50000
    told(f"beside turns of QEMU another hart stands still for at most {most} instructions", right, "" if right else said)
    told("a hart in an enclave is not stopped", said.endswith("in an enclave: stopped 0\n"), "" if rows else said)


# Builds that leave bits of three registers as the host has them, each with what a hostile host left then.
CURES = [("UXL", "UXL 1", ("control.c", "#define UXL (3ul << 32)", "#define UXL 0ul"))]
CURES += [("INTERRUPTS", "a guest's interrupt", ("control.c", "X(mie, mie, ALL)   ", "X(mie, mie, ~0x1444ul)"), ("control.c", "frame->mie = READ(mie);", "frame->mie = READ(mie) & ~0x1444ul;"))]
CURES += [("TABLE_OF_PAGES", "a table of pages", ("control.c", "X(satp, satp, ALL)", "X(satp, satp, 0ul)"))]


def hostile(folder, told):
    """A host that leaves words in the registers of supervisor mode before each entry; three builds without a cure each fail it."""
    runs = os.environ.get("HOSTILE_RUNS", "50")
    payload = host(folder / "hostile.elf", "hostile.S", "hostile.c", flags=("-DSEED=2", f"-DRUNS={runs}"))
    said = booted(FIRMWARE / "out/pmpmon-virt.elf", payload, 1, seconds=600)
    for it in ALONE:
        told(f"under a host that leaves {it} an enclave exits with 42", f"\nwith {it}: 42, interrupted 0\n" in said)
    match = re.fullmatch(r"registers ([\d ]+)\n(?:with .*\n)+interrupted (\d+), with a table (\d+), with a guest's interrupt (\d+)\nwrong 0\n", said)
    how = "interrupted {} times, {} entries with a table of pages, {} with an interrupt of a guest".format(*match.groups()[1:]) if match else said
    told(f"{runs} runs under a hostile host", match and all(int(it) for it in match.groups()[1:]), how)
    told_of = set(re.findall(r"`(\w+)`", (FIRMWARE / "DESIGN.md").read_text().split("## Control registers")[1].split("\n## ")[0]))
    found = [REGISTERS.get(int(it), it) for it in match.group(1).split()] if match else []
    lacking = [it for it in found if it not in told_of]
    told(f"each of {len(found)} registers that supervisor mode writes is in the table of control registers", found and not lacking, " ".join(lacking))
    payload = host(folder / "hostile.elf", "hostile.S", "hostile.c", flags=("-DSEED=2", "-DRUNS=10"))
    for cure, left, *edits in CURES:
        said = booted(edited(FIRMWARE / "platform.toml", folder / cure, *edits), payload, 1)
        right = said.startswith("registers ") and f"\nwith {left}: 42" not in said and "\nwrong 0\n" not in said
        told(f"without the cure for {cure} a hostile host is found", right, "" if right else said)


def host(path, *sources, flags=()):
    """A host of this folder's sources."""
    subprocess.run([GCC, *FLAGS, *flags, "-Wall", "-Wextra", "-Werror", f"-I{FIRMWARE}", f"-I{TOP}/include", f"-Wl,-T,{FIRMWARE}/host/host.ld", "-Wl,--no-relax", "-Wl,--build-id=none",
                    "-Wl,--no-warn-rwx-segments", "-o", path, *(HERE / it for it in sources), FIRMWARE / "uart.c", FIRMWARE / "memory.c"], check=True)
    return path


def sbi(image, folder, told):
    """Each function and each error of the Supervisor Binary Interface, on two harts; sbi_host.txt has what its version 1.0 says."""
    words = "-cpu", "rv64,mvendorid=1,marchid=2,mimpid=3"
    said = booted(image, host(folder / "sbi.elf", "sbi_host.S", "sbi_host.c"), 2, *words).splitlines()
    want = (HERE / "sbi_host.txt").read_text().splitlines()
    wrong = [f"{got} in place of {line}" for got, line in zip(said, want) if got != line] + said[len(want) :] + want[len(said) :]
    told(f"{len(want)} answers of the Supervisor Binary Interface", not wrong, "; ".join(wrong[:5]))


def monitor(program, told):
    on_hart = on_hart_module()
    on_hart.built()
    with tempfile.TemporaryDirectory() as place, ProcessPoolExecutor(1) as beside:
        folder = Path(place)
        orders = beside.submit(all_interleavings)
        header_is_read(told)
        examples(on_hart, program, told)
        trees(folder, told)
        worlds(folder, told)
        start_lines(told)
        own_tree(program, folder, told)
        lives(on_hart, program, folder, told)
        early_ends(folder, told)
        refused_memory(on_hart, folder, told)
        most_taken(on_hart, folder, told)
        for it in orders.result():
            told(*it)
