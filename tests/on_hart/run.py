#!/usr/bin/env python3
"""Has C plan, judge and check, in a program for Linux and on a hart of QEMU's `virt` board; and has the proved monitor run there.

  tests/on_hart/run.py PROGRAM [PART]

PART is `library` or `monitor`, which build apart and can run side by side; otherwise both are tried, one after the other.

On Linux a C program is linked with the library that `./install` puts into a folder, by pkg-config where it is installed. For
each map of examples/, and for some made at random, it plans with 16 and 64 entries, judges accesses and checks the certificate, and is
compared with PROGRAM. Each refusal has to come by its name.

On the hart the same proved module, compiled for RV64 (`tools/module_of`, `tools/retarget`), plans each map that fits sixteen entries,
loads the registers and does the accesses of tests/on_qemu, each of which is compared with what PROGRAM's `judge` answers.
Before that each allocation is refused in turn. Wrong modules are given to `retarget`, which has to refuse them.

The monitor runs on it as firmware (monitor.py): the examples and random lives on one, two and four harts, with calls that
lie, each line as PROGRAM has it, and every register of a world checked across each trap; a host in C; two harts that race, with
the stop of the others and without it; two harts with other control registers each; one image on boards of
other harts and memory; each function and error of the Supervisor Binary Interface; a host and enclaves that compute in floating
point, and builds that leave out a part of it; the time in an enclave; a hostile host, one thing that is left behind, and then everything in fifty runs or HOSTILE_RUNS, and builds that
leave out a cure; what is left of an enclave after each end of the board; devices, counters and the tree that a host gets; boards that
do not fit; pages that other harts read or write while they become an enclave's, as a guest and through Sv39 too; what another hart notices of each call; four harts in a storm
(STORM_SECONDS, or 2); what a debugger sees of harts that it lets go on one by one; a fault at instructions of trap.S (each with EVERY=1); the
orders of two harts at the monitor's lock; and each allocation refused in turn. mutants.py, run by hand, makes mutants of the sources. Device trees get the monitor's range on Linux, under a sanitizer (trees.py;
it wants dtc).

It wants rt, gcc, qemu-system-riscv64, riscv64-unknown-elf-gcc and a clang of the kit that knows RISC-V; on Debian:

  apt-get install --no-install-recommends qemu-system-misc gcc-riscv64-unknown-elf

Where one of the last three is missing it says so, and nothing runs on the hart. The last line that is printed is
'N passed, M failed'.
"""
import importlib.machinery
import importlib.util
import os
import random
import re
import shutil
import subprocess
import sys
import tempfile
from concurrent.futures import ThreadPoolExecutor
from pathlib import Path

sys.dont_write_bytecode = True
sys.path[:0] = [str(Path(__file__).resolve().parent), str(Path(__file__).resolve().parents[1])]
from counting import Count  # noqa: E402
from monitor import monitor  # noqa: E402

TOP = Path(__file__).resolve().parents[2]
HERE = Path(__file__).resolve().parent
CRATE = TOP / "crates" / "planner_for_c"
LINUX = ["gcc", "-std=c11", "-O2", "-Wall", "-Wextra", "-Wpedantic", "-Werror"]
# PMPMON_TRUNCATED, of a certificate without its last byte.
NOTES = {"memory-wrong": 0, "refusals-wrong": 0, "judged-wrong": 0, "cut": 103, "left": 0}
WRONG = {
    "an integer of 32 bits comes out": 'define i32 @pmpmon_wrong(i64 %a) {\n  %b = trunc i64 %a to i32\n  ret i32 %b\n}\n',
    "an integer of 8 bits goes in": 'declare void @rattle_wrong(i64, i8)\ndefine void @pmpmon_wrong(i64 %a) {\n  call void @rattle_wrong(i64 %a, i8 1)\n  ret void\n}\n',
    "an instruction of x86-64 is left": 'define void @pmpmon_wrong() {\n  call void asm sideeffect "mfence", ""()\n  ret void\n}\n',
}
RIGHT = "define i64 @pmpmon_right(i64 %a, ptr %b) {\n  ret i64 %a\n}\n"
counted = Count()
told = counted.told


def on_qemu_module():
    """tests/on_qemu/run.py, whose maps and accesses are used here."""
    loader = importlib.machinery.SourceFileLoader("on_qemu", str(TOP / "tests/on_qemu/run.py"))
    module = importlib.util.module_from_spec(importlib.util.spec_from_loader("on_qemu", loader))
    loader.exec_module(module)
    return module


on_qemu = on_qemu_module()


def said(*words, **more):
    return subprocess.run([str(it) for it in words], capture_output=True, text=True, **more)


def linked(folder):
    """The program for Linux, linked with the installed library, and the flags of the link; or nothing and why."""
    prefix = folder / "prefix"
    done = said(TOP / "install", prefix, "library")
    if done.returncode:
        return None, done.stderr
    flags = [f"-I{prefix}/include", f"-L{prefix}/lib", "-lpmpmon"]
    if shutil.which("pkg-config"):
        asked = said("pkg-config", "--cflags", "--libs", "pmpmon", env={**os.environ, "PKG_CONFIG_PATH": f"{prefix}/lib/pkgconfig"})
        flags = asked.stdout.split()
    program = folder / "from_c"
    done = said(*LINUX, "-o", program, HERE / "from_c.c", HERE / "refusals.c", *flags)
    return (program, flags) if done.returncode == 0 else (None, done.stderr)


def guide_differs(folder, flags):
    """Whether the guide's program in C is compiled and prints what stands below it."""
    section = (TOP / "docs/guide/c-api.md").read_text().split("## From C\n")[1].split("\n## ")[0]
    source, printed = re.search(r"```c\n(.*?)```", section, re.S), re.search(r"```text\n(.*?)```", section, re.S)
    (folder / "map.c").write_text(source.group(1))
    done = said(*LINUX, "-o", folder / "map", folder / "map.c", *flags)
    return done.stderr if done.returncode else "" if said(folder / "map").stdout == printed.group(1) else said(folder / "map").stdout


def headers_are_read():
    """Whether the header is strict C99, C11 and, where there is a compiler, C++11."""
    languages = [("gcc", "c99", "c"), ("gcc", "c17", "c"), ("g++", "c++11", "c++"), ("g++", "c++20", "c++")]
    for compiler, standard, language in languages:
        if shutil.which(compiler):
            flags = [f"-std={standard}", "-Wall", "-Wextra", "-Wpedantic", "-Werror", f"-I{TOP}/include", "-c", "-o", os.devnull, "-x", language, "-"]
            done = said(compiler, *flags, input='#include "pmpmon.h"\n')
            if done.returncode:
                return done.stderr
    return ""


def differs_from_program(program, from_c, path, folder):
    """What C answers otherwise than the program, for one map."""
    wrong = []
    for entries in (16, 64):
        text = said(program, "plan", path, "--entries", entries)
        listed = said(program, "plan", path, "--entries", entries, "--format", "asm")
        want = text.stdout if listed.returncode == 0 else listed.stderr.removeprefix("pmpmon: ").split(",")[0].strip() + "\n"
        got = said(from_c, "plan", path, entries)
        if got.returncode or got.stdout != want:
            wrong.append(f"plan with {entries} entries")
    certificate = folder / f"{path.stem}.pmpc"
    plan = said(program, "plan", path, certificate, "--entries", 64)
    needed = plan.stdout.split("\n")[0].removeprefix("entries ")
    if said(from_c, "check", path, certificate).stdout.strip() != needed:
        wrong.append("check")
    bad = bytearray(certificate.read_bytes())
    chance = random.Random(len(bad))
    for _ in range(8):
        place = chance.randrange(len(bad))
        bad[place] ^= 1 << chance.randrange(8)
        certificate.write_bytes(bad)
        verdict = said(program, "check", path, certificate).stdout.split()
        want = verdict[1] if verdict[0] == "accepted" else str(-100 - int(verdict[1]))
        if said(from_c, "check", path, certificate).stdout.strip() != want:
            wrong.append(f"check of a wrong certificate: {' '.join(verdict)}")
    if int(needed) <= 64:
        trace = folder / f"{path.stem}.trace"
        entries = [{"base": hex(on_qemu.RAM_BASE), "size": 1 << 30}]
        trace.write_text("".join(on_qemu.line_of(it) + "\n" for it in on_qemu.accesses_of(entries)))
        with trace.open() as lines:
            got = said(from_c, "judge", path, stdin=lines).stdout
        if got != said(program, "judge", path, trace, "--entries", 64).stdout:
            wrong.append("judge")
    return wrong


def on_linux(program, maps, folder):
    from_c, flags = linked(folder)
    told("a C program is linked with the installed library", from_c, "" if from_c else flags)
    told("the header is read as C and as C++", not (why := headers_are_read()), why)
    if not from_c:
        return
    told("the guide's program prints what it shows", not (why := guide_differs(folder, flags)), why)
    for path, name in maps:
        wrong = differs_from_program(program, from_c, path, folder)
        told(f"{name}: C plans, checks and judges as the program does", not wrong, ", ".join(wrong))
    count, wrong = said(from_c, "refusals").stdout.split()
    told(f"{count} refusals come by their names, and change nothing", wrong == "0", f"{wrong} are wrong" if wrong != "0" else "")
    told("the setting that makes range 4097 is named", said(from_c, "many").stdout == "-5 4096\n")


def settings_of(path):
    """The map as a table of C."""
    rows = []
    for line in path.read_text().splitlines():
        words = line.split("#")[0].split()
        if words:
            perm = sum({"r": 1, "w": 2, "x": 4}[it] for it in words[2]) if words[2] != "none" else 0
            rows.append(f"    {{{int(words[0], 0):#x}, {int(words[1], 0):#x}, {perm}}},")
    return "static const struct pmpmon_setting settings[] = {\n" + "\n".join(rows) + "\n};\n"


def certificate_of(path):
    """The bytes of a certificate as a table of C."""
    return "static const uint8_t certificate[] = {" + ",".join(map(str, path.read_bytes())) + "};\n"


def answers_of(accesses, answers):
    """The accesses, with what `judge` answers, as a table of C."""
    kinds, rows = {"load": 1, "store": 2, "fetch": 4}, []
    for (kind, mode, size, address), answer in zip(accesses, answers):
        number = 64 if answer == "ok" else int(answer.split()[1])
        rows.append(f"    {{{{{int(mode == 's')}, {kinds[kind]}, {size}, {address:#x}}}, {number}}},")
    return "static const struct {\n    struct pmpmon_access access;\n    int64_t answer;\n} answers[] = {\n" + "\n".join(rows) + "\n};\n"


class Hart:
    """What tests/on_qemu does, on a firmware that plans by itself."""

    def __init__(self, objects):
        self.objects, self.notes, self.judged = objects, {}, on_qemu.judged
        on_qemu.judged, on_qemu.built, on_qemu.booted = self.judged_and_kept, self.built, self.booted
        on_qemu.ABOVE = False

    def judged_and_kept(self, program, path, folder, accesses):
        answers = self.judged(program, path, folder, accesses)
        said(program, "plan", path, folder / "certificate")
        (folder / "settings.h").write_text(settings_of(path) + certificate_of(folder / "certificate"))
        (folder / "answers.h").write_text(answers_of(accesses, answers))
        return answers

    def built(self, folder):
        shutil.copy(HERE / "registers.s", folder / "registers.s")
        image = folder / "firmware.elf"
        place = [f"-Wl,--section-start=.jump={on_qemu.RAM_BASE:#x}", f"-Wl,-Ttext={on_qemu.FIRMWARE:#x}"]
        place += ["-Wl,--build-id=none", "-Wl,--no-warn-rwx-segments", "-Wl,--gc-sections", "-Wl,--no-relax"]
        sources = [TOP / "tests/on_qemu/start.S", TOP / "tests/on_qemu/firmware.c", HERE / "boot.c"]
        more = ["-fno-builtin", f"-DRAM_SIZE={on_qemu.RAM:#x}ul", f"-I{folder}", f"-I{HERE}", f"-I{TOP}/firmware", f"-I{TOP}/include", f"-Wa,-I{folder}"]
        subprocess.run([on_qemu.GCC, *on_qemu.FLAGS, *more, *place, "-o", image, *sources, *self.objects], check=True)
        return image

    def booted(self, image):
        # One instruction takes one tick, so that the hart can count them.
        board = [on_qemu.QEMU, "-machine", "virt", "-icount", "shift=0", "-smp", "1", "-m", str(on_qemu.RAM >> 20)]
        board += ["-display", "none", "-monitor", "none", "-serial", "stdio", "-bios", str(image)]
        try:
            lines = said(*board, stdin=subprocess.DEVNULL, timeout=240).stdout.splitlines()
        except subprocess.TimeoutExpired:
            return [], []
        self.notes[image.parent] = {it.split()[1]: int(it.split()[2]) for it in lines if it.startswith("note ")}
        # They are read back once, where tests/on_qemu wants two readings that are the same.
        registers = [it for it in lines if it.startswith("pmp")]
        return [registers, registers], [it.split(" ", 1)[1] for it in lines if it[:1].isdigit()]

    def tested(self, program, path):
        """How many accesses were compared, how many left out, what was wrong, and what the hart noted."""
        with tempfile.TemporaryDirectory() as place:
            folder = Path(place)
            try:
                count, left, wrong = on_qemu.tested(program, path, folder)
            except subprocess.CalledProcessError as fault:
                return 0, 0, [str(fault)], {}
            notes = self.notes.get(folder, {})
        needed = int(said(program, "plan", path).stdout.split()[1])
        wants = {**NOTES, "needed": needed, "accepted": needed}
        wrong = wrong + [f"{name} {notes.get(name)}" for name, want in wants.items() if notes.get(name) != want]
        wrong += ["no allocation was refused"] if not notes.get("memory-refused") else []
        return count, left, wrong, notes


def compiled(folder):
    """The library, the heap and what compilers call, for RV64."""
    done = said(TOP / "tools/module_of", CRATE, folder / "planner.bc")
    if done.returncode:
        return None, done.stderr
    done = said(TOP / "tools/retarget", folder / "planner.bc", folder / "planner.o")
    if done.returncode:
        return None, done.stderr + done.stdout
    objects = [folder / "planner.o"]
    for source in (TOP / "firmware/heap.c", TOP / "firmware/memory.c", HERE / "refusals.c"):
        made = folder / f"{source.name}.o"
        flags = [it for it in on_qemu.FLAGS if it not in ("-static", "-nostdlib")]
        subprocess.run([on_qemu.GCC, *flags, "-O2", "-fno-builtin", "-fno-tree-loop-distribute-patterns", "-ffunction-sections", "-DHEAP_SIZE=(256ul<<10)",
                        f"-I{TOP}/include", "-c", "-o", made, source], check=True)
        objects.append(made)
    return objects, None


def wrong_modules(folder):
    """`retarget` refuses modules that would be wrong on RV64, and takes one that is not."""
    for number, (name, text) in enumerate({"": RIGHT, **WRONG}.items()):
        module = folder / f"wrong-{number}.ll"
        module.write_text('target triple = "x86_64-unknown-linux-gnu"\n' + text)
        done = said(TOP / "tools/retarget", module, folder / f"wrong-{number}.o")
        if name:
            told(f"a module is refused: {name}", done.returncode and "retarget:" in done.stderr, "" if done.returncode else "it was taken")
        else:
            told("a module with integers of 64 bits is taken", done.returncode == 0, done.stderr)


def on_hart(program, maps, folder, objects, why):
    told("the proved module is compiled for RV64", objects, why)
    wrong_modules(folder)
    if not objects:
        return
    hart, fitting = Hart(objects), []
    for path, name in maps:
        if said(program, "plan", path, "--format", "asm").returncode:
            print(f"left out: {name}: it does not fit the board's sixteen entries")
        else:
            fitting.append((path, name))
    with ThreadPoolExecutor(max_workers=min(4, os.cpu_count() or 1)) as boards:
        done = boards.map(lambda it: hart.tested(program, it[0]), fitting)
        for (_, name), (count, left, wrong, notes) in zip(fitting, done):
            right = count and not wrong
            how = f"{count} accesses as judge has them ({left} left out)" if right else "; ".join(wrong[:5]) or "nothing was compared"
            told(f"{name}, planned on the hart", right, how)
            if right:
                print(f"    {notes['instructions']} instructions, {notes['stack']} bytes of stack, {notes['heap']} of heap, {notes['memory-refused']} allocations refused")


def missing():
    """What a run on the hart wants and has not."""
    tools = [it for it in (on_qemu.QEMU, on_qemu.GCC) if not shutil.which(it)]
    clang = Path(os.path.realpath(shutil.which("rt"))).parents[1] / "toolchain/bin/clang"
    targets = said(clang, "--print-targets").stdout if clang.is_file() else ""
    return tools + ([] if "riscv64" in targets else ["the kit's clang with riscv64"])


def library(program, lacking):
    """The library for C, on Linux and, where nothing lacks, on the hart."""
    with tempfile.TemporaryDirectory() as place:
        folder = Path(place)
        maps = [(path, path.relative_to(TOP)) for path in sorted((TOP / "examples").rglob("*.map"))]
        maps += on_qemu.made_maps(str(program), folder)
        # (the build of the module leaves the library too, so that it is built once)
        objects, why = (None, "") if lacking else compiled(folder)
        on_linux(program, maps, folder)
        if not lacking:
            on_hart(program, maps, folder, objects, why)


def main():
    parts = sys.argv[2:] or ["library", "monitor"]
    lacking = [it for it in ("rt", "gcc") if not shutil.which(it)]
    if lacking:
        print(f"left out: the {' and the '.join(parts)}, for want of {' and '.join(lacking)}")
        print("0 passed, 0 failed")
        return 0
    program = Path(sys.argv[1]).resolve()
    if lacking := missing():
        print(f"left out: what runs on a hart of QEMU, for want of {' and '.join(lacking)}")
        print("          (on Debian: apt-get install --no-install-recommends qemu-system-misc gcc-riscv64-unknown-elf)")
    if "library" in parts:
        library(program, lacking)
    if "monitor" in parts and not lacking:
        monitor(program, told)
    return counted.end()


if __name__ == "__main__":
    sys.exit(main())
