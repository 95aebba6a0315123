#!/usr/bin/env python3
"""Proves facts about the firmware's machine code, on the bytes of the ELF that boots.

  tests/machine_code/run.py [ELF] [OPTION..]    ELF is otherwise firmware/out/pmpmon-virt.elf, which firmware/build makes first

  --fact NAME       this fact alone; may be repeated
  --controls all    the negative controls of each instruction, or `none`; otherwise a fixed random sample for each fact
  --exhaustive      also the cases that take long: three changes of sets at once, and harts that lack any control registers
  --jobs N          processes; 2 otherwise
  --sources FOLDER  the folder from which layouts are read, otherwise firmware/
  --no-crosscheck   without the comparison of the executor with QEMU
  --no-table        without the comparison of README.md here with the ELF and with crates/board/specs/Board.antt

Each fact is a function of facts_*.py, and its docstring says what it proves. A negative control replaces one instruction that the proof
executed by a no-op, and expects the proof to fail; this shows that the fact depends on that instruction. README.md here says which fact
covers which premise of the board and which function of the image, and what is assumed.

It wants Debian's python3-z3, python3-pyelftools, python3-unicorn and gcc-riscv64-unknown-elf. If one is missing it says so, and nothing
runs. The last line that is printed is 'N passed, M failed'.
"""
import argparse
import importlib.util
import os
import random
import resource
import shutil
import subprocess
import sys
import time
from concurrent.futures import ProcessPoolExecutor
from pathlib import Path

sys.dont_write_bytecode = True
HERE = Path(__file__).resolve().parent
TOP = HERE.parents[1]
sys.path[:0] = [str(HERE), str(HERE.parent)]
from counting import Count  # noqa: E402

PACKAGES = {"z3": "python3-z3", "elftools": "python3-pyelftools", "unicorn": "python3-unicorn"}
GCC = "riscv64-unknown-elf-gcc"
SYSTEM_PYTHON = "/usr/bin/python3"
CONTROL_SECONDS = 10
ROUNDS = 200  # of random states for each kind of instruction


def missing():
    """The packages that this Python, or otherwise Debian's, does not have."""
    lacking = [package for module, package in PACKAGES.items() if importlib.util.find_spec(module) is None]
    if lacking and os.path.exists(SYSTEM_PYTHON) and "MACHINE_CODE_PYTHON" not in os.environ:
        os.environ["MACHINE_CODE_PYTHON"] = SYSTEM_PYTHON  # it is tried once
        os.execv(SYSTEM_PYTHON, [SYSTEM_PYTHON, *sys.argv])
    return lacking + ([] if shutil.which(GCC) else ["gcc-riscv64-unknown-elf"])


def arguments():
    parser = argparse.ArgumentParser(add_help=False)
    parser.add_argument("elf", nargs="?")
    parser.add_argument("--fact", action="append", default=[])
    parser.add_argument("--controls", choices=["all", "some", "none"], default="some")
    parser.add_argument("--exhaustive", action="store_true")
    parser.add_argument("--jobs", type=int, default=2)
    parser.add_argument("--sources", default=str(TOP / "firmware"))
    parser.add_argument("--no-crosscheck", action="store_true")
    parser.add_argument("--no-table", action="store_true")
    parser.add_argument("--help", "-h", action="store_true")
    return parser.parse_args()


def built():
    """Builds the ELF, and returns its path and why it could not be built."""
    done = subprocess.run([TOP / "firmware/build"], env={**os.environ, "IMAGE": "pmpmon-virt.elf"}, capture_output=True, text=True)
    return TOP / "firmware/out/pmpmon-virt.elf", done.stderr if done.returncode else ""


class Work:
    """What the processes share: the image, the layouts and the facts."""

    def __init__(self, elf, sources, is_exhaustive):
        import facts
        from layout import Layout
        from rv64 import Image
        self.image, self.layout, self.is_exhaustive = Image(elf), Layout(sources), is_exhaustive
        self.proofs = {proof.__name__: proof for proof in facts.PROOFS}


WORK = None  # set before the processes are forked


def prove(name, patches=None):
    """Proves a fact. Returns the proof, or raises Failed."""
    from proof import Proof
    proof = Proof(WORK.image, WORK.layout, patches)
    proof.is_exhaustive = WORK.is_exhaustive
    WORK.proofs[name](proof)
    return proof


def attempt(name):
    """Proves a fact in a process of its own, and returns what its line says."""
    from rv64 import Failed
    begin = time.process_time()
    try:
        proof = prove(name)
    except Failed as why:
        return name, False, str(why), [], set(), set(), 0
    except Exception as fault:  # an error of the fact itself, as a missing symbol
        return name, False, f"{type(fault).__name__}: {fault}", [], set(), set(), 0
    seconds = time.process_time() - begin
    told = f"{proof.facts} facts on {proof.paths} paths, {len(proof.m.covered)} instructions, {seconds:.1f} s"
    return name, True, told, sorted(proof.m.covered), proof.assumed, proof.kept, seconds


def without(address):
    """The code with a no-op of the same size in place of one instruction."""
    from rv64 import decode
    image = WORK.image
    size = decode(int.from_bytes(image.text[address - image.text_base:][:4], "little")).size
    return {address: b"\x01\0" if size == 2 else b"\x13\0\0\0"}


def survives(job):
    """Whether a fact still holds without an instruction. A proof that is not found in CONTROL_SECONDS of processor time counts as failed."""
    from rv64 import Failed
    name, address = job
    child = os.fork()
    if child == 0:
        resource.setrlimit(resource.RLIMIT_CPU, (CONTROL_SECONDS, CONTROL_SECONDS))
        try:
            prove(name, without(address))
            os._exit(0)
        except (Failed, AttributeError, KeyError, IndexError, StopIteration):
            os._exit(1)
        finally:
            os._exit(2)
    return os.waitstatus_to_exitcode(os.waitpid(child, 0)[1]) == 0


def sample(name, covered, seconds, which):
    """The instructions whose absence is tried: fewer for a fact that takes long."""
    if which == "none":
        return []
    count = len(covered) if which == "all" else 4 if seconds < 1 else 2 if seconds < 3 else 1
    return random.Random(name).sample(covered, min(count, len(covered)))


def main():
    global WORK
    options = arguments()
    if options.help:
        print(__doc__.strip())
        return 0
    if lacking := missing():
        print(f"left out: the proofs of the machine code, for want of {' and '.join(lacking)}")
        print("0 passed, 0 failed")
        return 0
    counted = Count()
    elf, why = (Path(options.elf), "") if options.elf else built()
    if why or not elf.is_file():
        counted.told("the ELF is built", False, why or f"{elf} is not there")
        return counted.end()
    import crosscheck
    import table
    from contracts import contracts_of
    WORK = Work(elf, options.sources, options.exhaustive)
    names = [it for it in WORK.proofs if not options.fact or it in options.fact]
    for name in set(options.fact) - set(names):
        counted.told(name, False, "there is no such fact")
    assumed, kept, covered, tried, survivors, proved = set(), set(), set(), 0, [], set()
    with ProcessPoolExecutor(max_workers=options.jobs) as pool:
        runs = [pool.submit(attempt, name) for name in names]
        checks = [] if options.no_crosscheck or options.fact else [pool.submit(crosscheck.compare, elf, ROUNDS, half) for half in range(2)]
        controls = []
        for run in runs:
            name, holds, told, instructions, assumes, keeps, seconds = run.result()
            counted.told(name, holds, told)
            if holds:
                proved.add(name)
            assumed |= assumes
            kept |= keeps
            covered |= set(instructions)
            controls += [(name, address) for address in sample(name, instructions, seconds, options.controls)]
        for (name, address), survived in zip(controls, pool.map(survives, controls)):
            tried += 1
            if survived:
                survivors.append(f"{name}: {WORK.image.place(address)}")
        if controls:
            for it in survivors:
                print(f"    holds without one of its instructions: {it}")
            counted.told("negative controls: without one of its instructions a fact fails", len(survivors) <= tried * 0.1,
                         f"{tried - len(survivors)} of {tried} do")
        for check in checks:
            for wrong in check.result()[1]:
                print(f"    {wrong}")
        if checks:
            results = [check.result() for check in checks]
            counted.told("the executor agrees with QEMU", not any(it[1] for it in results), " and ".join(it[0] for it in results))
    if not options.fact:
        contracts = contracts_of(WORK.layout)
        open_contracts = [it for it in sorted(assumed - kept) if not contracts[it].reason]
        counted.told("each contract that is assumed of a callee is proved of it, or has a reason", not open_contracts, ", ".join(open_contracts))
        if not options.no_table:
            for what, faults in table.compare(WORK.image, proved):
                counted.told(what, not faults, "; ".join(faults[:12]))
    print(f"{len(covered)} instructions were executed")
    return counted.end()


if __name__ == "__main__":
    sys.exit(main())
