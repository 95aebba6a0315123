#!/usr/bin/env python3
"""Counts the crates that a command goes through, and the calls from one crate into another.

  bench/walks.py COMMAND ..    as bench/walks.py "plan host.map" "run board.toml life.trace"

Each COMMAND is the words of one call of the program, whose files are in the current folder. For each it prints a line: how many
crates have a function that was called, how many functions of crates were called, how many of their calls led into another crate
(a caller and a callee count once), how many pairs of crates these join, and the crates.

The program is what `rt try` lowers, built without optimisation, so no call is gone. `valgrind` follows the calls. A call that
leads through the kit's libraries, as to a closure or by a trait, counts as one of the crate that made it.
"""
import re
import shutil
import subprocess
import sys
import tempfile
from collections import defaultdict
from pathlib import Path

TOP = Path(__file__).resolve().parents[1]
CRATES = {it.name for it in (TOP / "crates").iterdir()}
KIT = Path(shutil.which("rt")).resolve().parents[1]
TARGET = "x86_64-unknown-linux-gnu"


def build(folder):
    """The program without optimisation, in that folder."""
    module, made, program = f"{folder}/M.bc", f"{folder}/M.o", f"{folder}/program"
    tools = KIT / "toolchain"
    subprocess.run([TOP / "tools/module_unproved", TOP / "crates/pmpmon", module], check=True)
    subprocess.run([tools / "bin/clang", "--no-default-config", f"--target={TARGET}", "-x", "ir", module, "-O0", "-c", "-o", made], check=True)
    libraries = [KIT / "c/libos_c.a", KIT / "c/liblibc_c.a"]
    subprocess.run([KIT / "bin/rattle-link", "--target", TARGET, "--toolchain", tools, "-o", program, made, *libraries], check=True, stdout=subprocess.DEVNULL)
    return program


def calls(profile):
    """Who called whom, by their names, from what callgrind wrote. It writes a name once, and then its number."""
    names, caller, found = {}, None, defaultdict(set)

    def named(text):
        number, name = re.match(r"\((\d+)\)(?: (.*))?", text).groups()
        return names.setdefault(number, name)

    for line in profile.read_text(errors="replace").split("\n"):
        if line.startswith("fn="):
            caller = named(line[3:].strip())
            found[caller]
        elif line.startswith("cfn="):
            found[caller].add(named(line[4:].strip()))
    return found


def crate_of(function):
    """The crate of this repository that has a function, if one has."""
    name = re.match(r"<?(\w+)::", function)
    return name[1] if name and name[1] in CRATES else None


def into_others(found, function):
    """The functions of other crates that a function calls, itself or through the kit's libraries."""
    seen, left = set(), list(found.get(function, ()))
    while left:
        callee = left.pop()
        if callee in seen:
            continue
        seen.add(callee)
        if crate_of(callee) is None:
            left += found.get(callee, ())
        elif crate_of(callee) != crate_of(function):
            yield callee


def walk(program, words, folder):
    """The line of a command."""
    profile = Path(folder, "profile")
    subprocess.run(["valgrind", "--tool=callgrind", f"--callgrind-out-file={profile}", program, *words], capture_output=True)
    found = calls(profile)
    functions = {it for caller, callees in found.items() for it in (caller, *callees) if crate_of(it)}
    across = {(it, callee) for it in functions for callee in into_others(found, it)}
    crates = sorted({crate_of(it) for it in functions})
    pairs = {(crate_of(one), crate_of(other)) for one, other in across}
    return f"{' '.join(words)}: {len(crates)} crates, {len(functions)} functions, {len(across)} calls into another crate, {len(pairs)} pairs: {' '.join(crates)}"


def main():
    if len(sys.argv) < 2:
        sys.exit(__doc__)
    with tempfile.TemporaryDirectory() as folder:
        program = build(folder)
        for command in sys.argv[1:]:
            print(walk(program, command.split(), folder))


if __name__ == "__main__":
    main()
