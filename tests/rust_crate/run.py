#!/usr/bin/env python3
"""Builds and tests the Rust crate in bindings/rust over the library for C.

  tests/rust_crate/run.py PROGRAM

The library is installed into a folder. The crate finds it once by PMPMON_LIB_DIR and once, if pkg-config is installed, by pkg-config; a
build that finds neither stops with a message. `cargo test --offline` runs the tests and the example in the documentation. The output of
the example csrw.rs is compared with what PROGRAM plans, and clippy and rustfmt must have nothing to say if they are installed. Without
cargo or gcc the part is skipped with a message.
"""
import os
import re
import shutil
import subprocess
import sys
import tempfile
from pathlib import Path

TOP = Path(__file__).resolve().parents[2]
sys.dont_write_bytecode = True
sys.path.insert(0, str(TOP / "tests"))
from counting import Count  # noqa: E402

CRATE = TOP / "bindings" / "rust"
MAP = "0x80000000 0x8000000 rwx\n0x80000000 0x200000 none\n"


class Cargo:
    """Runs cargo on the crate, with its output in a folder outside the sources."""

    def __init__(self, folder, **environment):
        clean = {key: value for key, value in os.environ.items() if key not in ("PMPMON_LIB_DIR", "PKG_CONFIG_PATH", "PKG_CONFIG_LIBDIR")}
        self.environment = {**clean, "CARGO_TARGET_DIR": str(folder / "target"), **environment}

    def run(self, *words):
        return subprocess.run(["cargo", *words], cwd=CRATE, env=self.environment, capture_output=True, text=True)


def has(component):
    """Returns whether a component of cargo is installed."""
    return subprocess.run(["cargo", component, "--version"], capture_output=True).returncode == 0


def registers_of(program, folder):
    """Returns the registers that the program plans for the map of the example: their names with their values."""
    (folder / "m.map").write_text(MAP)
    listed = subprocess.run([program, "plan", "m.map"], cwd=folder, capture_output=True, text=True, check=True).stdout.split("\n")
    rows = [line.split() for line in listed[1:] if line]
    found = {f"pmpaddr{row[0]}": int(row[2], 16) for row in rows if len(row) == 3}
    return {**found, **{row[0]: int(row[1], 16) for row in rows if len(row) == 2}}


def loaded(assembly):
    """Returns the registers that assembly loads, without those that get 0."""
    pairs = re.findall(r"li t0, (0x[0-9a-f]+)\ncsrw (\w+), t0\n", assembly)
    return {name: int(value, 16) for value, name in pairs if int(value, 16)}


def main():
    count = Count()
    lacking = [it for it in ("cargo", "gcc") if not shutil.which(it)]
    if lacking:
        print(f"skipped: {' and '.join(lacking)} not installed")
        return count.end()
    with tempfile.TemporaryDirectory() as folder:
        folder = Path(folder)
        made = subprocess.run([TOP / "install", folder / "prefix", "library"], capture_output=True, text=True)
        count.told("the library is installed", made.returncode == 0, made.stderr[-300:])
        version = re.search(r"[0-9.]+", subprocess.run([sys.argv[1], "--version"], capture_output=True, text=True).stdout).group()
        count.told("the crate has the program's version", f'version = "{version}"\n' in (CRATE / "Cargo.toml").read_text())
        cargo = Cargo(folder, PMPMON_LIB_DIR=str(folder / "prefix/lib"))
        tested = cargo.run("test", "--offline")
        totals = re.findall(r"test result: ok\. (\d+) passed; 0 failed", tested.stdout)
        count.told("cargo test", tested.returncode == 0 and sum(map(int, totals)) >= 9, "" if tested.returncode == 0 else (tested.stdout + tested.stderr)[-600:])
        example = cargo.run("run", "--offline", "--example", "csrw")
        planned = {name: value for name, value in registers_of(sys.argv[1], folder).items() if value}
        count.told("the example loads the registers that the program plans", loaded(example.stdout) == planned, example.stderr[-300:] if example.returncode else "")
        if has("clippy"):
            count.told("clippy", cargo.run("clippy", "--offline", "--all-targets", "--", "-D", "warnings").returncode == 0)
        if has("fmt"):
            count.told("rustfmt", cargo.run("fmt", "--check").returncode == 0)
        lost = Cargo(folder, PKG_CONFIG_LIBDIR=str(folder)).run("build", "--offline")
        count.told("a build without the library says what to set", lost.returncode != 0 and "set PMPMON_LIB_DIR" in lost.stderr)
        if shutil.which("pkg-config"):
            found = Cargo(folder, PKG_CONFIG_PATH=str(folder / "prefix/lib/pkgconfig")).run("test", "--offline", "--lib", "--tests")
            count.told("the library is found by pkg-config", found.returncode == 0, found.stderr[-300:] if found.returncode else "")
    return count.end()


sys.exit(main())
