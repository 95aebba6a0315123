#!/usr/bin/env python3
"""Counts the lines of C, assembly and the linker script in firmware/, without blanks and comments: the code that no crate proves.

  tests/documents/firmware_lines.py      prints a row for each file, and the sum

The stand-in for the board in a trace (trace/) and the demonstration host (host/) are not part of any host's firmware, so they are not
counted. tests/documents/run.py compares the table with that of firmware/DESIGN.md, and writes it with --write.
"""
import re
from pathlib import Path

FIRMWARE = Path(__file__).resolve().parents[2] / "firmware"
KINDS = (".c", ".h", ".S", ".ld")


def count(path):
    """Counts the lines of code in a file."""
    text = re.sub(r"/\*.*?\*/", lambda it: "\n" * it.group().count("\n"), path.read_text(), flags=re.S)
    if path.suffix == ".S":
        text = re.sub(r"(?m)#(?!\s*(?:if|ifdef|ifndef|elif|else|endif|define|include)\b).*", "", text)
    return sum(bool(re.sub(r"//.*", "", it).strip()) for it in text.splitlines())


def table():
    """Returns the files with their lines, the largest first, as a Markdown table."""
    counts = {it.name: count(it) for it in FIRMWARE.iterdir() if it.suffix in KINDS}
    rows = [f"| `{name}` | {number} |" for name, number in sorted(counts.items(), key=lambda it: (-it[1], it[0]))]
    return "\n".join(["| File | Lines |", "|---|---|", *rows, f"| all | {sum(counts.values())} |"])


if __name__ == "__main__":
    print(table())
