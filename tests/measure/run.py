#!/usr/bin/env python3
"""Compares the output of `measure` with two other implementations: examples/linux/digest.py, on ELF files, and `run --measure`, on an
enclave into which a host stores the same bytes. Also tests what digest.py refuses.

  tests/measure/run.py PROGRAM

The files are random, with a fixed seed. The last line printed is 'N passed, M failed'.
"""
import hashlib
import random
import struct
import subprocess
import sys
import tempfile
from pathlib import Path

sys.path.insert(0, str(Path(__file__).resolve().parents[1]))
sys.dont_write_bytecode = True
from counting import Count  # noqa: E402

TOP = Path(__file__).resolve().parents[2]
PAGE = 4096
PLATFORM = "[monitor]\nbase = 0x80000000\nsize = 0x200000\n[[ram]]\nbase = 0x80000000\nsize = 0x8000000\n"
BASE, SHARED = 0x80200000, 0x80400000
SHARED_AT = 0x400000  # as in enclave.ld


def elf(text, data, pages, entry):
    """Returns an ELF for RV64 with text, data and shared pages, laid out as by enclaves/enclave.ld."""
    offset = 64 + 3 * 56
    header = b"\x7fELF\x02\x01\x01" + bytes(9) + struct.pack("<2HL3QL6H", 2, 243, 1, entry, 64, 0, 0, 64, 56, 3, 0, 0, 0)
    rows = struct.pack("<2L6Q", 1, 5, offset, 0, 0, len(text), pages[0] * PAGE, PAGE)
    rows += struct.pack("<2L6Q", 1, 6, offset + len(text), pages[0] * PAGE, 0, len(data), pages[1] * PAGE, PAGE)
    rows += struct.pack("<2L6Q", 0x6D706D70, 6, 0, SHARED_AT, 0, 0, pages[2] * PAGE, PAGE)
    return header + rows + text + data


def measured(program, file, pages, entry):
    """Returns the digest and the words that `measure` prints."""
    words = [program, "measure", file, "--text", str(pages[0]), "--data", str(pages[1]), "--shared", str(pages[2]), "--entry", str(entry)]
    lines = subprocess.run(words, check=True, capture_output=True, text=True).stdout.split("\n")
    return lines[0].removeprefix("digest "), [int(line.split()[2], 0) for line in lines[1:5]]


def ran(program, folder, image, pages, entry):
    """Returns the digest that `run --measure` prints for an enclave into whose pages a host stores these bytes."""
    stores = [f"store s 8 {BASE + at:#x} {value:#x}" for at in range(0, len(image), 8) if (value := struct.unpack_from("<Q", image, at)[0])]
    create = f"ecall 0x08454E43 0 {BASE:#x} {pages[0]} {pages[1]} {SHARED:#x} {pages[2]} {entry}"
    (folder / "platform.toml").write_text(PLATFORM)
    (folder / "trace").write_text("\n".join([*stores, create, ""]))
    words = [program, "run", folder / "platform.toml", folder / "trace", "--measure"]
    return subprocess.run(words, check=True, capture_output=True, text=True).stdout.split("\n")[-2].removeprefix("measure 1 ")


def compare(program, folder, made, count):
    """Compares the digests of one file: by `measure`, by digest.py, by `run` and by the definition in docs/formats/calls.md."""
    pages = made.randrange(1, 4), made.randrange(1, 3), made.randrange(1, 3)
    entry = 2 * made.randrange(pages[0] * PAGE // 2)
    text, data = made.randbytes(pages[0] * PAGE - made.randrange(PAGE)), made.randbytes(made.randrange(1, 300))
    image = text.ljust(pages[0] * PAGE, b"\0") + data
    (folder / "image").write_bytes(image)
    (folder / "file.elf").write_bytes(elf(text, data, pages, entry))
    digest, words = measured(program, folder / "image", pages, entry)
    name = f"{pages[0]} + {pages[1]} pages, {pages[2]} shared, entry {entry:#x}"
    whole = image.ljust((pages[0] + pages[1]) * PAGE, b"\0")
    by_definition = hashlib.sha256(struct.pack("<4Q", *pages, entry) + whole)
    count.note(digest == by_definition.hexdigest(), f"by its definition: {name}", digest)
    count.note(words == list(struct.unpack("<4Q", by_definition.digest())), f"its words: {name}", str(words))
    by_script = subprocess.run([TOP / "examples/linux/digest.py", folder / "file.elf"], check=True, capture_output=True, text=True)
    count.note(digest == by_script.stdout.strip(), f"by examples/linux/digest.py: {name}", by_script.stdout)
    count.note(digest == ran(program, folder, whole, pages, entry), f"by run --measure: {name}")


def refusals(folder, count):
    """Checks files that digest.py must refuse, because no monitor would measure them."""
    text, data, at = bytes(PAGE), bytes(8), 64 + 56 + 16
    file = elf(text, data, (1, 1, 1), 0)
    rows = {"no words": None, "a file that is cut": file[:100], "data at another place": file[:at] + struct.pack("<Q", 0x8000) + file[at + 8 :]}
    rows |= {"an entry after the text": elf(text, data, (1, 1, 1), PAGE), "1,025 pages": elf(text, data, (1, 1024, 1), 0), "no shared page": elf(text, data, (1, 1, 0), 0)}
    for name, bytes_ in rows.items():
        (folder / "file.elf").write_bytes(bytes_ or b"")
        done = subprocess.run([TOP / "examples/linux/digest.py", *([folder / "file.elf"] if bytes_ else [])], capture_output=True, text=True)
        right = done.returncode == 1 and not done.stdout and done.stderr.startswith(("digest.py: ", "usage: "))
        count.note(right, f"digest.py refuses {name}", done.stdout + done.stderr)


def main():
    program = Path(sys.argv[1]).resolve()
    count, made = Count(), random.Random(80)
    with tempfile.TemporaryDirectory() as folder:
        for _ in range(5):
            compare(program, Path(folder), made, count)
        refusals(Path(folder), count)
    return count.end()


if __name__ == "__main__":
    sys.exit(main())
