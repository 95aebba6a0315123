#!/usr/bin/env python3
"""The digest that the monitor measures for an enclave's file, computed from the file.

  examples/linux/digest.py ENCLAVE.elf
  examples/linux/digest.py ENCLAVE.elf OUT.bin      it also writes the bytes of text and data, and prints how `pmpmon measure`, which
                                                    is proved, is asked for the same digest

A file that is no enclave, as enclave.ld makes one, is refused. It is SHA-256 over four 64-bit numbers, the lowest byte first: text pages, data pages, shared pages and the entry offset; then the
bytes of text and data in whole pages (docs/formats/calls.md, "Calls of the monitor").
"""
import hashlib
import struct
import sys
from pathlib import Path

PAGE, PT_LOAD, PT_SHARED, EXECUTE = 4096, 1, 0x6D706D70, 1
MOST_PRIVATE, MOST_SHARED, SHARED_AT = 1024, 256, 0x400000


def parts_of(file):
    """Text, data and shared pages of an ELF: each as its offset, address, bytes in the file and in memory."""
    if len(file) < 64 or file[:5] != b"\x7fELF\x02" or struct.unpack_from("<H", file, 18)[0] != 243:
        sys.exit("digest.py: no ELF for RV64")
    at, (size, count) = struct.unpack_from("<Q", file, 32)[0], struct.unpack_from("<2H", file, 54)
    found = {}
    for i in range(count if size == 56 and at + count * size <= len(file) else 0):
        kind, flags, offset, address, _, in_file, in_memory, _ = struct.unpack_from("<2L6Q", file, at + i * size)
        name = "shared" if kind == PT_SHARED else "" if kind != PT_LOAD else "text" if flags & EXECUTE else "data"
        if name and (name in found or offset + in_file > len(file) or in_file > in_memory):
            break
        if name:
            found[name] = offset, address, in_file, in_memory
    else:
        if len(found) == 3:
            return found
    sys.exit("digest.py: no enclave: text, data or shared pages are missing (examples/linux/enclaves/enclave.ld)")


def fault_of(parts, pages, entry):
    """Why pmpmon-run would refuse it, or None: the digest would be none that a monitor measures."""
    text, data, shared = pages["text"], pages["data"], pages["shared"]
    if not text or text + data > MOST_PRIVATE:
        return f"{text} pages of text and {data} of data: an enclave has 1 to {MOST_PRIVATE} pages, of which one is text"
    if not 1 <= shared <= MOST_SHARED:
        return f"{shared} shared pages: an enclave has 1 to {MOST_SHARED} (PMPMON_SHARED_PAGES of enclave.ld)"
    if entry % 2 or entry >= text * PAGE:
        return f"its entry, {entry:#x}, is odd or outside its text: link it with -Wl,-T,enclave.ld"
    if [parts[it][1] for it in ("text", "data", "shared")] != [0, text * PAGE, SHARED_AT]:
        return "its parts are at other places than enclave.ld gives them: link it with -Wl,-T,enclave.ld"
    return None


def main():
    if len(sys.argv) not in (2, 3):
        sys.exit("usage: digest.py ENCLAVE.elf [OUT.bin]")
    try:
        file = Path(sys.argv[1]).read_bytes()
    except OSError as fault:
        sys.exit(f"digest.py: {sys.argv[1]}: {fault.strerror}")
    parts, entry = parts_of(file), struct.unpack_from("<Q", file, 24)[0]
    pages = {name: -(-it[3] // PAGE) for name, it in parts.items()}
    if fault := fault_of(parts, pages, entry):
        sys.exit(f"digest.py: {fault}")
    image = bytearray((pages["text"] + pages["data"]) * PAGE)
    for name in ("text", "data"):
        offset, address, size, _ = parts[name]
        image[address : address + size] = file[offset : offset + size]
    print(hashlib.sha256(struct.pack("<4Q", pages["text"], pages["data"], pages["shared"], entry) + image).hexdigest())
    if len(sys.argv) > 2:
        Path(sys.argv[2]).write_bytes(image)
        print(f"pmpmon measure {sys.argv[2]} --text {pages['text']} --data {pages['data']} --shared {pages['shared']} --entry {entry}")


if __name__ == "__main__":
    main()
