#!/usr/bin/env python3
"""Boots Debian's U-Boot on the monitor's firmware, types at its prompt, and compares with the session of docs/guide/enclaves.md.

  tests/on_uboot/run.py

U-Boot is an independent host. Each line after `=> ` in the section "An enclave from a prompt in ten minutes" is typed, and the output
must be the lines below it; `...` matches any lines. The two lines that U-Boot's `go` prints around each program are omitted. The
digest is also computed from the enclave's bytes here. Then U-Boot boots with -kernel, and on a board with two harts; and it creates and
runs the enclave in C of examples/linux/enclaves, whose digest is the one that examples/linux/digest.py computes for the file.

The test requires qemu-system-riscv64, riscv64-unknown-elf-gcc, make and u-boot-qemu; on Debian:

  apt-get install --no-install-recommends qemu-system-misc gcc-riscv64-unknown-elf make u-boot-qemu

If one of them is missing, the test reports it and runs nothing. The last line printed is 'N passed, M failed'.
"""
import hashlib
import importlib.util
import os
import re
import select
import shutil
import struct
import subprocess
import sys
import tempfile
import time
from pathlib import Path

sys.dont_write_bytecode = True
sys.path.insert(0, str(Path(__file__).resolve().parents[1]))
from counting import Count, matches  # noqa: E402

TOP = Path(__file__).resolve().parents[2]
UBOOT = Path("/usr/lib/u-boot/qemu-riscv64_smode/u-boot.bin")
QEMU, GCC = "qemu-system-riscv64", "riscv64-unknown-elf-gcc"
SECTION = "## An enclave from a prompt in ten minutes\n"
AROUND = re.compile(r"## (Starting application at|Application terminated)")
MOST_SECONDS = 90
counted = Count()
told = counted.told


class Prompt:
    """A board that runs U-Boot, and its prompt."""

    def __init__(self, image, programs, *more):
        board = [QEMU, "-machine", "virt", "-m", "128", "-display", "none", "-monitor", "none", "-serial", "stdio", "-bios", str(image)]
        board += ["-device", f"loader,file={programs}/calls.bin,addr=0x84000000,force-raw=on"]
        board += ["-device", f"loader,file={programs}/enclave.bin,addr=0x84100000,force-raw=on", *more]
        self.board = subprocess.Popen(board, stdin=subprocess.PIPE, stdout=subprocess.PIPE)

    def __enter__(self):
        return self

    def __exit__(self, *_):
        self.board.kill()
        self.board.wait()

    def until_prompt(self):
        """Returns the output up to the next prompt, and stops U-Boot's countdown with a key."""
        said, end, is_stopped = b"", time.monotonic() + MOST_SECONDS, False
        while time.monotonic() < end:
            if not select.select([self.board.stdout], [], [], 0.2)[0]:
                continue
            some = os.read(self.board.stdout.fileno(), 4096)
            said += some
            if b"stop autoboot:" in said and not is_stopped:
                self.typed("")
                is_stopped = True
            if not some or said.endswith(b"\n=> "):
                break
        return said.decode("utf-8", "replace").replace("\r", "").removesuffix("=> ").split("\n")[:-1]

    def typed(self, line):
        self.board.stdin.write(line.encode() + b"\r")
        self.board.stdin.flush()

    def answer(self, line):
        """Returns the output of a command, without its echo and the lines of `go`."""
        self.typed(line)
        return [it for it in self.until_prompt()[1:] if not AROUND.match(it)]


def session():
    """Returns the typed lines, each with its output."""
    section = (TOP / "docs/guide/enclaves.md").read_text().split(SECTION)[1].split("\n## ")[0]
    rows = []
    for block in re.findall(r"```console\n(.*?)```", section, re.S):
        for line in block.splitlines():
            if line.startswith("=> "):
                rows.append((line.removeprefix("=> "), []))
            else:
                rows[-1][1].append(line)
    return rows


def digest_of(code):
    """Returns the digest of an enclave of one page of text (docs/formats/calls.md, "Calls of the monitor")."""
    return hashlib.sha256(struct.pack("<4Q", 1, 0, 0, 0) + code.ljust(4096, b"\0")).hexdigest()


def guide(programs):
    """Replays the session of the guide on one hart."""
    rows = session()
    with Prompt(programs / "pmpmon-virt.elf", programs, "-device", f"loader,file={UBOOT},addr=0x80200000") as prompt:
        told("U-Boot comes to its prompt", any(it.startswith("U-Boot 20") for it in prompt.until_prompt()))
        for line, want in rows:
            got = prompt.answer(line)
            told(line, matches(want, got), "" if matches(want, got) else repr(got))
    with Prompt(programs / "pmpmon-virt.elf", programs, "-kernel", str(UBOOT)) as prompt:
        prompt.until_prompt()
        told("the same with -kernel", prompt.answer("go 84000000 peek 80000000") == ["load access fault"])
        numbers(prompt)
    digest = digest_of((programs / "enclave.bin").read_bytes())
    told("the digest is that of the enclave's bytes", any(want == [digest] for _, want in rows), digest)


def numbers(prompt):
    """Checks numbers with a 0x prefix, and words that are not numbers."""
    word = prompt.answer("go 84000000 peek 80200000")
    wrong = ["8020000g", "0x", "12345678123456789"]
    got = [prompt.answer(f"go 84000000 peek {it}") for it in ("0x80200000", "0X80200000", *wrong)]
    want = [word, word, *([f"no number of 64 bits: {it}"] for it in wrong)]
    told("numbers with 0x, and words that are none", word[0].startswith("0x") and got == want, "" if got == want else repr((word, got)))


def parts_of(file):
    """Returns the numbers of text, data and shared pages of an enclave's file, and its digest by examples/linux/digest.py."""
    spec = importlib.util.spec_from_file_location("digest", TOP / "examples/linux/digest.py")
    module = importlib.util.module_from_spec(spec)
    spec.loader.exec_module(module)
    parts = module.parts_of(file.read_bytes())
    digest = subprocess.run([TOP / "examples/linux/digest.py", file], check=True, capture_output=True, text=True).stdout.strip()
    return *(-(-parts[name][3] // 4096) for name in ("text", "data", "shared")), digest


def in_c(folder, image):
    """Checks an enclave in C, whose output is in its first shared page (include/pmpmon_enclave.h)."""
    subprocess.run(["make", "-s", "-C", TOP / "examples/linux/enclaves", f"OUT={folder}"], check=True)
    subprocess.run([GCC.replace("gcc", "objcopy"), "-O", "binary", folder / "hello.elf", folder / "hello.bin"], check=True)
    text, data, shared, digest = parts_of(folder / "hello.elf")
    at = 0x85000000 + 0x400000
    with Prompt(image, folder, "-device", f"loader,file={folder}/hello.bin,addr=0x84200000,force-raw=on", "-kernel", str(UBOOT)) as prompt:
        prompt.until_prompt()
        for line in (f"cp.b 84200000 85000000 {(text + data) * 4096:x}", f"mw.b {at:x} 0 {shared * 4096:x}"):
            prompt.answer(line)
        rows = [(f"go 84000000 create 85000000 {text:x} {data:x} {at:x} {shared:x}", ["enclave 1"]), ("go 84000000 measure 1", [digest])]
        rows += [("go 84000000 run 1", ["stopped by its own call"]), ("go 84000000 peek 85001000", ["load access fault"])]
        for line, want in rows:
            got = prompt.answer(line)
            told(f"an enclave in C: {line}", got == want, "" if got == want else repr(got))
        said = "".join(it.rsplit("  ", 1)[-1] for it in prompt.answer(f"md.b {at + 1152:x} 2e"))
        told("an enclave in C says hello", said.startswith("hello from enclave 1, which was given 0 words"), repr(said))
        got = prompt.answer("go 84000000 resume 1")
        told("an enclave in C exits with 42", got == ["exited with 42"], "" if got == ["exited with 42"] else repr(got))


def two_harts(folder):
    """Runs U-Boot on one of two harts, while the other waits in the monitor; a reset restarts both."""
    platform = folder / "two.toml"
    platform.write_text((TOP / "examples/uboot/platform.toml").read_text().replace("harts = 1", "harts = 2"))
    subprocess.run([TOP / "firmware/build", platform, folder], check=True)
    with Prompt(folder / "pmpmon-virt.elf", folder, "-smp", "2", "-kernel", str(UBOOT)) as prompt:
        prompt.until_prompt()
        extensions = ["Timer Extension", "IPI Extension", "RFENCE Extension", "Hart State Management Extension", "System Reset Extension"]
        said = [it.strip() for it in prompt.answer("sbi")]
        right = [it for it in said if it in extensions] == extensions
        told("two harts: U-Boot finds the extensions", right, "" if right else repr(said))
        lines = ["cp.b 84100000 85000000 1000", "go 84000000 create 85000000 1", "go 84000000 run 1", "go 84000000 resume 1"]
        told("two harts: an enclave is made and runs", [prompt.answer(it) for it in lines][1:] == [["enclave 1"], ["stopped by its own call"], ["exited with 42"]])
        prompt.answer("reset")
        told("two harts: a reset begins with both", prompt.answer("go 84000000 run 1") == ["refused, -110: no such enclave"])


def missing():
    return [it for it in (QEMU, GCC, "make") if not shutil.which(it)] + ([] if UBOOT.is_file() else ["u-boot-qemu"])


def main():
    if lacking := missing():
        print(f"left out: U-Boot above the monitor, for want of {' and '.join(lacking)}")
        print("          (on Debian: apt-get install --no-install-recommends qemu-system-misc gcc-riscv64-unknown-elf make u-boot-qemu)")
    else:
        with tempfile.TemporaryDirectory() as place:
            subprocess.run([TOP / "examples/uboot/build", place], check=True)
            guide(Path(place))
            image = shutil.copy(Path(place) / "pmpmon-virt.elf", Path(place) / "one.elf")
            two_harts(Path(place))
            in_c(Path(place), image)
    return counted.end()


if __name__ == "__main__":
    sys.exit(main())
