#!/usr/bin/env python3
"""Boots Linux on the monitor's firmware, tests the board and enclaves through /dev/pmpmon, and replays the session of
docs/guide/enclaves.md.

  tests/on_linux/run.py            everything
  tests/on_linux/run.py guide      only the guide's session and the invalid inputs
  tests/on_linux/run.py TESTS [HARTS [MEGABYTES]]     one boot with these tests of machine.c, with its output as it goes

Linux 6.1 is Debian's, unmodified. It is built once (examples/linux/build.sh), outside the clone. On one, two and four harts machine.c
tests the board, and enclaves.c what programs can and cannot do: faults, invalid calls, time limits, kills, the maximal number of
enclaves, and lives of enclaves under load. Everything must pass without complaints in the kernel's log. Then the lines after `$ ` and
`# ` in the section "An enclave in C on Linux" are typed, in a shell and at the prompt on the board, and the output must be the lines
below them; `...` matches any lines. Finally the test checks the messages for invalid files, a board without a pool, and another
firmware.

PMPMON_MODULE=FILE.o is an unproved module of the monitor, as for firmware/build, and PMPMON_PROGRAM=FILE replaces the proved program.
If a tool is missing, the test reports it and runs nothing.
The last line printed is 'N passed, M failed'.
"""
import concurrent.futures
import gzip
import os
import re
import select
import shutil
import struct
import subprocess
import sys
import tempfile
import time
from pathlib import Path

sys.dont_write_bytecode = True
sys.path.insert(0, str(Path(__file__).resolve().parents[1]))
from counting import Count, matches  # noqa: E402

TOP = Path(__file__).resolve().parents[2]
HERE, LINUX = TOP / "tests/on_linux", TOP / "examples/linux"
PROGRAM = Path(os.environ.get("PMPMON_PROGRAM", TOP / "crates/pmpmon/out/pmpmon"))
SOURCE = Path("/usr/src/linux-source-6.1.tar.xz")
CROSS, BARE = "riscv64-linux-gnu-gcc", "riscv64-unknown-elf-gcc"
TOOLS = ["qemu-system-riscv64", CROSS, BARE, "make", "bc", "bison", "flex", "cpio", "xz"]
PACKAGES = "linux-source-6.1 gcc-riscv64-linux-gnu libc6-dev-riscv64-cross gcc-riscv64-unknown-elf qemu-system-misc make bc bison flex cpio xz-utils"
SECTION = "## An enclave in C on Linux\n"
GUIDES_COMPILER = "12.2.0"
FOREVER, SAYS = 5, 8  # as in tried.h
DIGEST = re.compile(r"\b[0-9a-f]{64}\b")
# The enclaves of one process are 32 at most unless a test sets another limit.
MANY = "unload,load:most=64;mode=0666,enclaves:user"
BOOTS = {
    (4, 128): f"basic,hotplug,load,pmpmon-look:/enclaves/hello.elf,enclaves:wrong,enclaves:faults,enclaves:times,enclaves:killed,enclaves:limit:32,{MANY},"
    "enclaves:fit:1:3,enclaves:fit:16:0,enclaves:stuck:4,enclaves:parallel:20,enclaves:lives:4:250:60,both:20,unload",
    (2, 256): "basic,hotplug,load:most=64,enclaves:faults,enclaves:fit:4:0,enclaves:parallel:10,enclaves:stuck:60,enclaves:lives:2:100:20,unload",
    (1, 128): "basic,load:most=64,enclaves:faults,enclaves:times,enclaves:killed,enclaves:lives:2:50:20,unload",
}
MOST_SECONDS, MOST_SHOWN = 900, 7200
counted = Count()
report = counted.told


def compiled(out, name, *sources):
    """Compiles a program for Linux."""
    words = ["-static", "-std=gnu11", "-O2", "-pthread", "-Wall", "-Wextra", "-Wno-clobbered", f"-I{TOP}/include", f"-I{LINUX}/programs", f"-I{HERE}"]
    subprocess.run([CROSS, *words, "-o", out / name, *sources], check=True)


def archive(folder, file):
    """Packs the contents of a folder as a part of an initramfs."""
    listed = "\n".join(str(it.relative_to(folder)) for it in sorted(folder.rglob("*")))
    packed = subprocess.run(["cpio", "-o", "-H", "newc", "--quiet", "-R", "0:0"], cwd=folder, input=listed.encode(), stdout=subprocess.PIPE, check=True).stdout
    file.write_bytes(gzip.compress(packed))


def build(place):
    """Builds kernel, firmware and initramfs, with the tests' own programs in a second part of it."""
    out, more = place / "out", place / "more"
    make_enclave(place, HERE / "tried.c", "-Wl,--defsym=PMPMON_STACK=4096")
    subprocess.run([LINUX / "build.sh", out, place / "tried.elf"], check=True)
    (more / "bin").mkdir(parents=True)
    compiled(more, "machine", HERE / "machine.c")
    compiled(more / "bin", "enclaves", HERE / "enclaves.c", LINUX / "programs/enclave_file.c")
    build_bench(place, more)
    archive(more, place / "more.cpio")
    (place / "tests.gz").write_bytes((out / "initramfs.gz").read_bytes() + (place / "more.cpio").read_bytes())
    return out


def build_bench(place, more):
    """Builds the module that measures SBI calls, with the kernel that the driver was built for."""
    kernel = subprocess.run([LINUX / "build.sh", "--kernel"], check=True, capture_output=True, text=True).stdout.strip()
    (place / "bench").mkdir()
    shutil.copy(HERE / "sbi_bench.c", place / "bench")
    (place / "bench/Makefile").write_text("obj-m := sbi_bench.o\n")
    words = ["ARCH=riscv", "CROSS_COMPILE=riscv64-linux-gnu-", f"M={place}/bench", "modules"]
    subprocess.run(["make", "-s", "-C", kernel, *words], check=True)
    shutil.copy(place / "bench/sbi_bench.ko", more)


def make_enclave(place, source, *words):
    """Builds an enclave from a file in a folder, with the Makefile's command."""
    shutil.copy(source, place)
    flags = f"MORE={' '.join([f'-I{HERE}', *words])}"
    subprocess.run(["make", "-s", "-C", place, "-f", LINUX / "enclaves/Makefile", flags, Path(source).with_suffix(".elf").name], check=True)


def boot(out, place, harts, megabytes, tests, firmware=None, is_shown=False):
    """Boots with these tests and returns the output, line by line."""
    words = {"HARTS": str(harts), "MEMORY": str(megabytes), "INITRAMFS": str(place / "tests.gz"), "WORDS": f"loglevel={5 if is_shown else 4} rdinit=/machine tests={tests}"}
    if firmware:
        words["FIRMWARE"] = str(firmware)
    lines, end = [], time.monotonic() + (MOST_SHOWN if is_shown else MOST_SECONDS)
    board = subprocess.Popen([LINUX / "boot.sh", out], env={**os.environ, **words}, stdin=subprocess.DEVNULL, stdout=subprocess.PIPE)
    said = b""
    try:
        while (left := end - time.monotonic()) > 0:
            if not select.select([board.stdout], [], [], left)[0]:
                break
            some = os.read(board.stdout.fileno(), 65536)
            if is_shown:
                sys.stdout.write(some.decode(errors="replace"))
                sys.stdout.flush()
            if not some:
                break
            said += some
    finally:
        board.kill()
        board.wait()
    lines = said.decode(errors="replace").replace("\r", "").split("\n")
    return lines


def machine(harts, tests, lines, seconds):
    """Counts the tests of one boot, and returns how many enclaves lived."""
    name = f"{harts} hart{'s' if harts > 1 else ''}"
    found = [it for it in lines if it.startswith(("ok: ", "FAILED: "))]
    for it in found:
        report(f"{name}: {it.split(': ', 1)[1]}", it.startswith("ok: "))
    last = [it for it in lines if re.fullmatch(r"machine: \d+ passed, \d+ failed, .*", it)]
    # (a program's row begins with its words; the other tests have rows with other names)
    programs = [it for it in tests.split(",") if it.startswith(("enclaves:", "pmpmon-look:"))]
    lacking = [it for it in programs if not any(f": {it}: " in row for row in found)]
    right = last and int(last[0].split()[1]) >= len(tests.split(",")) and not lacking
    report(f"{name}: the boot comes to its end", right, " ".join([f"{seconds:.0f} s", *(f"without {it}" for it in lacking)]))
    if not last or any(it.startswith("FAILED") for it in found):
        print("\n".join(lines[-150:]))
    for it in lines:
        if it.startswith(("fit: ", "stuck: ", "lives: ")):
            print(f"    {it}")
    return sum(int(it.split()[3]) for it in lines if it.startswith("lives: "))


def machines(out, place):
    """Runs all boots in parallel."""
    began = time.monotonic()

    def timed(row):
        (harts, megabytes), tests = row
        return harts, tests, boot(out, place, harts, megabytes, tests), time.monotonic() - began

    with concurrent.futures.ThreadPoolExecutor(len(BOOTS)) as pool:
        lives = [machine(*it) for it in pool.map(timed, BOOTS.items())]
    report("enclaves live and end under load", sum(lives) >= 100, f"{sum(lives)} lives")


class Prompt:
    """The board at its prompt."""

    def __init__(self, out, **words):
        self.board = subprocess.Popen([LINUX / "boot.sh", out], env={**os.environ, **words}, stdin=subprocess.PIPE, stdout=subprocess.PIPE)

    def __enter__(self):
        return self

    def __exit__(self, *_):
        self.board.kill()
        self.board.wait()

    def until_prompt(self, seconds=90):
        """Returns the output up to the next prompt, or the end."""
        said, end = b"", time.monotonic() + seconds
        while time.monotonic() < end and not (b"\n" + said).endswith(b"\n# "):
            if select.select([self.board.stdout], [], [], 0.2)[0]:
                some = os.read(self.board.stdout.fileno(), 4096)
                if not some:
                    break
                said += some
        return said.decode(errors="replace").replace("\r", "").split("\n")[:-1]

    def answer(self, line):
        """Returns the output of a command, without its echo."""
        self.board.stdin.write(line.encode() + b"\n")
        self.board.stdin.flush()
        return self.until_prompt()[1:]


def session():
    """Returns the typed lines of the guide's section, each with its prompt and its output, and its C files by name."""
    section = (TOP / "docs/guide/enclaves.md").read_text().split(SECTION)[1].split("\n## ")[0]
    rows = []
    for block in re.findall(r"```console\n(.*?)```", section, re.S):
        for line in block.splitlines():
            if line.startswith(("$ ", "# ")):
                rows.append((line[0], line[2:], []))
            else:
                rows[-1][2].append(line)
    files = re.findall(r"`(\w+\.c)`:\n\n```c\n(.*?)```", section, re.S)
    return rows, files


def version_of_compiler():
    return subprocess.run([BARE, "-dumpfullversion"], capture_output=True, text=True).stdout.strip()


def check_row(line, want, got):
    """Checks the output of one line. Digests are compared by value only if the compiler is the guide's."""
    if version_of_compiler() != GUIDES_COMPILER:
        want, got = [DIGEST.sub("DIGEST", it) for it in want], [DIGEST.sub("DIGEST", it) for it in got]
    right = matches(want, got)
    report(line, right, "" if right else repr(got))


def guide(place):
    """Replays the session of the guide in an empty folder."""
    rows, files = session()
    report("the guide has a session", len(rows) > 5 and files)
    if version_of_compiler() != GUIDES_COMPILER:
        print(f"left out: the guide's digests by their values, since {BARE} is not {GUIDES_COMPILER}")
    folder = place / "guide"
    folder.mkdir()
    for name, text in files:
        (folder / name).write_text(text)
    prompt = None
    for kind, line, want in rows:
        if kind == "$" and "boot.sh" in line:
            prompt = Prompt(folder / line.split()[-1])
            check_row(line, want, prompt.until_prompt())
        elif kind == "$":
            done = subprocess.run(["bash", "-c", line], cwd=folder, env={**os.environ, "PMPMON": str(TOP)}, stdout=subprocess.PIPE, stderr=subprocess.STDOUT, text=True)
            check_row(line, want, [it for it in done.stdout.splitlines() if not it.startswith(("build.sh: ", "firmware: "))])
        elif line == "poweroff":
            check_row(line, want, prompt.answer(line))
        else:
            check_row(line, want, prompt.answer(line))
    if prompt:
        prompt.__exit__()


def wrong_files(place, out):
    """Makes files that are not enclaves, each with its error message."""
    bad = place / "badly/bad"
    bad.mkdir(parents=True)
    hello = (out / "root/enclaves/hello.elf").read_bytes()
    (bad / "text.elf").write_text("no enclave\n")
    (bad / "short.elf").write_bytes(hello[:100])
    (bad / "odd.elf").write_bytes(hello[:24] + b"\1" + hello[25:])
    (bad / "far.elf").write_bytes(hello[:24] + (0x1000).to_bytes(8, "little") + hello[32:])
    (bad / "large.elf").write_bytes(hello[: 64 + 56 + 40] + (0x400000).to_bytes(8, "little") + hello[64 + 56 + 48 :])
    (bad / "shared.elf").write_bytes(hello[: 64 + 112 + 40] + (0x101000).to_bytes(8, "little") + hello[64 + 112 + 48 :])
    (bad / "moved.elf").write_bytes(hello[: 64 + 112 + 16] + (0x8000).to_bytes(8, "little") + hello[64 + 112 + 24 :])
    (bad / "own.c").write_text("int main(void) { return 0; }\n")
    subprocess.run([CROSS, "-static", "-nostdlib", "-Wl,-emain", "-o", bad / "linux.elf", bad / "own.c"], check=True)
    (bad / "own.c").unlink()
    for name, what in (("forever", FOREVER), ("says", SAYS)):
        (bad / f"{name}.bin").write_bytes(struct.pack("<3Q", what, 0, 0))
    archive(bad.parent, place / "bad.cpio")
    (place / "bad.gz").write_bytes((out / "initramfs.gz").read_bytes() + (place / "bad.cpio").read_bytes())
    return {
        "missing.elf": "missing.elf: No such file or directory",
        "/bad/text.elf": "no ELF for RV64",
        "/bad/short.elf": "no enclave: text, data or shared pages are missing",
        "/bad/odd.elf": "its entry, 0x1, is odd or outside its text: link it with -Wl,-T,enclave.ld",
        "/bad/far.elf": "its entry, 0x1000, is odd or outside its text: link it with -Wl,-T,enclave.ld",
        "/bad/large.elf": "1 pages of text and 1024 of data: an enclave has 1 to 1024 pages",
        "/bad/shared.elf": "257 shared pages: an enclave has 1 to 256",
        "/bad/moved.elf": "its parts are at other places than enclave.ld gives them",
        "/bad/linux.elf": "no enclave: text, data or shared pages are missing",
    }


def bad_input(place, out):
    """Checks the messages for wrong input: an invalid file, a wrong board or another firmware."""
    rows = wrong_files(place, out)
    with Prompt(out, HARTS="1", MEMORY="128", INITRAMFS=str(place / "bad.gz")) as prompt:
        prompt.until_prompt()
        for file, want in rows.items():
            got = prompt.answer(f"pmpmon-run {file}")
            report(f"pmpmon-run {file}: {want}", any(want in it for it in got), "" if any(want in it for it in got) else repr(got))
            done = subprocess.run([LINUX / "digest.py", place / "badly" / file.lstrip("/")], capture_output=True, text=True)
            report(f"digest.py {file}: the same", done.returncode == 1 and want in done.stderr, done.stderr.strip())
        report("it ends with 125", prompt.answer("status") == ["125"])
        got = prompt.answer("pmpmon-run -i /init hello.elf")
        report("an input that is too large", got[-1:] == ["pmpmon-run: /init: larger than the 4096 bytes of the shared pages"], repr(got[-1:]))
        got = prompt.answer("pmpmon-run tried.elf")
        report("an enclave that reads address 0", got[1:] == ["stopped by load access fault, at 0x0000000000000000"], repr(got))
        got = prompt.answer("pmpmon-run -t 0.2 -i /bad/forever.bin tried.elf")
        report("an enclave that never stops", got[1:] == ["pmpmon-run: the time is over"] and prompt.answer("status") == ["124"], repr(got))
        got = prompt.answer("pmpmon-run -t 2 -i /bad/says.bin tried.elf")
        right = len(got) == 2 and re.fullmatch("x+pmpmon-run: the time is over", got[1]) and prompt.answer("status") == ["124"]
        report("an enclave that says things for ever", right, "" if right else repr(got)[-200:])
        report("a time of letters", prompt.answer("pmpmon-run -t soon hello.elf") == ["usage: pmpmon-run [-i FILE] [-t SECONDS] ENCLAVE.elf [WORD...]"])
    (place / "bare").mkdir()
    subprocess.run([TOP / "firmware/build", LINUX / "platform.toml", place / "bare"], check=True, stderr=subprocess.DEVNULL)
    without(out, "no pool", "pmpmon: no pool of 8 MiB or more for enclaves: build the firmware with POOL=", FIRMWARE=str(place / "bare/pmpmon-virt.elf"))
    without(out, "above OpenSBI", "pmpmon: the firmware below this kernel is not the monitor: boot it with pmpmon-virt.elf", FIRMWARE="default")
    shutil.copytree(out / "root", place / "no-driver")
    (place / "no-driver/pmpmon.ko").unlink()
    archive(place / "no-driver", place / "no-driver.gz")
    without(out, "no driver", "init: no driver: /pmpmon.ko: No such file or directory", INITRAMFS=str(place / "no-driver.gz"))


def without(out, name, want, **words):
    """Checks the messages of a board on which the driver does not load, and of programs there."""
    with Prompt(out, HARTS="1", MEMORY="128", **words) as prompt:
        report(f"{name}: {want}", any(want in it for it in prompt.until_prompt()))
        got = prompt.answer("pmpmon-run hello.elf")
        report(f"{name}: pmpmon-run says so", any("no /dev/pmpmon: load the driver, pmpmon.ko" in it for it in got), repr(got))


def digests(place, out):
    """Checks that the proved program, if it is built, computes the digest of each enclave's file."""
    if not PROGRAM.is_file():
        print("left out: digests beside those of `pmpmon measure`, which is not built")
        return
    for file in sorted((out / "root/enclaves").glob("*.elf")):
        said = subprocess.run([LINUX / "digest.py", file, place / "image.bin"], capture_output=True, text=True, check=True).stdout.splitlines()
        done = subprocess.run([PROGRAM, *said[1].split()[1:]], capture_output=True, text=True)
        report(f"pmpmon measure and digest.py say the same of {file.name}", done.stdout.splitlines()[:1] == [f"digest {said[0]}"], done.stderr)


def missing():
    return [it for it in TOOLS if not shutil.which(it)] + ([] if SOURCE.is_file() else ["linux-source-6.1"])


def main():
    if lacking := missing():
        print(f"left out: Linux above the monitor, for want of {' and '.join(lacking)}")
        print(f"          (on Debian: apt-get install --no-install-recommends {PACKAGES})")
        print("0 passed, 0 failed")
        return 0
    with tempfile.TemporaryDirectory() as folder:
        place = Path(folder)
        out = build(place)
        if len(sys.argv) > 1 and sys.argv[1] != "guide":
            harts, megabytes = sys.argv[2] if len(sys.argv) > 2 else 4, sys.argv[3] if len(sys.argv) > 3 else 256
            return 0 if any(", 0 failed" in it for it in boot(out, place, harts, megabytes, sys.argv[1], os.environ.get("FIRMWARE"), True)) else 1
        if len(sys.argv) == 1:
            machines(out, place)
        digests(place, out)
        guide(place)
        bad_input(place, out)
    return counted.end()


if __name__ == "__main__":
    sys.exit(main())
