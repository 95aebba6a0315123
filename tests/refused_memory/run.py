#!/usr/bin/env python3
"""Makes each allocation, read and write of the program fail in turn, and compares the results with those of a normal run.

  tests/refused_memory/run.py PROGRAM

Each command below is run once without failures (the ample run), and then for K = 1, 2, .. until a run meets no failure, with
  the K-th allocation refused: it prints what the ample run prints, or stops with 'out of memory' and status 4 after a prefix of that,
    or omits only the hints. For `run` the first answer that differs may be -109. If each call is made twice, the second is then
    answered like the first of the ample run, and everything after it as there. If accesses surround each call, those after a refused
    call are answered like those before it (world, entries in use, owners and bytes are unchanged). A comment may omit the number of
    entries that a view needs;
  the K-th read failed: the same, or 'cannot read' and status 3 after a prefix, with its hint if hints are on, or only the hints are
    omitted;
  the K-th write failed: the same, or 'cannot write' and status 3 after a proper prefix (if standard error itself fails, the status
    of the ample run);
  the K-th write and all after it failed: the status of the ample run if that is above 1, otherwise 3, after a proper prefix; nothing
    more appears on standard error;
  the K-th sync or move of the certificate failed: 'cannot write' and status 3, with no output and no certificate; a certificate that
    exists was synced and moved;
  the K-th read or write interrupted by a signal: the same;
and once with writes that accept one byte each: the same. No run ever ends by a signal.

The firmware's loop serves the traps in the file `traps` with each allocation at boot refused in turn, and must report that in the one
frame it writes. Commands run in parallel, each in a folder of its own. The last line is 'N passed, M failed'; any failure makes the
status 1.
"""
import os
import re
import shutil
import subprocess
import sys
import tempfile
from concurrent.futures import ThreadPoolExecutor
from pathlib import Path

HERE = Path(__file__).resolve().parent
MONITOR = HERE.parents[1] / "crates/pmpmon_monitor"
# The frame `end` for a refused allocation (docs/formats/calls.md), and the size of an `answer` in bytes.
END = b"end\0\0\0\0\0" + bytes([4, 0, 0, 0, 0, 0, 0, 0]) + bytes(8)
ANSWER = 96 * 8
# A number of refusals that no command reaches.
MOST = 100_000

CALL = "ecall 0x08454E43"
PLATFORM = "[monitor]\nbase = 0x80000000\nsize = 0x200000\n[[ram]]\nbase = 0x80000000\nsize = 0x8000000\n"
ASKED_TWICE = ["0 0x80200000 1 1 0x80300000 1 0", "0 0x80204000 2 0 0 0 0", "1 1", "0 0x80208000 7 0 0 0 0", "1 2", "1 1"]
DEVICE = '[[device]]\nbase = 0x10000000\nsize = 0x1000\nperm = "rw"\n'


def watched(stores, calls, probes):
    """Returns a trace of some stores and of each call twice, with the same accesses before the first, between the two and after the
    second."""
    seen = "".join(f"{it}\n" for it in probes)
    return "".join(f"{it}\n" for it in stores) + "".join(f"{seen}{CALL} {it}\n{seen}{CALL} {it}\n{seen}" for it in calls)


# The accesses and the interrupt reveal owners, bytes, the world and the entries in use: for one enclave's page, for
# adjacent enclaves every second of which is destroyed, and for an enclave's life.
STORE = ["store s 8 0x80200000 0x1122334455667788"]
PAGE = ["load s 8 0x80200000", "fetch s 4 0x80200000", "load u 1 0x80201fff", "irq"]
GAPS = ["load s 8 0x80200000", "store s 8 0x80220000 1", "load s 8 0x80218000", "load s 8 0x8021f000", "irq"]
EACH = [f"0 {0x80200000 + place * 4096} 1 0 0 0 0" for place in range(32)]
WATCHED = {
    "page.trace": (watched(STORE, ["0 0x80200000 1 0 0 0 0", "1 1"], PAGE), len(PAGE)),
    "gaps.trace": (watched(STORE, EACH + [f"1 {2 * place + 1}" for place in range(13)], GAPS), len(GAPS)),
    "lives.trace": (watched(STORE, ["0 0x80200000 1 0 0 0 0", "2 1", "4 1", "5 7", "0 0x80201000 1 0 0 0 0", "1 1", "1 2"], PAGE), len(PAGE)),
}
FILES = {
    "map.txt": "0x80000000 0x8000000 rwx\n0x80000000 0x200000 none\n0x10000000 0x1000 rw\n",
    "wrong.txt": "0x80000000 0x1000 rwx\n0x80001000 0x800 rwx\n",
    "trace.txt": "load s 8 0x80200000\nstore u 4 0x80000000 7\n# nothing\nfetch s 2 0x10000000",
    "stopped.txt": "load s 8 0x80200000\nirq\n",
    "idle.txt": "0 0x1000 r\n0 0x2000 rw\n",
    "faults.txt": "0x80000000 0x400 rwx\n# nothing\n0 0x1000 wx\nlong, and no line of a map\n",
    "huge.txt": "\0" * 1_100_000,
    "seventeen.txt": "".join(f"{i * 3 * 4096} 4096 rwx\n" for i in range(17)),
    "smepmp.txt": "mseccfg 8\n",
    "far.txt": "0x400000000 0x1000 rwx\n",
    "boot.log": "Domain0 Region00 : 0x0000000080000000-0x000000008003ffff ()\r\n"
    "Domain0 Region01 : 0x0000000000000000-0xffffffffffffffff (R,W,X)\r\n",
    "platform.toml": PLATFORM,
    "harts.toml": f'harts = 2\nentries = 64\n{PLATFORM}[[device]]\nbase = 0x10000000\nsize = 0x1000\nperm = "rw"\n',
    "wrong.toml": "harts = 5\n",
    "range.toml": f"harts = 5\n{PLATFORM}",
    "life.trace": "store s 8 0x80200000 0x1122334455667788\n"
    f"{CALL} 0 0x80200000 1 1 0x80300000 1 0\n{CALL} 2 1\nload u 8 0x80200000\nstore u 8 0x80201000 1\nirq\n"
    f"{CALL} 0 0x80204000 2 0 0 0 0\n{CALL} 6 2 0\n{CALL} 1 1\nload s 8 0x80201000\n",
    "harts.trace": f"@0 {CALL} 0 0x80200000 1 0 0 0 0\n@1 load s 8 0x80200000\n@1 {CALL} 2 1\n@1 store u 4 0x80200000 1\n"
    f"@0 store s 8 0x80400000 7\n@1 {CALL} 3\n@0 {CALL} 4 1\n@0 {CALL} 5 7\n@1 {CALL} 1 1\nfoo\n",
    "few.trace": f"{CALL} 0 0x804AB000 170 342 0x81000000 11 0\n",
    "twice.trace": "".join(f"{CALL} {it}\n{CALL} {it}\n" for it in ASKED_TWICE),
    "example.toml": PLATFORM + DEVICE,
    **{name: trace for name, (trace, _) in WATCHED.items()},
}

COMMANDS = """
plan map.txt
plan map.txt OUT
plan map.txt OUT --entries 64
plan wrong.txt OUT
plan faults.txt --hints always
plan absent.txt --hints always
plan map.txt OUT --hints always
plan seventeen.txt
plan map.txt --at-most 2
plan map.txt --at-most 2 --hints always
plan map.txt OUT --at-most 3 --format json
plan map.txt --format c
plan map.txt --format asm --name uart --first 3
plan seventeen.txt OUT --format asm
plan map.txt --xlen 32 --format c
plan far.txt OUT --xlen 32
plan map.txt map.txt
show map.txt
show map.txt --costs
show map.txt --format svg
show map.txt --format json
show seventeen.txt --entries 64
show wrong.txt
show map.txt --at-most 2
show --registers registers.txt
show --registers faults.txt
map registers.txt
map faults.txt
map boot.log
map board.dtb
platform board.dtb
platform board.dtb --monitor 0x1000 0x1000
lint map.txt
lint idle.txt
lint faults.txt
lint huge.txt
lint absent.txt
lint --registers faults.txt
lint --trace faults.txt
audit map.txt registers.txt
audit map.txt trace.txt
audit seventeen.txt registers.txt
--version
judge map.txt trace.txt
judge map.txt stopped.txt --entries 64
judge map.txt faults.txt --hints always
judge map.txt trace.txt --expect
judge --registers registers.txt trace.txt
judge --registers registers.txt trace.txt --expect
judge map.txt trace.txt --explain
judge --registers registers.txt trace.txt --explain
judge --registers smepmp.txt trace.txt
judge --registers faults.txt trace.txt
judge seventeen.txt trace.txt
check map.txt map.pmpc
check map.txt large.pmpc
check map.txt cut.pmpc
plan huge.txt
plan absent.txt
plan map.txt --entries 17
judge
--help
run wrong.toml life.trace
run wrong.toml life.trace --hints always
lint harts.toml
lint wrong.toml
lint range.toml
lint --trace harts.trace --platform harts.toml
lint --trace harts.trace --platform wrong.toml
run platform.toml absent.trace
"""

# A creation or destruction in these runs may be answered -109, and the run continues after it.
RUNS = """
run platform.toml life.trace
run platform.toml life.trace --measure
run harts.toml harts.trace
run platform.toml life.trace --measure --expect
run platform.toml life.trace --measure --explain
"""

TWICE = "run platform.toml twice.trace"
FEW = "run platform.toml few.trace --explain"


def unhinted(text):
    """Returns standard error without the hints."""
    return b"".join(it for it in text.splitlines(keepends=True) if not it.startswith(b"hint: "))


class Run:
    """The result of a run: its status, its output, and whether a call was refused."""

    def __init__(self, status, out, err, cert, beside, noted):
        self.status, self.out, self.err = status, out, err
        # the certificate's bytes, or None; whether there is a file beside its place
        self.cert, self.beside, self.noted = cert, beside, noted
        self.told = unhinted(err).rstrip(b"\n")


class Tried:
    """A command, and how its runs compare with the ample run."""

    def __init__(self, words, program, files):
        self.words, self.program, self.files = words.split(), program, files
        self.lines, self.failed = [], 0
        self.got = self.ample = None

    # Runs.

    def run(self, name, **refused):
        """Runs the command with the refusal in the environment; its files have this name."""
        for it in os.listdir(self.room):
            if it.startswith(f"{name}."):
                os.remove(f"{self.room}/{it}")
        words = [it.replace("OUT", f"{name}.cert") for it in self.words]
        environment = {**os.environ, "LD_PRELOAD": f"{self.files}/refuse.so", "REFUSE_NOTE": f"{name}.note", **refused}
        with open(f"{self.room}/{name}.out", "wb") as out, open(f"{self.room}/{name}.err", "wb") as err:
            ended = subprocess.run([self.program, *words], cwd=self.room, env=environment, stdin=subprocess.DEVNULL, stdout=out, stderr=err)
        left = {it: Path(self.room, it).read_bytes() for it in os.listdir(self.room) if it.startswith(f"{name}.")}
        beside = any(it.startswith(f"{name}.cert.") for it in left)
        return Run(ended.returncode, left[f"{name}.out"], left[f"{name}.err"], left.get(f"{name}.cert"), beside, f"{name}.note" in left)

    # Comparisons of the output with that of the ample run.

    def same(self):
        got, ample = self.got, self.ample
        err = got.err.replace(b"got.cert", b"ample.cert")
        return got.status == ample.status and got.out == ample.out and err == ample.err and ample.cert in (None, got.cert)

    def beginning(self):
        """Returns whether the output is a prefix of the ample run's."""
        return self.ample.out.startswith(self.got.out)

    def cut(self):
        """Returns whether the output is a proper prefix, so that the refused part does not appear later."""
        return self.beginning() and len(self.got.out) < len(self.ample.out)

    def whole(self):
        """Returns whether the certificate is complete or absent, and nothing is left beside it."""
        return not self.got.beside and self.got.cert in (None, self.ample.cert)

    def lacks_hints(self):
        """Returns whether only the hints after the error are missing."""
        got, ample = self.got, self.ample
        told = unhinted(ample.err)
        return told != ample.err and got.status == ample.status and got.out == ample.out and got.err == told

    def explained(self):
        """Returns whether the only hint, if hints are on, is about the device in the error before it."""
        hints = [it for it in self.got.err.split(b"\n") if it.startswith(b"hint: ")]
        if " --hints always " not in f" {' '.join(self.words)} ":
            return not hints
        place = re.sub(rb"(?m): cannot [a-z]*$", b": ", re.sub(rb"(?m)^pmpmon: ", b"hint: ", self.got.told))
        return len(hints) == 1 and self.got.err.rstrip(b"\n").split(b"\n")[-1].startswith(place)

    # Other results that are allowed, by the kind of refusal.

    def never(self):
        return False

    def stopped_for_memory(self):
        got = self.got
        if self.lacks_hints():
            return True
        # A file for the certificate could not be made because an allocation failed.
        if got.status == 3 and got.told == b"pmpmon: got.cert: cannot write" and not got.out and self.explained():
            return True
        return got.status == 4 and got.err == b"pmpmon: out of memory\n" and self.beginning()

    def first_refused(self):
        """Returns the number of the first answer that differs, if it is a call refused for lack of memory, which its comment must mention
        if answers are explained."""
        got, ample = self.got.out.split(b"\n"), self.ample.out.split(b"\n")
        n = next((n for n, (line, other) in enumerate(zip(got, ample), 1) if line != other), None)
        comment = b" # hart [0-9], host: [^#]*: refused, out of memory" if "--explain" in self.words else b""
        if n and re.fullmatch(b"%d call -109 0x0000000000000000 [0-9]+ [0-9]+" % n + comment, got[n - 1]):
            return n
        return None

    def refused_for_memory(self):
        """Returns whether the run stopped as above, or the first line that differs is such a call: `run` continues after it, and later
        calls may be answered differently."""
        if self.stopped_for_memory():
            return True
        return self.got.status in (self.ample.status, 4) and self.first_refused() is not None

    def refused_or_unnumbered(self):
        """As above, or a comment omits the number of entries that a view needs, because finding it takes memory."""
        unnumbered = re.sub(rb"the (host|enclave)'s view needs [0-9]+ entries", b"too few entries", self.ample.out)
        return self.refused_for_memory() or (self.got.status == self.ample.status and self.got.out == unnumbered)

    def refused_once(self):
        """As above, if each call is made twice: the call after the refused one is answered as in the ample run, and so are all later
        ones."""
        if self.stopped_for_memory():
            return True
        if not self.refused_for_memory():
            return False
        n = self.first_refused()
        got, ample = self.got.out.split(b"\n"), self.ample.out.split(b"\n")
        return got[n].split(b" ")[1:] == ample[n - 1].split(b" ")[1:] and got[n + 1 :] == ample[n + 1 :]

    def refused_unchanged(self):
        """As above, if the same accesses surround each call: those after a refused call are answered like those before it."""
        if self.stopped_for_memory():
            return True
        if not self.refused_for_memory():
            return False
        n, probes = self.first_refused(), WATCHED[self.words[-1]][1]
        got, ample = ([it.split(b" ")[1:] for it in run.out.split(b"\n")] for run in (self.got, self.ample))
        again = n + probes
        # (a call that is refused in the ample run too changes nothing when it is repeated)
        served = got[n:] == ample[n:] or (got[again] == ample[n - 1] and got[again + 1 :] == ample[again + 1 :])
        return served and got[n - 1 - probes : n - 1] == got[n:again]

    def stopped_for_read(self):
        if self.lacks_hints():
            return True
        cannot = re.fullmatch(rb"pmpmon: [^:]*: cannot read", self.got.told)
        return self.got.status == 3 and cannot is not None and self.explained() and self.beginning()

    def stopped_for_write(self):
        got, ample = self.got, self.ample
        # Standard error failed: its text is cut off, and the status is unchanged.
        if got.status == ample.status and got.out == ample.out and len(got.err) < len(ample.err):
            return True
        # The end of the output was refused after another error had been reported: its status is unchanged.
        if got.status == ample.status and ample.status >= 2 and got.err == ample.err and self.cut():
            return True
        if got.status != 3 or not self.explained():
            return False
        if got.told == b"pmpmon: got.cert: cannot write":
            return not got.out
        return got.told == b"pmpmon: standard output: cannot write" and self.cut()

    def stopped_for_writes(self):
        """Returns whether the run stopped as it must if all writes from one on are refused, including those of standard error."""
        got, ample = self.got, self.ample
        if ample.status < 2:
            return got.status == 3 and self.cut() and not got.err
        fewer = len(got.err) + len(got.out) < len(ample.err) + len(ample.out)
        return got.status == ample.status and self.beginning() and ample.err.startswith(got.err) and fewer

    def stopped_unplaced(self):
        return self.stopped_for_write() and self.got.cert is None

    # Sweeps.

    def note(self, well, what):
        if well:
            self.lines.append(f"ok: {' '.join(self.words)}: {what}")
            return
        self.failed += 1
        told = self.got.err[:200].decode(errors="replace")
        self.lines.append(f"FAILED: {' '.join(self.words)}: {what}: status {self.got.status}, {told}")

    def fault_of(self, kind, k, allowed):
        """Returns what is wrong with a run in which the K-th call was refused, or None."""
        # A refused sync or move is never ignored.
        passed_over = self.same() and kind not in ("sync", "move")
        if not passed_over and not allowed():
            return f"call {k}"
        if not self.whole():
            return f"call {k}: a part of a certificate"
        return None

    def sweep(self, kind, allowed, on=False):
        """Fails the K-th call of the kind for each K, or with `on` all from the K-th on; `allowed` accepts other results."""
        what = f"{kind} {'from' if on else 'at'}"
        for k in range(1, MOST):
            self.got = self.run("got", REFUSE=kind, REFUSE_AT=str(k), **({"REFUSE_ON": "1"} if on else {}))
            if not self.got.noted:
                if not self.same():
                    return self.note(False, f"{what}: no call refused, yet another answer")
                if kind in ("sync", "move") and k == 1 and self.ample.cert is not None:
                    return self.note(False, f"{what}: a certificate stands without such a call")
                return self.note(True, f"{what}: each of {k - 1} calls")
            fault = self.fault_of(kind, k, allowed)
            if fault:
                return self.note(False, f"{what}: {fault}")
        return self.note(False, f"{what}: no end")

    def begun(self):
        """Makes the folder and the ample run, and returns whether the latter succeeded."""
        self.room = tempfile.mkdtemp(dir=self.files)
        for it in os.listdir(self.files):
            if os.path.isfile(f"{self.files}/{it}"):
                os.link(f"{self.files}/{it}", f"{self.room}/{it}")
        self.got = self.ample = self.run("ample")
        if self.ample.status not in range(4):
            self.note(False, "the ample run")
            return False
        return True

    def all(self, for_memory):
        if not self.begun():
            return self
        self.sweep("memory", for_memory)
        self.sweep("memory", for_memory, on=True)
        self.sweep("read", self.stopped_for_read)
        self.sweep("write", self.stopped_for_write)
        self.sweep("write", self.stopped_for_writes, on=True)
        self.sweep("sync", self.stopped_unplaced)
        self.sweep("move", self.stopped_unplaced)
        self.sweep("signal", self.never)
        self.got = self.run("got", REFUSE="short")
        self.note(self.same(), "one byte a write")
        return self

    def once(self, for_memory):
        if self.begun():
            self.sweep("memory", for_memory)
        return self


class Booted:
    """The proved loop of the firmware as a program (serve.c), which serves the traps in the file `traps`: once normally, and with each
    allocation at boot refused in turn."""

    def __init__(self, files):
        self.files = files
        self.lines, self.failed = [], 0

    def built(self):
        """Links the program. Returns what failed, or nothing."""
        archive = MONITOR / "out/libpmpmon_monitor.a"
        if not archive.is_file():
            proved = subprocess.run(["rt", "lib"], cwd=MONITOR, capture_output=True)
            if not archive.is_file():
                return proved.stderr[-200:]
        kit = Path(os.path.realpath(shutil.which("rt"))).parents[1]
        linked = subprocess.run(["gcc", "-o", self.files / "serve", HERE / "serve.c", archive, kit / "c/libos_c.a", kit / "c/liblibc_c.a"], capture_output=True)
        return linked.stderr[-200:]

    def run(self, k=None):
        """Returns the status and the output with the K-th allocation refused."""
        environment = dict(os.environ)
        if k:
            environment.update(LD_PRELOAD=f"{self.files}/refuse.so", REFUSE="memory", REFUSE_AT=str(k))
        with open(HERE / "traps", "rb") as traps:
            ended = subprocess.run([self.files / "serve"], env=environment, stdin=traps, capture_output=True)
        return ended.returncode, ended.stdout

    def note(self, well, what):
        self.failed += not well
        self.lines.append(f"{'ok' if well else 'FAILED'}: the firmware's loop: {what}")
        return self

    def all(self):
        """Refuses one allocation after the other until the first answer appears."""
        failed = self.built()
        if failed:
            return self.note(False, f"it is not built: {failed}")
        answers = (HERE / "traps.answers").read_bytes()
        self.note(self.run() == (0, answers), "its answers")
        for k in range(1, MOST):
            status, out = self.run(k)
            if out.startswith(answers[:ANSWER]):
                return self.note(k > 1, f"memory at boot: each of {k - 1} calls")
            if (status, out) != (1, END):
                return self.note(False, f"memory at boot: call {k}: status {status}, {out[:16]}")
        return self.note(False, "memory at boot: no end")


def made(program, folder):
    """Writes the files of the commands, and builds the library that refuses calls."""
    for name, text in FILES.items():
        (folder / name).write_text(text, newline="")
    subprocess.run(["gcc", "-O1", "-Wall", "-shared", "-fPIC", "-o", folder / "refuse.so", HERE / "refuse.c", "-ldl"], check=True)
    for words in (["map.pmpc"], ["large.pmpc", "--entries", "64"]):
        subprocess.run([program, "plan", "map.txt", *words], cwd=folder, check=True, stdout=subprocess.DEVNULL)
    with open(folder / "registers.txt", "wb") as out:
        subprocess.run([program, "plan", "map.txt"], cwd=folder, check=True, stdout=out)
    (folder / "cut.pmpc").write_bytes((folder / "map.pmpc").read_bytes()[:100])
    (folder / "board.dtb").write_bytes((HERE.parents[1] / "examples/small-board.dtb").read_bytes())


def main():
    program = os.path.realpath(sys.argv[1])
    with tempfile.TemporaryDirectory() as work, ThreadPoolExecutor(len(os.sched_getaffinity(0))) as pool:
        folder = Path(work)
        made(program, folder)
        tried = lambda words: Tried(words, program, work)
        runs = [tried(it) for it in RUNS.strip().split("\n")]
        # the slowest ones first
        around = [tried(f"run example.toml {it}") for it in WATCHED]
        twice = tried(TWICE)
        begun = [pool.submit(it.once, it.refused_unchanged) for it in around]
        begun += [pool.submit(twice.once, twice.refused_once), pool.submit(Booted(folder).all)]
        begun += [pool.submit(it.all, it.refused_for_memory) for it in runs]
        few = tried(FEW)
        begun += [pool.submit(few.all, few.refused_or_unnumbered)]
        others = [tried(it) for it in COMMANDS.strip().split("\n")]
        begun += [pool.submit(it.all, it.stopped_for_memory) for it in others]
        passed = failed = 0
        for it in begun:
            ended = it.result()
            print("\n".join(ended.lines), flush=True)
            passed, failed = passed + len(ended.lines) - ended.failed, failed + ended.failed
    print(f"{passed} passed, {failed} failed")
    return 1 if failed else 0


if __name__ == "__main__":
    sys.exit(main())
