#!/usr/bin/env python3
"""Compares the planner alone with the program: the answer of a first run to `plan MAP` must be the program's.

  tests/first_plan/run.py PROGRAM

The test builds crates/map_planner if it is older than a source (tools/build --planner). Both plan each map of examples/, 200 random
maps and invalid ones. If a map fits sixteen entries, output and status must be equal. Otherwise the planner must print nothing and
exit with status 1. The last line printed is 'N passed, M failed'.
"""
import random
import subprocess
import sys
import tempfile
from pathlib import Path

sys.path.insert(0, str(Path(__file__).resolve().parents[1]))
sys.dont_write_bytecode = True
from counting import Count  # noqa: E402

TOP = Path(__file__).resolve().parents[2]
PLANNER = TOP / "crates" / "map_planner" / "out" / "map_planner"
PERMISSIONS = ["none", "r", "rw", "x", "rx", "rwx"]
WRONG = {
    "no number": b"here 0x1000 rwx\n",
    "no whole page": b"0x80000000 0x800 rwx\n",
    "beyond the space": b"0xfffffffffff000 0x2000 rwx\n",
    "no permission of PMP": b"0x80000000 0x1000 wx\n",
    "more bytes than a map has": b"#" * 1023 + b"\n" + b"# and so on\n" * 90_000,
    "no text": bytes(range(256)),
}


def random_map(rng):
    lines = []
    for _ in range(rng.randrange(1, 21)):
        log2 = rng.choice([12, 13, 16, 21, 30])
        first = rng.randrange(2**16) << log2
        lines.append(f"{first:#x} {rng.randrange(1, 5) << log2:#x} {rng.choice(PERMISSIONS)}\n")
    return "".join(lines).encode()


def answer(*words, **how):
    ran = subprocess.run([str(it) for it in words], capture_output=True, **how)
    return ran.returncode, ran.stdout, ran.stderr


def entries_in(listed):
    return int(listed.split()[1]) if listed.startswith(b"entries ") else None


def agrees(program, file):
    """Returns whether both agree on a map that fits, or the planner prints nothing for another; and whether it fits."""
    status, listed, _ = answer(program, "plan", file)
    fits = status == 0 and entries_in(listed) <= 16
    return answer(PLANNER, file) == ((0, listed, b"") if fits else (1, b"", b"")), fits


def cases(program, folder):
    for file in sorted((TOP / "examples").rglob("*.map")):
        yield f"examples/{file.relative_to(TOP / 'examples')}", agrees(program, file)[0]
    rng, alike, fit = random.Random(1), 0, 0
    for number in range(200):
        (folder / "random.map").write_bytes(random_map(rng))
        same, fits = agrees(program, folder / "random.map")
        alike, fit = alike + same, fit + fits
    yield f"200 random maps, {fit} of which fit sixteen entries", alike == 200 and 20 < fit < 190
    for what, text in WRONG.items():
        (folder / "wrong.map").write_bytes(text)
        same, fits = agrees(program, folder / "wrong.map")
        yield f"a wrong map: {what}", same and not fits
    yield "no such file", answer(PLANNER, folder / "absent.map") == (1, b"", b"")
    yield "a folder", answer(PLANNER, folder) == (1, b"", b"")
    yield "no word", answer(PLANNER) == (1, b"", b"")
    with open("/dev/full", "wb") as full:
        ran = subprocess.run([PLANNER, TOP / "examples" / "first-run.map"], stdout=full, stderr=subprocess.PIPE)
    yield "a full device", (ran.returncode, ran.stderr) == (3, b"pmpmon: standard output: cannot write\n")


def main():
    program = Path(sys.argv[1]).resolve()
    built = subprocess.run([TOP / "tools" / "build", "--planner"])
    count = Count()
    if built.returncode == 0:
        with tempfile.TemporaryDirectory() as made:
            for what, good in cases(program, Path(made)):
                count.note(good, what)
    else:
        count.note(False, "the planner alone is built")
    return count.end()


if __name__ == "__main__":
    sys.exit(main())
