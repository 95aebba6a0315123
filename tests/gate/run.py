#!/usr/bin/env python3
"""Runs `rt ci` at the top of the repository, prints its output, and writes how long each crate took.

  tests/gate/run.py TABLE          proves every crate and its tests, and runs tests and programs; the table goes to the file TABLE,
                                   at the end or when the run is stopped
  tests/gate/run.py TABLE edits    the same, and also tries each must-fail edit

Once a second the script samples the processor time of the checks below `rt`: of a crate's proof, of its tests, of the check that its
edits start from (the seed), and of each edit. The last second of a check is lost. The slowest edits follow the table. Some kits try a
crate's edits one after another without numbers; then the first check of a crate's edits counts as the seed.

If memory allows, each check gets one job, and as many run as there are processors (`RT_JOBS`). Otherwise `rt` gives up to four jobs to
a proof that runs alone, and each of them reads all libraries below it.

`rt ci` has no option to skip the edits, so the shorter run loads `rt` and empties its list of edits. If that list has another name in
a kit, the run tries the edits too.

After a run without failures, the libraries left in out/ are marked with the sum by which `rt` identifies a library. The firmware and
the library for C, which later parts of ./test build, then need no second proof of the crates below them. A library whose sources
changed meanwhile gets no mark.
"""
import os
import shutil
import signal
import subprocess
import sys
import time
from collections import defaultdict
from pathlib import Path

TOP = Path(__file__).resolve().parents[2]
KIT = Path(os.path.realpath(shutil.which("rt"))).parents[1]
sys.dont_write_bytecode = True
sys.path[:0] = [str(TOP / "tools"), str(KIT / "bin")]
import rtlib  # noqa: E402


# The number of slowest edits that are listed after the table.
DEAREST = 20

# Runs `rt ci` without must-fail edits. The argument is the path of `rt`.
WITHOUT_EDITS = """
import importlib.machinery, importlib.util, sys
loader = importlib.machinery.SourceFileLoader("rt", sys.argv[1])
rt = importlib.util.module_from_spec(importlib.util.spec_from_loader("rt", loader))
loader.exec_module(rt)
rt.edits_of = lambda crate: ([], [])
sys.exit(rt.main(["ci"]))
"""

# The memory for each check with one job. The largest check took 3.6 GB, and four at a time 7.7 GB (28 November 2026).
ROOM = 4 << 30


def processors():
    """Returns the number of usable processors, as `rt` counts them: fewer if a control group has a quota."""
    found = len(os.sched_getaffinity(0))
    for file, period in getattr(rtlib, "QUOTAS", ()):
        quota, period = rtlib.number_in(file, r"^(\d+)"), rtlib.number_in(*period)
        if quota and period:
            found = min(found, max(quota // period, 1))
    return found


def free():
    """Returns the free memory in bytes, within the limit of a control group."""
    found = [1024 * (rtlib.number_in("/proc/meminfo", r"MemAvailable:\s+(\d+)") or 0)]
    for limit, held in getattr(rtlib, "GROUPS", ()):
        limit, held = rtlib.number_in(limit, r"(\d+)"), rtlib.number_in(*held)
        if limit and held is not None:
            found.append(limit - held)
    return min(found)


def surroundings():
    """Returns the environment of `rt ci`: one job per check if there is memory for as many checks as processors."""
    if "RT_JOBS" in os.environ or free() < ROOM * processors():
        return os.environ
    return {**os.environ, "RT_JOBS": str(processors())}


def kind_of(words, room):
    """Returns the kind of a check: a crate's proof, its tests, the seed of its edits, or an edit, with its number if it has one."""
    if room.startswith(str(TOP)):
        return ("tests" if "--test" in words else "proof"), None
    place = os.path.basename(words[words.index("--incremental") + 1]) if "--incremental" in words[:-1] else ""
    if place == "seed":
        return "seed", None
    return "edits", int(place) if place.isdigit() else None


def checks_below(pid):
    """Yields each check that now runs below this process: its identity, its crate, its kind, the number of its edit, and its processor
    seconds, including those of processes that it waited for."""
    for folder in Path("/proc").iterdir():
        try:
            if not folder.name.isdigit() or f"\nPPid:\t{pid}\n" not in (folder / "status").read_text():
                continue
            # the fields after the name, which may contain blanks: four times from the twelfth on, the start at the twentieth
            fields = (folder / "stat").read_text().rpartition(")")[2].split()
            words = (folder / "cmdline").read_bytes().decode(errors="replace").split("\0")
            room = os.readlink(folder / "cwd")
        except OSError:
            continue
        if "--crate-name" in words[:-1] and os.path.basename(words[0]) == "rattle":
            crate = words[words.index("--crate-name") + 1]
            took = sum(map(int, fields[11:15])) / os.sysconf("SC_CLK_TCK")
            yield (folder.name, fields[19]), crate, *kind_of(words, room), took


KINDS = ("proof", "tests", "seed", "edits")


def in_turn(checks, edits):
    """Numbers the checks of a crate's edits in the order in which they began, if they have no numbers. The first is the seed; after the
    last edit the crate is checked unchanged."""
    found, turns = {}, defaultdict(list)
    for key, took in checks.items():
        (_, began), crate, kind, number = key
        if kind == "edits" and number is None and len(edits[crate]) > 1:
            turns[crate].append((int(began), key, took))
        else:
            found[key] = took
    for crate, own in turns.items():
        for at, (_, (which, *_), took) in enumerate(sorted(own)):
            found[which, crate, "edits" if at else "seed", at] = took
    return found


def line_of(name, seconds, edits):
    return f"{name:24} " + " ".join(f"{seconds[kind]:7.0f}" for kind in KINDS) + f" {edits:9d}"


def table(seconds, edits, whole):
    """Returns the time of each crate, the slowest first, and of all together."""
    lines = [f"{'processor seconds':24} " + " ".join(f"{kind:>7}" for kind in KINDS) + f" {'(number)':>9}"]
    for crate in sorted(seconds, key=lambda it: -sum(seconds[it].values())):
        lines.append(line_of(crate, seconds[crate], len(edits[crate])))
    sums = {kind: sum(it[kind] for it in seconds.values()) for kind in KINDS}
    lines.append(line_of("sum", sums, sum(map(len, edits.values()))))
    lines.append(f"rt ci took {whole / 60:.0f} minutes on {len(os.sched_getaffinity(0))} processors")
    return lines


def dearest(checks, edits):
    """Returns the slowest edits. A check of an edit that starts from scratch has no number, and is identified only if the crate has one
    edit."""
    took = defaultdict(float)
    for (_, crate, kind, number), seconds in checks.items():
        number = 0 if number is None and len(edits[crate]) == 1 else number
        if kind == "edits" and number is not None and number < len(edits[crate]):
            took[f"{crate}/{edits[crate][number]}"] += seconds
    found = sorted(took.items(), key=lambda it: -it[1])[:DEAREST]
    return [f"{seconds:7.0f} {name}" for name, seconds in found]


def sums():
    """Returns the sum by which `rt` identifies each library: of its sources and of those below it."""
    return {Path(it.folder): it.stamp() for it in rtlib.crates_below(str(TOP))}


def mark(before):
    """Marks the libraries that the gate left if their sources are unchanged."""
    for folder, found in sums().items():
        left = folder / "out" / "rlib"
        if (left / f"{folder.name}.rlib").is_dir() and not (left / "stamp").exists() and before[folder] == found:
            (left / "stamp").write_text(found)


def gate(with_edits):
    """Returns the command of the gate."""
    rt = os.path.realpath(shutil.which("rt"))
    if with_edits or "def edits_of(" not in Path(rt).read_text():
        return [rt, "ci"]
    return [sys.executable, "-c", WITHOUT_EDITS, rt]


def main():
    os.chdir(TOP)
    if len(sys.argv) not in (2, 3) or sys.argv[1].startswith("-") or sys.argv[2:] not in ([], ["edits"]):
        print(__doc__.split("\n\n")[1], file=sys.stderr)
        return 2
    before = sums()
    checks = {}
    # (in the order in which `rt` numbers them)
    edits = {it.name: sorted(edit.name for edit in it.glob("must-fail/*.edit")) for it in (TOP / "crates").iterdir()}
    started = time.monotonic()
    running = subprocess.Popen(gate(sys.argv[2:] == ["edits"]), cwd=TOP, env=surroundings())
    signal.signal(signal.SIGINT, signal.SIG_IGN)
    while running.poll() is None:
        time.sleep(1)
        for which, crate, kind, number, took in checks_below(running.pid):
            checks[which, crate, kind, number] = took
    checks = in_turn(checks, edits)
    seconds = defaultdict(lambda: defaultdict(float))
    for (_, crate, kind, _), took in checks.items():
        seconds[crate][kind] += took
    lines = table(seconds, edits, time.monotonic() - started) + ["The slowest edits:"] + dearest(checks, edits)
    Path(sys.argv[1]).write_text("\n".join(lines) + "\n")
    if running.returncode == 0:
        mark(before)
    return running.returncode


if __name__ == "__main__":
    sys.exit(main())
