#!/usr/bin/env python3
"""Tests the first run of `./pmpmon`, and `./pmpmon --unproved`, with a stand-in for `rt` that proves nothing and takes a second.

  tests/first_start/run.py

The test compares standard output, standard error and the status of each kind of run: help and errors of the command line, the first
run, one that the planner alone answers, one that is interrupted, one whose proof fails, one that reads a pipe, and the second. The
last line printed is 'N passed, M failed'.
"""
import importlib.machinery
import importlib.util
import os
import re
import shutil
import signal
import subprocess
import sys
import tempfile
import time
from pathlib import Path

sys.path.insert(0, str(Path(__file__).resolve().parents[1]))
sys.dont_write_bytecode = True
from counting import Count  # noqa: E402

TOP = Path(__file__).resolve().parents[2]
# Answers like rt: a try with status 3 (never for the word `long`), a proof of two crates, and a program with status 5.
# The planner alone exits with 1 if its map is empty, and with 3 if it contains `full`; a try of it exits with 1 and
# with 0.
RT = """#!/usr/bin/env bash
while [ "$1" = try ] && [ "$2" = --data ]; do
    case "$3" in long=*) echo 'run=limit proved=no' >&2; exit 2 ;; esac
    data="$data $3"
    set -- try "${@:4}"
done
case "$1 $2" in
'try --')
    if [ "$(basename "$PWD")" = map_planner ]; then
        status=1
        [ ! -s "${data#*=}" ] || { status=0; echo "planned without proof:${*:3}"; }
        printf "checked: ended status=$status\\nrun=ended status=$status runners=1 proved=no\\n" >&2
        exit $status
    fi
    echo "unproved:${*:3}$data" | sed "s|$PWD||"
    case " $* " in *' - '*) cat ;; esac
    echo 'a fault' >&2
    printf 'checked: ended status=3\\nrun=ended status=3 runners=1 proved=no\\n' >&2
    exit 3 ;;
'all check')
    echo "$@" >>"$ASKED"
    sleep "${SLOW:-1}"
    printf '== pmp_encoding\\nlogic=proved functions=5\\n'
    [ -z "$BROKEN" ] || { printf '== pmpmon\\nerror: no\\n== summary\\npmpmon: failed (1)\\n'; exit 1; }
    printf '== pmpmon\\nlogic=proved functions=7\\n== summary\\n' ;;
'run --')
    echo "$@" >>"$ASKED"
    mkdir -p out
    [ -z "$SAVED" ] || touch "$SAVED"
    if [ "$(basename "$PWD")" = map_planner ]; then
        printf '#!/usr/bin/env bash\\n[ -s "$1" ] || exit 1\\ngrep -q full "$1" && exit 3\\necho "planned:$*"\\n' >out/map_planner
        chmod +x out/map_planner
        exit
    fi
    printf '#!/usr/bin/env bash\\necho "proved:$*"\\ncase " $* " in *" - "*) cat ;; esac\\nexit 5\\n' >out/pmpmon
    chmod +x out/pmpmon ;;
esac
"""

# The part of the kit's library that tools/prove uses, for five crates whose sources have the version in the
# environment; measurement is not proved if that version says so.
LIBRARY = """import os, sys
BELOW = {"pmp_encoding": [], "measurement": ["pmp_encoding"], "page_views": ["pmp_encoding"], "entry_planner": ["pmp_encoding", "page_views"]}
LIBRARIES = [*BELOW]
BELOW["pmpmon"] = BELOW["map_planner"] = LIBRARIES


class Crate:
    cuts_libraries = False

    def __init__(self, name):
        self.name, self.folder = name, os.path.join(os.path.dirname(os.getcwd()), name)
        self.rlib = os.path.join(self.folder, "out", "rlib", name + ".rlib")
        self.mark = os.path.join(self.folder, "out", "rlib", "stamp")

    def below(self):
        return [ALL[it] for it in BELOW[self.name]]

    def stamp(self):
        return self.name + os.environ.get("VERSION", "")

    def has_kept(self):
        return False

    def is_built(self):
        return os.path.isdir(self.rlib) and os.path.isfile(self.mark) and open(self.mark).read() == self.stamp()

    def build_rlib(self, flags, anew):
        if not anew and self.is_built():
            return 0
        with open(os.environ["ASKED"], "a") as asked:
            print("prove", self.name, *flags, "statements" if anew and self.cuts_libraries else "proofs", file=asked)
        fails = self.name == "measurement" and "BROKEN" in os.environ
        print("error: no" if fails else "logic=proved functions=5", file=self.out)
        if not fails:
            os.makedirs(self.rlib, exist_ok=True)
            if not self.cuts_libraries:
                with open(self.mark, "w") as mark:
                    mark.write(self.stamp())
        return int(fails)


ALL = {it: Crate(it) for it in BELOW}
crates_below = lambda top: [ALL[it] for it in (*LIBRARIES, os.path.basename(top))]
guarded = lambda: None
lock = lambda crates: None
stop_on_links = lambda folder: None
"""


TOOLS = [f"tools/{it}" for it in ("at_once", "build", "help.txt", "prove", "plan_alone.py", "unproved", "seconds.txt")]


class House:
    """A repository with the few files that a run reads, and the stand-in on the PATH."""

    def __init__(self, folder):
        self.folder, self.asked = folder, folder / "asked"
        for name in (*TOOLS, "pmpmon", "crates.txt"):
            (folder / name).parent.mkdir(exist_ok=True)
            shutil.copy(TOP / name, folder / name)
        for name in ("pmpmon", "map_planner"):
            (folder / "crates" / name / "src").mkdir(parents=True)
            (folder / "crates" / name / "src" / "main.rt").write_text("\n")
        (folder / "bin").mkdir()
        (folder / "bin" / "rt").write_text(RT)
        (folder / "bin" / "rt").chmod(0o755)
        for name, text in {"m.map": "\n", "long": "\n", "empty.map": "", "full.map": "full\n"}.items():
            (folder / name).write_text(text)
        self.environment = {**os.environ, "PATH": f"{folder / 'bin'}:{os.environ['PATH']}", "ASKED": str(self.asked)}

    def start(self, *words, given=b"", **more):
        how = {"cwd": self.folder, "capture_output": True, "env": {**self.environment, **more}}
        return subprocess.run([str(self.folder / "pmpmon"), *words], input=given, **how)

    def calls(self):
        return self.asked.read_text().split("\n")[:-1] if self.asked.is_file() else []

    def wait_for_call(self, before, seconds=60):
        """Waits until the stand-in is called once more; on a busy machine a run takes its time."""
        ends = time.monotonic() + seconds
        while self.calls() == before and time.monotonic() < ends:
            time.sleep(0.1)


def first_start(house):
    ran = house.start("show", "m.map")
    between = re.search(rb"---- the answer of a build that nobody has proved\n(.*?)pmpmon: ---- status 3\. The proved", ran.stderr, re.S)
    yield "a first start: standard output is the proved program's", ran.stdout == b"proved:show m.map\n"
    yield "a first start: the status is the proved program's", ran.returncode == 5
    shown = between.group(1) if between else b""
    yield "a first start: the unproved answer stands between two lines", shown == b"unproved:show m.map m.map=/m.map\na fault\n".replace(b"=/", b"=%s/" % bytes(house.folder))
    yield "a first start: what is proved is said", b"pmp_encoding is proved, 5 functions" in ran.stderr
    yield "a first start: one proof and one build", [it.split()[0] for it in house.calls()] == ["all", "run"]
    again = house.start("show", "m.map")
    yield "a second start: the program alone", (again.stdout, again.stderr, again.returncode) == (b"proved:show m.map\n", b"", 5)
    yield "a second start proves nothing", len(house.calls()) == 2
    later = time.time() + 10
    os.utime(house.folder / "crates" / "pmpmon" / "src" / "main.rt", (later, later))
    changed = house.start("show", "m.map")
    yield "after a change: no unproved answer", b"nobody has proved" not in changed.stderr and changed.returncode == 5


def saved_meanwhile(house):
    house.start("show", "m.map", SAVED=str(house.folder / "crates" / "pmpmon" / "src" / "main.rt"))
    calls = len(house.calls())
    again = house.start("show", "m.map")
    yield "a source that is saved while the program is built: the next start builds it again", len(house.calls()) > calls and again.returncode == 5


def library(house):
    (house.folder / "bin" / "rtlib.py").write_text(LIBRARY)
    ran = house.start("show", "m.map")
    yield "by the kit's library: the proved program's answer", (ran.stdout, ran.returncode) == (b"proved:show m.map\n", 5)
    yield "by the kit's library: what is proved is said", b"entry_planner is proved, 5 functions" in ran.stderr
    calls = [it.split() for it in house.calls()]
    yield "by the kit's library: each crate once, its statements alone, and then the program", sorted(it[1] for it in calls[:-1]) == sorted(["pmp_encoding", "measurement", "page_views", "entry_planner"]) and calls[-1][0] == "run" and all(it[-1] == "statements" for it in calls[:-1])
    house.asked.unlink()
    later = time.time() + 10
    os.utime(house.folder / "crates" / "pmpmon" / "src" / "main.rt", (later, later))
    changed = house.start("show", "m.map", VERSION="2")
    calls = [it.split() for it in house.calls()]
    yield "after a change: each crate once, its proofs kept, and then the program", len(calls) == 5 and calls[-1][0] == "run" and all(it[-1] == "proofs" for it in calls[:-1])
    yield "after a change: what is proved is said, and the program answers", b"entry_planner is proved, 5 functions" in changed.stderr and changed.returncode == 5
    house.asked.unlink()
    proves = [str(house.folder / "tools" / "prove"), str(house.folder / "crates" / "pmpmon")]

    def calls_of(lanes, version):
        subprocess.run([*proves, lanes], env={**house.environment, "VERSION": version}, capture_output=True)
        calls = [it.split() for it in house.calls()]
        house.asked.unlink(missing_ok=True)
        return calls

    yield "where nothing has changed no crate is proved", calls_of("1", "2") == []
    shutil.rmtree(house.folder / "crates" / "page_views" / "out")
    again = {it[1]: it[-1] for it in calls_of("1", "2")}
    yield "a crate that was removed is proved, and what stands on it, and no other", again == {"page_views": "statements", "entry_planner": "proofs"}
    yield "one lane: the longest chain first", [it[1] for it in calls_of("1", "3")] == ["pmp_encoding", "page_views", "entry_planner", "measurement"]
    jobs = {it[1]: it[3] for it in calls_of("4", "4")}
    yield "four lanes: a crate that all others wait for has them all, two that can begin at once have two", (jobs["pmp_encoding"], jobs["page_views"], jobs["measurement"]) == ("4", "2", "2")


def failing_library(house):
    (house.folder / "bin" / "rtlib.py").write_text(LIBRARY)
    ran = house.start("show", "m.map", BROKEN="yes")
    yield "by the kit's library: a proof that fails is shown, with status 70", (ran.returncode, ran.stdout) == (70, b"") and b"error: no" in ran.stderr and b"measurement: failed" in ran.stderr


def pipe(house):
    ran = house.start("plan", "-", given=b"one\ntwo\n")
    yield "a pipe: the unproved answer reads it", b"unproved:plan -\none\ntwo\n" in ran.stderr
    yield "a pipe: the proved program reads all of it too", ran.stdout == b"proved:plan -\none\ntwo\n"


def no_answer(house):
    ran = house.start("run", "long", "m.map")
    yield "an answer that a try can't give is left to the proof", b"no answer before the proof ends" in ran.stderr and ran.stdout == b"proved:run long m.map\n"


def failing_proof(house):
    ran = house.start("show", "m.map", BROKEN="yes")
    yield "a proof that fails: status 70, nothing on standard output", (ran.returncode, ran.stdout) == (70, b"")
    yield "a proof that fails is shown", b"error: no" in ran.stderr and b"could not be built" in ran.stderr


def stopped(house):
    # A test in the background may have been started with SIGINT ignored, which its children would inherit.
    def heed():
        signal.signal(signal.SIGINT, signal.SIG_DFL)

    how = {"cwd": house.folder, "stdin": subprocess.DEVNULL, "stdout": subprocess.PIPE, "stderr": subprocess.PIPE, "start_new_session": True, "preexec_fn": heed}
    before = house.calls()
    begun = subprocess.Popen([str(house.folder / "pmpmon"), "show", "m.map"], env={**house.environment, "SLOW": "60"}, **how)
    house.wait_for_call(before)
    time.sleep(1)
    os.killpg(begun.pid, signal.SIGINT)
    out, err = begun.communicate(timeout=50)
    yield "Ctrl-C: status 130, and what is done stays", begun.returncode == 130 and out == b"" and b"goes on with what is proved" in err


def unproved(house):
    ran = house.start("--unproved", "show", f"{house.folder}/m.map")
    name = str(house.folder / "m.map")[1:].encode()
    yield "--unproved: the answer and its status", (ran.stdout.startswith(b"unproved:show " + name), ran.returncode) == (True, 3)
    yield "--unproved: says what it is, and what a file is called", b"nobody has proved; " in ran.stderr and b" is called " + name in ran.stderr
    yield "--unproved starts no proof", house.calls() == []
    ran = house.start("--unproved", "plan", "-", given=b"three\n")
    yield "--unproved: standard input", ran.stdout == b"unproved:plan -\nthree\n"
    ran = house.start("--unproved", "plan", "m.map")
    yield "--unproved: a plan is that of the planner alone", (ran.stdout, ran.returncode) == (b"planned without proof:m.map\n", 0)
    ran = house.start("--unproved", "plan", f"{house.folder}/m.map")
    yield "--unproved: the planner too gets a file under another name, which is said", ran.stdout == b"planned without proof:" + name + b"\n" and b" is called " + name in ran.stderr
    one, two = house.folder / "m.map", house.folder / str(house.folder)[1:] / "m.map"
    two.parent.mkdir(parents=True)
    two.write_text("\n")
    ran = house.start("--unproved", "judge", str(one), str(two.relative_to(house.folder)))
    names = ran.stdout.decode().split("\n")[0].split()[1:]
    yield "--unproved: two files that would have one name have two", names[0] != names[1] and names[2:] == [f"{names[0]}={one}", f"{names[1]}={two}"]
    ran = house.start("--unproved", "plan", "empty.map")
    yield "--unproved: where the planner has no answer, the program has", (ran.stdout.startswith(b"unproved:plan empty.map "), ran.returncode) == (True, 3)
    ran = house.start("--unproved", "plan", "m.map", "--format", "c")
    yield "--unproved: other words are the program's", ran.stdout.startswith(b"unproved:plan m.map --format c ")


def planner(house):
    ran = house.start("plan", "m.map")
    yield "a first plan: the planner alone answers", (ran.stdout, ran.returncode) == (b"planned:m.map\n", 0)
    yield "a first plan: the planner's unproved answer is shown before", b"planned without proof:m.map" in ran.stderr and b"nobody has proved" in ran.stderr
    yield "a first plan: what is left to prove is said", b"that of the planner alone, proved; the program is proved by" in ran.stderr
    yield "a first plan: one proof and one build, of the planner", [it.split()[0] for it in house.calls()] == ["all", "run"]
    again = house.start("plan", "m.map")
    yield "a second plan: the planner alone, which says no more", (again.stdout, again.stderr, again.returncode) == (b"planned:m.map\n", b"", 0)
    yield "a second plan proves nothing", len(house.calls()) == 2
    full = house.start("plan", "full.map")
    yield "a plan that could not be written ends so", (full.stdout, full.returncode) == (b"", 3) and len(house.calls()) == 2
    words = house.start("plan", "m.map", "--format", "c")
    yield "other words are the program's", (words.stdout, words.returncode) == (b"proved:plan m.map --format c\n", 5)
    after = house.start("plan", "m.map")
    yield "where the program is built, it answers", (after.stdout, after.returncode) == (b"proved:plan m.map\n", 5)


def no_plan(house):
    ran = house.start("plan", "empty.map")
    yield "where the planner has no answer, the program has", (ran.stdout, ran.returncode) == (b"proved:plan empty.map\n", 5)
    yield "and the program's unproved answer is shown once", ran.stderr.count(b"nobody has proved") == 1 and b"unproved:plan empty.map" in ran.stderr
    yield "and that the planner has none is said", b"the planner alone has no answer" in ran.stderr


def failing_planner(house):
    ran = house.start("plan", "m.map", BROKEN="yes")
    yield "a planner whose proof fails: status 70, nothing on standard output", (ran.returncode, ran.stdout) == (70, b"")


def load(path):
    """Loads a script as a module."""
    loader = importlib.machinery.SourceFileLoader(path.stem, str(path))
    made = importlib.util.module_from_spec(importlib.util.spec_from_loader(path.stem, loader))
    sys.modules[path.stem] = made
    loader.exec_module(made)
    return made


def at_once(house):
    for words, status in ((["--help"], 0), (["plan", "--help"], 0), (["--version"], 0), (["draw"], 2), (["plan"], 2), (["plan", "m.map", "--entries", "17"], 2)):
        ran = house.start(*words)
        yield f"on an unbuilt clone: {' '.join(words)}", ran.returncode == status and bool(ran.stdout) == (status == 0) and bool(ran.stderr) == (status == 2)
    version = house.start("--version").stdout
    yield "on an unbuilt clone the version claims no proof", b"Not proved yet: " in version and b"\nProved" not in version
    yield "on an unbuilt clone: none of these starts a proof", house.calls() == []
    answers, transcripts = load(TOP / "tools" / "at_once"), load(TOP / "tests" / "transcripts" / "run.py")
    known, answered = answers.texts(), 0
    for path in sorted((TOP / "tests" / "transcripts").glob("*.txt")):
        for command in transcripts.commands_of(path):
            words = [it.decode(errors="replace") if isinstance(it, bytes) else it for it in command.words]
            status, text = answers.answer(words, known)
            if status != answers.NOT_HERE:
                answered += 1
                if (status, text) != (command.status, (command.out if status == 0 else command.err).decode()):
                    yield f"{command.place}: tools/at_once answers something else than the program", False
    yield "each command of the transcripts that is answered at once has the program's answer", answered > 20


def main():
    count = Count()
    for kind in (at_once, first_start, saved_meanwhile, library, failing_library, pipe, no_answer, failing_proof, stopped, unproved, planner, no_plan, failing_planner):
        with tempfile.TemporaryDirectory() as made:
            for what, good in kind(House(Path(made).resolve())):
                count.note(good, what)
    return count.end()


if __name__ == "__main__":
    sys.exit(main())
