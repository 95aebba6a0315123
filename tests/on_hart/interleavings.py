"""The orders in which harts can meet: a model of what firmware/trap.S, harts.c, serve.c and reset.c do with the monitor's lock, the stop
of harts, fences, sleep, parked harts and the end of the board, searched by Spin (harts.pml, which describes it).

  tests/on_hart/interleavings.py           two harts with all of it, and three with fences and the lock, each exhaustively; models that
                                           lack one step, which the search has to refuse; and whether each function of the model has
                                           a fact about its machine code
  tests/on_hart/interleavings.py --three   three harts with more, for an hour and 16 GB

Without spin (Debian's package of that name) only the facts are looked for.
"""
import re
import shutil
import subprocess
import sys
import tempfile
from pathlib import Path

TOP = Path(__file__).resolve().parents[2]
MODEL = Path(__file__).resolve().parent / "harts.pml"
# The functions whose accesses and fences the steps of the model are, and the fact of tests/machine_code that states their order. run.py there
# proves each of them.
FACTS = {
    "run_world": "monitor_left_and_taken",
    "wake_called": "monitor_left_and_taken",
    "take_monitor": "monitor_left_and_taken",
    "wait_for_call": "lock_waited",
    "park": "parked_until_wanted",
    "unpark": "hart_unparked",
    "serve_alone": "serve_alone",
    "take_requests": "requests_taken",
    "make_fences": "requests_taken",
    "fence_harts": "harts_fenced",
    "load_changes": "entries_loaded_if_stale",
    "stand_still": "stands_still",
    "stop_harts": "harts_stopped",
    "change_lists": "lists_changed",
    "forget": "forgets_in_order",
}

# What the worlds of the harts may call for, by the model's numbers.
ASK, CALL, CHANGE, PARK, START, END = 1, 2, 4, 8, 16, 32
# What is searched: how many harts, what the world of each calls for, and whether it is counted who goes in before whom.
SEARCHED = [
    ("two harts with fences, creations, sleep, parking, starts and the end of the board", 2, [63, 63], False),
    ("three harts, one of which asks for fences", 3, [ASK, CALL, CALL], False),
    ("two harts: each goes in at most once before the other that waits", 2, [CALL, CALL], True),
]
LONGER = [
    ("three harts, one of which changes entries", 3, [CHANGE, CALL, CALL], False),
    ("three harts, one of which asks for fences and one changes entries", 3, [ASK, CHANGE, CALL], False),
    ("three harts: each goes in at most once before another that waits", 3, [CALL, CALL, CALL], True),
    ("three harts with fences, creations, parking, starts and the end of the board", 3, [ASK, CHANGE | START, PARK | CALL | END], False),
]
# What each model lacks, and the smallest search that refuses it.
LACKS = [
    ("fence after the CLINT", "NO_FENCE_AFTER_CLINT", SEARCHED[0]),
    ("fence before the next hart is woken", "NO_FENCE_BEFORE_WAKE", SEARCHED[0]),
    ("fence after `stopping`", "NO_FENCE_AFTER_STOPPING", SEARCHED[0]),
    ("fence before the harts are released", "NO_FENCE_BEFORE_LET_GO", SEARCHED[0]),
    ("look after a stop", "NO_LOOK_AFTER_STOP", SEARCHED[0]),
    ("look at requests before that at `stopping`", "NO_REQUESTS_BEFORE_STOP", SEARCHED[0]),
    ("fence after `is_out`", "NO_FENCE_AFTER_HALTED", SEARCHED[0]),
    ("own fences while a hart waits", "NO_FENCES_WHILE_WAITING", SEARCHED[0]),
    ("look at the count of fences", "NO_LOOK_AT_COUNT", SEARCHED[1]),
    ("tickets of the lock", "NO_TICKETS", SEARCHED[2]),
]


def searched(harts, roles, is_counted, lack=None):
    """What Spin finds: the number of errors, of states, and whether it has seen all of them."""
    macros = [f"-DN={harts}", *(f"-DROLE{hart}={role}" for hart, role in enumerate([*roles, 0][:3])), *(["-DPASSED"] if is_counted else []), *([f"-D{lack}"] if lack else [])]
    with tempfile.TemporaryDirectory() as folder:
        shutil.copy(MODEL, folder)
        subprocess.run(["spin", "-a", *macros, MODEL.name], cwd=folder, check=True, capture_output=True)
        subprocess.run(["gcc", "-w", "-O2", "-DSAFETY", "-DCOLLAPSE", "-o", "pan", "pan.c"], cwd=folder, check=True)
        told = subprocess.run(["./pan", "-m100000000", "-w22"], cwd=folder, capture_output=True, text=True).stdout
    found = re.search(r"errors: (\d+)\n\s*(\d+) states, stored", told)
    is_whole = "not completed" not in told and "max search depth too small" not in told
    return (int(found.group(1)), int(found.group(2)), is_whole) if found else (-1, 0, False)


def interleavings(searches=SEARCHED):
    """What was tried, whether it is right, and why not: the facts that tie the model to the code, the model, and models that lack a step."""
    facts = "".join(it.read_text() for it in sorted((TOP / "tests/machine_code").glob("facts_*.py")))
    lacking = [f"{function}: {fact}" for function, fact in FACTS.items() if f"def {fact}(p):" not in facts]
    yield "each function of the model has a fact about its machine code", not lacking, ", ".join(lacking)
    if not shutil.which("spin"):
        print("left out: the orders in which harts can meet, since spin is not installed (Debian's spin)")
        return
    for what, *search in searches:
        errors, states, is_whole = searched(*search)
        yield f"{what}: {states} states", errors == 0 and is_whole, f"{errors} errors, all states: {is_whole}"
    for what, lack, (_, *search) in LACKS if searches is SEARCHED else ():
        errors, states, _ = searched(*search, lack)
        yield f"without the {what} the search fails", errors > 0, f"{errors} errors in {states} states"


def all_interleavings():
    """The same at once, for a process of its own."""
    return list(interleavings())


if __name__ == "__main__":
    for what, right, why in interleavings(LONGER if "--three" in sys.argv else SEARCHED):
        print("ok" if right else "FAILED", what, why if not right else "", flush=True)
