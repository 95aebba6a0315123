"""Compares the two tables of README.md here with the definition of the board, with the image and with the facts, and the functions of the
model of how harts meet with the facts.

A row of the first names a field of a record of Board.antt, a row of the second a function of the image. Each has facts in its last column,
as `name`, or says after "not proved:" why it has none.
"""
import re
import sys
from pathlib import Path

HERE = Path(__file__).resolve().parent
sys.path.append(str(HERE.parent / "on_hart"))
import interleavings  # noqa: E402

BOARD = HERE.parents[1] / "crates/board/specs/Board.antt"
RECORDS = ("DoesAccess", "DoesCompute", "DoesWrite", "DoesAside", "DoesPark", "DoesStart", "TrapDuties", "DoesTrap", "ChangesRunning", "ChangesFloats",
           "ChangesControl", "IsBooted")
# A field that is a record of its own has a row for each field of that record.
NESTED = {"DoesTrap.duties"}
# The proved core: its own functions, and the entry points that the firmware calls.
CORE = re.compile(r"::|^pmpmon_")


def conjuncts():
    """The fields of the records that say what happens on a board, and what a board is after boot."""
    text = BOARD.read_text()
    for record in RECORDS:
        body = re.search(rf"(?ms)^record pub {record} |^pub record {record} (.*?)(?=^-- |\Z)", text)
        for field in re.findall(r"(?m)^  pub (\w+) :", body.group(0)):
            if f"{record}.{field}" not in NESTED:
                yield f"{record}.{field}"


def functions(image):
    """The functions of the image that are not of the proved core, without the suffixes of parts that the compiler splits off."""
    at_end = image.text_base + len(image.text)
    names = {re.sub(r"\.(part|constprop|isra|cold)\b.*", "", name) for at, name in image.starts if image.text_base <= at < at_end}
    return {it for it in names if not CORE.search(it)}


def rows(heading):
    """The rows of a table by their first column: the facts that a row names, and the reason why it has none."""
    text = (HERE / "README.md").read_text()
    part = text.split(f"\n## {heading}\n")[1].split("\n## ")[0]
    for line in part.split("\n"):
        cells = [it.strip() for it in line.strip().strip("|").split("|")]
        if line.startswith("| `"):
            for name in re.findall(r"`([^`]+)`", cells[0]):
                yield name, re.findall(r"`(\w+)`", cells[-1].split("not proved:")[0]), cells[-1].partition("not proved:")[2].strip()


def faults_of(heading, wanted, facts):
    """What a table lacks, has too much, or names wrongly."""
    found, faults = {}, []
    for name, named, reason in rows(heading):
        found[name] = found.get(name, False) or bool(named or reason)
        faults += [f"{name}: no fact {it}" for it in named if it not in facts]
    faults += [f"{name} has neither a fact nor a reason" for name in sorted(wanted) if not found.get(name)]
    return faults + [f"{name} is in the table and nowhere else" for name in sorted(set(found) - set(wanted))]


def compare(image, facts):
    """Yields what is compared, and its faults."""
    yield "README.md: each premise of the board has a fact or a reason", faults_of("The premises of the board", set(conjuncts()), facts)
    yield "README.md: each function of the image has a fact or a reason", faults_of("The functions of the image", functions(image), facts)
    yield "interleavings.py: each function of the model has a fact that is proved", [f"{function}: no fact {fact}" for function, fact in interleavings.FACTS.items() if fact not in facts]
