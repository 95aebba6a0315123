#!/usr/bin/env python3
"""Compares docs/HEADLINE.md and its parts with the sources: the theorems, and every definition of this repository that they rest on.

  tests/headline/run.py            fails if a page differs from the sources
  tests/headline/run.py --write    writes the pages

The first page has the theorems and a table of the parts, each of which is a page in docs/headline (PARTS). A part has the contracts of
its functions, followed by the definitions and types that they cite and no earlier part has, lowest crate first. Definitions are found
as in tests/definitions/run.py. The observable state of a machine or a monitor (SHOWN) is known by the contracts of the functions that
read it; those of a machine are in the first part. Its body, and the fields that it reads, are therefore not on the page. Every other
definition is shown in full. The test also fails if a part, or `boot`, `step` and `run` together, has more names or lines than MOST
allows, and if one name stands for two things on the page. The last line printed is 'N passed, M failed'.
"""
import importlib.machinery
import importlib.util
import re
import sys
from pathlib import Path

TOP = Path(__file__).resolve().parents[2]
CRATES = TOP / "crates"
PAGE = TOP / "docs" / "HEADLINE.md"
FOLDER = TOP / "docs" / "headline"
MACHINE = "hart_sim/src/machine.rt"
MONITOR = "monitor_core/src/steps.rt"
PARTS = [
    ("The headline", "The properties of a machine after boot and any list of events.", [("hart_sim/src/laws.rt", "headline_law")]),
    ("Each event", "The answer to an event on any hart, and the bytes that stay.", [("hart_sim/src/laws.rt", "step_law")]),
    ("A step", "The booted machine, and the effect of each event.", [(MACHINE, "boot"), (MACHINE, "step")]),
    ("A call", "The monitor's answer to a call or an interrupt, and its state afterwards.", [(MONITOR, "serve"), (MONITOR, "interrupt")]),
    ("A report", "The bytes read and written when a trace is run.", [("hart_sim/src/trace_run.rt", "run")]),
    ("The firmware", "The properties after any list of traps that the firmware's loop served.", [("trap_server/src/laws.rt", "firmware_law")]),
    ("A board", "The properties of a board that runs the firmware, after any list of events.", [("board/src/laws.rt", "board_law")]),
    ("The model on a board", "Each run of the model is a run of such a board.", [("board/src/laws.rt", "model_law")]),
]
# The theorems, whose contracts are on the first page, each with its part.
THEOREMS = [("hart_sim/src/laws.rt", "headline_law"), ("trap_server/src/laws.rt", "firmware_law"), ("board/src/laws.rt", "board_law")]
# The functions that read a machine: their results are all that is known of `state_of`, `kept_of` and `bank_on`.
OBSERVERS = [(MACHINE, name) for name in ("harts", "world", "registers", "registers_of", "marked", "byte", "is_written", "table", "bank")]
# The maximal number of names and lines of each part, and of all that `boot`, `step` and `run` rest on. They may shrink;
# if one grows, look for redundancy.
MOST = {1: (87, 395), 2: (44, 262), 3: (48, 246), 4: (44, 240), 5: (69, 384), 6: (95, 510), 7: (70, 480), 8: (8, 69), "together": (253, 1320)}
# Known only by those functions, not by a definition: the state of a machine and of a monitor, their tables, and a machine's banks.
SHOWN = {"hart_sim": {"state_of", "kept_of", "bank_on"}, "monitor_core": {"state_of", "kept_of", "worlds_of", "marks_of", "list_of"}}
# Names that a part uses, and whose definitions are in a later part.
LATER = {1: {"Run", "Happens", "IsBooted", "Promises", "IsLayout"}, 2: {"Step"}, 3: {"DoesCall", "Interrupts"}}
# The maximal width of a type's declaration.
WIDTH = 120
OPENING = """# The headline, and everything it rests on

`tests/headline/run.py --write` makes this page and its parts from the sources, and the gate compares them. Every contract shown here is
proved. To trust one, read the definitions that it cites, not its proof; each part shows the definitions that no earlier part has.
Words that are not defined here belong to the kit: numbers, lists, `Option`, equality, SHA-256.

## How to read a clause

The sources are Rattle: Rust in which a function has a contract, and the prover shows that its body meets it. A reader has to
trust the definitions in `specs/`; nothing in `proofs/` has to be trusted or read. A definition is a relation, or a record whose fields
are facts that all hold.

| Form | Meaning |
|---|---|
| `requires {{ .. }}` | a condition that the caller must establish |
| `ensures NAME {{ .. }}` | a *clause*, which holds after every call; documents and edits cite it by NAME |
| `x.old`, `x.new` | the value of a `&mut` argument before and after the call |
| `x.now` | the value of a `&` argument |
| `result` | the function's result |
| `OnOk r P`, `OnErr r P` | if r is an `Ok` (an `Err`), then P |
| `IfOk r (λ v. P)`, `IfErr`, `IfSome` | the same, where P is about the value v inside |
| `MatchResult r (λ v. P) (λ e. Q)` | P for the value of an `Ok`, Q for the error of an `Err` |
| `P × Q`, `P ⊎ Q` | P and Q, P or Q |
| `P → Q`, `P ↔ Q` | if P then Q, P iff Q |
| `(x : T) → P`, `(x : T) × P` | P for every x of T, P for some x of T |
| `ℕ`, `List T` | numbers without a bound, lists of any length |
| a method of an `impl` without clauses | it has its trait's clauses; the `ghost` lines of the `impl` define the trait's names |
| `pub ghost f: {{ .. }}` | a fact that a struct carries; it does not exist at run time |

The bytes of readers and writers appear only in clauses: `remaining` are the bytes still to come, `contents` those that were written. Each is
an `Option`, which is `None` if the bytes are unknown, as for a file, a terminal or a pipe. `Consumes old new bytes` and `Appends old new bytes`
relate them before and after; they say nothing about a device whose bytes are unknown. `failures` and `stalls` count failed calls and
writes that took no bytes, for every device. `run`, `perform` and `serve_traps` work for any reader and writer; their effect on bytes is
proved for readers and writers in memory, and tested for real files and streams.

## The theorems

There are three, over one monitor (`monitor_core`), which the model and the firmware both call.

1. **The model** (`headline_law`, part 1) covers every machine of `hart_sim` that `Machine::boot` made and on which `step` and `run` performed
   events. `After` is a list of such events, each with `Happens`, which states the clauses of `step` for one event. The code
   establishes it: `boot` and `step` each have a clause `after` (part 3).
2. **The firmware** (`firmware_law`, part 6) covers every list of traps that `serve_traps` of `trap_server` read and answered. It states the
   entries in the last list that was answered for each world and in the list that each hart loaded last; the pages that are read or
   zeroed; how register sets change, for all sets that the harts may keep; and the control words of an enclave that is entered. The code
   establishes it in the clauses `all` and `early` of `serve_traps`.
3. **A board** (`board_law`, part 7) covers memory and harts around that loop, and so what worlds do between traps. Its memory is
   RAM outside the monitor's pages: devices and the monitor may change every other byte at any time. The duties of the code around
   the loop are a premise, in one definition for each event. For a trap that the loop serves it is `DoesTrap`: lists of entries, pages and
   registers are kept, loaded, read and zeroed as the answer says, and nothing else of memory and registers changes. A trap that a hart
   serves without the loop (`DoesAside`) changes a0, a1 and the program counter of a host that called, or enters the host's handler; an
   enclave that is interrupted for a fence keeps all of its registers. A host may stop its hart (`DoesPark`) and start another
   (`DoesStart`). A control register holds what was written as far as its bits can be written (`held`); `CanConfine` lists the bits that
   must be able to be zero, and why. `crates/library_tests` proves that QEMU's hart is an instance, and what fails without each of these
   bits and without a duty. Between traps a host may write any control word, and an enclave, in user mode, only its status (`MayWrite`).
   Until a new enclave is entered, no world can change its pages
   (`pages_law`). A board whose traps take time has the same runs: other harts run while pages are zeroed, while stopped harts load their
   lists one by one, and while the pages of a new enclave are read (`time_law`). `answers_law` bounds the words of each answer.

The first and the third agree: each run of the model is a run of a board (`model_law`, part 8), access by access and call by call, with the same
table, worlds, memory and registers at the end. Therefore the facts of part 7 also hold for the model.

`serve_traps` is generic over its reader and writer, and its clauses are about their known bytes. The firmware lends it standard input and
output, whose bytes the proof does not know. A generic function cannot behave differently for them, so the bytes that the firmware's C passes
to the loop and receives from it are such a list of traps.

The theorems do not cover:

- the C and assembly around the loop (`firmware/`), which save and restore registers, load entries and zero pages as the answers say. The
  board theorem takes this as its premise. `tests/machine_code` proves most of it on the machine code that boots, and its table lists
  the fact for each part; the rest is tested on QEMU. For these facts a reader trusts z3, the executor (compared with QEMU) and
  the loader of the ELF, but no compiler;
- the build for RV64, a retargeted build of a proved module, which is tested on QEMU;
- devices whose bytes are unknown, as explained above;
- anything else that a real hart does: caches, side channels, DMA-capable devices, time (see `SECURITY.md`).

## The parts

{parts}

`boot`, `step` and `run` together rest on {names} names and {lines} lines of definitions.

{aliases}

## The three contracts

{theorems}
"""
TOGETHER = [(MACHINE, "boot"), (MACHINE, "step"), ("hart_sim/src/trace_run.rt", "run"), *OBSERVERS]


def definitions():
    """Loads the script tests/definitions/run.py as a module."""
    loader = importlib.machinery.SourceFileLoader("definitions", str(TOP / "tests" / "definitions" / "run.py"))
    made = importlib.util.module_from_spec(importlib.util.spec_from_loader("definitions", loader))
    sys.dont_write_bytecode = True
    loader.exec_module(made)
    return made


READ = definitions()


def order():
    """Returns the position of each crate in crates.txt, lowest first."""
    names = re.findall(r"(?m)^(\w+)(?: \w+)?:", (TOP / "crates.txt").read_text())
    return {name: place for place, name in enumerate(names)}


def type_of(path):
    """Returns the file and the name of the Rust type that a path of definitions names, or None."""
    found = re.match(r"Rattle\.(\w+)\.specs\.declared\.(.+)$", path)
    if not found:
        return None
    crate, parts = found.group(1), found.group(2).split(".")
    for length in range(len(parts) - 1, 0, -1):
        file = CRATES / crate / "src" / ("/".join(parts[:length]) + ".rt")
        if file.is_file():
            return f"{crate}/src/{file.relative_to(CRATES / crate / 'src')}", parts[length]
    return None


def declared(file, name):
    """Returns the declaration of a type, without its derives and the comments of its fields."""
    text = (CRATES / file).read_text()
    head = re.search(rf"(?m)^(?:pub(?:\(crate\))? )?(?:struct|enum) {name}\b", text)
    if not head:
        return ""
    ends = [it for it in (text.find(";", head.start()), text.find("{", head.start())) if it >= 0]
    end = min(ends) + 1
    if text[end - 1] == "{":
        end = READ.matching(text, end - 1)
    lines = [it for it in text[head.start() : end].split("\n") if not it.strip().startswith(("///", "#["))]
    return folded("\n".join(lines))


def parts_of(text):
    """Splits a text at its commas outside all brackets."""
    parts, depth = [""], 0
    for c in text:
        depth += (c in "([{<") - (c in ")]}>")
        if c == "," and depth == 0:
            parts.append("")
        else:
            parts[-1] += c
    return [it for it in (" ".join(part.split()).replace(", }", " }") for part in parts) if it]


def folded(text):
    """Formats a declaration on one line if it fits; otherwise each part with braces gets a line, and other parts fill lines."""
    head, brace, body = text.partition("{")
    if not brace:
        return text
    parts = parts_of(body[: body.rindex("}")])
    short = f"{head}{{ {', '.join(parts)} }}"
    if len(short) <= WIDTH:
        return short
    lines = []
    for part in parts:
        if lines and "{" not in lines[-1] + part and len(lines[-1]) + len(part) + 2 <= WIDTH:
            lines[-1] += f" {part},"
        else:
            lines.append(f"    {part},")
    return "\n".join([f"{head}{{", *lines, "}"])


def types_in(text, names):
    for word in READ.WORD.findall(text):
        path = names.get(word.partition(".")[0])
        found = type_of(path) if path else None
        if found and declared(*found):
            yield found


def contract(file, function):
    """Returns the doc, the head and the clauses of a function, and the names in scope there."""
    text = (CRATES / file).read_text()
    lines = text.split("\n")
    at = next(i for i, it in enumerate(lines) if re.match(rf"\s*pub fn {function}\b", it))
    first = at
    while lines[first - 1].strip().startswith(("///", "#[")):
        first -= 1
    last = at
    while not re.match(r"\s*\{(\})?$", lines[last]):
        last += 1
    shown = [it for it in lines[first:last] if not it.strip().startswith("#[")]
    indent = min(len(it) - len(it.lstrip()) for it in shown if it.strip())
    return "\n".join(it[indent:] for it in shown), "\n".join(lines[at:last]), READ.imports(text)[0]


def is_shown(entry):
    """Returns whether a definition is known by the functions that read it and not by its body."""
    return entry["name"] in SHOWN.get(entry["crate"], ())


def text_of(entry):
    """Returns the text of a definition, or only its type if it is known by functions."""
    if not is_shown(entry):
        return entry["text"]
    lines = entry["text"].split("\n")
    end = next((i for i, it in enumerate(lines) if i and it.startswith(entry["name"] + " ")), len(lines))
    return "\n".join(lines[:end])


def rests_on(specs, roots, known, later):
    """Returns the definitions and types that the contracts cite, transitively, except known ones and those for later parts."""
    found, types, todo = set(), set(), []
    for file, function in roots:
        _, clauses, names = contract(file, function)
        todo += specs.cited(clauses, names)
        types |= set(types_in(clauses, names))
    while todo:
        item = todo.pop()
        if item in found or item in known or specs.items[item]["name"] in later:
            continue
        found.add(item)
        key = item.rpartition(".")[0]
        text, names = text_of(specs.items[item]), specs.scopes[key][0]
        todo += set(specs.cited(text, names, key)) - {item}
        types |= set(types_in(text, names))
    return found, types - known


def shown(specs, item):
    entry = specs.items[item]
    words = [f"-- {entry['words']}"] if entry["words"] else []
    return "\n".join([*words, *(it for it in text_of(entry).rstrip("\n").split("\n") if it.strip() and not it.startswith("use "))])


def typed(file, name):
    """Returns the page's text for a type; only the name of a machine or a monitor."""
    return f"pub struct {name} {{ .. }}" if file in (MACHINE, MONITOR) else declared(file, name)


def counted(specs, found, types):
    """Returns the number of these names, and of their lines."""
    texts = [typed(*it) for it in types] + [shown(specs, it) for it in found]
    return len(texts), sum(len(it.split("\n")) for it in texts)


def part(specs, number, title, words, roots, known, counts):
    later = LATER.get(number, set())
    found, types = rests_on(specs, roots, known, later)
    places = order()
    files = {}
    for file, name in sorted(types):
        files.setdefault(f"crates/{file}", []).append(("rust", typed(file, name)))
    for item in specs.order:
        if item in found:
            entry = specs.items[item]
            files.setdefault(f"crates/{entry['crate']}/specs/{entry['file']}", []).append(("antt", shown(specs, item)))
    blocks = []
    for file in sorted(files, key=lambda it: (places.get(it.split("/")[1], 0), it.split("/")[2] == "specs", it)):
        texts = [text for _, text in files[file]]
        blocks.append("\n".join([f"### `{file}`", "", f"```{files[file][0][0]}", "\n\n".join(texts), "```"]))
    contracts = "\n\n".join(contract(*it)[0] for it in roots if it not in OBSERVERS or number > 1)
    if number == 1:
        looks = "\n\n".join(contract(file, function)[0] for file, function in OBSERVERS)
        contracts += f"\n```\n\nA machine is known by the results of these functions:\n\n```rust\n{looks}"
    names, count = counts[number] = counted(specs, found, types)
    then = f" Later parts define {', '.join(f'`{it}`' for it in sorted(later))}." if later else ""
    head = f"# {number}. {title}\n\n{words} {names} names and {count} lines besides the contracts.{then} Part of [the headline](../HEADLINE.md).\n\n```rust\n{contracts}\n```"
    return "\n\n".join([head, *blocks]) + "\n", found | types


def file_of(number, title):
    """Returns the file of a part, below docs/headline."""
    return f"{number}-{title.lower().replace(' ', '-')}.md"


def table(counts):
    """Returns the table of parts, with the names and lines of each."""
    rows = ["| Part | Subject | Names | Lines |", "|---|---|---|---|"]
    for number, (title, words, _) in enumerate(PARTS, 1):
        names, lines = counts[number]
        rows.append(f"| [{number}. {title}](headline/{file_of(number, title)}) | {words} | {names} | {lines} |")
    return "\n".join(rows)


def aliases(specs, found):
    """Lists the names that the page writes differently: variants of types, with a prefix or under another name."""
    modules, single = {}, {}
    for item in found:
        if not isinstance(item, str):
            continue
        names = specs.scopes[item.rpartition(".")[0]][0]
        for word, variant in {it.partition(".")[::2] for it in READ.WORD.findall(text_of(specs.items[item]))}:
            path = names.get(word, word)
            if word == path.rpartition(".")[2] or (path.endswith(".TheVariants") and not variant[:1].isupper()):
                continue
            owner, _, last = path.rpartition(".")
            if last == "TheVariants":
                modules.setdefault(word, set()).add(owner.rpartition(".")[2])
            elif owner.endswith(".TheVariants"):
                single[word] = f"{owner.rpartition('.')[0].rpartition('.')[2]}::{last}"
            elif word in names:
                raise SystemExit(f"headline: {item} says {word} of {path}, which the page has under another name")
    before = ", ".join(f"`{it}.` of {' or '.join(f'`{owner}`' for owner in sorted(modules[it]))}" for it in sorted(modules))
    alone = "; ".join(f"`{it}` is `{single[it]}`" for it in sorted(single))
    return f"A prefix marks the variants of a type: {before}. {alone}."


def doubles(specs, found):
    """Returns the names that stand for two things on the page."""
    seen, twice = {}, set()
    for item in found:
        name = specs.items[item]["name"] if isinstance(item, str) else item[1]
        if seen.setdefault(name, item) != item:
            twice.add(name)
    return sorted(twice)


def pages():
    """Returns the text of each page, by its file; the counts of names and lines; and the names that stand for two things."""
    specs = READ.Specs()
    known, made, counts = set(), {}, {}
    for number, (title, words, roots) in enumerate(PARTS, 1):
        roots = [*roots, *(OBSERVERS if number == 1 else [])]
        text, found = part(specs, number, title, words, roots, known, counts)
        known |= found
        made[FOLDER / file_of(number, title)] = text
    names, lines = counts["together"] = counted(specs, *rests_on(specs, TOGETHER, set(), set()))
    theorems = "\n\n".join(f"```rust\n{contract(*it)[0]}\n```" for it in THEOREMS)
    opening = OPENING.format(names=names, lines=lines, aliases=aliases(specs, known), parts=table(counts), theorems=theorems)
    return {PAGE: opening.rstrip("\n") + "\n", **made}, counts, doubles(specs, known)


def main():
    wanted, counts, twice = pages()
    there = set(FOLDER.glob("*")) | {PAGE}
    if "--write" in sys.argv:
        FOLDER.mkdir(exist_ok=True)
        for file in there - set(wanted):
            file.unlink()
        for file, text in wanted.items():
            file.write_text(text)
        return 0
    same = there == set(wanted) and all(file.is_file() and file.read_text() == text for file, text in wanted.items())
    print("ok: docs/HEADLINE.md and its parts are what the sources say" if same else "FAILED: docs/HEADLINE.md and its parts are not what the sources say (tests/headline/run.py --write)")
    grown = [f"part {it}: {counts[it]} names and lines, at most {most}" for it, most in MOST.items() if any(map(int.__gt__, counts[it], most))]
    print("\n".join(f"FAILED: {it}" for it in grown) or f"ok: no part has grown: {counts}")
    print(f"FAILED: two things on the page have one name: {', '.join(twice)}" if twice else "ok: each name on the page stands for one thing")
    good = int(same) + int(not grown) + int(not twice)
    print(f"{good} passed, {3 - good} failed")
    return 0 if good == 3 else 1


if __name__ == "__main__":
    sys.exit(main())
