#!/usr/bin/env python3
"""Compares documents with what they describe.

  tests/documents/run.py          fails if
                                 - docs/ARCHITECTURE.md's graph of crates differs from crates.txt,
                                 - a crate's doc has no first sentence,
                                 - a crate precedes one that it depends on in crates.txt,
                                 - the example in Rattle of docs/guide/c-api.md is not part of EXAMPLE, which the gate compiles,
                                 - docs/PROVED.md lacks a crate or a group of crates.txt, or names a function that its crate does not have,
                                 - README.md has more than 90 lines,
                                 - CHANGELOG.md begins with another version than the program's,
                                 - a source file or a file of definitions does not begin with a line that says what it is,
                                 - a line of a clause or of definitions has more than 100 characters, or one of a proof more than 160,
                                 - more than 7 % of the sentences of a document, or of the comments of a crate or the firmware, use a construction that english.py lists,
                                 - all documents together have more words than WORDS allows,
                                 - a document names a file of this repository that does not exist,
                                 - firmware/DESIGN.md's table of lines differs from what firmware_lines.py counts,
                                 - the numbers in docs/DECISIONS.md are not 1, 2, 3, ..,
                                 - docs/guide/porting.md lacks a message of the firmware,
                                 - an edit of tests/documents/edits.txt is missing, or there are more edits than EDITS allows
  tests/documents/run.py --write  writes the graph and the lines of the firmware

The last line that is printed is 'N passed, M failed'.
"""
import re
import sys
from pathlib import Path

sys.dont_write_bytecode = True
from english import flagged  # noqa: E402
from firmware_lines import table as firmware_lines  # noqa: E402

TOP = Path(__file__).resolve().parents[2]
PAGE = TOP / "docs" / "ARCHITECTURE.md"
FIRMWARE = TOP / "firmware" / "DESIGN.md"
LIBRARY = TOP / "docs/guide/c-api.md"
EXAMPLE = TOP / "crates" / "public_surface" / "src" / "example.rt"
DOCUMENTS = ["README.md", "CHANGELOG.md", "CONTRIBUTING.md", "SECURITY.md", "examples/README.md", "bench/README.md", "firmware/README.md", "firmware/DESIGN.md",
             *sorted(str(it.relative_to(TOP)) for folder in ("docs", "docs/guide", "docs/formats") for it in TOP.glob(f"{folder}/*.md"))]
# The maximal share of flagged sentences in a document, in per cent.
FLAGGED = 7
# The maximal number of words of all documents together.
WORDS = 71_500
# The maximal number of must-fail edits of all crates together.
EDITS = 170
# The group of crates that do not belong to the product.
TESTS = "Tests and examples"
# The maximal width of lines of definitions and clauses, and that of proofs.
WIDTH = 100
PROOF_WIDTH = 160


def lines():
    """Returns the lines of crates.txt: each crate with its group and its dependencies, in their order."""
    group = ""
    for line in (TOP / "crates.txt").read_text().split("\n"):
        name, mark, rest = line.split("#")[0].partition(":")
        if line.startswith("## "):
            group = line[3:]
        elif mark:
            yield name.split()[0], group, rest.split()


def crates():
    """Returns the dependencies of each crate."""
    return {name: needs for name, _, needs in lines()}


def groups():
    """Returns the crates of each group."""
    found = {}
    for name, group, _ in lines():
        found.setdefault(group, []).append(name)
    return found


def is_lowest_first(graph):
    """Checks for each crate that all its dependencies precede it in crates.txt."""
    before = set()
    for crate, needs in graph.items():
        yield f"crates.txt: {crate} stands above a crate that it stands on", set(needs) & set(graph) <= before
        before.add(crate)


def purpose(crate):
    """Returns the first sentence of a crate's doc."""
    for file in ("lib.rt", "main.rt"):
        path = TOP / "crates" / crate / "src" / file
        if path.is_file():
            lines = [it[3:].strip() for it in path.read_text().split("\n") if it.startswith("//!")]
            text = " ".join(lines[: lines.index("") if "" in lines else len(lines)])
            return re.split(r"(?<=[.])(?:\s|$)", text)[0]
    return ""


def drawing(graph):
    """Returns the graph of groups and their dependencies, without the arrows that others imply."""
    group_of = {name: group for name, group, _ in lines()}
    below = {}
    for crate, needs in graph.items():
        below.setdefault(group_of[crate], set()).update(group_of[it] for it in needs if it in group_of)

    def reached(group):
        return set().union(*({it} | reached(it) for it in below[group] - {group}))

    number = {group: f"g{i}" for i, group in enumerate(below)}
    drawn = ["```mermaid", "graph BT", *(f'    {number[it]}["{it}"]' for it in below)]
    for group, needs in below.items():
        direct = [it for it in below if it in needs - {group} and not any(it in reached(other) for other in needs - {group, it})]
        drawn += [f"    {number[group]} --> {' & '.join(number[it] for it in direct)}"] if direct else []
    return "\n".join([*drawn, "```"])


def between(text, name):
    found = re.search(rf"(<!-- {name} -->\n)(.*?)(\n<!-- end -->)", text, re.S)
    return found.span(2) if found else None


def example_stands():
    """Returns whether the guide's example is part of the crate that the gate compiles, apart from indentation."""
    shown = re.search(r"```rust\n(.*?)```", LIBRARY.read_text().split("## The crates as a library\n")[1], re.S)
    plain = lambda text: [it.strip() for it in text.strip().split("\n")]
    if not shown or not EXAMPLE.is_file():
        return False
    want, there = plain(shown.group(1)), plain(EXAMPLE.read_text())
    return any(there[i : i + len(want)] == want for i in range(len(there)))


def front_page():
    """Checks the length of README.md."""
    yield "README.md has more than 90 lines", len((TOP / "README.md").read_text().rstrip("\n").split("\n")) <= 90


def promises():
    """Checks that docs/PROVED.md has each group and each crate of the product, and names only functions that the crate has."""
    text = (TOP / "docs" / "PROVED.md").read_text()
    wanted = [it for it in groups() if it != TESTS]
    yield "docs/PROVED.md: its sections are not the groups of crates.txt", [it for it in re.findall(r"(?m)^## (.*)$", text) if it in wanted] == wanted
    there = set()
    for names, carried in re.findall(r"(?m)^\| ((?:`\w+`(?:, )?)+) \| .* \| ([^|]*) \|$", text.split("\n## What is only tested")[0]):
        crates_of = re.findall(r"`(\w+)`", names)
        there |= set(crates_of)
        sources = "\n".join(it.read_text() for name in crates_of for it in sorted((TOP / "crates" / name).glob("src/**/*.rt")))
        for name in re.findall(r"`(?:\w+::)?(\w+)`", carried):
            yield f"docs/PROVED.md, {names}: {name}", bool(re.search(rf"\bfn {name}\b", sources))
    for crate, group, _ in lines():
        if group != TESTS:
            yield f"docs/PROVED.md has no row for {crate}", crate in there


def version():
    """Checks that CHANGELOG.md begins with the version that the program prints."""
    told = re.search(r'"(\d+\.\d+\.\d+) ', (TOP / "crates" / "command_line" / "src" / "texts.rt").read_text())
    newest = re.search(r"(?m)^## (\S+),", (TOP / "CHANGELOG.md").read_text())
    yield "CHANGELOG.md begins with another version than the program's", told and newest and told.group(1) == newest.group(1)


def sources():
    """Returns each source file and each file of definitions."""
    for kind, mark in (("src", "//!"), ("specs", "--")):
        for path in sorted((TOP / "crates").glob(f"*/{kind}/**/*.*t*")):
            if path.suffix in (".rt", ".antt") and path.name != "Lib.antt":
                yield path, path.relative_to(TOP), mark


def first_lines():
    """Checks that each of these files begins with a line that says what it is."""
    for path, name, mark in sources():
        yield f"{name}: its first line does not say what it is", path.read_text().startswith(mark)


def widths():
    """Checks the width of each line of a clause, and of each line of definitions except those with a text, which stay on one line."""
    for path, name, mark in sources():
        depth = 0
        for number, line in enumerate(path.read_text().split("\n"), 1):
            begins = re.match(r" *(?:ensures|requires)\*? ", line)
            if mark == "--":
                yield f"{name}:{number}: the line is too wide", len(line) <= WIDTH or '"' in line
            elif begins or depth:
                yield f"{name}:{number}: the clause is too wide", len(line.encode() if begins else line) <= WIDTH
                depth += line.count("{") - line.count("}")


def proof_widths():
    """Checks the width of each line of a proof except lists of imports, which `rt fmt` formats."""
    for path in sorted(TOP.glob("crates/*/proofs/**/*.antt")):
        for number, line in enumerate(path.read_text().split("\n"), 1):
            yield f"{path.relative_to(TOP)}:{number}: the line is too wide", len(line) <= PROOF_WIDTH or line.startswith("use ")


def english():
    """Checks the share of flagged sentences in each document."""
    for path in [path for path in sorted(TOP.glob("**/*.md")) if "out" not in path.parts]:
        document = path.relative_to(TOP)
        # Generated parts do not count.
        bad, all_of_them = flagged(re.sub(r"(?s)<!-- \w+ -->.*?<!-- end -->", "", path.read_text()))
        share = 100 * len(bad) / max(all_of_them, 1)
        yield f"{document}: {share:.0f} % of its sentences are flagged, as: {bad[:1]}", share <= FLAGGED


def blocks(path, mark):
    """The comments of a file: consecutive lines that begin with the mark are one text."""
    lines = []
    for line in [*path.read_text().split("\n"), ""]:
        found = re.match(rf"\s*(?:{mark})[/!]*\s?(.*)$", line)
        if found:
            lines.append(found.group(1))
        elif lines:
            yield "\n".join(lines)
            lines = []


def comments():
    """Checks the share of flagged sentences in the comments of each crate, and of the firmware."""
    places = {f"crates/{it}": [*(TOP / "crates" / it).glob("src/**/*.rt"), *(TOP / "crates" / it).glob("specs/**/*.antt")] for it in crates()}
    for place, paths in places.items():
        found = [flagged(text) for path in sorted(paths) for text in blocks(path, "--" if path.suffix == ".antt" else "//")]
        bad = [it for some, _ in found for it in some]
        share = 100 * len(bad) / max(sum(count for _, count in found), 1)
        yield f"{place}: {share:.0f} % of the sentences of its comments are flagged, as: {bad[:1]}", share <= FLAGGED
    texts = [it for path in sorted(TOP.glob("firmware/**/*.[chS]")) for it in re.findall(r"(?s)/\*(.*?)\*/", path.read_text())]
    found = [flagged(re.sub(r"(?m)^\s*\*", "", it)) for it in texts]
    bad, count = [it for some, _ in found for it in some], sum(count for _, count in found)
    yield f"firmware: {100 * len(bad) / count:.0f} % of the sentences of its comments are flagged, as: {bad[:1]}", 100 * len(bad) <= FLAGGED * count


def length():
    """Checks the number of words of all documents together."""
    found = sum(len(path.read_text().split()) for path in TOP.glob("**/*.md") if "out" not in path.parts)
    yield f"the documents have {found} words, more than {WORDS}", found <= WORDS


def files_named():
    """Checks that each path in code marks in a document exists."""
    for document in DOCUMENTS:
        path = TOP / document
        text = path.read_text() if path.is_file() else ""
        for name in sorted(set(re.findall(r"`\.?/?((?:crates|docs|tests|bench|examples)/[\w./-]*[\w/])`", text))):
            yield f"{document} names {name}", (TOP / name).exists() or "/out" in name or "NAME" in name
        yield f"{document} is there", path.is_file()


def merged():
    """Checks that no document contains the marks of a merge conflict."""
    for path in (*TOP.glob("*.md"), *TOP.glob("docs/**/*.md")):
        yield f"{path.relative_to(TOP)}: a merge left a mark", not re.search(r"(?m)^(?:<{7}|={7}|>{7})(?: |$)", path.read_text())


def decisions():
    """Checks that the choices of docs/DECISIONS.md are numbered in order."""
    numbers = re.findall(r"(?m)^(\d+)\. ", (TOP / "docs/DECISIONS.md").read_text())
    yield "docs/DECISIONS.md: its numbers are not 1, 2, 3, ..", numbers == [str(it) for it in range(1, len(numbers) + 1)]


def edits():
    """Checks that the edits that must stay exist, and that there are not too many."""
    names = re.findall(r"(?m)^(\w+): ", (TOP / "tests" / "documents" / "edits.txt").read_text())
    for name in names:
        yield f"no crate has an edit {name}", any((TOP / "crates").glob(f"*/must-fail/{name}.edit"))
    yield "tests/documents/edits.txt names the edits that must stay", len(names) > 30 and len(set(names)) == len(names)
    yield f"there are more than {EDITS} edits", len(list((TOP / "crates").glob("*/must-fail/*.edit"))) <= EDITS


def messages():
    """Checks that docs/guide/porting.md explains each message with which the firmware ends the board or waits."""
    text = (TOP / "docs/guide/porting.md").read_text()
    for path in sorted((*TOP.glob("firmware/*.c"), *TOP.glob("firmware/*.S"))):
        for message in re.findall(r'(?:end_because\(|put\(|\.string )"(?:monitor: )?([a-z][^"\\]{4,})', path.read_text()):
            plain = re.sub(r"[:, ]+(?:hart )?$", "", message)
            yield f"docs/guide/porting.md: {path.name} prints '{plain}'", plain in text


def firmware_is_counted():
    """Checks that the firmware's design page has the lines of each of its files."""
    text = FIRMWARE.read_text()
    return text[slice(*between(text, "lines"))] == firmware_lines()


def write(parts):
    """Writes the graph and the lines of the firmware."""
    text = PAGE.read_text()
    for name, wanted in parts.items():
        start, end = between(text, name)
        text = text[:start] + wanted + text[end:]
    PAGE.write_text(text)
    text = FIRMWARE.read_text()
    start, end = between(text, "lines")
    FIRMWARE.write_text(text[:start] + firmware_lines() + text[end:])


def checks_of(graph, parts):
    """Returns the checks by name: each with its words, and whether it passed."""
    text = PAGE.read_text()
    places = {name: between(text, name) for name in parts}
    return {
        "the graph of crates": [
            *((f"docs/ARCHITECTURE.md: {name} (tests/documents/run.py --write)", bool(places[name]) and text[slice(*places[name])] == wanted) for name, wanted in parts.items()),
            *((f"crates/{it}: its doc says what it is for", bool(purpose(it))) for it in graph),
            *is_lowest_first(graph),
        ],
        "the guide's example": [("docs/guide/c-api.md: its example is in no crate", example_stands())],
        "docs/PROVED.md": list(promises()),
        "the front page": list(front_page()),
        "the version": list(version()),
        "first lines": list(first_lines()),
        "widths of clauses": list(widths()),
        "widths of proofs": list(proof_widths()),
        "English": [*english(), *comments()],
        "words": list(length()),
        "the files that documents name": list(files_named()),
        "marks of merges": list(merged()),
        "the numbers of choices": list(decisions()),
        "edits": list(edits()),
        "the messages of the firmware": list(messages()),
        "the lines of the firmware": [("firmware/DESIGN.md: lines (tests/documents/run.py --write)", firmware_is_counted())],
    }


def main():
    graph = crates()
    parts = {"graph": drawing(graph)}
    if "--write" in sys.argv:
        write(parts)
        return 0
    kinds, failed = checks_of(graph, parts), 0
    for name, checks in kinds.items():
        bad = [what for what, good in checks if not good]
        failed += len(bad)
        print("\n".join(f"FAILED: {it}" for it in bad) or f"ok: {name} ({len(checks)})")
    print(f"{sum(all(good for _, good in it) for it in kinds.values())} passed, {failed} failed")
    return 1 if failed else 0


if __name__ == "__main__":
    sys.exit(main())
