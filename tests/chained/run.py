#!/usr/bin/env python3
"""Compares the fewest entries that the program finds, with TOR and without, with those of a search over all lists.

  tests/chained/run.py PROGRAM

A view gives each of the pages 0 to 7 one of three permissions, and nothing to the pages after them. The search knows nothing of trees
and costs. It counts the entries of a list from its end, as each earlier entry overrides all later ones:

- without TOR a list ends with nothing, which gives no page a permission;
- with TOR it ends with a chain, which begins at address 0 if it is the whole list, or at an OFF entry, or inside the block of the last
  NA4 or NAPOT entry, and gives what comes after that block.

Then a NAPOT entry for any block is put before what is there, for each block and each permission, until each view is found. The last
cell of a view stands for all pages from page 8 on, so that an entry for the whole space is a block too.

`audit` is asked about a sample of the views, with a listing that has one TOR entry for each stretch of equal pages. It must accept the
listing and print both numbers. The last line printed is 'N passed, M failed'.
"""
import itertools
import random
import re
import subprocess
import sys
import tempfile
from concurrent.futures import ThreadPoolExecutor
from pathlib import Path

sys.path.insert(0, str(Path(__file__).resolve().parents[1]))
sys.dont_write_bytecode = True
from counting import Count  # noqa: E402

PAGES, PAGE = 8, 4096
# The permissions of a view, with the bits of a configuration byte; a TOR entry has A = 1.
PERMS, BITS, TOR = ("none", "r", "rwx"), (0, 1, 7), 1 << 3
NONE = 0
# Each block as its first cell and the cell after it; the last one is the whole space.
BLOCKS = [(at, at + size) for size in (1, 2, 4, 8) for at in range(0, PAGES, size)] + [(0, PAGES + 1)]
SAMPLE = 2200
EQUAL = re.compile(r"means the map: \d+ entr(?:y|ies); fewest NA4/NAPOT entries: (\d+)\n")
BEFORE = re.compile(r"means the map: \d+ entr(?:y|ies); fewest NA4/NAPOT entries: (\d+), before a TOR chain: (\d+)\n")
ENOUGH = re.compile(r"means the map: \d+ entr(?:y|ies) where (\d+) (?:is|are) enough \((\d+) without TOR\)\n")


def changes(cells):
    return sum(a != b for a, b in itertools.pairwise(cells))


def put_before(view, block, perm):
    first, end = block
    return view[:first] + (perm,) * (end - first) + view[end:]


def chains():
    """Yields what a list can end with, as a view and the number of entries: a chain, with the entry at which it begins."""
    for pages in itertools.product(range(len(PERMS)), repeat=PAGES):
        # No TOR entry matches the end of the space, so the cells of a chain end with none.
        cells = (*pages, NONE)
        # An OFF entry at the first page that the chain gives something, then a TOR entry for each stretch up to the last such page.
        given = [at for at, perm in enumerate(cells) if perm != NONE]
        yield cells, 1 + changes(cells[given[0] :]) if given else 0
    for block, perm in itertools.product(BLOCKS, range(len(PERMS))):
        first, end = block
        rest = PAGES - end
        for pages in itertools.product(range(len(PERMS)), repeat=max(rest, 0)):
            cells = (*pages, NONE) if rest >= 0 else ()
            yield (NONE,) * first + (perm,) * (end - first) + cells, 1 + changes(cells)


def fewest_by(ends):
    """Returns for each view the fewest entries of a list that ends as one of these and has NAPOT entries before that."""
    found, rows = {}, {}
    for view, count in ends:
        rows.setdefault(count, set()).add(view)
    count = 0
    while rows:
        new = {view for view in rows.pop(count, ()) if view not in found}
        found.update(dict.fromkeys(new, count))
        count += 1
        for view in new:
            painted = (put_before(view, block, perm) for block in BLOCKS for perm in range(len(PERMS)))
            rows.setdefault(count, set()).update(it for it in painted if it not in found)
        if not rows.get(count) and count in rows:
            del rows[count]
    return found


def stretches(view):
    """Yields the end and the permission of each stretch of equal pages, but for the last if it gives nothing."""
    end = 0
    for perm, pages in itertools.groupby(view[:PAGES]):
        end += len(list(pages))
        if perm != NONE or end < PAGES:
            yield end, perm


def listing_of(view):
    """Returns a listing whose TOR entries mean the view."""
    tops = list(stretches(view))
    lines = [f"pmpaddr{i} {end * PAGE // 4:#x}\n" for i, (end, _) in enumerate(tops)]
    word = sum((TOR | BITS[perm]) << 8 * i for i, (_, perm) in enumerate(tops))
    return "".join(lines) + f"pmpcfg0 {word:#x}\n"


def map_of(view):
    return "".join(f"{PAGE * at:#x} {PAGE:#x} {PERMS[perm]}\n" for at, perm in enumerate(view[:PAGES]) if perm != NONE) or f"0 {PAGE:#x} none\n"


def numbers_in(told):
    """Returns the fewest entries with TOR and without, as `audit` prints them."""
    if found := EQUAL.fullmatch(told):
        return int(found[1]), int(found[1])
    if found := BEFORE.fullmatch(told):
        return int(found[2]), int(found[1])
    if found := ENOUGH.fullmatch(told):
        return int(found[1]), int(found[2])
    return told


def audited(program, folder, place, view):
    """Returns the numbers that `audit` prints for a view."""
    path = folder / f"{place}.map"
    path.write_text(map_of(view))
    told = subprocess.run([program, "audit", path, "-"], input=listing_of(view), capture_output=True, text=True)
    path.unlink()
    return numbers_in(told.stdout + told.stderr)


def main():
    program = Path(sys.argv[1]).resolve()
    count = Count()
    chained, blocks = fewest_by(chains()), fewest_by([((NONE,) * (PAGES + 1), 0)])
    # A chain that is the whole list begins at address 0, without an OFF entry. No entry can be put before it: then it would begin there.
    for view in chained:
        if view[-1] == NONE:
            chained[view] = min(chained[view], changes(view))
    views = [(*pages, NONE) for pages in itertools.product(range(len(PERMS)), repeat=PAGES)]
    views = random.Random(1).sample(views, SAMPLE)
    with tempfile.TemporaryDirectory() as made, ThreadPoolExecutor(2) as pool:
        got = pool.map(lambda it: audited(program, Path(made), *it), enumerate(views))
        wrong = [(view, (chained[view], blocks[view]), told) for view, told in zip(views, got) if told != (chained[view], blocks[view])]
    fewer = sum(chained[view] < blocks[view] for view in views)
    told = "; ".join(f"{''.join(map(str, view))}: {want} expected, got {numbers}" for view, want, numbers in wrong[:3])
    count.note(not wrong, f"{len(views)} views of eight pages: no list is shorter than audit says, and {fewer} need fewer entries with TOR", told)
    return count.end()


if __name__ == "__main__":
    sys.exit(main())
