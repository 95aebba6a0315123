#!/usr/bin/env python3
"""Mutants of the firmware's C and assembly, judged by the facts first and then by the tests on QEMU. Run by hand.

  tests/machine_code/mutants.py [--facts] [--new] [WORD..]     those whose file or text contains one of the words, or all

They are those of tests/on_hart/mutants.py and NEW. Each is built for one hart, and the facts of its file are proved on its ELF; with --facts
nothing else is tried. A mutant for which they all hold goes through the tests of tests/on_hart/mutants.py. --new leaves out the others.
The last line reports how many survived.
"""
import functools
import re
import subprocess
import sys
import tempfile
from pathlib import Path

sys.dont_write_bytecode = True
HERE = Path(__file__).resolve().parent
sys.path[:0] = [str(HERE.parent / "on_hart"), str(HERE.parent)]
import mutants as on_hart  # noqa: E402
from edits import FIRMWARE, edited  # noqa: E402

NEW = [
    ("memory.c", "    if (t <= f || t >= f + n)", "    if (t >= f + n)", "bytes_moved"),
    ("memory.c", "    for (; n; n--)\n        t[n - 1] = f[n - 1];", "    for (; n > 1; n--)\n        t[n - 1] = f[n - 1];", "bytes_moved"),
    ("memory.c", "each = (uint8_t)c * 0x0101010101010101ul;", "each = (uint8_t)c * 0x0001010101010101ul;", "bytes_set"),
    ("memory.c", "        for (; n >= 64; n -= 64, t += 8, f += 8) {", "        for (; n >= 64; n -= 72, t += 8, f += 8) {", "bytes_copied"),
    ("heap.c", "(16ul << class) < bytes)", "(32ul << class) < bytes)", "block_taken"),
    ("heap.c", "        kept[class] = b->next;", "        (void)0;", "block_taken"),
    ("heap.c", "        heap_most += whole;", "        heap_most += 16ul << class;", "block_taken"),
    ("heap.c", "whole > arena_size - heap_most)", "whole > arena_size)", "block_taken"),
    ("heap.c", "    b->next = kept[b->class];", "    b->next = 0;", "block_given_back"),
    ("heap.c", "had < bytes ? had : bytes);", "had < bytes ? bytes : had);", "block_grown"),
    ("heap.c", "        rattle_dealloc(at);\n", "        (void)0;\n", "block_grown"),
    ("heap.c", "    return take(bytes ? bytes : align);", "    return take(bytes ? bytes : align - align);", "block_asked"),
    ("heap.c", "    heap_most = 0;\n", "", "heap_begun"),
    ("serve.c", "page - platform->monitor_base / PAGE >= platform->monitor_size / PAGE;", "1;", "pages_known"),
    ("serve.c", "(const void *)(frame->page * PAGE), PAGE);", "(const void *)(frame->page * PAGE), PAGE - 8);", "page_read"),
    ("serve.c", "    frame->hart = this_hart();\n", "    frame->hart = 0;\n", "trap_framed"),
    ("serve.c", "            memset((void *)(page * PAGE), 0, PAGE);", "            memset((void *)(page * PAGE), 0, 8);", "pages_zeroed"),
    ("serve.c", "copy_words(enclave_banks[answer->value], &answer->lists[1].used, 9 + ENTRIES);", "copy_words(enclave_banks[answer->value], &answer->lists[1].used, 8 + ENTRIES);", "lists_changed"),
    ("serve.c", "    stop_harts(0); /* they continue */\n", "", "lists_changed"),
    ("serve.c", "answer->word_count != 9)", "answer->word_count > 9)", "answer_written"),
    ("serve.c", "        self->bank = &host_bank;\n", "", "host_comes_back"),
    ("registers.c", "        set->x[10] = change->first;\n", "", "sets_changed"),
    ("registers.c", "it < answer->changes + 3; it++)", "it < answer->changes + 2; it++)", "sets_changed"),
    ("harts.c", "    __atomic_store_n(&self->fences_made, asked, __ATOMIC_RELEASE);\n", "    __atomic_store_n(&self->fences_made, asked + 1, __ATOMIC_RELEASE);\n", "requests_taken"),
    ("reset.c", "page - range->first < range->count;", "page - range->first <= range->count;", "private_page_known"),
    ("board.c", "        if (at - monitor < platform->monitor_size)\n            return 0;\n", "", "memory_known"),
    ("board.c", "(at < monitor && monitor < end ? monitor : end) - at", "end - at", "memory_known"),
    ("board.c", "    return fault ? fault : pmpmon_put_host_tree(", "    return fault == NEEDS_MEMORY ? fault : pmpmon_put_host_tree(", "tree_read"),
    ("board.c", "    if (heap_blocks)\n        fault = NEEDS_MEMORY;\n", "", "board_found"),
    ("board.c", "    platform = &found;\n", "", "board_found"),
    ("board.c", "host_memory_at(tree - MORE_HEAP) >= MORE_HEAP", "host_memory_at(tree - MORE_HEAP) > 0", "board_found"),
    ("board.c", "MORE_HEAP);\n        found = *built;\n", "MORE_HEAP);\n", "board_found"),
    ("traps.c", "    forget_private();\n    find_board(tree);\n", "    find_board(tree);\n", "boot_ordered"),
    ("traps.c", "    tell_start(HOST_ENTRY);\n    start_others();\n", "    start_others();\n    tell_start(HOST_ENTRY);\n", "host_begins"),
    ("traps.c", "        world->cause = INTERRUPT | 3;\n", "        world->cause = 3;\n", "served_with_lock"),
    ("traps.c", "    return is_started(this_hart()) ? run(world) : park(world);", "    return run(world);", "served_with_lock"),
    ("traps.c", "    if (stack_guard != STACK_MARK)", "    if (!stack_guard)", "trap_awaited"),
    ("traps.c", "world->action.kind == ENCLAVE_CALL ? TAG_CALL : TAG_STOP", "world->action.kind == ENCLAVE_CALL ? TAG_STOP : TAG_CALL", "trap_awaited"),
    ("harts.c", "    for (uint64_t hart = 1; hart < hart_count(); hart++)\n        wait_for(hart);\n", "    wait_for(1);\n", "others_let_in"),
    ("entries.c", "i % 2 == round ? all : LOWEST_PAGE", "round ? all : LOWEST_PAGE", "entries_checked"),
    ("entries.c", "    while (bits < end >> 2)\n", "    while (bits < end >> 3)\n", "entries_checked"),
    ("control.c", "    .scounteren = COUNTERS,\n", "", "control_begins"),
    ("floats.c", "sizeof self->registers->f + sizeof self->registers->fcsr);", "sizeof self->registers->f);", "floats_begin"),
    ("timer.c", "    timer_off();\n    host_timer_at(~0ul);\n", "    host_timer_at(~0ul);\n", "timer_begins"),
    ("uart.c", "status ? 0x13333 : 0x5555", "status ? 0x5555 : 0x13333", "power_switched"),
    ("memory.c", "            return *x - *y;", "            return *y - *x;", "bytes_compared"),
    ("start.S", "    fence   rw, rw\n    j       enter_as_trapped", "    j       enter_as_trapped", "other_begins"),
]


def facts_of(name, first):
    """The facts of a mutant's file, the one that its row names first."""
    subjects = {"trap.S": "traps entries waits", "pmp.S": "entries", "start.S": "start devices", "registers.c": "worlds", "floats.c": "worlds devices",
                "control.c": "worlds devices", "serve.c": "frames loop", "traps.c": "alone loop boot frames traps", "harts.c": "harts waits entries boot",
                "board.h": "alone loop", "reset.c": "reset loop", "entries.c": "entries devices", "timer.c": "alone devices", "memory.c": "memory devices",
                "heap.c": "heap", "board.c": "boot", "uart.c": "devices"}.get(name, "").split()
    found = [it for subject in subjects for it in re.search(r"(?s)\nPROOFS = \[(.*?)\]", (HERE / f"facts_{subject}.py").read_text())[1].replace("\n", " ").replace(" ", "").split(",")]
    return ([first] if first in found else []) + [it for it in found if it != first]


def failing_fact(folder, number, mutant):
    """The fact that fails on a mutant, the fault of its build, or ''."""
    name, text, instead, first = mutant
    try:
        image = edited(FIRMWARE / "platform.toml", folder / f"facts-{number}", (name, text, instead))
    except Exception as fault:
        return f"the build ({fault})"
    facts = facts_of(name, first)
    for group in [facts[:1], facts[1:]]:
        if group:
            words = [it for fact in group for it in ("--fact", fact)]
            done = subprocess.run([HERE / "run.py", image, "--sources", folder / f"facts-{number}-sources/firmware", "--controls", "none", *words], capture_output=True, text=True)
            failed = re.search(r"FAILED: (\w+)", done.stdout)
            if failed or done.returncode:
                return f"fact {failed[1]}" if failed else f"the proofs ({done.stderr[-200:]})"
    return ""


def reason(folder, number, mutant):
    """The fact, or otherwise the test on QEMU, that fails on a mutant, or ''."""
    why = failing_fact(folder, number, mutant)
    if why or "--facts" in sys.argv:
        return why
    first = mutant[3] if mutant[3] in on_hart.LOOKS else "host"
    return on_hart.judged(bench(folder), on_hart.four_harts(folder), number, (*mutant[:3], first))


@functools.cache
def bench(folder):
    """The payloads of the tests on QEMU, built for the first mutant that needs them."""
    return on_hart.Bench(folder)


def main():
    rows = on_hart.wanted([*([] if "--new" in sys.argv else on_hart.MUTANTS), *NEW])
    with tempfile.TemporaryDirectory() as place:
        on_hart.report(rows, (reason(Path(place), *it) for it in rows))


if __name__ == "__main__":
    main()
