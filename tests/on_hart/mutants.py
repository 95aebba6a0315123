#!/usr/bin/env python3
"""Mutants of the firmware: one line of C or assembly each, of which every one that matters has to fail a test. Run by hand.

  tests/on_hart/mutants.py [WORD..]      those whose file or text has one of the words, or all

Each is built for four harts (PMPMON_MODULE is its module, if it is given) and goes through LOOKS, those first that its row names, until one
fails. The last line says how many survived.
"""
import shutil
import subprocess
import sys
import tempfile
from concurrent.futures import ThreadPoolExecutor
from pathlib import Path

sys.dont_write_bytecode = True
sys.path[:0] = [str(Path(__file__).resolve().parent), str(Path(__file__).resolve().parents[1])]
import interleavings  # noqa: E402
import monitor as m  # noqa: E402
import resets  # noqa: E402
from edits import edited  # noqa: E402

# Not among them, since QEMU 7.2 shows no difference: `sc.d` of trap.S (a trap there ends a reservation), `sfence.vma` and `hfence.gvma` (a write of
# an entry drops translations), `fence.i`, the second look at MDT in start.S, and `senvcfg` (no cbo instructions). Nor those that no world can
# notice: the zeros of a first entry, which each end leaves; `is_wanted`, which only has a parked hart look again; `is_stale` at a start: an
# answer wakes stopped harts too; SUM and MXR in STATUS: in user mode without a table of pages they mean nothing, and nothing else
# writes them until the host goes on; and the look at the time in host_timer_came: QEMU takes a timer's interrupt back as the timer is set.
MUTANTS = [
    ("trap.S", "    sw      zero, IS_OUT(a0)\n", "", "storm"),
    ("trap.S", "    forget_saved                # an enclave's\n", "", "saved"),
    ("trap.S", "    forget_saved\n", "", "busy"),
    ("trap.S", "    ld      x30, 8 * 30(x31)\n", "", "sets"),
    ("trap.S", "    sd      t1, TICKET(a0)\n    ld", "    ld", "busy"),
    ("trap.S", "    sw      t2, (t1)\n1:  jr      t6", "1:  jr      t6", "storm"),
    ("trap.S", "    fence\n    lw      t2, SLEEPERS(t0)", "    lw      t2, SLEEPERS(t0)", "steps"),
    ("pmp.S", "1:  each    put, 0x3a0, 2, 8, ENTRIES / 8\n", "1:\n", "host"),
    ("start.S", "    csrw    TDATA1, t1\n", "", "stages"),
    ("registers.c", "        set->pc += 4;", "        (void)0;", "sets"),
    ("registers.c", "set->x[11] = change->second;", ";", "sets"),
    ("registers.c", "memset(set, 0, sizeof *set);", "memset(set, 0, 256);", "exits"),
    ("floats.c", "    WRITE(fcsr, set->fcsr);\n", "", "floats"),
    ("floats.c", "!self->number || (status", "(status", "floats"),
    ("floats.c", "(status & FLOATS_DIRTY) == FLOATS_DIRTY)", "status == 1)", "floats"),
    ("floats.c", "    load(self, next);\n", "    load(self, self->registers);\n    (void)next;\n", "floats"),
    ("control.c", " | 3ul << 9 | ", " | ", "vectors"),
    ("control.c", "    WRITE(mcounteren, COUNTERS);", "    WRITE(mcounteren, 7);", "closed"),
    ("control.c", "    CLEAR(mip, SOFTWARE_OF_SUPERVISOR | TIMER_OF_SUPERVISOR);\n", "", "quartet"),
    ("control.c", "    control_leave(self);\n}", "}", "quartet"),
    ("control.c", "        WRITE(0x30a, STCE | CBZE", "        WRITE(0x30a, STCE | 1ul << 62 | CBZE", "types"),
    ("serve.c", "        private_end(answer->zero_first, answer->zero_count);\n    if (answer->list_count)\n        change_lists(answer);\n",
     "        (void)0;\n    if (answer->list_count)\n        change_lists(answer);\n    if (answer->zero_count)\n        private_end(answer->zero_first, answer->zero_count);\n", "zeros"),
    ("serve.c", "        private_end(answer->zero_first, answer->zero_count);\n", "        (void)0;\n", "host"),
    ("serve.c", "    self->is_stale = 1;\n", "", "host"),
    ("serve.c", "(answer->wake | 1ul << answer->hart)", "(answer->wake)", "host"),
    ("serve.c", "(answer->wake | 1ul << answer->hart)", "(1ul << answer->hart)", "race"),
    ("serve.c", "    stop_harts(answer->wake);\n", "", "race"),
    ("serve.c", "    private_begin(worlds[this_hart()].registers->x[11], asked->first, asked->count);\n", "", "slots"),
    ("traps.c", "return is_access && !is_private_page(world->number, world->value / PAGE) ? world->value : 0;", "return is_access ? world->value : 0;", "causes"),
    ("traps.c", "return is_access && !is_private_page", "return (is_access || cause) && !is_private_page", "causes"),
    ("traps.c", "    case STOP_HART: /* it does not come back: serve_with_lock parks it */\n        control_at_start();\n", "    case STOP_HART:\n", "quartet"),
    ("traps.c", "    case GO_ON:\n        take_requests(world);\n", "    case GO_ON:\n", "storm"),
    ("traps.c", "    check_entries();\n", "", "stages"),
    ("harts.c", "& INTERRUPT_OF_HOST && is_started(this_hart()))", "& INTERRUPT_OF_HOST)", "sends"),
    ("harts.c", "    load_bank(self->bank);\n", "", "host"),
    ("harts.c", "    if (set & self)\n        fence_here(kinds);\n", "", "quartet"),
    ("harts.c", "    fence_here(__atomic_fetch_and(&self->requests, ~FENCES, __ATOMIC_SEQ_CST));\n", "    __atomic_fetch_and(&self->requests, ~FENCES, __ATOMIC_SEQ_CST);\n", "quartet"),
    ("harts.c", "            __atomic_fetch_or(&worlds[hart].requests, kinds, __ATOMIC_SEQ_CST);\n", "            if (hart < 3)\n                __atomic_fetch_or(&worlds[hart].requests, kinds, __ATOMIC_SEQ_CST);\n", "quartet"),
    ("harts.c", "        if (is_other(set, hart))\n            wait_for_halt(hart);\n", "        if (is_other(set, hart) && worlds[hart].is_out > 1)\n            wait_for_halt(hart);\n", "late"),
    ("board.h", "    harts.pending = states->pending;\n    __atomic_store_n(&harts.started, states->started, __ATOMIC_RELEASE);\n", "    harts.started = states->started;\n    __atomic_store_n(&harts.pending, states->pending, __ATOMIC_RELEASE);\n", "state"),
    ("reset.c", "        tried = 0;\n", "", "slots"),
    ("reset.c", "range->first + tried++", "range->first", "slots"),
    ("reset.c", "&private_ranges[enclave - 1];\n    range->check", "&private_ranges[enclave - enclave];\n    range->check", "slots"),
    ("reset.c", "        range->check = 0;\n        tried", "        tried", "absent"),
    ("reset.c", "    for (unsigned i = 0; i < MOST_ENCLAVES; i++) {\n", "    for (unsigned i = 0; i < MOST_ENCLAVES - 1; i++) {\n", "slots"),
    ("reset.c", "        stop_harts(~(1ul << this_hart()));\n", "        (void)0;\n", "ends"),
    ("reset.c", "        memset(register_sets, 0, sizeof register_sets);\n", "        (void)0;\n", "off"),
    ("reset.c", "    forget_stack();\n    power_off", "    power_off", "off"),
    ("reset.c", "        interrupt(hart);\n", "        (void)0;\n", "busy"),
    ("reset.c", "__atomic_store_n(&self->is_out, 0, __ATOMIC_RELEASE);", ";", "busy"),
    ("entries.c", "    return !clear_beyond();", "    return 1;", "stages"),
    ("entries.c", "    if (READ(0x747) & MML_MMWP_RLB)\n", "    if (0)\n", "stages"),
    ("timer.c", "    timer_off();\n    SET(mip,", "    SET(mip,", "timer"),
]


class Bench:
    """The payloads, each built once, and what an image has to do with each."""

    def __init__(self, folder):
        self.folder = folder
        build = lambda name, *sources, flags=(): m.host(folder / f"{name}.elf", *sources, flags=flags)  # noqa: E731
        self.race = build("race", "race.S")
        self.sets = build("sets", "harts.S", "sets.S", "sets.c")
        self.two_hosts = build("two_hosts", "sbi_host.S", "two_hosts.S", "two_hosts.c")
        self.quartet = build("quartet", "harts.S", "two_hosts.S", "quartet.c")
        self.zeros = build("zeros", "harts.S", "two_hosts.S", "zeros.c")
        self.causes = build("causes", "harts.S", "causes_enclave.S", "causes.c")
        self.vectors = build("vectors", "harts.S", "vectors.S", "vectors.c")
        self.secrets = build("secrets", "harts.S", "secrets_enclave.S", "secrets.c")
        self.slots = build("slots", "harts.S", "reset_enclave.S", "slots.c")
        self.busy = build("busy", "harts.S", "reset_enclave.S", "busy.c", flags=("-DHARTS=4",))
        self.storm = build("storm", "harts.S", "two_hosts.S", "storm.c", flags=("-DHARTS=4",))
        self.closed = build("closed", "harts.S", "reset_enclave.S", "closed.c")
        self.aliases = build("aliases", "harts.S", "two_hosts.S", "aliases.c")
        self.hostile = build("hostile", "hostile.S", "hostile.c", flags=("-DSEED=2", "-DRUNS=10"))
        self.floats = build("floats", "harts.S", "floats.S", "floats.c", flags=("-DFMT=d", "-DFMT_ARCH=d"))
        self.resets = [build(f"reset-{it}", "harts.S", "reset_enclave.S", "reset.c", flags=(f"-DHARTS={it}",)) for it in (1, 2)]
        self.sbi = build("sbi", "sbi_host.S", "sbi_host.c")

    def with_more_memory(self, sources):
        """The image of these sources for a platform with more memory than the board has."""
        out = sources.with_name(f"{sources.name}-more")
        m.built_by(sources / "firmware", m.TOP / "examples/linux/platform.toml", out)
        return out / "pmpmon-virt.elf"

    def that_sends_more(self, sources):
        """The image of these sources with one more edit."""
        place, (name, text, instead) = sources.with_name(f"{sources.name}-sends"), m.SENDS_MORE
        shutil.copytree(sources, place, symlinks=True, dirs_exist_ok=True)
        (place / "firmware" / name).write_text((place / "firmware" / name).read_text().replace(text, instead))
        m.built_by(place / "firmware", self.folder / "four.toml", place / "out")
        return place / "out/pmpmon-virt.elf"

    def says(self, image, payload, harts, want, *more, seconds=30):
        return m.booted(image, payload, harts, *more, seconds=seconds) == want

    def is_right(self, look, image, sources):
        """Whether a mutant passes a look."""
        host = m.FIRMWARE / "out/host.elf"
        if look == "steps":  # the facts that tie the model of the lock to the code
            words = [word for fact in sorted(set(interleavings.FACTS.values())) for word in ("--fact", fact)]
            return not subprocess.run([m.TOP / "tests/machine_code/run.py", image, "--sources", sources / "firmware", "--controls", "none", *words], capture_output=True).returncode
        if look == "stages":
            rows = [(m.MPRV, 0, ()), (m.TRIGGERS, 0, ()), (m.INTERRUPTS, 0, ("-icount", "shift=0")), (m.ENTRY, 0x1F, ()), (m.RULES, 0, ("-cpu", "rv64,x-epmp=true"))]
            right = all(self.says(image, host, 1, m.HOST, *m.earlier(self.folder, kind, left, resets.symbol(image, "boot")), *more) for kind, left, more in rows)
            rows = [(m.ENTRY, 0x9F, ()), (m.RULES, 4, ("-cpu", "rv64,x-epmp=true"))]
            return right and all("monitor: " in m.booted(image, host, 1, *m.earlier(self.folder, kind, left, 0), *more, seconds=30) for kind, left, more in rows)
        looks = {
            "host": lambda: self.says(image, host, 1, m.HOST),
            "timer": lambda: self.says(image, host, 1, m.HOST_WITHOUT_SSTC, "-cpu", "rv64,sstc=off"),
            "sets": lambda: self.says(image, self.sets, 1, m.SETS),
            "race": lambda: self.says(image, self.race, 2, "faults\n"),
            "two_hosts": lambda: self.says(image, self.two_hosts, 2, m.TWO_HOSTS),
            "sbi": lambda: m.booted(image, self.sbi, 4, seconds=30).endswith("write: -2 0\n"),
            "causes": lambda: self.says(image, self.causes, 1, m.CAUSES),
            "vectors": lambda: self.says(image, self.vectors, 1, m.VECTORS, "-cpu", "rv64,v=true"),
            "quartet": lambda: self.says(image, self.quartet, 4, m.QUARTET, seconds=60),
            "sends": lambda: self.says(self.that_sends_more(sources), self.quartet, 4, m.QUARTET, seconds=60),
            "zeros": lambda: self.says(image, self.zeros, 2, 4 * "others than zero 0\n", seconds=60),
            "closed": lambda: m.booted(image, self.closed, 1, seconds=30).endswith(m.COUNTERS),
            "exits": lambda: resets.registers(image, self.secrets, 1)[0],
            "saved": lambda: resets.saved_registers(image, self.secrets)[0],
            "off": lambda: resets.registers(image, self.secrets, 4)[0],
            "slots": lambda: resets.all_slots(image, self.slots)[0],
            "absent": lambda: resets.absent_memory(self.with_more_memory(sources), self.slots)[0],
            "ends": lambda: resets.off(image, self.resets[1], 2)[0] and resets.asked_for(image, self.resets[1], 2, resets.COLD)[0],
            "floats": lambda: self.says(image, self.floats, 2, m.FLOATS, seconds=60),
            "hostile": lambda: m.booted(image, self.hostile, 1, seconds=60).endswith("\nwrong 0\n"),
            "aliases": lambda: all(f"reads after 0\nfault {fault}\n" in m.booted(image, self.aliases, 2, *m.kind(it), seconds=30) for it, fault in ((1, 5), (2, 5), (3, 21))),
            "state": lambda: m.state_of_stopping_hart(image, self.quartet)[0],
            "types": lambda: m.memory_types(image, self.resets[0])[0],
            "storm": lambda: m.booted(image, self.storm, 4, *m.kind(1), seconds=60).endswith("stood still 0\nwrong 0\nodd 0\n"),
            "busy": lambda: all(resets.injected(image, self.busy, it[0])[0] for it in self.injected(image)),
            "late": lambda: m.late_hart(image, self.race)[0],
        }
        return looks[look]() if look in looks else True

    @staticmethod
    def injected(image):
        """A few instructions of trap.S: where a ticket is drawn, where the lock has been let go of, and where an enclave's registers are loaded,
        and where only an enclave's trap comes."""
        found = resets.instructions_of(image)
        left = [i for i, it in enumerate(found) if it[1] == "run_world" and it[2].startswith("fence")][1]
        return [next(it for it in found if it[2].startswith("li\ts1,")), next(it for it in found if it[1] == "drawn"), found[left], next(it for it in found if it[1] == "wait_for_call"), next(it for it in found if it[2].startswith("mret"))]


LOOKS = ["host", "timer", "sets", "race", "two_hosts", "causes", "vectors", "closed", "exits", "saved", "off", "slots", "absent", "ends", "quartet", "sends", "zeros", "aliases", "types", "state", "hostile", "floats", "storm", "busy", "stages", "late", "steps"]


def judged(bench, four, number, mutant):
    """The look that a mutant fails, or ''."""
    name, text, instead, first = mutant
    out = bench.folder / f"mutant-{number}"
    try:
        image = edited(four, out, (name, text, instead))
    except Exception as fault:  # (it does not compile)
        return f"the build ({fault})"
    for look in [first] + [it for it in LOOKS if it != first]:
        try:
            right = bench.is_right(look, image, out.with_name(f"{out.name}-sources"))
        except Exception as fault:
            return f"{look} ({fault!r})"
        if not right:
            return look
    return ""


def wanted(rows):
    """The rows whose file or text has one of the words of the command line, or all of them, each with its number."""
    words = [it for it in sys.argv[1:] if not it.startswith("--")]
    return [(i, it) for i, it in enumerate(rows) if not words or any(word in it[0] + it[1] for word in words)]


def four_harts(folder):
    """Writes the platform of four harts into a folder, and returns its path."""
    four = folder / "four.toml"
    four.write_text((m.FIRMWARE / "platform.toml").read_text().replace("harts = 1\n", "harts = 4\n"))
    return four


def report(rows, reasons):
    """Prints what each mutant failed, or that it survived, and then how many did."""
    survived = 0
    for (_, mutant), why in zip(rows, reasons):
        survived += not why
        print(f"{'failed ' + why if why else 'SURVIVED'}: {mutant[0]}: {mutant[1].strip().splitlines()[0][:100]}", flush=True)
    print(f"{survived} of {len(rows)} survived")


def main():
    rows = wanted(MUTANTS)
    with tempfile.TemporaryDirectory() as place, ThreadPoolExecutor(3) as many:
        folder = Path(place)
        four, bench = four_harts(folder), Bench(folder)
        report(rows, many.map(lambda it: judged(bench, four, *it), rows))


if __name__ == "__main__":
    main()
