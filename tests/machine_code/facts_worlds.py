"""Facts of registers.c, control.c, floats.c and floats.S: what changes with the world of a hart."""
import z3

from contracts import CONTROL
from proof import A0, FCSR, MISA, MOST_ENCLAVES, MOST_HARTS, var
from rv64 import FS, MPP, MPV, MSTATUS, MTVEC, bv

# The bits of mstatus that a world has (firmware/DESIGN.md, "Control registers"), and those of its mode.
STATUS = 1 << 1 | 1 << 5 | 1 << 6 | 1 << 8 | 3 << 9 | 3 << 13 | 3 << 15 | 1 << 18 | 1 << 19 | 3 << 32
MODE = MPP | MPV
SSTATUS_OF_TRAP = 1 << 1 | 1 << 5 | 1 << 8  # SIE, SPIE, SPP
NONE, FCSR_ALONE, SINGLES, DOUBLES = range(4)


def changed_sets(p, end, sets, hart, changes):
    """What `changed` of SetChanges.antt makes of the register sets: a word for each byte offset of each object that it names. The pc goes
    past a call; two words are put into a0 and a1; a first entry has its pc and a0, and zeros; or all is zero, floats too."""
    layout = p.layout.registers
    expected = {}
    for change, whose, first, second in changes:
        kind = p.number_of(end, change, range(5))
        if kind == 0:
            continue
        owner = p.m.member(end, sets, hart if p.m.entails(end.path, whose == 0) else whose + 3)
        before = expected.get((sets.name, owner.get_id(), layout.pc), sets.initial(owner, layout.pc))
        if kind == 1:
            new = {layout.pc: before + 4}
        elif kind == 2:
            new = {8 * A0: first, 8 * A0 + 8: second}
        else:
            new = {offset: bv(0) for offset in range(8, layout.f, 8)}
        if kind == 3:
            new.update({layout.pc: first, 8 * A0: whose})
        if kind == 4:
            new.update({offset: bv(0) for offset in range(layout.f, layout.size_of, 8)})
        expected.update({(sets.name, owner.get_id(), offset): term for offset, term in new.items()})
    return expected


def sets_changed(p):
    """registers_change does to the register sets what the three changes of an answer say, in their order, for all kinds of change and any
    sets, equal or not; every other word stays. (By default one of the three is no change; all combinations with --exhaustive.) The
    first word of a set is no register, and a change that zeroes a set may zero it."""
    layout = p.layout
    for idle in ((None,) if p.is_exhaustive else range(3)):
        q = p.again() if idle else p
        answer = q.room("answer", layout.answer_frame.size_of, writable=False)
        at = layout.answer_frame.changes
        word = lambda offset: q.first(answer, offset)
        hart, changes = word(layout.answer_frame.hart), [[word(at + 32 * n + 8 * k) for k in range(4)] for n in range(3)]
        sets = q.sets(hart, *[whose + 3 for _, whose, _, _ in changes])
        state = q.begin("registers_change", var("written"), answer.base)
        state.path += [z3.ULT(hart, MOST_HARTS)]
        for n, (kind, whose, _, _) in enumerate(changes):
            state.path += [kind == 0 if n == idle else z3.ULE(kind, 4), z3.ULE(whose, MOST_ENCLAVES)]
        for end in q.run(state):
            q.keeps_contract(end)
            expected = changed_sets(q, end, sets, hart, changes)
            pairs = []
            for key in expected.keys() | end.memory.keys():
                if key[2] != 0 and key[0] == sets.name:
                    member = next(it for it in end.members[sets.name] if it.get_id() == key[1])
                    pairs.append((end.memory.get(key, sets.initial(member, key[2])), expected.get(key, sets.initial(member, key[2]))))
            q.same(end, pairs, "a set is not as its changes say")
        if q is not p:
            p.take(q)


def set_begins(p):
    """registers_begin makes x1 to x31 of a set zero but a0, and puts the pc and a0; nothing else changes."""
    which, layout = var("set"), p.layout.registers
    sets = p.sets(which)
    state = p.begin("registers_begin", p.set_at(which), var("pc"), var("first"))
    state.path.append(z3.ULT(which, sets.count))
    for end in p.run(state):
        p.keeps_abi(end)
        p.csrs_only(end)
        p.same(end, [(p.now(end, sets, 8 * n, index=which), var("first") if n == A0 else bv(0)) for n in range(1, 32)], "x1 to x31")
        p.fact(end, p.now(end, sets, layout.pc, index=which) == var("pc"), "the pc")
        p.writes_only(end, (sets, which, range(0, layout.f)))


def control_space(p):
    """The hart's struct world, and which control registers the hart lacks: bit n of `lacks` for the n-th."""
    worlds = p.worlds()
    lacks = p.first(worlds, p.layout.world.lacks, 4, p.hart)
    for n, number in enumerate(CONTROL.values()):
        p.m.exists[number] = lacks & 1 << n == 0
    return worlds, lacks


def keep_some(p, state):
    """Each control register keeps some bits of what is written, and the others have fixed values: `ControlRegisters` of Held.antt, for every hart.
    So the registers of QEMU's hart do, whose mideleg reads 0x1444 and whose hstatus reads 0x200000000 after zero was written."""
    for number in (MSTATUS, *CONTROL.values()):
        keep, fixed = p.m.warl[number] = var(f"keep{number:#x}"), var(f"fixed{number:#x}")
        state.path += [keep & fixed == 0, state.get_csr(number) & ~keep == fixed]


def held(p, number, word):
    """What a register has after a word was written to it (`held_word` of Held.antt). Without `keep_some` it keeps every bit."""
    keep, fixed = p.m.warl.get(number, (bv(-1), bv(0)))
    return word & keep | fixed


def host_word(p, name):
    return p.layout.world.host + getattr(p.layout.control_words, name)


def has_control(p, end, word, lacks, *others):
    """The registers of the hart hold these words, and the other bits of mstatus stay. `word` maps a name to its word."""
    status = end.get_csr(MSTATUS)
    are_words = z3.And(word("status") & ~STATUS == 0, word("mode") & ~MODE == 0)
    p.fact(end, z3.Implies(are_words, z3.And(status & STATUS == held(p, MSTATUS, word("status")) & STATUS,
                                             status & MODE == held(p, MSTATUS, word("mode")) & MODE)), "status and mode")
    p.fact(end, status & ~(STATUS | MODE) == p.start.get_csr(MSTATUS) & ~(STATUS | MODE), "the other bits of mstatus")
    for n, (name, number) in enumerate(CONTROL.items()):
        p.fact(end, end.get_csr(number) == z3.If(lacks & 1 << n == 0, held(p, number, word(name)), p.start.get_csr(number)), name)
    p.csrs_only(end, MSTATUS, *others, *CONTROL.values())


def control_given(p):
    """control_enter: each control register that the hart has holds its word of the answer, and what it had is kept for the host, with the
    status that is passed. A register that the hart lacks is not accessed. This holds for every set of registers that a hart may lack."""
    worlds, lacks = control_space(p)
    words = p.room("words", p.layout.control_words.size_of, writable=False)
    state = p.begin("control_enter", p.world_at(p.hart), words.base, var("status"))
    keep_some(p, state)
    state.path.append(z3.ULT(lacks, 128))
    for end in p.run(state):
        p.keeps_contract(end)
        has_control(p, end, lambda name: p.first(words, getattr(p.layout.control_words, name)), lacks)
        kept = lambda name: p.now(end, worlds, host_word(p, name), index=p.hart)
        p.fact(end, kept("status") == var("status") & STATUS, "the host's status")
        p.fact(end, kept("mode") == var("status") & MODE, "the host's mode")
        for n, (name, number) in enumerate(CONTROL.items()):
            had = z3.If(lacks & 1 << n == 0, p.start.get_csr(number), p.first(worlds, host_word(p, name), index=p.hart))
            p.fact(end, kept(name) == had, f"{name} of the host")
        p.writes_only(end, (worlds, p.hart, range(p.layout.world.host, p.layout.world.host + 72)))


def control_comes_back(p):
    """control_leave: each control register that the hart has holds the word that was kept for its host, and the kept words stay."""
    worlds, lacks = control_space(p)
    state = p.begin("control_leave", p.world_at(p.hart))
    keep_some(p, state)
    state.path.append(z3.ULT(lacks, 128))
    for end in p.run(state):
        p.keeps_contract(end)
        has_control(p, end, lambda name: p.first(worlds, host_word(p, name), index=p.hart), lacks)
        p.writes_only(end)


def control_framed(p):
    """control_told puts mie and scounteren of the hart into the frame, which is `framed` of Board.antt, and changes nothing else."""
    layout = p.layout.trap_frame
    frame = p.room("frame", layout.size_of)
    state = p.begin("control_told", frame.base)
    for end in p.run(state):
        p.keeps_abi(end)
        p.fact(end, p.now(end, frame, layout.mie) == p.start.get_csr(0x304), "mie")
        p.fact(end, p.now(end, frame, layout.scounteren) == p.start.get_csr(0x106), "scounteren")
        p.fact(end, end.x[A0] == layout.size_of, "the length")
        p.writes_only(end, (frame, bv(0), (layout.mie, layout.scounteren)))
        p.csrs_only(end)


def handler_entered(p):
    """control_to_handler leaves a trap of the host as a delegated trap leaves it (Privileged Architecture): sepc, scause and stval are set;
    SPIE is SIE, SIE is 0, and SPP says whether supervisor mode trapped; mret goes to supervisor mode, not to a guest, at the handler of
    stvec, direct or vectored; SPV of hstatus says whether a guest trapped. The other bits of mstatus and hstatus stay."""
    which, layout = var("set"), p.layout.world
    worlds, lacks = control_space(p)
    sets = p.sets(which)
    state = p.begin("control_to_handler", p.world_at(p.hart))
    status, handler = state.get_csr(MSTATUS), state.get_csr(0x105)
    state.path += [z3.ULT(which, sets.count), status & 1 << 12 == 0]  # a world is in user or supervisor mode
    p.put(state, worlds, layout.registers, p.set_at(which), p.hart)
    cause, pc, bit = p.first(worlds, layout.cause, index=p.hart), p.layout.registers.pc, lambda term, n: z3.Extract(n, n, term)
    for end in p.run(state):
        p.keeps_contract(end)
        p.fact(end, z3.And(end.get_csr(0x141) == sets.initial(which, pc), end.get_csr(0x142) == cause,
                           end.get_csr(0x143) == p.first(worlds, layout.value, index=p.hart)), "sepc, scause and stval")
        now = end.get_csr(MSTATUS)
        p.fact(end, z3.And(bit(now, 5) == bit(status, 1), bit(now, 1) == 0, bit(now, 8) == bit(status, 11), bit(now, 39) == 0,
                           now & MPP == 1 << 11), "mstatus")
        p.fact(end, now & ~(SSTATUS_OF_TRAP | MODE) == status & ~(SSTATUS_OF_TRAP | MODE), "the other bits of mstatus")
        guest = p.start.get_csr(0x600)
        p.fact(end, end.get_csr(0x600) == z3.If(lacks & 16 == 0, guest & ~(1 << 7) | z3.LShR(status, 32) & 1 << 7, guest), "hstatus")
        at, is_vectored = handler & ~3, z3.And(handler & 1 == 1, bit(cause, 63) == 1)
        p.fact(end, p.now(end, sets, pc, index=which) == z3.If(is_vectored, (cause << 2) + at, at), "the pc")
        p.writes_only(end, (sets, which, (pc,)))


def floats_moved(p, name, width, is_load):
    """One of the four functions of floats.S, which moves the low bytes of each register."""
    which, layout = var("set"), p.layout.registers
    sets = p.sets(which)
    state = p.begin(name, p.set_at(which) + layout.f)
    state.path += [z3.ULT(which, sets.count), state.get_csr(MSTATUS) & FS != 0]
    for end in p.run(state):
        p.keeps_abi(end)
        for n in range(32):
            was = p.start.word(sets, which, layout.f + 8 * n)
            word, register = p.now(end, sets, layout.f + 8 * n, index=which), end.f[n]
            p.fact(end, z3.Extract(8 * width - 1, 0, register) == z3.Extract(8 * width - 1, 0, word), f"f{n}")
            p.fact(end, (was == word) if is_load else (p.old.f[n] == register), "the source stays")
            if width == 4 and is_load:
                p.fact(end, z3.Extract(63, 32, register) == 0xffffffff, "a single is NaN-boxed")
            if width == 4 and not is_load:
                p.fact(end, z3.Extract(63, 32, word) == z3.Extract(63, 32, was), "the upper half stays")
        p.writes_only(end, *([] if is_load else [(sets, which, range(layout.f, layout.fcsr))]))
        p.csrs_only(end, MSTATUS)


def floats_registers(p):
    """floats.S stores f0 to f31 in a set and loads them from it, as doubles or as singles, and changes nothing else but FS of mstatus."""
    for name, width in (("doubles", 8), ("singles", 4)):
        for verb in ("keep", "load"):
            q = p.again()
            floats_moved(q, f"{verb}_{name}", width, verb == "load")
            p.take(q)


def floats_changed(p):
    """floats_change, for each kind of hart: what the hart has in f0 to f31 and fcsr is kept in the set of the world that trapped, and the
    hart gets those of the next world. Where an enclave's FS is not Dirty its registers are not stored; the premise is that its set has
    them already, which the hart's rules for FS give."""
    which, after, layout = var("set"), var("next"), p.layout
    worlds, sets = p.worlds(), p.sets(which, after)
    state = p.begin("floats_change", p.world_at(p.hart), p.set_at(after), var("status"))
    kind = p.first(worlds, layout.world.floats_kind, 2, p.hart)
    state.path += [z3.ULT(which, sets.count), z3.ULT(after, sets.count), which != after, z3.ULE(kind, DOUBLES)]
    p.put(state, worlds, layout.world.registers, p.set_at(which), p.hart)
    is_clean = z3.And(p.first(worlds, layout.world.number, index=p.hart) != 0, var("status") & FS != FS)
    f, fcsr, low = layout.registers.f, layout.registers.fcsr, lambda a, b: z3.Extract(31, 0, a) == z3.Extract(31, 0, b)
    for n in range(32):
        word = sets.initial(which, f + 8 * n)
        state.path.append(z3.Implies(is_clean, z3.And(z3.Implies(kind == DOUBLES, word == state.f[n]),
                                                      z3.Implies(kind == SINGLES, low(word, state.f[n])))))
    state.path += [z3.ULE(sets.initial(it, fcsr), 255) for it in (which, after)]  # fcsr has eight bits
    for end in p.run(state):
        p.keeps_contract(end)
        p.writes_only(end, (sets, which, range(f, layout.registers.size_of)))
        for n in range(32):
            there, come = p.now(end, sets, f + 8 * n, index=which), sets.initial(after, f + 8 * n)
            p.fact(end, z3.Implies(kind == DOUBLES, z3.And(there == p.old.f[n], end.f[n] == come)), f"f{n}")
            p.fact(end, z3.Implies(kind == SINGLES, z3.And(low(there, p.old.f[n]), low(end.f[n], come))), f"f{n} as a single")
            p.fact(end, z3.Implies(z3.ULT(kind, SINGLES), z3.And(there == p.start.word(sets, which, f + 8 * n), end.f[n] == p.old.f[n])),
                   f"f{n} of a hart without floats")
        p.fact(end, z3.Implies(kind != NONE, z3.And(p.now(end, sets, fcsr, index=which) == p.start.get_csr(FCSR) & 255,
                                                    end.get_csr(FCSR) == sets.initial(after, fcsr))), "fcsr")
        p.fact(end, end.get_csr(MSTATUS) == p.start.get_csr(MSTATUS) | z3.If(kind == NONE, bv(0), bv(FS)), "mstatus")


def registers_found(p):
    """control_find tries each optional register of the hart, and the trap of a missing one is taken and returned from by mret. Afterwards
    `lacks` has bit n iff the hart lacks the n-th control register, and floats_kind says whether it has no fcsr, singles or doubles. The
    time alone is open in mcounteren; menvcfg, mstateen0 to mstateen3 and sstateen0 have their words if they are there, and memory types
    (PBMTE) stay closed; mtvec is restored. The board ends iff the hart lacks scounteren or has floats of 128 bits. (By default the hart
    has the control registers but for senvcfg and hstatus, which it may lack; with --exhaustive it may lack any.) FS keeps what is
    written here, so a hart with floats in integer registers is not covered."""
    layout, misa = p.layout.world, MISA
    worlds = p.worlds()
    timers, at = p.small("has_stimecmp")
    has = {number: z3.Bool(f"has_{number:#x}") for number in (*CONTROL.values(), 0x30a, 0x30c, 0x14d, FCSR)}
    has["D"] = z3.Bool("has_doubles")
    may_lack = list(has) if p.is_exhaustive else [0x10a, 0x600, 0x30a, 0x30c, 0x14d, FCSR, "D"]
    p.m.exists.update({what: has[what] for what in may_lack})
    state = p.begin("control_find")
    state.csr[MTVEC] = var("mtvec")
    p.m.ends["board"] = bv(p.address("end_because"))
    there = lambda what: has[what] if what in may_lack else z3.BoolVal(True)
    seen = set()
    state.path.append(p.first(worlds, layout.lacks, 4, p.hart) == 0)  # it comes once for each hart
    for end in p.run(state):
        is_wrong = z3.Or(z3.Not(there(CONTROL["scounteren"])), p.start.get_csr(misa) & 1 << 16 != 0)
        seen.add(end.end)
        p.fact(end, is_wrong == z3.BoolVal(end.end == "board"), "when the board ends")
        if end.end == "board":
            continue
        p.keeps_contract(end)
        p.fact(end, end.get_csr(MTVEC) == var("mtvec"), "mtvec")
        for n, (name, number) in enumerate(CONTROL.items()):
            bit = z3.Extract(n, n, p.now(end, worlds, layout.lacks, 4, p.hart))
            p.fact(end, bit == z3.If(there(number), z3.BitVecVal(0, 1), z3.BitVecVal(1, 1)), f"whether it lacks {name}")
        kind = z3.If(z3.Not(there(FCSR)), bv(NONE), z3.If(there("D"), bv(DOUBLES), bv(SINGLES)))
        p.fact(end, z3.ZeroExt(48, p.now(end, worlds, layout.floats_kind, 2, p.hart)) == kind, "floats_kind")
        timer = z3.Extract(7, 0, z3.LShR(p.now(end, timers, at & ~7), 8 * (p.hart + at % 8)))
        p.fact(end, timer == z3.If(there(0x14d), z3.BitVecVal(1, 8), z3.BitVecVal(0, 8)), "has_stimecmp")
        for number, value, is_there in ((0x306, 2, True), (0x30a, 1 << 63 | 1 << 7 | 1 << 6 | 1 << 4, there(0x30a)), (
                0x30c, 1 << 62 | 2, there(0x30c)), (0x30d, 0, there(0x30c)), (0x30e, 0, there(0x30c)), (0x30f, 0, there(0x30c)),
                (0x10c, 2, there(0x30c))):
            p.fact(end, end.get_csr(number) == z3.If(is_there, bv(value), p.start.get_csr(number)), f"CSR {number:#x}")
        p.csrs_only(end, MSTATUS, MTVEC, 0x341, 0x342, 0x343, 0x306, 0x30a, 0x30c, 0x30d, 0x30e, 0x30f, 0x10c)
    p.fact(state, seen == {"return", "board"}, f"ends {seen}")


PROOFS = [sets_changed, set_begins, control_given, control_comes_back, control_framed, handler_entered, floats_registers, floats_changed,
          registers_found]
