"""Facts of trap.S: how a trap saves a world, how a world is entered, and how one hart leaves the monitor to the next."""
import z3

from proof import A0, MOST_HARTS, MSCRATCH, S0, SP, registers_of, var
from rv64 import MCAUSE, MEPC, MPP, MSTATUS, MTVAL, Failed, Space, bv

USER_OR_SUPERVISOR = 1 << 12  # this bit of MPP is clear


def begin_trap(p, which):
    """A trap of the world whose register set has this index; its set names the hart's struct world."""
    worlds, sets = p.worlds(), p.sets(which)
    state = p.begin("trap")
    state.path.append(z3.ULT(which, sets.count))
    state.csr[MSCRATCH] = p.set_at(which)
    p.put(state, sets, 0, p.world_at(p.hart), which)
    return state, worlds, sets


def trap_saves(p):
    """A trap of a world saves x1 to x31 and the pc in its set, and the cause and the value in the hart's struct world; it writes nothing
    else, and calls serve_alone on the hart's own stack. After user mode s1 to s11 are zero then, so that C leaves no register of an
    enclave on a stack. A trap of the monitor itself writes no memory and goes to `died`."""
    which, layout = var("set"), p.layout
    state, worlds, sets = begin_trap(p, which)
    p.m.ends = {"served": bv(p.address("serve_alone")), "died": bv(p.address("died"))}
    state.path.append(state.get_csr(MSTATUS) & MPP != 2 << 11)  # no hart has mode 2
    ends = p.run(state)
    p.fact(state, z3.BoolVal(any(it.end == "served" for it in ends)), "no trap is served")
    status = p.start.get_csr(MSTATUS)
    for end in ends:
        p.csrs_only(end, MSCRATCH)
        if end.end == "died":
            p.fact(end, status & MPP == MPP, "the trap of a world goes to died")
            continue
        p.fact(end, status & MPP != MPP, "a trap of machine mode is served")
        p.same(end, [(p.now(end, sets, 8 * n, index=which), p.old.x[n]) for n in range(1, 32)], "x1 to x31 are saved")
        p.fact(end, p.now(end, sets, layout.registers.pc, index=which) == p.start.get_csr(MEPC), "the pc is saved")
        p.fact(end, p.now(end, worlds, layout.world.cause, index=p.hart) == p.start.get_csr(MCAUSE), "mcause is saved")
        p.fact(end, p.now(end, worlds, layout.world.value, index=p.hart) == p.start.get_csr(MTVAL), "mtval is saved")
        p.writes_only(end, (sets, which, range(8, layout.registers.f)), (worlds, p.hart, (layout.world.cause, layout.world.value)))
        p.fact(end, end.get_csr(MSCRATCH) == 0, "mscratch is zero")
        p.fact(end, z3.And(end.x[SP] == p.world_at(p.hart) + layout.world.registers, end.x[A0] == p.world_at(p.hart),
                           end.x[S0] == end.x[A0]), "sp, a0 and s0")
        p.fact(end, z3.Implies(status & MPP == 0, z3.And(*[end.x[n] == 0 for n in [9, *range(18, 28)]])), "s1 to s11 are zero after user mode")
    inner = p.old.copy()
    inner.csr[MSCRATCH] = bv(0)
    for end in p.run(inner):
        p.fact(end, z3.BoolVal(end.end == "died" and not end.memory), "a trap of the monitor itself")


def world_is_entered(p, end, worlds, sets, which, registers, pc):
    """The facts of the mret into a world: it has these registers, and no reservation is left."""
    if end.end != "mret":
        raise Failed(f"it ends at {end.end}")
    p.same(end, [(end.x[n], registers[n]) for n in range(1, 32)], "x1 to x31")
    p.fact(end, end.get_csr(MEPC) == pc, "mepc")
    p.fact(end, end.get_csr(MSCRATCH) == p.set_at(which), "mscratch")
    p.fact(end, p.now(end, sets, 0, index=which) == p.world_at(p.hart), "the hart of the set")
    tried = [it[1] for it in end.log if it[0] == "sc"]
    p.fact(end, z3.BoolVal(len(tried) == 1), "a reservation may be left")
    p.fact(end, tried[0] == p.world_at(p.hart), "where the reservation is given up")


def world_loads(p):
    """enter_world loads x1 to x31 and the pc from the set that the struct world names, and mscratch gets the set. It writes the set's first
    word and the lowest word of the hart's own stack, where it gives up a reservation."""
    which, layout = var("set"), p.layout
    worlds, sets = p.worlds(), p.sets(which)
    state = p.begin("enter_world")
    state.path.append(z3.ULT(which, sets.count))
    state.x[S0] = p.world_at(p.hart)
    p.put(state, worlds, layout.world.registers, p.set_at(which), p.hart)
    for end in p.run(state):
        words = [p.start.word(sets, which, 8 * n) for n in range(33)]
        world_is_entered(p, end, worlds, sets, which, words, words[32])
        p.writes_only(end, (sets, which, (0,)), (worlds, p.hart, (0,)))
        p.csrs_only(end, MEPC, MSCRATCH)


def trap_and_back(p):
    """A trap that the hart serves alone, and that leaves the set as saved (`serve_alone` says when), is the identity on x1 to x31 and the
    pc, whatever serve_alone leaves in other registers, in control registers and on the hart's stack."""
    which, layout = var("set"), p.layout
    state, worlds, sets = begin_trap(p, which)
    state.path.append(state.get_csr(MSTATUS) & USER_OR_SUPERVISOR == 0)
    p.put(state, worlds, layout.world.registers, p.set_at(which), p.hart)

    def stays(state, world):
        for offset in (8 * 10, 8 * 11, layout.registers.pc):
            before = p.start.get_csr(MEPC) if offset == layout.registers.pc else p.old.x[offset // 8]
            state.memory[(sets.name, which.get_id(), offset)] = before
        for number in (MEPC, MCAUSE, MTVAL):
            state.csr[number] = p.m.new("csr")
        state.path.append(state.x[A0] != 0)
    p.assume("serve_alone", stays)
    p.m.ends = {}
    for end in p.run(state):
        world_is_entered(p, end, worlds, sets, which, p.old.x, p.start.get_csr(MEPC))


def tickets_of(p):
    """The lock: the next ticket, the one that is called, a byte for each sleeper, and the monitor's stack pointer."""
    return p.m.add(Space("tickets", p.address("tickets"), p.layout.assembly.MONITOR_SP + 8))


def monitor_left_and_taken(p):
    """run_world leaves the monitor on one hart, and take_monitor continues it on another or the same: ra, sp and s0 to s11 are as they
    were, and a0 is the struct world of the hart that enters. Leaving calls the next ticket between two fences and wakes the hart
    that sleeps with it. Entering halts the hart, draws the next ticket and keeps it, and goes on only once it is called."""
    other, layout, names = var("other"), p.layout.world, p.layout.assembly
    worlds, tickets = p.worlds(p.hart, other), tickets_of(p)
    p.clint()
    state = p.begin("run_world", p.world_at(p.hart))
    sleepers, called = p.first(tickets, names.SLEEPERS, 4), p.first(tickets, names.CALLED)
    state.path += [z3.ULT(other, MOST_HARTS)] + [z3.ULE(z3.Extract(8 * n + 7, 8 * n, sleepers), MOST_HARTS) for n in range(4)]
    p.m.ends["world"] = bv(p.address("enter_world"))
    p.m.ends["waits"] = bv(p.address("wait_for_call"))
    for left in p.run(state):
        p.fact(left, z3.And(left.x[S0] == p.world_at(p.hart), z3.BoolVal(left.end == "world")), "s0")
        p.fact(left, p.now(left, tickets, names.CALLED) == called + 1, "the next ticket is called")
        p.writes_only(left, (tickets, bv(0), (names.CALLED, names.MONITOR_SP)))
        stores = [it for it in left.log if it[0] in ("store", "fence") and it[1] != "stack"]
        calls = [n for n, it in enumerate(stores) if it[:2] == ("store", "tickets") and it[3] == names.CALLED]
        p.fact(left, z3.BoolVal(len(calls) == 1 and stores[calls[0] - 1] == stores[calls[0] + 1] == ("fence", 0xff)), "the fences")
        looks = [n for n, it in enumerate(left.log) if it[:2] == ("load", "tickets") and names.SLEEPERS <= it[3] < names.SLEEPERS + 8]
        calls = [n for n, it in enumerate(left.log) if it[:2] == ("store", "tickets") and it[3] == names.CALLED]
        p.fact(left, calls[0] < min(looks) and ("fence", 0xff) in left.log[calls[0]:min(looks)], "it looks for a sleeper after a fence")
        woken = [it for it in left.log if it[:2] == ("store", "clint")]
        sleeper = z3.Extract(7, 0, z3.LShR(sleepers, z3.Extract(31, 0, 8 * (called + 1 & 3))))
        p.fact(left, sleeper == (woken[0][3] // 4 + 1 if woken else 0), "the sleeper is woken")
        taken = left.copy()
        taken.x = [bv(0)] + [var(f"enters{n}") for n in range(1, 32)]
        taken.pc, taken.end, taken.x[A0] = p.address("take_monitor"), None, p.world_at(other)
        p.start = taken.copy()
        for end in p.m.run(taken):
            drawn = p.now(p.start, tickets, 0)
            p.fact(end, z3.And(p.now(end, tickets, 0) == drawn + 1, p.now(end, worlds, layout.ticket, index=other) == drawn),
                   "the ticket is drawn and kept")
            p.fact(end, p.now(end, worlds, layout.is_out, 4, other) == 0, "it is halted")
            p.writes_only(end, (tickets, bv(0), (0,)), (worlds, other, (layout.is_out & ~7, layout.ticket)))
            p.fact(end, p.now(end, worlds, layout.is_wanted, 4, other) == p.now(p.start, worlds, layout.is_wanted, 4, other), "is_wanted")
            order = [it if it[0] == "fence" else (*it[:2], it[3]) for it in end.log[len(left.log):] if it[0] == "fence" or it[0] in ("load", "store") and it[1] != "stack"]
            p.fact(end, order[:5] == [("fence", 0x33), ("store", "worlds", layout.is_out), ("load", "tickets", 0), ("store", "tickets", 0), (
                "store", "worlds", layout.ticket)] and order[5] == ("load", "tickets", names.CALLED), "the order in which it comes for the lock")
            is_called = p.now(p.start, tickets, names.CALLED) == drawn
            if end.end == "return":
                p.keeps_abi(end)
                p.fact(end, end.x[A0] == p.world_at(other), "a0")
                p.fact(end, is_called, "it enters uncalled")
                fences = [n for n, it in enumerate(end.log) if it[0] == "fence"]
                loads = [n for n, it in enumerate(end.log) if it[:2] == ("load", "tickets") and it[3] == names.MONITOR_SP]
                p.fact(end, z3.BoolVal(fences[-1] < loads[0]), "the fence before the monitor is read")
            else:
                p.fact(end, z3.And(z3.BoolVal(end.end == "waits"), z3.Not(is_called), end.x[6] == drawn, end.x[5] == p.address("tickets")),
                       "it waits with its ticket")


def monitor_trap_ends(p):
    """`died`, for a trap of the monitor: every later trap goes to `died` too, the hart's own stack is used, and `trapped` gets mcause, mepc
    and mtval. A ticket that was drawn and not yet kept is kept; no other memory is written."""
    layout = p.layout.world
    worlds = p.worlds()
    state = p.begin("died")
    self = p.world_at(p.hart)
    state.x[A0] = self
    p.m.ends["trapped"] = bv(p.address("trapped"))
    was_drawing = state.get_csr(MEPC) == p.address("drawn")
    for end in p.run(state):
        p.fact(end, z3.BoolVal(end.end == "trapped"), f"it ends at {end.end}")
        p.fact(end, end.get_csr(0x305) == p.address("died"), "mtvec")
        p.csrs_only(end, 0x305)
        p.fact(end, z3.And(end.x[SP] == self + layout.registers, end.x[A0] == p.start.get_csr(MCAUSE), end.x[11] == p.start.get_csr(MEPC),
                           end.x[12] == p.start.get_csr(MTVAL)), "the arguments and the stack")
        kept = p.now(end, worlds, layout.ticket, index=p.hart)
        p.fact(end, kept == z3.If(was_drawing, p.old.x[6], p.first(worlds, layout.ticket, index=p.hart)), "the ticket")
        p.writes_only(end, (worlds, p.hart, (layout.ticket,)))


def only_worlds_have_globals(p):
    """No instruction names x3 or x4, except where trap.S saves and loads those of a world. So they stay the world's in the monitor."""
    names = {"trap": 0, "enter_world": 0}
    at = p.m.text_base
    while at < p.m.text_base + len(p.m.text) - 2:
        insn = p.m.insn_or_none(at)
        if insn is None:  # not an instruction that the executor knows: no proof passes through it
            at += 2
            continue
        if registers_of(insn) & {3, 4}:
            function = p.m.image.function_at(at)
            if function not in names:
                raise Failed(f"{p.m.image.place(at)} names x3 or x4")
            names[function] += 1
        at += insn.size
    p.fact(p.begin("trap"), z3.BoolVal(names == {"trap": 2, "enter_world": 2}), "where x3 and x4 are saved and loaded")


def parked_until_wanted(p):
    """park leaves the monitor as run_world does. It clears the hart's software interrupt, executes a fence and looks whether it is wanted;
    where it is not it waits for an interrupt and looks again, and where it is it clears the wish and comes for the lock."""
    layout, names = p.layout.world, p.layout.assembly
    worlds, tickets = p.worlds(), tickets_of(p)
    p.clint()
    state = p.begin("park", p.world_at(p.hart))
    sleepers = p.first(tickets, names.SLEEPERS, 4)
    state.path += [z3.ULE(z3.Extract(8 * n + 7, 8 * n, sleepers), MOST_HARTS) for n in range(4)]
    head = p.loop_head("park")
    p.m.ends["head"], p.m.ends["monitor"] = bv(head), bv(p.address("take_monitor"))
    for before in p.run(state):
        p.fact(before, z3.BoolVal(before.end == "head"), "it looks")
        p.writes_only(before, (tickets, bv(0), (names.CALLED, names.MONITOR_SP)))
        inner = p.go_on(before, head)
        for n in (A0, 29):  # the struct world, and t4: the hart's word of the CLINT
            inner.x[n] = before.x[n]
        wanted = p.first(worlds, layout.is_wanted, 4, p.hart)
        for end in p.round(inner):
            order = [it[:2] for it in end.log if it[0] in ("store", "load", "fence", "wfi") and it[1] != "stack"]
            p.fact(end, z3.BoolVal(order[:3] == [("store", "clint"), ("fence", 0xff), ("load", "worlds")]), "the order of its look")
            p.fact(end, end.log[0][4] == 0, "the interrupt is cleared")
            p.fact(end, bv(end.log[0][3] // 4) == p.hart, "whose interrupt it is")
            if end.end == "head":
                p.fact(end, z3.And(wanted == 0, z3.BoolVal(order[3][0] == "wfi")), "it waits")
                p.fact(end, z3.And(end.x[A0] == before.x[A0], end.x[29] == before.x[29]), "what the next look needs")
            else:
                p.fact(end, z3.And(wanted != 0, p.now(end, worlds, layout.is_wanted, 4, p.hart) == 0, end.x[A0] == p.world_at(p.hart)),
                       "it comes for the lock")
                p.fact(end, p.now(end, worlds, layout.is_out, 4, p.hart) == p.first(worlds, layout.is_out, 4, p.hart), "is_out")
                p.writes_only(end, (worlds, p.hart, (layout.is_wanted & ~7,)), (tickets, bv(0), (names.CALLED, names.MONITOR_SP)))


PROOFS = [trap_saves, world_loads, trap_and_back, monitor_left_and_taken, monitor_trap_ends, parked_until_wanted, only_worlds_have_globals]
