"""Facts of traps.c and timer.c: the calls that a hart serves without the monitor's lock."""
import z3

from facts_frames import platform_of
from proof import A0, MIP, MOST_HARTS, TIME, var
from rv64 import Space, bv

STIP, SSIP = 1 << 5, 1 << 1  # of mip
CLINT_COMPARE = 0x2004000
STIMECMP = 0x14d


def assume_decide(p):
    """pmpmon_decide writes the action and the copy of the states of harts; see its contract."""
    def writes_states(state, world, cause, call, caller, bank, states, *more):
        for n in range(3):
            p.m.store(state, states + 8 * n, p.m.new("states"), 8)
    p.assume("pmpmon_decide", writes_states)


def serve_alone(p):
    """serve_alone changes only a0, a1 and the pc of the world that trapped, and of its set only what the decision of the core says: nothing
    where the world goes on or a tick came; the pc where the host's handler is entered; and a0, a1 and the pc, which goes past the call,
    where a call is answered. It reads which harts are started before it reads which are pending, with a fence between. It returns 0, with the set as it is, iff the trap needs the lock. The core decides with the world's number,
    the cause, a0 to a7, the hart's caller and the host's configuration. No other register set, list of entries, control word of a host
    and no page is written: the contracts of the callees exclude it."""
    which, layout = var("set"), p.layout
    worlds, sets = p.worlds(), p.sets(which)
    world, names, registers = layout.world, layout.constants, layout.registers
    p.space("harts")
    platform_of(p)
    state = p.begin("serve_alone", p.world_at(p.hart))
    state.path.append(z3.ULT(which, sets.count))
    p.put(state, worlds, world.registers, p.set_at(which), p.hart)
    assume_decide(p)
    callees = {"take_requests": [names["GO_ON"]], "load_changes": [names["GO_ON"]], "host_timer_came": [names["TICK"], names["ENCLAVE_TICK"]],
               "control_to_handler": [names["TO_HANDLER"]], "host_timer_at": [names["SET_TIMER"]], "interrupt_harts": [names["INTERRUPT_HARTS"]],
               "fence_harts": [names["FENCE_INSTRUCTIONS"], names["FENCE_TRANSLATIONS"]], "put_char": [names["PUT_BYTE"]]}
    for name in callees:
        p.assume(name)
    self, pc = p.world_at(p.hart), registers.pc
    action = lambda end, name: end.unwritten(worlds, p.hart, world.action + getattr(layout.action, name))
    seen = set()
    for end in p.run(state):
        p.keeps_contract(end)
        calls = [it[1:] for it in end.log if it[0] == "call"]
        p.fact(end, calls[0][0] == "pmpmon_decide" and len([it for it in calls if it[0] == "pmpmon_decide"]) == 1, "the core decides once")
        given = [p.first(worlds, world.number, index=p.hart), p.first(worlds, world.cause, index=p.hart), p.set_at(which) + 8 * A0,
                 self + world.caller, bv(p.address("host_bank")) + layout.bank.cfg]
        p.same(end, list(zip(calls[0][1:6], given)) + [(calls[0][7], self + world.action)], "what the core is given")
        read = [it[3] if it[0] == "load" else "fence" for it in end.log if it[:2] == ("load", "harts") or it[0] == "fence"]
        p.fact(end, [read.index(it) for it in (layout.harts.started, "fence", layout.harts.pending)] == sorted(
            read.index(it) for it in (layout.harts.started, "fence", layout.harts.pending)), "the order in which it reads the states")
        kind, needs_lock = action(end, "kind"), z3.UGE(action(end, "kind"), names["START_HART"])
        p.fact(end, needs_lock == (end.x[A0] == 0), "what is left to the lock")
        for name, *_ in calls[1:]:
            p.fact(end, z3.Or(*[kind == it for it in callees[name]]), f"when {name} is called")
            seen.add(name)
        x10, x11, now = (p.now(end, sets, it, index=which) for it in (8 * A0, 8 * A0 + 8, pc))
        stays = z3.And(x10 == sets.initial(which, 8 * A0), x11 == sets.initial(which, 8 * A0 + 8), now == sets.initial(which, pc))
        p.fact(end, z3.Implies(z3.Or(needs_lock, kind == names["GO_ON"], kind == names["TICK"]), stays), "the set stays")
        is_call = z3.And(z3.Not(needs_lock), kind != names["GO_ON"], kind != names["TICK"], kind != names["TO_HANDLER"])
        error = p.now(end, worlds, world.action + layout.action.error, index=p.hart)
        p.fact(end, z3.Implies(is_call, z3.And(x10 == error, x11 == action(end, "value"), now == sets.initial(which, pc) + 4)), "the answer")
        fenced = z3.BoolVal("fence_harts" in [it[0] for it in calls])
        p.fact(end, z3.Or(error == action(end, "error"), z3.And(fenced, error == -1)), "the error is the core's, or that of a fence that fails")
        p.writes_only(end, (worlds, p.hart, range(world.action, world.action + 48)), (sets, which, (8 * A0, 8 * A0 + 8, pc)),
                      *[(it, None, range(it.size)) for it in (worlds, sets)])
    p.fact(state, seen == set(callees), f"a callee is never reached: {set(callees) - seen}")


def timer_set(p):
    """host_timer_at puts the time into stimecmp where the hart has it. Otherwise it puts it into the hart's own word of the CLINT and
    clears the host's timer interrupt."""
    has, at = p.small("has_stimecmp")
    p.m.add(Space("compare", CLINT_COMPARE, 8 * MOST_HARTS, device=True))
    state = p.begin("host_timer_at", var("time"))
    word = p.first(has, at & ~7)
    for end in p.run(state):
        p.keeps_contract(end)
        mine = z3.Extract(7, 0, z3.LShR(word, 8 * (p.hart + at % 8)))
        stores = [it for it in end.log if it[:2] == ("store", "compare")]
        cleared = [it for it in end.log if it[:2] == ("csr", MIP)]
        if stores:
            p.fact(end, z3.And(mine == 0, stores[0][4] == var("time"), bv(stores[0][3] // 8) == p.hart, z3.BoolVal(len(stores) == 1)), "the CLINT")
            p.fact(end, z3.And(cleared[0][2] == STIP, z3.BoolVal(cleared[0][3] == "c" and len(cleared) == 1)), "the interrupt is cleared")
            p.csrs_only(end, MIP)
        else:
            p.fact(end, z3.And(mine != 0, end.get_csr(STIMECMP) == var("time"), z3.BoolVal(not cleared)), "stimecmp")
        p.writes_only(end)


def timer_came(p):
    """host_timer_came looks at the time and at the hart's time in the CLINT. Before that has come it does nothing; then it turns that timer off
    and sets the host's timer interrupt."""
    p.m.add(Space("compare", CLINT_COMPARE, 8 * MOST_HARTS, device=True))
    state = p.begin("host_timer_came")
    for end in p.run(state):
        p.keeps_contract(end)
        stores = [it for it in end.log if it[:2] == ("store", "compare")]
        changed = [it for it in end.log if it[:2] == ("csr", MIP)]
        p.fact(end, len(stores) == len(changed) < 2, "both or neither")
        now, due = ([it for it in end.log if it[:2] == words] for words in (("read", TIME), ("load", "compare")))
        p.fact(end, len(now) == len(due) == 1 and z3.And(bv(due[0][3] // 8) == p.hart, z3.UGE(now[0][2], due[0][4]) == z3.BoolVal(bool(stores))), "when")
        if stores:
            p.fact(end, z3.And(bv(stores[0][3] // 8) == p.hart, stores[0][4] == -1), "the timer is off")
            p.fact(end, z3.And(changed[0][2] == STIP, z3.BoolVal(changed[0][3] == "s")), "the host's interrupt")
        p.writes_only(end)


PROOFS = [serve_alone, timer_set, timer_came]
