"""Facts of traps.c and serve.c: how the monitor waits for a trap, what a hart does with the lock, and how the board ends."""
import z3

from facts_boot import hart_of
from facts_frames import platform_of
from facts_start import MARK
from facts_waits import RELEASE
from proof import A0, MOST_HARTS, RA, SAVED_REGISTERS, number_text, var
from rv64 import Space, bv

IS_PRIVATE = z3.Function("is_private_page", z3.BitVecSort(64), z3.BitVecSort(64), z3.BoolSort())
ACCESS_FAULTS = (1, 5, 7)  # causes: of a fetch, a load and a store
SOFTWARE_INTERRUPT = 1 << 63 | 3
ACTIONS = ("GO_ON", "TICK", "TO_HANDLER", "ANSWER", "SET_TIMER", "INTERRUPT_HARTS", "FENCE_INSTRUCTIONS", "FENCE_TRANSLATIONS", "PUT_BYTE", "START_HART",
           "STOP_HART", "SHUT_DOWN", "FAIL", "REBOOT")


def trap_awaited(p):
    """next_trap, for harts that enter in any order: the board ends if the guard of the monitor's stack was overwritten. Otherwise the hart loads
    changes and runs its world. Each hart that enters with a decision that is not the monitor's goes to serve_with_lock with its struct world,
    any number of them one after another. The frame describes the first hart whose decision is the monitor's: it is a call, or a stop if an
    enclave stopped without a call. Then the host can query the cause, and the value of mtval for an access fault on a page that is not
    private to the enclave; for all other causes the value is zero."""
    one, other = var("one"), var("other")
    worlds, frame = p.worlds(p.hart, one, other), p.room("frame", p.layout.trap_frame.size_of)
    guard = p.m.add(Space("stack_guard", p.address("stack_guard"), 8))
    for name in ("register_sets", "harts", "private_ranges"):
        p.space(name)
    state = p.begin("next_trap", frame.base)
    state.path += [z3.ULT(one, MOST_HARTS), z3.ULT(other, MOST_HARTS)]
    p.assume("load_changes")
    p.assume("put_trap")
    p.assume("run_world", lambda state, world: state.x.__setitem__(A0, p.world_at(one)))

    def is_private(state, enclave, page):
        state.x[A0] = z3.If(IS_PRIVATE(enclave, page), bv(1), bv(0))
    p.assume("is_private_page", is_private)
    p.m.ends.update(board=bv(p.address("end_because")), serves=bv(p.address("serve_with_lock")))
    is_whole, arrived = p.first(guard, 0) == MARK, None
    for end in p.run(state):
        p.fact(end, is_whole == z3.BoolVal(end.end != "board"), "when the board ends")
        if end.end == "board":
            p.fact(end, [it for it in end.log if it[0] == "call"] == [], "it ends first")
            continue
        runs = [it[1:] for it in end.log if it[0] == "call"][:2]
        p.fact(end, [it[0] for it in runs] == ["load_changes", "run_world"], "the hart runs its world")
        p.same(end, [(it[1], p.world_at(p.hart)) for it in runs], "which hart")
        has_trap(p, end, worlds, frame, one)
        arrived = end if end.end == "serves" else arrived
    p.fact(state, arrived is not None, "serve_with_lock is reached")
    inner = p.go_on(arrived, arrived.x[RA].as_long())
    inner.x[A0], inner.path = p.world_at(other), list(p.start.path)
    for offset in range(0, worlds.size, 8):  # whatever other harts did meanwhile
        worlds_change(p, inner, worlds, offset)
    p.start = inner.copy()
    for end in p.round(inner):
        has_trap(p, end, worlds, frame, other)
        if end.end == "serves":
            p.fact(end, z3.And(*[z3.Or(end.x[n] == arrived.x[n], end.x[n] == p.world_at(other)) for n in SAVED_REGISTERS]), "what the next hart needs")


def worlds_change(p, state, worlds, offset):
    """Forgets a word of every struct world."""
    p.m.fresh += 1
    state.lose(worlds, offset, 8, p.m.fresh)


def has_trap(p, end, worlds, frame, hart):
    """Proves that next_trap leaves the trap of a hart to serve_with_lock, or writes its frame."""
    layout, names = p.layout.world, p.layout.constants
    word = lambda offset: end.unwritten(worlds, hart, offset)
    kind, cause, value = word(layout.action + p.layout.action.kind), word(layout.cause), word(layout.value)
    p.fact(end, z3.ULT(kind, names["MONITOR"]) == z3.BoolVal(end.end == "serves"), "which decisions are the monitor's")
    if end.end == "serves":
        p.fact(end, end.x[A0] == p.world_at(hart), "whose trap is served")
        return
    is_host = kind == names["MONITOR"]
    tag = z3.If(z3.Or(is_host, kind == names["ENCLAVE_CALL"]), bv(number_text("call")), bv(number_text("stop")))
    frames = [it[1:] for it in end.log if it[:2] == ("call", "put_trap")]
    p.fact(end, len(frames) == 1, "one frame")
    p.same(end, zip(frames[0][1:], (p.world_at(hart), tag, frame.base)), "whose frame it is")
    p.fact(end, end.x[A0] == p.layout.trap_frame.size_of, "the result")
    told = [p.now(end, worlds, layout.caller + offset, index=hart) for offset in (p.layout.caller.stop_cause, p.layout.caller.stop_value)]
    is_access = z3.Or(*[cause == it for it in ACCESS_FAULTS])
    address = z3.If(z3.And(is_access, z3.Not(IS_PRIVATE(word(layout.number), z3.LShR(value, 12)))), value, bv(0))
    p.fact(end, z3.Implies(z3.Not(is_host), z3.And(told[0] == cause, told[1] == address)), "what the host is told")
    p.keeps_abi(end)


def board_stopped(p):
    """end_because, ended and trapped call forget first, then print their numbers, and then call end_board with a failure; served calls
    end_because with its own. None of them returns."""
    for name in ("end_because", "ended", "trapped", "served"):
        q = p.again()
        frame, fields = q.room("end", q.layout.end_frame.size_of, writable=False), q.layout.end_frame
        numbers = {"end_because": [var("second")], "ended": [q.first(frame, it) for it in (fields.reason, fields.detail)],
                   "trapped": [var("first"), var("second"), var("third")]}
        for space in ("private_ranges", "register_sets", "worlds", "stopping"):
            q.space(space)
        state = q.begin(name, var("end") if name == "ended" else var("first"), var("second"), var("third"))
        for callee in ("forget", "put", "put_hex", "put_number"):
            q.assume(callee)
        q.m.ends = {"ends": bv(q.address("end_board"))} | ({"because": bv(q.address("end_because"))} if name == "served" else {})
        for end in q.run(state):
            calls = [it[1] for it in end.log if it[0] == "call"]
            if name == "served":
                q.fact(end, z3.And(z3.BoolVal(end.end == "because" and not calls), end.x[A0 + 1] == var("first")), "it is left to end_because")
                continue
            q.fact(end, calls[0] == "forget" and calls.count("forget") == 1, "forget comes first")
            printed = [it[2] for it in end.log if it[0] == "call" and it[1] in ("put_hex", "put_number")]
            q.fact(end, len(printed) == len(numbers[name]), "how many numbers are printed")
            q.same(end, zip(printed, numbers[name]), "the numbers that are printed")
            q.fact(end, z3.And(z3.BoolVal(end.end == "ends"), end.x[A0] == 1), "the board ends with a failure")
            q.fact(end, not [it for it in end.log if it[0] == "store" and it[1] != "stack"], "it writes itself")
        p.take(q)


def served_with_lock(p):
    """serve_with_lock, on a hart that holds the lock. A hart that is not started is prepared as in `host_begins` if it enters for the first time,
    takes its requests, and has the cause of a software interrupt. The core decides on the current states of harts, and its new states are
    written back: `pending`, a fence, and then `started`. Then its action is performed. The set, a1 and is_stale of a started hart are
    written before the hart is woken. A hart that stops gets the initial control registers. A shutdown or a restart ends the run. Other
    actions are performed as by `serve_alone`, but changes are loaded last. At the end the hart runs its world if it is started now, and is
    parked otherwise. By premise the core only starts other harts, below 4."""
    names, partner = p.layout.constants, var("partner")
    action = {name: var(name) for name in ("kind", "error", "value", "subject", "address", "opaque")}
    states, started, pending = [var(f"decided{n}") for n in range(3)], p.layout.harts.started, p.layout.harts.pending
    state = holds_lock(p, partner)
    assume_decision(p, action, states, partner)
    assume_actions(p, partner)
    p.m.ends.update(ends=bv(p.address("end_board")), anew=bv(p.address("begin_anew")))
    is_started, reached = z3.Extract(0, 0, z3.LShR(states[started // 8], p.hart)) == 1, set()
    for end in p.run(state):
        calls, found = [it[1:] for it in end.log if it[0] == "call"], [it[1] for it in end.log if it[0] == "found"]
        at = [it[0] for it in calls].index("pmpmon_decide")
        entered(p, end, calls[:at], calls[at], found[0])
        written = [(it[3], it[4]) if it[0] == "store" else it[1] for it in end.log if it[:2] == ("store", "harts") or it[:2] == ("fence", RELEASE)]
        p.fact(end, [it if isinstance(it, int) else it[0] for it in written] == [pending, RELEASE, started], "how states are written")
        p.fact(end, z3.And(written[0][1] == states[pending // 8], written[2][1] == states[started // 8]), "which states are written")
        number = p.number_of(end, action["kind"], range(names["MONITOR"]))
        reached.add(number)
        performed(p, end, calls[at + 1:], number, action, is_started, found[1:], partner)
    p.fact(state, reached == set(range(names["MONITOR"])), f"each action is reached: {reached}")


def holds_lock(p, partner):
    """A call of serve_with_lock. Its hart has its own host's set, and so has another hart, which it may start."""
    worlds, _, _ = p.worlds(p.hart, partner), p.sets(p.hart, partner), p.space("harts")
    platform_of(p)
    for name in ("given", "got"):
        p.space(name)
    for name in ("has_begun", "has_stimecmp"):
        p.small(name)
    state = p.begin("serve_with_lock", p.world_at(p.hart))
    state.path += [z3.ULT(partner, MOST_HARTS), partner != p.hart]
    for hart in (p.hart, partner):
        p.put(state, worlds, p.layout.world.registers, p.set_at(hart), hart)
    return state


def assume_decision(p, action, states, partner):
    """The core makes this action and these states of harts. Its struct caller is noted."""
    worlds, names, layout = p.worlds(), p.layout.constants, p.layout

    def decided(state, number, cause, call, caller, bank, copy, *more):
        kind, subject = action["kind"], action["subject"]
        state.path += [z3.ULT(kind, names["MONITOR"]), z3.Implies(kind == names["START_HART"], subject == partner)]
        for n, term in enumerate(states):
            p.m.store(state, copy + 8 * n, term, 8)
        for name, term in action.items():
            state.memory[(worlds.name, p.m.member(state, worlds, p.hart).get_id(), layout.world.action + getattr(layout.action, name))] = term
    p.assume("pmpmon_decide", decided)
    p.note_at("pmpmon_decide", lambda state: [p.now(state, worlds, layout.world.caller + 8 * n, index=p.hart) for n in range(6)])


def assume_actions(p, partner):
    """Assumes the callees that perform an action. The set of a started hart is noted when it is woken, and the set of this hart when it leaves
    the monitor."""
    worlds, sets, layout = p.worlds(), p.sets(), p.layout
    for name in ("take_requests", "load_changes", "host_timer_came", "control_to_handler", "host_timer_at", "interrupt_harts", "fence_harts", "put_char",
                 "unpark", "control_at_start", "check_entries", "control_find"):
        p.assume(name)
    p.note_at("unpark", lambda state: [p.now(state, sets, 8 * n, index=partner) for n in range(33)] + [
        p.now(state, worlds, layout.world.is_stale, 2, partner)])
    for name in ("run_world", "park"):
        p.assume(name, lambda state, world: state.x.__setitem__(A0, var("next")))
        p.note_at(name, lambda state: [p.now(state, sets, n, index=p.hart) for n in (8 * A0, 8 * A0 + 8, layout.registers.pc)])


def entered(p, end, calls, decision, caller):
    """Proves how serve_with_lock prepares a hart that enters, and which arguments the core gets."""
    layout, world, worlds, self = p.layout, p.layout.world, p.worlds(), p.world_at(p.hart)
    begun, at = p.small("has_begun")
    enters, begins = len(calls) > 0, len(calls) > 1
    was_started = z3.Extract(0, 0, z3.LShR(p.first(p.space("harts"), layout.harts.started), p.hart)) == 1
    has_begun = z3.Extract(7, 0, z3.LShR(p.first(begun, at & ~7), 8 * (p.hart + at % 8))) != 0
    p.fact(end, z3.And(was_started != z3.BoolVal(enters), z3.And(z3.Not(was_started), z3.Not(has_begun)) == z3.BoolVal(begins)), "whether it enters")
    callees, words = hart_of(p, p.hart)
    called(p, end, calls, callees * begins + [("take_requests", self)] * enters)
    given = [p.first(worlds, world.number, index=p.hart), bv(SOFTWARE_INTERRUPT) if enters else p.first(worlds, world.cause, index=p.hart),
             p.set_at(p.hart) + 8 * A0, self + world.caller, bv(p.address("host_bank")) + layout.bank.cfg]
    p.same(end, [*zip(decision[1:6], given), (decision[7], self + world.action)], "what the core is given")
    if begins:
        p.same(end, [(caller[(offset - world.caller) // 8], term) for offset, term in words.items()], "its struct caller")


def called(p, end, calls, expected):
    """Proves that these are the calls, with their arguments."""
    part = end.copy()
    part.log = [("call", *it) for it in calls]
    p.calls_are(part, expected)


def performed(p, end, calls, number, action, is_started, found, partner):
    """Proves that serve_with_lock performs the action, and then runs the hart's world or parks it."""
    names, self, subject = p.layout.constants, p.world_at(p.hart), action["subject"]
    name = next(it for it, value in names.items() if value == number and it in ACTIONS)
    if name in ("SHUT_DOWN", "FAIL", "REBOOT"):
        called(p, end, calls, [])
        p.fact(end, end.end == ("anew" if name == "REBOOT" else "ends"), "the board ends or begins again")
        p.fact(end, name == "REBOOT" or end.x[A0] == (name == "FAIL"), "the status")
        return
    p.fact(end, z3.And(z3.BoolVal(end.end == "return"), end.x[A0] == var("next")), "it goes on as the hart that enters next")
    p.keeps_abi(end)
    runs = calls[-1][0] == "run_world"
    p.fact(end, is_started == z3.BoolVal(runs), "whether the hart runs a world")
    last = [("load_changes", self), ("run_world", self)] if runs else [("park", self)]
    does = {"TICK": [("host_timer_came",)], "TO_HANDLER": [("control_to_handler", self)], "SET_TIMER": [("host_timer_at", subject)],
            "INTERRUPT_HARTS": [("interrupt_harts", subject)], "FENCE_INSTRUCTIONS": [("fence_harts", subject, bv(2))],
            "FENCE_TRANSLATIONS": [("fence_harts", subject, bv(1))], "PUT_BYTE": [("put_char", subject & 255)], "START_HART": [("unpark", subject)],
            "STOP_HART": [("control_at_start",)]}.get(name, [])
    called(p, end, calls, does + last)
    a0, a1, pc = found[-1]
    sets, layout = p.sets(), p.layout.registers
    if name in ("GO_ON", "TICK", "STOP_HART"):
        p.same(end, [(a0, sets.initial(p.hart, 8 * A0)), (a1, sets.initial(p.hart, 8 * A0 + 8)), (pc, sets.initial(p.hart, layout.pc))], "the set stays")
    elif name != "TO_HANDLER":
        is_error = a0 == action["error"]
        p.fact(end, z3.Or(is_error, a0 == -1) if name.startswith("FENCE") else is_error, "the error")
        p.fact(end, z3.And(a1 == action["value"], pc == sets.initial(p.hart, layout.pc) + 4), "the answer")
    if name == "START_HART":
        *registers, is_stale = found[0]
        expected = {A0: partner, A0 + 1: action["opaque"], 32: action["address"]}
        p.same(end, [(registers[n], expected.get(n, bv(0))) for n in range(1, 33)], "the registers of the hart that is started")
        p.fact(end, is_stale == 1, "its list is to be loaded")


PROOFS = [trap_awaited, served_with_lock, board_stopped]
