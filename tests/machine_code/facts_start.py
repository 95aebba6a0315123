"""Facts of start.S: how a hart begins."""
import z3

from proof import MSCRATCH, RA, SP, var
from rv64 import MSTATUS, MTVEC, Failed, Space, bv

TSELECT, TDATA1, MISA = 0x7a0, 0x7a1, 0x301
OF_EARLIER = 1 << 42 | 1 << 17 | 1 << 3  # of mstatus: MDT, MPRV and MIE
NEEDED = 1 << 12 | 1 << 2 | 1 << 0  # of misa: M, C and A
MARK = 0x5a5a5a5a5a5a5a5a
T0, T1, S0 = 5, 6, 8


def place(p, function, name, imm):
    """The first instruction of a function with this name and immediate."""
    begin = p.address(function)
    at, end = begin, next(start for start, _ in p.m.image.starts if start > begin)
    while at < end:
        insn = p.m.insn_at(at)
        if (insn.name, insn.imm) == (name, imm):
            return at
        at += insn.size
    raise Failed(f"{function} has no {name} of {imm:#x}")


def triggers_closed(p):
    """_start, on a hart with any number of triggers or none: MDT, MPRV and MIE of mstatus are cleared first. Each trigger, from the first on, is
    left with its type and zeros, until one cannot be selected, has no type, or its registers are missing, which traps. No memory is
    written."""
    there = z3.Bool("has_triggers")
    p.m.exists.update({TSELECT: there, TDATA1: there})
    state = p.begin("_start")
    head = p.loop_heads("_start")[0]
    p.m.ends["next"] = bv(head)
    arrival, = p.run(state)
    ready = arrival.csr[MTVEC].as_long()
    p.fact(arrival, z3.And(z3.BoolVal(arrival.end == "next"), arrival.x[T0] == 0, arrival.get_csr(MSTATUS) & OF_EARLIER == 0), "the first trigger")
    p.m.ends["ready"] = bv(ready)
    inner, trigger = p.go_on(arrival, head), var("trigger")
    inner.x[T0] = trigger
    for end in p.round(inner):
        read = {it[1]: it[2] for it in end.log if it[0] == "read"}
        written = [it[1:3] for it in end.log if it[0] == "csr"]
        p.writes_only(end)
        p.fact(end, end.x[S0] == OF_EARLIER, "s0")
        p.fact(end, not written or written[0][0] == TSELECT and written[0][1].eq(trigger), "which trigger is selected")
        p.fact(end, (there == z3.BoolVal(bool(written))) if end.end == "ready" else there, "a hart without triggers")
        kind = z3.LShR(read[TDATA1], 60) if TDATA1 in read else None
        if end.end == "next":
            p.fact(end, z3.And(read[TSELECT] == trigger, kind != 0, written[1][1] == kind << 60, end.x[T0] == trigger + 1), "a trigger is closed")
            p.fact(end, [it[0] for it in written] == [TSELECT, TDATA1], "what is written")
        elif written:
            p.fact(end, len(written) == 1 and (kind == 0 if kind is not None else read[TSELECT] != trigger), "the last trigger")


def hart_begins(p):
    """_start, after the triggers: MDT, MPRV and MIE of mstatus are zero, and the hart goes on if misa is zero or has M, A and C. On hart 0 each
    word of bss becomes zero, then each word of the monitor's stack gets the mark, and then boot is called on that stack with a0 and a1
    as the earlier stage left them. The proved loop follows on the same stack, and its result goes to `served`. A trap goes to `trap` from
    before that on. The list of private ranges is in neither. Both loops are
    proved for the word of any index. Another hart goes to `other`."""
    state = p.begin("_start")
    state.pc, state.x[S0] = place(p, "_start", "csrrs", MISA) - 4, bv(OF_EARLIER)
    begins, lacks = place(p, "_start", "csrrw", MSCRATCH), place(p, "_start", "csrrs", 0xf14)
    bss, stack = [it for it in p.loop_heads("_start") if p.m.insn_at(it).name == "sd"]
    p.m.ends.update(begins=bv(begins), lacks=bv(lacks))
    seen = set()
    for end in p.run(state):
        misa = p.start.get_csr(MISA)
        seen.add(end.end)
        p.fact(end, z3.Or(misa == 0, misa & NEEDED == NEEDED) == z3.BoolVal(end.end == "begins"), "what a hart needs")
        p.fact(end, end.get_csr(MSTATUS) & OF_EARLIER == 0, "mstatus")
        p.writes_only(end)
    p.fact(state, seen == {"begins", "lacks"}, "both are reached")
    p.m.ends = {"bss": bv(bss), "stack": bv(stack), "boot": bv(p.address("boot")), "other": bv(p.address("other"))}
    state = p.begin("_start")
    state.pc = begins
    for end in p.run(state):
        p.fact(end, (p.hart == 0) == z3.BoolVal(end.end == "bss"), "which hart boots")
        p.fact(end, z3.And(end.get_csr(MSCRATCH) == 0, end.get_csr(MTVEC) == p.address("trap"), end.x[T0] == (p.hart if end.end == "other" else p.address("bss_start"))),
               "mscratch and mtvec")
        if end.end == "bss":
            end = each_word(p, end, "bss", "bss_start", "bss_end", 0)
            end = each_word(p, end, "stack", "stack_start", "stack_end", MARK)
            p.fact(end, z3.And(z3.BoolVal(end.end == "boot"), end.x[SP] == p.address("stack_end"), end.x[10] == p.old.x[10], end.x[11] == p.old.x[11]), "boot")
            for callee in ("pmpmon_serve", "served"):
                after = p.go_on(end, end.x[RA].as_long())
                result, p.m.ends = after.x[10], {callee: bv(p.address(callee))}
                end, = p.round(after)
                p.fact(end, z3.And(z3.BoolVal(end.end == callee), end.x[SP] == p.address("stack_end"), end.x[10] == result), f"{callee} follows")
    listed = p.address("private_ranges")
    p.fact(state, not p.address("bss_start") - 24 * 64 < listed < p.address("stack_end"), "the list of private ranges")


def each_word(p, arrival, head, first, last, value):
    """A loop over the words of a range: the state after its last round."""
    q, index = p.again(), var("index")
    begin, count = q.address(first), (q.address(last) - q.address(first)) // 8
    q.m.ends = p.m.ends
    words = q.m.add(Space(head, begin, 8, count, [index]))
    p.fact(arrival, z3.And(arrival.x[T0] == begin, z3.BoolVal(arrival.end == head)), f"the first word of {head}")
    inner = arrival.copy()
    inner.end, inner.log, inner.x[T0] = None, [], begin + 8 * index
    inner.path = [z3.ULT(index, count)]
    q.start = inner.copy()
    left = []
    for end in q.round(inner):
        q.fact(end, q.now(end, words, 0, index=index) == value, f"the word of {head}")
        q.writes_only(end, (words, index, (0,)))
        if end.end == head:
            q.fact(end, z3.And(end.x[T0] == begin + 8 * (index + 1), z3.ULT(index + 1, count)), "the next word")
            q.same(end, [(end.x[n], inner.x[n]) for n in (SP, T1, 10, 11)], "what the next word needs")
        else:
            q.fact(end, index == count - 1, "the last word")
            left.append(end)
    p.take(q)
    p.fact(arrival, len(left) == 1, "the loop is left in one way")
    left[0].path, left[0].memory, left[0].members, left[0].known = list(arrival.path), {}, {}, {}
    return left[0]


def other_begins(p):
    """`other`, on a hart below 4: it notes that it has arrived, and looks at harts_run until its number is below. Then it executes a fence of
    memory and goes to enter_as_trapped, where it comes for the lock. It writes nothing else."""
    seen_by_all = p.m.add(Space("start", p.address("arrived"), 8, device=True))
    state = p.begin("other")
    state.x[T0] = p.hart
    p.m.ends.update(waits=bv(place(p, "other", "lw", 0)), enters=bv(p.address("enter_as_trapped")))
    at = p.address("harts_run") - p.address("arrived")
    for arrival in p.run(state):
        told = [it for it in arrival.log if it[0] == "store"]
        p.fact(arrival, arrival.end == "waits" and len(told) == 1 and told[0][1] == seen_by_all.name, "it notes that it has arrived")
        p.fact(arrival, z3.And(bv(told[0][3]) == p.hart, told[0][4] != 0), "which hart has arrived")
        inner = arrival.copy()
        inner.end, inner.log = None, []
        for end in p.round(inner):
            log = [it for it in end.log if it[0] != "read"]
            p.fact(end, log[0][:2] == ("load", seen_by_all.name) and log[0][3] == at, "it looks")
            is_less = z3.ULT(p.hart, z3.SignExt(32, log[0][4]))
            p.fact(end, is_less == z3.BoolVal(end.end == "enters"), "when it goes on")
            p.fact(end, log[1:] == ([("fence", 0x33)] if end.end == "enters" else []), "the fence")
            p.same(end, [(end.x[n], arrival.x[n]) for n in (T0, T1)], "what the next look needs")


PROOFS = [triggers_closed, hart_begins, other_begins]
