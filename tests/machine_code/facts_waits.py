"""Facts of the functions that wait for other harts. Another hart may write each word that they look at, so every load of one has any value.
A wait is proved by its round: from its head, with nothing known of the registers that a round may change, to its head or out of it. The
steps are those of the model in tests/on_hart/interleavings.py."""
import z3

from facts_frames import platform_of
from proof import A0, MOST_HARTS, RA, SAVED_REGISTERS, var
from rv64 import Failed, Space, bv

MIE, SOFTWARE = 0x304, 1 << 3
ALL, MEMORY = 0xff, 0x33  # fences: of everything, and of memory alone
RELEASE = 0xf5  # the fence that gcc puts before a release: fence iorw, ow


def steps(end, *spaces):
    """The accesses of these spaces, the fences and the calls of a path, in their order."""
    found = []
    for it in end.log:
        if it[0] == "call":
            found.append(it[1])
        elif it[0] in ("load", "store") and it[1] in spaces:
            found.append((it[0], it[1], it[3]))
        elif it[0] == "fence":
            found.append(it[1])
        elif it[0] in ("fence.i", "sfence.vma", "wfi"):
            found.append(it[0])
    return found


def values(end, space, offset):
    """The values that are stored at an offset of a space."""
    return [it[4] for it in end.log if it[:2] == ("store", space) and it[3] == offset]


def seen(end, space, offset):
    """The values that are loaded at an offset of a space that others write."""
    return [it[4] for it in end.log if it[:2] == ("load", space) and it[3] == offset]


def heads(p, function, name, imm=None):
    """The places to which a branch of a function goes back and that have this instruction."""
    found = [at for at in p.loop_heads(function) if p.m.insn_at(at).name == name and (imm is None or p.m.insn_at(at).imm == imm)]
    if not found:
        raise Failed(f"{function} has no loop that begins with {name}")
    return found


def keeps_saved(p, end, before, *but):
    p.same(end, [(end.x[n], before.x[n]) for n in SAVED_REGISTERS if n not in but], "what the next round needs")


def seen_by_others(p):
    """The struct world of each hart and what harts look at of one another: any load of it has any value."""
    return p.space("worlds", *map(bv, range(MOST_HARTS)), device=True), p.space("stopping", device=True), p.clint()


def lock_waited(p):
    """wait_for_call: the hart looks at the ticket that is called until it is its own. After some looks it enables machine mode's software
    interrupt alone, notes itself in SLEEPERS, and then, again and again, clears its software interrupt, executes a full fence, looks,
    and sleeps. When its ticket is called it takes itself out of SLEEPERS, and mie is as it was. It writes nothing else."""
    names = p.layout.assembly
    tickets = p.m.add(Space("tickets", p.address("tickets"), names.MONITOR_SP + 8, device=True))
    p.clint()
    ticket = var("ticket")
    state = p.begin("wait_for_call")
    state.x[5], state.x[6], state.x[31] = tickets.base, ticket, state.x[RA]
    had = state.get_csr(MIE)
    look = heads(p, "wait_for_call", "ld", names.CALLED)[0]
    sleep = heads(p, "wait_for_call", "sw")[0]
    p.m.ends["looks"], p.m.ends["sleeps"] = bv(look), bv(sleep)
    sleeper = names.SLEEPERS + (ticket & 3)
    for first in p.run(state):
        p.fact(first, first.end == "looks" and not steps(first, "tickets", "clint"), "it looks first")
        inner = p.go_on(first, look)
        for n in (5, 6, 31):
            inner.x[n] = first.x[n]
        inner.x[30] = var("looks")  # how many looks are left
        for end in p.round(inner):
            done = steps(end, "tickets", "clint")
            p.fact(end, done[0] == ("load", "tickets", names.CALLED), "a look")
            p.fact(end, (seen(end, "tickets", names.CALLED)[0] == ticket) == z3.BoolVal(end.end == "return"), "it goes on when it is called")
            p.same(end, [(end.x[n], first.x[n]) for n in (5, 6, 31)], "its ticket")
            keeps_saved(p, end, first)
            if end.end != "sleeps":
                p.fact(end, len(done) == 1, "nothing but a look")
                p.csrs_only(end)
                continue
            p.fact(end, len(done) == 2 and done[1][:2] == ("store", "tickets"), "it notes that it sleeps")
            p.fact(end, z3.And(bv(done[1][2]) == sleeper, values(end, "tickets", done[1][2])[0] == z3.Extract(7, 0, p.hart + 1)), "who sleeps")
            p.fact(end, z3.And(end.get_csr(MIE) == SOFTWARE, end.x[30] == had), "mie while it sleeps")
            asleep(p, end, sleep, had, sleeper)


def asleep(p, before, sleep, had, sleeper):
    """A round of the sleep."""
    names = p.layout.assembly
    inner = p.go_on(before, sleep)
    for n in (5, 6, 7, 29, 30, 31):
        inner.x[n] = before.x[n]
    for end in p.round(inner):
        done = steps(end, "tickets", "clint")
        p.fact(end, done[0][:2] == ("store", "clint") and done[1:3] == [ALL, ("load", "tickets", names.CALLED)], "a round of the sleep")
        p.fact(end, z3.And(bv(done[0][2] // 4) == p.hart, values(end, "clint", done[0][2])[0] == 0), "its own interrupt")
        keeps_saved(p, end, before)
        p.fact(end, (seen(end, "tickets", names.CALLED)[0] == before.x[6]) == z3.BoolVal(end.end == "return"), "it goes on when it is called")
        if end.end == "sleeps":
            p.fact(end, done[3:] == ["wfi"] and end.get_csr(MIE).eq(before.get_csr(MIE)), "it sleeps again")
            p.same(end, [(end.x[n], before.x[n]) for n in (5, 6, 7, 29, 30, 31)], "what the next round needs")
        else:
            p.fact(end, len(done) == 4 and done[3][:2] == ("store", "tickets"), "it has slept")
            p.fact(end, z3.And(bv(done[3][2]) == sleeper, values(end, "tickets", done[3][2])[0] == 0, end.get_csr(MIE) == had), "who slept")


def stands_still(p):
    """stand_still: the hart says that it is halted and looks whether it is to stop, until it is not. Then it says that it is out, executes a
    fence, looks for requests, which it takes if there are any, and looks once more whether it is to stop. If so it begins again, and
    otherwise it returns."""
    layout = p.layout.world
    worlds, _, _ = seen_by_others(p)
    p.assume("take_requests")
    state = p.begin("stand_still", p.world_at(p.hart))
    halt = heads(p, "stand_still", "sw")[0]
    wait = heads(p, "stand_still", "csrrs")[0]
    p.m.ends["halts"], p.m.ends["waits"] = bv(halt), bv(wait)
    out, requests, asked, made = (layout.is_out, layout.requests, layout.fences_asked, layout.fences_made)
    look, stop = [("load", "worlds", requests), ALL], [("load", "stopping", 0), ALL]
    count = [("load", "worlds", it) for it in (asked, made)]
    for begun in p.run(state):
        p.fact(begun, begun.end == "halts" and not steps(begun, "worlds", "stopping"), "it halts first")
        for halted in p.round(p.go_on(begun, halt)):
            p.fact(halted, halted.end == "waits" and steps(halted, "worlds", "stopping") == [("store", "worlds", out)], "it halts")
            p.fact(halted, values(halted, "worlds", out)[0] == 0, "is_out")
            keeps_saved(p, halted, begun)
            for end in p.round(p.go_on(halted, wait)):
                done = steps(end, "worlds", "stopping")
                looks = [z3.Extract(0, 0, z3.LShR(it, p.hart)) == 1 for it in seen(end, "stopping", 0)]
                p.fact(end, looks[0] == z3.BoolVal(end.end == "waits"), "it waits while it is to stop")
                if end.end == "waits":
                    p.fact(end, done == stop, "it waits")
                    keeps_saved(p, end, begun)
                    continue
                p.fact(end, done[:6] == stop + [("store", "worlds", out), MEMORY] + look and values(end, "worlds", out)[0].as_long() == 1, "it goes out")
                p.fact(end, sorted(done[6:-2], key=str) in ([], ["take_requests"], sorted(count, key=str), sorted([*count, "take_requests"], key=str)), "it takes requests")
                p.fact(end, done[6:-2] != [] and done[-2:] == stop, "it looks once more")
                p.fact(end, looks[1] == z3.BoolVal(end.end == "halts"), "it begins again if it is to stop")
                counts = [*seen(end, "worlds", asked), *seen(end, "worlds", made)]
                wants = z3.Or(seen(end, "worlds", requests)[0] != 0, *[counts[0] != it for it in counts[1:]])
                p.fact(end, wants == z3.BoolVal("take_requests" in done), "when it takes requests")
                p.calls_are(end, [("take_requests", p.world_at(p.hart))] * ("take_requests" in done))
                if end.end == "halts":
                    keeps_saved(p, end, begun)
                else:
                    p.keeps_contract(end)


def harts_stopped(p):
    """stop_harts, for every set: the set is written after a release fence, and a full fence of memory follows. Then each other hart of the set
    that is out is interrupted, after a fence. Then each other hart of the set is waited for in turn, as long as it is out; a fence of
    memory comes last. Messages about a hart that is late are the only other effect."""
    layout = p.layout.world
    seen_by_others(p)
    platform = platform_of(p)
    harts = p.first(platform, p.layout.platform_frame.harts)
    which = var("which")
    for name in ("put", "put_number"):
        p.assume(name)
    state = p.begin("stop_harts", which)
    state.path += [z3.ULE(harts, MOST_HARTS)]
    turns = heads(p, "stop_harts", "csrrs")
    wait = heads(p, "stop_harts", "lw")[0]
    p.m.ends["turns"], p.m.ends["waits"] = bv(turns[-1]), bv(wait)
    is_due = lambda hart: z3.And(z3.ULT(hart, harts), z3.Extract(hart, hart, which) == 1, p.hart != hart)
    reached = {}
    for end in p.run(state):
        done = steps(end, "worlds", "stopping", "clint")
        p.fact(end, done[:4] == [RELEASE, ("load", "stopping", 0), ("store", "stopping", 0), MEMORY] and values(end, "stopping", 0)[0].eq(which), "the set")
        rest = done[4:] if end.end == "turns" else done[4:-1]
        looked = [it[2].as_long() for it in end.log if it[:2] == ("load", "worlds")]
        p.fact(end, z3.And(*[is_due(hart) == z3.BoolVal(hart in looked) for hart in range(MOST_HARTS)]), "whom it looks at")
        raised = [n for n, it in enumerate(rest) if isinstance(it, tuple) and it[:2] == ("store", "clint")]
        woken = [rest[n][2] // 4 for n in raised]
        p.fact(end, looked == sorted(looked) and woken == sorted(woken) and set(woken) <= set(looked), "in order")
        p.fact(end, all(rest[n - 1] == ALL for n in raised), "a fence before each interrupt")
        p.fact(end, z3.And(*[(it != 0) == z3.BoolVal(hart in woken) for hart, it in zip(looked, seen(end, "worlds", layout.is_out))]), "whom it interrupts")
        p.fact(end, all(it.as_long() == 1 for hart in woken for it in values(end, "clint", 4 * hart)), "the interrupts")
        p.fact(end, len(rest) == len(looked) + 2 * len(woken), "nothing else")
        if end.end == "turns":
            reached.setdefault("turns", end)
        else:
            p.fact(end, z3.And(harts == 0, z3.BoolVal(done[-1] == MEMORY)), "it returns")
            p.keeps_contract(end)
    turn = reached["turns"]
    counter = [n for n in SAVED_REGISTERS if z3.is_bv_value(turn.x[n]) and turn.x[n].as_long() == 0]
    p.fact(turn, len(counter) == 1, "it counts harts")
    for hart in range(MOST_HARTS):
        inner = p.go_on(turn, turns[-1])
        inner.x[counter[0]] = bv(hart)
        inner.path, inner.known = list(p.start.path) + [z3.ULT(hart, harts)], {}
        for end in p.round(inner):
            if end.end == "waits":
                p.fact(end, z3.And(is_due(hart), z3.BoolVal(not steps(end, "worlds", "stopping", "clint"))), "it waits for a hart that is due")
                for after in p.round(p.go_on(end, wait)):
                    done = steps(after, "worlds", "stopping", "clint")
                    p.fact(after, done[0] == ("load", "worlds", layout.is_out) and after.log[0][2].as_long() == hart, "whom it waits for")
                    p.fact(after, (seen(after, "worlds", layout.is_out)[0] != 0) == z3.BoolVal(after.end == "waits"), "it waits while that hart is out")
                    if after.end == "waits":
                        p.fact(after, [it for it in done[1:] if it not in ("put", "put_number")] == [], "it looks again")
                        p.same(after, [(after.x[n], end.x[n]) for n in SAVED_REGISTERS if n != 9], "what the next look needs")
                    else:
                        turned(p, after, turn, counter[0], hart, harts, done[1:])
            else:
                p.fact(end, z3.Not(is_due(hart)), "it waits for no other hart")
                turned(p, end, turn, counter[0], hart, harts, steps(end, "worlds", "stopping", "clint"))


def turned(p, end, turn, counter, hart, harts, done):
    """A hart has been waited for: the next one's turn, or the last fence."""
    if end.end == "turns":
        p.fact(end, z3.And(end.x[counter] == hart + 1, z3.ULT(hart + 1, harts), z3.BoolVal(done == [])), "the next hart")
        p.same(end, [(end.x[n], turn.x[n]) for n in SAVED_REGISTERS if n not in (counter, 8, 9)], "what the next turn needs")
    else:
        p.fact(end, z3.And(harts == hart + 1, z3.BoolVal(done == [MEMORY])), "the last fence")
        p.keeps_contract(end)


def makes_fences(layout, done):
    """Whether these are the steps of make_fences: the count is loaded, the requests are taken, the fences are executed, and then the count is
    written."""
    kinds = [it for it in done[5:-3] if it not in ("sfence.vma", "fence.i")]
    return (done[:5] == [("load", "worlds", layout.fences_asked), ALL, RELEASE, ("load", "worlds", layout.requests), ("store", "worlds", layout.requests)]
            and not kinds and done[-3:] == [RELEASE, ("load", "worlds", layout.fences_made), ("store", "worlds", layout.fences_made)])


def harts_fenced(p):
    """fence_harts, for every set of harts and every kinds of fences. For each other hart of the set in turn it sets the kinds in the requests of
    that hart, counts up how often it was asked, and interrupts it after a fence. Then it executes the fences itself if it is in the
    set. Then it waits for each other hart of the set: it looks whether the hart is out, and if so whether it has made as many fences as
    it was asked for here; if not it makes its own and looks again. It returns 1, or 0 if it gave up waiting for one."""
    layout = p.layout.world
    seen_by_others(p)
    which, kinds = var("which"), var("kinds")
    state = p.begin("fence_harts", which, kinds)
    state.path += [z3.ULT(which, 1 << MOST_HARTS), z3.ULE(kinds, 3)]
    wait = heads(p, "fence_harts", "lw", layout.is_out)[0]
    p.m.ends["waits"] = bv(wait)
    is_other = lambda hart: z3.And(z3.Extract(hart, hart, which) == 1, p.hart != hart)
    asks = [RELEASE, ("load", "worlds", layout.requests), ("store", "worlds", layout.requests), RELEASE, ("load", "worlds", layout.fences_asked),
            ("store", "worlds", layout.fences_asked), ALL]
    arrivals = []
    for end in p.run(state):
        done = steps(end, "worlds", "stopping", "clint")
        asked = [it[2].as_long() for it in end.log if it[:2] == ("store", "worlds") and it[3] == layout.requests]
        p.fact(end, z3.And(*[is_other(hart) == z3.BoolVal(hart in asked) for hart in range(MOST_HARTS)]), "whom it asks")
        p.fact(end, done[:8 * len(asked)] == [it for hart in asked for it in [*asks, ("store", "clint", 4 * hart)]] and asked == sorted(asked), "how it asks")
        p.fact(end, z3.And(*[z3.SignExt(32, it) | kinds == z3.SignExt(32, it) for it in values(end, "worlds", layout.requests)]), "what it asks for")
        p.fact(end, all(it[4].as_long() == 1 for it in end.log if it[:2] == ("store", "clint")), "the interrupts")
        own = done[8 * len(asked):]
        is_in = z3.Extract(0, 0, z3.LShR(which, p.hart)) == 1
        p.fact(end, z3.And(*[z3.And(is_in, kinds & bit != 0) == z3.BoolVal(name in own) for bit, name in ((1, "sfence.vma"), (2, "fence.i"))]), "its own fences")
        p.fact(end, set(own) <= {"sfence.vma", "fence.i"}, "nothing else")
        if end.end == "waits":
            numbers = values(end, "worlds", layout.fences_asked)
            arrivals.append((end, asked, [z3.SignExt(32, it) for it in numbers], False))
        else:
            p.fact(end, z3.And(z3.BoolVal(not asked), end.x[A0] == 1), "there is nobody to wait for")
            p.keeps_contract(end)
    while arrivals:
        at, left, numbers, is_late = arrivals.pop()
        p.fact(at, z3.Or(*[at.x[n] == numbers[0] for n in SAVED_REGISTERS]), "the number that it waits for")
        nexts = {}
        for end in p.round(p.go_on(at, wait)):
            done = steps(end, "worlds", "stopping", "clint")
            p.fact(end, done[0] == ("load", "worlds", layout.is_out) and {it[2].as_long() for it in end.log[:1]} == {left[0]}, "whom it waits for")
            looked = done[1:3] == [("load", "worlds", layout.fences_made), ALL]
            p.fact(end, done[1:] == [] or looked and (done[3:] == [] or makes_fences(layout, done[3:])), "how it waits")
            out, made = seen(end, "worlds", layout.is_out)[0], seen(end, "worlds", layout.fences_made)[:1]
            is_done = z3.Or(out == 0, *[it - z3.Extract(31, 0, numbers[0]) >= 0 for it in made])
            p.fact(end, is_done == z3.BoolVal(len(done) <= 3), "when it waits no more")
            if end.end == "waits" and all(end.x[n].eq(at.x[n]) for n in SAVED_REGISTERS):
                p.fact(end, len(done) > 3, "it looks again without its fences")
                continue
            is_now_late = is_late or len(done) > 3
            if end.end == "waits":  # what this round has seen is forgotten
                end.path, end.known = list(at.path), dict(at.known)
                nexts.setdefault(is_now_late, end)
                p.same(end, [(end.x[n], nexts[is_now_late].x[n]) for n in SAVED_REGISTERS], "what the next wait needs")
            else:
                p.fact(end, z3.And(z3.BoolVal(len(left) == 1), end.x[A0] == (0 if is_now_late else 1)), "the result")
                p.keeps_contract(end)
        p.fact(at, len(left) == 1 or bool(nexts), "it goes on with the next hart")
        arrivals += [(it, left[1:], numbers[1:], late) for late, it in nexts.items()]


PROOFS = [lock_waited, stands_still, harts_stopped, harts_fenced]
