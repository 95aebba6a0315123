"""Facts of harts.c: what harts ask of one another. How harts meet in these functions is modelled by tests/on_hart/interleavings.py."""
import z3

from proof import MIP, MOST_HARTS, var
from rv64 import bv

SSIP = 1 << 1
FENCE_VMA, FENCE_I, OF_HOST = 1, 2, 4
FULL_FENCE = 0x33  # at least rw, rw


def is_full(entry):
    return entry[0] == "fence" and entry[1] & FULL_FENCE == FULL_FENCE


def requests_taken(p):
    """take_requests: the hart clears its software interrupt and executes a full fence before it looks. It loads how often it was asked for
    fences, takes the two bits of fences, executes sfence.vma and fence.i as they say, and only then notes that as many were made. If
    the bit of the host's interrupt is set and the hart is started, the host's software interrupt is set; all three bits are taken."""
    layout = p.layout.world
    worlds, harts = p.worlds(), p.space("harts")
    p.clint()
    state = p.begin("take_requests", p.world_at(p.hart))
    asked, requests = p.first(worlds, layout.fences_asked, 4, p.hart), p.first(worlds, layout.requests, 4, p.hart)
    started = z3.Extract(0, 0, z3.LShR(p.first(harts, p.layout.harts.started), p.hart)) == 1
    for end in p.run(state):
        p.keeps_contract(end)
        p.fact(end, p.now(end, worlds, layout.fences_made, 4, p.hart) == asked, "fences_made")
        p.fact(end, p.now(end, worlds, layout.requests, 4, p.hart) & 7 == 0, "the requests are taken")
        clear = [n for n, it in enumerate(end.log) if it[:2] == ("store", "clint")]
        p.fact(end, len(clear) == 1 and is_full(end.log[clear[0] + 1]), "the interrupt is cleared, then a fence")
        p.fact(end, z3.And(end.log[clear[0]][4] == 0, bv(end.log[clear[0]][3] // 4) == p.hart), "its own interrupt")
        looks = [n for n, it in enumerate(end.log) if it[:2] == ("load", "worlds") and it[3] == layout.fences_asked]
        made = [n for n, it in enumerate(end.log) if it[:2] == ("store", "worlds") and it[3] == layout.fences_made]
        kinds = {it[0]: n for n, it in enumerate(end.log) if it[0] in ("sfence.vma", "fence.i")}
        p.fact(end, clear[0] < looks[0] < made[0] and all(looks[0] < n < made[0] for n in kinds.values()), "the order of its fences")
        p.fact(end, z3.And((requests & FENCE_VMA != 0) == z3.BoolVal("sfence.vma" in kinds),
                           (requests & FENCE_I != 0) == z3.BoolVal("fence.i" in kinds)), "which fences it executes")
        given = [it for it in end.log if it[:2] == ("csr", MIP)]
        p.fact(end, z3.And(requests & OF_HOST != 0, started) == z3.BoolVal(bool(given)), "the host's interrupt")
        p.fact(end, z3.And(*[z3.And(it[2] == SSIP, z3.BoolVal(it[3] == "s")) for it in given]), "what is set in mip")


def hosts_interrupted(p):
    """interrupt_harts, for every set of harts: on its own hart it sets the host's software interrupt. For each other hart of the set it sets
    the bit of the host's interrupt in that hart's requests, and after a fence its software interrupt; nothing else is written."""
    layout = p.layout.world
    worlds, which = p.worlds(*map(bv, range(MOST_HARTS))), var("which")
    p.clint()
    state = p.begin("interrupt_harts", which)
    state.path.append(z3.ULT(which, 1 << MOST_HARTS))
    for end in p.run(state):
        p.keeps_contract(end)
        woken = {it[3] // 4: n for n, it in enumerate(end.log) if it[:2] == ("store", "clint")}
        own = [it for it in end.log if it[:2] == ("csr", MIP)]
        for hart in range(MOST_HARTS):
            is_in = z3.Extract(hart, hart, which) == 1
            is_other = z3.And(is_in, p.hart != hart)
            p.fact(end, is_other == z3.BoolVal(hart in woken), f"whether hart {hart} is interrupted")
            p.fact(end, z3.And(is_in, p.hart == hart) == z3.And(z3.BoolVal(bool(own)), p.hart == hart), f"mip of hart {hart}")
            was = p.first(worlds, layout.requests, 4, bv(hart))
            p.fact(end, p.now(end, worlds, layout.requests, 4, bv(hart)) == z3.If(is_other, was | OF_HOST, was), f"the requests of hart {hart}")
            if hart in woken:
                p.fact(end, is_full(end.log[woken[hart] - 1]) and end.log[woken[hart]][4].as_long() == 1, "the fence before the interrupt")


def hart_unparked(p):
    """unpark writes a hart's wish, executes a full fence, and then sets that hart's software interrupt."""
    layout, hart = p.layout.world, var("other")
    worlds = p.worlds(hart)
    p.clint()
    state = p.begin("unpark", hart)
    state.path.append(z3.ULT(hart, MOST_HARTS))
    for end in p.run(state):
        p.keeps_contract(end)
        p.fact(end, p.now(end, worlds, layout.is_wanted, 4, hart) == 1, "is_wanted")
        p.fact(end, p.now(end, worlds, layout.is_out, 4, hart) == p.first(worlds, layout.is_out, 4, hart), "is_out")
        order = [it for it in end.log if it[0] == "fence" or it[0] == "store" and it[1] != "stack"]
        p.fact(end, order[0][1] == "worlds" and is_full(order[1]) and order[2][1] == "clint" and len(order) == 3, "the order")
        p.fact(end, z3.And(bv(order[2][3] // 4) == hart, order[2][4] == 1), "the interrupt")
        p.writes_only(end, (worlds, hart, (layout.is_wanted & ~7,)))


PROOFS = [requests_taken, hosts_interrupted, hart_unparked]
