"""Facts of pmp.S, entries.c and harts.c: how a hart loads its list of entries, and when."""
import z3

from proof import MISA, bits_of, var
from rv64 import MTVEC, bv

H = 1 << 7  # of misa


def entries_loaded(p):
    """load_bank, for every list of 0 to 16 used entries: pmpaddr of those and all words of configuration become the list's, and the other
    addresses stay. The order is: the used addresses, the highest first; then pmpcfg2, pmpcfg0; then sfence.vma, and hfence.gvma if
    misa has H. So the old configuration is in force, with new addresses from the highest down, until pmpcfg2 is written: no entry is
    locked, so none applies to machine mode, in which all of this happens."""
    layout = p.layout.bank
    bank = p.room("bank", layout.size_of)
    state = p.begin("load_bank", bank.base)
    used = p.first(bank, layout.used)
    state.path.append(z3.ULE(used, 16))
    counts = set()
    for end in p.run(state):
        p.keeps_contract(end)
        p.writes_only(end)
        count = p.number_of(end, used, range(17))
        counts.add(count)
        for n in range(16):
            given = p.first(bank, layout.addr + 8 * n) if n < count else p.start.get_csr(0x3b0 + n)
            p.fact(end, end.get_csr(0x3b0 + n) == given, f"pmpaddr{n}")
        for n in (0, 1):
            p.fact(end, end.get_csr(0x3a0 + 2 * n) == p.first(bank, layout.cfg + 8 * n), f"pmpcfg{2 * n}")
        order = [it[1] if it[0] == "csr" else it[0] for it in end.log if it[0] != "load"]
        expected = [0x3b0 + n for n in reversed(range(count))] + [0x3a2, 0x3a0, "sfence.vma"]
        has_guests = p.m.entails(end.path, p.start.get_csr(MISA) & H != 0)
        p.fact(end, (p.start.get_csr(MISA) & H != 0) == z3.BoolVal(has_guests), "whether misa has H")
        p.fact(end, z3.BoolVal(order == expected + ["hfence.gvma"] * has_guests), f"the order {order}")
    p.fact(state, z3.BoolVal(counts == set(range(17))), "each number of entries")


def entries_read(p):
    """read_bank stores pmpaddr0 to pmpaddr15 and both words of configuration in the list, and changes nothing else."""
    layout = p.layout.bank
    bank = p.room("block", layout.size_of)
    state = p.begin("read_bank", bank.base)
    for end in p.run(state):
        p.keeps_contract(end)
        p.same(end, [(p.now(end, bank, layout.addr + 8 * n), p.start.get_csr(0x3b0 + n)) for n in range(16)], "pmpaddr")
        p.same(end, [(p.now(end, bank, layout.cfg + 8 * n), p.start.get_csr(0x3a0 + 2 * n)) for n in (0, 1)], "pmpcfg")
        p.writes_only(end, (bank, bv(0), [*range(layout.cfg, layout.cfg + 16), *range(layout.addr, layout.addr + 128)]))


def entries_beyond_cleared(p):
    """clear_beyond, on a hart with any number of words of configuration: pmpcfg4, pmpcfg6 .. are zero up to the first that the hart lacks,
    where it stops. mtvec is restored, and no memory is written. The result is zero if all that it wrote reads as zero."""
    state = p.begin("clear_beyond")
    there = {n: z3.Bool(f"has_{n:#x}") for n in range(0x3a4, 0x3b0, 2)}
    p.m.exists.update(there)
    state.csr[MTVEC] = var("mtvec")
    for end in p.run(state):
        p.keeps_contract(end)
        p.writes_only(end)
        p.fact(end, end.get_csr(MTVEC) == var("mtvec"), "mtvec")
        reached = z3.BoolVal(True)
        for number, is_there in there.items():
            reached = z3.And(reached, is_there)
            p.fact(end, z3.Implies(reached, end.get_csr(number) == 0), f"CSR {number:#x}")
            p.fact(end, z3.Implies(z3.Not(reached), end.get_csr(number) == p.start.get_csr(number)), f"CSR {number:#x} beyond the first missing")
        p.fact(end, end.x[10] == 0, "the result on a hart that keeps zero")


def entries_loaded_if_stale(p):
    """load_changes: the hart says that it is out, executes a fence, and looks for requests and whether it is to stop; it stands still if it
    is. Then it loads the list of its world iff is_stale says so, and executes fence.i last. is_stale is zero before, so a change that
    comes later is not lost."""
    layout = p.layout.world
    worlds, stopping = p.worlds(), p.space("stopping")
    state = p.begin("load_changes", p.world_at(p.hart))
    for name in ("take_requests", "stand_still", "load_bank"):
        p.assume(name)
    requests, asked, made = (p.first(worlds, at, 4, p.hart) for at in (layout.requests, layout.fences_asked, layout.fences_made))
    stop = z3.Extract(0, 0, z3.LShR(p.first(stopping, 0), p.hart)) == 1
    self = p.world_at(p.hart)
    for end in p.run(state):
        p.keeps_contract(end)
        stands, loads, takes = (any(it[:2] == ("call", name) for it in end.log) for name in ("stand_still", "load_bank", "take_requests"))
        p.fact(end, stop == z3.BoolVal(stands), "whether it stands still")
        p.fact(end, z3.Or(requests != 0, asked != made) == z3.BoolVal(takes), "whether it takes requests")
        stale = bits_of(end.unwritten(worlds, p.hart, layout.is_stale & ~7), layout.is_stale, 2)
        p.fact(end, (stale != 0) == z3.BoolVal(loads), "whether it loads")
        p.fact(end, p.now(end, worlds, layout.is_stale, 2, p.hart) == 0, "is_stale")
        p.fact(end, stands or p.now(end, worlds, layout.is_out, 4, p.hart) == 1, "it is out")
        expected = [("take_requests", self)] * takes + [("stand_still", self)] * stands
        p.calls_are(end, expected + [("load_bank", p.first(worlds, layout.bank, index=p.hart))] * loads)
        order = [it[1] if it[0] == "call" else (it[0], it[1], it[3]) if it[0] in ("store", "load") else it[0]
                 for it in end.log if it[0] not in ("store", "load") or it[1] != "stack"]
        out, request, stops = (order.index(it) for it in (("store", "worlds", layout.is_out), ("load", "worlds", layout.requests),
                                                          ("load", "stopping", 0)))
        p.fact(end, z3.BoolVal(out + 1 == order.index("fence") < request < stops and order[request + 1] == order[stops + 1] == "fence"),
               "the fences between its word and its looks")
        if loads:
            fresh = order.index(("store", "worlds", layout.is_stale))
            p.fact(end, z3.BoolVal(order[-2:] == ["load_bank", "fence.i"] and fresh < len(order) - 2), "the order of the load")


PROOFS = [entries_loaded, entries_read, entries_beyond_cleared, entries_loaded_if_stale]
