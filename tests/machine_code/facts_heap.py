"""Facts of heap.c. The invariant: blocks lie one after another in the arena, from its start up to heap_most bytes, each with a header of 16
bytes that has its class c < 40 and 16 << c bytes behind it; and the list kept[c] has blocks of class c that nobody has. Each fact shows that
a call keeps it, so for every sequence of calls blocks are disjoint and within the arena."""
import z3

from proof import A0, RA, var
from rv64 import Failed, Space, bv

CLASSES = 40


def heap_of(p, *classes):
    """The variables of the heap."""
    names = ("heap_calls", "heap_refused_call", "heap_blocks", "heap_most", "arena", "arena_size")
    spaces = {name: p.space(name) for name in names}
    spaces["kept"] = p.space("kept", *classes)
    return spaces


def block_taken(p):
    """take, for every number of bytes and every state that keeps the invariant: it refuses, and then changes only its count of calls; or it
    returns the 16 << c bytes of a block whose class c is the least with that many. The block is the first of kept[c], which loses it; or
    if kept[c] is empty the next bytes of the arena, which are left: heap_most grows by the block and its header and stays within the
    arena. No other list changes."""
    layout = p.layout.block
    heap, asked = heap_of(p), var("bytes")
    state = p.begin("take", asked)
    word = {name: p.first(space, 0) for name, space in heap.items() if name != "kept"}
    fresh = p.m.add(Space("fresh", z3.simplify(word["arena"] + word["heap_most"]), layout.size_of))
    first = [heap["kept"].initial(bv(n), 0) for n in range(CLASSES + 1)]
    reused = [p.m.add(Space(f"reused{n}", first[n], layout.size_of, writable=False)) for n in range(CLASSES)]
    state.path += [z3.ULE(word["heap_most"], word["arena_size"]), z3.ULE(word["arena_size"], 1 << 48), first[CLASSES] == 0]
    for end in p.run(state):
        p.keeps_contract(end)
        p.fact(end, p.now(end, heap["heap_calls"], 0) == word["heap_calls"] + 1, "the calls")
        if end.x[A0].eq(bv(0)):
            p.writes_only(end, (heap["heap_calls"], bv(0), (0,)))
            continue
        is_least = lambda c: z3.And(z3.UGE(bv(16 << c), asked), z3.ULT(bv(16 << c - 1), asked) if c else z3.BoolVal(True))
        taken = [it[2] for it in end.log if it[:2] == ("store", "kept")]  # the list that loses its first block, or the header of a new one
        new = [it[4] for it in end.log if it[:2] == ("store", "fresh")]
        if len(taken) + len(new) != 1:
            raise Failed("a block of no class")
        c = (taken + new)[0].as_long()
        p.fact(end, is_least(c), "the class is the least that is large enough")
        p.fact(end, z3.And(end.x[A0] == 1, p.now(end, heap["heap_blocks"], 0) == word["heap_blocks"] + 1), "a block is returned")
        at, most = end.x[A0 + 1] - layout.size_of, p.now(end, heap["heap_most"], 0)
        is_fresh = first[c] == 0
        size = layout.size_of + (16 << c)
        p.fact(end, at == z3.If(is_fresh, word["arena"] + word["heap_most"], first[c]), "which block it is")
        p.fact(end, most == z3.If(is_fresh, word["heap_most"] + size, word["heap_most"]), "heap_most")
        p.fact(end, z3.And(z3.ULE(most, word["arena_size"]), z3.ULE(word["heap_most"], most)), "the block is within the arena")
        p.fact(end, z3.Implies(is_fresh, p.now(end, fresh, layout.__dict__["class"]) == c), "the class in its header")
        after = p.now(end, heap["kept"], 0, index=bv(c))
        p.fact(end, after == z3.If(is_fresh, bv(0), p.first(reused[c], layout.next)), "the list loses it")
        p.writes_only(end, *[(heap[it], bv(0), (0,)) for it in ("heap_calls", "heap_blocks", "heap_most")], (heap["kept"], bv(c), (0,)),
                      (fresh, bv(0), (layout.__dict__["class"],)))


def block_given_back(p):
    """rattle_dealloc puts a block first into the list of its class, before those that are there. It writes that list, the link of the block
    and the number of blocks, and no other memory: neither the class in the header nor what the block holds."""
    layout = p.layout.block
    header = p.room("header", layout.size_of + 16)
    kind = p.first(header, layout.__dict__["class"])
    heap = heap_of(p, kind)
    state = p.begin("rattle_dealloc", header.base + layout.size_of)
    state.path.append(z3.ULT(kind, CLASSES))
    for end in p.run(state):
        p.keeps_abi(end)
        p.csrs_only(end)
        p.fact(end, p.now(end, heap["kept"], 0, index=kind) == header.base, "the first of its list")
        p.fact(end, p.now(end, header, layout.next) == heap["kept"].initial(kind, 0), "those after it")
        p.fact(end, p.now(end, heap["heap_blocks"], 0) == p.first(heap["heap_blocks"], 0) - 1, "the number of blocks")
        p.writes_only(end, (heap["kept"], kind, (0,)), (header, bv(0), (layout.next,)), (heap["heap_blocks"], bv(0), (0,)))


def block_asked(p):
    """rattle_alloc is take, of its first argument, or of its second one if the first is zero: it jumps there with the stack and the return
    address of its caller, and has changed no memory and no control register."""
    heap_of(p)
    state = p.begin("rattle_alloc", var("bytes"), var("align"))
    p.m.ends["take"] = bv(p.address("take"))
    for end in p.run(state):
        p.fact(end, end.end == "take", "it goes to take")
        p.fact(end, end.x[A0] == z3.If(var("bytes") == 0, var("align"), var("bytes")), "how many bytes")
        p.fact(end, end.x[RA] == p.old.x[RA], "the return address")
        p.keeps_abi(end)
        p.csrs_only(end)
        p.writes_only(end)


def block_grown(p):
    """rattle_realloc, for every block of the heap: if the block is large enough it is returned, and nothing changes. Otherwise the result is
    take's. If take refuses, nothing else changes, so the caller keeps the block. If it returns a block, memcpy copies to it as many
    bytes as the old block had, or as are wanted if those are fewer, and then the old block is given back as rattle_dealloc does."""
    layout = p.layout.block
    header = p.room("header", layout.size_of + 16)
    kind, had, bytes_, align = p.first(header, layout.__dict__["class"]), var("had"), var("bytes"), var("align")
    heap = heap_of(p, kind)
    at = header.base + layout.size_of
    state = p.begin("rattle_realloc", at, had, bytes_, align)
    state.path.append(z3.ULT(kind, CLASSES))
    ok, got = var("ok"), var("got")

    def taken(state, wanted):
        state.x[A0], state.x[A0 + 1] = ok, got
        state.log.append(("has", p.now(state, heap["kept"], 0, index=kind), p.now(state, heap["heap_blocks"], 0)))
    p.assume("take", taken)
    p.assume("memcpy")
    wanted = z3.If(bytes_ == 0, align, bytes_)
    is_room = z3.ULE(wanted, bv(16) << kind)
    for end in p.run(state):
        calls = [it[1] for it in end.log if it[0] == "call"]
        p.keeps_abi(end)
        p.csrs_only(end)
        p.fact(end, is_room == z3.BoolVal(not calls), "whether the block is large enough")
        if not calls:
            p.fact(end, z3.And(end.x[A0] == 1, end.x[A0 + 1] == at), "the block is returned")
            p.writes_only(end)
            continue
        p.fact(end, z3.And(end.x[A0] == ok, end.x[A0 + 1] == got), "the result is that of take")
        is_copied = calls[1:] == ["memcpy"]
        p.fact(end, (ok != 0) == z3.BoolVal(is_copied), "whether it copies")
        p.calls_are(end, [("take", wanted)] + [("memcpy", got, at, z3.If(z3.ULT(had, bytes_), had, bytes_))] * is_copied)
        stores = [it for it in end.log if it[0] == "store" and it[1] != "stack"]
        if not is_copied:
            p.fact(end, not stores, "nothing else changes")
            continue
        before = end.log.index(next(it for it in end.log if it[:2] == ("call", "memcpy")))
        p.fact(end, all(end.log.index(it) > before for it in stores), "the block is given back after it is copied")
        p.fact(end, sorted(it[1] for it in stores) == ["header", "heap_blocks", "kept"], "what it writes")
        p.fact(end, p.now(end, heap["kept"], 0, index=kind) == header.base, "the first of its list")
        first, blocks = next(it[1:] for it in end.log if it[0] == "has")
        p.fact(end, z3.And(p.now(end, header, layout.next) == first, p.now(end, heap["heap_blocks"], 0) == blocks - 1), "those after it")


def heap_begun(p):
    """begin_heap makes the heap empty: no list has a block, heap_most is zero, and the arena is the one that is passed, or the monitor's own if
    none is."""
    heap = heap_of(p)
    state = p.begin("begin_heap", var("at"), var("size"))
    own = bv(p.address("own_arena"))
    for end in p.run(state):
        p.keeps_contract(end)
        p.same(end, [(p.now(end, heap["kept"], 0, index=bv(n)), bv(0)) for n in range(heap["kept"].count)], "the lists")
        given = var("at") != 0
        p.fact(end, z3.And(p.now(end, heap["heap_most"], 0) == 0, p.now(end, heap["arena"], 0) == z3.If(given, var("at"), own),
                           p.now(end, heap["arena_size"], 0) == z3.If(given, var("size"), p.layout.variables["own_arena"][1])), "the arena")
        p.writes_only(end, (heap["kept"], None, (0,)), *[(heap[it], bv(0), (0,)) for it in ("heap_most", "arena", "arena_size")])


PROOFS = [block_taken, block_asked, block_given_back, block_grown, heap_begun]
