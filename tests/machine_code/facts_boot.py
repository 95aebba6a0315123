"""Facts of board.c and of the boot in traps.c and harts.c: the platform that the monitor serves, and how the host is let in."""
import z3

from facts_frames import platform_of
from facts_heap import heap_of
from facts_start import place
from facts_waits import heads, seen, steps, values
from proof import A0, MOST_HARTS, SAVED_REGISTERS, var
from rv64 import Space, bv

MEMORY = z3.Function("host_memory_at", z3.BitVecSort(64), z3.BitVecSort(64), z3.BitVecSort(64))
MORE_HEAP = 16 << 20
NEEDS_MEMORY = 3  # a fault of the core
HOST_ENTRY = 0x80200000
MEMORY_FENCE = 0x33  # fence rw, rw


def returns(name):
    """The effect of a callee whose result is this variable."""
    def effect(state, *arguments):
        state.x[A0] = var(name)
    return effect


def assume_memory(p, pointer):
    """host_memory_at decides by the platform that the pointer names, and by its argument (`memory_known` says how)."""
    def decides(state, at):
        state.x[A0] = MEMORY(p.now(state, pointer, 0), at)
    p.assume("host_memory_at", decides)


def calls_of(end):
    return [it[1:] for it in end.log if it[0] == "call"]


def counted(at, base, length, monitor):
    """The bytes from an address on up to the end of the range that has it, or up to the monitor."""
    return z3.If(z3.And(z3.ULT(at, monitor), z3.ULT(monitor, base + length)), monitor, base + length) - at


def memory_known(p):
    """host_memory_at, for every platform of up to 32 ranges and every address. A round tests range k, for any k. If the range contains the address,
    the result is zero for an address of the monitor, and otherwise the number of bytes up to the end of the range, or up to the monitor if it
    starts before that. Otherwise the next range follows, and after the last one the result is zero. So each byte that is counted is RAM
    outside the monitor."""
    layout, at = p.layout.platform_frame, var("at")
    pointer, most = p.space("platform", writable=False), (p.layout.platform_frame.device - p.layout.platform_frame.ram) // 16
    frame = p.m.add(Space("platform_frame", p.first(pointer, 0), layout.ram, writable=False))
    ranges = p.m.add(Space("ranges", frame.base + layout.ram, 16, most, writable=False))
    count, monitor, size = (p.first(frame, it) for it in (layout.ram_count, layout.monitor_base, layout.monitor_size))
    state, arrival = p.begin("host_memory_at", at), None
    state.path.append(z3.ULE(count, most))
    p.m.ends["range"] = bv(heads(p, "host_memory_at", "ld", 0)[0])
    for end in p.run(state):
        p.fact(end, (count == 0) == z3.BoolVal(end.end == "return"), "a platform without memory")
        arrival = end if end.end == "range" else arrival
        p.fact(end, end.end == "range" or end.x[A0] == 0, "the result without memory")
    inner, k, steps_of = p.accelerated(arrival)
    ranges.indices.append(k)
    ranges.places.append(ranges.base + 16 * k)
    inner.path.append(z3.ULT(k, count))
    base, length = (ranges.initial(k, 8 * n) for n in range(2))
    is_in, is_last = z3.ULT(at - base, length), k + 1 == count
    here = z3.If(z3.ULT(at - monitor, size), bv(0), counted(at, base, length, monitor))
    for end in p.round(inner):
        p.writes_only(end)
        if end.end == "range":
            p.fact(end, z3.Not(z3.Or(is_in, is_last)), "the next range")
            p.keeps_pattern(end, arrival, k, steps_of)
        else:
            p.fact(end, z3.If(is_in, end.x[A0] == here, z3.And(is_last, end.x[A0] == 0)), "the result")
            p.keeps_contract(end)


def pool_of(p):
    """The facts of read_tree. Returns the base and the size of the pool that the core is given."""
    pointer, found, tree = p.space("platform", writable=False), p.space("found"), var("tree")
    heap_of(p)
    state = p.begin("read_tree", tree, found.base)
    assume_memory(p, pointer)
    for name, result in (("pmpmon_find_platform", "fault"), ("pmpmon_put_host_tree", "edited")):
        p.assume(name, returns(result))
    pool, room = (), MEMORY(p.first(pointer, 0), tree)
    for end in p.run(state):
        p.keeps_contract(end)
        calls = calls_of(end)
        is_edited = calls[-1][0] == "pmpmon_put_host_tree"
        pool = calls[-1][2:4] if is_edited else pool
        p.fact(end, (var("fault") == 0) == z3.BoolVal(is_edited), "when the tree is edited")
        p.fact(end, end.x[A0] == var("edited" if is_edited else "fault"), "the result")
        finds = [("host_memory_at", tree), ("pmpmon_find_platform", tree, room, found.base)]
        edits = [("host_memory_at", tree), ("pmpmon_put_host_tree", found.base, *pool, tree, room)]
        p.calls_are(end, finds + edits * is_edited)
        p.fact(end, not [it for it in end.log if it[0] == "store" and it[1] != "stack"], "it writes itself")
    return pool


def tree_read(p):
    """read_tree calls the core to find the platform in the tree, with the number of bytes of the host's memory from the tree on. Only if that
    succeeds, it calls the core to edit the tree, with the platform that was found, the pool of the build and the same number. It returns the
    fault of the last call. It calls nothing else and writes nothing itself."""
    base, size = pool_of(p)
    p.fact(p.old, z3.is_bv_value(base) and z3.is_bv_value(size), "the pool is the build's")


def board_found(p):
    """find_board, for every tree and every result of the core: read_tree starts with a copy of the platform of the build. If it needs memory and
    the host has 16 MiB before the tree, the heap uses these, and read_tree is called again with a new copy. The board is switched off with a
    failure iff the last call failed, a block of the heap is still allocated, or the pool is outside the memory that was found. Then only
    messages are printed, and no world is entered. Otherwise the heap is empty and uses the monitor's own memory again, and the platform that
    was found is in force. Nothing else is written."""
    size, tree = p.layout.platform_frame.size_of, var("tree")
    base, room = (it.as_long() for it in pool_of(p.again()))
    pointer, found, heap = p.space("platform"), p.space("found"), heap_of(p)
    built = p.m.add(Space("built", p.first(pointer, 0), size, writable=False))
    state = p.begin("find_board", tree)
    assume_memory(p, pointer)

    def has_fault(state, at):
        state.x[A0] = p.m.new("fault")
        state.log.append(("fault", state.x[A0]))
    p.assume("read_tree", has_fault)
    for name in ("begin_heap", "put", "put_hex"):
        p.assume(name)
    p.note_at("read_tree", lambda state: [p.now(state, found, n) for n in range(0, size, 8)])
    p.m.ends["off"] = bv(p.address("power_off"))
    seen = set()
    for end in p.run(state):
        seen.add(end.end)
        for it in [it for it in end.log if it[0] == "found"]:
            p.same(end, [(word, p.first(built, 8 * n)) for n, word in enumerate(it[1])], "the platform that read_tree begins with")
        is_found = finds_platform(p, end, tree, built, heap["heap_blocks"], bv(base) if room else None)
        p.fact(end, p.now(end, pointer, 0) == (found.base if is_found else built.base), "the platform in force")
        has_room = z3.UGE(MEMORY(found.base, bv(base)), room) if room else z3.BoolVal(True)
        p.fact(end, z3.And(z3.BoolVal(is_found), has_room) == z3.BoolVal(end.end == "return"), "when the board is switched off")
        if end.end == "off":
            p.fact(end, end.x[A0] == 1, "it is switched off with a failure")
        else:
            p.keeps_contract(end)
        p.writes_only(end, (pointer, bv(0), (0,)), (found, None, range(size)), *[(it, None, range(8)) for it in heap.values()])
    p.fact(state, seen == {"off", "return"}, "both are reached")


def finds_platform(p, end, tree, built, heap_blocks, pool):
    """Proves which functions find_board calls, apart from messages. Returns whether it found a platform."""
    lower, faults = tree - MORE_HEAP, [it[1] for it in end.log if it[0] == "fault"]
    end.log = [it for it in end.log if it[:2] not in (("call", "put"), ("call", "put_hex"))]
    names = [it[1] for it in end.log if it[0] == "call"]
    looks, is_again, is_found = names[1:2] == ["host_memory_at"], len(faults) == 2, False
    expected = [("read_tree", tree)] + [("host_memory_at", lower)] * looks
    expected += [("begin_heap", lower, bv(MORE_HEAP)), ("read_tree", tree)] * is_again
    if len(names) > len(expected):
        is_found = True
        expected += [("begin_heap", bv(0), bv(0))] + [("host_memory_at", pool)] * (pool is not None)
    p.calls_are(end, expected)
    p.fact(end, (faults[0] == NEEDS_MEMORY) == z3.BoolVal(looks), "when more memory is looked for")
    p.fact(end, z3.And(z3.BoolVal(looks), z3.UGE(MEMORY(built.base, lower), MORE_HEAP)) == z3.BoolVal(is_again), "when it reads the tree again")
    p.fact(end, z3.And(faults[-1] == 0, end.unwritten(heap_blocks, bv(0), 0) == 0) == z3.BoolVal(is_found), "when the platform is found")
    return is_found


def boot_ordered(p):
    """boot first zeroes the private pages of an earlier boot, then calls find_board, and then stores the number of harts of the platform. The
    address of the tree is stored for the host."""
    pointer, found, kept, harts = p.space("platform"), p.space("found"), p.space("device_tree"), p.space("harts")
    tree = var("tree")
    heap_of(p)
    state = p.begin("boot", var("first"), tree)
    p.assume("forget_private")
    p.assume("find_board", lambda state, at: p.put(state, pointer, 0, found.base))
    for end in p.run(state):
        p.keeps_abi(end)
        p.csrs_only(end)
        p.calls_are(end, [("forget_private",), ("find_board", tree)])
        count = z3.Extract(31, 0, end.unwritten(found, bv(0), p.layout.platform_frame.harts))
        p.fact(end, p.now(end, harts, p.layout.harts.count) == z3.ZeroExt(32, count), "the number of harts")
        p.fact(end, p.now(end, kept, 0) == tree, "the tree of the host")
        stores = [it[1] for it in end.log if it[0] == "store" and it[1] != "stack"]
        p.fact(end, sorted(stores) == ["device_tree", "harts"], "nothing else")


def hart_of(p, number):
    """Returns the callees of `begin` in traps.c, in their order, and the words of the struct caller that it writes."""
    caller, world = p.layout.caller, p.layout.world.caller
    words = {caller.hart: number, caller.vendor: p.start.get_csr(0xf11), caller.architecture: p.start.get_csr(0xf12),
             caller.implementation: p.start.get_csr(0xf13), caller.stop_cause: bv(0), caller.stop_value: bv(0)}
    return [("check_entries",), ("control_find",), ("control_at_start",)], {world + offset: term for offset, term in words.items()}


def host_begins(p):
    """answered, for the first answer, on the hart that boots: check_entries, control_find and control_at_start prepare the hart, in this order,
    unless it has begun before. Its register set is zero except the pc (the host's entry), a0 (the hart) and a1 (the tree). Then the start
    message is printed, and only after that may the other harts enter. Later answers change nothing."""
    layout = p.layout
    worlds, sets, answer = p.worlds(p.hart), p.sets(p.hart), p.room("answer", layout.answer_frame.size_of, writable=False)
    p.m.add(Space("start", p.address("arrived"), 8))
    booted, at = p.small("is_booted")
    begun, at_begun = p.small("has_begun")
    kept = p.space("device_tree")
    for name in ("given", "got"):
        p.space(name)
    p.small("has_stimecmp")
    state = p.begin("answered", answer.base)
    p.put(state, answer, layout.answer_frame.hart, p.hart)
    p.put(state, worlds, layout.world.registers, p.set_at(p.hart), p.hart)
    for name in ("check_entries", "control_find", "control_at_start", "tell_start", "start_others"):
        p.assume(name)
    p.note_at("start_others", lambda state: [p.now(state, sets, 8 * n, index=p.hart) for n in range(33)])
    has_begun = z3.Extract(7, 0, z3.LShR(p.first(begun, at_begun & ~7), 8 * (p.hart + at_begun % 8))) != 0
    is_first = p.first(booted, at, 4) == 0
    expected = {10: p.hart, 11: p.first(kept, 0), 32: bv(HOST_ENTRY)}
    for end in p.run(state):
        p.keeps_abi(end)
        calls = calls_of(end)
        p.fact(end, is_first == z3.BoolVal(bool(calls)), "the first answer")
        if not calls:
            p.writes_only(end)
            continue
        begins = calls[0][0] == "check_entries"
        callees, words = hart_of(p, p.hart)
        p.fact(end, has_begun == z3.BoolVal(not begins), "whether the hart begins")
        p.calls_are(end, callees * begins + [("tell_start", bv(HOST_ENTRY)), ("start_others",)])
        if begins:
            p.same(end, [(p.now(end, worlds, offset, index=p.hart), term) for offset, term in words.items()], "its struct caller")
        let_in, = [it[1] for it in end.log if it[0] == "found"]
        p.same(end, [(let_in[n], expected.get(n, bv(0))) for n in range(1, 33)], "the registers of the host before other harts come")
        p.fact(end, p.now(end, booted, at, 4) != 0, "it comes once")


def others_let_in(p):
    """start_others waits for each hart of the platform except the first, in turn, until the hart has arrived; after ten seconds the board ends.
    After the last hart and a memory fence, harts_run gets the number of harts, so all of them enter."""
    platform = platform_of(p)
    harts = p.first(platform, p.layout.platform_frame.harts)
    p.m.add(Space("start", p.address("arrived"), 8, device=True))
    state = p.begin("start_others")
    state.path += [z3.ULE(1, harts), z3.ULE(harts, MOST_HARTS)]
    look = place(p, "start_others", "lbu", 0)
    p.m.ends.update(board=bv(p.address("end_because")), looks=bv(look))
    waiting = []
    for end in p.run(state):
        p.fact(end, (harts == 1) == z3.BoolVal(end.end == "return"), "the only hart")
        if end.end == "return":
            lets_in(p, end, harts)
        else:
            p.fact(end, end.end == "looks" and not steps(end, "start"), "it looks first")
            waiting.append((end, 1))
    for at, hart in waiting:
        nexts = []
        for end in p.round(p.go_on(at, look)):
            (_, _, offset), *done = steps(end, "start")
            has_come = seen(end, "start", offset)[0] != 0
            p.fact(end, offset == hart, "which hart it looks for")
            if end.end == "board" or all(end.x[n].eq(at.x[n]) for n in SAVED_REGISTERS):
                p.fact(end, z3.And(z3.Not(has_come), z3.BoolVal(not done)), "it waits for a hart that has not arrived")
            elif end.end == "looks":
                p.fact(end, z3.And(has_come, z3.ULT(hart + 1, harts), z3.BoolVal(not done)), "the next hart")
                end.path, end.known = [*at.path, z3.ULT(hart + 1, harts)], dict(at.known)
                nexts.append((end, hart + 1))
            else:
                p.fact(end, z3.And(has_come, harts == hart + 1), "the last hart")
                lets_in(p, end, harts)
        p.fact(at, len(nexts) == (hart + 1 < MOST_HARTS), "the next hart is looked for in one way")
        waiting += nexts


def lets_in(p, end, harts):
    """The end of start_others."""
    at = p.address("harts_run") - p.address("arrived")
    done = [it for it in steps(end, "start") if isinstance(it, int) or it[0] != "load"]
    p.fact(end, done == [MEMORY_FENCE, ("store", "start", at)], "a fence, and then the store")
    p.fact(end, z3.ZeroExt(32, values(end, "start", at)[0]) == harts, "harts_run")
    p.keeps_contract(end)


def start_told(p):
    """tell_start prints a message, and reads two bytes at the host's entry if they are memory of the host. It writes nothing."""
    pointer, harts = p.space("platform", writable=False), p.space("harts")
    host = p.room("host", 8, writable=False)
    state = p.begin("tell_start", host.base)
    assume_memory(p, pointer)
    for name in ("put", "put_number", "put_hex"):
        p.assume(name)
    for end in p.run(state):
        p.keeps_contract(end)
        p.writes_only(end)
        has_read = ("load", "host") in [it[:2] for it in end.log]
        p.fact(end, z3.UGE(MEMORY(p.first(pointer, 0), host.base), 2) == z3.BoolVal(has_read), "when it reads the host's memory")
        numbers = [it[2] for it in end.log if it[:2] == ("call", "put_number")]
        p.fact(end, z3.And(numbers[0] == p.first(harts, p.layout.harts.count), z3.BoolVal(len(numbers) == 2)), "the number of harts")
        p.fact(end, [it[2] for it in end.log if it[:2] == ("call", "put_hex")][0] == host.base, "the host's entry")


PROOFS = [memory_known, tree_read, board_found, boot_ordered, host_begins, others_let_in, start_told]
