"""Facts of the timer, the serial line, power, and how a hart is prepared before its first world."""
import z3

from contracts import CONTROL
from facts_alone import CLINT_COMPARE, STIMECMP, STIP
from facts_start import place
from facts_waits import heads
from facts_worlds import DOUBLES, MODE, NONE, SINGLES, STATUS, control_space, held, host_word, keep_some
from proof import A0, FCSR, MIP, MOST_HARTS, SAVED_REGISTERS, TIME, var
from rv64 import FS, MSTATUS, MTVEC, Space, bv

WIDTH_64 = 2 << 32
# The words with which a hart begins, in supervisor mode: DESIGN.md, "Control registers".
AT_START = {"status": WIDTH_64, "mode": 1 << 11, "mie": 1 << 3 | 1 << 7, "scounteren": 1 << 1, "medeleg": 0xf0b5ff, "mideleg": 1 << 1 | 1 << 5 | 1 << 9}
SSIP = 1 << 1
SERIAL, SERIAL_STATUS, FINISHER = 0x10000000, 5, 0x100000
MSECCFG, LAST_ADDRESS, RULES = 0x747, 0x3bf, 7
LOWEST_PAGE, CLOSED, OPEN = 0x1ff, 0x1818181818181818, 0x1f1f1f1f1f1f1f1f


def control_begins(p):
    """control_at_start initializes floating point, clears the host's interrupts and turns its timer off. Then mstatus and each control register
    that the hart has hold their initial words, whichever bits of them the hart fixes, and the stored words of the host are the same. Nothing
    else is written."""
    worlds, lacks = control_space(p)
    sets = p.sets()
    state = p.begin("control_at_start")
    keep_some(p, state)
    state.path.append(z3.ULT(lacks, 128))
    for name in ("floats_at_start", "host_timer_begin"):
        p.assume(name)
    word = lambda name: bv(AT_START.get(name, 0))
    for end in p.run(state):
        p.keeps_contract(end)
        p.calls_are(end, [("floats_at_start", p.world_at(p.hart)), ("host_timer_begin",)])
        cleared = [it[2:] for it in end.log if it[:2] == ("csr", MIP)]
        p.fact(end, len(cleared) == 1 and cleared[0][1] == "c" and cleared[0][0] == SSIP | STIP, "the host's interrupts")
        status = end.get_csr(MSTATUS)
        p.same(end, [(status & STATUS, held(p, MSTATUS, word("status")) & STATUS), (status & MODE, held(p, MSTATUS, word("mode")) & MODE),
                     (status & ~(STATUS | MODE), held(p, MSTATUS, bv(WIDTH_64 << 2)) & ~(STATUS | MODE))], "mstatus")
        for n, (name, number) in enumerate(CONTROL.items()):
            p.fact(end, end.get_csr(number) == z3.If(lacks & 1 << n == 0, held(p, number, word(name)), p.start.get_csr(number)), name)
        p.same(end, [(p.now(end, worlds, host_word(p, name), index=p.hart), word(name)) for name in ("status", "mode", *CONTROL)], "the host's words")
        p.writes_only(end, (worlds, p.hart, range(p.layout.world.host, p.layout.world.host + 72)), (sets, None, range(sets.size)))


def floats_begin(p):
    """floats_at_start zeroes f0 to f31 and fcsr in the set of the hart's world, and in the hart if it has them (singles are boxed). It sets FS of
    mstatus to Dirty, except on a hart without floats."""
    which, layout = var("set"), p.layout
    worlds, sets = p.worlds(), p.sets(which)
    kind, registers = p.first(worlds, layout.world.floats_kind, 2, p.hart), layout.registers
    state = p.begin("floats_at_start", p.world_at(p.hart))
    state.path += [z3.ULT(which, sets.count), z3.ULE(kind, DOUBLES)]
    p.put(state, worlds, layout.world.registers, p.set_at(which), p.hart)
    for end in p.run(state):
        p.keeps_contract(end)
        p.same(end, [(p.now(end, sets, n, index=which), bv(0)) for n in range(registers.f, registers.size_of, 8)], "the set")
        for n in range(32):
            boxed = bv(0xffffffff << 32)
            p.fact(end, end.f[n] == z3.If(kind == DOUBLES, bv(0), z3.If(kind == SINGLES, boxed, p.old.f[n])), f"f{n}")
        p.fact(end, end.get_csr(FCSR) == z3.If(kind == NONE, p.start.get_csr(FCSR), bv(0)), "fcsr")
        p.fact(end, end.get_csr(MSTATUS) == p.start.get_csr(MSTATUS) | z3.If(kind == NONE, bv(0), bv(FS)), "mstatus")
        p.writes_only(end, (sets, which, range(registers.f, registers.size_of)))


def timer_begins(p):
    """timer_at writes a time to the hart's own word of the CLINT, and timer_off and host_timer_begin write the latest time. host_timer_begin also
    writes the latest time to stimecmp if the hart has it, and otherwise clears the host's timer interrupt."""
    for name in ("timer_at", "timer_off", "host_timer_begin"):
        q = p.again()
        has, at = q.small("has_stimecmp")
        q.m.add(Space("compare", CLINT_COMPARE, 8 * MOST_HARTS, device=True))
        state = q.begin(name, var("time"))
        mine = z3.Extract(7, 0, z3.LShR(q.first(has, at & ~7), 8 * (q.hart + at % 8)))
        for end in q.run(state):
            q.keeps_abi(end)
            q.writes_only(end)
            stores, cleared = [it for it in end.log if it[:2] == ("store", "compare")], [it[2:] for it in end.log if it[:2] == ("csr", MIP)]
            q.fact(end, bool(stores), "the CLINT")
            for it in stores:
                q.fact(end, z3.And(bv(it[3] // 8) == q.hart, it[4] == (var("time") if name == "timer_at" else -1)), "the hart's own timer")
            if name != "host_timer_begin":
                q.csrs_only(end)
                continue
            q.keeps_contract(end)
            q.fact(end, z3.If(mine != 0, end.get_csr(STIMECMP) == -1, end.get_csr(STIMECMP) == q.start.get_csr(STIMECMP)), "stimecmp")
            q.fact(end, (mine == 0) == z3.BoolVal([(it[0].as_long(), it[1]) for it in cleared] == [(STIP, "c")]), "the host's interrupt")
        p.take(q)


def entries_checked(p):
    """check_entries, for every platform of up to 32 ranges of memory and 32 of devices. It returns iff mseccfg is missing or contains no rule of an
    earlier stage, the hart has the last register of the platform's entries, each of two lists reads back as it was loaded, and clear_beyond
    returns zero; otherwise the board ends. Each address is all ones up to the highest bit of any end of a range in one of the two lists, and
    only the lowest ones in the other; the first list denies access and the second allows it. Then mseccfg is zero and mtvec is unchanged.
    Each round of the loops over the ranges adds the bits of one end."""
    layout, frame = p.layout, p.layout.platform_frame
    given, got, pointer = p.space("given"), p.space("got"), p.space("platform", writable=False)
    front = p.m.add(Space("platform_frame", p.first(pointer, 0), frame.ram, writable=False))
    most = (frame.device - frame.ram) // 16
    ranges = {"ranges": p.m.add(Space("ranges", front.base + frame.ram, 16, most, writable=False)),
              "devices": p.m.add(Space("devices", front.base + frame.device, 24, most, writable=False))}
    counts = {"ranges": p.first(front, frame.ram_count), "devices": p.first(front, frame.device_count)}
    there = {it: z3.Bool(f"has_{it:#x}") for it in (MSECCFG, LAST_ADDRESS)}
    p.m.exists.update(there)
    state = p.begin("check_entries")
    state.csr[MTVEC] = var("mtvec")
    state.path += [z3.ULE(it, most) for it in counts.values()]

    def has_result(state, *arguments):
        state.x[A0] = p.m.new("result")
        state.log.append(("result", state.x[A0]))
    for name in ("load_bank", "read_bank", "differ", "clear_beyond"):
        p.assume(name, has_result if name in ("differ", "clear_beyond") else None)
    words = lambda state, at, count: [p.now(state, given, at + 8 * n) for n in range(count)]
    p.note_at("load_bank", lambda state: (words(state, layout.bank.addr, 16), words(state, layout.bank.cfg, 2)))
    p.m.ends.update({"board": bv(p.address("end_because")), "widens": bv(heads(p, "check_entries", "slli", 1)[0]),
                     "ranges": bv(heads(p, "check_entries", "ld", frame.ram)[0]), "devices": bv(heads(p, "check_entries", "ld", 0)[0])})
    waiting, seen = p.run(state), set()
    for end in waiting:
        seen.add(end.end)
        if end.end in ranges:
            waiting += ends_added(p, end, ranges[end.end], counts[end.end])
        elif end.end == "widens":
            waiting += widened(p, end)
        else:
            checked(p, end, given, got, there)
    p.fact(state, seen == {"return", "board", "widens", *ranges}, f"all are reached: {seen}")


def ends_added(p, arrival, ranges, count):
    """A loop of check_entries over ranges: each round adds the bits of the end of a range in one register. Returns what comes after the loop."""
    inner, k, steps_of = p.accelerated(arrival)
    ranges.indices.append(k)
    ranges.places.append(ranges.base + ranges.size * k)
    inner.path.append(z3.ULT(k, count))
    end_of_range, left, sums = ranges.initial(k, 0) + ranges.initial(k, 8) - 1, [], []
    for end in p.round(inner.copy()):
        is_last = z3.BoolVal(end.end != arrival.end)
        p.fact(end, (k + 1 == count) == is_last, "each range has its round")
        if end.end == arrival.end:
            sums = [n for n in range(5, 32) if p.m.entails(end.path, end.x[n] == inner.x[n] | end_of_range)]
            p.fact(end, len(sums) == 1 and sums[0] not in steps_of, "the bits of the range's end are added")
            p.keeps_pattern(end, arrival, k, steps_of)
        else:
            left.append(end)
    for end in left:  # the last round, whose sum is in the same register at its end
        end.log.insert(0, ("sum", inner.x[sums[0]] | end_of_range))
    return left


def widened(p, arrival):
    """The loop of check_entries that appends ones to a register until it covers the bits of all ends."""
    bits = p.m.new("bits")
    ones = lambda term: z3.And(term & term + 1 == 0, z3.UGE(term, LOWEST_PAGE))  # from the lowest bit on
    place_of = [n for n in SAVED_REGISTERS if z3.is_bv_value(arrival.x[n]) and arrival.x[n].as_long() == LOWEST_PAGE]
    p.fact(arrival, len(place_of) == 1, "the bits are in one register")
    inner = arrival.copy()
    inner.end, inner.x[place_of[0]] = None, bits
    inner.path.append(ones(bits))
    left = []
    for end in p.round(inner.copy()):
        if end.end != "widens":
            left.append(end)
            continue
        p.fact(end, ones(end.x[place_of[0]]), "the bits are ones")
        p.same(end, [(end.x[n], inner.x[n]) for n in range(1, 32) if n != place_of[0]], "what the next bit needs")
    return left


def checked(p, end, given, got, there):
    """The end of check_entries."""
    layout = p.layout
    results, calls = ([it[1] for it in end.log if it[0] == "result"], [it for it in end.log if it[0] == "call"])
    compared = [("differ", got.base + at, given.base + at, bv(many)) for at, many in ((layout.bank.cfg, 2), (layout.bank.addr, 16))]
    tried = [("load_bank", given.base), ("read_bank", got.base), *compared]
    p.calls_are(end, [*tried, *tried, ("clear_beyond",)][:len(calls)])
    is_free = z3.Not(z3.And(there[MSECCFG], p.start.get_csr(MSECCFG) & RULES != 0))
    is_right = z3.And(is_free, there[LAST_ADDRESS], *[it == 0 for it in results])
    p.fact(end, z3.And(is_right, z3.BoolVal(len(results) == 5)) == z3.BoolVal(end.end == "return"), "when the entries are those of the platform")
    if end.end != "return":
        return
    p.keeps_contract(end, block="got")
    p.fact(end, z3.Implies(there[MSECCFG], end.get_csr(MSECCFG) == 0), "mseccfg")
    p.fact(end, end.get_csr(MTVEC) == var("mtvec"), "mtvec")
    p.writes_only(end, (given, None, range(given.size)), (got, None, range(got.size)))
    for n, (addresses, configuration) in enumerate(it[1] for it in end.log if it[0] == "found"):
        p.same(end, [(it, addresses[n] if i % 2 == n else bv(LOWEST_PAGE)) for i, it in enumerate(addresses)], "the addresses of a list")
        p.same(end, [(it, bv(OPEN if n else CLOSED)) for it in configuration], "the configuration of a list")
        for total in [it[1] for it in end.log if it[0] == "sum"]:
            p.fact(end, z3.LShR(total, 2) & ~addresses[n] == 0, "the bits of the ends")


def words_compared(p):
    """differ, for up to 16 words: it returns 1 if the blocks differ in a word, and otherwise 0. Nothing is written."""
    one, two, count = p.room("one", 128, writable=False), p.room("two", 128, writable=False), var("count")
    state = p.begin("differ", one.base, two.base, count)
    state.path.append(z3.ULE(count, 16))
    for end in p.run(state):
        p.keeps_contract(end)
        p.writes_only(end)
        is_other = z3.Or(*[z3.And(z3.ULT(n, count), p.first(one, 8 * n) != p.first(two, 8 * n)) for n in range(16)])
        p.fact(end, end.x[A0] == z3.If(is_other, bv(1), bv(0)), "the result")


def bytes_compared(p):
    """memcmp, for every two addresses and every number of bytes: it returns 0 if there are none. A round compares byte k of both blocks, for any k.
    It returns their difference if they differ; otherwise byte k + 1 follows, and after the last the result is 0. So by induction the result is
    zero iff all bytes are equal, and otherwise the difference of the first two that differ. Nothing is written. For each alignment of the
    first block two of the second are tried, and all eight with --exhaustive."""
    one, two, n = var("one"), var("two"), var("n")
    state = p.begin("memcmp", one, two, n)
    state.path += [z3.ULE(it, 1 << 56) for it in (one, two, n)]
    p.m.ends["looks"] = bv(place(p, "memcmp", "lbu", 0))
    spaces, arrival = list(p.m.spaces), None
    for end in p.run(state):
        p.fact(end, (n == 0) == z3.BoolVal(end.end == "return"), "when it looks")
        if end.end == "return":
            p.fact(end, end.x[A0] == 0, "the result for no bytes")
            p.keeps_abi(end)
        else:
            arrival = end
    first = arrival.copy()
    near(p, first, spaces, (one, two), bv(0), (0, 0))
    inner, k, steps = p.accelerated(first)
    inner.path = [*arrival.path, z3.ULT(k, n)]
    for alignment in [(low, other) for low in range(8) for other in (range(8) if p.is_exhaustive else (low, low + 3 & 7))]:
        trial = inner.copy()
        places = near(p, trial, spaces, (one, two), k, alignment)
        for end in p.round(trial):
            a, b = (p.first(space, at, 1) for space, at in places)
            is_more = z3.ULT(k + 1, n)
            p.writes_only(end)
            if end.end == "looks":
                p.fact(end, z3.And(a == b, is_more), "the next byte")
                p.keeps_pattern(end, arrival, k, steps)
            else:
                p.fact(end, end.x[A0] == z3.ZeroExt(56, a) - z3.ZeroExt(56, b), "the result")
                p.fact(end, z3.Or(a != b, z3.Not(is_more)), "when it returns")
                p.keeps_abi(end)
                p.csrs_only(end)
    p.m.spaces = spaces


def near(p, state, spaces, starts, done, alignment):
    """Declares the eight bytes around the next byte of each block; the path gets their alignment as a premise."""
    p.m.spaces, places = list(spaces), []
    state.members, state.known = {}, dict(state.known)
    for name, start, low in zip(("first_block", "second_block"), starts, alignment):
        at = z3.simplify(start + done)
        space = Space(name, z3.simplify(at - low), 8, writable=False)
        state.path.append(at & 7 == low)
        p.m.spaces.append(space)
        places.append((space, low))
    return places


def settled(p, state):
    """Follows a function through its loops and yields the states in which it returns. A register that a round changes has any value at the head
    of the loop afterwards; memory must be the same at each arrival there."""
    known, waiting = {}, list(p.run(state))
    while waiting:
        end = waiting.pop()
        if end.end == "return":
            yield end
            continue
        before, forgotten = known.get(end.end, (end, set()))
        is_same = end.memory.keys() == before.memory.keys() and all(it.eq(before.memory[key]) for key, it in end.memory.items())
        p.fact(end, is_same, "memory at the head of a loop")
        changed = {n for n in range(1, 32) if n not in forgotten and not end.x[n].eq(before.x[n])}
        if end.end in known and not changed:
            continue
        inner = before.copy()
        inner.end, inner.log, inner.path, inner.known = None, [], list(p.start.path), {}
        for n in changed:
            inner.x[n] = p.m.new("any")
        known[end.end] = inner, forgotten | changed
        waiting += p.round(inner.copy())


def texts_put(p):
    """put_char writes at most one byte to the serial line, its argument. put, put_hex, put_digits and put_number may read any bytes as their text.
    All of them write only to the serial line and to their stack."""
    for name in ("put_char", "put", "put_hex", "put_digits", "put_number"):
        q = p.again()
        q.m.add(Space("serial", SERIAL, 8, device=True))
        state = q.begin(name, var("first"))
        if name in ("put_digits", "put_number"):
            q.assume("put_digits")
            if name == "put_digits":  # the recursion alone is assumed
                q.m.hooks[q.address(name)] = first_time(q, q.m.hooks[q.address(name)])
        for at in range(q.address(name), next(it for it, _ in q.m.image.starts if it > q.address(name)), 2):
            insn = q.m.insn_or_none(at)
            if insn and insn.name == "lbu" and insn.imm != SERIAL_STATUS:
                q.m.hooks[at] = any_byte(q, insn, at)
        q.m.ends.update({it: bv(it) for it in q.loop_heads(name)})
        for end in settled(q, state):
            q.keeps_contract(end)
            given = [it[4] for it in end.log if it[:2] == ("store", "serial")]
            if name == "put_char":
                q.fact(end, len(given) < 2, "one byte at most")
                q.fact(end, z3.And(*[it == z3.Extract(7, 0, var("first")) for it in given]), "the byte")
        p.take(q)


def first_time(q, hook):
    """The code itself at the first arrival, and the contract at any other."""
    def effect(state):
        if state.steps == 1 and not state.log:
            q.m.step(state)
        else:
            hook(state)
    return effect


def any_byte(q, insn, at):
    """The effect of a load that may return any byte."""
    def effect(state):
        state.x[insn.rd], state.pc = z3.ZeroExt(56, q.m.new("byte", 8)), at + insn.size
    return effect


def power_switched(p):
    """power_off writes one word to the board's power control: success if its argument is zero, otherwise failure. start_again writes the word for a
    reset. Then each of them loops without an effect."""
    for name, words in (("power_off", (0x5555, 0x13333)), ("start_again", (0x7777, 0x7777))):
        q = p.again()
        q.m.add(Space("finisher", FINISHER, 8, device=True))
        state = q.begin(name, var("status"))
        q.m.ends = {"stays": bv(place(q, name, "jal", 0))}
        for end in q.run(state):
            stores = [it for it in end.log if it[0] == "store"]
            q.fact(end, end.end == "stays" and len(stores) == 1 and stores[0][1:4:2] == ("finisher", 0), "one word")
            q.fact(end, stores[0][4] == z3.If(var("status") == 0, z3.BitVecVal(words[0], 32), z3.BitVecVal(words[1], 32)), "which word")
        p.take(q)


def counters_read(p):
    """timer_now returns the time, `instructions` the count of instructions, and rattle_errno EIO. They change nothing else."""
    for name, number in (("timer_now", TIME), ("instructions", 0xb02), ("rattle_errno", None)):
        q = p.again()
        for end in q.run(q.begin(name)):
            q.keeps_abi(end)
            q.writes_only(end)
            q.csrs_only(end)
            read = [it[2] for it in end.log if it[:2] == ("read", number)]
            q.fact(end, end.x[A0] == (read[0] if number else 5), "the result")
        p.take(q)


def hart_enters(p):
    """enter_as_trapped goes to take_monitor with the struct world of the hart, and changes nothing."""
    state = p.begin("enter_as_trapped")
    p.m.ends["comes"] = bv(p.address("take_monitor"))
    for end in p.run(state):
        p.fact(end, z3.And(z3.BoolVal(end.end == "comes"), end.x[A0] == p.world_at(p.hart)), "its struct world")
        p.writes_only(end)
        p.csrs_only(end)


PROOFS = [control_begins, floats_begin, timer_begins, entries_checked, words_compared, bytes_compared, texts_put, power_switched, counters_read, hart_enters]
