"""Facts of reset.c and start.S: which pages are private, and what is zeroed before the board ends."""
import z3

from facts_frames import platform_of
from proof import A0, MOST_ENCLAVES, MOST_HARTS, var
from rv64 import Failed, Space, bv

CHECK = int.from_bytes(b"etavirp", "little")
FULL_FENCE = 0x33  # at least rw, rw


def check_of(first, count):
    """The word by which a range of private pages is in the list."""
    return first ^ count << 32 ^ CHECK


def is_in_list(p, ranges, index):
    first, count, check = (p.first(ranges, it, index=index) for it in range_fields(p))
    return check == check_of(first, count)


def range_fields(p):
    layout = p.layout.private_range
    return layout.first, layout.count, layout.check


def order_of(state, *names):
    """The stores into these spaces, the calls and the fences, in their order."""
    return [(it[1], it[3]) if it[0] == "store" else it[1] if it[0] == "call" else "fence" for it in state.log
            if it[0] == "call" or it[0] == "store" and it[1] in names or it[0] == "fence" and it[1] & FULL_FENCE == FULL_FENCE]


def private_noted(p):
    """private_begin puts the first page and the number of pages of an enclave into its range of the list, and no other range changes. The
    range is out of the list while it changes: its check is zeroed first and written last, with fences between. So a reset at any moment
    finds the old range, none, or the new one."""
    enclave, (first, count, check) = var("enclave"), range_fields(p)
    ranges = p.space("private_ranges", enclave - 1)
    state = p.begin("private_begin", enclave, var("first"), var("count"))
    state.path += [z3.ULE(1, enclave), z3.ULE(enclave, MOST_ENCLAVES)]
    for end in p.run(state):
        p.keeps_contract(end)
        p.same(end, [(p.now(end, ranges, first, index=enclave - 1), var("first")), (p.now(end, ranges, count, index=enclave - 1), var("count")),
                     (p.now(end, ranges, check, index=enclave - 1), check_of(var("first"), var("count")))], "the range")
        stores = [it for it in end.log if it[0] == "store"]
        p.fact(end, stores[0][4] == 0, "the check is zeroed first")
        p.fact(end, order_of(end, "private_ranges") == [("private_ranges", check), "fence", ("private_ranges", first),
                                                         ("private_ranges", count), "fence", ("private_ranges", check), "fence"], "the order")
        p.writes_only(end, (ranges, enclave - 1, (first, count, check)))


def private_page_known(p):
    """is_private_page: a page is private to an enclave iff its range is in the list and has the page. Nothing is written."""
    enclave, page, (first, count, _) = var("enclave"), var("page"), range_fields(p)
    ranges = p.space("private_ranges", enclave - 1)
    state = p.begin("is_private_page", enclave, page)
    state.path += [z3.ULE(1, enclave), z3.ULE(enclave, MOST_ENCLAVES)]
    for end in p.run(state):
        p.keeps_contract(end)
        in_range = z3.ULT(page - p.first(ranges, first, index=enclave - 1), p.first(ranges, count, index=enclave - 1))
        p.fact(end, end.x[A0] == z3.If(z3.And(is_in_list(p, ranges, enclave - 1), in_range), bv(1), bv(0)), "the result")
        p.writes_only(end)


def slots(p, function, arrival, index):
    """The state at the head of a loop over the ranges, for the range of any index: the register that counts rounds has it."""
    counter = [n for n in range(5, 32) if z3.is_bv_value(arrival.x[n]) and arrival.x[n].as_long() == 0]
    state, k, steps = p.accelerated(arrival)
    counters = [n for n in counter if steps.get(n) == 1]
    if len(counters) != 1:
        raise Failed(f"{function} has no counter")
    state = arrival.copy()
    state.end, state.log, state.memory = None, [], {key: it for key, it in arrival.memory.items() if key[0] == "stack"}
    for n in range(1, 32):
        if n not in steps:
            state.x[n] = p.m.new("scratch")
    state.x[counters[0]] = index
    return state, counters[0], [n for n in steps if n != counters[0]]


def private_ended(p):
    """private_end zeroes the pages of its arguments by make_zero, executes a fence, and then takes each range out of the list that is in it and
    begins with the first of the pages; every other range stays. So the pages are zero before the list forgets them. The round is proved
    for the range of any index below 64, and that it goes on with the next one."""
    index, (first, _, check) = var("index"), range_fields(p)
    ranges = p.space("private_ranges", index)
    state = p.begin("private_end", var("first"), var("count"))
    p.assume("make_zero")
    head = p.loop_heads("private_end")[0]
    p.m.ends["head"] = bv(head)
    arrivals = p.run(state)
    p.fact(state, len(arrivals) == 1 and arrivals[0].end == "head", "the loop is reached in one way")
    arrival = arrivals[0]
    p.calls_are(arrival, [("make_zero", var("first"), var("count"))])
    p.fact(arrival, order_of(arrival, "private_ranges") == ["make_zero", "fence"], "the pages are zeroed before the list changes")
    inner, counter, kept = slots(p, "private_end", arrival, index)
    inner.path.append(z3.ULT(index, MOST_ENCLAVES))
    p.start = inner.copy()
    for end in p.round(inner):
        leaves = z3.And(is_in_list(p, ranges, index), p.first(ranges, first, index=index) == var("first"))
        p.fact(end, p.now(end, ranges, check, index=index) == z3.If(leaves, 0, p.first(ranges, check, index=index)), "the check of the range")
        p.writes_only(end, (ranges, index, (check,)))
        if end.end == "head":
            p.fact(end, z3.And(end.x[counter] == index + 1, z3.ULT(index + 1, MOST_ENCLAVES)), "the next range")
            p.same(end, [(end.x[n], arrival.x[n]) for n in kept], "what the next round needs")
        else:
            p.fact(end, index == MOST_ENCLAVES - 1, "the last range")
            p.keeps_contract(end)


def private_forgotten(p):
    """forget_private, for each range of the list in turn: while `tried` is less than its number of pages, it counts `tried` up and zeroes that
    page by make_zero; then, after a fence, the range leaves the list and `tried` is zero for the next. A range that is not in the list
    is passed over. `tried` counts a page before it is zeroed, so a page that traps is not tried again. Proved for the range of any
    index below 64 and for any number of pages, by the step of each loop."""
    index, (first, count, check) = var("index"), range_fields(p)
    ranges, tried = p.space("private_ranges", index), p.space("tried") if "tried" in p.m.symbols else p.m.add(Space("tried", p.address("tried"), 8))
    state = p.begin("forget_private")
    p.assume("make_zero")
    pages = p.address("forget_private")
    heads = p.loop_heads("forget_private")
    calls = [at for at in range(pages, pages + 256, 2) if (it := p.m.insn_or_none(at)) and it.name == "jal" and at + it.imm == p.address("make_zero")]
    outer = heads[0]
    p.m.ends["range"] = bv(outer)
    arrivals = p.run(state)
    p.fact(state, len(arrivals) == 1 and arrivals[0].end == "range" and not order_of(arrivals[0], "private_ranges", "tried"), "the loop is reached")
    arrival = arrivals[0]
    look = next(at for at in range(calls[0], calls[0] + 64, 2) if (it := p.m.insn_or_none(at)) and it.name == "ld")
    p.m.ends["page"] = bv(look)  # where it looks whether there is another page
    counter = [n for n in (8, 9, 18) if z3.is_bv_value(arrival.x[n]) and arrival.x[n].as_long() == 0]
    p.fact(state, len(counter) == 1, "the counter of the ranges")
    inner = p.go_on(arrival, outer)
    inner.x[counter[0]] = index
    inner.path.append(z3.ULT(index, MOST_ENCLAVES))
    kept = [n for n in (2, *range(18, 28), 8, 9) if n != counter[0]]
    constant = [n for n in kept if z3.is_bv_value(arrival.x[n])]
    p.start = inner.copy()
    reached = 0
    for end in p.round(inner):
        listed = is_in_list(p, ranges, index)
        if end.end != "page":
            p.fact(end, z3.Not(listed), "a range of the list is passed over")
            p.writes_only(end)
            next_range(p, end, arrival, counter[0], constant, index)
            continue
        reached += 1
        p.fact(end, listed, "a range that is not in the list is forgotten")
        p.writes_only(end)
        step = p.go_on(end, look)
        p.put(step, tried, 0, var("tried"))
        p.start = step.copy()
        number = p.first(ranges, count, index=index)
        for after in p.round(step):
            if after.end == "page":
                p.fact(after, z3.ULT(var("tried"), number), "a page beyond the range")
                p.calls_are(after, [("make_zero", p.first(ranges, first, index=index) + var("tried"), bv(1))])
                p.fact(after, order_of(after, "tried") == [("tried", 0), "make_zero"], "the page is counted first")
                p.fact(after, p.now(after, tried, 0) == var("tried") + 1, "the next page")
                p.writes_only(after, (tried, bv(0), (0,)))
                p.same(after, [(after.x[n], end.x[n]) for n in (2, 8, 9, *range(18, 28))], "what the next page needs")
            else:
                p.fact(after, z3.UGE(var("tried"), number), "pages are left")
                p.fact(after, order_of(after, "private_ranges", "tried") == ["fence", ("private_ranges", check), ("tried", 0)], "the order")
                p.fact(after, z3.And(p.now(after, ranges, check, index=index) == 0, p.now(after, tried, 0) == 0), "the range leaves the list")
                p.writes_only(after, (ranges, index, (check,)), (tried, bv(0), (0,)))
                next_range(p, after, arrival, counter[0], constant, index)
    p.fact(state, reached == 1, "ranges are forgotten in one way")


def next_range(p, end, arrival, counter, constant, index):
    """A round has ended: with the next range, or with the return after the last."""
    if end.end == "range":
        p.fact(end, z3.And(end.x[counter] == index + 1, z3.ULT(index + 1, MOST_ENCLAVES)), "the next range")
        p.same(end, [(end.x[n], arrival.x[n]) for n in (2, *constant)], "what the next range needs")
    else:
        p.fact(end, index == MOST_ENCLAVES - 1, "the last range")
        p.keeps_contract(end, "forget_private")


def forgets_in_order(p):
    """forget: the hart is halted; it has the lock before it goes on, with its own ticket or one that it draws; then the other harts are
    stopped, the first time only; then private pages are zeroed; and then every register set, once. This is the order of the calls,
    and nothing else is written but the two notes that these are done."""
    layout = p.layout.world
    worlds, sets = p.worlds(), p.space("register_sets", writable=False)
    names = p.layout.assembly
    p.m.add(Space("tickets", p.address("tickets"), names.MONITOR_SP + 8, device=True))
    ending, at = p.small("is_ending")
    known, at_known = p.small("has_no_registers")
    platform = platform_of(p)
    p.clint()
    state = p.begin("forget")
    state.path.append(z3.ULE(p.first(platform, p.layout.platform_frame.harts), MOST_HARTS))
    for name in ("stop_harts", "forget_private", "memset"):
        p.assume(name)
    head = p.wait_head("forget")
    p.m.ends["waits"] = bv(head)
    size = sets.size * sets.count
    for arrival in p.run(state):
        p.fact(arrival, arrival.end == "waits", "it waits for the lock")
        p.fact(arrival, set(order_of(arrival, "private_ranges", "register_sets")) <= {"fence"}, "nothing is done before")
        p.fact(arrival, p.now(arrival, worlds, layout.is_out, 4, p.hart) == 0, "it is halted")
        p.writes_only(arrival, (worlds, p.hart, (layout.is_out & ~7, layout.ticket)))
        if not any(it[:2] == ("store", "tickets") for it in arrival.log):
            p.fact(arrival, p.now(arrival, worlds, layout.ticket, index=p.hart) == p.first(worlds, layout.ticket, index=p.hart), "its ticket")
        inner, k, steps = p.accelerated(arrival)
        p.start = inner.copy()
        for end in p.round(inner):
            if end.end == "waits":
                p.keeps_pattern(end, arrival, k, steps)
                p.writes_only(end)
                p.calls_are(end, [])
                continue
            was_ending, was_known = p.first(ending, at, 1) != 0, p.first(known, at_known, 1) != 0
            calls = [it[1] for it in end.log if it[0] == "call"]
            stops, clears = "stop_harts" in calls, "memset" in calls
            p.fact(end, z3.And(z3.BoolVal(stops) != was_ending, z3.BoolVal(clears) != was_known), "what is done once")
            others = ~(bv(1) << p.hart)
            sets_at = bv(p.address("register_sets"))
            p.fact(end, z3.BoolVal(calls == ["stop_harts"] * stops + ["forget_private"] + ["memset"] * clears), "the order of the calls")
            for it in end.log:
                if it[:2] == ("call", "stop_harts"):
                    p.fact(end, it[2] == others, "which harts are stopped")
                if it[:2] == ("call", "memset"):
                    p.fact(end, z3.And(it[2] == sets_at, it[3] & 255 == 0, it[4] == size), "the register sets are zeroed")
            allowed = [(ending, bv(0), (at & ~7,))] + ([(known, bv(0), (at_known & ~7,))] if known is not ending else [])
            p.writes_only(end, *allowed, (worlds, p.hart, (layout.is_out & ~7, layout.ticket)))
            p.keeps_contract(end, "forget", block="register_sets")


def board_ends(p):
    """end_board and begin_anew call forget first. Then a loop zeroes each word of the monitor's stack, from its start to its end, and only then
    the board is switched off or starts again; nothing comes after that."""
    for name, last in (("end_board", "power_off"), ("begin_anew", "start_again")):
        q, index = p.again(), var("index")
        begin, end_of_stack = q.address("stack_start"), q.address("stack_end")
        words = q.m.add(Space("monitor_stack", begin, 8, (end_of_stack - begin) // 8, [index, bv(0)]))
        state = q.begin(name, var("status"))
        q.assume("forget")
        q.m.ends = {"head": bv(q.loop_heads(name)[0]), "last": bv(q.address(last))}
        arrivals = q.run(state)
        q.fact(state, [it.end for it in arrivals] == ["head"], "the loop is reached in one way")
        arrival = arrivals[0]
        q.calls_are(arrival, [("forget",)])
        q.writes_only(arrival)
        trial, k, steps = q.accelerated(arrival)
        inner = trial.copy()
        for n in range(1, 32):
            inner.x[n] = z3.simplify(z3.substitute(trial.x[n], (k, index)))
        inner.path.append(z3.ULT(index, words.count))
        q.start = inner.copy()
        for end in q.round(inner):
            q.fact(end, q.now(end, words, 0, index=index) == 0, "the word is zero")
            q.writes_only(end, (words, index, (0,)))
            if end.end == "head":
                q.keeps_pattern(end, arrival, index, steps)
                q.fact(end, z3.ULT(index + 1, words.count), "the next word")
            else:
                q.fact(end, z3.And(index == words.count - 1, z3.BoolVal(end.end == "last")), "the last word")
                q.fact(end, end.x[A0] == var("status") if last == "power_off" else True, "the status")
        p.take(q)


PROOFS = [private_noted, private_page_known, private_ended, private_forgotten, forgets_in_order, board_ends]
