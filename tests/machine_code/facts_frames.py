"""Facts of serve.c: the frames that the loop reads and writes, the lists of entries, and the pages that are read and zeroed."""
import z3

from contracts import CONTROL
from facts_worlds import MODE, STATUS, has_control, host_word
from proof import A0, FCSR, MOST_ENCLAVES, MOST_HARTS, bits_of, number_text, var
from rv64 import MSTATUS, Failed, Space, bv

PAGE = 4096
IS_WORLDS = z3.Function("is_worlds", z3.BitVecSort(64), z3.BoolSort())


def assume_is_worlds(p):
    """is_worlds decides by its argument alone while the platform stays (`pages_known` says how)."""
    def decides(state, page):
        state.x[A0] = z3.If(IS_WORLDS(page), bv(1), bv(0))
    p.assume("is_worlds", decides)


def platform_of(p):
    """The platform, by the pointer to it, and its frame."""
    pointer = p.space("platform", writable=False)
    return p.m.add(Space("platform_frame", p.first(pointer, 0), p.layout.platform_frame.size_of, writable=False))


def trap_framed(p):
    """put_trap puts the tag, the hart, a0 to a7 of the world's set, and mie and scounteren of the hart into the frame; nothing else."""
    which, layout = var("set"), p.layout.trap_frame
    worlds, sets, frame = p.worlds(), p.sets(which), p.room("frame", layout.size_of)
    state = p.begin("put_trap", p.world_at(p.hart), var("tag"), frame.base)
    state.path.append(z3.ULT(which, sets.count))
    p.put(state, worlds, p.layout.world.registers, p.set_at(which), p.hart)
    for end in p.run(state):
        p.keeps_contract(end)
        expected = [var("tag"), p.hart] + [p.start.word(sets, which, 8 * (A0 + n)) for n in range(8)]
        expected += [p.start.get_csr(0x304), p.start.get_csr(0x106)]
        p.same(end, [(p.now(end, frame, 8 * n), term) for n, term in enumerate(expected)], "the words of the frame")
        p.fact(end, end.x[A0] == layout.size_of, "the length")
        p.writes_only(end, (frame, bv(0), range(layout.size_of)))
        p.csrs_only(end)


def frames_read(p):
    """read serves a frame by its length: the next trap's, a page's, or the platform. It refuses every other length, and a frame that is not
    aligned to eight."""
    length, to, layout = var("length"), var("to"), p.layout
    pointer = p.space("platform", writable=False)
    state = p.begin("read", var("descriptor"), to, length)

    def as_result(name):
        def effect(state, *arguments):
            state.x[A0] = var(name)
        return effect
    for name in ("next_trap", "read_page"):
        p.assume(name, as_result(name))
    p.assume("memcpy")
    is_aligned, lengths = to & 7 == 0, [layout.trap_frame.size_of, layout.page_frame.size_of, layout.platform_frame.size_of]
    for end in p.run(state):
        p.keeps_abi(end)
        p.writes_only(end)
        p.csrs_only(end)
        copy = [("memcpy", to, p.first(pointer, 0), bv(lengths[2]))]
        for claim, result, expected in (
                (z3.And(is_aligned, length == lengths[0]), var("next_trap"), [("next_trap", to)]),
                (z3.And(is_aligned, length == lengths[1]), var("read_page"), [("read_page", to)]),
                (z3.And(is_aligned, length == lengths[2]), length, copy),
                (z3.Or(z3.Not(is_aligned), z3.And(*[length != it for it in lengths])), bv(-1), [])):
            if p.m.entails(end.path, claim):
                p.calls_are(end, expected)
                p.fact(end, end.x[A0] == result, "the result")
                break
        else:
            raise Failed("the frame is neither served nor refused")


def lists_changed(p):
    """change_lists, for each hart, any harts that are woken, and one list or two, after the first answer: the host's list is the first of
    the answer and the new enclave's the second (`list_after` of Firmware.antt); is_stale of the hart and of each hart that is woken
    is 1, and of no other hart; and all of these are written between the call that stops the woken harts and the call that lets them
    go on."""
    layout = p.layout
    answers, bank, enclave_bank = layout.answer_frame, layout.bank.size_of, layout.variables["enclave_banks"][0]
    for hart in range(MOST_HARTS):
        q = p.again()
        answer = q.room("answer", answers.size_of + 2 * bank, writable=False)
        value, wake, lists = (q.first(answer, it) for it in (answers.value, answers.wake, answers.list_count))
        worlds, host_bank = q.worlds(*map(bv, range(MOST_HARTS))), q.space("host_bank")
        banks, platform, other = q.space("enclave_banks", value), platform_of(q), var("other")
        harts = q.first(platform, layout.platform_frame.harts)
        state = q.begin("change_lists", answer.base)
        q.put(state, answer, answers.hart, bv(hart))
        booted, at = q.small("is_booted")
        state.path += [z3.ULT(hart, harts), z3.ULE(harts, MOST_HARTS), z3.ULE(value, MOST_ENCLAVES), z3.ULT(wake, 16),
                       z3.Or(lists == 1, lists == 2), q.first(booted, at, 4) != 0]
        q.assume("stop_harts")
        for end in q.run(state):
            q.keeps_contract(end)
            q.same(end, [(q.now(end, host_bank, n), q.first(answer, answers.lists + n)) for n in range(0, bank, 8)], "the host's list")
            has_new = z3.And(lists == 2, other == value)
            for n in range(0, enclave_bank, 8):
                q.fact(end, q.now(end, banks, n, index=other) == z3.If(has_new, q.first(answer, answers.lists + bank + n),
                                                                        banks.initial(other, n)), f"byte {n} of an enclave's list")
            for h in range(MOST_HARTS):
                is_due = z3.And(z3.Or(z3.BoolVal(h == hart), z3.Extract(h, h, wake) == 1), z3.ULT(h, harts))
                was = q.first(worlds, layout.world.is_stale, 2, bv(h))
                q.fact(end, q.now(end, worlds, layout.world.is_stale, 2, bv(h)) == z3.If(is_due, 1, was), f"is_stale of hart {h}")
            q.calls_are(end, [("stop_harts", wake), ("stop_harts", bv(0))])
            stops = [n for n, it in enumerate(end.log) if it[:2] == ("call", "stop_harts")]
            stores = [n for n, it in enumerate(end.log) if it[0] == "store" and it[1] != "stack"]
            q.fact(end, all(stops[0] < n < stops[1] for n in stores), "lists change only while the woken harts stand still")
        p.take(q)


def answer_written(p):
    """write, for every answer of any length: which answers are refused; the world, the set, the list and is_stale of the hart afterwards;
    and which functions are called, with which arguments, in which order: pages are zeroed, lists change, floating point changes,
    control registers change, and the sets change last. By premise an answer is one that the proved loop writes: its hart and worlds exist;
    it has lists if pages are to be zeroed or harts woken; it has control words iff a host enters an enclave; the list of the hart is
    that of its world before."""
    layout = p.layout
    answers, world_at, bank = layout.answer_frame, layout.world, layout.bank.size_of
    front = answers.size_of
    answer = p.room("answer", front + 2 * bank + layout.control_words.size_of, writable=False)
    hart, world, first, count, wake, lists, words = (p.first(answer, it) for it in (
        answers.hart, answers.world, answers.zero_first, answers.zero_count, answers.wake, answers.list_count, answers.word_count))
    worlds, length = p.worlds(hart), var("length")
    number, self = p.first(worlds, world_at.number, index=hart), p.world_at(hart)
    state = p.begin("write", var("descriptor"), answer.base, length)
    state.path += [z3.ULE(front, length), z3.ULT(hart, MOST_HARTS), z3.ULE(world, MOST_ENCLAVES), z3.ULE(number, MOST_ENCLAVES),
                   answer.base & 7 == 0, z3.Or(words == 0, words == 9), z3.Implies(lists == 0, z3.And(count == 0, wake == 0)),
                   z3.Implies(words == 9, z3.And(number == 0, world != 0)),
                   z3.Implies(z3.And(length == front, world == number), z3.And(lists == 0, words == 0))]
    enclave_bank = layout.variables["enclave_banks"][0]
    list_of = lambda number: z3.If(number == 0, bv(p.address("host_bank")), bv(p.address("enclave_banks")) + enclave_bank * number)
    state.path.append(p.first(worlds, world_at.bank, index=hart) == list_of(number))
    for name in ("private_end", "change_lists", "control_leave", "floats_change", "control_enter", "registers_change"):
        p.assume(name)
    accepted = z3.And(z3.ULE(lists, 2), length == front + bank * lists + 8 * words, z3.Or(world == 0, world == number, words == 9))
    changes, next_set = world != number, z3.If(world == 0, p.set_at(hart), p.set_at(world + 3))
    for end in p.run(state):
        p.keeps_abi(end)
        if p.m.entails(end.path, end.x[A0] == -1):
            p.fact(end, z3.Not(accepted), "an answer is refused")
            p.writes_only(end)
            p.csrs_only(end)
            p.calls_are(end, [])
            continue
        p.fact(end, z3.And(accepted, end.x[A0] == length), "the answer is carried out")
        p.csrs_only(end, MSTATUS, FCSR, *CONTROL.values(), 0x344)
        p.fact(end, p.now(end, worlds, world_at.number, index=hart) == world, "the number of the world")
        p.fact(end, p.now(end, worlds, world_at.bank, index=hart) == list_of(world), "the list is that of the world")
        p.fact(end, p.now(end, worlds, world_at.registers, index=hart) == z3.If(
            changes, next_set, p.first(worlds, world_at.registers, index=hart)), "the set")
        left = bits_of(end.unwritten(worlds, hart, world_at.is_stale & ~7), world_at.is_stale, 2)  # by change_lists, if it is called
        p.fact(end, p.now(end, worlds, world_at.is_stale, 2, hart) == z3.If(changes, 1, left), "is_stale")
        p.writes_only(end, (worlds, hart, (world_at.number, world_at.bank, world_at.registers)), (worlds, None, (world_at.is_stale & ~7,)),
                      (worlds, None, range(world_at.host, world_at.host + 72)))
        expected = []
        for does, call in ((count != 0, ("private_end", first, count)), (lists != 0, ("change_lists", answer.base)),
                           (changes, ("floats_change", self, next_set, p.start.get_csr(MSTATUS))),
                           (z3.And(changes, world == 0), ("control_leave", self)),
                           (z3.And(changes, world != 0), ("control_enter", self, answer.base + front + bank * lists, p.start.get_csr(MSTATUS)))):
            if p.m.entails(end.path, does):
                expected.append(call)
            else:
                p.fact(end, z3.Not(does), f"whether {call[0]} is called")
        calls = [it[1:] for it in end.log if it[0] == "call"]
        if "change_lists" in [it[0] for it in expected]:  # it may change mstatus no more, but the value that is read comes later
            p.fact(end, [it[0] for it in calls] == [it[0] for it in expected] + ["registers_change"], "the calls")
        p.calls_are(end, expected + [("registers_change", length, answer.base)])


def enclave_entered(p):
    """All of write where a host enters an enclave, with no contract in place of a callee, on a hart with all control registers and with
    doubles: at its end the facts hold together that control_given, floats_changed, sets_changed and answer_written state one by one."""
    layout = p.layout
    answers, registers, front = layout.answer_frame, layout.registers, layout.answer_frame.size_of
    answer = p.room("answer", front + layout.control_words.size_of, writable=False)
    word = lambda offset: p.first(answer, offset)
    hart, world, entry = word(answers.hart), word(answers.world), word(answers.changes + 48)
    kind = word(answers.changes + 32)
    worlds, sets = p.worlds(hart), p.sets(hart, world + 3)
    state = p.begin("write", var("descriptor"), answer.base, bv(front + 72))
    state.path += [z3.ULT(hart, MOST_HARTS), z3.ULE(1, world), z3.ULE(world, MOST_ENCLAVES), answer.base & 7 == 0, z3.Or(kind == 0, kind == 3)]
    at = answers.changes  # no pages, no lists, nine words; the host goes past its call; perhaps a first entry
    for offset, value in ((answers.zero_count, bv(0)), (answers.list_count, bv(0)), (answers.word_count, bv(9)), (at, bv(1)), (at + 8, bv(0)),
                          (at + 40, world), (at + 64, bv(0))):
        p.put(state, answer, offset, value)
    p.put(state, worlds, layout.world.number, bv(0), hart)
    p.put(state, worlds, layout.world.registers, p.set_at(hart), hart)
    p.put_bytes(state, worlds, layout.world.floats_kind, 2, z3.BitVecVal(3, 16), hart)
    p.put_bytes(state, worlds, layout.world.lacks, 4, z3.BitVecVal(0, 32), hart)
    given = lambda name: word(front + getattr(layout.control_words, name))
    state.path += [z3.ULE(sets.initial(world + 3, registers.fcsr), 255), given("status") & ~STATUS == 0, given("mode") & ~MODE == 0]
    mstatus = state.get_csr(MSTATUS)
    for end in p.run(state):
        p.keeps_abi(end)
        p.fact(end, end.x[A0] == front + 72, "the result")
        has_control(p, end, given, z3.BitVecVal(0, 32), FCSR)
        kept = {"status": mstatus & STATUS, "mode": mstatus & MODE, **{name: p.start.get_csr(number) for name, number in CONTROL.items()}}
        p.same(end, [(p.now(end, worlds, host_word(p, name), index=hart), term) for name, term in kept.items()], "the host's words")
        for n in range(32):
            p.fact(end, z3.And(p.now(end, sets, registers.f + 8 * n, index=hart) == p.old.f[n],
                               end.f[n] == sets.initial(world + 3, registers.f + 8 * n)), f"f{n}")
        p.fact(end, z3.And(p.now(end, sets, registers.fcsr, index=hart) == p.start.get_csr(FCSR) & 255,
                           end.get_csr(FCSR) == sets.initial(world + 3, registers.fcsr)), "fcsr")
        for n in range(1, 32):
            first = world if n == A0 else bv(0)
            p.fact(end, p.now(end, sets, 8 * n, index=hart) == sets.initial(hart, 8 * n), f"x{n} of the host")
            p.fact(end, p.now(end, sets, 8 * n, index=world + 3) == z3.If(kind == 3, first, sets.initial(world + 3, 8 * n)), f"x{n}")
        pc = registers.pc
        p.fact(end, p.now(end, sets, pc, index=hart) == sets.initial(hart, pc) + 4, "the pc of the host")
        p.fact(end, p.now(end, sets, pc, index=world + 3) == z3.If(kind == 3, entry, sets.initial(world + 3, pc)), "the pc of the enclave")
        is_of_world(p, end, worlds, hart, world, p.set_at(world + 3), bv(p.address("enclave_banks")) + layout.variables["enclave_banks"][0] * world)
        p.writes_only(end, (sets, hart, range(pc, registers.size_of)), (sets, world + 3, range(pc + 8)), (worlds, hart, [
            layout.world.is_stale & ~7, layout.world.number, layout.world.registers, layout.world.bank,
            *range(layout.world.host, layout.world.host + 72)]))


def is_of_world(p, end, worlds, hart, number, registers, bank):
    """The hart's struct world names this world, its set and its list, and its entries are to be loaded."""
    layout = p.layout.world
    p.same(end, [(p.now(end, worlds, layout.number, index=hart), number), (p.now(end, worlds, layout.registers, index=hart), registers),
                 (p.now(end, worlds, layout.bank, index=hart), bank)], "the world of the hart")
    p.fact(end, p.now(end, worlds, layout.is_stale, 2, hart) == 1, "is_stale")
    p.fact(end, p.now(end, worlds, layout.floats_kind, 2, hart) == p.now(p.start, worlds, layout.floats_kind, 2, hart), "floats_kind")


def host_comes_back(p):
    """All of write where an enclave that has ended leaves its hart to the host, with no contract, on the same kind of hart: the host has its
    control words and its floats again and finds two words in a0 and a1; every register of the enclave's set is zero."""
    layout = p.layout
    answers, registers, front = layout.answer_frame, layout.registers, layout.answer_frame.size_of
    answer = p.room("answer", front, writable=False)
    word = lambda offset: p.first(answer, offset)
    hart, number, at = word(answers.hart), var("number"), answers.changes
    worlds, sets = p.worlds(hart), p.sets(hart, number + 3)
    state = p.begin("write", var("descriptor"), answer.base, bv(front))
    state.path += [z3.ULT(hart, MOST_HARTS), z3.ULE(1, number), z3.ULE(number, MOST_ENCLAVES), answer.base & 7 == 0]
    for offset, value in ((answers.world, bv(0)), (answers.zero_count, bv(0)), (answers.list_count, bv(0)), (answers.word_count, bv(0)),
                          (at, bv(4)), (at + 8, number), (at + 32, bv(2)), (at + 40, bv(0)), (at + 64, bv(0))):
        p.put(state, answer, offset, value)
    p.put(state, worlds, layout.world.number, number, hart)
    p.put(state, worlds, layout.world.registers, p.set_at(number + 3), hart)
    p.put_bytes(state, worlds, layout.world.floats_kind, 2, z3.BitVecVal(3, 16), hart)
    p.put_bytes(state, worlds, layout.world.lacks, 4, z3.BitVecVal(0, 32), hart)
    kept = lambda name: p.first(worlds, host_word(p, name), index=hart)
    state.path += [z3.ULE(sets.initial(hart, registers.fcsr), 255), kept("status") & ~STATUS == 0, kept("mode") & ~MODE == 0]
    for end in p.run(state):
        p.keeps_abi(end)
        has_control(p, end, kept, z3.BitVecVal(0, 32), FCSR)
        p.same(end, [(end.f[n], sets.initial(hart, registers.f + 8 * n)) for n in range(32)], "f0 to f31")
        p.fact(end, end.get_csr(FCSR) == sets.initial(hart, registers.fcsr), "fcsr")
        p.same(end, [(p.now(end, sets, n, index=number + 3), bv(0)) for n in range(8, registers.size_of, 8)], "the set of the enclave is zero")
        for n in range(1, 33):
            expected = {A0: word(at + 48), A0 + 1: word(at + 56)}.get(n, sets.initial(hart, 8 * n))
            p.fact(end, p.now(end, sets, 8 * n, index=hart) == expected, f"x{n} of the host")
        is_of_world(p, end, worlds, hart, bv(0), p.set_at(hart), bv(p.address("host_bank")))
        p.writes_only(end, (sets, hart, (8 * A0, 8 * A0 + 8)), (sets, number + 3, range(registers.size_of)), (worlds, hart, (
            layout.world.is_stale & ~7, layout.world.number, layout.world.registers, layout.world.bank)))


def pages_known(p):
    """is_worlds, for every platform of up to 32 ranges: a page is a world's iff it lies in a range of memory and not in the monitor's."""
    layout = p.layout.platform_frame
    platform, page = platform_of(p), var("page")
    state = p.begin("is_worlds", page)
    ranges = p.first(platform, layout.ram_count)
    state.path.append(z3.ULE(ranges, 32))
    inside = lambda base, size: z3.ULT(page - z3.LShR(base, 12), z3.LShR(size, 12))
    of_range = lambda n: [p.first(platform, layout.ram + 16 * n + 8 * k) for k in range(2)]
    in_memory = z3.Or(*[z3.And(z3.ULT(n, ranges), inside(*of_range(n))) for n in range(32)])
    in_monitor = inside(p.first(platform, layout.monitor_base), p.first(platform, layout.monitor_size))
    for end in p.run(state):
        p.keeps_contract(end)
        p.fact(end, end.x[A0] == z3.If(z3.And(in_memory, z3.Not(in_monitor)), bv(1), bv(0)), "the result")


def page_read(p):
    """read_page refuses a page that is no world's, and changes nothing then. Otherwise the frame gets the tag, the number of the page and its
    4096 bytes of memory, and the next page is the one after it. memcpy runs with it, without a contract."""
    layout, next_page = p.layout.page_frame, p.space("next_page")
    page, frame = p.first(next_page, 0), p.room("block", layout.size_of)
    source = p.m.add(Space("page", page << 12, PAGE, writable=False))
    state = p.begin("read_page", frame.base)
    assume_is_worlds(p)
    for end in p.run(state):
        p.keeps_contract(end)
        if p.m.entails(end.path, end.x[A0] == -1):
            p.fact(end, z3.Not(IS_WORLDS(page)), "a page is refused")
            p.writes_only(end)
            continue
        p.fact(end, z3.And(IS_WORLDS(page), end.x[A0] == layout.size_of, p.now(end, next_page, 0) == page + 1), "a page is read")
        p.fact(end, z3.And(p.now(end, frame, layout.tag) == number_text("page"), p.now(end, frame, layout.page) == page), "tag and number")
        p.same(end, [(p.now(end, frame, layout.bytes + n), source.initial(bv(0), n)) for n in range(0, PAGE, 8)], "the bytes of the page")
        p.writes_only(end, (frame, bv(0), range(layout.size_of)), (next_page, bv(0), (0,)))


def pages_zeroed(p):
    """make_zero, for any number of pages: the loop starts at the first page, and each round, for any page k below the last, zeroes page k iff
    it is a world's, by one call of memset with its 4096 bytes, and goes on with k + 1 up to the last. So by induction exactly the pages
    of the range that are worlds' are zeroed. The round is proved for any k, which is the induction step that this fact checks."""
    first, count, k, last = var("first"), var("count"), var("k"), var("last")
    state = p.begin("make_zero", first, count)
    assume_is_worlds(p)
    p.assume("memset")
    head = p.loop_head("make_zero")
    p.m.ends["head"] = bv(head)
    entered = None
    for end in p.run(state):
        p.fact(end, all(it[0] in ("store", "load") for it in end.log), "nothing is done before the loop")
        if end.end == "return":
            p.fact(end, z3.UGE(first, first + count), "there are no pages")
            p.keeps_abi(end)
        else:
            counters = [n for n in (8, 9, 18, 19) if p.m.entails(end.path, end.x[n] == first)], \
                [n for n in (8, 9, 18, 19) if p.m.entails(end.path, end.x[n] == first + count)]
            p.fact(end, z3.ULT(first, first + count), "there are pages")
            entered = end
    if entered is None or not all(counters):
        raise Failed("the loop is not entered with its first and last page")
    at, until = counters[0][0], counters[1][0]
    inner = p.go_on(entered, head)
    inner.x[at], inner.x[until] = k, last
    inner.path.append(z3.ULT(k, last))
    for end in p.round(inner):
        calls = [it for it in end.log if it[:2] == ("call", "memset")]
        is_done = z3.And(calls[0][2] == k << 12, calls[0][3] & 255 == 0, calls[0][4] == PAGE, IS_WORLDS(k)) if calls else z3.Not(IS_WORLDS(k))
        p.fact(end, z3.And(is_done, z3.BoolVal(len(calls) < 2)), "what a round zeroes")
        if end.end == "head":
            p.fact(end, z3.And(end.x[at] == k + 1, end.x[until] == last, z3.ULT(k + 1, last)), "the next page")
            p.same(end, [(end.x[n], entered.x[n]) for n in (2, 18, 19, 20, 21, 22, 23, 24, 25, 26, 27) if n not in (at, until)],
                   "what the next round needs")
            p.same(end, [(end.memory[key], entered.memory[key]) for key in entered.memory], "the saved registers")
        else:
            p.fact(end, k + 1 == last, "the last page")
            p.keeps_contract(end, block="pages")


def pages_asked(p):
    """written_measure: the next page to be read is the first of the question, and its pages are noted as private of the enclave whose number
    a1 of the hart's set has (the answer before has put it there)."""
    which, layout = var("set"), p.layout
    asked = p.room("asked", layout.measure_frame.size_of, writable=False)
    worlds, sets, next_page = p.worlds(), p.sets(which), p.space("next_page")
    state = p.begin("written_measure", asked.base)
    p.put(state, worlds, layout.world.registers, p.set_at(which), p.hart)
    state.path.append(z3.ULT(which, sets.count))
    p.assume("private_begin")
    first, count = p.first(asked, layout.measure_frame.first), p.first(asked, layout.measure_frame.count)
    for end in p.run(state):
        p.keeps_abi(end)
        p.csrs_only(end)
        p.fact(end, z3.And(p.now(end, next_page, 0) == first, end.x[A0] == layout.measure_frame.size_of), "the first page")
        p.writes_only(end, (next_page, bv(0), (0,)))
        p.calls_are(end, [("private_begin", sets.initial(which, 8 * (A0 + 1)), first, count)])


PROOFS = [trap_framed, frames_read, lists_changed, answer_written, enclave_entered, host_comes_back, pages_known, page_read, pages_zeroed,
          pages_asked]
