"""What a fact may assume of a callee instead of running it. The callee's own fact proves the same contract (`Proof.keeps_contract`), and
run.py fails if a fact assumes a contract that no fact of this run has proved and that has no stated reason."""
import z3

from rv64 import MSTATUS

PMP = (0x3a0, 0x3a2, *range(0x3b0, 0x3c0))
MIP, FCSR, STIMECMP = 0x344, 3, 0x14d
# satp, mie, scounteren, senvcfg, hstatus, medeleg, mideleg: words 1 to 7 of control words.
CONTROL = {"satp": 0x180, "mie": 0x304, "scounteren": 0x106, "senvcfg": 0x10a, "hstatus": 0x600, "medeleg": 0x302, "mideleg": 0x303}
TO_HANDLER = (0x141, 0x142, 0x143, 0x600)


class Contract:
    """What a function may change: `writes` has (space, first byte, size) of every object of a space, `csrs` the control registers. `returns`
    is its result as a term of its arguments. `reason` says why no fact proves the contract."""

    def __init__(self, arguments, writes=(), csrs=(), returns=None, reason=None):
        self.arguments, self.writes, self.csrs, self.returns, self.reason = arguments, list(writes), tuple(csrs), returns, reason

    def may_write(self, space, byte):
        return any(name == space.name and first <= byte < first + (space.size if size is None else size) for name, first, size in self.writes)

    def with_block(self, space):
        """The contract with the space in which the block lies that an argument names."""
        writes = [(space if name == "block" else name, first, size) for name, first, size in self.writes]
        return Contract(self.arguments, writes, self.csrs, self.returns, self.reason)

    def is_within(self, other):
        """Whether another contract allows all that this one does."""
        end = lambda size: 1 << 64 if size is None else size
        covered = all(any(name == it[0] and it[1] <= first and first + end(size) <= it[1] + end(it[2]) for it in other.writes)
                      for name, first, size in self.writes)
        return covered and set(self.csrs) <= set(other.csrs)


def contracts_of(layout):
    """The contracts, with the offsets of a layout. The space `pages` stands for memory outside the monitor, and `block` for the bytes that
    the first argument names."""
    world, registers = layout.world, layout.registers
    floats = ("register_sets", registers.f, registers.size_of - registers.f)
    hosts = ("worlds", world.host, layout.control_words.size_of)
    stale, out = ("worlds", world.is_stale, 2), ("worlds", world.is_out, 4)
    asked = [("worlds", world.requests, 4), ("worlds", world.fences_made, 4)]
    ranges, pages, block = ("private_ranges", 0, None), ("pages", 0, None), ("block", 0, None)
    control = (MSTATUS, *CONTROL.values())
    changes = [out, stale, *asked, ("host_bank", 0, None)]  # the last where the hart stands still: by the hart that stopped it
    served = [("worlds", world.action, layout.action.size_of), *changes, ("worlds", world.fences_asked, 4),
              ("register_sets", registers.x + 80, 16), ("register_sets", registers.pc, 8)]
    heap = [(it, 0, 8) for it in ("heap_calls", "heap_blocks", "heap_most")] + [("kept", 0, None)]
    arena = [(it, 0, 8) for it in ("heap_most", "arena", "arena_size")] + [("kept", 0, None)]
    found, tests = ("found", 0, None), [("given", 0, None), ("got", 0, None)]
    support = [("worlds", world.lacks, 4), ("worlds", world.floats_kind, 2), ("around has_stimecmp", 0, None)]
    trial = (MSTATUS, 0x341, 0x342, 0x343)  # by a look at a register that may be missing, which leaves mtvec as it was
    entered = [("worlds", 0, None), ("register_sets", 0, None), ("harts", 0, None)]
    return {
        "take": Contract(1, [*heap, ("fresh", layout.block.__dict__["class"], 8)]),
        "begin_heap": Contract(2, arena),
        "host_memory_at": Contract(1),
        "read_tree": Contract(1, [found, *heap]),
        "find_board": Contract(1, [found, *heap, *arena, ("platform", 0, 8)]),
        "differ": Contract(3),
        "read_bank": Contract(1, [block]),
        "clear_beyond": Contract(0, [], (*trial, *range(0x3a0, 0x3b0, 2))),
        "check_entries": Contract(0, tests, (*trial, *PMP, 0x747, *range(0x3a0, 0x3b0, 2))),
        "control_find": Contract(0, support, (*trial, 0x306, 0x30a, 0x30c, 0x30d, 0x30e, 0x30f, 0x10c, FCSR)),
        "control_at_start": Contract(0, [hosts, floats], (*control, MIP, STIMECMP, FCSR)),
        "floats_at_start": Contract(1, [floats], (MSTATUS, FCSR)),
        "host_timer_begin": Contract(0, [], (MIP, STIMECMP)),
        "tell_start": Contract(1),
        "unpark": Contract(1, [("worlds", world.is_wanted, 4)]),
        "start_others": Contract(0, [("start", 0, None)]),
        "put_trap": Contract(3, [("frame", 0, None)], returns=lambda world, tag, frame: z3.BitVecVal(layout.trap_frame.size_of, 64)),
        "memset": Contract(3, [block], returns=lambda to, value, n: to),
        "memcpy": Contract(3, [block], returns=lambda to, source, n: to),
        "is_worlds": Contract(1),
        "make_zero": Contract(2, [pages]),
        "private_begin": Contract(3, [ranges]),
        "private_end": Contract(2, [ranges, pages]),
        "is_private_page": Contract(2),
        "forget_private": Contract(0, [ranges, pages, ("tried", 0, 8)]),
        "forget": Contract(0, [ranges, pages, ("tried", 0, 8), ("register_sets", 0, None), out, ("worlds", world.ticket, 8),
                                ("stopping", 0, 8), ("around is_ending", 0, 8), ("around has_no_registers", 0, 8)]),
        "floats_change": Contract(3, [floats], (MSTATUS, FCSR)),
        "control_enter": Contract(3, [hosts], control),
        "control_leave": Contract(1, [], control),
        "control_to_handler": Contract(1, [("register_sets", registers.pc, 8)], (MSTATUS, *TO_HANDLER)),
        "registers_change": Contract(2, [("register_sets", 0, None)], returns=lambda written, answer: written),
        "change_lists": Contract(1, [("host_bank", 0, None), ("enclave_banks", 0, None), stale, ("stopping", 0, 8)], (MIP,)),
        "stop_harts": Contract(1, [("stopping", 0, 8)]),
        "load_bank": Contract(1, [], PMP),
        "take_requests": Contract(1, asked, (MIP,)),
        "stand_still": Contract(1, changes, (MIP,)),
        "load_changes": Contract(1, changes, (*PMP, MIP)),
        "host_timer_at": Contract(1, [], (MIP, STIMECMP)),
        "host_timer_came": Contract(0, [], (MIP,)),
        "fence_harts": Contract(2, [("worlds", world.requests, 4), ("worlds", world.fences_asked, 4), ("worlds", world.fences_made, 4)]),
        "interrupt_harts": Contract(1, [("worlds", world.requests, 4)], (MIP,)),
        **{it: Contract(1) for it in ("put_char", "put", "put_digits", "put_number", "put_hex")},
        "serve_alone": Contract(1, served, (MSTATUS, *TO_HANDLER, MIP, STIMECMP, *PMP)),
        **{it: Contract(1, entered, reason="other harts run meanwhile: `monitor_left_and_taken` says what the next one finds") for it in ("run_world", "park")},
        "next_trap": Contract(1, reason="the hart runs a world here: any trap may come"),
        "read_page": Contract(1, [("next_page", 0, 8), block]),
        "pmpmon_decide": Contract(7, [("worlds", world.action, layout.action.size_of)],
                                  reason="it belongs to the proved core, which writes the action and the copy of the states alone"),
        "pmpmon_find_platform": Contract(3, [found, *heap], reason="it belongs to the proved core, which writes the platform and its heap alone"),
        "pmpmon_put_host_tree": Contract(5, heap, reason="it belongs to the proved core, which writes the tree and its heap alone"),
    }
