"""A fact of the whole image: how deep stacks get, computed from the machine code of the firmware and of the core."""
import re

from proof import RA, SP
from rv64 import COMPARE, MASK, Failed, signed

# The most often that a recursive function can be on a stack at once, and why. A cycle of calls counts as its deepest frames, that often.
RECURSIONS = {
    "put_digits": (20, "a number of 64 bits has at most twenty decimal digits"),
    "host_tree::reserved::put_hex": (16, "and sixteen hexadecimal ones"),
    "device_tree::nesting::nodes_len": (65, "a tree of more than 64 levels is refused"),
    "device_tree::nodes::note_nodes": (65, "the same"),
    "host_tree::walk::put_nodes": (65, "the same"),
    "device_tree::ways::Way::step": (65, "the same: one bus for each level"),
    "prefix_tree::(map_tree::build_block|overwrite::overwritten_block)": (46, "a block of 2^44 pages has 45 levels"),
    "entry_planner::(costs::add_costs|placement::place_entries)::<.*>": (46, "the same"),
    "std_alloc::rc::counts::(Rc::drop|drop_last)::<.*>": (65, "counted are only halves of blocks and the buses above a node, one for each level of a tree"),
    "core::slice::sort::unstable::quicksort::<.*>": (34, "a heap sort takes over after twice the logarithm of the length, and the heap holds fewer than 2^16 entries"),
    "core::slice::sort::pivot::median_of_medians::<.*>": (7, "each level has an eighth of the elements"),
}
# Functions that do not return: the bytes after a call of one do not belong to the caller.
NEVER_RETURN = ("end_board", "end_because", "begin_anew", "power_off", "start_again", "ended", "trapped", "served")
CALLER_SAVED = (1, 5, 6, 7, *range(10, 18), *range(28, 32))


def constant_after(insn, known, address):
    """The value of the register that an instruction sets, if it is a constant."""
    if insn.name == "lui":
        return insn.imm & MASK
    if insn.name == "auipc":
        return address + insn.imm & MASK
    if insn.name in ("addi", "addiw") and insn.rs1 in known:
        total = known[insn.rs1] + insn.imm & MASK
        return total if insn.name == "addi" else signed(total & 0xffffffff, 32) & MASK
    if insn.name == "slli" and insn.rs1 in known:
        return known[insn.rs1] << insn.imm & MASK
    if insn.name == "add" and insn.rs1 in known and insn.rs2 in known:
        return known[insn.rs1] + known[insn.rs2] & MASK
    return None


class Depths:
    """The frame of each function, and the depth at which it calls each other one."""

    def __init__(self, machine):
        self.m, self.found, self.image = machine, {}, machine.image
        self.starts = [at for at, _ in self.image.starts if self.image.text_base <= at < self.image.text_base + len(self.image.text)]

    def function(self, address):
        """The start of the function that an address belongs to."""
        return max(it for it in self.starts if it <= address)

    def of(self, start):
        """The deepest point of a function itself, and {callee: the depth at which it is called}."""
        if start not in self.found:
            self.found[start] = self.walked(start)
        return self.found[start]

    def walked(self, start):
        end = min([it for it in self.starts if it > start], default=self.image.text_base + len(self.image.text))
        depths, calls, deepest, waiting, tables = {}, {}, 0, [(start, 0, {0: 0})], []

        def calls_at(target, depth):
            callee = self.function(target)
            calls[callee] = max(calls.get(callee, 0), depth)
        while waiting or tables:
            if not waiting:  # a jump through a table reaches what nothing else does
                depth = tables.pop()
                at = next((it for it in self.addresses(start, end) if it not in depths), None)
                if at is None:
                    continue
                tables.append(depth)
                waiting.append((at, depth, {0: 0}))
            at, depth, known = waiting.pop()
            if not start <= at < end:
                calls_at(at, depth)
                continue
            if at in depths:
                if depths[at] != depth:
                    raise Failed(f"at {self.image.place(at)} the stack is {depths[at]} or {depth} bytes deep")
                continue
            depths[at] = depth
            if int.from_bytes(self.m.text[at - self.m.text_base:][:2], "little") == 0:
                continue  # the illegal instruction that a compiler puts where nothing comes
            insn, known = self.m.insn_at(at), dict(known)
            after, value = at + insn.size, constant_after(insn, known, at)
            if insn.rd == SP and insn.name not in ("sd", "sw", "sh", "sb", "fsd", "fsw", "fld", "flw") and insn.name not in COMPARE:
                depth = self.moved(insn, known, depth, at)
                deepest = max(deepest, depth)
            elif insn.rd:
                known.pop(insn.rd, None)
                if value is not None and insn.rs1 != SP:
                    known[insn.rd] = value
            if insn.name == "jal" and insn.rd in (RA, 31):
                calls_at(at + insn.imm, depth)
                if self.image.function_at(at + insn.imm) in NEVER_RETURN:
                    continue
                waiting.append((after, depth, {it: by for it, by in known.items() if it not in CALLER_SAVED}))
            elif insn.name == "jal":
                waiting.append((at + insn.imm, depth, known))
            elif insn.name == "jalr" and insn.rd == RA:
                if insn.rs1 not in known and not (insn.rs1 == RA and RA in depths):
                    raise Failed(f"at {self.image.place(at)} a call of an unknown function")
                calls_at(known[insn.rs1] + insn.imm & MASK, depth)
                waiting.append((after, depth, {it: by for it, by in known.items() if it not in CALLER_SAVED}))
            elif insn.name == "jalr" and insn.rs1 in known:
                waiting.append((known[insn.rs1] + insn.imm & MASK, depth, known))
            elif insn.name == "jalr" and insn.rs1 not in (RA, 31):
                tables.append(depth)
            elif insn.name in COMPARE:
                waiting += [(at + insn.imm, depth, known), (after, depth, known)]
            elif insn.name not in ("jalr", "mret"):
                waiting.append((after, depth, known))
        return deepest, calls

    def addresses(self, start, end):
        at = start
        while at < end - 1:
            insn = self.m.insn_or_none(at)
            if insn is None:
                return
            yield at
            at += insn.size

    def moved(self, insn, known, depth, at):
        """The depth after the stack pointer has moved."""
        if insn.name == "addi" and insn.rs1 == SP:
            return depth - insn.imm
        if insn.name == "add" and SP in (insn.rs1, insn.rs2):
            other = insn.rs2 if insn.rs1 == SP else insn.rs1
            if other in known:
                return depth - signed(known[other], 64)
        if insn.name == "sub" and insn.rs1 == SP and insn.rs2 in known:
            return depth + signed(known[insn.rs2], 64)
        raise Failed(f"at {self.image.place(at)} the stack pointer moves by an unknown number")

    def total(self, entry, ends=()):
        """The deepest that the stack gets below an entry point. Those of `ends` go on with another stack."""
        order, on_stack, totals = [], {}, {}
        self.strong(entry, set(ends), order, on_stack, {}, [0], [])
        for group in order:  # callees first
            inside, outside = 0, 0
            for start in group:
                deepest, calls = self.of(start)
                inside = max(inside, deepest)
                outside = max([outside] + [depth + totals[callee] for callee, depth in calls.items() if callee not in group and callee not in ends])
            times = 1
            if len(group) > 1 or group[0] in self.of(group[0])[1]:
                times = self.bound(group)
            step = sum(max([0] + [depth for callee, depth in self.of(start)[1].items() if callee in group]) for start in group)
            for start in group:
                totals[start] = (times - 1) * step + max(inside, outside)
        return totals[entry]

    def bound(self, group):
        """How often a cycle of calls can be on the stack."""
        names = [self.image.function_at(it) for it in group]
        for pattern, (times, _) in RECURSIONS.items():
            if any(re.fullmatch(pattern, it) for it in names):
                return times
        raise Failed(f"calls without a bound: {', '.join(names)}")

    def strong(self, start, ends, order, index, low, count, stack):
        """Tarjan's components of the graph of calls, callees first."""
        index[start] = low[start] = count[0]
        count[0] += 1
        stack.append(start)
        for callee in self.of(start)[1]:
            if callee in ends:
                continue
            if callee not in index:
                self.strong(callee, ends, order, index, low, count, stack)
                low[start] = min(low[start], low[callee])
            elif callee in stack:
                low[start] = min(low[start], index[callee])
        if low[start] == index[start]:
            group = []
            while not group or group[-1] != start:
                group.append(stack.pop())
            order.append(group)


def stacks_fit(p):
    """Each entry point fits its stack, by the frames and the calls of all code that it can reach: serve_alone and trapped the hart's own
    stack, and boot and the proved loop the monitor's without its last 8 KiB, whose lowest word `check_stack` looks at. RECURSIONS bounds
    the functions that call themselves."""
    state, depths = p.begin("serve_alone"), Depths(p.m)
    own, guard = p.layout.world.registers - 8, p.address("stack_guard")  # the hart's lowest word is where it gives up reservations
    ends = [p.address(it) for it in ("run_world", "park", "enter_world")]
    whole = p.address("stack_end") - guard
    for entry, room in (("serve_alone", own), ("trapped", own), ("boot", whole), ("pmpmon_serve", whole)):
        depth = depths.total(p.address(entry), ends)
        p.fact(state, depth <= room, f"{entry} takes {depth} bytes of a stack of {room}")


PROOFS = [stacks_fit]
