"""A proof: it runs code of the ELF from every state that its premises allow, and states facts of each state in which a path ends."""
import re

import z3

from contracts import contracts_of
from rv64 import COMPARE, LOADS, Failed, Machine, Space, State, bv, constant_difference

# Callee-saved registers. No code of the monitor names x3 and x4 (see `only_worlds_have_globals`).
SAVED_REGISTERS = [2, 8, 9] + list(range(18, 28))
MHARTID, FCSR, MISA, MSCRATCH, MCOUNTEREN, MIP, TIME = 0xf14, 3, 0x301, 0x340, 0x306, 0x344, 0xc01
RA, SP, S0, A0, A1, A2 = 1, 2, 8, 10, 11, 12
STACK_SIZE = 1024
MOST_HARTS, MOST_ENCLAVES = 4, 64


def var(name, width=64):
    return z3.BitVec(name, width)


def bits_of(word, offset, size):
    """Extracts the bytes from `offset` on of the word of eight bytes that contains them."""
    low = 8 * (offset % 8)
    return z3.simplify(z3.Extract(low + 8 * size - 1, low, word))


def number_text(*letters):
    """Returns a tag of a frame as a number."""
    return int.from_bytes("".join(letters).encode(), "little")


class Proof:
    """A machine with the firmware's data. It counts the facts that were proved, and notes the contracts that were assumed and kept."""

    def __init__(self, image, layout, patches=None):
        self.m, self.layout, self.facts, self.paths = Machine(image, patches), layout, 0, 0
        self.contracts, self.assumed, self.kept, self.proved = contracts_of(layout), set(), set(), set()
        self.hart = var("hart")

    # Spaces.

    def address(self, name):
        """Returns the address of a symbol; that of a local static variable has a number at its end, and that of a function of which the
        compiler made a variant has the kind of the variant too."""
        if name in self.m.symbols:
            return self.m.symbols[name]
        variant = re.compile(re.escape(name) + r"(\.(constprop|isra|part))?\.\d+")
        found = [at for symbol, at in self.m.symbols.items() if variant.fullmatch(symbol)]
        if len(found) != 1:
            raise Failed(f"the ELF has {len(found)} symbols {name}")
        return found[0]

    def space(self, name, *indices, **more):
        """Declares a variable of the firmware as a space, with the terms by which its elements are named."""
        for space in self.m.spaces:
            if space.name == name:
                return space
        size, count = self.layout.variables[name]
        return self.m.add(Space(name, self.address(name), size, count, list(indices) or None, **more))

    def small(self, name):
        """Declares a variable of less than eight bytes: returns the space of the words around it, and its offset there."""
        at = self.address(name)
        size, count = self.layout.variables[name]
        base, end = at & ~7, at + size * count + 7 & ~7
        for space in self.m.spaces:
            if z3.is_bv_value(space.base) and space.base.as_long() == base and space.size == end - base:
                return space, at - base
        return self.m.add(Space(f"around {name}", base, end - base)), at - base

    def worlds(self, *indices):
        return self.space("worlds", *(indices or [self.hart]))

    def sets(self, *indices):
        return self.space("register_sets", *indices)

    def room(self, name, size, **more):
        """Declares a space at any place."""
        return self.m.add(Space(name, var(name), size, **more))

    def clint(self):
        """The CLINT's words that make software interrupts."""
        return self.m.add(Space("clint", self.layout.assembly.CLINT, 16, device=True))

    def world_at(self, index):
        return bv(self.address("worlds")) + self.layout.world.size_of * index

    def set_at(self, index):
        return bv(self.address("register_sets")) + self.layout.registers.size_of * index

    # Words.

    def first(self, space, offset, size=8, index=None):
        """Returns the bytes of an object at the start of the run."""
        word = space.initial(bv(0) if index is None else index, offset & ~7)
        return word if size == 8 else bits_of(word, offset, size)

    def now(self, state, space, offset, size=8, index=None):
        """Returns the bytes of an object in a state."""
        index = bv(0) if index is None else index
        word = state.final(space, index, offset & ~7)
        return word if size == 8 else bits_of(word, offset, size)

    def put(self, state, space, offset, value, index=None):
        """States as a premise that a word of an object has this value at the start."""
        index = self.m.member(state, space, bv(0) if index is None else index)
        state.memory[(space.name, index.get_id(), offset)] = value

    def put_bytes(self, state, space, offset, size, value, index=None):
        """The same for bytes within a word."""
        index = bv(0) if index is None else index
        word = state.word(space, self.m.member(state, space, index), offset & ~7)
        low = 8 * (offset % 8)
        parts = ([z3.Extract(63, low + 8 * size, word)] if low + 8 * size < 64 else []) + [value]
        parts += [z3.Extract(low - 1, 0, word)] if low else []
        self.put(state, space, offset & ~7, z3.simplify(z3.Concat(*parts)), index)

    # Running.

    def begin(self, function, *arguments):
        """Calls a function on any hart, with a stack, any registers, any control registers and any memory."""
        state = State(self.address(function))
        state.path.append(z3.ULT(self.hart, MOST_HARTS))
        state.csr[MHARTID] = self.hart
        self.m.ends["return"] = state.x[RA] = z3.Concat(z3.BitVec("ra", 63), z3.BitVecVal(0, 1))
        self.m.add(Space("stack", state.x[SP] - STACK_SIZE, STACK_SIZE))
        for n, argument in enumerate(arguments):
            state.x[A0 + n] = argument
        self.called, self.old = function, state.copy()
        return state

    def again(self):
        """Returns a proof for another run of code. `take` adds its result to this one."""
        return Proof(self.m.image, self.layout, self.m.patches)

    def take(self, other):
        self.facts, self.paths, self.m.steps = self.facts + other.facts, self.paths + other.paths, self.m.steps + other.m.steps
        self.m.covered |= other.m.covered
        self.assumed |= other.assumed
        self.kept |= other.kept

    def run(self, state, most=5000):
        """Follows every path from a state. Fails if no state keeps the premises."""
        for space in self.m.spaces:  # a premise of each symbolic base: aligned, and below the top of the address space
            if not z3.is_bv_value(space.base):
                state.path += [space.base & 7 == 0, z3.ULE(space.base, 1 << 56)]
        self.start = state.copy()
        if self.m.check(state.path) is None:
            raise Failed("no state keeps the premises")
        ends = self.m.run(state, most)
        self.paths += len(ends)
        if not ends:
            raise Failed("no path ends")
        return ends

    def go_on(self, state, at):
        """Continues at an address from a state that a fact describes, as at the head of a loop. Nothing is known of the registers that a
        function need not preserve, unless the fact sets them afterwards."""
        inner = state.copy()
        inner.end, inner.log, inner.pc, inner.steps = None, [], at, 0
        for n in set(range(1, 32)) - set(SAVED_REGISTERS):
            inner.x[n] = self.m.new("any")
        return inner

    def round(self, state):
        """Runs from the head of a loop, which is an end, to its next arrival there or to another end."""
        state.leaves = True
        ends = self.m.run(state)
        self.paths += len(ends)
        if not ends:
            raise Failed("no path ends")
        return ends

    def accelerated(self, arrival):
        """Returns the state at the head of a loop after any number k of rounds, k, and by how much a round changes each register. It is a
        guess from the first round: a register that changes by a number changes by it k times, and any other one is unknown. A fact
        has to prove the guess of every further round, with `keeps_pattern`. Memory that a round writes is the fact's own business."""
        trial = arrival.copy()
        trial.end, trial.log = None, []
        again = [it for it in self.round(trial) if it.end == arrival.end]
        k, steps, state = self.m.new("k"), {}, arrival.copy()
        state.end, state.log, state.steps = None, [], 0
        for n in range(1, 32):
            found = {constant_difference(it.x[n], arrival.x[n]) for it in again}
            if len(found) == 1 and None not in found:
                steps[n] = found.pop()
                state.x[n] = z3.simplify(arrival.x[n] + steps[n] * k)
            elif again:
                state.x[n] = self.m.new("scratch")
        return state, k, steps

    def keeps_pattern(self, end, arrival, k, steps):
        """Proves the guess of `accelerated` for the round after k rounds."""
        self.same(end, [(end.x[n], arrival.x[n] + step * (k + 1)) for n, step in steps.items()], "the registers of the next round")

    # Facts.

    def fact(self, state, claim, what):
        if not self.m.entails(state.path, z3.BoolVal(claim) if isinstance(claim, bool) else claim):
            raise Failed(what)
        self.facts += 1

    def same(self, state, pairs, what):
        """Proves equations, all at once."""
        pairs = [(a, b) for a, b in pairs]
        self.fact(state, z3.And(*[a == b for a, b in pairs]), what)
        self.facts += len(pairs) - 1

    def number_of(self, state, term, numbers):
        """Returns the number, of those given, that a term equals."""
        for number in numbers:
            if self.m.entails(state.path, term == number):
                return number
        raise Failed(f"{term} is not one number")

    def keeps_abi(self, state):
        self.same(state, [(state.x[n], self.old.x[n]) for n in SAVED_REGISTERS], "a callee-saved register changes")

    def changed_words(self, state):
        """Yields each word of memory that a state has written, with its index and its value before."""
        for (name, index, offset), term in state.memory.items():
            if name == "stack":
                continue
            space = next(it for it in self.m.spaces if it.name == name)
            member = next(it for it in state.members[name] if it.get_id() == index)
            before = self.start.memory.get((name, index, offset))
            if before is None:
                before = state.unwritten(space, member, offset)
            yield space, member, offset, term, before

    def writes_only(self, state, *allowed):
        """Proves that memory is unchanged except for the stack and what is given: (space, index, offsets). An index of None stands for all
        objects; what an assumed callee may have written needs that."""
        for space, member, offset, term, before in self.changed_words(state):
            if not any(space.name == a[0].name and offset in a[2] and (
                    a[1] is None or member.get_id() == a[1].get_id() or self.m.entails(state.path, member == a[1])) for a in allowed):
                self.fact(state, term == before, f"{space.name}+{offset} is changed")
        for name, offset in state.lost:
            if not any(name == a[0].name and a[1] is None and offset in a[2] for a in allowed):
                raise Failed(f"a callee may change {name}+{offset}")

    def csrs_only(self, state, *allowed):
        for number, term in state.csr.items():
            if number not in allowed:
                self.fact(state, term == self.start.get_csr(number), f"CSR {number:#x} is changed")

    def calls_are(self, state, expected):
        """Proves which assumed functions are called, with which arguments and in which order."""
        calls = [it[1:] for it in state.log if it[0] == "call"]
        self.fact(state, z3.BoolVal([it[0] for it in calls] == [it[0] for it in expected]), f"it calls {[it[0] for it in calls]}")
        for did, should in zip(calls, expected):
            self.fact(state, z3.And(*[a == b for a, b in zip(did[1:], should[1:])]), f"the arguments of {did[0]}")

    def loop_heads(self, function):
        """Returns the places in a function to which a branch goes back."""
        begin = at = self.address(function)
        heads, end = set(), next(start for start, _ in self.m.image.starts if start > at)
        while at < end:
            insn = self.m.insn_at(at)
            if (insn.name in COMPARE or insn.name == "jal" and insn.rd == 0) and begin <= at + insn.imm <= at:
                heads.add(at + insn.imm)
            at += insn.size
        return sorted(heads)

    def wait_head(self, function):
        """Returns the head of the shortest loop without a call in it: one that waits for another hart."""
        begin = at = self.address(function)
        found, end, called = [], next(start for start, _ in self.m.image.starts if start > at), begin
        while at < end:
            insn = self.m.insn_at(at)
            called = at if insn.name in ("jal", "jalr") and insn.rd else called
            if insn.name in COMPARE and called < at + insn.imm <= at:
                found.append((-insn.imm, at + insn.imm))
            at += insn.size
        if not found:
            raise Failed(f"{function} does not wait")
        return min(found)[1]

    def loop_head(self, function):
        """Returns the last of them."""
        if not self.loop_heads(function):
            raise Failed(f"{function} has no loop")
        return self.loop_heads(function)[-1]

    # Contracts.

    def assume(self, name, effect=None):
        """Replaces a callee by its contract: what it may write is lost, what it may change of control registers too, and registers that a
        function need not preserve. `effect` may constrain the state further; the caller's docstring says by which fact."""
        contract = self.contracts[name]
        self.assumed.add(name)

        def hook(state):
            link, arguments = state.x[RA], [state.x[A0 + n] for n in range(contract.arguments)]
            state.log.append(("call", name, *arguments))
            for space in self.m.spaces:
                for space_name, first, size in contract.writes:
                    if space.name == space_name and space.writable:
                        self.m.fresh += 1
                        state.lose(space, first, space.size if size is None else size, self.m.fresh)
            for number in contract.csrs:
                state.csr[number] = self.m.new(f"csr{number:#x}")
            for n in set(range(1, 32)) - set(SAVED_REGISTERS):
                state.x[n] = self.m.new(f"lost{n}")
            if contract.returns:
                state.x[A0] = contract.returns(*arguments)
            if effect:
                effect(state, *arguments)
            self.m.jump(state, link)
        self.m.hooks[self.address(name)] = hook

    def note_at(self, name, look):
        """Notes in the log what `look` finds in each state in which an assumed callee is reached, before the callee changes it."""
        hook = self.m.hooks[self.address(name)]

        def noting(state):
            state.log.append(("found", look(state)))
            hook(state)
        self.m.hooks[self.address(name)] = noting

    def keeps_contract(self, state, name=None, block="block"):
        """Proves that a function which returns has kept its contract: the one by which `assume` replaces it. `block` says in which space the
        blocks lie that it passes to memset and memcpy."""
        name = name or self.called
        contract = self.contracts[name]
        self.keeps_abi(state)
        self.csrs_only(state, *contract.csrs)
        for space, _, offset, term, before in self.changed_words(state):
            kept = [n for n in range(8) if not contract.may_write(space, offset + n)]
            self.fact(state, z3.And(*[z3.Extract(8 * n + 7, 8 * n, term) == z3.Extract(8 * n + 7, 8 * n, before) for n in kept]),
                      f"{space.name}+{offset} is changed, against the contract of {name}")
        for callee in {it[1] for it in state.log if it[0] == "call"}:
            if not self.contracts[callee].with_block(block).is_within(contract):
                raise Failed(f"{callee} may change what the contract of {name} excludes")
        if contract.returns:
            self.fact(state, state.x[A0] == contract.returns(*[self.old.x[A0 + n] for n in range(contract.arguments)]),
                      f"the result of {name}")
        self.kept.add(name)


def registers_of(insn):
    """Returns the integer registers that an instruction names."""
    name = insn.name
    if name in ("fence", "fence.i", "mret", "wfi", "sfence.vma", "hfence.gvma"):
        return set()
    if name in ("lui", "auipc", "jal", "fmv.x.d") or name[:3] == "csr" and name[-1] == "i":
        return {insn.rd}
    if name in ("fld", "flw", "fsd", "fsw"):
        return {insn.rs1}
    if name in ("sb", "sh", "sw", "sd") or name in COMPARE:
        return {insn.rs1, insn.rs2}
    return {insn.rd, insn.rs1} | (set() if name in LOADS + ["jalr"] or name[-1] == "i" or name[-2:] == "iw" or name[:3] == "csr"
                                  else {insn.rs2})
