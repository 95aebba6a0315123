#!/usr/bin/env python3
"""Compares the executor with QEMU's decoder and semantics (unicorn), one instruction at a time, on random states.

  tests/machine_code/crosscheck.py ELF [ROUNDS]

For each kind of instruction in the ELF's code it tries ROUNDS random states (200), half with encodings of the code itself and half with
other registers and constants; then random halfwords that begin a compressed instruction. The executor must refuse what QEMU refuses. It
may refuse more, since then the code is not proved: reserved encodings, and fences that name a register.
"""
import random
import sys
from collections import Counter

import unicorn
import z3
from unicorn import riscv_const as rv

from rv64 import LOADS, MSTATUS, Failed, Image, Machine, Space, State, bv, decode, number_of

CODE, DATA, SIZE = 0x10000000, 0x20000000, 0x10000
MIDDLE = CODE + (2 << 20)  # from here a branch or a jump stays in the code
STORES = ("sb", "sh", "sw", "sd", "fsd", "fsw")
# They change no register and no memory, except for mret, which leaves the mode. Their place in the order of accesses is what facts state.
NOT_COMPARED = ("mret", "wfi", "sfence.vma", "hfence.gvma", "fence", "fence.i")
MSCRATCH = 0x340
REFUSED = "the executor alone refuses it"
INTERESTING = (0, 1, -1, 1 << 63, (1 << 63) - 1, 1 << 31, -(1 << 31), 0xffffffff)
# Kinds that other builds of the image have: compilers choose among them.
MORE = [("mulh", 1, 1, 0x33), ("mulhsu", 2, 1, 0x33), ("mulhu", 3, 1, 0x33), ("div", 4, 1, 0x33), ("rem", 6, 1, 0x33), ("divw", 4, 1, 0x3b),
        ("remw", 6, 1, 0x3b)]


def width_of(name):
    if name[-2:] in (".d", ".w"):
        return 8 if name[-1] == "d" else 4
    return 1 << "bhwd".index(name[1 + (name[0] == "f")])


def accesses_memory(name):
    return name in LOADS or name in STORES or name in ("fld", "flw") or name[-2:] in (".d", ".w")


def decoded(word):
    try:
        return decode(word)
    except Failed:
        return None


class Comparison:
    """A hart of QEMU and one of the executor, which get the same states."""

    def __init__(self, elf, seed):
        self.chance, self.machine, self.at = random.Random(seed), Machine(Image(elf)), MIDDLE
        self.tried, self.refused, self.wrong = Counter(), 0, []
        self.kinds = {}
        self.find_kinds()
        self.machine.spaces = [Space("data", DATA, SIZE, content=b"")]
        self.begin_qemu()

    def find_kinds(self):
        """Collects the encodings of each kind of instruction in the code."""
        at, text, base = self.machine.text_base, self.machine.text, self.machine.text_base
        while at < base + len(text) - 4:
            word = int.from_bytes(text[at - base:][:4], "little")
            insn = decoded(word)
            if insn:
                self.kinds.setdefault((insn.name, insn.size), set()).add(word if insn.size == 4 else word & 0xffff)
            at += insn.size if insn else 2
        for name, f3, f7, opcode in MORE:
            self.kinds.setdefault((name, 4), set()).add(f7 << 25 | 12 << 20 | 11 << 15 | f3 << 12 | 10 << 7 | opcode)

    def begin_qemu(self):
        """Makes a new hart: one that has trapped is of no more use."""
        self.qemu = unicorn.Uc(unicorn.UC_ARCH_RISCV, unicorn.UC_MODE_RISCV64)
        self.qemu.mem_map(CODE, 6 << 20)
        self.qemu.mem_map(DATA, SIZE)
        self.qemu.reg_write(rv.UC_RISCV_REG_MSTATUS, 3 << 13)

    def value(self):
        return (self.chance.choice(INTERESTING) if self.chance.random() < 0.3 else self.chance.getrandbits(64)) & (1 << 64) - 1

    def state_for(self, insn):
        """Chooses registers and memory. Those by which an instruction accesses memory or jumps name mapped places, whatever its offset."""
        x, f = [0] + [self.value() for _ in range(31)], [self.value() for _ in range(32)]
        if insn and accesses_memory(insn.name):
            offset = self.chance.randrange(0x1000, 0x1100, width_of(insn.name))
            x[insn.rs1] = DATA + offset - (insn.imm if insn.name[-2] != "." else 0) & (1 << 64) - 1
        if insn and insn.name == "jalr" and insn.rs1:
            x[insn.rs1] = CODE + 0x1000 + self.chance.randrange(SIZE)
        return x, f, self.chance.randbytes(0x1200), self.value()

    def executed_by_qemu(self, word, x, f, data, scratch):
        """Executes one instruction, and returns whether QEMU does."""
        self.at += 8
        if self.at > MIDDLE + (1 << 20):
            self.at = MIDDLE + 8
            self.begin_qemu()
        self.qemu.mem_write(self.at, word.to_bytes(4, "little"))
        self.qemu.mem_write(DATA, data)
        for n in range(1, 32):
            self.qemu.reg_write(rv.UC_RISCV_REG_X0 + n, x[n])
        for n in range(32):
            self.qemu.reg_write(rv.UC_RISCV_REG_F0 + n, f[n])
        self.qemu.reg_write(rv.UC_RISCV_REG_MSCRATCH, scratch)
        try:
            self.qemu.emu_start(self.at, 0, count=1)
        except unicorn.UcError:
            return False
        return True

    def difference(self, word):
        """Returns None if both do the same, REFUSED, what differs, or "" if this encoding cannot be tried."""
        insn = decoded(word)
        if insn and (insn.name in NOT_COMPARED or insn.name[:3] in ("lr.", "sc.")):
            return ""  # (lr and sc are no pair here)
        if insn and insn.name[:3] == "csr" and insn.imm != MSCRATCH:
            word = word & 0xfffff | MSCRATCH << 20
            insn = decoded(word)
        if insn and accesses_memory(insn.name) and not insn.rs1:
            return ""
        x, f, data, scratch = self.state_for(insn)
        is_executed = self.executed_by_qemu(word, x, f, data, scratch)
        if not is_executed:
            self.begin_qemu()
            if insn is None:
                return None
            if not self.executed_by_qemu(word, x, f, data, scratch):  # a hart that has executed nothing else decides
                self.begin_qemu()
                return "QEMU alone refuses it"
        if insn is None:
            self.begin_qemu()
            return REFUSED
        return self.compared(word, x, f, data, scratch)

    def compared(self, word, x, f, data, scratch):
        """Executes an instruction in the executor, and compares all registers and memory."""
        state = State(self.at)
        state.x, state.f = [bv(it) for it in x], [bv(it) for it in f]
        state.csr = {MSCRATCH: bv(scratch), MSTATUS: bv(3 << 13)}
        self.machine.spaces[0].content, self.machine.decoded = data, {}
        self.machine.text_base, self.machine.text = self.at, bytearray(word.to_bytes(4, "little"))
        try:
            self.machine.step(state)
        except Failed as failed:
            return str(failed)
        qemu = self.qemu
        pairs = [("pc", qemu.reg_read(rv.UC_RISCV_REG_PC), state.pc & (1 << 64) - 1),
                 ("mscratch", qemu.reg_read(rv.UC_RISCV_REG_MSCRATCH), number_of(state.csr[MSCRATCH]))]
        pairs += [(f"x{n}", qemu.reg_read(rv.UC_RISCV_REG_X0 + n), number_of(state.x[n])) for n in range(32)]
        pairs += [(f"f{n}", qemu.reg_read(rv.UC_RISCV_REG_F0 + n), number_of(z3.simplify(state.f[n]))) for n in range(32)]
        for name, has, should in pairs:
            if has != should:
                return f"{name} is {has:#x} and not {should:#x}"
        expected = bytearray(data)
        for (_, _, offset), term in state.memory.items():
            expected[offset:offset + 8] = number_of(term).to_bytes(8, "little")
        return None if qemu.mem_read(DATA, len(data)) == bytes(expected) else "memory differs"

    def attempt(self, kind, word):
        found = self.difference(word)
        if found == "":
            return
        self.tried[kind] += 1
        if found == REFUSED:
            self.refused += 1
        elif found:
            self.wrong.append(f"{' '.join(map(str, kind))}: {word:#x}: {found}")

    def try_kind(self, kind, words, rounds):
        """Tries encodings of the code, and others with other registers and constants."""
        for n in range(4 * rounds):  # (some cannot be tried)
            if self.tried[kind] >= rounds:
                return
            word = self.chance.choice(words)
            if n % 2:
                word ^= self.chance.getrandbits(32) & 0x01f00f80 if kind[1] == 4 else self.chance.getrandbits(16) & 0x1ffc
            self.attempt(kind, word)


def compare(elf, rounds, half=None):
    """Compares all kinds, or every second one. Returns what was compared, and what differs."""
    it = Comparison(elf, half or 0)
    kinds = [kind for kind in sorted(it.kinds) if kind[0] not in NOT_COMPARED and kind[0][:3] not in ("lr.", "sc.")]
    for kind in kinds[half or 0::2 if half is not None else 1]:
        it.try_kind(kind, sorted(it.kinds[kind]), rounds)
        if it.tried[kind] < rounds:
            it.wrong.append(f"{kind[0]}: {it.tried[kind]} tries alone")
    compared = len(it.tried)
    for _ in range(10 * rounds):
        it.attempt(("any", 2), it.chance.choice([0, 1, 2]) | it.chance.getrandbits(14) << 2)
    return f"{compared} kinds, {sum(it.tried.values())} tries, {it.refused} refused by the executor alone", it.wrong


if __name__ == "__main__":
    told, wrong = compare(sys.argv[1], int(sys.argv[2]) if len(sys.argv) > 2 else 200)
    print("\n".join([*wrong[:40], told]))
    sys.exit(1 if wrong else 0)
