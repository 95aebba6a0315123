"""A symbolic executor for the machine code in an ELF: RV64IMAC, Zicsr, Zifencei, and the loads and stores of D.

It decodes the bytes of the ELF itself, so no compiler and no assembler is trusted. Whatever it does not know ends the proof with
`Failed` and names the address and the symbol: an instruction, a control register, an address in no declared space, a misaligned
access, or a jump with too many targets. crosscheck.py compares it with QEMU's decoder and semantics.
"""
import bisect
from collections import namedtuple

import z3
from elftools.elf.elffile import ELFFile

MASK = (1 << 64) - 1
# Fields of mstatus.
MIE, MPIE, MPP, FS, MPV = 1 << 3, 1 << 7, 3 << 11, 3 << 13, 1 << 39
MSTATUS, MEPC, MCAUSE, MTVAL, MTVEC = 0x300, 0x341, 0x342, 0x343, 0x305
# The control registers that the executor knows. Any other ends a proof.
KNOWN_CSRS = {0x003, 0x105, 0x106, 0x10a, 0x10c, 0x141, 0x142, 0x143, 0x14d, 0x180, 0x300, 0x301, 0x302, 0x303, 0x304, 0x305, 0x306, 0x30a,
              0x30c, 0x30d, 0x30e, 0x30f, 0x340, 0x341, 0x342, 0x343, 0x344, *range(0x3a0, 0x3b0), *range(0x3b0, 0x3f0), 0x600, 0x747, 0x7a0,
              0x7a1, 0xb02, 0xc01, 0xf11, 0xf12, 0xf13, 0xf14}
# Devices and time change mip, minstret and time, and the triggers are the hart's own. Each read returns a new value.
VOLATILE_CSRS = {0x344, 0x7a0, 0x7a1, 0xb02, 0xc01}
PATIENCE = 4000  # milliseconds; then other methods are tried, without a limit
Insn = namedtuple("Insn", "name rd rs1 rs2 imm size")


class Failed(Exception):
    """The fact is not proved, or the executor does not know what the code does."""


class Fork(Failed):
    """The instruction must be run again in one state for each condition; exactly one of the conditions holds. A condition may come with
    the number that a term then has. Outside `run` a fork is a failure: a fact depends on a case that no path has decided."""

    def __init__(self, branches):
        super().__init__(f"undecided: {[condition for condition, _ in branches][:2]}")
        self.branches = branches


def bv(number):
    return z3.BitVecVal(number, 64)


def number_of(term):
    return term.as_long() if z3.is_bv_value(term) else None


# Decoding ------------------------------------------------------------------------------------------------------------------------

def bits(word, high, low):
    return word >> low & (1 << high - low + 1) - 1


def signed(value, width):
    return value - (1 << width) if value >> width - 1 else value


def gathered(half, places):
    """Collects bits of a halfword: bit `at` becomes bit `to`, for each (at, to)."""
    return sum(bits(half, at, at) << to for at, to in places)


OPS = ["add", "sll", "slt", "sltu", "xor", "srl", "or", "and"]
MULS = ["mul", "mulh", "mulhsu", "mulhu", "div", "divu", "rem", "remu"]
LOADS = ["lb", "lh", "lw", "ld", "lbu", "lhu", "lwu"]
BRANCHES = ["beq", "bne", None, None, "blt", "bge", "bltu", "bgeu"]
CSRS = [None, "csrrw", "csrrs", "csrrc", None, "csrrwi", "csrrsi", "csrrci"]
AMOS = {0: "amoadd", 1: "amoswap", 2: "lr", 3: "sc", 4: "amoxor", 8: "amoor", 12: "amoand", 16: "amomin", 20: "amomax", 24: "amominu",
        28: "amomaxu"}
SYSTEM = {0x30200073: "mret", 0x10500073: "wfi", 0x12000073: "sfence.vma", 0x62000073: "hfence.gvma"}


def decode(word):
    """Decodes the instruction at the start of these 32 bits. A compressed one uses the low 16."""
    if word & 3 != 3:
        return decode16(word & 0xffff)
    opcode, rd, f3, rs1, rs2, f7 = word & 0x7f, bits(word, 11, 7), bits(word, 14, 12), bits(word, 19, 15), bits(word, 24, 20), word >> 25
    i_imm, s_imm = signed(word >> 20, 12), signed(f7 << 5 | rd, 12)
    name, imm = None, i_imm
    if opcode in (0x37, 0x17):
        name, imm = "lui" if opcode == 0x37 else "auipc", signed(word & 0xfffff000, 32)
    elif opcode == 0x6f:
        name = "jal"
        imm = signed(bits(word, 31, 31) << 20 | bits(word, 19, 12) << 12 | bits(word, 20, 20) << 11 | bits(word, 30, 21) << 1, 21)
    elif opcode == 0x67 and f3 == 0:
        name = "jalr"
    elif opcode == 0x63:
        name = BRANCHES[f3]
        imm = signed(bits(word, 31, 31) << 12 | bits(word, 7, 7) << 11 | bits(word, 30, 25) << 5 | bits(word, 11, 8) << 1, 13)
    elif opcode == 0x03 and f3 < 7:
        name = LOADS[f3]
    elif opcode == 0x23 and f3 < 4:
        name, imm = ("sb", "sh", "sw", "sd")[f3], s_imm
    elif opcode in (0x07, 0x27) and f3 in (2, 3):
        name, imm = ("flw", "fld")[f3 - 2] if opcode == 7 else ("fsw", "fsd")[f3 - 2], i_imm if opcode == 7 else s_imm
    elif opcode in (0x13, 0x1b):
        wide = opcode == 0x13
        if f3 in (1, 5):
            top, imm = (word >> 26, bits(word, 25, 20)) if wide else (word >> 25, rs2)
            arithmetic = 16 if wide else 32
            name = {(1, 0): "sll", (5, 0): "srl", (5, arithmetic): "sra"}.get((f3, top))
        elif wide or f3 == 0:
            name = OPS[f3]
        name = name and name + ("i" if wide else "iw")
    elif opcode in (0x33, 0x3b):
        wide = opcode == 0x33
        if f7 == 1:
            name = MULS[f3] if wide or f3 in (0, 4, 5, 6, 7) else None
        elif f7 == 0:
            name = OPS[f3] if wide or f3 in (0, 1, 5) else None
        elif f7 == 0x20:
            name = {0: "sub", 5: "sra"}.get(f3)
        name = name and name + ("" if wide else "w")
        imm = None
    elif opcode == 0x2f and f3 in (2, 3) and word >> 27 in AMOS and not (word >> 27 == 2 and rs2):
        name, imm = AMOS[word >> 27] + (".w" if f3 == 2 else ".d"), bits(word, 26, 25)
    elif word & 0xfff0707f == 0xe2000053:
        name, imm = "fmv.x.d", None
    elif opcode == 0x0f and f3 < 2:
        name = ("fence", "fence.i")[f3]
    elif opcode == 0x73:
        name, imm = (CSRS[f3], word >> 20) if f3 else (SYSTEM.get(word), 0)
    if name is None:
        raise Failed(f"unknown instruction {word:#010x}")
    return Insn(name, rd, rs1, rs2, imm, 4)


def decode16(half):
    """Decodes a compressed instruction as the full one that it stands for."""
    quadrant, f3 = half & 3, half >> 13
    rd, rs2, small_d, small_s = bits(half, 11, 7), bits(half, 6, 2), 8 + bits(half, 4, 2), 8 + bits(half, 9, 7)
    imm6 = signed(bits(half, 12, 12) << 5 | rs2, 6)
    word_at = gathered(half, [(12, 5), (11, 4), (10, 3), (6, 2), (5, 6)])
    double_at = gathered(half, [(12, 5), (11, 4), (10, 3), (6, 7), (5, 6)])

    def insn(name, d=0, s1=0, s2=0, imm=None):
        return Insn(name, d, s1, s2, imm, 2)

    if quadrant == 0:
        offset = gathered(half, [(12, 5), (11, 4), (10, 9), (9, 8), (8, 7), (7, 6), (6, 2), (5, 3)])
        if f3 == 0 and offset:
            return insn("addi", small_d, 2, imm=offset)
        if f3 in (1, 2, 3):
            return insn(("fld", "lw", "ld")[f3 - 1], small_d, small_s, imm=word_at if f3 == 2 else double_at)
        if f3 in (5, 6, 7):
            return insn(("fsd", "sw", "sd")[f3 - 5], 0, small_s, small_d, word_at if f3 == 6 else double_at)
    elif quadrant == 1:
        if f3 == 0:
            return insn("addi", rd, rd, imm=imm6)
        if f3 == 1 and rd:
            return insn("addiw", rd, rd, imm=imm6)
        if f3 == 2:
            return insn("addi", rd, 0, imm=imm6)
        if f3 == 3 and imm6:
            high = signed(gathered(half, [(12, 9), (6, 4), (5, 6), (4, 8), (3, 7), (2, 5)]), 10)
            return insn("addi", 2, 2, imm=high) if rd == 2 else insn("lui", rd, imm=imm6 << 12)
        if f3 == 4:
            kind, shift = bits(half, 11, 10), imm6 & 63
            if kind < 3:
                return insn(("srli", "srai", "andi")[kind], small_s, small_s, imm=shift if kind < 2 else imm6)
            names = ("subw", "addw", None, None) if half >> 12 & 1 else ("sub", "xor", "or", "and")
            if names[bits(half, 6, 5)]:
                return insn(names[bits(half, 6, 5)], small_s, small_s, small_d)
        if f3 == 5:
            places = [(12, 11), (11, 4), (10, 9), (9, 8), (8, 10), (7, 6), (6, 7), (5, 3), (4, 2), (3, 1), (2, 5)]
            return insn("jal", 0, imm=signed(gathered(half, places), 12))
        if f3 in (6, 7):
            places = [(12, 8), (11, 4), (10, 3), (6, 7), (5, 6), (4, 2), (3, 1), (2, 5)]
            return insn(("beq", "bne")[f3 - 6], 0, small_s, 0, signed(gathered(half, places), 9))
    elif quadrant == 2:
        if f3 == 0:
            return insn("slli", rd, rd, imm=imm6 & 63)
        if f3 == 4 and half >> 12 & 1 == 0:
            if rs2:
                return insn("add", rd, 0, rs2)
            if rd:
                return insn("jalr", 0, rd, imm=0)
        if f3 == 4 and rd:
            return insn("add", rd, rd, rs2) if rs2 else insn("jalr", 1, rd, imm=0)
        if f3 in (1, 2, 3) and (rd or f3 == 1):
            word = gathered(half, [(12, 5), (6, 4), (5, 3), (4, 2), (3, 7), (2, 6)])
            double = gathered(half, [(12, 5), (6, 4), (5, 3), (4, 8), (3, 7), (2, 6)])
            return insn(("fld", "lw", "ld")[f3 - 1], rd, 2, imm=word if f3 == 2 else double)
        if f3 in (5, 6, 7):
            word = gathered(half, [(12, 5), (11, 4), (10, 3), (9, 2), (8, 7), (7, 6)])
            double = gathered(half, [(12, 5), (11, 4), (10, 3), (9, 8), (8, 7), (7, 6)])
            return insn(("fsd", "sw", "sd")[f3 - 5], 0, 2, rs2, word if f3 == 6 else double)
    raise Failed(f"unknown instruction {half:#06x}")


# Values --------------------------------------------------------------------------------------------------------------------------

def truth(condition):
    return z3.If(condition, bv(1), bv(0))


def low_word(term):
    return z3.Extract(31, 0, term)


def divided(a, b, name):
    """RISC-V's division, with its results for a zero divisor and for overflow."""
    width = a.size()
    least, ones = z3.BitVecVal(1 << width - 1, width), z3.BitVecVal(-1, width)
    too_large = z3.And(a == least, b == ones)
    return {"div": lambda: z3.If(b == 0, ones, z3.If(too_large, a, a / b)), "divu": lambda: z3.If(b == 0, ones, z3.UDiv(a, b)),
            "rem": lambda: z3.If(b == 0, a, z3.If(too_large, 0 * a, z3.SRem(a, b))), "remu": lambda: z3.If(b == 0, a, z3.URem(a, b))}[name]()


def high_product(a, b, extend_a, extend_b):
    return z3.Extract(127, 64, extend_a(64, a) * extend_b(64, b))


ALU = {
    "add": lambda a, b: a + b, "sub": lambda a, b: a - b, "xor": lambda a, b: a ^ b, "or": lambda a, b: a | b, "and": lambda a, b: a & b,
    "sll": lambda a, b: a << (b & a.size() - 1), "srl": lambda a, b: z3.LShR(a, b & a.size() - 1), "sra": lambda a, b: a >> (b & a.size() - 1),
    "slt": lambda a, b: truth(a < b), "sltu": lambda a, b: truth(z3.ULT(a, b)), "mul": lambda a, b: a * b,
    "mulh": lambda a, b: high_product(a, b, z3.SignExt, z3.SignExt), "mulhu": lambda a, b: high_product(a, b, z3.ZeroExt, z3.ZeroExt),
    "mulhsu": lambda a, b: high_product(a, b, z3.SignExt, z3.ZeroExt),
}
ALU.update({name: lambda a, b, name=name: divided(a, b, name) for name in MULS[4:]})
COMPARE = {"beq": lambda a, b: a == b, "bne": lambda a, b: a != b, "blt": lambda a, b: a < b, "bge": lambda a, b: a >= b,
           "bltu": z3.ULT, "bgeu": z3.UGE}
AMO = {"amoswap": lambda a, b: b, "amoadd": ALU["add"], "amoxor": ALU["xor"], "amoor": ALU["or"], "amoand": ALU["and"],
       "amomin": lambda a, b: z3.If(a < b, a, b), "amomax": lambda a, b: z3.If(a > b, a, b),
       "amominu": lambda a, b: z3.If(z3.ULT(a, b), a, b), "amomaxu": lambda a, b: z3.If(z3.UGT(a, b), a, b)}


def linear(term, factor=1, into=None):
    """Writes a term as a sum modulo 2^64: {id of an atom: (atom, factor)}, and the constant under None. A narrower term is an atom only
    with a factor that shifts all higher bits out, so the low bits of a term can stand for the term."""
    into = {None: 0} if into is None else into
    kind, parts = term.decl().kind(), term.children()
    if z3.is_bv_value(term):
        into[None] = into[None] + factor * term.as_long() & MASK
    elif kind == z3.Z3_OP_BADD:
        for part in parts:
            linear(part, factor, into)
    elif kind == z3.Z3_OP_BMUL and len(parts) == 2 and z3.is_bv_value(parts[0]):
        linear(parts[1], factor * parts[0].as_long(), into)
    elif kind == z3.Z3_OP_CONCAT and z3.is_bv_value(parts[-1]) and (factor << term.size()) & MASK == 0:  # a shift to the left
        rest = z3.Concat(*parts[:-1]) if len(parts) > 2 else parts[0]
        into[None] = into[None] + factor * parts[-1].as_long() & MASK
        linear(rest, factor << parts[-1].size(), into)
    elif kind == z3.Z3_OP_EXTRACT and term.params()[1] == 0 and parts[0].size() == 64 and factor % (1 << 64 - term.size()) == 0:
        linear(parts[0], factor, into)
    else:
        if term.size() < 64:
            term = z3.ZeroExt(64 - term.size(), term)
        atom, before = into.get(term.get_id(), (term, 0))
        into[term.get_id()] = (atom, before + factor & MASK)
    return into


FORMS = {}  # by the id of a term; the term is kept, so that its id stays in use


def constant_difference(a, b):
    """Returns the number a - b if it does not depend on any atom, otherwise None."""
    for term in (a, b):
        if term.get_id() not in FORMS:
            FORMS[term.get_id()] = term, linear(z3.simplify(term))
    a, b = FORMS[a.get_id()][1], FORMS[b.get_id()][1]
    for key in a.keys() | b.keys():
        if key is not None and a.get(key, (0, 0))[1] != b.get(key, (0, 0))[1]:
            return None
    return a[None] - b[None] & MASK


# The state -----------------------------------------------------------------------------------------------------------------------

class Space:
    """An array of `count` objects of `size` bytes at `base`, aligned to eight. Spaces do not overlap; one with a symbolic base is disjoint
    from all others by premise. `indices` are the terms by which the code may name an object. A device's loads return new values."""

    def __init__(self, name, base, size, count=1, indices=None, writable=True, device=False, content=None):
        self.name, self.base, self.size, self.count = name, bv(base) if isinstance(base, int) else base, size, count
        self.indices, self.writable, self.device, self.content = indices or [bv(0)], writable, device, content
        self.words = {}  # cache of `initial`
        self.places = [self.base + size * index for index in self.indices]

    def initial(self, index, offset):
        """Returns the word of eight bytes that is there at the start."""
        if self.content is not None:
            return bv(int.from_bytes(self.content[offset:offset + 8].ljust(8, b"\0"), "little"))
        key = (index.get_id(), offset)
        if key not in self.words:
            name = f"{self.name}+{offset}"
            word = z3.BitVec(name, 64) if self.count == 1 else z3.Function(name, z3.BitVecSort(64), z3.BitVecSort(64))(index)
            self.words[key] = word, index
        return self.words[key][0]


class State:
    """A hart in the middle of a path. `path` has the premises and the branch conditions, `log` the accesses, fences and calls in order,
    `memory` the words that were written, and `members` the objects that were named so far in each space. `lost` has the bytes that a
    call of an assumed function may have changed, for each word of a space."""

    def __init__(self, pc):
        self.pc, self.path, self.known, self.log, self.end, self.steps = pc, [], {}, [], None, 0
        self.lost, self.in_trap, self.leaves = {}, False, False  # (it leaves an end, as the head of a loop)
        self.x = [bv(0)] + [z3.BitVec(f"x{n}", 64) for n in range(1, 32)]
        self.f = [z3.BitVec(f"f{n}", 64) for n in range(32)]
        self.csr, self.memory, self.members = {}, {}, {}

    def copy(self):
        other = object.__new__(State)
        other.__dict__ = {key: value.copy() if isinstance(value, (list, dict)) else value for key, value in self.__dict__.items()}
        other.members = {name: list(indices) for name, indices in self.members.items()}
        return other

    def get_csr(self, number):
        return self.csr[number] if number in self.csr else z3.BitVec(f"csr{number:#x}", 64)

    def unwritten(self, space, index, offset):
        """Returns a word that no store of this path has changed since it was last lost."""
        term = space.initial(index, offset)
        for serial, low, high in self.lost.get((space.name, offset), ()):
            term = replaced(term, low, high, lost_word(space, serial, index, offset))
        return term

    def lose(self, space, first, size, serial):
        """Forgets the bytes from `first` on in every object of a space."""
        for offset in range(first & ~7, first + size, 8):
            low, high = max(first - offset, 0) * 8, min(first + size - offset, 8) * 8
            key = space.name, offset
            self.lost[key] = self.lost.get(key, ()) + ((serial, low, high),)
            for member in self.members.get(space.name, []):
                place = space.name, member.get_id(), offset
                if place in self.memory:
                    self.memory[place] = replaced(self.memory[place], low, high, lost_word(space, serial, member, offset))

    def word(self, space, index, offset):
        """Returns the word of an object whose index is among the members."""
        term = self.memory.get((space.name, index.get_id(), offset))
        return self.unwritten(space, index, offset) if term is None else term

    def final(self, space, index, offset):
        """Returns the word of the object with any index."""
        term = self.unwritten(space, index, offset)
        for member in self.members.get(space.name, []):
            term = z3.If(index == member, self.word(space, member, offset), term)
        return z3.simplify(term)


def lost_word(space, serial, index, offset):
    """Names what an assumed function left in a word."""
    return z3.Function(f"{space.name}+{offset}!{serial}", z3.BitVecSort(64), z3.BitVecSort(64))(index)


def replaced(word, low, high, by):
    """Returns a word whose bits from `low` up to `high` are those of another."""
    parts = [z3.Extract(63, high, word)] if high < 64 else []
    parts += [z3.Extract(high - 1, low, by)] + ([z3.Extract(low - 1, 0, word)] if low else [])
    return z3.simplify(z3.Concat(*parts) if len(parts) > 1 else parts[0])


class Image:
    """The code, the constants and the symbols of an ELF."""

    def __init__(self, path):
        with open(path, "rb") as file:
            elf = ELFFile(file)
            self.symbols = {it.name: it["st_value"] for it in elf.get_section_by_name(".symtab").iter_symbols()}
            absolute = {it.name for it in elf.get_section_by_name(".symtab").iter_symbols() if it["st_shndx"] == "SHN_ABS"}
            self.starts = sorted((at, name) for name, at in self.symbols.items() if name and name not in absolute and name[0] not in ".$")
            text, rodata = elf.get_section_by_name(".text"), elf.get_section_by_name(".rodata")
            self.text_base, self.text = text["sh_addr"], text.data()
            constants = rodata.data()
            self.constants = Space("rodata", rodata["sh_addr"], len(constants), writable=False, content=constants)

    def function_at(self, address):
        """Returns the symbol that precedes an address most closely, or None."""
        at = bisect.bisect_right(self.starts, (address, chr(0x10ffff)))
        return self.starts[at - 1][1] if at else None

    def place(self, address):
        """Names an address by its symbol."""
        name = self.function_at(address)
        return f"{address:#x}" if name is None else f"{address:#x} ({name}+{address - self.symbols[name]:#x})"


class Machine:
    """Code and the spaces that it may access. `hooks` maps an address to an effect that replaces the code there. `ends` maps a name to the
    term of an address at which a run ends. `exists` has the condition under which a hart has an optional register, by its number, or
    the D extension, under "D": a look at a missing one traps."""

    def __init__(self, image, patches=None):
        self.image, self.symbols, self.text_base, self.text = image, image.symbols, image.text_base, bytearray(image.text)
        self.patches = patches or {}
        for address, code in self.patches.items():
            self.text[address - self.text_base:address - self.text_base + len(code)] = code
        self.spaces, self.hooks, self.ends, self.exists = [image.constants], {}, {}, {}
        self.warl = {}  # of a control register whose fields may be fixed: the bits that keep what is written, and the values of the others
        self.steps, self.covered, self.queries, self.fresh, self.decoded = 0, set(), 0, 0, {}
        self.solver, self.asserted = z3.SimpleSolver(), []
        self.solver.set("timeout", PATIENCE)

    def add(self, space):
        """Adds a space. It must not overlap another at a known place."""
        for other in self.spaces:
            a, b = number_of(space.base), number_of(other.base)
            if None not in (a, b) and a < b + other.size * other.count and b < a + space.size * space.count:
                raise Failed(f"{space.name} overlaps {other.name}")
        self.spaces.append(space)
        return space

    def insn_at(self, address):
        if address in self.decoded:
            return self.decoded[address]
        at = address - self.text_base
        if not 0 <= at <= len(self.text) - 2 or address % 2:
            raise Failed(f"jumps out of the code, to {address:#x}")
        self.decoded[address] = decode(int.from_bytes(self.text[at:at + 4], "little"))
        return self.decoded[address]

    def insn_or_none(self, address):
        try:
            return self.insn_at(address)
        except Failed:
            return None

    def new(self, name, width=64):
        self.fresh += 1
        return z3.BitVec(f"{name}!{self.fresh}", width)

    def check(self, path, *more):
        """Returns a model of a path with more conditions, or None. The solver keeps the path of the last query."""
        self.queries += 1
        same = 0
        while same < min(len(path), len(self.asserted)) and path[same].get_id() == self.asserted[same].get_id():
            same += 1
        self.solver.pop(len(self.asserted) - same)
        for condition in path[same:]:
            self.solver.push()
            self.solver.add(condition)
        self.asserted = list(path)
        self.solver.push()
        self.solver.add(*more)
        result = self.solver.check()
        model = self.solver.model() if result == z3.sat else None
        self.solver.pop()
        if result == z3.unknown:  # the incremental solver gives up after PATIENCE
            solver = z3.Then("simplify", "propagate-values", "solve-eqs", "simplify", "bit-blast", "sat").solver()
            solver.add(*path, *more)
            result = solver.check()
            model = solver.model() if result == z3.sat else None
        if result == z3.unknown:
            solver = z3.Solver()
            solver.add(*path, *more)
            result = solver.check()
            model = solver.model() if result == z3.sat else None
        if result == z3.unknown:
            raise Failed("z3 does not know")
        return model

    def entails(self, path, fact):
        if z3.is_eq(fact) and fact.arg(0).eq(fact.arg(1)):
            return True
        fact = z3.simplify(fact)
        return z3.is_true(fact) or self.check(path, z3.Not(fact)) is None

    def as_number(self, state, term, most=128):
        """Returns the number that a term equals. If it may be several, forks into one state for each."""
        term = z3.simplify(term)
        if number_of(term) is not None:
            return number_of(term)
        if term.get_id() in state.known:
            return state.known[term.get_id()][1]
        found = []
        while (model := self.check(state.path, *[term != value for value in found])) is not None:
            found.append(model.eval(term, model_completion=True).as_long())
            if len(found) > most:
                raise Failed(f"too many values of {term}")
        raise Fork([(term == value, (term, value)) for value in found])

    def resolve(self, state, address, width):
        """Returns the space of an address, the index of the object there, and the offset in it."""
        address = z3.simplify(address)
        for space in self.spaces:
            for index, place in zip(space.indices, space.places):
                offset = constant_difference(address, place)
                if offset is not None and offset < space.size:
                    if offset % width or offset + width > space.size:
                        raise Failed(f"misaligned access: {space.name}+{offset}")
                    return space, self.member(state, space, index), offset
        if number_of(address) is None:  # for instance a rounded address: the path may determine it
            for space in self.spaces:
                for place in space.places:
                    if (model := self.check(state.path, z3.ULT(address - place, space.size))) is not None:
                        offset = model.eval(address - place, model_completion=True)
                        if self.entails(state.path, address == place + offset):
                            imm = self.insn_at(state.pc).imm if self.insn_at(state.pc).name[-2] != "." else 0
                            state.x[self.insn_at(state.pc).rs1] = z3.simplify(place + offset - imm)
                            return self.resolve(state, place + offset, width)
            value = self.as_number(state, address)
            return self.resolve(state, bv(value), width)
        value = number_of(address)
        for space in self.spaces:
            base = number_of(space.base)
            if base is not None and base <= value < base + space.size * space.count:
                offset = (value - base) % space.size
                if offset % width == 0:
                    return space, self.member(state, space, bv((value - base) // space.size)), offset
        raise Failed(f"accesses {self.image.place(value)}, which is in no declared space")

    def member(self, state, space, index):
        """Returns the index under which an object is kept: that of an earlier access if it is the same object."""
        members = state.members.setdefault(space.name, [])
        for member in members:
            if member.get_id() == index.get_id():
                return member
        if not self.entails(state.path, z3.ULT(index, space.count)):
            raise Failed(f"{space.name} may have no object {index}")
        for member in members:
            if self.entails(state.path, member == index):
                return member
            if not self.entails(state.path, member != index):
                raise Fork([(member == index, None), (member != index, None)])
        members.append(index)
        return index

    def load(self, state, address, width):
        space, index, offset = self.resolve(state, address, width)
        if space.device:
            value = self.new(space.name, 8 * width)
            state.log.append(("load", space.name, index, offset, value))
            return value
        if space.content is None:
            state.log.append(("load", space.name, index, offset))
        if width == 8:
            return state.word(space, index, offset)
        low = 8 * (offset % 8)
        return z3.simplify(z3.Extract(low + 8 * width - 1, low, state.word(space, index, offset & ~7)))

    def store(self, state, address, value, width):
        space, index, offset = self.resolve(state, address, width)
        if not space.writable:
            raise Failed(f"stores into {space.name}+{offset}, which is constant here")
        value = z3.simplify(z3.Extract(8 * width - 1, 0, value)) if width < value.size() // 8 else value
        state.log.append(("store", space.name, index, offset, value))
        if space.device:
            return
        if width == 8:
            state.memory[(space.name, index.get_id(), offset)] = value
            return
        key, low = (space.name, index.get_id(), offset & ~7), 8 * (offset % 8)
        old = state.word(space, index, offset & ~7)
        parts = ([z3.Extract(63, low + 8 * width, old)] if low + 8 * width < 64 else []) + [value] \
            + ([z3.Extract(low - 1, 0, old)] if low else [])
        state.memory[key] = z3.simplify(z3.Concat(*parts) if len(parts) > 1 else parts[0])

    def jump(self, state, target):
        target = z3.simplify(target)
        for name, term in self.ends.items():
            if number_of(term) is None and number_of(target) is None and self.entails(state.path, target == term):
                state.end = name
                return
        state.pc = self.as_number(state, target)

    def floats_open(self, state):
        """Fails unless FS lets floating-point registers be accessed."""
        if not self.entails(state.path, state.get_csr(MSTATUS) & FS != 0):
            raise Failed("FS may be Off")

    def is_missing(self, state, what):
        """Whether an optional part of the hart is absent on this path. Forks if the path does not decide it."""
        condition = self.exists.get(what, z3.BoolVal(True))
        if self.entails(state.path, condition):
            return False
        if self.entails(state.path, z3.Not(condition)):
            return True
        if MTVEC not in state.csr:
            raise Failed(f"the hart may lack {what if isinstance(what, str) else f'CSR {what:#x}'}, and mtvec is not set up for it")
        raise Fork([(condition, None), (z3.Not(condition), None)])

    def trap(self, state):
        """Takes an illegal-instruction trap from machine mode into machine mode (Privileged Architecture, "Machine Status Registers")."""
        if MTVEC not in state.csr:
            raise Failed("an instruction traps, and mtvec is not set up for it")
        status = state.get_csr(MSTATUS)
        state.csr[MEPC], state.csr[MCAUSE], state.csr[MTVAL] = bv(state.pc), bv(2), self.new("mtval")
        state.csr[MSTATUS] = z3.simplify(status & ~(MIE | MPIE | MPP | MPV) | MPP | z3.If(status & MIE != 0, bv(MPIE), bv(0)))
        self.covered.add(state.pc)
        state.in_trap = True
        state.log.append(("trap", state.pc))
        state.pc = self.as_number(state, state.csr[MTVEC] & ~3)

    def access_csr(self, state, insn):
        """Reads and writes a control register, and returns what it had."""
        number, is_write = insn.imm, insn.name[:5] == "csrrw" or insn.rs1
        if number not in KNOWN_CSRS:
            raise Failed(f"unknown control register {number:#x}")
        if number == 3:
            self.floats_open(state)
        old = self.new(f"csr{number:#x}") if number in VOLATILE_CSRS else state.get_csr(number)
        if number in VOLATILE_CSRS and insn.rd:
            state.log.append(("read", number, old))
        operand = bv(insn.rs1) if insn.name[-1] == "i" else state.x[insn.rs1]
        if is_write:
            value = {"w": operand, "s": old | operand, "c": old & ~operand}[insn.name[4]]
            value = z3.simplify(value & 0xff if number == 3 else value)
            if number in self.warl:
                keep, fixed = self.warl[number]
                value = value & keep | fixed
            state.csr[number] = value
            if number == 3:
                state.csr[MSTATUS] = z3.simplify(state.get_csr(MSTATUS) | FS)
            state.log.append(("csr", number, z3.simplify(operand) if number in VOLATILE_CSRS else value, insn.name[4]))
        return z3.simplify(old & 0xff if number == 3 else old)

    def step(self, state):
        """Executes one instruction. One that forks has changed nothing."""
        insn = self.insn_at(state.pc)
        name, rd, imm = insn.name, insn.rd, insn.imm
        optional = imm if name[:3] == "csr" else "D" if name == "fmv.x.d" else None
        if optional in self.exists and self.is_missing(state, optional):
            self.trap(state)
            return
        a, b, after = state.x[insn.rs1], state.x[insn.rs2], state.pc + insn.size
        pc, result = state.pc, None
        base = name[:-1] if name.endswith("w") and name not in ("lw", "sw", "flw", "fsw", "csrrw") else name
        if name == "lui":
            result = bv(imm)
        elif name == "auipc":
            result = bv(pc + imm)
        elif name in LOADS:
            width = 1 << "bhwd".index(name[1])
            loaded = self.load(state, a + imm, width)
            result = (z3.ZeroExt if name.endswith("u") else z3.SignExt)(64 - 8 * width, loaded) if width < 8 else loaded
        elif name in ("sb", "sh", "sw", "sd"):
            self.store(state, a + imm, b, 1 << "bhwd".index(name[1]))
        elif name in ("fld", "flw"):
            self.floats_open(state)
            loaded = self.load(state, a + imm, 8 if name == "fld" else 4)
            state.f[rd] = loaded if name == "fld" else z3.simplify(z3.Concat(z3.BitVecVal(-1, 32), loaded))
            state.csr[MSTATUS] = z3.simplify(state.get_csr(MSTATUS) | FS)
        elif name in ("fsd", "fsw"):
            self.floats_open(state)
            self.store(state, a + imm, state.f[insn.rs2], 8 if name == "fsd" else 4)
        elif name == "fmv.x.d":
            self.floats_open(state)
            result = state.f[insn.rs1]
        elif base in ALU:
            result = ALU[base](a, b) if base == name else z3.SignExt(32, ALU[base](low_word(a), low_word(b)))
        elif base[-1] == "i" and base[:-1] in ALU:
            op = ALU[base[:-1]]
            result = op(a, bv(imm)) if base == name else z3.SignExt(32, op(low_word(a), z3.BitVecVal(imm, 32)))
        elif name in COMPARE:
            taken = z3.simplify(COMPARE[name](a, b))
            if z3.is_true(taken) or z3.is_false(taken):
                after = pc + imm if z3.is_true(taken) else after
            elif taken.get_id() in state.known:
                after = pc + imm if state.known[taken.get_id()][1] else after
            else:
                raise Fork([(taken, (taken, True)), (z3.Not(taken), (taken, False))])
        elif name in ("jal", "jalr"):
            link = after
            target = bv(pc + imm) if name == "jal" else (a + imm) & ~1
            self.jump(state, target)
            after, result = state.pc, bv(link)
        elif name[:3] == "csr":
            result = self.access_csr(state, insn)
        elif name[:3] in ("lr.", "sc.") or name[:3] == "amo":
            kind, width = name[:-2], 8 if name[-1] == "d" else 4
            if kind == "sc":  # it may fail at any time
                done = z3.Bool(f"sc!{pc:x}!{len(state.log)}")
                if done.get_id() not in state.known:
                    raise Fork([(done, (done, True)), (z3.Not(done), (done, False))])
                if state.known[done.get_id()][1]:
                    self.store(state, a, b, width)
                state.log.append(("sc", z3.simplify(a)))
                result = bv(0 if state.known[done.get_id()][1] else 1)
            else:
                old = self.load(state, a, width)
                if kind != "lr":
                    self.store(state, a, z3.simplify(AMO[kind](old, z3.Extract(8 * width - 1, 0, b))), width)
                result = z3.SignExt(32, old) if width == 4 else old
        elif name in ("fence", "fence.i", "sfence.vma", "hfence.gvma", "wfi"):
            state.log.append((name, imm))
        elif name == "mret" and state.in_trap:
            status = state.get_csr(MSTATUS)
            if not self.entails(state.path, status & MPP == MPP):
                raise Failed("returns from a trap of machine mode into another mode")
            after, state.in_trap = self.as_number(state, state.get_csr(MEPC)), False
            state.csr[MSTATUS] = z3.simplify(status & ~(MIE | MPP) | MPIE | z3.If(status & MPIE != 0, bv(MIE), bv(0)))
        elif name == "mret":
            state.end = "mret"
        else:
            raise Failed(f"no semantics of {name}")
        if result is not None and rd:
            state.x[rd] = z3.simplify(result)
        state.pc = after
        self.covered.add(pc)
        self.steps += 1

    def run(self, state, most=5000):
        """Follows every path from a state to its end, and returns the final states. Fails if a path takes more than `most` steps."""
        waiting, ended = [state], []
        ends = {number_of(term): name for name, term in self.ends.items() if number_of(term) is not None}
        while waiting:
            state = waiting.pop()
            while state.end is None:
                if state.pc in ends and not state.leaves:
                    state.end = ends[state.pc]
                    break
                state.steps += 1
                if state.steps > most:
                    raise Failed(f"at {self.image.place(state.pc)}: more than {most} steps")
                hook = self.hooks.get(state.pc)
                try:
                    (hook or self.step)(state)
                    state.leaves = False
                except Fork as fork:
                    for condition, known in fork.branches:
                        if self.check(state.path, condition) is not None:
                            child = state.copy()
                            child.path.append(condition)
                            if known is not None:
                                child.known[known[0].get_id()] = known
                            waiting.append(child)
                    state = None
                    break
                except Failed as why:
                    raise Failed(f"at {self.image.place(state.pc)}: {why}") from None
            if state is not None:
                ended.append(state)
        return ended
