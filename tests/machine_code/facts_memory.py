"""Facts of memory.c: memset and memcpy."""
import z3
from z3 import z3util

from proof import A0, SAVED_REGISTERS, bits_of, var
from rv64 import Failed, Space, bv

MARGIN = 64  # of bytes before and after a place that a round may name


def byte_of(space, offset):
    return bits_of(space.initial(bv(0), offset & ~7), offset, 1)


class Blocks:
    """A run of a function that writes a block, over all its loops. At the head of a loop `done` bytes are done: from the first one on, or
    from the last one downwards. A round does the next bytes and nothing else; so by induction the loop does its part of the block."""

    def __init__(self, p, name, byte=None, is_aligned=True, may_overlap=False):
        self.may_overlap, self.is_sampled = may_overlap, may_overlap and not p.is_exhaustive
        self.q, self.to, self.source, self.n = p.again(), var("to"), var("from"), var("n")
        self.byte = byte
        self.state = self.q.begin(name, self.to, self.source if byte is None else byte, self.n)
        self.state.path += [z3.ULE(it, 1 << 56) for it in (self.to, self.source, self.n)]
        places = self.to if byte is not None else self.to | self.source
        self.state.path.append((places & 7 == 0) == is_aligned)
        for head in self.q.loop_heads(name):
            self.q.m.ends[head] = bv(head)
        self.premises = list(self.state.path)
        self.spaces = list(self.q.m.spaces)
        self.q.m.solver.set("timeout", 300)
        self.widths, self.downs = set(), set()

    def run(self):
        """Follows the function from its begin to its return."""
        self.q.start = self.state.copy()
        for end in self.q.m.run(self.state):
            is_down = self.may_overlap and end.end != "return" and not self.q.m.entails(end.path, self.is_ahead(False))
            if self.may_overlap and end.end != "return":  # no store of an earlier round reaches a byte that a later load reads
                self.q.fact(end, self.is_ahead(is_down), "it copies in the wrong direction")
                end.path = [it for it in end.path if not self.is_order(it)]
            self.arrive(end, bv(0), is_down)
        return self.q

    def is_order(self, condition):
        """Whether a condition of a path compares the two places. No later step needs it, and it costs z3 much."""
        inner = condition.arg(0) if z3.is_not(condition) else condition
        names = {str(it) for it in z3util.get_vars(inner)}
        return inner.decl().kind() in (z3.Z3_OP_ULEQ, z3.Z3_OP_UGEQ, z3.Z3_OP_ULT, z3.Z3_OP_UGT) and {str(self.to), str(self.source)} <= names

    def is_ahead(self, is_down):
        """Whether a copy in this direction reads each byte before it writes there."""
        if is_down:
            return z3.UGE(self.to, self.source)
        return z3.Or(z3.ULE(self.to, self.source), z3.UGE(self.to, self.source + self.n))

    def place(self, start, done, is_down):
        return z3.simplify(start + (self.n - done if is_down else done))

    def arrive(self, end, done, is_down):
        """A state at the head of a loop, or at the return."""
        q = self.q
        q.paths += 1
        q.fact(end, not [it for it in end.log if it[0] == "store" and it[1] != "stack"], "it writes outside of its loops")
        if end.end == "return":
            q.keeps_abi(end)
            q.csrs_only(end)
            q.fact(end, done == self.n, "the whole block is done")
            q.fact(end, end.x[A0] == self.to, "the result")
            return
        self.rounds(end.copy(), done, is_down)

    def put_spaces(self, state, done, is_down, alignment):
        """Declares what is around the next bytes of the block and of its source, aligned as given; the path gets that as a premise."""
        spaces, self.q.m.spaces = [], list(self.spaces)
        for name, start, bits in (("block", self.to, alignment[0]), ("source", self.source, alignment[1])):
            at = self.place(start, done, is_down)
            space = Space(name, z3.simplify(at - MARGIN - bits), 2 * MARGIN + 8, writable=name == "block")
            state.path.append(at & 7 == bits)
            self.q.m.spaces.append(space)
            spaces.append(space)
        return spaces

    def alignments(self, path, done, is_down):
        """The alignments that a path allows."""
        at, of = self.place(self.to, done, is_down), self.place(self.source, done, is_down)
        for bits in range(8):
            for source_bits in (0,) if self.byte is not None else (bits, bits + 3 & 7) if self.is_sampled else range(8):
                claims = [at & 7 == bits] + ([of & 7 == source_bits] if self.byte is None else [])
                if self.q.m.check(path, *claims) is not None:
                    yield bits, source_bits

    def rounds(self, arrival, done, is_down):
        """The induction over the rounds of a loop."""
        q = self.q
        names = [self.place(self.to, done, is_down), self.place(self.source, done, is_down), self.n - done, self.to + self.n,
                 self.source + self.n]
        arrival.log = []
        for n in range(1, 32):
            for term in names:
                if not arrival.x[n].eq(term) and q.m.entails(arrival.path, arrival.x[n] == term):
                    arrival.x[n] = z3.simplify(term)
                    break
        first = arrival.copy()
        self.put_spaces(first, done, is_down, next(iter(self.alignments(arrival.path, done, is_down))))
        trial = first.copy()
        trial.end = None
        ends = q.round(trial)
        if all(it.end != arrival.end for it in ends):  # a jump back that is no loop
            self.q.m.spaces = list(self.spaces)
            passing = arrival.copy()
            passing.end = None
            for end in q.round(passing):
                self.arrive(end, done, is_down)
            return
        width = self.width_of(ends)
        state, k, steps = q.accelerated(first)
        q.fact(arrival, z3.ULE(width, self.n - done), "there are bytes for the first round")
        state.path = arrival.path + [z3.ULE(k, 1 << 56), z3.ULE(width * k + width, self.n - done)]
        self.widths.add(width)
        self.downs.add(is_down)
        for alignment in list(self.alignments(state.path, done + width * k, is_down)):
            inner = state.copy()
            inner.members = {name: list(it) for name, it in arrival.members.items()}
            inner.memory = dict(arrival.memory)
            block, source = self.put_spaces(inner, done + width * k, is_down, alignment)
            for end in q.round(inner):
                self.does(end, block, source, width, alignment, is_down)
                end.log, end.memory, end.members = [], dict(arrival.memory), {key: list(it) for key, it in arrival.members.items()}
                if end.end == arrival.end:
                    q.keeps_pattern(end, arrival, k, steps)
                    q.fact(end, z3.ULE(width * (k + 1) + width, self.n - done), "there are bytes for the next round")
                elif end.end == "return":
                    self.arrive(end, z3.simplify(done + width * (k + 1)), is_down)
                else:
                    self.arrive(*self.after(end, done + width * (k + 1), width, k, is_down), is_down)

    def after(self, end, done, width, k, is_down):
        """The state after a loop, in terms of a new variable for how many bytes are done: fewer than a round would do are left. What this
        forgets of the path and of the registers no later loop may need."""
        q, new = self.q, self.q.m.new("done")
        q.fact(end, z3.ULE(done, self.n), "more than the block is done")
        q.fact(end, z3.ULT(self.n - done, width), "the loop ends too early")
        is_aligned, is_more = q.m.entails(end.path, done & 7 == 0), q.m.entails(end.path, done != self.n)
        terms = [(self.place(it, done, is_down), self.place(it, new, is_down)) for it in (self.to, self.source)]
        terms += [(self.n - done, self.n - new), (self.to + self.n, self.to + self.n), (self.source + self.n, self.source + self.n)]
        for n in set(range(5, 32)) - set(SAVED_REGISTERS):
            same = [by for term, by in terms if q.m.entails(end.path, end.x[n] == term)]
            if same or not z3.simplify(z3.substitute(end.x[n], (k, bv(0)))).eq(end.x[n]):
                end.x[n] = z3.simplify(same[0]) if same else q.m.new("any")
        end.path = self.premises + [z3.ULE(new, self.n), z3.ULT(self.n - new, width)] + [new & 7 == 0] * is_aligned + [new != self.n] * is_more
        end.known = {}
        return end, new

    def width_of(self, ends):
        """How many bytes the first round writes."""
        widths = {sum(it[4].size() // 8 for it in end.log if it[:2] == ("store", "block")) for end in ends}
        if len(widths) != 1:
            raise Failed(f"rounds of several widths: {widths}")
        return widths.pop()

    def does(self, end, block, source, width, alignment, is_down):
        """A round writes the next bytes, each as its value or its source has it, and no others."""
        first = MARGIN + alignment[0] - (width if is_down else 0)
        pairs = []
        for offset in range(0, block.size, 8):
            word = self.q.now(end, block, offset)
            for byte in range(offset, offset + 8):
                had = byte_of(block, byte)
                if first <= byte < first + width:
                    had = self.byte if self.byte is not None else byte_of(source, byte - alignment[0] + alignment[1])
                    had = z3.Extract(7, 0, had) if had.size() > 8 else had
                pairs.append((bits_of(word, byte, 1), had))
        self.q.same(end, pairs, "the bytes of a round")
        loads, stores = ([it[3] - alignment[name == "source"] for it in end.log if it[:2] == (kind, name)] for kind, name in (
            ("load", "source"), ("store", "block")))
        self.q.fact(end, stores == sorted(set(stores), reverse=is_down), "the order of a round")
        if self.byte is None:
            order = [(it[0], it[3] - alignment[it[1] == "source"]) for it in end.log if it[1] in ("source", "block")]
            self.q.fact(end, loads == stores and all(order.index(("load", at)) < order.index(("store", at)) for at in stores),
                        "each word is read once, before it is written")


def block_written(p, name, byte=None, may_overlap=False):
    """Both kinds of block: those whose places are multiples of eight, and others."""
    widths = set()
    for is_aligned in (True, False):
        blocks = Blocks(p, name, byte, is_aligned, may_overlap)
        p.take(blocks.run())
        widths |= blocks.widths
    p.kept.add(name)
    p.fact(p.begin(name), {1, 8} <= widths, f"it has loops over {widths} bytes")


def bytes_set(p):
    """memset, for every address and every number of bytes: these bytes become the value, no others are written, and it returns its first
    argument. By induction over the rounds of each of its loops."""
    block_written(p, "memset", var("value"))


def bytes_copied(p):
    """memcpy, for every two addresses of blocks that do not overlap and every number of bytes: the block becomes a copy of the source,
    nothing else is written, and it returns its first argument."""
    block_written(p, "memcpy")


def bytes_moved(p):
    """memmove, for every two addresses, of blocks that may overlap, and every number of bytes: the block becomes a copy of what the source had,
    nothing else is written, and it returns its first argument. A loop that rises runs only if the block begins at or before its source
    or after its end, and one that falls only if the block begins at or after its source. Each word is read once, in this order and before
    the word at its place is written, so no store reaches a byte that a later load reads. Of the eight alignments of the source for each
    of the block two are tried, and all with --exhaustive."""
    block_written(p, "memmove", may_overlap=True)


PROOFS = [bytes_set, bytes_copied, bytes_moved]
