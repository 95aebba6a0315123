"""Random traces of a machine of one to four harts: calls with right and wrong arguments, lies up to 2^64 - 1, interrupts,
registers, and accesses at the edges of what each world has."""
import random

EXTENSION = 0x08454E43
FUNCTIONS = {"create": 0, "destroy": 1, "run": 2, "stop": 3, "resume": 4, "exit": 5, "measure": 6}


class Life:
    """A life is as many lines as it is asked for. It does not know what they are answered: most calls are made so that
    they may be right where the ones before them were."""

    def __init__(self, seed, harts):
        self.chance, self.harts = random.Random(seed), harts
        self.made = []

    def odd(self):
        c = self.chance
        return c.choice((1, 2, 7, 4095, 4097, (1 << 56) - 4096, 1 << 56, (1 << 63) - 1, 1 << 63, (1 << 64) - 4096, (1 << 64) - 1, c.getrandbits(64)))

    def page(self):
        return 0x80200000 + 4096 * self.chance.randrange(40)

    def place(self):
        c = self.chance
        places = [0x80000000, 0x801FFFF8, self.page(), 0x80500000, 0x87FFF000, 0x88000000]
        for base, private, shared, shared_count in self.made[-6:]:
            places += [base, base, base + 4096 * private - 8, base + 4096 * private, shared, shared + 4096 * shared_count]
        return (c.choice(places) + c.choice((0, 0, 0, 8, 16, 2048, 4088))) & -8

    def create(self):
        c = self.chance
        base, text, data = self.page(), c.choice((1, 1, 1, 2, 3)), c.choice((0, 0, 1, 2, 5))
        shared_count = c.choice((0, 0, 0, 1, 2))
        shared = 0x80500000 + 4096 * c.randrange(4) if shared_count else 0
        words = [base, text, data, shared, shared_count, c.choice((0, 0, 2, 4, 4096 * text - 2))]
        if c.random() < 0.2:
            words[c.randrange(6)] = self.odd()
        elif c.random() < 0.1:
            words[:2] = c.choice(([0x80100000, 1], [0x10000000, 1], [base + 8, 1], [base, 0], [base, 1025]))
        else:
            self.made.append((base, text + data, shared, shared_count))
        return words

    def call(self):
        c = self.chance
        name = c.choice(("create", "create", "run", "run", "run", "resume", "resume", "stop", "exit", "exit", "destroy", "measure", "odd"))
        if name == "odd":
            return c.choice(([EXTENSION, 7], [EXTENSION, self.odd()], [EXTENSION + 1, 0], [self.odd(), 2], [EXTENSION | 1 << 32, 2, 1]))
        words = [EXTENSION, FUNCTIONS[name]]
        if name == "create":
            words += self.create()
        elif name == "measure":
            words += [c.randrange(1, 5), c.choice((0, 1, 2, 3, 3, 4, self.odd()))]
        else:
            words += [c.choice((1, 1, 1, 2, 2, 3, 4, self.odd()))]
        return words if c.random() < 0.9 else words[: c.randrange(1, len(words) + 1)]

    def line(self):
        c = self.chance
        at = f"@{c.randrange(self.harts)} " if self.harts > 1 else ""
        roll = c.random()
        if roll < 0.45:
            return at + "ecall " + " ".join(f"{it:#x}" for it in self.call())
        if roll < 0.55:
            return at + "irq"
        if roll < 0.6:
            return at + f"reg x{c.randrange(32)} {c.getrandbits(64):#x}"
        mode, kind = c.choice("su"), c.choice(("load", "load", "load", "store", "store", "fetch"))
        size = c.choice((2, 4)) if kind == "fetch" else c.choice((1, 2, 4, 8, 8, 8))
        address = self.place() + (c.choice((0, 0, 0, 1, 2, 4)) if c.random() < 0.3 else 0)
        value = f" {c.getrandbits(64):#x}" if kind == "store" else ""
        return at + f"{kind} {mode} {size} {address:#x}{value}"

    def trace(self, count):
        return "".join(self.line() + "\n" for _ in range(count))
