"""Random kernels with pages and arguments for them, some with reads at computed indexes."""

TYPES = ["i8", "i16", "i32", "i64", "u8", "u16", "u32", "u64"]
FIRST, PAGE, PAGES = 0x10000, 4096, 6


class Kernel:
    """A random kernel: its text, and what its arguments are."""

    def __init__(self, rand, gathers=False):
        self.rand = rand
        self.arrays = [("a%d" % i, rand.choice(TYPES)) for i in range(rand.randint(1, 3))]
        self.scalars = [("k%d" % i, rand.choice(TYPES)) for i in range(rand.randint(0, 2))]
        # two kernels in five read a table at computed indexes: most of them have a sum, and so lanes, of 64 bits
        self.table = ("t", rand.choice(TYPES)) if gathers or rand.random() < 0.4 else None
        kinds = ["i64", "u64"] if self.table and rand.random() < 0.8 else TYPES
        self.sums = [("s%d" % i, rand.choice(kinds), rand.choice(["+=", "&=", "|=", "^=", "min=", "max="]))
                     for i in range(rand.choice([1, 1, 2] if self.table else [0, 0, 1, 2]))]
        # (no array is stored to in some of those: then an index may be any number)
        self.is_stored = self.table is None or rand.random() < 0.6
        self.lets, self.count = [], 0
        body = self.breaks() + self.block(2)
        self.bases = self.arrays + ([self.table] if self.table else [])
        words = ["%s: [%s]" % p for p in self.bases] + ["%s: %s" % p for p in self.scalars] + ["n: u64"]
        begin = "".join("var %s: %s = %s; " % (s, t, self.literal(t)) for s, t, _ in self.sums)
        loop = "for i in 0..n { %s}" % body
        if self.sums and rand.random() < 0.8:
            value, kind = self.sums[0][0], self.sums[0][1]
        else:
            value, kind = "i", "u64"
        self.text = "kernel f(%s) -> %s { %s%s return %s; }" % (", ".join(words), kind, begin, loop, value)

    def literal(self, kind):
        bits = int(kind[1:])
        low, high = (-(1 << bits - 1), (1 << bits - 1) - 1) if kind[0] == "i" else (0, (1 << bits) - 1)
        return str(self.rand.choice([low, high, max(low, -1), 0, 1, 2, 3, self.rand.randint(low, high)]))

    def index(self):
        offset = self.rand.choice([0, 0, 0, 0, 0, 1, 2, -1, 16, -1024, 1024])
        return "i" if offset == 0 else "i %s %d" % ("+" if offset > 0 else "-", abs(offset))

    def computed(self):
        """A computed index that is mostly small, so that few of the reads at it fault."""
        name, kind = self.rand.choice(self.arrays)
        read = "%s[%s]" % (name, self.index())
        if kind == "u8" or kind == "u16" and self.rand.random() < 0.3:
            return self.rand.choice([read, read, "%s as u64" % read])
        if kind[0] == "u" and self.rand.random() < 0.5:
            return self.rand.choice(["%s & 255", "(%s & 63) as u64", "min(%s, 255)"]) % read
        return self.rand.choice(["%s as u8", "%s as u8", "%s as u8 as u64", "(%s as u16 & 511) as u32", "%s as u64 & 127"]) % read

    def leaf(self, kind):
        known = [n for n, t in self.scalars + self.lets if t == kind]
        known += ["%s[%s]" % (n, self.index()) for n, t in self.arrays if t == kind] * 2
        if self.table and self.rand.random() < 0.5:
            read = "t[%s]" % (self.computed() if self.rand.random() < 0.95 else self.index())
            known += [read if self.table[1] == kind else "(%s as %s)" % (read, kind)] * 3
        if kind == "u64":
            known.append("i")
        return self.rand.choice(known) if known and self.rand.random() < 0.8 else self.literal(kind)

    def value(self, kind, depth):
        pick = self.rand.random()
        if depth == 0 or pick < 0.2:
            return self.leaf(kind)
        if pick < 0.5:
            return "(%s %s %s)" % (self.value(kind, depth - 1), self.rand.choice("+-*&|^"), self.value(kind, depth - 1))
        if pick < 0.6:
            return "%s(%s, %s)" % (self.rand.choice(["min", "max"]), self.value(kind, depth - 1), self.value(kind, depth - 1))
        if pick < 0.7:
            return "(%s %s %d)" % (self.value(kind, depth - 1), self.rand.choice(["<<", ">>"]), self.rand.randrange(int(kind[1:])))
        if pick < 0.78:
            return self.rand.choice(["(-(%s))", "(~(%s))", "abs(%s)"]) % self.value(kind, depth - 1)
        if pick < 0.92:
            arrays = [t for _, t in self.arrays] + [t for _, t in self.scalars]
            other = self.rand.choice(arrays)
            return "((%s) as %s)" % (self.owned(other, depth - 1), kind)
        return "select(%s, %s, %s)" % (self.condition(depth - 1), self.value(kind, depth - 1), self.value(kind, depth - 1))

    def owned(self, kind, depth):
        """A value that has a type of its own."""
        known = [n for n, t in self.scalars if t == kind] + ["%s[%s]" % (n, self.index()) for n, t in self.arrays if t == kind]
        own = self.rand.choice(known)
        return own if depth <= 0 else "%s %s %s" % (own, self.rand.choice("+-*&|^"), self.value(kind, depth - 1))

    def condition(self, depth):
        pick = self.rand.random()
        if depth > 0 and pick < 0.3:
            return "(%s %s %s)" % (self.condition(depth - 1), self.rand.choice(["&&", "||"]), self.condition(depth - 1))
        if depth > 0 and pick < 0.4:
            return "!(%s)" % self.condition(depth - 1)
        kind = self.rand.choice([t for _, t in self.arrays])
        sign = self.rand.choice(["==", "!=", "<", "<=", ">", ">="])
        return "%s %s %s" % (self.owned(kind, 0), sign, self.value(kind, max(depth - 1, 0)))

    def breaks(self):
        """Breaks on single comparisons: qemu 7.2 takes the mask of LDNF1, which reads under `&&` and `||` are done by, from the wrong bits where
        the first active element stands at no multiple of 64 (it shifts by the element's place twice), and gives inactive elements' bytes."""
        count = self.rand.choice([0, 0, 0, 1, 1, 2])
        return "".join("break if %s; " % self.condition(0) for _ in range(count))

    def block(self, depth):
        known, text = len(self.lets), ""
        for _ in range(self.rand.randint(1, 3)):
            text += self.statement(depth)
        del self.lets[known:]
        return text

    def statement(self, depth):
        pick = self.rand.random()
        if depth > 0 and pick < 0.2:
            other = " else { %s}" % self.block(depth - 1) if self.rand.random() < 0.5 else ""
            return "if %s { %s}%s " % (self.condition(1), self.block(depth - 1), other)
        if pick < 0.4:
            kind = self.rand.choice([t for _, t in self.arrays])
            self.count += 1
            text = "let v%d: %s = %s; " % (self.count, kind, self.value(kind, 2))
            self.lets.append(("v%d" % self.count, kind))
            return text
        if self.sums and (pick < 0.65 or not self.is_stored):
            name, kind, sign = self.rand.choice(self.sums)
            return "%s %s %s; " % (name, sign, self.value(kind, 2))
        name, kind = self.rand.choice(self.arrays)
        return "%s[%s] = %s; " % (name, self.index(), self.value(kind, 2))


class Memory:
    """Random pages from 0x10000 on, of which some are read-only and some may be absent."""

    def __init__(self, rand):
        self.pages = {}
        for place in range(PAGES):
            if rand.random() < 0.88:
                spread = rand.choice([2, 4, 256])
                held = bytes(rand.randrange(spread) for _ in range(PAGE))
                self.pages[FIRST + PAGE * place] = ("rw" if rand.random() < 0.9 else "r", held)

    def map(self):
        lines = ["map 0x%x 1 %s" % (at, perm) for at, (perm, _) in self.pages.items()]
        lines += ["set 0x%x %s" % (at, held.hex()) for at, (_, held) in self.pages.items()]
        return "\n".join(lines) + "\n"


OVERLAPPING = [0x10400, 0x10400, 0x10408, 0x10800]
PLACES = [[0x10000, 0x12000, 0x14000, 0x15000], OVERLAPPING, [0x11000, 0x11003, 0x13000, 0x12000]]


def arguments(rand, kernel, overlapping):
    places = OVERLAPPING if overlapping else rand.choice(PLACES)
    places = places[: len(kernel.arrays)] + places[3:]
    given = [at + rand.choice([0, 0, 1, 8, 1024]) for at in places[: len(kernel.bases)]]
    given += [rand.choice([0, 1, 3, 255, (1 << 64) - 1, rand.getrandbits(64)]) for _ in kernel.scalars]
    return given + [rand.choice([0, 1, 2, 7, 16, 33, 100, 300, 1000, 5000])]
