"""What values the parts of a kernel can have, as far as types and literals say, and which parts therefore have no effect."""

from kernel_text import CONDITIONS, range_of


def hull(a, b):
    return min(a[0], b[0]), max(a[1], b[1])


def corners(a, b, op):
    found = [op(x, y) for x in a for y in b]
    return min(found), max(found)


def bit_span(a, b, op):
    """Of `&`, `|`, `^` over ranges without negative values."""
    top = (1 << max(a[1], b[1]).bit_length()) - 1
    if op == "&":
        return 0, min(a[1], b[1])
    return (max(a[0], b[0]) if op == "|" else 0), top


class Ranges:
    """The range of each value, and the truth of each condition where it is always the same; `notes` is what has no effect."""

    def __init__(self, items):
        self.items, self.lets, self.found, self.notes = items, {}, {}, []
        for it in items.items:
            if it.kind == "let" and it.type:
                self.lets[it.name] = self.of(it.parts[0])
            elif it.kind in ("store", "update", "var", "return"):
                self.of(it.parts[0])
            if it.kind == "break" or (it.kind == "compare" and id(it) not in self.found):
                self.truth(it if it.kind == "compare" else it.parts[0])

    def note(self, node, text, advice=None):
        self.notes.append((node, text, advice))

    def of(self, node):
        if id(node) not in self.found:
            whole = range_of(node.type)
            low, high = self.value(node, whole)
            self.found[id(node)] = (low, high) if whole[0] <= low and high <= whole[1] else whole
        return self.found[id(node)]

    def value(self, node, whole):
        if node.kind == "number":
            return node.value, node.value
        if node.kind == "name":
            return self.lets.get(node.name, whole)
        if node.kind == "read":
            if node.parts[0].type:
                self.of(node.parts[0])
            return whole
        if node.kind == "select":
            truth, a, b = self.truth(node.parts[0]), self.of(node.parts[1]), self.of(node.parts[2])
            return hull(a, b) if truth is None else a if truth else b
        parts = [self.of(it) for it in node.parts]
        return getattr(self, node.kind)(node, whole, *parts)

    def cast(self, node, whole, a):
        if node.parts[0].type == node.to:
            self.note(node, "a cast to the type that it has already")
        return a

    def unary(self, node, whole, a):
        if node.op == "~":
            return (~a[1], ~a[0]) if whole[0] else (whole[1] - a[1], whole[1] - a[0])
        return -a[1], -a[0]

    def abs(self, node, whole, a):
        if a[0] >= 0:
            why = "a value of %s is never negative" % node.type if whole[0] == 0 else "the value is never negative"
            advice = None
            if whole[0] == 0 and node.parts[0].kind == "binary" and node.parts[0].op == "-":
                advice = "the difference wraps: cast both operands to a wider signed type first, or write max(a, b) - min(a, b)"
            self.note(node, "abs has no effect: %s" % why, advice)
            return a
        if a[0] == range_of(node.type)[0]:
            return whole
        return 0, max(-a[0], a[1])

    def shift(self, node, whole, a):
        if node.count == 0:
            self.note(node, "a shift by 0 has no effect")
        if node.op == "<<":
            return a[0] << node.count, a[1] << node.count
        found = a[0] >> node.count, a[1] >> node.count
        if found == (0, 0) and a != (0, 0):
            self.note(node, "the value is always 0: what is shifted is at most %d" % a[1])
        return found

    def binary(self, node, whole, a, b):
        if node.op in ("min", "max"):
            return self.extreme(node, a, b)
        self.neutral(node, a, b)
        if node.op == "+":
            return a[0] + b[0], a[1] + b[1]
        if node.op == "-":
            return 0 if self.is_ordered(*node.parts) else a[0] - b[1], a[1] - b[0]
        if node.op == "*":
            return corners(a, b, lambda x, y: x * y)
        if a[0] < 0 or b[0] < 0:
            return (0, max(0, b[1] if a[0] < 0 else a[1])) if node.op == "&" and max(a[0], b[0]) >= 0 else whole
        return bit_span(a, b, node.op)

    def is_ordered(self, left, right):
        """Whether a difference is that of the greater and the less of two values."""
        while left.kind == right.kind == "cast" and left.to == right.to:
            (low, high), whole = hull(self.of(left.parts[0]), self.of(right.parts[0])), range_of(left.to)
            if low < whole[0] or whole[1] < high:
                return False
            left, right = left.parts[0], right.parts[0]
        show = self.items.kernel.source
        return (left.kind, right.kind, getattr(left, "op", ""), getattr(right, "op", "")) == ("binary", "binary", "max", "min") and sorted(
            map(show, left.parts)) == sorted(map(show, right.parts))

    def extreme(self, node, a, b):
        first, second = (a, b) if node.op == "min" else (b, a)
        kept = 0 if first[1] <= second[0] else 1 if second[1] <= first[0] else None
        if kept is not None and any(it.kind != "number" for it in node.parts):
            other = node.parts[1 - kept]
            advice = None
            if node.parts[kept].kind == "binary" and node.parts[kept].op in ("+", "-", "*"):
                advice = "the value wraps to its type first: cast the operands to a wider type, as (a as u16 + b as u16)"
            show = self.items.kernel.source
            bound = "at most" if node.op == "min" else "at least"
            what = "%s is always %s %s" % (show(node.parts[kept]), bound, show(other))
            self.note(node, "%s has no effect: %s" % (node.op, what), advice)
        op = min if node.op == "min" else max
        return op(a[0], b[0]), op(a[1], b[1])

    def neutral(self, node, a, b):
        """Operands that leave the other one as it is, or leave nothing of it."""
        full = range_of(node.type)
        ones = (full[1], full[1]) if full[0] == 0 else (-1, -1)
        idle = {"+": (0, 0), "-": (0, 0), "|": (0, 0), "^": (0, 0), "*": (1, 1), "&": ones}[node.op]
        for at, (part, held) in enumerate(zip(node.parts, (a, b))):
            if part.kind != "number":
                continue
            if held == idle and not (at == 0 and node.op == "-"):
                self.note(node, "%s %s has no effect" % (node.op, part.value))
            elif held == (0, 0) and node.op in ("*", "&"):
                self.note(node, "the value is always 0")

    def truth(self, node):
        """Whether a condition always holds, never does, or None."""
        if id(node) in self.found:
            return self.found[id(node)]
        if node.kind == "compare":
            found = self.compare(node)
        elif node.kind in CONDITIONS:
            parts = [self.truth(it) for it in node.parts]
            if node.kind == "not":
                found = None if parts[0] is None else not parts[0]
            else:
                stop = node.kind == "or"
                found = stop if stop in parts else None if None in parts else not stop
        else:
            found = None
        self.found[id(node)] = found
        return found

    def compare(self, node):
        a, b = (self.of(it) for it in node.parts)
        less = True if a[1] < b[0] else False if a[0] >= b[1] else None
        at_most = True if a[1] <= b[0] else False if a[0] > b[1] else None
        same = False if a[1] < b[0] or b[1] < a[0] else True if a[0] == a[1] == b[0] == b[1] else None
        other = {None: None, True: False, False: True}
        found = {"<": less, "<=": at_most, ">": other[at_most], ">=": other[less], "==": same, "!=": other[same]}[node.op]
        if found is not None:
            wide = next((it for it in (a, b) if it[0] != it[1]), a)
            self.note(node, "the comparison is always %s: the value is from %d to %d" % ("true" if found else "false", *wide))
        return found


def unused(items):
    """Declarations that nothing reads."""
    kernel = items.kernel
    read = {it.name for it in items.items if it.kind in ("name", "read")}
    touched = read | {it.name for it in items.items if it.kind == "store"} | ({kernel.loop.bound} if kernel.loop else set())
    found = [(it, "the value of %s is not used" % it.name) for it in items.items if it.kind == "let" and it.name not in read]
    found += [(it, "the parameter %s is not used" % it.name) for it in kernel.params if it.name not in touched]
    found += [(it, "the accumulator %s is not read: its updates have no effect" % it.name) for it in kernel.sums if it.name not in read]
    return found
