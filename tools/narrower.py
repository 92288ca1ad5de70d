"""A kernel of vector code in narrower lanes: what is written anew, and on what it means the same.

A value is asked for by its low bits alone, where what becomes of it is made of those (a sum that is stored to a byte), or whole, where it is
compared, divided by a shift, or widened. Of the first kind it may have as few bits as are asked for; of the second as many as its range wants."""

from kernel_text import CONDITIONS, bits, range_of

# a kernel for fewer iterations is not worth a word
FEW = 16
RING = ("+", "-", "*", "&", "|", "^", "~")


class Narrower:
    """The text of a kernel whose lanes are at most so wide. `text` is None where an element, a computed index or the loop variable as a
    value keeps them wider, or what is computed wants them so; `limits` and `iterations` say on what it means the same."""

    def __init__(self, found, width):
        self.found, self.kernel, self.width = found, found.kernel, width
        self.edits, self.limits, self.held, self.iterations, self.text, self.lost = [], [], {}, None, None, None
        self.params = {it.name for it in self.kernel.params}
        if not self.is_kept():
            self.declarations()
            self.loop()
            self.after()
            self.text = self.made()
        if self.iterations is not None and self.iterations < FEW:
            self.text = None
            self.lost = self.lost or (self.found.of("update")[0], "the sum of more than %d iteration%s" % (self.iterations, "s" * (self.iterations != 1)))

    def is_kept(self):
        """Whether something that cannot be written narrower is wider."""
        inside, offset = self.found.items.inside, self.kernel.offset
        elements = [it for it in inside if it.kind in ("read", "store")]
        computed = [it for it in inside if it.kind == "read" and offset(it.parts[0]) is None]
        counted = [it for it in inside if it.kind == "name" and it.name == self.kernel.loop.name and it.type]
        return bool(computed or counted or any(bits(it.type) > self.width for it in elements))

    def condition(self):
        """On what it means the same, in words; nothing where it always does."""
        counted = ["for at most %s iterations" % format(self.iterations, ",")] if self.iterations else []
        return ", ".join(counted + ["where " + " and ".join(self.limits)] * bool(self.limits))

    def changed(self):
        """The lines that are written anew."""
        lines = zip(self.kernel.text.split("\n"), self.text.split("\n"))
        return [now.strip() for was, now in lines if was != now]

    # -- what is written

    def narrow(self, kind):
        """The type of so many bits in the place of a wider one."""
        return kind if bits(kind) <= self.width else "%s%d" % (kind[0], self.width)

    def made(self):
        text = self.kernel.text
        for begin, end, come in sorted(self.edits, reverse=True):
            text = text[:begin] + come + text[end:]
        return text

    def declared(self, node):
        """Writes the type of a declaration anew: NAME: TYPE."""
        at = next(n for n, (place, _) in enumerate(self.kernel.tokens) if place == node.place)
        place, word = self.kernel.tokens[at + 2]
        self.edits.append((place, place + len(word), self.narrow(word)))

    def declarations(self):
        named = {it.name for it in self.found.of("name")}
        self.updated = {it.name for it in self.found.of("update")}
        for it in self.kernel.params:
            if not it.array and it.name in named and bits(it.of) > self.width:
                self.declared(it)
        for it in self.kernel.sums:
            if it.name in self.updated and bits(it.of) > self.width:
                self.declared(it)

    def after(self):
        """An accumulator that is narrower is cast back where it is named after the loop."""
        wide = {it.name: it.of for it in self.kernel.sums if it.name in self.updated and bits(it.of) > self.width}
        items, answer = self.found.items, self.kernel.answer
        for it in items.items[items.items.index(self.kernel.loop) :][len(items.inside) :]:
            if it.kind == "name" and it.name in wide:
                cast = "%s as %s" % (it.name, wide[it.name])
                self.edits.append((it.begin, it.end, cast if it is answer.parts[0] else "(%s)" % cast))

    def whole(self, node, low):
        """The accumulators of which a result asks more than the low bits."""
        if node.kind == "name":
            return set() if low else {node.name}
        low = bits(node.to) <= self.width or low if node.kind == "cast" else low
        passes = node.kind in ("cast", "select") or getattr(node, "op", "") in RING + ("<<",)
        parts = [self.whole(it, low and passes and it.kind not in CONDITIONS) for it in node.parts]
        return set().union(*parts)

    # -- whether it means the same

    def loop(self):
        answer = self.kernel.answer
        self.asked = self.whole(answer.parts[0], bits(answer.result) <= self.width) if answer else set()
        for it in self.found.items.inside:
            if it.kind == "let":
                self.of(it.parts[0])
                if it.said and bits(it.said) > self.width:
                    self.declared(it)
            elif it.kind == "store":
                self.of(it.parts[0])
            elif it.kind == "update":
                self.update(it)
            elif it.kind in ("if", "break"):
                self.truth(it.parts[0])
            elif it.kind in CONDITIONS:
                self.truth(it)

    def fits(self, node):
        low, high = self.found.values.of(node)
        least, most = range_of(self.narrow(node.type))
        return least <= low and high <= most

    def lose(self, node, said):
        """What the kernel computes does not fit."""
        self.iterations, self.lost = 0, self.lost or (node, said)

    def exact(self, node):
        """A value is asked for whole, and not for its low bits alone."""
        self.of(node)
        if not node.type or bits(node.type) <= self.width or self.fits(node):
            return
        said = "%s fits %s" % (getattr(node, "name", ""), self.narrow(node.type))
        if node.kind != "name" or node.name not in self.params:
            self.lose(node, "%s, which is from %d to %d" % (self.kernel.source(node), *self.found.values.of(node)))
        elif said not in self.limits:
            self.limits.append(said)

    def of(self, node):
        """Looks at a value of which the low bits are asked for: what it is made of is asked for so too, or whole."""
        if id(node) in self.held or node.kind in ("number", "name", "read"):
            return
        self.held[id(node)] = True
        if node.kind == "cast":
            self.cast(node)
        elif node.kind == "select":
            self.truth(node.parts[0])
            self.of(node.parts[1]), self.of(node.parts[2])
        elif node.kind in ("unary", "binary") and node.op in RING or node.kind == "shift" and node.op == "<<":
            for it in node.parts:
                self.of(it)
        else:
            for it in node.parts:
                self.exact(it)

    def cast(self, node):
        inner, to = node.parts[0], self.narrow(node.to)
        self.of(inner)
        if to == node.to and (not inner.type or bits(inner.type) <= self.width):
            return
        if inner.type and self.narrow(inner.type) == to:
            self.edits.append((len(self.kernel.text[: node.place].rstrip(" \t")), node.end, ""))
        else:
            self.edits.append((node.end - len(node.to), node.end, to))

    def truth(self, node):
        if id(node) in self.held:
            return
        self.held[id(node)] = True
        for it in node.parts:
            if it.kind in CONDITIONS:
                self.truth(it)
            else:
                self.exact(it)

    def update(self, node):
        """An accumulator of fewer bits: how many iterations it holds, or whether all that it takes in fits."""
        self.of(node.parts[0])
        kind = self.narrow(node.type)
        if kind == node.type or (node.op in ("+=", "&=", "|=", "^=") and node.name not in self.asked):
            return
        first = next(it.parts[0] for it in self.kernel.sums if it.name == node.name)
        (least, most), (low, high), (begin, end) = range_of(kind), self.found.values.of(node.parts[0]), self.found.values.of(first)
        if node.op != "+=":
            if not (least <= min(low, begin) and max(high, end) <= most):
                self.lose(node, "what %s takes in" % node.name)
            return
        held = [room // step for room, step in ((most - end, high), (begin - least, -low)) if step > 0]
        updates = sum(it.name == node.name for it in self.found.of("update"))
        if min(held, default=1) < 1 or (low < 0 and not least):
            self.lose(node, "the sum %s" % node.name)
        elif held:
            self.iterations = min([min(held) // updates] + [self.iterations] * (self.iterations is not None))
