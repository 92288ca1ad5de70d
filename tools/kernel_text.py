"""Reads kernels for the tools: tokens, the tree, the items with their types, the class with what makes it so (docs/LANGUAGE.md).

Nothing here is proved. Texts are held byte by byte (latin-1), so that places are those that `svec check` tells."""

import re
import sys

from program import Refused

sys.setrecursionlimit(20000)

TYPES = ["i8", "i16", "i32", "i64", "u8", "u16", "u32", "u64"]
RESERVED = "kernel var for in let if else break return select min max abs as".split() + TYPES
TOKEN = re.compile(
    r"(?P<gap>[ \t\r\n]+|//[^\n]*)|(?P<name>(?:min|max)=|[A-Za-z_][A-Za-z0-9_]*)|(?P<number>0x[0-9a-fA-F]+|[0-9]+)"
    r"|(?P<sign>->|\.\.|==|!=|<=|>=|<<|>>|&&|\|\||\+=|&=|\|=|\^=|[()\[\]{},;:=<>+\-*&^|~!])"
)
LEVELS = [["||"], ["&&"], ["==", "!=", "<", "<=", ">", ">="], ["|"], ["^"], ["&"], ["<<", ">>"], ["+", "-"], ["*"]]
KINDS = {0: "or", 1: "and", 2: "compare", 6: "shift"}
UPDATES = ["+=", "&=", "|=", "^=", "min=", "max="]
CONDITIONS = ("compare", "and", "or", "not")
VALUES = ("number", "name", "read", "unary", "abs", "cast", "binary", "shift", "select")


def bits(kind):
    return int(kind[1:])


def range_of(kind):
    """The least and the greatest value of a type."""
    if kind[0] == "i":
        return -(1 << bits(kind) - 1), (1 << bits(kind) - 1) - 1
    return 0, (1 << bits(kind)) - 1


def tokens_of(text):
    """The place and the text of each token, up to the first byte that begins none."""
    at, found = 0, []
    while at < len(text):
        token = TOKEN.match(text, at)
        if not token:
            break
        if not token["gap"]:
            found.append((at, token[0]))
        at = token.end()
    return found


class Unread(Refused):
    """The tokens are no kernel."""

    def __init__(self):
        super().__init__("the reader of the tools finds no kernel here", 1)


class Node:
    """A part of a kernel: its kind, the place of the word or sign that makes it, where its text begins and ends, its parts."""

    def __init__(self, kind, place, parts=(), **more):
        self.kind, self.place, self.parts, self.type, self.begin, self.end = kind, place, list(parts), None, place, place
        self.__dict__.update(more)


class Kernel:
    """The tree of a kernel. Where the tokens are none, `Unread` is raised, and what was read up to there is kept."""

    def __init__(self, text):
        self.text, self.tokens, self.at = text, tokens_of(text), 0
        self.params, self.sums, self.loop, self.body, self.answer = [], [], None, [], None
        self.read()

    # -- tokens

    def peek(self, ahead=0):
        return self.tokens[self.at + ahead][1] if self.at + ahead < len(self.tokens) else ""

    def take(self, *wanted):
        """The place of the next token, which is one of those that are wanted."""
        if self.at >= len(self.tokens) or (wanted and self.peek() not in wanted):
            raise Unread
        self.at += 1
        return self.tokens[self.at - 1][0]

    def word(self):
        self.take()
        return self.tokens[self.at - 1][1]

    def here(self):
        return self.tokens[self.at][0] if self.at < len(self.tokens) else len(self.text)

    def made(self, node, begin):
        last, word = self.tokens[self.at - 1]
        node.begin, node.end = begin, last + len(word)
        return node

    # -- the kernel and its statements

    def read(self):
        self.take("kernel")
        self.name = self.word()
        self.take("(")
        while self.peek() != ")":
            self.param()
            if self.peek() != ")":
                self.take(",")
        self.take(")")
        result = (self.take("->"), self.word())[1] if self.peek() == "->" else None
        self.take("{")
        while self.peek() == "var":
            self.var()
        if self.peek() == "for":
            self.read_loop()
        if result:
            place = self.take("return")
            self.answer = self.made(Node("return", place, [self.level(0)], result=result), place)
            self.take(";")
        self.take("}")
        if self.at < len(self.tokens):
            raise Unread

    def param(self):
        place, name = self.here(), self.word()
        self.take(":")
        array = self.peek() == "["
        kind = (self.take("["), self.word(), self.take("]"))[1] if array else self.word()
        self.params.append(self.made(Node("param", place, name=name, array=array, of=kind), place))

    def var(self):
        begin = self.take("var")
        place, name = self.here(), self.word()
        self.take(":")
        kind = self.word()
        self.take("=")
        self.sums.append(self.made(Node("var", place, [self.level(0)], name=name, of=kind), begin))
        self.take(";")

    def read_loop(self):
        place = self.take("for")
        name = self.word()
        self.take("in")
        if self.number(self.word()) != 0:
            raise Unread
        self.take("..")
        at, bound = self.here(), self.word()
        self.loop = self.made(Node("for", place, name=name, bound=bound, bound_place=at), place)
        self.body += self.block()

    def block(self):
        made = []
        self.take("{")
        while self.peek() != "}":
            made.append(self.statement())
        self.take("}")
        return made

    def statement(self):
        begin, word = self.here(), self.peek()
        if word == "if":
            return self.choice(begin)
        if word == "break":
            self.take(), self.take("if")
            node = Node("break", begin, [self.level(0)])
        elif word == "let":
            node = self.let()
        else:
            node = self.change(begin)
        self.made(node, begin)
        self.take(";")
        return node

    def choice(self, begin):
        self.take("if")
        condition = self.level(0)
        node = Node("if", begin, [condition], then=None, other=None, ends=[self.here()])
        node.then = self.block()
        node.ends.append(self.tokens[self.at - 1][0])
        if self.peek() == "else":
            node.ends[1] = self.take()
            node.other = self.block()
            node.ends.append(self.tokens[self.at - 1][0])
        return self.made(node, begin)

    def let(self):
        self.take("let")
        place, name = self.here(), self.word()
        said = (self.take(":"), self.word())[1] if self.peek() == ":" else None
        self.take("=")
        return Node("let", place, [self.level(0)], name=name, said=said)

    def change(self, place):
        """A store or an update."""
        name = self.word()
        if self.peek() == "[":
            self.take()
            index = self.level(0)
            self.take("]"), self.take("=")
            return Node("store", place, [self.level(0)], name=name, index=index)
        op = self.peek()
        self.take(*UPDATES)
        return Node("update", place, [self.level(0)], name=name, op=op)

    # -- expressions: of a level and of those that bind more

    def level(self, n):
        if n == len(LEVELS):
            return self.cast()
        begin = self.here()
        node = self.level(n + 1)
        while self.peek() in LEVELS[n]:
            op, place = self.peek(), self.take()
            kind = KINDS.get(n, "binary")
            if kind == "shift":
                node = self.made(Node(kind, place, [node], op=op, count=self.number(self.word())), begin)
            else:
                node = self.made(Node(kind, place, [node, self.level(n + 1)], op=op), begin)
            if kind == "compare":
                break
        return node

    def number(self, word):
        if not word[:1].isdigit():
            raise Unread
        return int(word, 16) if word[1:2] == "x" else int(word)

    def cast(self):
        begin = self.here()
        node = self.unary()
        while self.peek() == "as":
            place = self.take()
            node = self.made(Node("cast", place, [node], to=self.word()), begin)
        return node

    def unary(self):
        begin, word = self.here(), self.peek()
        if word == "-" and self.peek(1)[:1].isdigit():
            self.take()
            return self.made(Node("number", begin, value=-self.number(self.word())), begin)
        if word in ("-", "~", "!"):
            self.take()
            return self.made(Node("not" if word == "!" else "unary", begin, [self.unary()], op=word), begin)
        if word == "(":
            # (parentheses are no part of what stands in them)
            self.take()
            node = self.level(0)
            self.take(")")
            return node
        return self.made(self.primary(), begin)

    def primary(self):
        place, word = self.here(), self.word()
        if word in ("select", "min", "max", "abs"):
            return self.call(place, word)
        if word[:1].isdigit():
            return Node("number", place, value=self.number(word))
        if not re.match(r"[A-Za-z_]", word) or word in RESERVED:
            raise Unread
        if self.peek() == "[":
            self.take()
            index = self.level(0)
            self.take("]")
            return Node("read", place, [index], name=word)
        return Node("name", place, name=word)

    def call(self, place, word):
        self.take("(")
        parts = [self.level(0)]
        for _ in range({"abs": 0, "select": 2}.get(word, 1)):
            self.take(",")
            parts.append(self.level(0))
        self.take(")")
        return Node("binary" if word in ("min", "max") else word, place, parts, op=word)

    # -- what is asked of the tree

    def offset(self, index):
        """The offset of a stream index, or None."""
        if self.loop is None:
            return None
        if index.kind == "name" and index.name == self.loop.name:
            return 0
        if index.kind == "binary" and index.op in ("+", "-"):
            left, right = index.parts
            if left.kind == "name" and left.name == self.loop.name and right.kind == "number":
                return right.value if index.op == "+" else -right.value
        return None

    def source(self, node):
        return self.text[node.begin : node.end]


class Items:
    """The items of a kernel in the order of the listing, each with its type where it has one."""

    def __init__(self, kernel):
        self.kernel, self.items = kernel, []
        self.types = {it.name: it.of for it in kernel.params + kernel.sums if not getattr(it, "array", False)}
        self.elements = {it.name: it.of for it in kernel.params if it.array}
        if kernel.loop:
            self.types[kernel.loop.name] = "u64"
        self.sums = [it.name for it in kernel.sums]
        self.items += kernel.params
        for it in kernel.sums:
            self.list(it.parts[0], it.of)
            self.items.append(it)
        self.inside = []
        if kernel.loop:
            start = len(self.items)
            self.items.append(kernel.loop)
            for it in kernel.body:
                self.statement(it)
            self.inside = self.items[start:]
        if kernel.answer:
            self.list(kernel.answer.parts[0], kernel.answer.result)
            self.items.append(kernel.answer)

    def own(self, node):
        """The type that an expression has of its own, or None."""
        if node.kind == "name":
            return self.types.get(node.name)
        if node.kind == "read":
            return self.elements.get(node.name)
        if node.kind == "cast":
            return node.to
        if node.kind in ("number",) + CONDITIONS:
            return None
        values = node.parts[1:] if node.kind == "select" else node.parts
        return next((it for it in map(self.own, values) if it), None)

    def list(self, node, want):
        """Lists an expression that is wanted in a type."""
        node.type = want
        if node.kind == "name":
            node.type = self.types.get(node.name)
        elif node.kind == "read":
            node.type = self.elements.get(node.name)
            if self.kernel.offset(node.parts[0]) is None:
                self.list(node.parts[0], self.own(node.parts[0]) or "u64")
        elif node.kind == "cast":
            node.type = node.to
            self.list(node.parts[0], self.own(node.parts[0]))
        elif node.kind == "or":
            self.list(node.parts[0], None)
            self.items.append(Node("mark", node.place))
            self.list(node.parts[1], None)
        else:
            if node.kind == "compare":
                want = self.own(node.parts[0]) or self.own(node.parts[1])
            parts = node.parts[1:] + node.parts[:1] if node.kind == "select" else node.parts
            for it in parts:
                self.list(it, want)
        self.items.append(node)

    def statement(self, s):
        if s.kind == "if":
            self.list(s.parts[0], None)
            self.items.append(Node("then", s.ends[0]))
            for it in s.then:
                self.statement(it)
            if s.other is not None:
                self.items.append(Node("else", s.ends[1]))
                for it in s.other:
                    self.statement(it)
            self.items.append(Node("end", s.ends[-1]))
            return
        value = s.parts[0]
        if s.kind == "let":
            s.type = s.said or self.own(value)
            self.types[s.name] = s.type
        elif s.kind != "break":
            s.type = (self.elements if s.kind == "store" else self.types).get(s.name)
        self.list(value, s.type)
        self.items.append(s)

    def source_type(self, index):
        """The type that the value of a computed index comes from."""
        if index.kind == "cast" and index.to[0] == "u":
            inner = self.own(index.parts[0])
            if inner and inner[0] == "u" and bits(inner) <= bits(index.to):
                return self.source_type(index.parts[0])
        return self.own(index) or "u64"

    def reach(self, read):
        return {"u8": 256, "u16": 65536}.get(self.source_type(read.parts[0]))


class Class:
    """The class of a kernel that is accepted: `why` is None or the word for a scalar one, `at` the items that make it so."""

    def __init__(self, items):
        self.items, self.kernel, self.at, self.cause = items, items.kernel, [], None
        self.wide = [it for it in items.inside if it.kind in VALUES + ("store", "update") and it.type]
        self.lanes = max((bits(it.type) for it in self.wide), default=8)
        self.why = self.reason()

    def reason(self):
        if self.kernel.loop is None:
            return "noloop"
        tries = [("accumulator", self.accumulators), ("mixed", self.mixed), ("break", self.late_break), ("computed", self.computed), ("carried", self.carried)]
        for word, found in tries:
            self.at = found()
            if self.at:
                return word
        return None

    def of(self, *kinds):
        return [it for it in self.items.inside if it.kind in kinds]

    def accumulators(self):
        return [it for it in self.of("name") if it.name in self.items.sums]

    def mixed(self):
        first = {}
        for it in self.of("update"):
            if first.setdefault(it.name, it).op != it.op:
                return [first[it.name], it]
        return []

    def late_break(self):
        changed = None
        for it in self.of("store", "update", "break"):
            if it.kind == "break" and changed:
                return [changed, it]
            changed = changed or (it if it.kind != "break" else None)
        return []

    def computed(self):
        """The first read at a computed index that no vector code has, with `cause`, and what it meets."""
        inside, stores = self.items.inside, {it.name: it for it in self.of("store")}
        breaks = [at for at, it in enumerate(inside) if it.kind == "break"]
        for at, it in enumerate(inside):
            if it.kind != "read" or self.kernel.offset(it.parts[0]) is not None:
                continue
            later = [inside[b] for b in breaks if b > at]
            causes = [("lanes", self.lanes < 64, []), ("break", later, later[:1]), ("stored", it.name in stores, [stores.get(it.name)])]
            causes.append(("reach", stores and self.items.reach(it) is None, list(stores.values())[:1]))
            for cause, holds, met in causes:
                if holds:
                    self.cause = cause
                    return [it] + met
        return []

    def streams(self):
        """Each access at a stream index in order: the item, its offset, whether it is a store."""
        found = []
        for it in self.of("read", "store"):
            by = self.kernel.offset(it.index if it.kind == "store" else it.parts[0])
            if by is not None:
                found.append((it, by, it.kind == "store"))
        return found

    def carried(self):
        accesses = self.streams()
        for at, (first, c, here) in enumerate(accesses):
            for second, d, there in accesses[at + 1 :]:
                if first.name == second.name and (here or there) and 1 <= d - c and (d - c) * self.lanes < 2048:
                    return [first, second]
        return []
