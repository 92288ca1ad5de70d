"""Reads the canonical text that `svec check` prints: what is read was accepted, so little is refused here.

An expression is a tuple: ("literal", number), ("name", name), ("read", array, index), ("cast", type, operand), ("unary", sign, operand),
("binary", sign, left, right) (of a shift the right one is its count), ("call", name, operands). A statement is ("let", name, type or None,
value), ("store", array, index, value), ("update", name, operator, value), ("break", condition) or ("if", condition, then, other)."""

import re

OPERATORS = ["||", "&&", "== != < <= > >=", "|", "^", "&", "<< >>", "+ -", "*"]


class Reader:
    """Reads the canonical text of `svec check` into tuples: what is read was accepted, so nothing is refused here."""

    def __init__(self, text):
        self.tokens, self.at = text.split(), 0

    def peek(self, ahead=0):
        return self.tokens[self.at + ahead] if self.at + ahead < len(self.tokens) else ""

    def take(self, wanted=None):
        token = self.peek()
        if wanted is not None and token != wanted:
            raise ValueError("the canonical text has %s where %s was expected" % (token, wanted))
        self.at += 1
        return token

    def took(self, token):
        if self.peek() != token:
            return False
        self.at += 1
        return True

    def kernel(self):
        self.take("kernel")
        kernel = {"name": self.take(), "params": [], "vars": [], "loop": None, "answer": None, "value": None}
        self.take("(")
        while not self.took(")"):
            name, _, array = self.take(), self.take(":"), self.took("[")
            kernel["params"].append((name, self.take(), array))
            if array:
                self.take("]")
            self.took(",")
        if self.took("->"):
            kernel["answer"] = self.take()
        self.take("{")
        while self.took("var"):
            name, _, kind, _ = self.take(), self.take(":"), self.take(), self.take("=")
            kernel["vars"].append((name, kind, self.expression()))
            self.take(";")
        if self.took("for"):
            name, _, _, _, bound = self.take(), self.take("in"), self.take(), self.take(".."), self.take()
            kernel["loop"] = (name, bound, self.block())
        if self.took("return"):
            kernel["value"] = self.expression()
        return kernel

    def block(self):
        self.take("{")
        found = []
        while not self.took("}"):
            found.append(self.statement())
        return found

    def statement(self):
        if self.took("if"):
            condition, then = self.expression(), self.block()
            return ("if", condition, then, self.block() if self.took("else") else [])
        if self.took("break"):
            self.take("if")
            made = ("break", self.expression())
        elif self.took("let"):
            name = self.take()
            kind = self.take() if self.took(":") else None
            self.take("=")
            made = ("let", name, kind, self.expression())
        else:
            name = self.take()
            if self.took("["):
                index, _, _ = self.expression(), self.take("]"), self.take("=")
                made = ("store", name, index, self.expression())
            else:
                made = ("update", name, self.take()[:-1], self.expression())
        self.take(";")
        return made

    def expression(self, level=0):
        if level == len(OPERATORS):
            return self.cast()
        left = self.expression(level + 1)
        while self.peek() in OPERATORS[level].split():
            left = ("binary", self.take(), left, self.expression(level + 1))
        return left

    def cast(self):
        value = self.unary()
        while self.took("as"):
            value = ("cast", self.take(), value)
        return value

    def unary(self):
        token = self.take()
        if token == "-" and self.peek()[:1].isdigit():
            return ("literal", -int(self.take(), 0))
        if token in ("-", "~", "!"):
            return ("unary", token, self.unary())
        if token == "(":
            value = self.expression()
            self.take(")")
            return value
        if re.match(r"-?[0-9]", token):
            return ("literal", int(token, 0))
        if token in ("min", "max", "abs", "select"):
            given, _ = [], self.take("(")
            while not self.took(")"):
                given.append(self.expression())
                self.took(",")
            return ("call", token, given)
        if self.took("["):
            index = self.expression()
            self.take("]")
            return ("read", token, index)
        return ("name", token)


class Typed:
    """The types in a kernel."""

    def __init__(self, kernel):
        self.kernel = kernel
        self.types = {name: kind for name, kind, _ in kernel["params"] + kernel["vars"]}
        if kernel["loop"]:
            self.types[kernel["loop"][0]] = "u64"

    def own(self, value):
        """The type that an expression has of its own, or None."""
        kind = value[0]
        if kind in ("name", "read"):
            return self.types[value[1]]
        if kind == "cast":
            return value[1]
        if kind == "unary":
            return self.own(value[2])
        if kind == "binary":
            return self.own(value[2]) or (None if value[1] in ("<<", ">>") else self.own(value[3]))
        if kind == "call":
            given = value[2][1:] if value[1] == "select" else value[2]
            return next(filter(None, map(self.own, given)), None)
        return None
