"""A kernel of svec as C, from the canonical text that `svec check` prints: for bench/loops.

Each operation wraps to its type by a cast where C would compute in int, as a C programmer writes it who wants that; signed ones wrap by
the flag -fwrapv. Nothing of it is proved, and it shares nothing with the compiler's own reading of a kernel."""

import os
import sys

sys.path.insert(0, os.path.join(os.path.dirname(os.path.realpath(__file__)), "..", "tools"))
from canonical_text import Reader, Typed  # noqa: E402


class Kernel(Typed):
    """The parts of a kernel: its name, its parameters (name, type, whether an array), its result's type, and its text in C."""

    def __init__(self, canonical):
        super().__init__(Reader(canonical).kernel())
        self.name, self.params, self.result = (self.kernel[part] for part in ("name", "params", "answer"))
        self.arrays = {name: kind for name, kind, is_array in self.params if is_array}
        self.stored, self.count = set(), 0
        body = ["%s %s = %s;" % (kind, name, self.text(value, kind)) for name, kind, value in self.kernel["vars"]]
        if self.kernel["loop"]:
            i, bound, block = self.kernel["loop"]
            body += ["u64 %s;" % i, "for (%s = 0; %s < %s; %s++) {" % (i, i, bound, i), *self.statements(block, 1), "}"]
        if self.result:
            body.append("return %s;" % self.text(self.kernel["value"], self.result))
        self.c = "%s {\n%s\n}\n" % (self.prototype(), "\n".join("    " + line for line in body))

    def statements(self, block, tabs):
        lines = [line for form in block for line in self.statement(form)]
        return ["    " * tabs + line for line in lines]

    def statement(self, form):
        if form[0] == "let":
            kind = self.types[form[1]] = form[2] or self.own(form[3])
            return ["%s %s = %s;" % (kind, form[1], self.text(form[3], kind))]
        if form[0] == "store":
            self.stored.add(form[1])
            return ["%s[%s] = %s;" % (form[1], self.text(form[2], "u64"), self.text(form[3], self.types[form[1]]))]
        if form[0] == "break":
            return ["if (%s) break;" % self.condition(form[1])]
        if form[0] == "if":
            other = ["} else {", *self.statements(form[3], 1)] if form[3] else []
            return ["if (%s) {" % self.condition(form[1]), *self.statements(form[2], 1), *other, "}"]
        _, name, operator, value = form
        operands = ("name", name), value
        given = ("call", operator, list(operands)) if operator in ("min", "max") else ("binary", operator, *operands)
        return ["%s = %s;" % (name, self.text(given, self.types[name]))]

    def condition(self, value):
        if value[0] == "unary":
            return "!(%s)" % self.condition(value[2])
        operator, left, right = value[1:]
        if operator in ("&&", "||"):
            return "(%s %s %s)" % (self.condition(left), operator, self.condition(right))
        kind = self.own(left) or self.own(right)
        return "%s %s %s" % (self.text(left, kind), operator, self.text(right, kind))

    def wrapped(self, text, kind):
        """Where C computes in int what the kernel computes in fewer bits."""
        return "(%s)(%s)" % (kind, text) if int(kind[1:]) < 32 else "(%s)" % text

    def text(self, value, kind):
        """The expression in C, where this type is wanted of it."""
        form = value[0]
        if form == "literal":
            ending = "u" * (kind[0] == "u") + "ll" * (kind[1:] == "64")
            return "(%s)%s" % (kind, "%d%s" % (value[1], ending) if value[1] >= 0 else "(%d%s)" % (value[1], ending))
        if form == "name":
            return value[1]
        if form == "read":
            return "%s[%s]" % (value[1], self.text(value[2], self.own(value[2]) or "u64"))
        if form == "cast":
            return "(%s)%s" % (value[1], self.text(value[2], self.own(value[2])))
        if form == "unary":
            return self.wrapped(value[1] + self.text(value[2], kind), kind)
        if form == "call":
            return self.call(value[1], value[2], kind)
        operator, left, right = value[1:]
        second = "%d" % right[1] if operator in ("<<", ">>") else self.text(right, kind)
        text = "%s %s %s" % (self.text(left, kind), operator, second)
        return "(%s)" % text if operator in ("&", "|", "^", ">>") else self.wrapped(text, kind)

    def call(self, name, given, kind):
        if name == "select":
            return "(%s ? %s : %s)" % (self.condition(given[0]), self.text(given[1], kind), self.text(given[2], kind))
        self.count += 1
        names = ["v%d_%d" % (self.count, k) for k in range(len(given))]
        held = " ".join("%s %s = %s;" % (kind, n, self.text(it, kind)) for n, it in zip(names, given))
        if name == "abs":
            return "({ %s %s; })" % (held, names[0] if kind[0] == "u" else "(%s)(%s < 0 ? -%s : %s)" % (kind, names[0], names[0], names[0]))
        sign = "<" if name == "min" else ">"
        return "({ %s %s %s %s ? %s : %s; })" % (held, names[0], sign, names[1], names[0], names[1])

    def prototype(self):
        words = ["%s%s %s%s" % ("const " if is_array and name not in self.stored else "", kind, "*" * is_array, name) for name, kind, is_array in self.params]
        return "KERNEL %s k_%s(%s)" % (self.result or "void", self.name, ", ".join(words) or "void")

    def called(self):
        """Statements that call it with what an array of 64-bit numbers, `given`, holds."""
        words = ["(%s%s)given[%d]" % (kind, " *" if is_array else "", n) for n, (_, kind, is_array) in enumerate(self.params)]
        text = "k_%s(%s);" % (self.name, ", ".join(words))
        return "return (u64)" + text if self.result else text + " return 0;"
