"""The close bound of a kernel: the steps that `compile_kernel` is proved to keep to, counted in the kernel's text.

The definition is crates/close_bound/specs/CloseBound.antt, from which the numbers are read; what they are multiplied by is counted here,
by the reader of the tools. bench/close_bound compares it with the worked examples that are proved beside the definition."""

import os
import re

from kernel_text import Class, Items, Kernel

HERE = os.path.dirname(os.path.realpath(__file__))
PATH = os.path.join(HERE, "..", "crates", "close_bound", "specs", "CloseBound.antt")
# the names of the tools' reader for what the definition calls an operation
OPERATIONS = {"binary": "Binary", "unary": "Unary", "abs": "Unary", "shift": "Shift", "cast": "_", "select": "_", "let": "_", "update": "_"}
OPERATIONS.update({"compare": "_", "not": "_", "and": "_", "or": "_", "mark": "_", "else": "_", "break": "_"})


def numbers():
    """The numbers of the definition: for each function those of its rows, by what stands before them."""
    with open(PATH, encoding="utf-8") as file:
        text = re.sub(r"=\n +", "= ", re.sub(r"--.*", "", file.read()))
    found = {}
    for name, rest, body in re.findall(r"^(\w+)((?: (?:[\w.]+|\([^)]*\)))+) = (.*)$", text, re.MULTILINE):
        found.setdefault(name, []).append((rest.strip(), [int(it) for it in re.findall(r"(?<![\w^])\d+", body)], body))
    return found


class CloseBound:
    """What the bound is made of: outside, a_pass, iteration, last, spare; `breaks` says whether a `break` stands in the loop."""

    def __init__(self, text):
        self.kernel = Kernel(text)
        self.items, self.rows = Items(self.kernel), numbers()
        self.inside = self.items.inside
        self.class_ = Class(self.items)
        self.lanes = self.class_.lanes
        self.breaks = any(it.kind == "break" for it in self.inside)
        flag = "true" if self.breaks else "false"
        around, (self.spare,) = self.only("around_steps", flag), self.row("spare", flag)
        done = [(kind, masked, node) for s in self.kernel.body for kind, masked, node in self.statement(s, False)]
        self.a_pass = around + sum(self.item(*it) for it in done)
        self.iteration = self.only("iteration_steps", "k") * len(self.inside)
        self.last = self.iteration if self.breaks else 0
        self.outside = self.outside_steps()

    # ---- the definition's numbers

    def row(self, function, pattern):
        """The numbers in the row of a function whose arguments are these."""
        return next(numbers_ for given, numbers_, _ in self.rows[function] if given == pattern)

    def only(self, function, pattern):
        it, = self.row(function, pattern)
        return it

    def of_operation(self, function, operation):
        """The numbers of the row of an operation: `(ops.Binary op t x y)` or `_`."""
        named = [it for it in self.rows[function] if re.match(r"\((?:ops\.)?%s\b" % operation, it[0])]
        return (named or [it for it in self.rows[function] if it[0] == "_"])[0][1]

    # ---- the items of the loop: the kind of each, whether it has a mask, and its node

    def statement(self, s, masked):
        if s.kind == "break":
            return self.leave(s.parts[0], masked, s)
        if s.kind != "if":
            return self.term(s.parts[0], masked) + [(s.kind, masked, s)]
        made = self.condition(s.parts[0], masked)
        for it in s.then:
            made += self.statement(it, True)
        if s.other is not None:
            made.append(("else", masked, s))
            for it in s.other:
                made += self.statement(it, True)
        return made

    def leave(self, condition, masked, s):
        """A break on `a || b` is one on a and then one on b."""
        if condition.kind == "or":
            return self.leave(condition.parts[0], masked, s) + self.condition(condition.parts[1], masked) + [("break", masked, s)]
        return self.condition(condition, masked) + [("break", masked, s)]

    def condition(self, node, masked):
        if node.kind == "compare":
            return self.term(node.parts[0], masked) + self.term(node.parts[1], masked) + [("compare", masked, node)]
        if node.kind == "not":
            return self.condition(node.parts[0], masked) + [("not", masked, node)]
        mark = [("mark", masked, node)] if node.kind == "or" else []
        return self.condition(node.parts[0], masked) + mark + self.condition(node.parts[1], True) + [(node.kind, masked, node)]

    def term(self, node, masked):
        if node.kind in ("number", "name"):
            return []
        if node.kind == "read":
            index = [] if self.kernel.offset(node.parts[0]) is not None else self.term(node.parts[0], masked)
            return index + [("read", masked, node)]
        if node.kind == "select":
            return self.term(node.parts[1], masked) + self.term(node.parts[2], masked) + self.condition(node.parts[0], masked) + [("select", masked, node)]
        return [it for part in node.parts for it in self.term(part, masked)] + [(node.kind, masked, node)]

    def item(self, kind, masked, node):
        """The steps of an item of a pass."""
        if kind in ("read", "store"):
            by = self.kernel.offset(node.index if kind == "store" else node.parts[0])
            named = "Gather" if by is None else "Load" if kind == "read" else "Store"
            steps = sum(self.of_operation("lane_steps", named)) + (1 if by else 0)
        else:
            steps, = self.of_operation("lane_steps", OPERATIONS[kind])
        if not self.breaks:
            return steps
        return steps + self.only("early_steps", "(Some mask) op" if masked else "None op")

    # ---- outside the loop

    def held(self):
        """What is held throughout, laid before the loop and joined after it."""
        named = {it.name for it in self.inside if it.kind == "name"}
        scalars = [it for it in self.kernel.params if not it.array and it.name in named]
        constants = {(it.type, it.value) for it in self.inside if it.kind == "number"}
        updated = {it.name for it in self.inside if it.kind == "update"}
        steps = [(len(scalars), "Scalar"), (len(constants), "Constant"), (len(updated), "Accumulating")]
        return sum(count * sum(self.of_operation(function, kind)) for count, kind in steps for function in ("laid_steps", "joined_steps"))

    def guard(self):
        """The test that arrays lie apart: by the array parameters that the loop uses, and whether it stores to them."""
        used = {node.name: False for node, _, _ in self.class_.streams()}
        for node, _, is_store in self.class_.streams():
            used[node.name] |= is_store
        for it in self.inside:
            if it.kind == "read" and self.kernel.offset(it.parts[0]) is None and self.items.reach(it):
                used.setdefault(it.name, False)
        if len(used) <= 1 or not any(used.values()):
            return 0
        stored = list(used.values())
        pairs = sum(stored[i] or stored[j] for i in range(len(stored)) for j in range(i))
        first, each, pair = self.row("test_steps", "false us")
        return first + each * len(used) + pair * pairs

    def outside_steps(self):
        listed, params = self.items.items, len(self.kernel.params)
        if self.kernel.loop:
            begin = next(at for at, it in enumerate(listed) if it is self.kernel.loop)
        elif self.kernel.sums:
            begin = 1 + next(at for at, it in enumerate(listed) if it is self.kernel.sums[-1])
        else:
            begin = params
        answer = len(listed) - begin - len(self.inside)
        (first, var), (end, value) = self.row("outside_steps", "k"), self.row("ending_steps", "k")
        turning = self.only("turning_steps", "true" if self.breaks else "false") if "turning_steps" in self.rows else 0
        return first + turning + params + var * (begin - params) + self.held() + self.guard() + end + value * answer

    # ---- the whole

    def bound(self, length, count, chunks=True, suppressed=0):
        """The steps that a run of so many iterations may take, at a vector length in bits."""
        if not chunks:
            return self.outside + self.iteration * count
        passes = -(-count // (length // self.lanes)) + self.spare * (1 + suppressed)
        return self.outside + self.a_pass * passes + self.last
