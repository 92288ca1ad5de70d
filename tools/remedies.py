"""What to write instead of what `svec check` refuses: a line for each of the usual slips."""

import difflib
import re

from kernel_text import CONDITIONS, RESERVED, TYPES, bits, range_of

BINARY = "== != < <= > >= << >> + * & && | || ^".split()
NO_BRACKETS = r"(^|[;{}]) ?[A-Za-z_]\w*$"
COMPARED = r"(<=?|>=?|==|!=) [^&|;{}]*$"

# What stands at the place of a byte that begins no token (a pattern), and the remedy.
AT_BYTE = [
    (r"/\*", "a comment is // up to the end of the line"),
    (r"/", "there is no division; by a power of two it is a shift: x >> 1"),
    (r"%", "there is no remainder; by a power of two it is a mask: x & 1"),
    (r"'", "a character is written as its number: 97 for 'a'"),
    (r'"', "there are no texts; a character is written as its number: 97 for 'a'"),
    (r"\?", "c ? a : b is select(c, a, b)"),
    (r"\.[0-9]", "numbers are integers: there is no floating point"),
    (r"\.", "there are no members: what a kernel needs, as a length, is a parameter"),
    (r"#", "there are no directives; a comment is // up to the end of the line"),
    (r"\xef\xbb\xbf", "the file begins with a byte order mark: save it as UTF-8 without one"),
    (r"\xff\xfe|\xfe\xff", "the file is UTF-16: save it as UTF-8 without a byte order mark"),
    (r"\xc2\xa0", "a no-break space: write a plain one"),
    (r"\xe2\x80[\x90-\x95]|\xe2\x88\x92", "a dash that is no minus: write -"),
    (r"\xe2\x80[\x98-\x9f]", "a character is written as its number: 97 for 'a'"),
    (r"[\x80-\xff]", "a character outside ASCII: it may stand in comments alone"),
    (r"[0-9]", "a number is at most 2^127 - 1"),
    (r"[\x00-\x1f\x7f]", "a control character: space, tab and line ends alone divide tokens"),
]

# What the token at the place is, what stands before it, and the remedy. `~` ends what stands before where no space is between.
AT_TOKEN = [
    (r"[A-Za-z_]\w*", r"\b0~$", "numbers are decimal or 0x.., without a letter after them"),
    (r"_\w*", r"[0-9]~$", "a number has no _ within it"),
    (r"[A-Za-z]\w*", r"\b[0-9]+~$", "a number has no letters after it; its type comes from its place, or is said by as"),
    (r"\+=|&=|\|=|\^=|min=|max=", r"\{.*\]$", "an update is of an accumulator; of an array write a[i] = a[i] + .., where a store's index is the loop variable with an offset (a histogram is no kernel)"),
    (r"\+", r"\]$|(\+)~$|" + NO_BRACKETS, "there is no ++: of an accumulator write c += 1, of an array a[i] = a[i] + 1"),
    (r"-", NO_BRACKETS, "there is no -= and no --: of an accumulator write s += -x"),
    (r"-", r"\]$", "there is no -= and no --: write a[i] = a[i] - x"),
    (r"\*|<<|>>", NO_BRACKETS, "the updates are += &= |= ^= min= max="),
    (r"=", r"[+&|^=!<>*-]~$", "the comparisons are == != < <= > >=, the updates += &= |= ^= min= max="),
    (r"=", r"\b(if|&&|\|\||!) ?[^;{}]*$", "= stores; a comparison is =="),
    (r"\w+", r"\.\. \w+$", "the statements of a loop stand in { }"),
    (r"in", r"\bfor$", "the loop variable's name is missing: for i in 0..n { .. }"),
    (r"[0-9]+", r"(:|\[|->|\bas)$", "the types are i8 i16 i32 i64 u8 u16 u32 u64"),
    (r"break", r"if [^;]*\{$|else \{$", "a break stands in the loop itself: break if CONDITION;"),
    (r"break", r"", "a break stands in the loop itself, outside an if: break if CONDITION;"),
    (r";|\}", r"\bbreak$", "a break has a condition: break if CONDITION;"),
    (r"return", r"\{ [^}]*$|; [^}]*$", "a kernel returns at its end alone: leave the loop by break if CONDITION; and return i"),
    (r"return", r"\}$", "a kernel that returns a value has its type after the parameters: kernel f(..) -> u64 { .. }, and returns at its end alone"),
    (r"return|;", r"\breturn$", "return has a value; a kernel without -> TYPE has no return"),
    (r"if", r"\belse$", "else if is else { if .. { } }"),
    (r"elif|elsif|elseif", r"", "else if is else { if .. { } }"),
    (r"while|loop|do|foreach", r"", "the loop is for i in 0..n { break if ..; .. }"),
    (r"for", r"", "there is one loop, and none within it or after it"),
    (r"\(", r"\bfor$", "the loop is for i in 0..n { .. }"),
    (r"var", r"", "an accumulator (var) is declared before the loop; in the loop use let"),
    (r"let|const", r"", "a let stands in the loop; before it use var NAME: TYPE = ..; and before that there is nothing else"),
    (r"if", r"", "an if stands in the loop; elsewhere use select(c, a, b)"),
    (r"\w+", r"\blet mut$", "there is no mut: a let is not set again, and an accumulator (var) has updates"),
    (r"in", r"\b(var|let) \w+$", "the loop is for i in 0..n { .. }"),
    (r".+", r"\bin$", "a loop begins at 0: use an offset, as a[i + 1]"),
    (r"\w+|\(", r"\.\.$", "the bound of the loop is the name of a parameter of type u64"),
    (r"\+", r"[=(,]~?$", "there is no + before an operand; the updates are += &= |= ^= min= max="),
    (r"=", r"\.\.~?$", "the loop runs up to the bound less one: 0..n, without ="),
    (r"\+|-|\*|<<|>>", r"\.\. \w+$", "the bound of the loop is a parameter's name alone: hand the kernel what it should be"),
    (r"\w+|\(|-", r"(<<|>>)$", "a shift is by a number, not by a value: multiply by a power of two, or make a kernel for each shift"),
    (r"\(", r"[A-Za-z_]\w*$", "there are no calls but min, max, abs and select"),
    (r"<=?|>=?|==|!=", COMPARED, "comparisons do not chain: a <= x && x <= b"),
    (r"<=?|>=?|==|!=", r".*\b(min|max|abs|let)\b", None),
    (r"as", r"[\w\])]$", "as binds more than any operator: put what is cast in parentheses, as (x >> 8) as u8"),
    (r"and", r"", "and is &&"),
    (r"or", r"", "or is ||"),
    (r"not", r"", "not is !"),
    (r"kernel", r"\}$", "a file has one kernel"),
    (r"fn|func|void|function|def|[Kk][Ee][Rr][Nn][Ee][Ll]|pub|extern|static|\w+_t|int", r"^$", "a kernel begins with the word kernel: kernel NAME(..) { .. }"),
    (r"->|return", r"^kernel \w+ \([^)]*\)? \{.*", None),
    (r"usize|isize|int|uint|unsigned|signed|bool|size_t|u?int\d*\w*|char|byte|short|long|f\d+|float|double|[ui]\d+", r"(:|\[|->|\bas)$", "the types are i8 i16 i32 i64 u8 u16 u32 u64"),
    (r"\*|[A-Za-z_]\w*", r"(\(|,) (const )?\w+$", "a parameter is NAME: TYPE or NAME: [TYPE]"),
    (r"\[", r"\( [^)]*\w$", "an array parameter is NAME: [TYPE]"),
    (r"\)", r",$", "no comma stands after the last one"),
    (r"&|\*|mut|const", r"^[^{]*(:|\[)$", "an array parameter is NAME: [TYPE], without a pointer or a reference"),
    (r";", r"\}$", "no ; stands after a }"),
    (r";", r"[;{]$", "there is no empty statement"),
    (r"==", r"(\]|\w)$", "= stores; == compares, and stands in conditions alone"),
    (r"\w+", r"(^|[;{}]) ?(int|u?int\d+_t|auto|[iu]\d+|const|mut)$", "a value is named by let NAME = .., or let NAME: TYPE = .."),
    (r"\.\.", r"", "a range stands in for i in 0..n alone"),
]

WRONG_SIZE = [
    ("too long", "a kernel has at most 65,536 bytes and 4,096 tokens: make several kernels of it"),
    ("too large", "a kernel has at most 1,000 items: make several kernels of it"),
    ("too deep", "at most 64 levels of brackets and operators are in one another: name a part by let"),
]


def before_text(text, tokens, n):
    """The tokens before the n-th, divided by spaces, with a `~` at the end where the n-th follows without a gap."""
    last = tokens[max(0, n - 60) : n]
    joined = " ".join(it for _, it in last)
    glued = n and n < len(tokens) and tokens[n][0] == last[-1][0] + len(last[-1][1])
    return joined, joined + "~" if glued else joined


def of_byte(text, place):
    rest = text[place : place + 4]
    return next((remedy for pattern, remedy in AT_BYTE if re.match(pattern, rest)), None)


def declared(tokens, name):
    """The word that declares a name: `let`, `var` or `for`, or None."""
    words = [it for _, it in tokens]
    return next((words[at - 1] for at, it in enumerate(words) if at and it == name and words[at - 1] in ("let", "var", "for")), None)


def assignment(tokens, n):
    """Of `NAME =` in the loop."""
    name = tokens[n - 1][1]
    if declared(tokens, name) == "var":
        return "%s is an accumulator: it is not set, but updated (+= &= |= ^= min= max=)" % name
    if declared(tokens, name) == "let":
        return "a let is not set again: give the new value a new name"
    return "a new value has a let: let %s = ..;" % name


def of_place(text, tokens, n, expected):
    """What is likely missing, of any other token: where a statement could have ended, an operand could stand, or the text ends."""
    here = tokens[n][1] if n < len(tokens) else ""
    if n and ";" in expected and here not in (";", ")", "]", ","):
        place, word = tokens[n - 1]
        return "a ; is missing after %s in line %d" % (word, text[:place].count("\n") + 1)
    if "return" in expected and here in ("}", ""):
        return "a kernel with a type after -> ends with return VALUE;"
    for sign in ")]":
        if sign in expected and here in (";", "}", "{"):
            return "a %s is missing before it" % sign
    if not here and not n:
        return "the file has no kernel: kernel NAME(..) { .. }"
    if [it for _, it in tokens[: n - 1]] == ["kernel"]:
        return "after the kernel's name stand its parameters in parentheses: kernel NAME(a: [u8], n: u64) { .. }"
    if not here:
        open_at = unclosed(tokens)
        return "the text ends too early: the { in line %d is not closed" % (text[:open_at].count("\n") + 1) if open_at is not None else "the text ends too early"
    if "{" in expected and here not in ("(",):
        return "the statements of a loop, an if and an else stand in { }"
    return None


def unclosed(tokens):
    held = []
    for place, word in tokens:
        if word == "{":
            held.append(place)
        elif word == "}" and held:
            held.pop()
    return held[-1] if held else None


def of_token(text, tokens, n, expected):
    """The remedy for a usual slip: a token that cannot stand where it does; `expected` is what could."""
    here = tokens[n][1] if n < len(tokens) else ""
    joined, glued = before_text(text, tokens, n)
    close = difflib.get_close_matches(here, [it for it in expected if it in RESERVED and len(it) > 1], 1, 0.6)
    if close and here not in RESERVED and len(here) > 2:
        return "did you mean %s?" % close[0]
    if here == "=" and re.search(NO_BRACKETS, joined) and "=" not in expected and tokens[n - 1][1] not in RESERVED:
        return assignment(tokens, n)
    if here == "," and expected == [")"]:
        return "a kernel has at most eight parameters"
    if here == "," and ":" in expected:
        return "a parameter has a type: %s: u64, or %s: [u8] for an array" % ((tokens[n - 1][1],) * 2)
    last = tokens[n - 1][1] if n else ""
    if here in BINARY and last in BINARY and "a name" in expected:
        return "an operand is missing between %s and %s" % (last, here)
    if here in (";", ")", "]", "}", ",", "{") and "a name" in expected and "(" in expected:
        return "an operand is missing before %s" % here
    for pattern, before, remedy in AT_TOKEN:
        if remedy and re.fullmatch(pattern, here) and (re.search(before, joined) or re.search(before, glued)):
            return remedy
    if here in RESERVED and "a name" in expected:
        return "%s is a reserved word: take another name" % here
    return None


# ---- refusals that name an item


def parents(kernel, items):
    """Of each expression, what it is an operand of."""
    found = {}
    for it in items.items + kernel.body:
        for part in it.parts:
            found[id(part)] = it
    return found


def wrong_kind(kernel, items, node):
    above = parents(kernel, items).get(id(node))
    show = kernel.source
    if node.kind == "for":
        return "the bound of the loop is a parameter of type u64, no array and no accumulator"
    if node.kind == "store":
        if node.name not in items.elements:
            return "%s is no array: an accumulator has updates, a let is not set again" % node.name
        return "a store's index is the loop variable with an offset: %s, %s + 1 or %s - 1; stores to places of the data's choice (a histogram, a compaction) are no kernel" % ((kernel.loop.name,) * 3)
    if node.kind == "update":
        return "only an accumulator (var) is updated: %s is none" % node.name
    if node.kind == "name" and node.name in items.elements:
        return "%s is an array: it needs an index, as %s[i], and is read in the loop alone" % (node.name, node.name)
    if node.kind == "read" and node.name not in items.elements:
        return "%s is no array" % node.name
    if node.kind == "read" and node not in items.inside:
        return "arrays are read in the loop alone"
    if node.kind in CONDITIONS:
        return "a condition is no value: write %s where it is used (if, break if, select), or select(%s, 1, 0)" % (show(node), show(node))
    if above is not None and above.kind == "not":
        return "! is of conditions: the bits of a value are flipped by ~, and whether it is zero says %s == 0" % show(node)
    return "a condition stands here, and a value is none: compare it, as %s != 0" % show(node)


def wanted(kernel, items, node, want, found):
    if node.kind == "for":
        return "the bound of the loop is a u64: declare %s: u64" % node.bound
    if node.kind == "read" and kernel.offset(node.parts[0]) is None and items.own(node.parts[0]) == found and found[0] == "i":
        return "an index is unsigned: write %s[(%s) as %s]" % (node.name, kernel.source(node.parts[0]), "u" + found[1:])
    text = "write %s as %s" % (kernel.source(node), want)
    if bits(want) < bits(found):
        return text + ", which wraps where the value does not fit; or widen what stands beside it to %s" % found
    return text + " (nothing is converted but by as)"


def no_type(kernel, node):
    if node.kind == "cast":
        return "a number has no type before a cast: let t: %s = %s; gives it one" % (node.to, kernel.source(node.parts[0]))
    if node.kind == "let":
        return "say the type: let %s: u8 = .." % node.name
    return "numbers alone have no type: let t: u8 = ..; gives one of them a type"


def out_of_range(kernel, items, node):
    above = parents(kernel, items).get(id(node))
    low, high = range_of(node.type)
    text = "%s is from %d to %d" % (node.type, low, high)
    wrapped = (node.value - low) % (1 << bits(node.type)) + low
    if node.value < 0 <= low or node.value <= 2 * high + 1:
        text += "; the same bits are %d" % wrapped
    wide = next((it for it in TYPES if it[0] == node.type[0] and range_of(it)[0] <= node.value <= range_of(it)[1]), None)
    beside = wide and above is not None and above.kind in ("binary", "compare", "select")
    return text + ("; or cast what stands beside it to %s" % wide if beside else "")


def unknown(kernel, items, node):
    name = getattr(node, "name", "")
    if node.kind == "for":
        name = node.bound
    known = [it.name for it in items.items if it.kind in ("param", "var", "let")] + ([kernel.loop.name] if kernel.loop else [])
    if name in known:
        return "%s is not visible here: a let ends with its block, an accumulator begins after its statement" % name
    close = difflib.get_close_matches(name, known, 1, 0.5)
    return "did you mean %s?" % close[0] if close else "no parameter, accumulator or let has the name %s" % name


def twice(kernel, items, node):
    names = [it for it in items.items if it.kind in ("param", "var", "let")] + ([kernel.loop] if kernel.loop else [])
    first = next((it for it in names if it.name == node.name and it is not node), None)
    line = kernel.text[: first.place].count("\n") + 1 if first else 0
    return "each name is declared once in the whole kernel; line %d has %s too" % (line, node.name)


def of_item(kernel, items, node, told):
    """The remedy for a refusal that names an item."""
    sides = re.match(r"want (\w+) found (\w+)", told)
    if sides:
        return wanted(kernel, items, node, *sides.groups())
    if told.startswith("wrong kind"):
        return wrong_kind(kernel, items, node)
    if told.startswith("unknown name"):
        return unknown(kernel, items, node)
    if told.startswith("name declared twice"):
        return twice(kernel, items, node)
    if told.startswith("no type"):
        return no_type(kernel, node)
    if told.startswith("literal out of range"):
        return out_of_range(kernel, items, node)
    if told.startswith("shift out of range"):
        return "a shift of %s is by at most %d" % (node.type, bits(node.type) - 1) if node.type else None
    if told.startswith("offset out of range"):
        return "an offset is from -1024 to 1024: hand the kernel another address"
    return None
