"""What one word or sign would make of a kernel's text that cannot be read: each repair is tried by `svec check` itself."""

import difflib
import os
import re
import tempfile
from concurrent.futures import ThreadPoolExecutor

import program
from kernel_text import RESERVED, TYPES, UPDATES

OPERATORS = "== != < <= > >= << >> + - * & && | || ^ as".split()
# of what a text is tried with, and what it is called: names and numbers; and kinds of words, where many of a kind could stand
SAMPLES = {"a name": "zzz", "a number": "1"}
KINDS = [(OPERATORS, ("+", "==", "&&"), "an operator"), (TYPES, ("u64", "u8"), "a type"), (UPDATES, ("+=",), "an update, as +=,")]
# signs that look or sound alike
MISTAKEN = (":;", ",;", "([", "({", "[{", ")]", ")}", "]}", ":=", "->:")
WHOLE = 1 << 20


class Repair:
    """Words in the place of others: which token it begins at, how many go, what comes; and what is said of it."""

    def __init__(self, at, gone, come, said):
        self.at, self.gone, self.come, self.said = at, gone, come, said

    def made(self, words):
        return words[: self.at] + self.come + words[self.at + self.gone :]


def read_up_to(words, path):
    """Whether a text of these words is accepted, and how many of them are read before one cannot stand."""
    with open(path, "w", encoding="latin-1") as it:
        it.write(" ".join(words))
    status, _, told = program.ask("check", path)
    refused = re.search(r"(?:syntax|too deep) at token (\d+)", told)
    return status == 0, int(refused[1]) if refused else WHOLE


def able(expected):
    """What is tried of what could stand at a place: each word with what it is called."""
    found = [(SAMPLES.get(it, it), it if it in SAMPLES or it in RESERVED else "a " + it) for it in expected if it not in ("the end", "0")]
    for kind, samples, name in KINDS:
        if sum(it in kind for it, _ in found) > 5:
            found = [it for it in found if it[0] not in kind] + [(it, name) for it in samples]
    return found


def missing(word, name, words, n, line):
    """What is said of a word that is missing before the n-th token; `line` is the line of the one before, where that is another."""
    if n and word in ")]};,:":
        return "%s is missing after %s" % (name, words[n - 1]) + (" in line %d" % line if line else "")
    return "%s is missing before it" % name


def candidates(words, n, expected, line=0):
    """The repairs that are tried of a text whose n-th token cannot stand, those first that are said first among equals."""
    here = words[n] if n < len(words) else None
    tries = able(expected)
    instead = [(Repair(n, 1, [it], "write %s instead" % name.replace("a " + it, it)), alike(it, here)) for it, name in tries if here]
    found = [it for it, close in instead if close]
    found += [Repair(n, 0, [it], missing(it, name, words, n, line)) for it, name in tries if it in "()[]{},;:"]
    if here:
        found.append(Repair(n, 1, [], "leave it out"))
    if n:
        found += [Repair(n - 1, 1, [it], "did you mean %s in the place of %s?" % (it, words[n - 1])) for it in close(words[n - 1])]
        found.append(Repair(n - 1, 1, [], "leave out the %s before it" % words[n - 1]))
        if here:
            found.append(Repair(n - 1, 2, [here, words[n - 1]], "%s stands before %s" % (here, words[n - 1])))
    if n + 1 < len(words):
        found.append(Repair(n, 2, [words[n + 1], here], "%s stands before %s" % (words[n + 1], here)))
    found += [Repair(n, 0, [it], "%s is missing before it" % name) for it, name in tries if it not in "()[]{},;:"]
    return found + [it for it, close in instead if not close] + earlier(words, n)


def earlier(words, n):
    """Repairs before the place: a word or sign that is one too many, or a ( that is missing."""
    found = []
    for at in range(n - 2, max(-1, n - 12), -1):
        found.append(Repair(at, 1, [], "leave out the %s before %s" % (words[at], words[at + 1])))
        found += [Repair(at, 0, ["("], "a ( is missing before %s" % words[at])] * (words[at] not in ")];,")
    return found


def alike(word, here):
    """Whether two words are of one kind: a name for a name, a type for a type, a sign for a sign."""
    if word == SAMPLES["a name"]:
        return bool(re.match(r"[A-Za-z_]", here))
    if word in TYPES:
        return bool(re.match(r"[A-Za-z_]", here))
    return not re.match(r"\w", word) and (bool(set(word) & set(here)) or word + here in MISTAKEN or here + word in MISTAKEN)


def close(word):
    """The reserved word that a name looks like."""
    return difflib.get_close_matches(word, RESERVED, 1, 0.6) if word not in RESERVED and len(word) > 1 and word[0].isalpha() else []


def repaired(text, tokens, n, expected):
    """What is said of the repair with which the text is read to its end, one with which it is accepted before others; or None."""
    words = [it for _, it in tokens]
    before, here = (text.count("\n", 0, tokens[at][0]) + 1 if 0 <= at < len(tokens) else 0 for at in (n - 1, n))
    tries = candidates(words, n, expected, before if before != here else 0)
    with tempfile.TemporaryDirectory() as folder, ThreadPoolExecutor(4) as pool:
        found = list(pool.map(lambda it: read_up_to(it[1].made(words), os.path.join(folder, str(it[0]))), enumerate(tries)))
    # (whether a text with a name is accepted is a matter of which name)
    whole = [(not accepted and SAMPLES["a name"] not in tries[at].come, at) for at, (accepted, read) in enumerate(found) if read == WHOLE]
    return tries[min(whole)[1]].said if whole else None
