"""What the Python scripts of this folder begin with: --help, their words, and a fault of a file or a program as a line."""

import os
import subprocess
import sys

SVEC = "SVEC"
NAME = os.path.basename(sys.argv[0])
TOP = os.path.join(os.path.dirname(os.path.realpath(__file__)), "..")


def refuse(line, status=1):
    print("%s: %s" % (NAME, line), file=sys.stderr)
    sys.exit(status)


def told(kind, fault, trace):
    """A file or a program that is not there, or that fails, is told in a line."""
    if issubclass(kind, subprocess.CalledProcessError):
        said = fault.stderr.decode(errors="replace") if isinstance(fault.stderr, bytes) else fault.stderr or ""
        print("%s: %s: status %d %s" % (NAME, " ".join([os.path.basename(fault.cmd[0]), *map(str, fault.cmd[1:])]), fault.returncode, said.strip()), file=sys.stderr)
    elif issubclass(kind, OSError):
        print("%s: %s%s" % (NAME, "%s: " % fault.filename if fault.filename else "", fault.strerror or fault), file=sys.stderr)
    elif not issubclass(kind, KeyboardInterrupt):
        sys.__excepthook__(kind, fault, trace)


def program(path=None):
    """The svec to use, from any folder; one that is not there is told at once."""
    path = os.path.abspath(path or os.path.join(TOP, "svec"))
    if not os.path.isfile(path) or not os.access(path, os.X_OK):
        refuse("%s: there is no such program" % path)
    asked = subprocess.run([path], stdin=subprocess.DEVNULL, stdout=subprocess.DEVNULL, stderr=subprocess.PIPE)
    if asked.returncode != 2 or not asked.stderr.startswith(b"svec: "):
        refuse("%s does not answer as svec does" % path)
    return path


def helped():
    if sys.argv[1:] and sys.argv[1] in ("--help", "-h"):
        print(sys.modules["__main__"].__doc__.strip())
        sys.exit(0)


def words(*defaults, options=()):
    """The script's words, in the place of these defaults: numbers, and the svec to use. What is none of them has status 2."""
    helped()
    given = [it for it in sys.argv[1:] if it not in options]
    wrong = [it for it in given if it.startswith("--")] or given[len(defaults) :]
    if wrong:
        refuse("%s is no word of it; --help says more" % wrong[0], 2)
    found = []
    for at, default in enumerate(defaults):
        word = given[at] if at < len(given) else None
        if default is SVEC:
            found.append(program(word))
        elif word is not None and not word.isdecimal():
            refuse("%s is no number; --help says more" % word, 2)
        else:
            found.append(int(word) if word is not None else default)
    return found


sys.excepthook = told
