"""How the tools ask svec: the program that the variable SVEC names, or the script `svec` beside the folder of the tools."""

import os
import signal
import subprocess
import sys
import tempfile

HERE = os.path.dirname(os.path.realpath(__file__))
SVEC = os.environ.get("SVEC") or os.path.join(HERE, "..", "svec")
# what the script `svec` says of its own
STATUSES = (0, 2, 3, 4, 5, 6, 7, 8, 9)
OWN = ("svec: answered by a checked build", "svec: making a checked program", "svec: building")
# the programs that the script answers by; once it has answered, later questions of one run go to the same one directly
BUILT = os.path.join(HERE, "..", "crates", "svec", "out", "svec")
passed_on, direct = set(), []


class Refused(Exception):
    """Ends a tool with a line on the error output and a status."""

    def __init__(self, line, status):
        super().__init__(line)
        self.status = status


def lines_of(child):
    """The lines of a child's error output. What ends this script while it waits ends the child too."""
    told = []
    try:
        for line in child.stderr:
            told.append(line.decode(errors="replace").rstrip("\n"))
            if told[-1].startswith(OWN) and told[-1] not in passed_on:
                passed_on.add(told[-1])
                print(told[-1], file=sys.stderr, flush=True)
        child.wait()
    except BaseException:
        child.terminate()
        raise
    return told


def heard(asked, words):
    """The status of a program, what it prints, and the lines of its error output; what the script says of its own is passed on at
    once, and the first time alone."""
    environment = {"ASAN_OPTIONS": "detect_leaks=0", **os.environ}
    try:
        with tempfile.TemporaryFile() as printed:
            with subprocess.Popen([asked, *words], env=environment, stdin=subprocess.DEVNULL, stdout=printed, stderr=subprocess.PIPE) as it:
                told = lines_of(it)
            printed.seek(0)
            return it.returncode, printed.read().decode(errors="replace"), told
    except OSError as fault:
        raise Refused("%s: %s (the variable SVEC names the program)" % (asked, fault.strerror), 1)


def ask(*words):
    """The status of a command, what it prints, and its line on the error output but for what the script says of its own."""
    status, printed, told = heard(direct[0] if direct else SVEC, words)
    if not direct and not os.environ.get("SVEC") and status in STATUSES:
        answered = BUILT + (".checked" if any(it.startswith(OWN[0]) for it in told) else "")
        direct.append(answered if os.access(answered, os.X_OK) else SVEC)
    told = [it for it in told if it and not it.startswith(OWN)]
    if status == 1 and told and told[0].startswith("svec: "):
        # the script could make no program, and said why
        raise Refused("\n".join(told), 1)
    if status not in STATUSES or (words[0] == "check" and status == 0 and "\nclass " not in printed):
        raise Refused("%s: status %d, which is no answer of svec: %s" % (SVEC, status, " ".join(told)), 1)
    return status, printed, "".join(it + "\n" for it in told)


def bytes_of(path):
    """The bytes of a file, as text of one character a byte."""
    try:
        with open(path, "rb") as it:
            return it.read().decode("latin-1")
    except OSError as fault:
        raise Refused("%s: %s" % (path, fault.strerror), 8)


def write(path, held):
    """Writes these bytes to a file, and makes its folder. A file that cannot be written whole is not left there."""
    try:
        os.makedirs(os.path.dirname(path) or ".", exist_ok=True)
        with open(path, "wb") as it:
            it.write(held)
    except OSError as fault:
        if os.path.isfile(path):
            os.remove(path)
        raise Refused("%s: %s" % (fault.filename or path, fault.strerror), 8)


def asked(words, holds):
    """Ends a script of few words by what --help prints, or by its usage and status 2 where its words are none."""
    usage = sys.modules["__main__"].__doc__.strip()
    if "--help" in words or "-h" in words:
        print(usage)
        sys.exit(0)
    if not holds:
        print(next((it for it in usage.split("\n\n") if it.startswith("usage:")), usage), file=sys.stderr)
        sys.exit(2)


def ended(number, _):
    """A signal that ends this script ends it by way of what it waits for."""
    sys.exit(128 + number)


def run(main, usage):
    """Runs the `main` of a tool: `--help`, what it refuses as a line, and an output that fails."""
    words = sys.argv[1:]
    signal.signal(signal.SIGTERM, ended)
    for it in (sys.stdout, sys.stderr):
        # (a file's name may be any bytes)
        it.reconfigure(encoding="utf-8", errors="surrogateescape")
    if "--help" in words or "-h" in words:
        print(usage)
        sys.exit(0)
    try:
        status = main(words)
        sys.stdout.flush()
    except Refused as refused:
        sys.stdout.flush()
        print(refused, file=sys.stderr)
        status = refused.status
    except OSError as fault:
        print("%s: output failed: %s" % (os.path.basename(sys.argv[0]), fault.strerror), file=sys.stderr)
        # what is left in the buffer is not tried again
        os.dup2(os.open(os.devnull, os.O_WRONLY), 1)
        status = 9
    except KeyboardInterrupt:
        status = 130
    sys.exit(status)
