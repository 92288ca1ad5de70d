"""What of the tree the tools read: the crates of crates.txt, and files of the repository. What is made or copied below it is left out."""
import os
import re

# the folders that stand beside crates/ and docs/
FOLDERS = (".ci", "bench", "examples", "page", "tools")


def crates():
    """The crates of crates.txt, in its order."""
    with open("crates.txt", encoding="utf-8") as it:
        return re.findall(r"^(\w+)[^:#]*:", it.read(), re.M)


def files(*folders, ending=""):
    """The paths of the files below these folders, in order, but for what stands in a folder `out` or in one whose name begins with a dot
    or two underscores."""
    found = []
    for folder in folders:
        for here, inner, names in os.walk(folder):
            inner[:] = [it for it in inner if it != "out" and not it.startswith((".", "__"))]
            found += [os.path.join(here, name) for name in names if name.endswith(ending)]
    return sorted(found)


def of_crates(part, ending=""):
    """The same in this part of each crate: src, specs, proofs, must-fail or edits."""
    return files(*(f"crates/{it}/{part}" for it in sorted(crates())), ending=ending)
