"""What crates.txt says: the crates, each with what it stands on; and where an imported file of definitions or lemmas stands.

Run by itself, it prints for each crate all crates of the repository below it, as `NAME: CRATE ..`.
"""
import functools
import os
import re


def listed(path="crates.txt"):
    """What each crate lists, in the order of the file."""
    found = {}
    with open(path, encoding="utf-8") as lines:
        for line in lines:
            name, colon, rest = line.split("#")[0].partition(":")
            if colon:
                found[name.split()[0]] = rest.split()
    return found


def all_below(crates, crate, found=None):
    """All crates of the repository that a crate stands on, itself or through others."""
    found = set() if found is None else found
    for name in crates[crate]:
        if name in crates and name not in found:
            found.add(name)
            all_below(crates, name, found)
    return found


@functools.cache
def passed_on(crate, part):
    """The files of lower crates that a crate passes on to those above: by name, the path there, split at its dots."""
    file = os.path.join("crates", crate, part, "Lib.antt")
    if not os.path.exists(file):
        return {}
    with open(file, encoding="utf-8") as text:
        paths = [it.split(".") for it in re.findall(r"^pub use Rattle\.(\S+)$", text.read(), re.M)]
    return {path[-1]: path for path in paths}


def at_home(parts):
    """An import's path, split at its dots, by the crate where the file stands and not by one that passes it on."""
    while len(parts) > 2 and parts[2] in passed_on(parts[0], parts[1]):
        parts = [*passed_on(parts[0], parts[1])[parts[2]], *parts[3:]]
    return parts


if __name__ == "__main__":
    CRATES = listed()
    for each in CRATES:
        print(f"{each}: {' '.join(sorted(all_below(CRATES, each)))}")
