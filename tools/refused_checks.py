"""The checks of wrong bodies that were seen refused, each by a checksum of what decides it, and which of them are tried again.

A checksum takes the logic of the kit, the edits, the crate's line of crates.txt, its sources, and of the crates below it what their built libraries tell to
those above: interfaces, contracts, definitions, and the statements of lemmas. These are the same wherever and whenever the same sources were built. Bodies
and proofs below are left out: a body that breaks its contract breaks it whatever they are. Left out for the same reason is what the libraries hold of them:
`made.json` (from which the prover makes the steps of each body), the folder `toolchain` (what was checked of those) and `format` (sums of all that).
"""
import collections
import functools
import hashlib
import os
import re
import subprocess

TOP = os.path.dirname(os.path.dirname(os.path.abspath(__file__)))
# In how many parts the lines of the ledger are split, of which each commit has one tried again.
PARTS = 8
LINE = re.compile(r"([0-9a-f]{64}) ([a-z0-9_]+)/(\S+)")
# A declaration of a proof file that crates above can't unfold, so that they see its type alone.
CLOSED = re.compile(r"(?:pub )?(?!(?:abbrev|unfoldable|record|data|use|mod|module|unfolding|pub) )(\S+) :")
IMPORTED = re.compile(r"use (\S+?)(?:\.\{(.*)\})?(?: as (\S+))?")
# A check: its crate, the edits that it tries together, and its checksum.
Check = collections.namedtuple("Check", "crate edits sum")


def checksum(*parts):
    """A checksum of these texts, each with its length, so that no two lists of texts are taken for one another."""
    found = hashlib.sha256()
    for part in parts:
        found.update(b"%d:" % len(part) + part)
    return found.hexdigest()


def texts_in(folder, parts):
    """The files in these parts of a folder in their order, each with its path from there."""
    for part in parts:
        for where, folders, files in os.walk(f"{folder}/{part}"):
            folders.sort()
            for file in sorted(files):
                with open(f"{where}/{file}", "rb") as it:
                    yield os.path.relpath(f"{where}/{file}", folder), it.read()


@functools.cache
def of_sources(crate):
    """A checksum of the files of a crate that its proof reads."""
    return checksum(*(it for path, text in texts_in(f"{TOP}/crates/{crate}", ("src", "specs", "proofs")) for it in (path.encode(), text))).encode()


def imports(chunk, stated):
    """What an import brings of names that stand in these statements."""
    found = IMPORTED.fullmatch(" ".join(chunk.split()))
    if not found:
        return [chunk]
    path, names, other = found.groups()
    if names is None:
        other = other or path.split(".")[-1]
        return [f"use {path} as {other}"] if other.strip("◌") in stated else []
    return [f"use {path}.{name}" for name in sorted(it.strip() for it in names.split(",")) if name.split(" as ")[-1].strip().strip("◌") in stated]


def statements(text):
    """What crates above can see of a file of lemmas: all but comments, proofs, and imports for these alone."""
    kept, used, closed, last = [], [], set(), ""
    for chunk in re.split(r"\n(?=\S)", text.strip()):
        found, first = CLOSED.match(chunk), chunk.split()[0] if chunk.strip() else ""
        if chunk.startswith("use "):
            used.append(chunk)
        elif not (first.startswith("--") or first in closed or (first == "unfolding" and last)):
            kept.append(chunk.rstrip())
        if first != "unfolding":
            last = found[1] if found else ""
        closed |= {last} - {""}
    stated = "\n".join(kept)
    return "\n".join([*(it for chunk in used for it in imports(chunk, stated)), stated])


@functools.cache
def of_library(crate):
    """A checksum of what a built library tells to the crates above it."""
    texts = []
    for path, text in texts_in(f"{TOP}/crates/{crate}/out/rlib/{crate}.rlib", ("interface", "lang")):
        name = os.path.basename(path)
        # (answers and invariants are of one body, and no other crate names them)
        if name not in ("made.json", "Answers.antt", "Invariants.antt"):
            texts += [path.encode(), statements(text.decode()).encode() if path.startswith("lang/antt/proofs/") else text]
    if not texts:
        raise OSError(f"{crate}, which it stands on, isn't built: `rt ci` builds it")
    return checksum(*texts).encode()


@functools.cache
def logic():
    """The logic of the kit that is on the path, as it tells it."""
    told = subprocess.run(["rt", "version"], stdout=subprocess.PIPE, check=True, text=True).stdout
    return re.search(r"\blogic (\S+)", told)[1].encode()


def of_check(crates, lower, crate, edits):
    """A checksum of what decides whether these edits of a crate are refused; `lower` are all crates below it, which must be built."""
    below = [it for name in sorted(lower) for it in (name.encode(), of_library(name))]
    return checksum(logic(), " ".join([crate, *crates[crate]]).encode(), of_sources(crate), *below, *(repr(tuple(edit)).encode() for edit in edits))


def name_of(check):
    return f"{check.crate}/{check.edits[0].name}"


def read_ledger(path):
    """The lines of a ledger: by checksum the crate and the first edit of the check. Raises ValueError for a line that is none."""
    found = {}
    if os.path.exists(path):
        with open(path, encoding="utf-8") as lines:
            for number, line in enumerate(lines, 1):
                if line.strip() and not line.startswith("#"):
                    parts = LINE.fullmatch(line.strip())
                    if not parts:
                        raise ValueError(f"line {number} of {os.path.relpath(path, TOP)} is no checksum with a crate and an edit")
                    found[parts[1]] = f"{parts[2]}/{parts[3]}"
    return found


def write_ledger(path, ledger):
    """Writes a ledger in the place of the one that is there, in the order of its names."""
    with open(f"{path}.new", "w", encoding="utf-8") as file:
        file.write("# Checks of wrong bodies that were seen refused; written by `.ci/bodies_are_refused --write`.\n")
        file.writelines(f"{it} {ledger[it]}\n" for it in sorted(ledger, key=lambda it: (ledger[it], it)))
    os.replace(f"{path}.new", path)


def tree(crates):
    """A checksum of the tree that is judged: git's of the commit, or one of all sources where there is no git."""
    found = subprocess.run(["git", "-C", TOP, "rev-parse", "HEAD^{tree}"], capture_output=True, text=True)
    return found.stdout.strip() if found.returncode == 0 else checksum(*(of_sources(it) for it in sorted(crates)))


def part_of(number):
    """In which part a checksum stands."""
    return int(number, 16) % PARTS


def chosen(checks, ledger, part):
    """The checks that the ledger has no line of, and those of this part that it has."""
    missing = [it for it in checks if it.sum not in ledger]
    return missing, [it for it in checks if it.sum in ledger and part_of(it.sum) == part]


def written(ledger, checks, names, tried, refused):
    """The ledger with a line for each check that was seen refused, without those that were tried and weren't, and without lines that no check of these crates
    has any more (of any crate, where none is named)."""
    current, false = {it.sum for it in checks}, {it.sum for it in tried} - {it.sum for it in refused}
    kept = {it: name for it, name in ledger.items() if it not in false and (it in current or (names and name.split("/")[0] not in names))}
    return {**kept, **{it.sum: name_of(it) for it in refused}}
