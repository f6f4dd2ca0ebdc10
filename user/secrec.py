"""Calls `secrec` from Python: one file, with nothing but Python's own library. Copy it beside your script.

    import secrec

    found = secrec.run("mean.sc", {"pay": secrec.private([2400, 3100]), "fewest": 3})
    found["mean"]                  # the one element that was published under this name; found.results has all of them, by name
    secrec.need("mean.sc", "mean.json").miners

Inputs are the path of an input file, or a mapping from names to values: a number, a truth value or a list of either is public, and private within
`private(..)`. Numbers within `Signed(..)` have a sign and are of the type int64, as in `private(Signed([-250, 1500]))`; another number below 0 is written as
2^64 less its distance from 0, a uint64. Programs are paths.

`run` draws a tape of the system's random words, of which no file has a name, and runs on shares by `secrec run`. What is refused raises `Refused`, and a
run that ends early `Ended`, with the line that `secrec` tells. The command is `secrec` on the path, or what SECREC_PROGRAM names, or what `program=` says.
"""
from __future__ import annotations

import contextlib
import json
import os
import re
import shutil
import struct
import subprocess
import tempfile
from collections.abc import Iterator, Mapping, Sequence
from dataclasses import dataclass, field
from typing import Union

__all__ = [
    "Dealt", "Ended", "Need", "NoProgram", "Private", "Published", "Refused", "Run", "SecrecErr", "Signed", "deal", "join", "need", "private", "run", "signed",
]

BUDGETS = (10**6, 10**8, 10**10)
WORD_END, MOST_WORDS, PIECE = 1 << 64, 1 << 24, 1 << 20
DONE, BUDGET_ENDED = 0, 7
ENDS = {1: "trap", 7: "budget", 8: "tape"}

Word = Union[int, bool]
Value = Union[Word, Sequence[Word]]
Path = Union[str, "os.PathLike[str]"]


class SecrecErr(Exception):
    """Something has gone wrong with a call."""


class NoProgram(SecrecErr):
    """There is no command `secrec` to call."""


class Refused(SecrecErr):
    """The program, an input, a tape or a file was refused: `line` is what `secrec` said, `sign` names it (D4, I2, file, ..), `place` is line and column of a
    program where it names them, and `status` is the status."""

    def __init__(self, line: str, status: int):
        super().__init__(line)
        self.line, self.status = line, status
        words = line.removeprefix("error: ").split()
        self.sign = words[0] if words else ""
        found = re.search(r" line (\d+) column (\d+)", line)
        self.place = (int(found[1]), int(found[2])) if found else None


class Ended(SecrecErr):
    """A run ended early: `kind` is trap, budget or tape, `line` the line of the end, and `run` what was told up to there, where there was a run."""

    def __init__(self, line: str, status: int, run: Run | None = None):
        super().__init__(line)
        self.line, self.status, self.kind, self.run = line, status, ENDS.get(status, "other"), run


@dataclass(frozen=True)
class Private:
    """A value that nobody but its owner may see."""

    value: Value | Signed


@dataclass(frozen=True)
class Signed:
    """Numbers with a sign, of the type int64."""

    value: Value


def private(value: Value | Signed) -> Private:
    """Marks an input as private."""
    return Private(value)


Inputs = Union[Path, Mapping[str, Union[Value, Signed, Private]]]


@dataclass(frozen=True)
class Need:
    """How many words the tapes of a run take."""

    dealer: int
    miners: tuple[int, int, int]

    def lengths(self) -> tuple[int, int, int, int]:
        return (self.dealer, *self.miners)


@dataclass(frozen=True)
class Published:
    """What was published at one place of a run."""

    name: str
    values: tuple[Word, ...]


@dataclass
class Run:
    """The text of a run: what was opened, what was published, and its end, in order."""

    opened: list[tuple[Word, ...]] = field(default_factory=list)
    published: list[Published] = field(default_factory=list)
    end: str = ""

    @property
    def results(self) -> dict[str, list[Word]]:
        """All elements that were published under each name."""
        found: dict[str, list[Word]] = {}
        for one in self.published:
            found.setdefault(one.name, []).extend(one.values)
        return found

    def __getitem__(self, name: str) -> Word:
        """The one element that was published under a name."""
        values = self.results[name]
        if len(values) != 1:
            raise LookupError(f"{name} has {len(values)} elements: take results[{name!r}]")
        return values[0]


@dataclass(frozen=True)
class Dealt:
    """The files that `deal` has written: the share file and the tape of each miner."""

    shares: tuple[str, str, str]
    tapes: tuple[str, str, str]


def signed(word: int) -> int:
    """The number with a sign for which a uint64 stands; what is published of the type int64 has its sign."""
    return word - WORD_END if word >= WORD_END // 2 else word


def entry(name: str, given: Value | Signed | Private) -> dict[str, object]:
    """An entry of an input file. A number below 0 that isn't `Signed` stands as its word, 2^64 more."""
    value = given.value if isinstance(given, Private) else given
    has_sign, value = isinstance(value, Signed), value.value if isinstance(value, Signed) else value
    elements = list(value) if isinstance(value, Sequence) else [value]
    if not all(isinstance(one, int) and -WORD_END // 2 <= one < WORD_END for one in elements):
        raise TypeError(f"{name}: an input is a whole number from -2^63 to 2^64 - 1, a truth value, or a list of either")
    kinds = {isinstance(one, bool) for one in elements}
    if len(kinds) > 1:
        raise TypeError(f"{name}: numbers and truth values stand in one list")
    if has_sign and (True in kinds or any(one >= WORD_END // 2 for one in elements)):
        raise TypeError(f"{name}: what is Signed are numbers from -2^63 to 2^63 - 1")
    words = [one if has_sign or isinstance(one, bool) else one % WORD_END for one in elements]
    made = words if isinstance(value, Sequence) else words[0]
    kind = "int64" if has_sign else "bool" if kinds == {True} else "uint64"
    return {"name": name, "domain": "private" if isinstance(given, Private) else "public", "type": kind, "value": made}


@contextlib.contextmanager
def nameless(write) -> Iterator[tuple[str, tuple[int, ...]]]:
    """A file without a name: its path for the program, and the descriptors that it must inherit."""
    with tempfile.TemporaryFile() as file:
        write(file)
        file.flush()
        yield f"/dev/fd/{file.fileno()}", (file.fileno(),)


@contextlib.contextmanager
def input_file(inputs: Inputs) -> Iterator[tuple[str, tuple[int, ...]]]:
    """The input file, likewise."""
    if isinstance(inputs, Mapping):
        text = json.dumps({"inputs": [entry(name, value) for name, value in inputs.items()]}).encode()
        with nameless(lambda file: file.write(text)) as found:
            yield found
    else:
        yield os.fspath(inputs), ()


def tape_file(lengths: Sequence[int]):
    """A tape of the system's random words, likewise."""

    def write(file):
        file.write(struct.pack(f"<{len(lengths)}Q", *lengths))
        left = 8 * sum(lengths)
        while left:
            file.write(os.urandom(min(left, PIECE)))
            left -= min(left, PIECE)

    return nameless(write)


def command(program: Path | None) -> str:
    found = os.fspath(program) if program is not None else os.environ.get("SECREC_PROGRAM") or shutil.which("secrec")
    if not found:
        raise NoProgram("there is no command `secrec` on the path")
    return found


def called(program: Path | None, words: Sequence[str], descriptors: Sequence[int] = ()) -> tuple[str, int]:
    """What a call prints, and its status; a refusal is raised."""
    try:
        done = subprocess.run([command(program), *words], capture_output=True, text=True, pass_fds=tuple(descriptors), umask=0o077)
    except OSError as problem:
        raise NoProgram(f"{problem.filename}: {problem.strerror}") from None
    if done.returncode and done.returncode not in ENDS:
        told = [line for line in done.stderr.splitlines() if line.startswith("error:")]
        raise Refused(told[-1] if told else done.stderr.strip() or f"status {done.returncode}", done.returncode)
    return done.stdout, done.returncode


def element(word: str) -> Word:
    return word == "true" if word in ("true", "false") else int(word)


def read_run(text: str) -> Run:
    """Reads the text of a run."""
    found = Run()
    for line in text.splitlines():
        kind, *words = line.split(" ")
        if kind == "open":
            found.opened.append(tuple(map(element, words)))
        elif kind == "publish":
            found.published.append(Published(words[0], tuple(map(element, words[1:]))))
        else:
            found.end = line
    return found


def ended_well(text: str, status: int) -> Run:
    """The run that a text tells, which came to its end."""
    found = read_run(text)
    if status != DONE:
        raise Ended(found.end, status, found)
    return found


def needed(program: Path | None, source: str, inputs: str, descriptors: Sequence[int], budget: int | None) -> tuple[Need, int]:
    """The words of the whole run, and a budget that suffices."""
    for tried in BUDGETS if budget is None else (budget,):
        words = ["need", source, "--input", inputs, f"--budget={tried}"]
        text, status = called(program, words, descriptors)
        if status != BUDGET_ENDED:
            break
    if status != DONE:
        shown, status = called(program, ["eval", *words[1:]], descriptors)
        raise Ended(read_run(shown).end, status)
    dealer, *miners = map(int, text.split()[1:])
    return Need(dealer, (miners[0], miners[1], miners[2])), tried


def need(source: Path, inputs: Inputs, *, budget: int | None = None, program: Path | None = None) -> Need:
    """How many random words a run takes; to know it the program is evaluated in the clear."""
    with input_file(inputs) as (path, descriptors):
        return needed(program, os.fspath(source), path, descriptors, budget)[0]


def run(source: Path, inputs: Inputs, *, budget: int | None = None, program: Path | None = None) -> Run:
    """Runs a program on shares, on a tape of random words of its own. Without a budget 10^6, 10^8 and 10^10 are tried."""
    with input_file(inputs) as (path, descriptors):
        wanted, budget = needed(program, os.fspath(source), path, descriptors, budget)
        if max(wanted.lengths()) > MOST_WORDS:
            raise Ended(f"the run takes {max(wanted.lengths())} words of one tape, and a tape has at most {MOST_WORDS}", 8)
        with tape_file(wanted.lengths()) as (tape, more):
            words = ["run", os.fspath(source), "--input", path, "--tape", tape, f"--budget={budget}"]
            return ended_well(*called(program, words, (*descriptors, *more)))


def deal(inputs: Inputs, lengths: Need | Sequence[int], to: Path, *, program: Path | None = None) -> Dealt:
    """Splits inputs into the share files TO.1 to TO.3, with the tapes TO.t1 to TO.t3 of random words; all are for their owner alone."""
    prefix = os.fspath(to)
    with input_file(inputs) as (path, descriptors), tape_file(lengths.lengths() if isinstance(lengths, Need) else lengths) as (tape, more):
        called(program, ["deal", "--input", path, "--tape", tape, "--to", prefix], (*descriptors, *more))
    return Dealt((f"{prefix}.1", f"{prefix}.2", f"{prefix}.3"), (f"{prefix}.t1", f"{prefix}.t2", f"{prefix}.t3"))


def join(texts: Sequence[Path], *, program: Path | None = None) -> Run:
    """Puts the texts of miners 1, 2 and 3 together."""
    return ended_well(*called(program, ["join", *map(os.fspath, texts)]))
