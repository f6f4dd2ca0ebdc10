"""Rehearsals: made-up inputs of the true names, types and shapes, and a job that is run on them before the true ones."""
from __future__ import annotations

import json
import secrets
import sys
import tempfile
from collections import Counter

from .program import TOP, call
from .reading import clear, entries
from .tapes import open_private

WORD_END = 1 << 64
# From where to where made-up elements are drawn: numbers are small, so that sums and products of many don't wrap.
DRAWN = {entries.Data.NUMBER: (0, 100), entries.Data.SIGNED: (-100, 100), entries.Data.TRUTH: (0, 2)}
# Ends before the end of the program, to which made-up values may lead.
EARLY = (1, 7, 8)


class Refused(Exception):
    """The inputs are refused; the text is the refusal."""


def read_inputs(paths: list[str]) -> list:
    """The inputs of all these files, in order; no two may have one name."""
    found = []
    for path in paths:
        with open(path, "rb") as file:
            read = entries.entries_or_fault(file.read(), False)
        if isinstance(read, str):
            raise Refused(f"{path}: error: {read}")
        found += read
    for name, count in Counter(one.name for one in found).items():
        if count > 1:
            raise Refused(f"two inputs have the name {name}")
    return found


def entry_of(one, words) -> dict:
    """An entry of an input file, with these words in place of its own."""
    shown = {entries.Data.NUMBER: int, entries.Data.SIGNED: clear.signed, entries.Data.TRUTH: bool}[one.type.data]
    value = [shown(word) for word in words]
    domain = "private" if one.type.private else "public"
    return {"name": one.name, "domain": domain, "type": one.type.data.value, "value": value if one.type.array else value[0]}


def made_up(inputs: list) -> str:
    """The text of an input file with the same public values, and drawn ones in place of the private, of which it tells the shapes alone."""
    found = []
    for one in inputs:
        first, end = DRAWN[one.type.data]
        found.append(entry_of(one, [(first + secrets.randbelow(end - first)) % WORD_END for _ in one.words] if one.type.private else one.words))
    return json.dumps({"inputs": found}, separators=(",", ":")) + "\n"


def dealer_words(inputs: list) -> int:
    """How many words dealing takes: two for each number of a private input, and two for 64 truth values."""
    return clear.dealer_need(inputs)


def job_words(words, given: str) -> list[str]:
    """The words of a job that is like this one, but on other inputs and with nothing that it writes."""
    found = [sys.executable, f"{TOP}/user/secrec-job", words.program, "--input", given]
    for option in ("budget", "port"):
        if getattr(words, option) is not None:
            found.append(f"--{option}={getattr(words, option)}")
    return found + ["--trio"] * words.trio


def rehearse(program: str, words, told) -> int | None:
    """Runs the job on made-up inputs, and holds its text against evaluation's; the status that ends the job, or None where it goes on."""
    with tempfile.TemporaryDirectory(prefix="secrec-job-") as folder:
        given = f"{folder}/made_up.json"
        with open_private(given) as file:
            file.write(made_up(read_inputs([words.input])).encode())
        ran = call(job_words(words, given), out="keep", err="keep", what="rehearsal", starts=True)
        said = ran.err.decode("utf-8", "replace").rstrip("\n")
        if ran.status in EARLY:
            told(f"rehearsal: made-up inputs led to an end before the program's, so little was tried: {said.splitlines()[0] if said else ran.status}")
            return None
        if ran.status:
            told(f"rehearsal: on made-up inputs of the same shapes it ended with status {ran.status}; nothing was run on the true ones\n{said}")
            return ran.status
        budget = said.rsplit("budget ", 1)[-1]
        wanted = call([program, "eval", words.program, "--input", given, f"--budget={budget}"], out="keep", err="keep", what="eval")
    if wanted.out != ran.out:
        told("rehearsal: on made-up inputs it told another text than evaluation; nothing was run on the true ones")
        return 1
    told(f"rehearsal: made-up inputs of the same shapes gave what evaluation gives: {said.removeprefix('secrec-job: ')}")
    return None
