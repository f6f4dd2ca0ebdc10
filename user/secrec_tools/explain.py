"""From the line of a refusal or an end, and the words of its call, to all that is known of it."""
from __future__ import annotations

import os
import re
import subprocess
from dataclasses import dataclass, field

from . import cures, explain_files, explain_input, explain_program, explain_run
from .commands import Table
from .findings import Finding
from .manual import form_of, rows_of, sign_of
from .program import NoProgram, find_program
from .reading import entries, verdict
from .standard_input import descriptors, held

REFUSAL = re.compile(r"(error: )?([LYDX]\d+|I\d|Q\d|S\d|V\d|Z\d|[NCBM]\d+)( (line|column|entry|place|need|have|link|sent|miner|public|opened|\d+|[a-z_A-Z0-9]+))*")
LINE = re.compile(r"error: \S.*|end (done|trap|budget|tape)\b.*|need \d+ \d+ \d+ \d+")
DEFAULT_BUDGET = 1_000_000
PROGRAM_SIGNS, INPUT_SIGNS = "LYDX", "I"


@dataclass
class Call:
    """The words of a call, as far as they are known: the command, its files and options."""

    table: Table
    words: list[str]
    program: str | None = None
    input: str | None = None
    options: dict[str, str] = field(default_factory=dict)

    def budget(self) -> int:
        given = self.options.get("--budget", "")
        return int(given) if given.isdigit() else DEFAULT_BUDGET

    def text(self) -> bytes | None:
        return explain_files.read(self.program)


def read_call(table: Table, words: list[str]) -> Call:
    """Takes the words of a call; a program and an input are known by their endings, too."""
    if words and os.path.basename(words[0]) in ("secrec", "try"):
        words = words[1:]
    call, rest = Call(table, words), list(words)
    if rest and rest[0] in table.commands:
        rest.pop(0)
    while rest:
        word = rest.pop(0)
        if word.startswith("--") and word != "--":
            name, attached, value = word.partition("=")
            call.options[name] = value if attached else rest.pop(0) if rest else ""
        elif word.endswith(".json"):
            call.options.setdefault("--input", word)
        elif word not in ("1", "2", "3", "--"):
            call.program = word
    call.input = call.options.get("--input") or call.options.get("--public")
    call.input = held(call.input) if call.input else None
    return call


def split_line(words: list[str], commands) -> tuple[str | None, list[str]]:
    """The line among the words, as one word or as several, and the words after it; None where no line is given."""
    if not words or words[0] in commands or os.path.basename(words[0]) == "secrec":
        return None, words
    for count in range(len(words), 0, -1):
        line = " ".join(words[:count])
        if count == 1 and (LINE.fullmatch(line) or REFUSAL.fullmatch(line)) or count > 1 and is_line(words[:count]):
            return (line if LINE.fullmatch(line) else f"error: {line}"), words[count:]
    return None, words


def is_line(words: list[str]) -> bool:
    """Whether several words together are the line of a refusal or an end, and no path is among them."""
    line = " ".join(words)
    known = re.fullmatch(r"(error: )?[A-Z]\d+( (line|column|entry|place|need|have|link|sent|miner) \d+| (inputs|name|domain|type|value|shape|lens))*", line)
    end = re.fullmatch(r"end (done|budget|tape \d need \d+ have \d+|trap [A-Z][a-z]+ line \d+) cost \d+", line)
    return bool(known or end or re.fullmatch(r"error: (usage|write|memory|file \S+)", line))


def said_again(call: Call) -> str | None:
    """What is said of this call: of a program alone by `check`, with inputs by `eval`; None where it is taken well."""
    if call.program is None or call.words[:1] and call.table.faults(call.words) and call.words[0] in call.table.commands:
        return "error: usage"
    try:
        program = find_program(build=False)
    except NoProgram:
        return said_by_reading(call)
    words = ["check", call.program] if call.input is None else ["eval", call.program, "--input", call.input, f"--budget={call.budget()}"]
    found = subprocess.run([program, *words], capture_output=True, text=True, errors="replace", pass_fds=descriptors())
    if found.returncode == 0:
        return None
    told = (found.stderr if found.stderr.strip() else found.stdout).strip().split("\n")
    return told[-1]


def said_by_reading(call: Call) -> str | None:
    """The same by the second reading, where no program is built."""
    text = call.text()
    if text is None:
        return f"error: file {call.program}"
    refusal = verdict.judge(text).refusal
    if refusal is not None or call.input is None:
        return None if refusal is None else f"error: {refusal}"
    data = explain_files.read(call.input)
    if data is None:
        return f"error: file {call.input}"
    inputs = entries.entries_or_fault(data, False)
    if isinstance(inputs, str):
        return f"error: {inputs}"
    _, report = explain_run.evaluated(text, list(inputs), call.budget())
    return None if report.end.status == 0 else report.end_line()


def unfit(finding: Finding, text: str) -> Finding:
    finding.note(text)
    return finding


def finding_of(line: str, call: Call) -> Finding:
    """All that is known of a line."""
    sign = sign_of(line)
    if line.startswith("end "):
        return explain_run.explain(line, call)
    if line.startswith("need "):
        finding = Finding(line, means="the words of the tapes of the dealer and of miners 1, 2 and 3 that the evaluation used, up to its end")
        cures.of_call(finding, call, [int(one) for one in line.split()[1:5] if one.isdigit()])
        return unfit(finding, "where the status is 7 or 1 the evaluation ended at its budget or a trap, and the numbers are too small for the whole run: `eval` shows the end")
    if sign[:1] in PROGRAM_SIGNS and sign[1:].isdigit():
        text = call.text() if call.program else None
        if text is not None and fits(line, text):
            return explain_program.explain(line, call.program, text)
        return general(line, call, text is not None)
    if sign[:1] == INPUT_SIGNS and sign[1:].isdigit():
        data = explain_files.read(call.input)
        if data is not None:
            try:
                return explain_input.explain(line, call.input, data)
            except (LookupError, TypeError, ValueError):
                return general(line, call, True)
    return explain_files.explain(line, call)


def fits(line: str, text: bytes) -> bool:
    """Whether this is what is said of this program."""
    return f"error: {verdict.judge(text).refusal}" == line


def general(line: str, call: Call, read: bool) -> Finding:
    """What is known of a sign alone."""
    rows = rows_of(sign_of(line))
    finding = Finding(line, means=form_of(line) if sign_of(line)[:1] == "I" else rows[0].means if rows else form_of(line))
    if read:
        finding.note("this isn't what is said of the file as it stands now: it may have changed, or it is another one")
    return finding
