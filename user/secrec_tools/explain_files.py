"""What is known of other refusals: of tapes, schedules, opened files, twins, paths and calls."""
from __future__ import annotations

import os
import struct
from difflib import get_close_matches

from . import cures
from .explain_run import TAPES, asked
from .findings import Finding, spot_of
from .manual import form_of, rows_of, sign_of

TAPE_LIMIT = 1 << 24
FILE_LIMIT = 1 << 32
MEANS = {
    "usage": "the words ask for no command",
    "file": "a file could not be read, or could not be written",
    "write": "what is printed can't be written: the disk is full, or the reader has gone; a part of the text may be printed",
    "memory": "memory ran out, which may happen at any time",
}


def read(path: str | None) -> bytes | None:
    try:
        with open(path, "rb") as file:
            return file.read(FILE_LIMIT)
    except (OSError, TypeError):
        return None


def of_tape(finding: Finding, call):
    """What is wrong with a tape file."""
    path = call.options.get("--tape") or call.options.get("--sim")
    data = read(path)
    if data is None:
        return
    if len(data) < 32:
        finding.note(f"{path} has {len(data)} bytes; four lengths alone have 32")
    elif data.lstrip()[:1] in (b"{", b"[") or all(byte < 128 and (byte >= 32 or byte in b"\r\n\t") for byte in data[:64]):
        finding.note(f"{path} is a text, and no tape file: these are binary, as `random_tape` makes them")
    else:
        lengths = struct.unpack_from("<4Q", data)
        over = [(place, length) for place, length in enumerate(lengths) if length > TAPE_LIMIT]
        if over:
            finding.note(f"by its first 32 bytes {TAPES[over[0][0]]} would have {over[0][1]} words, and {TAPE_LIMIT} is the most")
            cures.of_call(finding, call, list(lengths))
        else:
            wanted = 32 + 8 * sum(lengths)
            finding.note(f"{path} has lengths of {', '.join(map(str, lengths))} words, so it would have {wanted} bytes; it has {len(data)}")


def of_line_file(finding: Finding, call, option: str):
    """The line of a file of lines that is refused."""
    path, words = call.options.get(option), finding.line.split()
    data = read(path)
    if data is None or "line" not in words:
        return
    number = int(words[words.index("line") + 1])
    lines = data.split(b"\n")
    finding.spot = spot_of(path, data, number, 1)
    if number == len(lines) and lines[-1]:
        finding.note("this line has no newline after it")


def of_entry(finding: Finding, call):
    """The entry of a schedule that can't be delivered."""
    words = finding.line.split()
    path = call.options.get("--schedule")
    data = read(path)
    if data is not None:
        finding.spot = spot_of(path, data, int(words[words.index("entry") + 1]) + 1, 1, 2)
    link, sent = words[words.index("link") + 1], words[words.index("sent") + 1]
    finding.note(f"miner {link[0]} has sent {sent} messages to miner {link[1]} by then, and all of them were delivered before; `run --record` writes an order that can be followed")


def of_dealer(finding: Finding, call):
    need = asked(["need", call.program, "--input", call.input]) if call.program and call.input else None
    if need and need.startswith("need "):
        finding.note(f"this program takes {need.removeprefix('need ')} words on these inputs")


def of_twin(finding: Finding, call):
    """How the public parts of two inputs differ."""
    first, second = call.options.get("--input"), call.options.get("--second")
    if "public" in finding.line.split() and first and second:
        finding.note(f"{first} and {second} differ first at the entry `{finding.line.split()[-1]}`: names, order, types, sizes and public values must be the same")


def of_path(finding: Finding, call):
    """What is wrong with a path."""
    path = finding.line.split("file ", 1)[1]
    folder, name = os.path.split(path)
    if os.path.isdir(path):
        finding.note(f"{path} is a folder")
    elif folder and not os.path.isdir(folder):
        finding.note(f"there is no folder {folder}")
    elif os.path.exists(path) and os.access(path, os.R_OK):
        too_large = os.path.getsize(path) > FILE_LIMIT
        finding.note("it has over 4 GiB" if too_large else "it can be read now: was it to be written, and may you write there?")
    elif os.path.exists(path):
        finding.note(f"{path} is there, and you may not read it")
    else:
        try:
            near = get_close_matches(name, os.listdir(folder or "."), 1, 0.6)
        except OSError:
            near = []
        finding.note(f"there is no file {path}" + (f"; is `{os.path.join(folder, near[0])}` meant?" if near else ""))


def of_usage(finding: Finding, call):
    """What is wrong with the words of a call."""
    if call.words:
        for fault in call.table.faults(call.words):
            finding.note(fault)
        command = call.table.commands.get(call.words[0])
        if command:
            finding.note(f"it is called so: `secrec {command.synopsis}`")


def explain(line: str, call) -> Finding:
    """All that is known of such a refusal."""
    finding, sign = Finding(line), sign_of(line)
    rows = [row for row in rows_of(sign) if row.kind == "what you called"]
    finding.means = MEANS.get(sign) or form_of(line) or (rows[0].means if rows else "")
    ways = {
        "Q1": of_tape, "Q2": of_dealer, "S2": of_entry, "Z1": of_twin, "file": of_path, "usage": of_usage,
        "S1": lambda *both: of_line_file(*both, "--schedule"), "V1": lambda *both: of_line_file(*both, "--opened"),
    }
    if sign in ways:
        ways[sign](finding, call)
    if rows and sign not in ("usage", "file"):
        finding.row = rows[0]
    return finding
