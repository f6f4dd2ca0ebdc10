"""The files that are written, and tapes, opened words and schedules that are read."""
from __future__ import annotations

import json
import re
import struct

from clear import Event, Input, Report, signed
from joint import LINKS
from refusals import CallRefused
from tree import Data

TAPE_LIMIT = 1 << 24


def compact(value) -> bytes:
    return json.dumps(value, separators=(",", ":"), sort_keys=True).encode()


def shown_value(entry: Input):
    shown = {Data.NUMBER: int, Data.SIGNED: signed, Data.TRUTH: bool}[entry.type.data]
    words = [shown(word) for word in entry.words]
    return words if entry.type.array else words[0]


def shape_of(entry: Input):
    return len(entry.words) if entry.type.array else "scalar"


def common_fields(entry: Input) -> dict:
    domain = "private" if entry.type.private else "public"
    return {"name": entry.name, "domain": domain, "type": entry.type.data.value}


def public_entry(entry: Input) -> dict:
    if entry.type.private:
        return {**common_fields(entry), "shape": shape_of(entry)}
    return {**common_fields(entry), "value": shown_value(entry)}


def write_inputs(inputs: list[Input]) -> bytes:
    return compact({"inputs": [{**common_fields(entry), "value": shown_value(entry)} for entry in inputs]})


def write_loosely(data: bytes, source) -> bytes:
    """The same JSON with blanks, other orders of keys, and fields that say nothing."""
    whole = json.loads(data)
    entries = []
    for entry in whole["inputs"]:
        fields = list(entry.items())
        if source.random() < 0.5:
            fields.append((source.choice(("comment", "lens", "miner", "values", "Name")), source.choice((None, [], {}, 1.5, "x"))))
        source.shuffle(fields)
        entries.append(dict(fields))
    fields = [("inputs", entries), ("other", [[[]]])]
    source.shuffle(fields)
    return json.dumps(dict(fields), indent=source.choice((None, 0, 1, 2, "\t"))).encode() + source.choice((b"", b"\n", b" \r\n\t"))


def write_public(inputs: list[Input]) -> bytes:
    return compact({"inputs": [public_entry(entry) for entry in inputs]})


def write_share(inputs: list[Input], dealt, lengths: list[int], miner: int) -> bytes:
    """What the dealer gives a miner."""
    entries, private = [], iter(dealt)
    for entry in inputs:
        shown = public_entry(entry)
        if entry.type.private:
            shown["share"] = next(private)[miner]
        entries.append(shown)
    return compact({"inputs": entries, "lens": lengths, "miner": miner})


def packed(words: list[int]) -> bytes:
    return struct.pack(f"<{len(words)}Q", *words)


def write_tapes(tapes: list[list[int]]) -> bytes:
    return packed([len(tape) for tape in tapes]) + b"".join(packed(tape) for tape in tapes)


def write_own_tape(tape: list[int]) -> bytes:
    return packed([len(tape)]) + packed(tape)


def read_tapes(data: bytes) -> list[list[int]]:
    """The four tapes."""
    if len(data) < 32:
        raise CallRefused(f"Q1 place {len(data)}", 5)
    lengths = struct.unpack_from("<4Q", data)
    for party, length in enumerate(lengths):
        if length > TAPE_LIMIT:
            raise CallRefused(f"Q1 place {8 * party}", 5)
    size = 32 + 8 * sum(lengths)
    if len(data) != size:
        raise CallRefused(f"Q1 place {min(size, len(data))}", 5)
    tapes, place = [], 32
    for length in lengths:
        tapes.append(list(struct.unpack_from(f"<{length}Q", data, place)))
        place += 8 * length
    return tapes


WORD_FORM = re.compile(rb"0|[1-9][0-9]{0,19}")
BELOW_FORM = re.compile(rb"-[1-9][0-9]{0,18}")


def lines_of(data: bytes) -> tuple[list[bytes], bool]:
    """The lines, and whether the last one has its newline."""
    if not data:
        return [], True
    lines = data.split(b"\n")
    if lines[-1] == b"":
        return lines[:-1], True
    return lines, False


def read_opened(data: bytes) -> list[int]:
    """The words of all lines."""
    lines, whole = lines_of(data)
    words = []
    for number, line in enumerate(lines, 1):
        parts = line.split(b" ")
        if parts[0] != b"open" or (number == len(lines) and not whole):
            raise CallRefused(f"V1 line {number}", 4)
        for part in parts[1:]:
            words.append(opened_word(part, number))
    return words


NAME = re.compile(rb"[A-Za-z0-9_]{1,64}")


def read_published(data: bytes) -> list[int]:
    """The words of all lines; names are not kept."""
    lines, whole = lines_of(data)
    words = []
    for number, line in enumerate(lines, 1):
        parts = line.split(b" ")
        named = len(parts) > 1 and NAME.fullmatch(parts[1])
        if parts[0] != b"publish" or not named or (number == len(lines) and not whole):
            raise CallRefused(f"V1 line {number}", 4)
        for part in parts[2:]:
            words.append(opened_word(part, number))
    return words


def opened_word(part: bytes, line: int) -> int:
    if part in (b"true", b"false"):
        return int(part == b"true")
    if BELOW_FORM.fullmatch(part) and -int(part) <= 1 << 63:
        return int(part) + (1 << 64)
    if not WORD_FORM.fullmatch(part) or int(part) >= 1 << 64:
        raise CallRefused(f"V1 line {line}", 4)
    return int(part)


def read_schedule(data: bytes) -> list[int]:
    """The links of all lines."""
    known = {str(one).encode(): one for one in LINKS}
    lines, whole = lines_of(data)
    schedule = []
    for number, line in enumerate(lines, 1):
        if line not in known or (number == len(lines) and not whole):
            raise CallRefused(f"S1 line {number}", 6)
        schedule.append(known[line])
    return schedule


def write_schedule(delivered: list[int]) -> bytes:
    return "".join(f"{one}\n" for one in delivered).encode()


def write_opened(report: Report) -> bytes:
    return "".join(line + "\n" for line in report.open_lines()).encode()


def write_published(report: Report) -> bytes:
    """The lines of what is handed over."""
    return "".join(event.line() + "\n" for event in report.handed()).encode()


def write_client_view(report: Report, given: list[list[list[int]]]) -> bytes:
    """The client's view; `given` has the three miners' shares of each value that is handed over."""
    lines, shares = ["client"], iter(given)
    for event in report.events:
        lines += from_lines(event, next(shares)) if event.handed else []
        lines.append(event.line())
    lines.append(report.end_line())
    return "".join(line + "\n" for line in lines).encode()


def from_lines(event: Event, shares: list[list[int]]) -> list[str]:
    return [words_line(f"from {miner} {event.name}", shares[miner]) for miner in (1, 2, 3)]


def write_view(miner: int, inputs: list[Input], shares, drawn, delivered, messages, report: Report) -> bytes:
    """A miner's view; `shares` has its words of each private input, `messages` those of each link in order."""
    lines = [f"view {miner}"]
    if report.inputs_dealt:
        private = [entry for entry in inputs if entry.type.private]
        lines += [words_line(f"in {entry.name}", words) for entry, words in zip(private, shares)]
    lines.append(words_line("drew", drawn))
    taken = dict.fromkeys(LINKS, 0)
    for one in delivered:
        if one % 10 == miner:
            lines.append(words_line(f"got {one}", messages[one][taken[one]]))
        taken[one] += 1
    lines += report.open_lines()
    lines.append(report.end_line())
    return "".join(line + "\n" for line in lines).encode()


def words_line(head: str, words: list[int]) -> str:
    return " ".join([head, *map(str, words)])
