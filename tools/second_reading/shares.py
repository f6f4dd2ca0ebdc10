"""A miner's share files: read, and put end to end."""
from __future__ import annotations

from dataclasses import dataclass

from entries import EntryFault, EntryReader
from files import compact, public_entry
from gates import words_for
from json_text import WORD_BOUND, NoJson, json_value
from refusals import CallRefused


@dataclass(frozen=True)
class ShareFile:
    """The entries, as they are written again, the lengths of the four tapes, and the miner."""

    entries: tuple[dict, ...]
    lengths: tuple[int, ...]
    miner: int


def is_words(value, count: int) -> bool:
    return isinstance(value, list) and len(value) == count and all(type(one) is int for one in value)


def share_words(reader: EntryReader, kind: str) -> tuple[bool, int, list[int]]:
    """Of a private entry whether it is an array, its elements, and its words, of truth values one for 64; the shape is tested first, and the limit
    after the words."""
    shape = reader.fields.get("shape")
    array = type(shape) is int
    if not array and shape != "scalar":
        raise reader.bad("shape")
    count, words = shape if array else 1, reader.fields.get("share")
    if not is_words(words, words_for(count) if kind == "bool" else count):
        raise reader.bad("share")
    reader.count(count)
    return array, count, words


def read_entry(reader: EntryReader, taken: set[str]) -> dict:
    """An entry of a share file: a public one as in an input file, a private one with its shape and its share."""
    if reader.fields.get("domain") != "private":
        return public_entry(reader.read(taken, False))
    name = reader.name(taken)
    kind = reader.one_of("type", ("uint64", "int64", "bool"))
    array, count, words = share_words(reader, kind)
    return {"name": name, "domain": "private", "type": kind, "shape": count if array else "scalar", "share": words}


def entries_of(entries: list) -> tuple[dict, ...]:
    found: list[dict] = []
    taken: set[str] = set()
    for number, entry in enumerate(entries):
        found.append(read_entry(EntryReader(entry, number), taken))
        taken.add(found[-1]["name"])
    return tuple(found)


def read_share(data: bytes, miner: int) -> ShareFile:
    """The share file of a miner; `lens` and `miner` are tested after the entries."""
    try:
        whole = json_value(data)
        fields = whole if isinstance(whole, dict) else {}
        if not isinstance(fields.get("inputs"), list):
            raise EntryFault("I2 inputs")
        entries = entries_of(fields["inputs"])
        if not is_words(fields.get("lens"), 4):
            raise EntryFault("I2 lens")
        if type(fields.get("miner")) is not int or fields["miner"] != miner:
            raise EntryFault("I2 miner")
        return ShareFile(entries, tuple(fields["lens"]), miner)
    except NoJson:
        raise CallRefused("I1", 4) from None
    except EntryFault as fault:
        raise CallRefused(str(fault), 4) from None


def gathered(shares: list[ShareFile]) -> bytes:
    """One file of all: a name that stands twice is told before lengths that don't go together."""
    entries, names = [entry for share in shares for entry in share.entries], set()
    for entry in entries:
        if entry["name"] in names:
            raise CallRefused(f"G1 {entry['name']}", 4)
        names.add(entry["name"])
    dealer, *miners = shares[0].lengths
    for place, share in enumerate(shares[1:], 1):
        dealer += share.lengths[0]
        if list(share.lengths[1:]) != miners or dealer >= WORD_BOUND:
            raise CallRefused(f"G2 file {place}", 4)
    return compact({"inputs": entries, "lens": [dealer, *miners], "miner": shares[0].miner})
