"""Miners' texts: read, and put together."""
from __future__ import annotations

import re
from dataclasses import dataclass
from itertools import zip_longest

from clear import shown
from gates import MASK, unpacked, words_for
from refusals import CallRefused
from tree import Data

NAME, WORD = r"[A-Za-z0-9_]{1,64}", r"(?:0|[1-9][0-9]*)"
ELEMENTS = rf"(?: {WORD}| -[1-9][0-9]*| true| false)*"
KINDS = "Length|Div|Index|Argument|Depth|Assert|Large"
TOLD = re.compile(rf"open{ELEMENTS}|publish {NAME}{ELEMENTS}")
# Of numbers their words; of truth values how many they are, and then their words.
SHARE = re.compile(rf"share ({NAME}) (?:(u?int64)|(bool) ({WORD}))((?: {WORD})*)")
END = re.compile(rf"end (?:(done)|(trap) (?:{KINDS}) line {WORD}|(budget)|(tape) [0-3] need {WORD} have {WORD}) cost {WORD}")
STATUSES = (0, 1, 7, 8)
# How large a word may be that stands after such a one.
BOUNDS = {"need": 1 << 128, "line": 1 << 32}


def is_bounded(word: str) -> bool:
    """Whether an element isn't too large; one below 0 goes down to -2^63."""
    if word.startswith("-"):
        return -int(word) <= 1 << 63
    return not word.isdigit() or int(word) < 1 << 64


def are_bounded(line: str) -> bool:
    words = line.split(" ")
    if words[0] != "end":
        # (a name may be of digits alone)
        return all(is_bounded(word) for word in words[1 if words[0] == "open" else 2 :])
    return all(not word.isdigit() or int(word) < BOUNDS.get(before, 1 << 64) for before, word in zip(words, words[1:]))


@dataclass(frozen=True)
class Share:
    """A line with a miner's share: the name, the type, how many truth values there are (None of numbers), and the words."""

    name: str
    kind: str
    count: int | None
    words: tuple[int, ...]

    def is_whole(self) -> bool:
        """Whether the words are as many as the truth values take."""
        return self.count is None or len(self.words) == words_for(self.count)

    def compared(self) -> str:
        """The line as it is compared: of the words only how many they are."""
        count = "" if self.count is None else f" {self.count}"
        return f"share {self.name} {self.kind}{count} {len(self.words)}"


def share_in(line: str) -> Share | None:
    """The share in a line, where it is one."""
    found = SHARE.fullmatch(line)
    return found and Share(found[1], found[2] or found[3], None if found[2] else int(found[4]), tuple(int(word) for word in found[5].split()))


def is_good(line: str) -> bool:
    """Whether a line is one of a miner's text."""
    share = share_in(line)
    told = share.is_whole() if share else TOLD.fullmatch(line) or END.fullmatch(line)
    return bool(told) and are_bounded(line)


def lines_of(miner: int, data: bytes) -> list[str]:
    """The lines of a miner's text; refused for the first that is wrong."""
    text = data.decode("latin-1")
    lines, ended = text.split("\n"), False
    rest = lines.pop()
    for number, line in enumerate(lines, 1):
        if ended or not is_good(line):
            raise CallRefused(f"C4 miner {miner} line {number}", 12)
        ended = END.fullmatch(line) is not None
    if rest or not ended:
        raise CallRefused(f"C4 miner {miner} line {len(lines) + 1}", 12)
    return lines


def without_words(line: str) -> str:
    """A line as it is compared."""
    share = share_in(line)
    return share.compared() if share else line


def together(three: tuple[str, str, str]) -> str:
    """The line that three make."""
    shares = [share_in(line) for line in three]
    first = shares[0]
    if not first:
        return three[0]
    columns = list(zip(*(share.words for share in shares)))
    if first.count is None:
        elements = [sum(words) & MASK for words in columns]
    else:
        elements = unpacked([x ^ y ^ z for x, y, z in columns], first.count)
    return " ".join(["publish", first.name, *shown(Data(first.kind), elements)])


def joined(parts: list[list[str]]) -> tuple[str, int]:
    """The text that three make, and the status of its end."""
    made = []
    for number, three in enumerate(zip_longest(*parts, fillvalue=""), 1):
        first, second, third = map(without_words, three)
        if first != second or first != third:
            raise CallRefused(f"C2 line {number}", 13)
        made.append(together(three))
    found = END.fullmatch(made[-1])
    return "".join(line + "\n" for line in made), STATUSES[next(place for place in range(4) if found[place + 1])]
