"""The text of a run, as `eval`, `run`, `trio` and `join` print it: what was opened, what was published, and the end."""
from __future__ import annotations

import json
import re
from dataclasses import dataclass, field

NUMBER = re.compile(r"0|-?[1-9][0-9]{0,19}")
WORD_END = 1 << 64
TRUTHS = {"true": True, "false": False}
MOST_BYTES = 1 << 28

Word = int | bool


class TextErr(Exception):
    """A text isn't that of a run that came to its end; the text says why."""


@dataclass(frozen=True)
class Published:
    """What was published at one place of the run: its name and elements."""

    name: str
    elements: tuple[Word, ...]


@dataclass
class RunText:
    """All lines of a text of a run."""

    opened: list[tuple[Word, ...]] = field(default_factory=list)
    published: list[Published] = field(default_factory=list)
    end: str = ""

    def by_name(self) -> dict[str, list[Word]]:
        """All elements that were published under each name, in the order in which they were."""
        found: dict[str, list[Word]] = {}
        for one in self.published:
            found.setdefault(one.name, []).extend(one.elements)
        mixed = next((name for name, elements in found.items() if len({type(one) for one in elements}) > 1), None)
        if mixed:
            raise TextErr(f"numbers and truth values are published as {mixed}")
        return found


def element(word: str) -> Word:
    if word in TRUTHS:
        return TRUTHS[word]
    if not NUMBER.fullmatch(word) or not -WORD_END // 2 <= int(word) < WORD_END:
        raise ValueError
    return int(word)


def read_run(text: str) -> RunText:
    """The text of a run, ended as it may be."""
    found = RunText()
    for number, line in enumerate(text.splitlines(), 1):
        kind, *words = line.split(" ")
        try:
            if found.end:
                raise ValueError
            if kind == "open":
                found.opened.append(tuple(map(element, words)))
            elif kind == "publish" and words:
                found.published.append(Published(words[0], tuple(map(element, words[1:]))))
            elif kind == "end" and words:
                found.end = line
            elif kind == "share":
                raise TextErr("this is the text of one miner, whose shares alone tell nothing: give those of all three")
            else:
                raise ValueError
        except ValueError:
            raise TextErr(f"line {number} is no line of the text of a run: {line[:60]!r}") from None
    return found


def read_ended(text: str) -> RunText:
    """The text of a run that came to its end."""
    found = read_run(text)
    if not found.end:
        raise TextErr("the text has no line `end ..`: it is cut off, or of --publish-only, which leaves that line out")
    if not found.end.startswith("end done "):
        raise TextErr(f"the run ended early, so it has no results: {found.end}")
    return found


def json_of(text: str, lengths: list[int], budget: int) -> str:
    """The text of a run as one object of JSON, with the words of the four tapes and the budget; numbers are from -2^63 to 2^64 - 1."""
    found = read_run(text)
    published = [{"name": one.name, "values": one.elements} for one in found.published]
    made = {"published": published, "opened": found.opened, "end": found.end.removeprefix("end "), "words": lengths, "budget": budget}
    return json.dumps(made, separators=(",", ":"))
