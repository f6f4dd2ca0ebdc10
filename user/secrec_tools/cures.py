"""What to do where a job needs more words than a tape has: which part of the program draws most of them, and the recipe that fits, as the table of
`docs/recipes.md` tells it."""
from __future__ import annotations

import re
import time
from dataclasses import dataclass
from functools import lru_cache

from . import beforehand, costs, opens
from .findings import Spot, spot_at
from .manual import cells_of
from .program import TOP
from .reading import clear, tree, verdict
from .tapes import MOST

HEAD = "| most words are drawn by |"
PAGE = "docs/recipes.md"
TITLE = "When the words end"
LINK = re.compile(r"\[([^\]]*)\]\([^)]*\)")
PATIENCE = 10.0
IN_PIECES = ("all pairs of long arrays are made piece by piece: in a loop, some rows of the one against all of the other, with what is wanted added up",)
IN_PARTS = ("some of the indices at a time, in a loop or in several runs, each against the whole array",)
MANY = 16
ORDERS, EQUALITIES = ("<", "<=", ">", ">="), ("==", "!=")
SORTS, COUNTS = "comparisons, many for each element", "comparisons, few for each element"
QUESTIONS = "comparisons in questions, one after another, each opened"
PAIRS, CODES = "tests of equality of all pairs", "tests of equality, of each element"
LOOKUPS = "look-ups, each index in the whole array"
PRODUCTS, INPUTS, OTHERS = "products", "the dealer", "something else"
ROWS = (SORTS, COUNTS, QUESTIONS, PAIRS, CODES, LOOKUPS, PRODUCTS, INPUTS, OTHERS)


@dataclass(frozen=True)
class Cure:
    """What takes fewer words, and how the job is cut into several runs."""

    fewer: str
    pieces: str


class TimeIsUp(clear.Ended):
    """The evaluation has taken long enough."""

    def __init__(self):
        super().__init__(clear.End("time", 0))


class Bounded(costs.Counted):
    """An evaluation that ends after some seconds: what is counted by then shows where the words go."""

    def __init__(self, program, inputs):
        super().__init__(program, inputs, (1 << 64) - 1)
        self.until = time.monotonic() + PATIENCE

    def charge(self, amount):
        super().charge(amount)
        if time.monotonic() > self.until:
            raise TimeIsUp


@lru_cache(maxsize=1)
def cures() -> dict[str, Cure]:
    """The rows of the page's table."""
    with open(f"{TOP}/{PAGE}", encoding="utf-8") as file:
        lines = file.read().split("\n")
    start = next((number for number, line in enumerate(lines) if line.startswith(HEAD)), len(lines))
    found = {}
    for line in lines[start + 2 :]:
        if not line.startswith("|"):
            break
        drawn, fewer, pieces = (LINK.sub(r"\1", cell) for cell in cells_of(line))
        found[drawn] = Cure(fewer, pieces)
    return found


def drawing(text: bytes, inputs) -> tuple[str, tree.Node | None]:
    """What draws most of the words of a job: a row of the table, and the part of the program."""
    evaluation = Bounded(clear.runnable_of(verdict.judge(text).program, text), inputs)
    evaluation.report()
    words: dict[tree.Node, int] = {}
    sizes: dict[tree.Node, int] = {}
    for gate, maker in zip(evaluation.made.gates, evaluation.makers):
        words[maker] = words.get(maker, 0) + gate.drawn()[0]
        sizes[maker] = max(sizes.get(maker, 0), gate.size)
    if evaluation.dealer > max([0, *words.values()]):
        return INPUTS, None
    node = max(words, key=lambda one: words[one])
    longest = max((len(entry.words) for entry in inputs if entry.type.private), default=1)
    return row_of(node, text, words[node] / max(longest, 1), sizes[node] / max(longest, 1)), node


def row_of(node: tree.Node, text: bytes, words: float, size: float) -> str:
    """The row that fits a part of the program: by its operator, and by the words that it draws, and the elements it takes at once, for each input element."""
    operator = node.operator if isinstance(node, tree.Binary) else ""
    if operator in ORDERS:
        asked = any(site.again and site.use is not None for site in opens.sites(text))
        return QUESTIONS if asked else SORTS if words > MANY * 119 else COUNTS
    if operator in EQUALITIES or isinstance(node, tree.Cast):
        return PAIRS if size > 2 else CODES
    if isinstance(node, tree.Call) and node.name == "lookup":
        return LOOKUPS
    return PRODUCTS if operator in ("*", "&", "|", "&&", "||") else OTHERS


def advice(path: str, text: bytes, inputs, most: int) -> tuple[list[str], Spot | None]:
    """What is said of a job that wants more words than a tape has, and the place to which it is said."""
    row, node = drawing(text, inputs)
    cure = cures()[row]
    name = "the inputs" if node is None else f"{costs.name_of(node)} in line {opens.line_of(text, node)}"
    dealt = "most words are the dealer's: two for each number of a private input, or 64 truth values"
    said = [f"{name}: most words go there, to {row}" if node is not None else dealt]
    said += [f"what takes fewer: {cure.fewer}"] * bool(cure.fewer)
    runs = "in several runs" if row in (SORTS, QUESTIONS) else f"in {-(-most // MOST)} runs or more"
    said += [f"{runs}: {cure.pieces}"] * bool(cure.pieces)
    said.append(f"{TOP}/{PAGE}, \"{TITLE}\", has more")
    return said, None if node is None else spot_at(path, text, node.place)


def sentences(path: str, text: bytes, inputs, lengths) -> list[str]:
    """The same as lines; none where the words suffice."""
    if max(lengths) <= MOST:
        return []
    said, spot = advice(path, text, inputs, max(lengths))
    return said if spot is None else [said[0], *spot.shown(), *said[1:]]


def of_call(finding, call, lengths) -> bool:
    """Notes what to do of a call whose tapes would be too long; false where they wouldn't, or nothing can be told."""
    if not lengths or max(lengths) <= MOST:
        return False
    finding.note(f"the whole run takes {max(lengths)} words of one tape, and {MOST} is the most that a tape has")
    try:
        said, spot = advice(call.program, beforehand.accepted(call.program), beforehand.inputs_of(call.input), max(lengths))
    except (beforehand.Refused, OSError, TypeError):
        finding.note(f"{TOP}/{PAGE}, \"{TITLE}\", says how a job is cut into several runs")
        return True
    finding.note(said[0], spot)
    for one in said[1:]:
        finding.note(one)
    return True
