"""What a run takes, told before it: gates by kind, words of the tapes, messages and bytes of each link, and how many delays come one after another. The second
reading evaluates the program, and plays the scripts of its gates through."""
from __future__ import annotations

import argparse
from dataclasses import dataclass, field

from . import opens
from .findings import spot_at
from .reading import clear, gates, rounds, tree, verdict

MILLISECOND = 1e-3
BITS = 8e-6
SETTINGS = ((1.0, 1000.0), (20.0, 100.0))
MOST_PLACES = 3
LOCAL = "local gates, which send nothing"
KINDS = {
    (gates.Kind.MULTIPLY, gates.Ring.ADDITIVE): "products of numbers",
    (gates.Kind.MULTIPLY, gates.Ring.BITWISE): "conjunctions of bits",
    gates.Kind.SPLIT: "splittings",
    gates.Kind.CONVERT: "conversions of truth values",
    gates.Kind.OPEN: "openings",
    gates.Kind.RESULT: "private publishes",
}


def positive(text: str) -> float:
    """A number above 0, with decimals or none."""
    try:
        found = float(text)
    except ValueError:
        found = 0.0
    if not 0 < found < float("inf"):
        raise argparse.ArgumentTypeError(f"{text!r} is no number above 0")
    return found


def add_options(parser: argparse.ArgumentParser):
    """The options of a call that asks for a cost."""
    parser.add_argument("--cost", action="store_true", help="run nothing; tell what a run takes, and how long miners wait for messages")
    parser.add_argument("--delay", metavar="MS", type=positive, help="with --cost: milliseconds that a message takes one way")
    parser.add_argument("--bandwidth", metavar="MBIT", type=positive, help="with --cost: Mbit a second of each link, each way")


def settings_of(words) -> tuple[tuple[float, float], ...]:
    """The delays and bandwidths for which times are told: those that are given, else those of one town and of two countries."""
    if words.delay is None and words.bandwidth is None:
        return SETTINGS
    return ((SETTINGS[0][0] if words.delay is None else words.delay, SETTINGS[0][1] if words.bandwidth is None else words.bandwidth),)


@dataclass
class Share:
    """What a part of the gates takes: how many they are, the words of their values, messages, words that miner 1 draws, and delays."""

    gates: int = 0
    size: int = 0
    messages: int = 0
    words: int = 0
    delays: int = 0

    def add(self, gate, messages: int, delays: int):
        self.gates += 1
        self.size += gate.size
        self.messages += messages
        self.words += gate.drawn()[0]
        self.delays += delays


class Counted(clear.Evaluation):
    """An evaluation that notes the part of the program by which each gate is made."""

    def __init__(self, program, inputs, budget):
        super().__init__(program, inputs, budget, clear.UNBOUNDED)
        self.parts: list[tree.Node] = []
        self.makers: list[tree.Node] = []

    def expression(self, node, frame):
        self.parts.append(node)
        try:
            return super().expression(node, frame)
        finally:
            self.parts.pop()

    def statement(self, node, frame):
        self.parts.append(node)
        try:
            super().statement(node, frame)
        finally:
            self.parts.pop()

    def making(self, build):
        result = super().making(build)
        self.makers.extend(self.parts[-1:] * (len(self.made.gates) - len(self.makers)))
        return result


@dataclass
class Cost:
    """What a run takes: its end in the clear, the words of the dealer and the miners, shares by kind and by place, links, delays, and the gates."""

    end: str
    words: tuple[int, int, int, int]
    made: list
    kinds: dict[str, Share] = field(default_factory=dict)
    places: dict[tree.Node, Share] = field(default_factory=dict)
    links: dict = field(default_factory=dict)
    delays: int = 0

    def seconds(self, milliseconds: float, megabits: float) -> float:
        """How long the last miner waits where a message takes so long one way, and each link so many bits a second."""
        return rounds.played(self.made, milliseconds * MILLISECOND, BITS / megabits)

    def ended(self) -> bool:
        return self.end.startswith("end done ")


def kind_of(gate) -> str:
    return KINDS.get(gate.kind) or KINDS[gate.kind, gate.ring]


def cost_of(text: bytes, inputs, budget: int) -> Cost:
    """What a run of an accepted program takes on these inputs."""
    evaluation = Counted(clear.runnable_of(verdict.judge(text).program, text), inputs, budget)
    report = evaluation.report()
    found, play = Cost(report.end_line(), report.needs, report.gates), rounds.Play(1)
    found.links = rounds.traffic_of(report.gates)
    local = found.kinds.setdefault(LOCAL, Share())
    for gate, maker in zip(report.gates, evaluation.makers):
        if gate.kind not in gates.INTERACTIVE:
            local.gates += 1
            local.size += gate.size
            continue
        before = play.end()
        play.gate(gate)
        for shares, key in ((found.kinds, kind_of(gate)), (found.places, maker)):
            shares.setdefault(key, Share()).add(gate, rounds.messages_of(gate), play.end() - before)
    found.delays = play.end()
    return found


def columns(rows: list[list[str]]) -> list[str]:
    """Rows as a table: the first column on the left, the others on the right."""
    widths = [max(map(len, column)) for column in zip(*rows)]
    return ["  ".join([row[0].ljust(widths[0]), *(cell.rjust(width) for cell, width in zip(row[1:], widths[1:]))]) for row in rows]


def kind_rows(cost: Cost) -> list[list[str]]:
    names = [*KINDS.values(), LOCAL]
    rows = [[name, *map(str, (one.gates, one.size, one.messages))] for name in names if (one := cost.kinds.get(name))]
    return [["gates", "number", "words", "messages"], *rows]


def link_rows(cost: Cost) -> list[list[str]]:
    rows = [[f"from {one // 10} to {one % 10}", *map(str, (sent.messages, sent.words, sent.size))] for one, sent in cost.links.items()]
    return [["link", "messages", "words", "bytes"], *rows]


def name_of(node: tree.Node) -> str:
    """A part of the program as it is told."""
    match node:
        case tree.Binary():
            return f"`{node.operator}`"
        case tree.Call():
            return f"`{node.name}`"
        case tree.Cast():
            return f"`({node.data.value})`"
        case tree.Declassify():
            return "`declassify`"
        case tree.Publish():
            return f"`publish(\"{node.name}\", ..)`"
    return "this"


def place_lines(cost: Cost, path: str, text: bytes) -> list[str]:
    """The parts of the program from which most delays come."""
    waiting = sorted((one for one in cost.places.items() if one[1].delays), key=lambda one: -one[1].delays)
    said = []
    for node, share in waiting[:MOST_PLACES]:
        spot = spot_at(path, text, node.place)
        said += [f"{path}, line {spot.line}: {name_of(node)}: {share.delays} delays, {share.words} words of miner 1", *spot.shown()]
    return said


def time_lines(cost: Cost, settings) -> list[str]:
    return [f"waiting for messages: {cost.seconds(delay, rate):.3g} s with {delay:g} ms one way and {rate:g} Mbit/s" for delay, rate in settings]


def course_lines(text: bytes, has_shapes: bool) -> list[str]:
    """What is said where the course goes by opened values."""
    found = opens.steering(text)
    if not found:
        return []
    lines = ", ".join(str(line) for line in sorted({opens.line_of(text, site.node) for site in found}))
    of = "private values that are all zero" if has_shapes else "these inputs"
    return [f"what is opened in line {lines} steers the course, so all this is for {of}: others may take another course"]


def told(cost: Cost, path: str, text: bytes, has_shapes: bool, settings) -> str:
    """All that is told of a cost."""
    words = ", ".join(f"{name} {count}" for name, count in zip(("dealer", "miner 1", "miner 2", "miner 3"), cost.words))
    parts = [
        [f"nothing is run; in the clear it comes to `{cost.end}`", *course_lines(text, has_shapes)],
        columns(kind_rows(cost)),
        [f"words of tapes: {words}"],
        columns(link_rows(cost)),
        [f"delays, one after another: {cost.delays}", *place_lines(cost, path, text)],
        [*time_lines(cost, settings), "computing comes on top"],
    ]
    return "\n\n".join("\n".join(part) for part in parts) + "\n"
