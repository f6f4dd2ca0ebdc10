"""Orders of delivery: which messages are under way, and which list of links a run accepts. No word is read here."""
from __future__ import annotations

from dataclasses import dataclass

from chacha import key_stream
from gates import Gate, INTERACTIVE, Kind, blocks_of
from joint import LINKS, link, next_of, previous_of


@dataclass(frozen=True)
class Step:
    """A send or a receive of a miner's script."""

    sends: bool
    link: int


def protocol_script(kind: Kind, miner: int) -> list[Step]:
    """What a miner sends and takes in one block."""
    to_next, from_previous = Step(True, link(miner, next_of(miner))), Step(False, link(previous_of(miner), miner))
    to_previous, from_next = Step(True, link(miner, previous_of(miner))), Step(False, link(next_of(miner), miner))
    if kind is Kind.MULTIPLY:
        return [to_next, from_previous, to_next, from_previous]
    if kind is Kind.OPEN:
        return [to_next, from_previous, to_next, to_previous, from_previous, from_next]
    if kind is Kind.RESULT:
        return [to_next, from_previous]
    if kind is Kind.SPLIT:
        return {1: [Step(True, 12), Step(True, 13)], 2: [Step(False, 12)], 3: [Step(False, 13)]}[miner]
    return {
        1: [Step(True, 12), Step(True, 13), Step(False, 31)],
        2: [Step(False, 12), Step(True, 23), Step(False, 32)],
        3: [Step(True, 31), Step(False, 13), Step(True, 32), Step(False, 23)],
    }[miner]


def script_of(gates: list[Gate], miner: int) -> list[Step]:
    """A miner's script of a whole run."""
    steps = []
    for gate in gates:
        if gate.kind in INTERACTIVE:
            for _ in blocks_of(gate.size):
                steps += protocol_script(gate.kind, miner)
    return steps


@dataclass(frozen=True)
class Outcome:
    """The links delivered, and the refusal where there is one."""

    delivered: list[int]
    refusal: str | None = None


class Network:
    """Three scripts, and the counts of messages sent, delivered and taken on each link."""

    def __init__(self, gates: list[Gate]):
        self.scripts = {miner: script_of(gates, miner) for miner in (1, 2, 3)}
        self.places = {1: 0, 2: 0, 3: 0}
        self.sent = dict.fromkeys(LINKS, 0)
        self.arrived = dict.fromkeys(LINKS, 0)
        self.taken = dict.fromkeys(LINKS, 0)
        self.delivered: list[int] = []
        for miner in (1, 2, 3):
            self.go_on(miner)

    def go_on(self, miner: int):
        """Runs a miner to its next wait."""
        script = self.scripts[miner]
        while self.places[miner] < len(script):
            step = script[self.places[miner]]
            if step.sends:
                self.sent[step.link] += 1
            elif self.taken[step.link] < self.arrived[step.link]:
                self.taken[step.link] += 1
            else:
                return
            self.places[miner] += 1

    def under_way(self) -> list[int]:
        return [one for one in LINKS if self.arrived[one] < self.sent[one]]

    def deliver(self, one: int) -> bool:
        if self.arrived[one] == self.sent[one]:
            return False
        self.arrived[one] += 1
        self.delivered.append(one)
        self.go_on(one % 10)
        return True

    def stalled(self) -> str | None:
        for miner in (1, 2, 3):
            if self.places[miner] < len(self.scripts[miner]):
                return f"S3 miner {miner} link {self.scripts[miner][self.places[miner]].link}"
        return None


def default_delivery(gates: list[Gate]) -> Outcome:
    """Always the first link with a message."""
    network = Network(gates)
    while links := network.under_way():
        network.deliver(links[0])
    return Outcome(network.delivered, network.stalled())


def shuffled_delivery(gates: list[Gate], seed: bytes) -> Outcome:
    """The links that the seed's words choose."""
    network = Network(gates)
    words = key_stream(seed, 4)
    while links := network.under_way():
        network.deliver(links[next(words) % len(links)])
    return Outcome(network.delivered, network.stalled())


def listed_delivery(gates: list[Gate], schedule: list[int]) -> Outcome:
    """The links of a schedule."""
    network = Network(gates)
    for entry, one in enumerate(schedule):
        if not network.deliver(one):
            return Outcome(network.delivered, f"S2 entry {entry} link {one} sent {network.sent[one]}")
    return Outcome(network.delivered, network.stalled())


def random_delivery(gates: list[Gate], random) -> list[int]:
    """A complete schedule that is chosen at random, with a leaning to some links."""
    network = Network(gates)
    leaning = {one: random.choice((1, 1, 4, 30)) for one in LINKS}
    while links := network.under_way():
        network.deliver(random.choices(links, [leaning[one] for one in links])[0])
    return network.delivered
