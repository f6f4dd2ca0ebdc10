"""What three hosts wait for, and what goes over their links: the scripts of gates, played through block by block with no time for computing."""
from __future__ import annotations

from collections import deque
from dataclasses import dataclass
from functools import lru_cache

from clear import Input, ValueType
from gates import INTERACTIVE, Gate, GateList, Kind, Ring, blocks_of
from joint import LINKS, JointRun
from network import protocol_script
from tree import Data
from wire import HEADER_SIZE

MINERS = (1, 2, 3)
WORD_SIZE = 8
TWO_OPERANDS = {Kind.MULTIPLY}
ENOUGH = 16


@dataclass(frozen=True)
class Act:
    """A send or a receive of a miner in one block, with the words that its message has for each element."""

    sends: bool
    link: int
    words: int


@dataclass
class Traffic:
    """What is sent one way over a link: messages, and words in them."""

    messages: int = 0
    words: int = 0

    @property
    def size(self) -> int:
        """The bytes of the frames; those of the hello before them are left out."""
        return HEADER_SIZE * self.messages + WORD_SIZE * self.words


def lengths_of(kind: Kind) -> dict[int, list[int]]:
    """The words of each message that a block of one element sends on each link, as three joint miners send them."""
    made = GateList()
    made.make(Kind.INPUT, (), 1, Ring.ADDITIVE, (0,))
    made.make(kind, (0, 0) if kind in TWO_OPERANDS else (0,), 1, Ring.ADDITIVE, (0,))
    entry = Input("x", ValueType(True, Data.NUMBER, True), (0,))
    sent = JointRun(made.gates, [entry], [[0] * ENOUGH] * 4).messages
    return {one: [len(message) for message in sent[one]] for one in LINKS}


@lru_cache(maxsize=None)
def acts_of(kind: Kind) -> dict[int, list[Act]]:
    """The three scripts of a block."""
    found = {}
    for miner in MINERS:
        left = {one: iter(lengths) for one, lengths in lengths_of(kind).items()}
        found[miner] = [Act(step.sends, step.link, next(left[step.link])) for step in protocol_script(kind, miner)]
    return found


def sends_of(kind: Kind) -> list[Act]:
    """What the three miners send in one block."""
    return [act for acts in acts_of(kind).values() for act in acts if act.sends]


def messages_of(gate: Gate) -> int:
    """How many messages a gate takes."""
    return len(sends_of(gate.kind)) * len(blocks_of(gate.size)) if gate.kind in INTERACTIVE else 0


def traffic_of(gates: list[Gate]) -> dict[int, Traffic]:
    """What these gates send on each link."""
    found = {one: Traffic() for one in LINKS}
    for gate in gates:
        if gate.kind in INTERACTIVE:
            add_traffic(gate, found)
    return found


def add_traffic(gate: Gate, found: dict[int, Traffic]):
    blocks = len(blocks_of(gate.size))
    for act in sends_of(gate.kind):
        found[act.link].messages += blocks
        found[act.link].words += act.words * gate.size


class Play:
    """The clocks of three miners while gates are played through, and until when each link is taken up by what was sent on it. A message takes `of_byte` for
    each of its bytes, one after another on its link, and `delay` for its way; computing takes no time. Any unit of time will do."""

    def __init__(self, delay, of_byte=0):
        self.delay, self.of_byte = delay, of_byte
        self.now = dict.fromkeys(MINERS, 0)
        self.taken_until = dict.fromkeys(LINKS, 0)

    def end(self):
        """When the last miner is through."""
        return max(self.now.values())

    def gate(self, gate: Gate):
        if gate.kind in INTERACTIVE:
            for begin, end in blocks_of(gate.size):
                self.block(gate.kind, end - begin)

    def block(self, kind: Kind, size: int):
        """The three scripts of a block of so many elements; each message is received in the block in which it is sent."""
        arriving = {one: deque() for one in LINKS}
        left = {miner: deque(acts) for miner, acts in acts_of(kind).items()}
        while any(left.values()):
            for miner in MINERS:
                self.go_on(miner, left[miner], arriving, size)

    def go_on(self, miner: int, acts: deque, arriving: dict[int, deque], size: int):
        """Plays a miner's acts up to the first message that isn't sent yet."""
        while acts and (acts[0].sends or arriving[acts[0].link]):
            act = acts.popleft()
            if act.sends:
                arriving[act.link].append(self.arrival(miner, act, size))
            else:
                self.now[miner] = max(self.now[miner], arriving[act.link].popleft())

    def arrival(self, miner: int, act: Act, size: int):
        """When a message that this miner sends now has come whole."""
        begins = max(self.now[miner], self.taken_until[act.link])
        self.taken_until[act.link] = begins + self.of_byte * (HEADER_SIZE + WORD_SIZE * act.words * size)
        return self.taken_until[act.link] + self.delay


def played(gates: list[Gate], delay=1, of_byte=0):
    """When the last of three miners is through these gates; with the delay 1 and nothing for bytes, how many delays come one after another."""
    play = Play(delay, of_byte)
    for gate in gates:
        play.gate(gate)
    return play.end()
