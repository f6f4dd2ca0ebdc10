"""What miners send over links: hellos, frames, and what one of them sends and writes whose peers do their part."""
from __future__ import annotations

import hashlib
import struct
from dataclasses import dataclass

from clear import Event, Input, Report, dealer_need
from files import compact, public_entry, write_own_tape, write_share
from gates import MASK, WORD_BITS
from joint import JointRun
from network import script_of
from tree import Data

GREETING = 68


def public_text(inputs: list[Input]) -> bytes:
    """The public part of inputs, as it is written."""
    return compact({"inputs": [public_entry(entry) for entry in inputs]})


@dataclass(frozen=True)
class Hello:
    """The first bytes on a link."""

    sender: int
    receiver: int
    code: bytes
    public: bytes
    version: int = 2

    def bytes(self) -> bytes:
        return bytes([0, self.version, self.sender, self.receiver]) + self.code + self.public


def frame(words: list[int]) -> bytes:
    """A message: 1, how many words, the words."""
    return b"\x01" + struct.pack("<I", len(words)) + struct.pack(f"<{len(words)}Q", *words)


class FilledRun(JointRun):
    """A joint run on shares of which each word has all bits set that hold no truth value."""

    def deal(self, private: list[Input], before_dealing) -> list[list[list[int]]]:
        dealt = super().deal(private, before_dealing)
        for entry, shares in zip(private, dealt):
            after = len(entry.words) % WORD_BITS
            if entry.type.data is Data.TRUTH and after:
                for words in shares[1:]:
                    words[-1] |= MASK >> after << after
        return dealt


@dataclass
class Setting:
    """A run of three served miners: code, report, inputs, tapes and budget; `told` names what is published without being opened. Where it is filled, the
    share files have all bits set that stand after the last truth value."""

    code: bytes
    report: Report
    inputs: list[Input]
    tapes: list[list[int]]
    budget: int
    told: tuple[str, ...] = ()
    filled: bool = False

    def __post_init__(self):
        self.lengths = [len(tape) for tape in self.tapes]
        self.dealt = self.lengths[0] >= dealer_need(self.inputs)
        padded = [list(tape) + [0] * dealer_need(self.inputs) for tape in self.tapes]
        run = FilledRun if self.filled else JointRun
        self.joint = run(self.report.gates if self.dealt else [], self.inputs, padded)

    def share_file(self, miner: int) -> bytes:
        return write_share(self.inputs, self.joint.dealt, self.lengths, miner)

    def tape_file(self, miner: int) -> bytes:
        return write_own_tape(self.tapes[miner])

    def hello(self, sender: int, receiver: int) -> Hello:
        """The hello of one miner to another."""
        lens = " ".join(map(str, self.lengths))
        agreed = public_text(self.inputs) + f"\nbudget {self.budget} lens {lens}".encode()
        return Hello(sender, receiver, hashlib.sha256(self.code).digest(), hashlib.sha256(agreed).digest())

    def messages(self, link: int) -> list[list[int]]:
        return self.joint.messages[link]

    def frames(self, link: int, count: int | None = None) -> bytes:
        """The frames of the first messages of a link, or of all."""
        return b"".join(frame(words) for words in self.messages(link)[:count])

    def arriving(self, sender: int, receiver: int) -> bytes:
        """All that an honest peer sends."""
        return self.hello(sender, receiver).bytes() + self.frames(10 * sender + receiver)

    def sent_before(self, miner: int, received: dict[int, int]) -> dict[int, int]:
        """How many messages the miner has sent on each link once it wants one more than so many of a link."""
        taken: dict[int, int] = {}
        sent: dict[int, int] = {}
        for step in script_of(self.report.gates, miner):
            if step.sends:
                sent[step.link] = sent.get(step.link, 0) + 1
            elif taken.get(step.link, 0) == received.get(step.link, len(self.messages(step.link))):
                return sent
            else:
                taken[step.link] = taken.get(step.link, 0) + 1
        return sent

    def sent(self, miner: int, peer: int, received: dict[int, int] | None = None) -> bytes:
        """What the miner sends a peer, where it has received so many messages of a link, or all."""
        count = self.sent_before(miner, received or {}).get(10 * miner + peer, 0)
        return self.hello(miner, peer).bytes() + self.frames(10 * miner + peer, count)

    def text(self, miner: int) -> bytes:
        """What the miner writes of the run."""
        shares, lines = iter(self.joint.results), []
        for event in self.report.events:
            lines.append(self.share_line(event, next(shares)[miner]) if event.name in self.told else event.line())
        return "".join(line + "\n" for line in [*lines, self.report.end_line()]).encode()

    @staticmethod
    def share_line(event: Event, words: list[int]) -> str:
        kind = event.data.value if event.data.is_number else f"bool {len(event.words)}"
        return " ".join(["share", event.name, kind, *map(str, words)])
